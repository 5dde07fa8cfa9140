"""What the workbench says when it can't go on."""

REFUSED = 3
USAGE = 64


class Stop(Exception):
    """Ends the command with a message on standard error and this exit status."""

    status = REFUSED


class Usage(Stop):
    """Bad use of the command: one line."""

    status = USAGE


class Faulty(Stop):
    """C, or a text, with a fault at a place of it."""

    def __init__(self, span, message, hint=None):
        super().__init__(message)
        self.span, self.message, self.hint = span, message, hint

    def __str__(self):
        hint = f"\n  help: {self.hint}" if self.hint else ""
        return f"{self.span.shown('error: ' + self.message)}{hint}"
