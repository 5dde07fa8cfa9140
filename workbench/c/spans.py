"""Where each part of pycparser's tree stands in the text. The tree's leaves and operators come in the order of the tokens, so a walk along both
tells the stretch of every expression. Round brackets that only group are not in the tree; the walk passes over them."""

from .parse import INT_NAMES

OPEN, CLOSE = "([{", ")]}"
TAGGED = ("struct", "union", "enum")
TYPE_STARTS = {"int", "unsigned", "signed", "void", "char", "short", "long", "float", "double", "const", "volatile", "_Bool"}
TYPE_STARTS.update(TAGGED, INT_NAMES)


class Lost(Exception):
    """Tree and tokens don't go together; the whole statement is then pointed at."""


def matches_of(tokens):
    """For each bracket the index of the one that belongs to it."""
    matches, opened = {}, []
    for at, token in enumerate(tokens):
        if token.text in OPEN:
            opened.append(at)
        elif token.text in CLOSE:
            matches[at] = opened.pop()
            matches[matches[at]] = at
    return matches


class Spans:
    """A walk through the tokens. `at` is the next one; the stretches found so far are looked up by `of`."""

    def __init__(self, tokens):
        self.tokens, self.matches, self.at, self.found = tokens, matches_of(tokens), 0, {}

    def text(self, at):
        return self.tokens[at].text if at < len(self.tokens) else ""

    def here(self):
        """The next token's stretch."""
        return self.tokens[min(self.at, len(self.tokens) - 1)].span

    def stretch(self, first, last):
        return self.tokens[first].span.to(self.tokens[last].span)

    def of(self, node):
        """The stretch of an expression that the walk has come by."""
        return self.found[id(node)][1]

    def statement(self, node):
        """Walks along an expression that is a statement; its stretch goes to before the semicolon. Ends after that."""
        first, last = self.at, self.end_of_item()
        self.expression_from(node, first, last - 1)
        self.at = last + 1
        return self.stretch(first, last - 1)

    def expression_from(self, node, first, last):
        """Walks along an expression between two tokens."""
        try:
            self.walk(node)
        except Lost:
            self.everywhere(node, self.stretch(first, last))

    def everywhere(self, node, span):
        """Gives an expression and all parts of it one stretch. The node is kept, so that its id stays its own."""
        self.found[id(node)] = (node, span)
        for _, child in node.children():
            self.everywhere(child, span)

    def end_of_item(self):
        """The index of the semicolon or brace that ends the declaration or statement here."""
        first = self.at
        last, self.at = self.go_to(";"), first
        return last

    def name(self, name):
        """The stretch of a declared name, the next such token that is no struct's. Ends after it."""
        while self.text(self.at) != name or self.text(self.at - 1) in TAGGED:
            if self.at >= len(self.tokens):
                raise Lost
            self.at += 1
        self.at += 1
        return self.tokens[self.at - 1].span

    def go_to(self, *texts):
        """Goes on to the next of these tokens that stands in no brackets of its own."""
        while self.text(self.at) not in (*texts, ""):
            self.at = self.matches[self.at] + 1 if self.text(self.at) in OPEN else self.at + 1
        return self.at

    def end_of_declarator(self):
        """Goes on to what follows a declared name and its brackets."""
        self.go_to(",", "=", ";", ")", "}")

    def go_past(self, text):
        """Ends after the next token of this text."""
        while self.text(self.at) not in (text, ""):
            self.at += 1
        self.at += 1

    def take(self, text):
        """The index of this token, which comes next but for grouping brackets. Ends after it."""
        while self.text(self.at) != text:
            if self.text(self.at) not in ("(", ")"):
                raise Lost
            self.at += 1
        self.at += 1
        return self.at - 1

    def walk(self, node):
        """The first and the last token of an expression, noted for it and all its parts."""
        step = getattr(self, "walk_" + type(node).__name__, None)
        if step is None:
            raise Lost
        first, last = step(node)
        first = min([first] + [self.matches[at] for at in range(first, last + 1) if self.text(at) == ")"])
        while self.text(last + 1) == ")" and self.matches[last + 1] >= first:
            last += 1
        self.found[id(node)] = (node, self.stretch(first, last))
        return first, last

    def walk_ID(self, node):
        at = self.take(node.name)
        return at, at

    def walk_Constant(self, node):
        at = self.take(node.value)
        return at, at

    def walk_UnaryOp(self, node):
        if node.op in ("p++", "p--"):
            first, _ = self.walk(node.expr)
            return first, self.take(node.op[1:])
        first = self.take(node.op)
        if type(node.expr).__name__ == "Typename":
            return first, self.go_past_bracket(self.at)
        return first, self.walk(node.expr)[1]

    def go_past_bracket(self, opening):
        """The index of the bracket that closes this one. Ends after it."""
        self.at = self.matches[opening] + 1
        return self.at - 1

    def walk_BinaryOp(self, node):
        first, _ = self.walk(node.left)
        self.take(node.op)
        return first, self.walk(node.right)[1]

    def walk_Assignment(self, node):
        first, _ = self.walk(node.lvalue)
        self.take(node.op)
        return first, self.walk(node.rvalue)[1]

    def walk_TernaryOp(self, node):
        first, _ = self.walk(node.cond)
        self.take("?")
        self.walk(node.iftrue)
        self.take(":")
        return first, self.walk(node.iffalse)[1]

    def walk_ExprList(self, node):
        extents = []
        for part in node.exprs:
            if extents:
                self.take(",")
            extents.append(self.walk(part))
        return extents[0][0], extents[-1][1]

    def walk_ArrayRef(self, node):
        first, _ = self.walk(node.name)
        self.take("[")
        self.walk(node.subscript)
        return first, self.take("]")

    def walk_StructRef(self, node):
        first, _ = self.walk(node.name)
        self.take(node.type)
        return first, self.take(node.field.name)

    def walk_FuncCall(self, node):
        first, _ = self.walk(node.name)
        while self.text(self.at) == ")":
            self.at += 1
        opening = self.take("(")
        if node.args is not None:
            self.walk(node.args)
        return first, self.go_past_bracket(opening)

    def walk_Cast(self, node):
        while self.text(self.at) == "(" and self.text(self.at + 1) not in TYPE_STARTS:
            self.at += 1
        first = self.at
        if self.text(first) != "(":
            raise Lost
        self.go_past_bracket(first)
        return first, self.walk(node.expr)[1]
