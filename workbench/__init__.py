"""The workbench: from a routine in C to a table, its check, its run and why it ended. `mavis` at the root is the command."""
