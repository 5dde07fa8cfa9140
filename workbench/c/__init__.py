"""The C that the workbench takes, from its text to a table. docs/C.md describes it."""
