"""Declarations: structs, their fields and variables."""

from ..errors import Faulty
from ..table import FIELD_WORDS
from .parse import INT_NAMES
from .types import INT, VOID, Array, Int, Member, Pointer, Record, Void

INTS = {"int", "unsigned", "signed", "unsigned int", "signed int", "int unsigned", "int signed", *INT_NAMES}
NO_TYPES = {"Union": "a union", "Enum": "an enum", "FuncDecl": "a function's type"}
NO_VARIABLES = {
    Record: ("a variable of struct type", "make it a pointer, and obtain the struct by malloc or hand it in as a register"),
    Array: ("a variable of array type", "make it a pointer, and obtain the array by malloc or hand it in as a register"),
    Void: ("a variable of type void", None),
}


def kind(node):
    """The name of a part of pycparser's tree."""
    return type(node).__name__


class Declarations:
    """Reads declarations into a scope, while `spans` goes along the tokens. `constant` works out the number of a constant expression."""

    def __init__(self, scope, spans, constant):
        self.scope, self.spans, self.constant = scope, spans, constant
        self.read = []  # struct parts that were read: `struct s {..} *p, *q;` has the same part twice

    def variable(self, node):
        """Declares a variable."""
        type, span = self.declared(node)
        self.refuse_variable(type, span)
        return self.scope.declare(node.name, type, span)

    def parameter(self, node):
        """Declares a parameter: a variable, where an array is a pointer."""
        if kind(node) != "Decl" or node.name is None:
            raise Faulty(self.spans.here(), "a parameter needs a type and a name")
        if kind(node.type) == "ArrayDecl":
            self.refuse_specifiers(node)
            type = Pointer(self.type(node.type.type))
            return self.scope.declare(node.name, type, self.spans.name(node.name))
        return self.variable(node)

    def structs(self, node):
        """Reads a declaration without a name, which is there for the struct in it."""
        self.refuse_specifiers(node)
        self.type(node.type)

    def declared(self, node):
        """The type of a declaration and the stretch of its name. Ends before the comma, the semicolon or the initialiser."""
        self.refuse_specifiers(node)
        type = self.type(node.type)
        span = self.spans.name(node.name)
        self.spans.end_of_declarator()
        return type, span

    def refuse_variable(self, type, span):
        for refused, (what, hint) in NO_VARIABLES.items():
            if isinstance(type, refused):
                raise Faulty(span, f"{what} is not in the fragment", hint)

    def refuse_specifiers(self, node):
        """Storage classes, qualifiers and bit-fields say what the machine has no notion of."""
        words = [*node.storage, *node.quals, *node.funcspec]
        if words:
            raise Faulty(self.spans.here(), f"{words[0]} is not in the fragment", "leave it out")
        if getattr(node, "align", None):
            raise Faulty(self.spans.here(), "an alignment is not in the fragment", "leave it out: every word stands by itself")
        if node.bitsize is not None:
            raise Faulty(self.spans.here(), "a bit-field is not in the fragment", "a field has whole words")

    def type_at(self, node, span):
        """A type within an expression that stands here."""
        at, records = self.spans.at, len(self.scope.records)
        try:
            type = self.type(node)
        except Faulty as fault:
            raise Faulty(span, fault.message, fault.hint) from None
        if len(self.scope.records) != records:
            raise Faulty(span, "a struct that is defined within an expression is not in the fragment", "define it before the routine")
        self.spans.at = at
        return type

    def type(self, node):
        """A type from its part of the tree."""
        if getattr(node, "quals", None):
            raise Faulty(self.spans.here(), f"{node.quals[0]} is not in the fragment", "leave it out")
        reader = getattr(self, "type_" + kind(node), None)
        if reader is None:
            raise Faulty(self.spans.here(), f"{NO_TYPES.get(kind(node), kind(node))} is not in the fragment")
        return reader(node)

    def type_TypeDecl(self, node):
        return self.type(node.type)

    type_Typename = type_TypeDecl

    def type_IdentifierType(self, node):
        name = " ".join(node.names)
        if name != "void" and name not in INTS:
            raise Faulty(self.spans.here(), f"the type {name} is not in the fragment", "every number is a word: write int or unsigned")
        return VOID if name == "void" else INT

    def type_PtrDecl(self, node):
        return Pointer(self.refuse_array(self.type(node.type), "a pointer to an array", "a pointer to its element does the same"))

    def type_ArrayDecl(self, node):
        here = self.spans.here()
        element = self.refuse_array(self.type(node.type), "an array of arrays", "write one array of all its words")
        if not isinstance(element, (Int, Pointer)):
            raise Faulty(here, f"an array of {element} is not in the fragment", "an array has ints or pointers")
        return Array(element, self.length(node.dim, here))

    def length(self, tree, span):
        """An array's length, a constant number."""
        if tree is not None:
            self.spans.everywhere(tree, span)
        number = None if tree is None else self.constant(tree)
        if number is None:
            raise Faulty(span, "an array needs a constant number as its length")
        return number

    def refuse_array(self, type, what, hint):
        if isinstance(type, Array):
            raise Faulty(self.spans.here(), f"{what} is not in the fragment", hint)
        return type

    def type_Struct(self, node):
        here = self.spans.here()
        if node.name is None:
            raise Faulty(here, "a struct without a name is not in the fragment", "write a name after struct")
        record = self.scope.record(node.name, here)
        if node.decls is not None and not any(node is part for part in self.read):
            self.read.append(node)
            self.spans.go_past("{")
            self.scope.define(record, here)
            record.members = [self.member(part) for part in node.decls]
            self.refuse_same_names(record)
            self.spans.go_past("}")
        return record

    def refuse_same_names(self, record):
        seen = set()
        for member in record.members:
            if member.name in seen:
                raise Faulty(member.span, f"struct {record.tag} has two fields {member.name}")
            seen.add(member.name)

    def member(self, node):
        """A field of a struct. Ends after it."""
        if kind(node) != "Decl" or node.name is None:
            raise Faulty(self.spans.here(), "this is not in the fragment: a struct has fields with names")
        type, span = self.declared(node)
        self.scope.refuse_macro(node.name, span)
        if isinstance(type, Record):
            raise Faulty(span, "a struct within a struct is not in the fragment", "make it a pointer, or write out its fields")
        self.refuse_void(type, span)
        if not 1 <= type.size <= FIELD_WORDS:
            raise Faulty(span, f"{node.name} has {type.size} words; a field has from 1 to {FIELD_WORDS}")
        self.spans.at += 1
        return Member(node.name, type, span)

    def refuse_void(self, type, span):
        if isinstance(type, Void):
            raise Faulty(span, "a field of type void is not in the fragment")
