"""Expressions: from pycparser's tree to trees of the table's nodes, each with its C type and its stretch of text."""

from dataclasses import dataclass

from ..errors import Faulty
from ..source import Span
from ..table import ADDRESS, CAST, CONSTANT, COPY, DEREF, FIELD, MALLOC, READ, SIZE, SUM, VARIABLE, WORD
from ..wording import article
from .declarations import kind
from .numbers import OPERATORS, number_of, written
from .types import INT, VOID_POINTER, Array, Int, Pointer, Record, Void

COMPARISONS = ("==", "!=", "<", ">", "<=", ">=", "&&", "||")
NO_EXPRESSIONS = {
    "TernaryOp": ("a choice by ? and :", None),
    "ExprList": ("a comma between expressions", "write two statements"),
    "Assignment": ("an assignment within an expression", "write it as a statement of its own"),
    "CompoundLiteral": ("a literal of struct or array type", "assign the fields one by one"),
    "InitList": ("a list of initial values", "assign them one by one"),
    "StructRef": ("this access to a field", None),
}


@dataclass
class Node:
    """A node of the table before it has a number: its operands are nodes, C types or words. A kind of None is a whole struct, which is no node:
    it is reached by the pointer `a`, and its fields and its address can be used. A copy has two such structs as its operands."""

    kind: int
    a: object
    b: object
    type: object
    span: Span

    def has_malloc(self):
        return self.kind == MALLOC or any(isinstance(part, Node) and part.has_malloc() for part in (self.a, self.b))


class Expressions:
    """Translates expressions, with the names of a scope."""

    def __init__(self, scope, spans, declarations):
        self.scope, self.spans, self.declarations = scope, spans, declarations

    # Places

    def place(self, tree):
        """What can stand left of an equals sign, or whose address can be taken; a whole array or struct too."""
        maker = getattr(self, "place_" + kind(tree), None)
        if maker is None or (kind(tree) == "UnaryOp" and tree.op != "*"):
            raise Faulty(self.spans.of(tree), f"`{self.spans.of(tree).text}` is a value, and a place in memory is wanted here")
        return maker(tree)

    def place_ID(self, tree):
        span = self.spans.of(tree)
        variable = self.scope.variable(tree.name, span)
        return Node(VARIABLE, variable.number, 0, variable.type, span)

    def place_UnaryOp(self, tree):
        return self.followed(self.value(tree.expr), self.spans.of(tree))

    def place_ArrayRef(self, tree):
        return self.followed(self.element(tree), self.spans.of(tree))

    def place_StructRef(self, tree):
        span = self.spans.of(tree)
        if tree.type == "->":
            pointer = self.value(tree.name)
        else:
            struct = self.place(tree.name)
            if struct.kind is not None:
                raise Faulty(span, f"`{struct.span.text}` is {article(str(struct.type))}, and `.` wants a struct", self.arrow_hint(struct))
            pointer = struct.a
        return self.field(pointer, tree.field.name, span)

    def arrow_hint(self, struct):
        to_struct = isinstance(struct.type, Pointer) and isinstance(struct.type.target, Record)
        return "write -> for a pointer" if to_struct else None

    def field(self, pointer, name, span):
        """A field of the struct that a pointer points to."""
        record = pointer.type.target if isinstance(pointer.type, Pointer) else None
        if not isinstance(record, Record):
            raise Faulty(span, f"`{pointer.span.text}` is {article(str(pointer.type))}, and no pointer to a struct")
        for number, member in enumerate(self.members(record, span)):
            if member.name == name:
                return Node(FIELD, pointer, number, member.type, span)
        raise Faulty(span, f"struct {record.tag} has no field {name}")

    def members(self, record, span):
        if record.members is None:
            raise Faulty(span, f"struct {record.tag} is not defined at this point")
        return record.members

    def followed(self, pointer, span):
        """What a pointer points to."""
        if not isinstance(pointer.type, Pointer):
            raise Faulty(span, f"`{pointer.span.text}` is {article(str(pointer.type))}, and only a pointer can be followed")
        target = pointer.type.target
        if isinstance(target, Void):
            raise Faulty(span, f"`{pointer.span.text}` is a void *, which can't be followed", "cast it first: *(int *)..")
        if pointer.kind == ADDRESS:  # `*&x` is x, and `*p->a` the first word of an array, which is the field's own place
            return Node(pointer.a.kind, pointer.a.a, pointer.a.b, target, span)
        return Node(None if isinstance(target, Record) else DEREF, pointer, 0, target, span)

    def element(self, tree):
        """The pointer that an index makes: `a[i]` is `*(a + i)`, and `a[0]` is `*a`."""
        span = self.spans.of(tree)
        base, index = self.value(tree.name), self.value(tree.subscript)
        if isinstance(base.type, Pointer) and (index.kind, index.a) == (CONSTANT, 0):
            return base
        return self.added(base, index, span)

    # Values

    def value(self, tree):
        """A value: of a place what stands there, of an array the address of its first word."""
        maker = getattr(self, "value_" + kind(tree), None)
        if maker is None:
            what, hint = NO_EXPRESSIONS.get(kind(tree), (f"this ({kind(tree)})", None))
            raise Faulty(self.spans.of(tree), f"{what} is not in the fragment", hint)
        return maker(tree)

    def value_ID(self, tree):
        if tree.name == "NULL" and "NULL" not in self.scope.variables:
            span = self.spans.of(tree)
            return Node(CAST, Node(CONSTANT, 0, 0, INT, span), VOID_POINTER, VOID_POINTER, span)
        return self.read(self.place(tree))

    def value_ArrayRef(self, tree):
        return self.read(self.place(tree))

    value_StructRef = value_ArrayRef

    def read(self, place):
        if place.kind is None:
            message = "a whole struct as a value is not in the fragment, but where it is assigned to a struct"
            raise Faulty(place.span, message, "use its fields one by one")
        if isinstance(place.type, Array):
            return Node(ADDRESS, place, 0, Pointer(place.type.element), place.span)
        return Node(READ, place, 0, place.type, place.span)

    def value_Constant(self, tree):
        span = self.spans.of(tree)
        return Node(CONSTANT, number_of(tree, span), 0, INT, span)

    def value_Cast(self, tree):
        span, value = self.spans.of(tree), self.value(tree.expr)
        type = self.declarations.type_at(tree.to_type, span)
        if not isinstance(type, (Int, Pointer)):
            raise Faulty(span, f"a cast to {type} is not in the fragment")
        return Node(CAST, value, type, type, span)

    def value_FuncCall(self, tree):
        span, name = self.spans.of(tree), getattr(tree.name, "name", None)
        if name != "malloc":
            raise Faulty(span, "a call is not in the fragment, but for malloc", "write its statements here")
        arguments = tree.args.exprs if tree.args else []
        if len(arguments) != 1:
            raise Faulty(span, "malloc takes one number of words")
        return Node(MALLOC, self.integer(arguments[0], "malloc takes a number of words"), 0, VOID_POINTER, span)

    def integer(self, tree, wanted):
        """A value that has to be an int."""
        value = self.value(tree)
        if value.type != INT:
            raise Faulty(value.span, f"`{value.span.text}` is {article(str(value.type))}: {wanted}")
        return value

    def value_UnaryOp(self, tree):
        span = self.spans.of(tree)
        if tree.op == "*":
            return self.read(self.place(tree))
        if tree.op == "&":
            return self.address(self.place(tree.expr), span)
        if tree.op == "sizeof":
            return self.size(tree, span)
        if tree.op == "+":
            return self.integer(tree.expr, "+ takes an int")
        if tree.op == "-":
            return Node(CONSTANT, self.number(tree, "the negative of a variable") % WORD, 0, INT, span)
        if tree.op in ("++", "--", "p++", "p--"):
            raise Faulty(span, f"{tree.op.lstrip('p')} within an expression is not in the fragment", "write it as a statement of its own")
        raise Faulty(span, f"{tree.op} is not in the fragment", self.hint_of_number(tree))

    def address(self, place, span):
        """The address of a place. That of a struct is the pointer by which it is reached."""
        if place.kind is None:
            return place.a
        if isinstance(place.type, Array):
            name = place.span.text
            raise Faulty(span, "the address of an array is not in the fragment", f"{name} alone is the address of its first word")
        return Node(ADDRESS, place, 0, Pointer(place.type), span)

    def size(self, tree, span):
        """The size of a type, or of an expression's type; that of an array is a number."""
        type = self.declarations.type_at(tree.expr, span) if kind(tree.expr) == "Typename" else self.type_of(tree.expr)
        if isinstance(type, Record):
            self.members(type, span)
        if isinstance(type, Void):
            raise Faulty(span, "void has no size")
        return Node(CONSTANT, type.size, 0, INT, span) if isinstance(type, Array) else Node(SIZE, type, 0, INT, span)

    def type_of(self, tree):
        """The type of an expression that is not evaluated."""
        return self.place(tree).type if self.is_place(tree) else self.value(tree).type

    def is_place(self, tree):
        """Whether an expression is written as a place is."""
        is_place = kind(tree) in ("ID", "ArrayRef", "StructRef") or (kind(tree) == "UnaryOp" and tree.op == "*")
        return is_place and getattr(tree, "name", "") != "NULL"

    # Whole structs

    def copied(self, struct, tree, span):
        """A struct that gets all words of another one, which an expression stands for. The value is their number."""
        self.members(struct.type, struct.span)
        source = self.struct_or_value(tree)
        if source.type is not struct.type:
            text, wanted = source.span.text, article(str(struct.type))
            hint = self.struct_hint(source.type, struct.type)
            raise Faulty(source.span, f"`{text}` is {article(str(source.type))}, and {wanted} is wanted", hint)
        return Node(COPY, struct, source, INT, span)

    def struct_or_value(self, tree):
        """What an expression stands for at the right of a struct."""
        place = self.place(tree) if self.is_place(tree) else None
        if place is None:
            return self.value(tree)
        return place if place.kind is None else self.read(place)

    def struct_hint(self, type, wanted):
        """How a struct is reached from a value of another type."""
        if type == Pointer(wanted):
            return "follow it: *.."
        return f"cast its pointer: *({wanted} *).." if isinstance(type, Record) else None

    def value_BinaryOp(self, tree):
        span = self.spans.of(tree)
        if tree.op == "+":
            return self.added(self.value(tree.left), self.value(tree.right), span)
        if tree.op == "-":
            return self.subtracted(self.value(tree.left), tree.right, span)
        if tree.op in COMPARISONS:
            raise Faulty(span, f"a comparison by {tree.op} is not in the fragment")
        raise Faulty(span, f"{tree.op} between two values is not in the fragment", self.hint_of_number(tree))

    def added(self, left, right, span):
        """A sum; the pointer, if there is one, is the first operand of the table's sum."""
        if isinstance(right.type, Pointer) and left.type == INT:
            left, right = right, left
        if right.type != INT:
            raise Faulty(span, "two pointers can't be added")
        return Node(SUM, left, right, left.type, span)

    def subtracted(self, left, tree, span):
        """A difference: the negative number is added."""
        if self.type_of(tree) != INT:
            raise Faulty(span, "the difference of two pointers is not in the fragment")
        number = self.number(tree, "a difference of variables")
        return Node(SUM, left, Node(CONSTANT, -number % WORD, 0, INT, self.spans.of(tree)), left.type, span)

    # Constants

    def number(self, tree, what):
        """The number of an expression that has to be constant."""
        number = self.constant(tree)
        if number is None:
            raise Faulty(self.spans.of(tree), f"{what} is not in the fragment: constants alone are subtracted")
        return number

    def constant(self, tree, operators=("+", "-")):
        """The number that an expression of numbers and sizes is, modulo nothing; None for any other expression."""
        if kind(tree) == "Constant":
            return number_of(tree, self.spans.of(tree))
        if kind(tree) == "Cast":
            is_int = self.declarations.type_at(tree.to_type, self.spans.of(tree)) == INT
            return self.constant(tree.expr, operators) if is_int else None
        if kind(tree) == "UnaryOp" and tree.op == "sizeof":
            return self.constant_size(tree)
        if kind(tree) == "UnaryOp" and tree.op in ("+", "-"):
            number = self.constant(tree.expr, operators)
            return number if number is None or tree.op == "+" else -number
        if kind(tree) != "BinaryOp" or tree.op not in operators:
            return None
        left, right = self.constant(tree.left, operators), self.constant(tree.right, operators)
        return None if left is None or right is None else OPERATORS[tree.op](left, right)

    def constant_size(self, tree):
        node = self.size(tree, self.spans.of(tree))
        return node.a if node.kind == CONSTANT else node.a.size

    def hint_of_number(self, tree):
        """What to write for an expression of numbers with other operators."""
        number = self.constant(tree, tuple(OPERATORS))
        return None if number is None else f"write the number: {written(number)}"

    # Conversions

    def converted(self, value, type, tree):
        """A value as a place of this type takes it: C converts from and to void *, and 0 to a pointer; a cast node says so in the table."""
        if value.type == type:
            return value
        to_pointer = isinstance(type, Pointer)
        by_void = to_pointer and isinstance(value.type, Pointer) and VOID_POINTER in (type, value.type)
        if by_void or (to_pointer and self.constant(tree) == 0):
            return Node(CAST, value, type, type, value.span)
        hint = f"write a cast: ({type})" if isinstance(value.type, (Int, Pointer)) else None
        raise Faulty(value.span, f"`{value.span.text}` is {article(str(value.type))}, and {article(str(type))} is wanted", hint)
