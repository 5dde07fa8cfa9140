"""The text as a whole: declarations, then the routine's statements, each of which is a command of the table."""

from dataclasses import dataclass

from ..errors import Faulty
from ..names import COPIED
from ..source import Span
from ..table import CONSTANT, SUM, VARIABLE, WORD
from .declarations import Declarations, kind
from .expressions import Expressions, Node
from .scope import Scope
from .spans import Spans
from .types import INT, VOID, Array

STRAIGHT = "a routine is a straight line of assignments"
NO_STATEMENTS = {
    "If": ("if", STRAIGHT),
    "Switch": ("switch", STRAIGHT),
    "While": ("a loop", "write each round as statements of its own"),
    "DoWhile": ("a loop", "write each round as statements of its own"),
    "For": ("a loop", "write each round as statements of its own"),
    "Return": ("return", "leave it out: the routine ends after its last statement"),
    "Goto": ("goto", STRAIGHT),
    "Label": ("a label", STRAIGHT),
    "Break": ("break", STRAIGHT),
    "Continue": ("continue", STRAIGHT),
    "Compound": ("a block within the routine", "write its statements without the braces"),
    "Typedef": ("typedef", "write the type out where it is used"),
    "Pragma": ("a pragma", "leave it out"),
    "StaticAssert": ("an assertion", "leave it out"),
}
STEPS = {"++": 1, "p++": 1, "--": -1, "p--": -1}


@dataclass
class Command:
    """An assignment."""

    place: Node
    value: Node
    span: Span


class Reader:
    """Reads a C text: its scope and its commands."""

    def __init__(self, source, items, tokens):
        self.source, self.items = source, items
        self.scope, self.spans = Scope(), Spans(tokens)
        self.declarations = Declarations(self.scope, self.spans, lambda tree: self.expressions.constant(tree))
        self.expressions = Expressions(self.scope, self.spans, self.declarations)
        self.commands, self.copies, self.function = [], [], None

    def read(self):
        for item in self.items:
            self.item(item)
        if self.function is None:
            end = len(self.source.text.rstrip())
            raise Faulty(Span(self.source, end, end + 1), "there is no routine: a function void NAME(..) is wanted")
        self.scope.refuse_undefined()
        self.number_copies()
        return self

    def item(self, item):
        """A declaration at file scope, or the function."""
        if kind(item) == "FuncDef":
            self.routine(item)
        elif kind(item) != "Decl":
            self.refuse(item)
        elif kind(item.type) == "FuncDecl":
            raise Faulty(self.spans.here(), "a function's declaration is not in the fragment", "leave it out: malloc is known")
        else:
            self.declaration(item, at_file_scope=True)

    def refuse(self, item):
        what, hint = NO_STATEMENTS.get(kind(item), (f"this ({kind(item)})", None))
        raise Faulty(self.spans.here(), f"{what} is not in the fragment", hint)

    def declaration(self, item, at_file_scope=False):
        """A declaration; in the routine an initial value is an assignment. Ends after its comma or semicolon."""
        if item.name is None:
            self.declarations.structs(item)
            self.spans.at = self.spans.end_of_item() + 1
            return
        variable = self.declarations.variable(item)
        if item.init is not None:
            if at_file_scope:
                raise Faulty(variable.span, "an initial value at file scope is not in the fragment", "assign it in the routine")
            self.initial(item.init, variable)
        self.spans.at += 1

    def initial(self, tree, variable):
        """The assignment of an initial value."""
        self.spans.take("=")
        first = self.spans.at
        last, self.spans.at = self.spans.go_to(",", ";"), first
        self.spans.expression_from(tree, first, last - 1)
        self.spans.at = last
        place = Node(VARIABLE, variable.number, 0, variable.type, variable.span)
        self.assign(place, self.expressions.value(tree), tree, variable.span.to(self.spans.of(tree)))

    def routine(self, item):
        """The function: its parameters, then its statements."""
        if self.function is not None:
            raise Faulty(self.spans.here(), "a second function is not in the fragment", "a text has one routine")
        self.refuse_result(item)
        self.function = item.decl.name
        self.scope.name(self.function, self.spans.name(self.function))
        self.parameters(item.decl.type.args)
        self.spans.go_past("{")
        for statement in item.body.block_items or []:
            self.statement(statement)
        self.spans.go_past("}")

    def refuse_result(self, item):
        declaration = item.decl
        self.declarations.refuse_specifiers(declaration)
        if item.param_decls:
            raise Faulty(self.spans.here(), "parameters declared after the brackets are not in the fragment", "declare them within")
        if self.declarations.type(declaration.type.type) != VOID:
            raise Faulty(self.spans.here(), "a routine with a result is not in the fragment", f"write void {declaration.name}(..)")

    def parameters(self, args):
        """The parameters, up to after their closing bracket."""
        last = self.spans.matches[self.spans.at]
        self.spans.at += 1
        nothing = self.spans.at + 1 == last and self.spans.text(self.spans.at) == "void"
        for parameter in args.params if args and not nothing else []:
            self.declarations.parameter(parameter)
            self.spans.end_of_declarator()
            self.spans.at += 1
        self.spans.at = last + 1

    def statement(self, tree):
        """One statement. Ends after it."""
        if kind(tree) == "Decl":
            return self.declaration(tree)
        if kind(tree) == "EmptyStatement":
            self.spans.at += 1
            return None
        if kind(tree) in NO_STATEMENTS:
            return self.refuse(tree)
        span = self.spans.statement(tree)
        if kind(tree) == "Assignment":
            return self.assignment(tree, span)
        if kind(tree) == "UnaryOp" and tree.op in STEPS:
            step = Node(CONSTANT, STEPS[tree.op] % WORD, 0, INT, self.spans.of(tree))
            return self.increased(tree.expr, step, span)
        if kind(tree) in ("FuncCall", "ExprList", "TernaryOp"):
            self.expressions.value(tree)  # says what is wrong with it, unless it is a malloc
        raise Faulty(span, "this statement assigns nothing", "write an assignment")

    def assignment(self, tree, span):
        if tree.op == "=":
            place = self.expressions.place(tree.lvalue)
            if place.kind is None:
                return self.copy(place, tree.rvalue, span)
            return self.assign(place, self.expressions.value(tree.rvalue), tree.rvalue, span)
        if tree.op == "+=":
            return self.increased(tree.lvalue, self.expressions.integer(tree.rvalue, "+= takes an int"), span)
        if tree.op == "-=":
            number = self.expressions.number(tree.rvalue, "-= of a variable")
            step = Node(CONSTANT, -number % WORD, 0, INT, self.spans.of(tree.rvalue))
            return self.increased(tree.lvalue, step, span)
        raise Faulty(span, f"{tree.op} is not in the fragment", "+= and -= are")

    def increased(self, tree, step, span):
        """A place that gets its own value and a number. The place is worked out twice, which must make no difference."""
        place, again = self.expressions.place(tree), self.expressions.place(tree)
        if place.has_malloc():
            raise Faulty(place.span, "a place that obtains memory is worked out once in C", "keep the pointer in a variable first")
        self.refuse_place(place)
        value = Node(SUM, self.expressions.read(again), step, place.type, span)
        self.commands.append(Command(place, value, span))

    def assign(self, place, value, tree, span):
        self.refuse_place(place)
        self.commands.append(Command(place, self.expressions.converted(value, place.type, tree), span))

    def copy(self, struct, tree, span):
        """An assignment of a whole struct. The table's copy is an int, and needs a place: a variable that C has no name for."""
        copied = Node(VARIABLE, None, 0, INT, span)
        self.copies.append(copied)
        self.commands.append(Command(copied, self.expressions.copied(struct, tree, span), span))

    def number_copies(self):
        """Numbers that variable. It comes after all others, so that these are the words that they are without it."""
        if self.copies:
            variable = self.scope.declare(COPIED, INT, self.copies[0].span)
            for place in self.copies:
                place.a = variable.number

    def refuse_place(self, place):
        if isinstance(place.type, Array):
            raise Faulty(place.span, "an array can't be assigned", "assign its words one by one")
        if place.kind is None:
            raise Faulty(place.span, f"`{place.span.text}` is a {place.type}, which can't be added to", "use its fields one by one")
