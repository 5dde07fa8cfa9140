"""The C that the workbench takes: what is the same said in two ways, what each fault is pointed at, and which node an abort is told of."""

import unittest

from support import Faulty, explained, fault, routine, translate, words

# Statements that mean the same in C, and have to give the same table. One of each pair is written out as docs/TABLE.md explains nodes.
SAME = [
    ("n += 2;", "n = n + 2;"),
    ("n -= 2;", "n = n + 4294967294u;"),
    ("n++;", "n = n + 1;"),
    ("++n;", "n = n + 1;"),
    ("n--;", "n = n - 1;"),
    ("--p->queue[1];", "p->queue[1] = p->queue[1] - 1;"),
    ("p++;", "p = p + 1;"),
    ("at->people += at->people;", "at->people = at->people + at->people;"),
    ("p -= sizeof(struct calls);", "p = p - 4;"),
    ("n = 16;", "n = 0x10;"),
    ("n = 16;", "n = 020u;"),
    ("n = 16;", "n = 0X10UL;"),
    ("n = 0;", "n = 00;"),
    ("n = -1;", "n = 4294967295;"),
    ("n = -(1 + 2);", "n = -3;"),
    ("n = +m;", "n = m;"),
    ("n = m - 3;", "n = m + -3;"),
    ("n = (m);", "n = m;"),
    ("n = q[2];", "n = *(q + 2);"),
    ("n = 2[q];", "n = q[2];"),
    ("n = *(2 + q);", "n = q[2];"),
    ("n = q[0];", "n = *q;"),
    ("n = q[-1];", "n = *(q - 1);"),
    ("n = (*at).people;", "n = at->people;"),
    ("n = at[1].people;", "n = (at + 1)->people;"),
    ("n = (*(at + 1)).people;", "n = at[1].people;"),
    ("n = at[0].people;", "n = at->people;"),
    ("at = &at[1];", "at = at + 1;"),
    ("at = &*at;", "at = at;"),
    ("q = &q[1];", "q = &*(q + 1);"),
    ("q = p->queue;", "q = &p->queue[0];"),
    ("*p->queue = 3;", "p->queue[0] = 3;"),
    ("n = at->floors[1][2];", "n = *(*(at->floors + 1) + 2);"),
    ("q = v;", "q = (int *)v;"),
    ("v = q;", "v = (void *)q;"),
    ("q = 0;", "q = (int *)0;"),
    ("q = 0x0;", "q = (int *)0;"),
    ("q = NULL;", "q = (int *)(void *)0;"),
    ("q = malloc(2);", "q = (int *)malloc(2);"),
    ("v = malloc(n);", "v = malloc((n));"),
    ("n = sizeof(unsigned);", "n = sizeof(int);"),
    ("n = sizeof *p;", "n = sizeof(struct calls);"),
    ("n = sizeof p[1];", "n = sizeof(struct calls);"),
    ("n = sizeof p->queue;", "n = 2;"),
    ("n = sizeof(int[3]);", "n = 3;"),
    ("n = sizeof at->floors[0];", "n = sizeof(int *);"),
    ("n = sizeof at->floors;", "n = 3;"),
    ("n = sizeof(*at->next);", "n = sizeof(struct call);"),
    ("n = sizeof q;", "n = sizeof(int *);"),
    ("n = sizeof malloc(3);", "n = sizeof(void *);"),
    ("q = (unsigned *)v;", "q = (int *)v;"),
    ("q = (uint32_t *)v;", "q = (int *)v;"),
    ("*p = *p;", "p[0] = p[0];"),
    ("*p = *p;", "(*(p)) = *&*p;"),
    ("p[1] = *p;", "*(p + 1) = *p;"),
    ("*(1 + p) = p[n];", "1[p] = *&p[n];"),
    ("*at = at->next[0];", "*at = *at->next;"),
    ("*(struct calls *)v = *p;", "((struct calls *)v)[0] = *p;"),
    ("n = 1; ; m = 2;", "n = 1; m = 2;"),
    ("n = 1; /* twice */ // n = 2;", "n = 1;"),
]

# The same text with other declarations, which have to give the same table too.
SAME_TEXTS = [
    ("int n; int *q; void f(void) { n = *q; }", "void f(int n, int *q) { n = *q; }"),
    ("int n; int *q; void f(void) { n = *q; }", "int n, *q; void f() { n = *q; }"),
    ("int n; int *q; void f(void) { n = *q; }", "#include <stdlib.h>\nvoid f(unsigned n, int q[]) { n = *q; }"),
    ("int n; int *q; void f(void) { n = *q; }", "void f(unsigned int n, uint32_t q[12]) { n = *q; }"),
    ("int n; int *q; void f(void) { n = 3; q = &n; }", "void f(void) { int n = 3, *q = &n; }"),
    ("int n; int *q; void f(void) { n = 3; q = &n; }", "int n; void f(void) { n = 3; int *q; q = &n; }"),
    ("struct s { int a, *b; int c; }; struct s *p; void f(void) { p->c = 1; }", "struct s { int a; int *b, c; } *p; void f(void) { p->c = 1; }"),
    ("struct s { int a[3]; }; struct s *p; void f(void) { p->a[1] = 1; }", "struct s { int a[1 + 2]; } *p; void f(void) { p->a[1] = 1; }"),
    ("struct s { int a; } *p, *q; int n; void f(void) { *p = *q; n = 1; }", "struct s { int a; } *p, *q; void f(void) { *p = *q; int n = 1; }"),
    ("struct s { struct t *t; }; struct t { struct s *s; }; struct s *p; void f(void) { p = p->t->s; }",
     "struct t; struct s { struct t *t; }; struct t { struct s *s; }; struct s *p; void f(void) { p = p->t->s; }"),
]  # fmt: skip

# Where a fault is pointed at: between the brackets ⟦ and ⟧.
POINTED = [
    "n = 3 + ⟦m * 2⟧;",
    "n = (⟦(m) * (2 + m)⟧);",
    "q[⟦-m⟧] = 3;",
    "*(p) = ⟦n⟧;",
    "n = ⟦*(p)⟧;",
    "p[1] = (⟦*at⟧);",
    "*p = ⟦p->queue⟧;",
    "*p = ⟦malloc(4)⟧;",
    "⟦*p⟧ += 1;",
    "++(⟦*p⟧);",
    "p = ⟦*p⟧;",
    "n = malloc(⟦p[1]⟧);",
    "*(q + n) = (int)(⟦n ? 1 : 2⟧);",
    "p->queue[n] = ⟦q⟧;",
    "(⟦(*p).stops⟧)[1] = 3;",
    "n = sizeof(⟦*v⟧);",
    "n = (int)⟦(char)3⟧;",
    "⟦unknown⟧->people = 3;",
    "at->next->people = ⟦at->next->next⟧;",
    "n = 1;\n  n = m\n    + 5 - ⟦m⟧;",
    "⟦return⟧;",
    "int k = ⟦q⟧;",
    "int k = 3, j = ⟦q⟧, i;",
    "n = malloc(⟦q⟧);",
    "⟦char⟧ c;",
]

# Which check is told of where the machine aborts: that of the expression between the brackets.
FOLLOWED = [
    "⟦*q⟧ = 1;",
    "n = ⟦at->people⟧;",
    "at = malloc(5);\n n = ⟦at->next->people⟧;",
    "at = malloc(5);\n n = at->people + ⟦at->floors[1][2]⟧;",
    "p = malloc(4);\n q = p->snapshot;\n ⟦(q + 1)[1]⟧ = 3;",
    "p = malloc(4);\n p->queue[1] = ⟦p->snapshot[2]⟧;",
    "p = malloc(2);\n p->snapshot[1] = 1;\n ⟦p->queue[0]⟧ = 1;",
    "p = malloc(2);\n q = ⟦p->queue⟧;",
    "p = malloc(3);\n ⟦(*(p))  . queue⟧[1] = 1;",
    "q = malloc(2);\n q = &⟦q[2]⟧;",
    "q = malloc(2);\n ⟦q[2]⟧++;",
    "int *k = malloc(1), j = ⟦k[1]⟧;",
    "⟦*p⟧ = *p;",
    "p = malloc(4);\n ⟦p[1]⟧ = *p;",
    "p = malloc(4);\n *p = ⟦p[1]⟧;",
    "p = malloc(4);\n *p = ⟦p[-1]⟧;",
    "p = malloc(3);\n ⟦*p⟧ = *p;",
    "p = malloc(4);\n *p = ⟦*(struct calls *)0⟧;",
    "p = malloc(4);\n v = p;\n *(struct calls *)v = (⟦*(struct calls *)n⟧);",
    "p = malloc(3);\n ⟦*p⟧ = *(struct calls *)0;",
    "p = malloc(4);\n *p = ⟦*(struct calls *)1⟧;",
    "⟦*(struct calls *)0⟧ = *(struct calls *)0;",
    "⟦*(struct calls *)1⟧ = *(struct calls *)1;",
    "p = malloc(4);\n ⟦*(struct calls *)1⟧ = *p;",
    "p = malloc(4);\n p[0] = *p;\n *p = ⟦*(struct calls *)malloc(n + 3)⟧;",
    "at = malloc(5);\n *at = ⟦*at->next⟧;",
    "at = malloc(5);\n *⟦at->next->next⟧ = *at;",
]


def split(marked):
    """A text without its brackets, and where they stood."""
    first = marked.index("⟦")
    last = marked.index("⟧") - 1
    return marked.replace("⟦", "").replace("⟧", ""), first, last


class Fragment(unittest.TestCase):
    def test_same_meaning_same_table(self):
        for one, other in SAME:
            with self.subTest(one):
                self.assertEqual(words(one), words(other))

    def test_same_declarations_same_table(self):
        for one, other in SAME_TEXTS:
            with self.subTest(other):
                self.assertEqual(translate("one.c", one).table.words(), translate("other.c", other).table.words())

    def test_different_statements_have_different_tables(self):
        statements = {first for first, _ in SAME} | {second for _, second in SAME}
        meanings = {tuple(words(one)) for one in statements}
        classes = len({frozenset(same_as(one)) for one in statements})
        self.assertEqual(len(meanings), classes)

    def test_faults_are_pointed_at(self):
        for marked in POINTED:
            with self.subTest(marked):
                text, first, last = split(routine(marked))
                span = fault(text).span
                self.assertEqual(span.text, text[first:last])
                self.assertEqual(span.start, first)

    def test_aborts_are_pointed_at(self):
        for marked in FOLLOWED:
            with self.subTest(marked):
                text, first, last = split(routine(marked))
                made, answer = explained(text)
                self.assertEqual(answer.ending, "abort")
                span = made.check_span(answer.cause)
                self.assertEqual((span.start, span.text), (first, text[first:last]))

    def test_an_abort_in_a_full_table(self):
        """Which struct failed is asked of a table that is no longer than the routine's."""
        for statement, failed in (("*p = p[1];", "p[1]"), ("p[1] = *p;", "p[1]")):
            made, answer = explained(routine(f"p = malloc(4);n = 1;{'v = v;' * 166}{statement}"), memory=99)
            self.assertEqual((len(made.table.nodes), made.check_span(answer.cause).text), (512, failed))

    def test_struct_assignments(self):
        """The nodes of one, and the variable that they have in common, which comes after those declared behind them."""
        made = translate("test.c", routine("*p = p[1];\nint late = 1;\n*p = *p;"))
        last = len(made.table.variables) - 1
        self.assertEqual(made.names.variables[-2:], ["late", "(words copied)"])
        self.assertEqual(made.names.own, made.names.variables[:-1])
        nodes = [(1, last, 0), (1, 0, 0), (6, 1, 0), (1, 0, 0), (6, 3, 0), (4, 1, 0), (5, 4, 5), (11, 2, 6)]
        self.assertEqual((made.table.nodes[:8], made.table.commands[0], made.table.variables[last]), (nodes, (0, 7), 0))
        self.assertEqual(made.table.nodes[made.table.commands[2][0]], (1, last, 0))
        self.assertEqual(translate("test.c", routine("n = 1;")).names.own[-1], "v")

    def test_structs_are_defined_before_they_are_copied(self):
        found = fault("struct s *p;\nvoid f(void) { *p = *p; }\nstruct s { int a; };")
        self.assertEqual((found.message, found.span.text), ("struct s is not defined at this point", "*p"))

    def test_names_with_a_meaning(self):
        """NULL is a macro in C, and so it can't be the name of anything; malloc can be a field's."""
        for text in ("int NULL; void f(void) { }", "struct s { int NULL; }; void f(void) { }", "struct NULL *p; void f(void) { }"):
            with self.subTest(text):
                self.assertEqual(fault(text).message, "NULL has its own meaning in C")
        translate("test.c", "struct malloc { int malloc; } *p; void f(void) { p->malloc = 1; }")

    def test_lines_and_columns(self):
        span = fault("int n;\n\nvoid f(void) {\n\tn = 3;\n\tn = n * 2;\n}\n").span
        self.assertEqual((span.line, span.column), (5, 6))

    def test_limits_are_told(self):
        many = {
            "771 nodes (at most 512) and 257 commands (at most 256)": routine("n = m;\n" * 257),
            "514 nodes (at most 512)": routine("n = 1" + " + 1" * 256 + ";"),
            "65 variables (at most 64)": "".join(f"int v{i};" for i in range(65)) + "void f(void) { }",
            "65 variables, with one for its struct assignments (at most 64)": with_copies(64, 1),
            "66 variables, with one for its struct assignments (at most 64)": with_copies(65, 3),
            "33 structs (at most 32)": "".join(f"struct s{i} {{ int a; }};" for i in range(33)) + "void f(void) { }",
            "129 fields (at most 128)": "struct s { int a" + "".join(f", a{i}" for i in range(128)) + "; }; void f(void) { }",
        }
        for told, text in many.items():
            with self.subTest(told):
                self.assertIn(told, fault(text).message)

    def test_limits_are_reached(self):
        translate("test.c", routine("n = 1" + " + 1" * 254 + ";"))
        translate("test.c", "".join(f"int v{i};" for i in range(64)) + "void f(void) { }")
        translate("test.c", with_copies(63, 3))
        translate("test.c", "int n; void f(void) { " + "n = 1; " * 256 + "}")

    def test_texts_that_are_no_c(self):
        for text in ("", "int n", "void f(void) {", "void f(void) { n = ; }", "int n; void f(void) { n = 08; }", "/* never closed", "}"):
            with self.subTest(text):
                self.assertRaises(Faulty, translate, "test.c", text)

    def test_deep_nesting(self):
        deep = "n = " + "(" * 60 + "1" + ")" * 60 + ";"
        self.assertEqual(words(deep), words("n = 1;"))


def with_copies(variables, copies):
    """A text with so many variables, and struct assignments."""
    declared = ["struct s { int a; };", "struct s *p;", *(f"int v{i};" for i in range(variables - 1))]
    return "\n".join([*declared, "void f(void) {", *["*p = *p;"] * copies, "}"])


def same_as(statement):
    """All statements of SAME that mean what this one does."""
    same, before = {statement}, set()
    while same != before:
        before = set(same)
        same |= {part for pair in SAME if same & set(pair) for part in pair}
    return same


if __name__ == "__main__":
    unittest.main()
