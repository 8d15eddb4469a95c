import unittest

from .making import (
    BOOL, TABLE, U16, U32, U64, WORDS_MUT, Array, Named, assign, binary, call, element, local, number, returned,
)
from translator.cnames import PathNames
from translator.ctypes_ import Types
from translator.expressions import Expressions
from translator.source import Names, TypeText
from translator.statements import Statements
from translator.terms import (
    Address, Aggregate, Assign, Block, Case, Exit, Field, Fields, Function, If, Local, Loop, Nothing, Ref, Repeat,
    Return, Switch, Tag, Unit, Unknown, Variants,
)

ANSWER, REPORT, ROWS = Named("c::Answer"), Named("c::Report"), Array(U64, 5)
DECLARED = {"c::Answer": Variants(((), (), ())), "c::Report": Fields((U32, ROWS))}
SOURCE = Names(types={
    "c::Answer": TypeText("crates/c/src/lib.rt", [], [], [("A", []), ("B", []), ("C", [])]),
    "c::Report": TypeText("crates/c/src/lib.rt", [], ["number", "rows"]),
})
LOCALS = [U64, U64, BOOL, WORDS_MUT, U64, U64, ANSWER, TABLE, ROWS, REPORT, Unit()]
NAMES = dict(enumerate(["result", "n", "flag", "out", "k", "m", "answer", "table", "rows", "report", "none"]))
N, FLAG, OUT, K, M = local(1), local(2, BOOL), Local(3, WORDS_MUT), local(4), local(5)
BELOW = binary("lt", K, N)


def written(*body, parameters=3, in_memory=frozenset()):
    function = Function("c::f", parameters, LOCALS, frozenset(in_memory), list(body))
    paths = PathNames(set())
    types = Types(DECLARED, SOURCE, paths, {"c::Report": "ism_report"})
    return Statements(function, Expressions(types, paths, NAMES)).write_function_body()


class Declarations(unittest.TestCase):
    def lines(self, *body):
        return [line for line in written(*body) if not line.startswith("(void)")]

    def test_with_the_first_value(self):
        self.assertEqual(self.lines(assign(4, N), returned(K)), ["uint64_t k = n;", "return k;"])

    def test_before_the_arms_that_set_it(self):
        body = [If(FLAG, [assign(4, number(1))], [assign(4, number(2))]), returned(K)]
        self.assertEqual(self.lines(*body)[:2], ["uint64_t k;", "if (flag) {"])

    def test_inside_of_the_one_arm_that_has_it(self):
        body = [If(FLAG, [assign(4, N), returned(K)], []), returned(N)]
        self.assertEqual(self.lines(*body), ["if (flag) {", "    uint64_t k = n;", "    return k;", "}", "return n;"])

    def test_outside_of_a_loop_that_carries_it(self):
        turn = [If(FLAG, [assign(5, K)], []), assign(4, N), Exit(0)]
        with self.assertRaises(Unknown):
            self.lines(Block([Loop(turn)]), returned(M))
        lines = self.lines(assign(4, N), assign(5, N), Block([Loop(turn)]), returned(M))
        self.assertEqual(lines[:3], ["uint64_t k = n;", "uint64_t m = n;", "for (;;) {"])

    def test_not_in_an_arm_that_keeps_its_address(self):
        table = Assign(Local(7, TABLE), Repeat(number(0, U16), TABLE))
        keep = Assign(OUT, Aggregate((Address(Local(7, TABLE), Ref(True, TABLE)), number(4)), WORDS_MUT))
        for arm, line in (([table, keep], "struct array_u16_4 table;"), ([table, assign(4, N)], "uint64_t k;")):
            lines = written(assign(4, N), If(FLAG, arm, []), returned(K), in_memory={7})
            self.assertEqual("struct array_u16_4 table;" in lines, line.endswith("table;"))

    def test_what_may_be_read_before_it_is_set(self):
        with self.assertRaises(Unknown):
            written(If(FLAG, [assign(4, N)], []), returned(K))

    def test_a_parameter_that_is_not_used(self):
        self.assertEqual(written(returned(N)), ["(void)flag;", "(void)out;", "return n;"])

    def test_a_parameter_that_holds_nothing_is_not_there(self):
        lines = written(returned(local(9)), parameters=10)
        self.assertEqual([line for line in lines if "none" in line], [])


class Assignments(unittest.TestCase):
    def line(self, statement):
        return written(assign(4, N), statement, returned(K))[-2]

    def test_short_forms(self):
        self.assertEqual(self.line(assign(4, binary("add", K, number(1)))), "k++;")
        self.assertEqual(self.line(assign(4, binary("sub", K, number(1)))), "k--;")
        self.assertEqual(self.line(assign(4, binary("add", K, N))), "k += n;")
        self.assertEqual(self.line(assign(4, binary("add", N, K))), "k = n + k;")
        self.assertEqual(self.line(assign(4, binary("mul", K, number(1)))), "k = k * 1;")

    def test_a_store_and_a_call(self):
        self.assertEqual(self.line(Assign(element(OUT, K), number(7, U16))), "out.at[k] = 7;")
        self.assertEqual(self.line(Assign(Nothing(), call("c::g", K))), "c_g(k);")
        self.assertEqual(self.line(Assign(Local(10, Unit()), call("c::g", K, ty=Unit()))), "c_g(k);")

    def test_a_call_whose_target_memory_tells(self):
        store = Assign(element(OUT, K), call("c::g", ty=U16))
        self.assertEqual(written(assign(4, N), store, returned(N))[-2], "out.at[k] = c_g();")
        with self.assertRaises(Unknown):
            written(assign(4, N), store, returned(N), in_memory={4})

    def test_arrays_go_over_one_by_one(self):
        lines = written(Assign(Local(7, TABLE), Repeat(number(1, U16), TABLE)), returned(N))[2:]
        loop = ["for (uint64_t each = 0; each < 4; each++) {", "    table.a[each] = 1;", "}"]
        self.assertEqual(lines, ["struct array_u16_4 table;", *loop, "return n;"])
        out_of = Assign(Local(8, ROWS), Field(Local(9, REPORT), 1, ROWS))
        given = Assign(Local(9, REPORT), Aggregate((number(3, U32), Local(8, ROWS)), REPORT))
        lines = written(Assign(Local(8, ROWS), Repeat(number(0), ROWS)), given, out_of, returned(N))
        self.assertIn("    report.rows[each] = rows.a[each];", lines)
        self.assertIn("report.number = 3;", lines)
        self.assertIn("    rows.a[each] = report.rows[each];", lines)

    def test_not_from_parts_of_itself(self):
        with self.assertRaises(Unknown):
            itself = Aggregate((Field(Local(9, REPORT), 0, U32), Local(8, ROWS)), REPORT)
            written(Assign(Local(9, REPORT), itself), returned(N))


class Choices(unittest.TestCase):
    def test_if(self):
        leave, set_ = [returned(N)], [assign(4, number(1))]
        start = assign(4, N)
        self.assertIn("if (flag) return n;", written(start, If(FLAG, leave, []), returned(K)))
        self.assertIn("if (!flag) return n;", written(start, If(FLAG, [], leave), returned(K)))
        self.assertIn("if (k >= n) k = 1;", written(start, If(BELOW, [], set_), returned(K)))
        lines = written(start, If(FLAG, leave, set_), returned(K))
        self.assertEqual(lines[-3:], ["if (flag) return n;", "k = 1;", "return k;"])
        lines = written(start, If(FLAG, set_, [assign(4, number(2))]), returned(K))
        self.assertEqual(lines[-6:], ["if (flag) {", "    k = 1;", "} else {", "    k = 2;", "}", "return k;"])

    def test_two_arms(self):
        tag = Tag(Local(6, ANSWER))
        made = Assign(Local(6, ANSWER), Case(0, (), ANSWER))
        lines = written(made, Switch(tag, [([1], [returned(N)]), ([0], [])], None), returned(number(2)))
        self.assertEqual(lines[-2:], ["if (answer.tag == c_Answer_B) return n;", "return 2;"])
        masked = Switch(binary("and", N, number(1)), [([1], [returned(N)]), ([0], [])], None)
        self.assertEqual(written(masked, returned(number(2)))[-2], "if ((n & 0x1) == 1) return n;")

    def test_more_arms(self):
        tag = Tag(Local(6, ANSWER))
        made = Assign(Local(6, ANSWER), Case(0, (), ANSWER))
        arms = [([0], [returned(N)]), ([1], [assign(4, N)]), ([2], [returned(number(3))])]
        lines = written(made, assign(4, number(0)), Switch(tag, arms, None), returned(K))
        self.assertEqual(lines[-9:], [
            "switch (answer.tag) {", "case c_Answer_A: return n;", "case c_Answer_B: {", "    k = n;", "    break;",
            "}",
            "default: return 3; /* c_Answer_C */", "}", "return k;",
        ])

    def test_a_default(self):
        lines = written(Switch(N, [([0, 1], [returned(N)])], [returned(number(3))]))
        self.assertEqual(lines[-5:], ["switch (n) {", "case 0:", "case 1: return n;", "default: return 3;", "}"])


class Loops(unittest.TestCase):
    def loop(self, *turn):
        return [assign(4, number(0)), Block([Loop(list(turn))]), returned(K)]

    def tail(self, *body):
        return [line for line in written(*body) if not line.startswith("(void)")][1:-1]

    def test_a_while(self):
        step = assign(4, binary("add", K, number(1)))
        self.assertEqual(self.tail(*self.loop(If(BELOW, [], [Exit(1)]), step)), ["while (k < n) {", "    k++;", "}"])
        self.assertEqual(self.tail(*self.loop(If(BELOW, [Exit(1)], []), step)), ["while (k >= n) {", "    k++;", "}"])

    def test_break_and_continue(self):
        step = assign(4, binary("add", K, number(1)))
        lines = self.tail(*self.loop(step, If(BELOW, [Exit(1)], []), If(FLAG, [Exit(0)], []), step))
        self.assertEqual(lines, [
            "for (;;) {", "    k++;", "    if (k < n) break;", "    if (flag) continue;", "    k++;", "}",
        ])

    def test_out_of_two_loops(self):
        inner = Block([Loop([If(BELOW, [Exit(3)], []), If(FLAG, [Exit(2)], []), Exit(1)])])
        lines = self.tail(*self.loop(inner, assign(4, N)))
        self.assertEqual(lines, [
            "for (;;) {", "    for (;;) {", "        if (k < n) goto done_1;", "        if (flag) goto next_2;",
            "        break;", "    }", "    k = n;", "    next_2:;", "}", "done_1:;",
        ])

    def test_a_switch_takes_the_break(self):
        arms = [([0], [Exit(1)]), ([1], [Exit(0)]), ([2], [assign(4, N)])]
        lines = self.tail(*self.loop(Switch(N, arms, None)))
        self.assertIn("    case 0: goto done_1;", lines)
        self.assertIn("    case 1: continue;", lines)

    def test_a_block_that_holds_more_than_a_loop(self):
        lines = written(assign(4, N), Block([If(FLAG, [Exit(0)], []), assign(4, number(1))]), returned(K))
        self.assertEqual(lines[-6:], ["{", "    if (flag) goto done_1;", "    k = 1;", "}", "done_1:;", "return k;"])

    def test_an_exit_from_nothing(self):
        with self.assertRaises(Unknown):
            written(Block([Exit(1)]), returned(N))


class Returns(unittest.TestCase):
    def test_nothing_at_the_end(self):
        self.assertEqual(written(Return(Nothing()), parameters=0), [])
