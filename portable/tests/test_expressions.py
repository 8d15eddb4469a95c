import unittest

from .making import BOOL, TABLE, U8, U16, U32, U64, WORDS, WORDS_MUT, Array, Named, binary, call, element, local, number
from translator.cnames import PathNames
from translator.ctypes_ import Types
from translator.expressions import Expressions
from translator.source import Names, TypeText
from translator.terms import (
    Address, Aggregate, Case, Cast, Deref, Field, Fields, Local, Nothing, Number, Offset, Payload, Pointer, Ref, Repeat,
    Slice, Tag, Truth, Unary, Unit, Unknown, Variants,
)

PAIR, ANSWER, REPORT, SPEED = (Named(f"c::{name}") for name in ("Pair", "Answer", "Report", "Speed"))
HALF, DONE = Named("c::Half"), Named("c::Done")
ROWS = Array(U64, 5)
DECLARED = {
    "c::Pair": Fields((U16, U32)), "c::Answer": Variants(((), (U64,), (U64, BOOL))), "c::Report": Fields((U32, ROWS)),
    "c::Speed": Fields((U32, U32)), "c::Half": Fields((Unit(), U64)),
    "c::Done": Variants(((Unit(),), (Unit(), U64))),
}
SOURCE = Names(types={
    "c::Pair": TypeText("crates/c/src/lib.rt", [], ["short", "b"]),
    "c::Answer": TypeText(
        "crates/c/src/lib.rt", [], [], [("None", []), ("Count", [None]), ("Found", ["place", "holds"])]
    ),
    "c::Report": TypeText("crates/c/src/lib.rt", [], ["number", "rows"]),
    "c::Speed": TypeText("crates/c/src/lib.rt", [], ["place", "even"]),
    "c::Half": TypeText("crates/c/src/lib.rt", [], [None, None]),
    "c::Done": TypeText("crates/c/src/lib.rt", [], [], [("Ok", [None]), ("Two", [None, None])]),
})
NAMES = {1: "a", 2: "b", 3: "list", 4: "pair", 5: "answer", 6: "table", 7: "out", 8: "flag", 9: "p", 10: "report"}
A, B, LIST, OUT = local(1), local(2), Local(3, WORDS), Local(7, WORDS_MUT)
FLAG, TABLE_HERE, TABLE_THERE = local(8, BOOL), Local(6, TABLE), Local(9, Ref(False, TABLE))


def writer():
    paths = PathNames(set())
    crossing = {"c::Report": "ism_report", "c::Speed": "ism_speed"}
    return Expressions(Types(DECLARED, SOURCE, paths, crossing, {("c::Speed", 1)}), paths, NAMES)


def text(expression):
    return writer().text(expression)


class Operators(unittest.TestCase):
    def test_each(self):
        signs = {
            "add": "a + b", "sub": "a - b", "mul": "a * b", "div": "a / b", "rem": "a % b", "and": "a & b",
            "or": "a | b",
            "xor": "a ^ b", "shr": "a >> b", "eq": "a == b", "ne": "a != b", "lt": "a < b", "le": "a <= b",
        }
        for op, expected in signs.items():
            self.assertEqual(text(binary(op, A, B)), expected)

    def test_a_shift_to_the_left_is_cut(self):
        self.assertEqual(text(binary("shl", A, B)), "(uint64_t)(a << b)")
        self.assertEqual(text(binary("shl", local(1, U32), local(2, U32))), "(uint32_t)(a << b)")
        self.assertEqual(text(binary("shl", local(1, U16), number(5, U16))), "(uint16_t)((uint32_t)a << 5)")
        self.assertEqual(text(binary("shl", number(1, U32), local(2, U32))), "(uint32_t)((uint32_t)1 << b)")

    def test_sums_that_wrap_are_cut(self):
        for name, sign in (("add", "+"), ("sub", "-")):
            wrapped = binary(name, local(1, U16), local(2, U16), "wrapping")
            self.assertEqual(text(wrapped), f"(uint16_t)(a {sign} b)")

    def test_signed_sums_are_cut(self):
        sum_ = binary("add", local(1, U32), local(2, U32), "signed")
        self.assertEqual(text(sum_), "(uint32_t)(a + b)")
        self.assertEqual(text(binary("sub", local(1, U32), sum_, "signed")), "(uint32_t)(a - (uint32_t)(a + b))")

    def test_not(self):
        self.assertEqual(text(Unary("not", local(1, U32), U32)), "(uint32_t)~a")
        self.assertEqual(text(Unary("not", FLAG, BOOL)), "!flag")
        self.assertEqual(text(Unary("not", binary("lt", A, B), BOOL)), "a >= b")
        self.assertEqual(text(Unary("not", binary("le", A, B), BOOL)), "a > b")
        self.assertEqual(text(Unary("not", binary("eq", A, B), BOOL)), "a != b")
        self.assertEqual(text(Unary("not", binary("ne", A, B), BOOL)), "a == b")
        self.assertEqual(text(Unary("not", binary("and", FLAG, FLAG), BOOL)), "!(flag & flag)")

    def test_counts_of_bits(self):
        self.assertEqual(text(Unary("leadingZeros", local(1, U32), U32)), "leading_zeros(a)")
        self.assertEqual(text(Unary("countOnes", local(1, U16), U32)), "count_ones(a)")
        self.assertEqual(text(Unary("leadingZeros", local(1, U16), U32)), "leading_zeros(a) - 16")
        self.assertEqual(text(Unary("leadingZeros", A, U32)), "leading_zeros_64(a)")
        self.assertEqual(text(Unary("countOnes", A, U32)), "count_ones_64(a)")

    def test_constants_alone_are_not_computed_as_int(self):
        million = number(10**6)
        product = binary("mul", million, million)
        self.assertEqual(text(product), "(uint64_t)1000000 * 1000000")
        self.assertEqual(text(binary("add", A, product)), "a + (uint64_t)1000000 * 1000000")
        self.assertEqual(text(binary("add", million, product)), "(uint64_t)1000000 + (uint64_t)1000000 * 1000000")
        self.assertEqual(text(binary("add", million, A)), "1000000 + a")

    def test_casts(self):
        self.assertEqual(text(Cast("unsigned", "unsigned", A, U16)), "(uint16_t)a")
        self.assertEqual(text(Cast("unsigned", "unsigned", binary("rem", A, B), U16)), "(uint16_t)(a % b)")
        self.assertEqual(text(Cast("signed", "unsigned", local(1, U32), U16)), "(uint16_t)a")
        self.assertEqual(text(Cast("unsigned", "unsigned", FLAG, U8)), "(uint8_t)flag")
        with self.assertRaises(Unknown):
            text(Cast("signed", "signed", local(1, U32), U64))

    def test_numbers(self):
        self.assertEqual(text(number(2**31 - 1, U32)), "2147483647")
        self.assertEqual(text(number(2**31, U32)), "2147483648u")
        self.assertEqual(text(number(2**32)), "4294967296ull")
        self.assertEqual(text(binary("and", local(1, U16), number(0x5555, U16))), "a & 0x5555")
        self.assertEqual(text(Truth(True)), "true")


class Parentheses(unittest.TestCase):
    def test_where_the_order_needs_them(self):
        sum_, product = binary("add", A, B), binary("mul", A, B)
        self.assertEqual(text(binary("add", sum_, B)), "a + b + b")
        self.assertEqual(text(binary("sub", A, sum_)), "a - (a + b)")
        self.assertEqual(text(binary("sub", sum_, product)), "a + b - a * b")
        self.assertEqual(text(binary("mul", sum_, B)), "(a + b) * b")
        self.assertEqual(text(binary("div", product, B)), "(a * b) / b")
        self.assertEqual(text(binary("div", A, product)), "a / (a * b)")
        self.assertEqual(text(binary("rem", binary("div", A, B), B)), "(a / b) % b")
        self.assertEqual(text(binary("lt", sum_, product)), "a + b < a * b")
        self.assertEqual(text(binary("shr", sum_, B)), "(a + b) >> b")

    def test_where_compilers_want_them(self):
        less = binary("lt", A, B)
        self.assertEqual(text(binary("and", less, less)), "(a < b) & (a < b)")
        self.assertEqual(text(binary("eq", less, FLAG)), "(a < b) == flag")
        self.assertEqual(text(binary("or", binary("and", A, B), B)), "(a & b) | b")
        self.assertEqual(text(binary("and", binary("and", A, B), B)), "a & b & b")
        self.assertEqual(text(binary("and", A, binary("and", A, B))), "a & (a & b)")
        self.assertEqual(text(binary("andalso", less, binary("orelse", less, FLAG))), "a < b && (a < b || flag)")


class Places(unittest.TestCase):
    def test_parts(self):
        self.assertEqual(text(Field(Local(4, PAIR), 0, U16)), "pair.short_")
        self.assertEqual(text(Field(LIST, 1, U64)), "list.len")
        self.assertEqual(text(Tag(Local(5, ANSWER))), "answer.tag")
        self.assertEqual(text(Payload(Local(5, ANSWER), 1, 0, U64)), "answer.u.Count")
        self.assertEqual(text(Payload(Local(5, ANSWER), 2, 1, BOOL)), "answer.u.Found.holds")
        self.assertEqual(text(Field(Deref(Local(9, Ref(False, PAIR)), PAIR), 1, U32)), "p->b")

    def test_elements(self):
        self.assertEqual(text(element(LIST, binary("add", A, B))), "list.at[a + b]")
        here = Deref(Offset(Address(TABLE_HERE, Pointer()), binary("mul", A, number(2))), U16)
        self.assertEqual(text(here), "table.a[a]")
        there = Deref(Offset(Address(Deref(TABLE_THERE, TABLE), Pointer()), number(6)), U16)
        self.assertEqual(text(there), "p->a[3]")
        row = Deref(Offset(Address(Field(Local(10, REPORT), 1, ROWS), Pointer()), number(16)), U64)
        self.assertEqual(text(row), "report.rows[2]")

    def test_elements_from_an_element_on(self):
        """A pointer that is a sum stands in parentheses."""
        here = Address(element(LIST, A), Ref(False, U16))
        self.assertEqual(text(here), "list.at + a")
        bytes_ = binary("mul", B, number(2))
        self.assertEqual(text(Deref(Offset(here, bytes_), U16)), "(list.at + a)[b]")
        self.assertEqual(text(Address(Deref(Offset(here, bytes_), U16), Ref(False, U16))), "(list.at + a) + b")
        first = Address(local(1, U16), Ref(False, U16))
        self.assertEqual(text(Deref(Offset(first, bytes_), U16)), "(&a)[b]")

    def test_a_step_of_one_byte(self):
        bytes_ = Local(3, Slice(False, U8))
        place = Deref(Offset(Field(bytes_, 0, Ref(False, U8)), binary("mul", A, number(1))), U8)
        self.assertEqual(text(place), "list.at[a]")

    def test_bytes_that_are_no_elements(self):
        for by in (A, number(3), binary("mul", A, number(4)), binary("mul", number(2), A)):
            with self.assertRaises(Unknown):
                text(Deref(Offset(Field(LIST, 0, Pointer()), by), U16))

    def test_elements_of_another_type(self):
        with self.assertRaises(Unknown):
            text(Deref(Offset(Field(LIST, 0, Ref(False, U16)), number(0)), U32))

    def test_slices(self):
        def part(of, ty):
            at = Offset(Field(of, 0, Ref(False, U16)), binary("mul", A, number(2)))
            return Address(Deref(at, U16), Ref(ty.mutable, U16))

        whole = Address(Deref(Field(OUT, 0, Ref(True, U16)), U16), Ref(True, U16))
        self.assertEqual(text(Aggregate((whole, Field(OUT, 1, U64)), WORDS_MUT)), "out")
        self.assertEqual(text(Aggregate((whole, Field(OUT, 1, U64)), WORDS)), "slice_u16(out.at, out.len)")
        self.assertEqual(text(Aggregate((part(LIST, WORDS), B), WORDS)), "slice_u16(list.at + a, b)")
        table = Address(TABLE_HERE, Ref(False, TABLE))
        self.assertEqual(text(Aggregate((table, number(4)), WORDS)), "slice_u16(table.a, 4)")
        self.assertEqual(text(call("c::f", table)), "c_f(&table)")

    def test_a_slice_from_a_raw_pointer_on(self):
        past = Offset(Field(OUT, 0, Ref(True, U16)), binary("mul", B, number(2)))
        self.assertEqual(text(Aggregate((past, A), WORDS_MUT)), "slice_u16_mut(out.at + b, a)")

    def test_pointers_to_pointers(self):
        for ty, spelled in (
            (Ref(False, Ref(False, U16)), "const uint16_t *const *p"),
            (Ref(True, Ref(False, U16)), "const uint16_t **p"),
            (Ref(False, Ref(True, PAIR)), "struct c_Pair *const *p"), (Ref(True, Ref(True, U16)), "uint16_t **p"),
        ):
            self.assertEqual(writer().types.declarator(ty, "p"), spelled)

    def test_a_raw_pointer_cannot_be_kept(self):
        for expression in (Address(TABLE_HERE, Pointer()), Offset(Field(LIST, 0, Pointer()), A)):
            with self.assertRaises(Unknown):
                text(expression)


class SeveralParts(unittest.TestCase):
    def test_structs_enums_and_arrays(self):
        pair = Aggregate((Number(1, U16), Number(2, U32)), PAIR)
        self.assertEqual(text(pair), "(struct c_Pair){.short_ = 1, .b = 2}")
        self.assertEqual(text(Case(0, (), ANSWER)), "(struct c_Answer){.tag = c_Answer_None}")
        self.assertEqual(text(Case(1, (A,), ANSWER)), "(struct c_Answer){.tag = c_Answer_Count, .u.Count = a}")
        found = "(struct c_Answer){.tag = c_Answer_Found, .u.Found = {.place = a, .holds = flag}}"
        self.assertEqual(text(Case(2, (A, FLAG), ANSWER)), found)
        words = Aggregate(tuple(number(n, U16) for n in range(4)), TABLE)
        self.assertEqual(text(words), "(struct array_u16_4){{0, 1, 2, 3}}")
        pairs = Aggregate((pair, pair), Array(PAIR, 2))
        self.assertEqual(text(pairs), "(struct array_c_Pair_2){{{.short_ = 1, .b = 2}, {.short_ = 1, .b = 2}}}")

    def test_parts_that_hold_nothing_are_left_out(self):
        self.assertEqual(text(Aggregate((Nothing(), A), HALF)), "(struct c_Half){.f1 = a}")
        done = text(Case(0, (Nothing(),), DONE)), text(Case(1, (Nothing(), A), DONE))
        self.assertEqual(done, (
            "(struct c_Done){.tag = c_Done_Ok}", "(struct c_Done){.tag = c_Done_Two, .u.Two = {.f1 = a}}",
        ))
        self.assertEqual(text(call("c::f", Nothing(), A)), "c_f(a)")
        types = writer().types
        for ty in (HALF, DONE):
            types.define(ty)
        self.assertEqual(types.definitions[HALF][2:], ["    uint64_t f1;", "};"])
        union = ["    union {", "        struct {", "            uint64_t f1;", "        } Two;", "    } u;"]
        self.assertEqual(types.definitions[DONE][3:-1], ["    uint8_t tag;", *union])

    def test_signed_numbers_of_the_header(self):
        speed = Aggregate((local(1, U32), local(2, U32)), SPEED)
        self.assertEqual(text(speed), "(ism_speed){.place = a, .even = as_int32(b)}")
        none = Aggregate((number(0, U32), number(0, U32)), SPEED)
        self.assertEqual(text(none), "(ism_speed){.place = 0, .even = 0}")
        self.assertEqual(text(Field(Local(1, SPEED), 0, U32)), "a.place")
        with self.assertRaises(Unknown):
            text(Field(Local(1, SPEED), 1, U32))

    def test_repeated(self):
        self.assertEqual(text(Repeat(number(0, U16), TABLE)), "(struct array_u16_4){0}")
        for expression in (Repeat(number(1, U16), TABLE), Aggregate((A, Local(2, ROWS)), REPORT)):
            with self.assertRaises(Unknown):
                text(expression)
