import unittest

from .making import (
    BOOL, TABLE, U8, U16, U32, U64, WORDS, in_turn, kept_array, kept_assign, kept_call, kept_copy, kept_function,
    kept_int, kept_named, kept_number, kept_place, kept_ref, kept_slice, kept_type,
)
from translator.reader import Reader, read_program, read_type
from translator.terms import (
    Address, Aggregate, Assign, Binary, Block, Call, Case, Cast, Deref, Exit, Field, Fields, If, Int, Local, Loop,
    Named, Nothing, Number, Offset, Payload, Pointer, Ref, Repeat, Return, Slice, Switch, Tag, Truth, Unary, Unit,
    Unknown, Unreachable, Variants,
)

DECLARED = {
    "c::Pair": Fields((U16, U32)), "c::Answer": Variants(((), (U64, BOOL))), "c::Half": Fields((Unit(), U16)),
    "c::Done": Variants(((Unit(),), (U16,))),
}
PAIR, ANSWER = Named("c::Pair"), Named("c::Answer")
HALF, DONE = Named("c::Half"), Named("c::Done")
LOCALS = [
    U64, U64, BOOL, WORDS, PAIR, ANSWER, TABLE, Pointer(), U32, Ref(False, TABLE), U16, Unit(), HALF, DONE, Unit(),
]
FIELD_0, FIELD_1, FIELD_2 = {"Field": 0}, {"Field": 1}, {"Field": 2}


def reader():
    return Reader(LOCALS, DECLARED, {"c::f": U64})


def value(tree, ty):
    return reader().value(tree, ty)


def statement(*words):
    (found,) = reader().body(list(words))
    return found


def operand(tree):
    return {"Opd": tree}


def two(op, left, right):
    return {"Op2": [op, left, right]}


class Types(unittest.TestCase):
    def test_each(self):
        known = [
            (kept_int(16), U16), ("Bool", BOOL), ("Ptr", Pointer()), (kept_slice("Imm", kept_int(16)), WORDS),
            (kept_array(kept_int(16), 4), TABLE), (kept_named("c::Pair"), PAIR),
            (kept_ref("Imm", kept_array(kept_int(16), 4)), Ref(False, TABLE)),
        ]
        for tree, ty in known:
            self.assertEqual(read_type(tree), ty)

    def test_others_are_unknown(self):
        for tree in (
            {"Float": 32}, kept_int(128), {"Struct": ["&str", []]}, "Never", kept_named("c::Pair", "Bool"),
            {"Param": 0}, {"Array": [kept_int(16), {"Param": 0}]}, {"Ref": ["Erased", "Imm"]},
            {"Int": 16, "Bool": 1}, 16, {"Bool": 1}, "Int", kept_ref({"Imm": 1}, kept_int(16)),
        ):
            with self.assertRaises(Unknown, msg=tree):
                read_type(tree)


class Values(unittest.TestCase):
    def test_operands(self):
        self.assertEqual(value(operand(kept_copy(1)), U64), Local(1, U64))
        self.assertEqual(value(operand(kept_number(64, 7)), U64), Number(7, U64))
        self.assertEqual(value(operand("True"), BOOL), Truth(True))

    def test_places(self):
        self.assertEqual(value(operand(kept_copy(4, FIELD_1)), U32), Field(Local(4, PAIR), 1, U32))
        self.assertEqual(value(operand(kept_copy(3, FIELD_1)), U64), Field(Local(3, WORDS), 1, U64))
        self.assertEqual(value(operand(kept_copy(5, {"Variant": 0}, FIELD_0)), Int(8)), Tag(Local(5, ANSWER)))
        payload = value(operand(kept_copy(5, {"Variant": 1}, FIELD_2)), BOOL)
        self.assertEqual(payload, Payload(Local(5, ANSWER), 1, 1, BOOL))
        behind = value(operand(kept_copy(7, {"Deref": kept_int(16)})), U16)
        self.assertEqual(behind, Deref(Local(7, Pointer()), U16))

    def test_operations(self):
        sum_ = value(two({"Add": "Unsigned"}, kept_copy(1), kept_number(64, 2)), U64)
        self.assertEqual(sum_, Binary("add", "unsigned", Local(1, U64), Number(2, U64), U64))
        less = value(two({"Lt": "Unsigned"}, kept_copy(1), kept_number(64, 2)), BOOL)
        self.assertEqual(less.ty, BOOL)
        self.assertEqual(value({"Op1": ["Not", kept_copy(2)]}, BOOL), Unary("not", Local(2, BOOL), BOOL))
        cast = value({"Op1": [{"Cast": ["Unsigned", "Unsigned", 16]}, kept_copy(1)]}, U16)
        self.assertEqual(cast, Cast("unsigned", "unsigned", Local(1, U64), U16))
        self.assertEqual(value({"Op1": ["CountOnes", kept_copy(10)]}, U32).ty, U32)
        offset = value(two("Offset", kept_copy(7), kept_number(64, 4)), Pointer())
        self.assertEqual(offset, Offset(Local(7, Pointer()), Number(4, U64)))

    def test_sums_that_wrap(self):
        for kept, name in (("WrapAdd", "add"), ("WrapSub", "sub")):
            found = value(two(kept, kept_copy(1), kept_number(64, 2)), U64)
            self.assertEqual(found, Binary(name, "wrapping", Local(1, U64), Number(2, U64), U64))

    def test_several_parts(self):
        pair = value({"Aggregate": [kept_number(16, 1), kept_number(32, 2)]}, PAIR)
        self.assertEqual(pair, Aggregate((Number(1, U16), Number(2, U32)), PAIR))
        answer = value({"Aggregate": [kept_number(8, 1), kept_number(64, 2), "False"]}, ANSWER)
        self.assertEqual(answer, Case(1, (Number(2, U64), Truth(False)), ANSWER))
        self.assertEqual(value({"Repeat": [kept_number(16, 0), {"Lit": 4}]}, TABLE), Repeat(Number(0, U16), TABLE))
        address = value({"AddrOf": kept_place(6)}, Ref(False, TABLE))
        self.assertEqual(address, Address(Local(6, TABLE), Ref(False, TABLE)))

    def test_a_slice_of_a_raw_pointer(self):
        other = {"Aggregate": [kept_copy(9), kept_number(64, 1)]}
        self.assertEqual(value(other, WORDS), Aggregate((Local(9, Ref(False, TABLE)), Number(1, U64)), WORDS))
        with self.assertRaises(Unknown):
            value(other, Slice(False, U32))
        found = value({"Aggregate": [kept_copy(7), kept_number(64, 1)]}, WORDS)
        self.assertEqual(found, Aggregate((Local(7, Pointer()), Number(1, U64)), WORDS))

    def test_what_is_not_known_or_does_not_fit(self):
        for tree, ty in (
            (two({"Div": "Signed"}, kept_copy(1), kept_number(64, 2)), U64),
            (two({"Lt": "Signed"}, kept_copy(1), kept_number(64, 2)), BOOL),
            (two("FloatAdd", kept_copy(1), kept_number(64, 2)), U64),
            (two("WrapMul", kept_copy(1), kept_number(64, 2)), U64),
            (two("Add", kept_copy(1), kept_number(64, 2)), U64),
            (two({"Add": "Unsigned"}, kept_copy(1), kept_number(32, 2)), U64),
            (two({"Add": "Unsigned"}, kept_copy(2), "True"), BOOL),
            (two("WrapAdd", kept_copy(2), "True"), BOOL),
            (two({"WrapAdd": "Unsigned"}, kept_copy(1), kept_number(64, 2)), U64),
            (two({"Eq": "Unsigned"}, kept_copy(1), kept_number(64, 2)), BOOL),
            (two({"Add": {"Unsigned": 1}}, kept_copy(1), kept_number(64, 2)), U64),
            ({"Op1": [{"CountOnes": 7}, kept_copy(10)]}, U32),
            (operand({"True": 1}), BOOL),
            ({"Op1": ["TrailingZeros", kept_copy(1)]}, U32),
            ({"Op1": ["LeadingZeros", kept_copy(2)]}, U32),
            (operand(kept_number(16, 65536)), U16),
            (operand(kept_number(16, -1)), U16),
            (operand({"IntBig": {"width": 64, "value": 7}}), U64),
            (operand(kept_copy(1)), U32),
            (operand(kept_copy(99)), U64),
            (operand(kept_copy(5, {"Variant": 1})), ANSWER),
            ({"Aggregate": [kept_copy(7), kept_number(32, 1)]}, WORDS),
            (operand({"Copy": {"local": 1}}), U64),
            ({"Aggregate": [kept_number(16, 1)]}, PAIR),
            ({"Aggregate": [kept_number(32, 1), kept_number(32, 2)]}, PAIR),
            ({"Repeat": [kept_number(16, 0), {"Lit": 5}]}, TABLE),
            ({"Repeat": [kept_number(16, 0), {"Param": 0}]}, TABLE),
            ({"AddrOf": kept_place(6)}, U64),
            ({"Discriminant": kept_place(6)}, U64),
        ):
            with self.assertRaises(Unknown, msg=tree):
                value(tree, ty)


class Units(unittest.TestCase):
    """What holds nothing has no value."""

    def test_operands(self):
        for place in (
            kept_copy(11), kept_copy(12, FIELD_0), kept_copy(13, {"Variant": 0}, FIELD_1),
            kept_copy(11, {"Deref": "Unit"}, FIELD_0),
        ):
            self.assertEqual(value(operand(place), Unit()), Nothing())
        self.assertEqual(value({"AddrOf": kept_place(11)}, Unit()), Nothing())
        self.assertEqual(value({"Aggregate": []}, Unit()), Nothing())
        self.assertEqual(value({"Aggregate": [kept_copy(11), "Unit"]}, Unit()), Nothing())

    def test_parts(self):
        half = value({"Aggregate": [kept_copy(11), kept_number(16, 1)]}, HALF)
        self.assertEqual(half, Aggregate((Nothing(), Number(1, U16)), HALF))
        self.assertEqual(value({"Aggregate": [kept_number(8, 0), "Unit"]}, DONE), Case(0, (Nothing(),), DONE))

    def test_targets(self):
        self.assertEqual(statement(kept_assign(11, operand("Unit"))), Assign(Local(11, Unit()), Nothing()))
        stored = statement({"Assign": [kept_place(12, FIELD_0), operand(kept_copy(11))]})
        self.assertEqual(stored, Assign(Nothing(), Nothing()))

    def test_what_does_not_fit(self):
        for tree, ty in (
            (operand(kept_copy(11, {"Deref": kept_int(16)})), Unit()),
            (operand(kept_copy(11, {"Variant": 0}, FIELD_0)), Unit()), (operand(kept_copy(11)), U16),
            ({"AddrOf": kept_place(11)}, Ref(False, Unit())),
            ({"AddrOf": kept_place(11)}, Pointer()), ({"Aggregate": [kept_number(16, 1)]}, Unit()),
            ({"AddrOf": kept_place(1)}, Unit()), (operand(kept_number(16, 1)), Unit()),
        ):
            with self.assertRaises(Unknown, msg=tree):
                value(tree, ty)


class Constants(unittest.TestCase):
    def lent(self, ty, constant, to=None):
        target = Ref(False, read_type(ty) if to is None else to)
        reading = Reader([target], DECLARED, {})
        (found,) = reading.body([{"LendStatic": [kept_place(0), ty, constant]}])
        return found.value.value

    def test_each(self):
        ints = {"Ints": {"width": 16, "values": [1, 2, 1, 2]}}
        table = Aggregate(tuple(Number(n, U16) for n in (1, 2, 1, 2)), TABLE)
        self.assertEqual(self.lent(kept_array(kept_int(16), 4), ints), table)
        one, two_ = ({"Int": {"width": width, "value": value}} for width, value in ((16, 1), (32, 2)))
        self.assertEqual(self.lent(kept_int(16), one), Number(1, U16))
        alike = Aggregate((Number(1, U16),) * 4, TABLE)
        self.assertEqual(self.lent(kept_array(kept_int(16), 4), {"Repeat": [one, 4]}), alike)
        pair = Aggregate((Number(1, U16), Number(2, U32)), PAIR)
        self.assertEqual(self.lent(kept_named("c::Pair"), {"Parts": [one, two_]}), pair)
        answer = {"Parts": [kept_number(8, 1), kept_number(64, 2), {"Bool": True}]}
        self.assertEqual(self.lent(kept_named("c::Answer"), answer), Case(1, (Number(2, U64), Truth(True)), ANSWER))
        half = {"Parts": ["Unit", one]}
        self.assertEqual(self.lent(kept_named("c::Half"), half), Aggregate((Nothing(), Number(1, U16)), HALF))
        self.assertEqual(self.lent("Bool", {"Bool": False}), Truth(False))

    def test_what_is_not_known_or_does_not_fit(self):
        words, one = kept_array(kept_int(16), 4), kept_number(16, 1)
        for ty, constant, to in (
            (words, {"Ints": {"width": 16, "values": [1, 2, 3]}}, None), (words, {"Parts": [one] * 3}, None),
            (words, {"Ints": {"width": 32, "values": [1, 2, 3, 4]}}, None), (words, {"Repeat": [one, 3]}, None),
            (words, {"Ints": {"width": 16, "values": [1, 2, 3, 65536]}}, None), (kept_int(32), one, None),
            (words, {"Here": 16}, None), ("Bool", {"Bool": 1}, None), ("Bool", {"Bool": None}, None),
            (kept_int(16), {"Parts": [one]}, None), ({"Float": 32}, one, U32), (kept_int(16), one, U32),
            (kept_named("c::Answer"), {"Parts": [kept_number(8, 0), one]}, None),
        ):
            with self.assertRaises(Unknown, msg=constant):
                self.lent(ty, constant, to)


class Statements(unittest.TestCase):
    def test_each(self):
        self.assertEqual(statement("Return"), Return(Local(0, U64)))
        self.assertEqual(statement({"Exit": 2}), Exit(2))
        self.assertEqual(statement(kept_assign(1, operand(kept_number(64, 3)))), Assign(Local(1, U64), Number(3, U64)))
        called = statement(kept_call("c::f", [kept_copy(1)], 0))
        self.assertEqual(called, Assign(Local(0, U64), Call("c::f", (Local(1, U64),), U64)))
        read = statement({"If": kept_copy(2)}, "Skip", "Return")
        self.assertEqual(read, If(Local(2, BOOL), [], [Return(Local(0, U64))]))
        self.assertEqual(statement("Block", "Loop", {"Exit": 1}), Block([Loop([Exit(1)])]))
        read = reader().body(["Seq", "Seq", "Skip", {"Exit": 0}, "Seq", {"Exit": 1}, {"Exit": 2}])
        self.assertEqual(read, [Exit(0), Exit(1), Exit(2)])
        self.assertEqual(statement("Unreachable"), Unreachable())

    def test_switch(self):
        found = statement({"Switch": [kept_copy(1), [[0, 1], [2]], True]}, {"Exit": 0}, {"Exit": 1}, {"Exit": 2})
        self.assertEqual(found, Switch(Local(1, U64), [([0, 1], [Exit(0)]), ([2], [Exit(1)])], [Exit(2)]))
        found = statement({"Switch": [kept_copy(1), [[0]], False]}, "Skip")
        self.assertEqual(found, Switch(Local(1, U64), [([0], [])], None))

    def test_others_are_unknown(self):
        for words in (
            [{"Drop": kept_place(1)}], [{"If": kept_copy(1)}, "Skip", "Skip"], [{"If": kept_copy(2)}, "Skip"], [],
            ["Return", "Skip"], ["Seq", "Skip"], [kept_call("c::g", [], 0)], [{"Return": 1}],
            [{"Skip": []}], ["Exit"],
            [kept_call("c::f", [kept_copy(1)], 0, types=["Bool"])],
            [{"Call": [{"Method": [{"Given": 0}, 0, {"types": [], "dicts": []}]}, [], kept_place(0)]}],
            [{"Switch": [kept_copy(1), [[0]], None]}, "Skip"],
        ):
            with self.assertRaises(Unknown, msg=words):
                reader().body(words)


def calling(*names):
    """A function that calls some others."""
    return kept_function(0, [kept_int(64)], in_turn(*(kept_call(name, [], 0) for name in names), "Return"))


class Programs(unittest.TestCase):
    def names(self, definitions, *entries):
        return [function.name for function in read_program(definitions, entries).functions]

    def test_a_function(self):
        body = in_turn(kept_assign(0, operand(kept_number(64, 1))), "Return")
        types = [kept_type("c::Pair", {"Fields": [kept_int(16)]})]
        kept = kept_function(1, [kept_int(64), kept_named("c::Pair")], body, types, in_memory=[1])
        program = read_program({"c::f": kept}, ["c::f"])
        (function,) = program.functions
        self.assertEqual((function.name, function.parameters, function.in_memory), ("c::f", 1, frozenset({1})))
        self.assertEqual(function.body, [Assign(Local(0, U64), Number(1, U64)), Return(Local(0, U64))])
        self.assertEqual(program.declared, {"c::Pair": Fields((U16,))})

    def test_what_is_reached_crate_by_crate(self):
        definitions = {
            "low::a": calling("low::b"), "low::b": calling(), "low::c": calling(),
            "top::e": calling("top::g", "low::a"), "top::f": calling("top::e"), "top::g": calling("low::b"),
        }
        self.assertEqual(self.names(definitions, "top::f"), ["low::b", "low::a", "top::g", "top::e", "top::f"])

    def test_a_function_that_is_never_called(self):
        never = kept_function(0, [kept_int(64)], ["Unreachable"])
        choice = ["Seq", {"If": "True"}, "Skip", kept_call("c::never", [], 0), *in_turn("Skip", "Return")]
        definitions = {"c::never": never, "c::f": kept_function(0, [kept_int(64)], choice)}
        self.assertEqual(self.names(definitions, "c::f"), ["c::f"])
        with self.assertRaises(Unknown):
            self.names(definitions, "c::never")

    def test_a_crate_that_calls_a_later_one(self):
        with self.assertRaises(Unknown):
            self.names({"top::f": calling("low::a"), "low::a": calling()}, "top::f")

    def test_a_function_that_stands_in_another_crate_than_its_name_says(self):
        definitions = {"core::map": calling("c::closure"), "c::closure": calling(), "c::f": calling("core::map")}
        with self.assertRaises(Unknown):
            read_program(definitions, ["c::f"])
        program = read_program(definitions, ["c::f"], lambda name: "c")
        self.assertEqual([function.name for function in program.functions], ["c::closure", "core::map", "c::f"])
        definitions = {"core::map": calling(), "d::f": calling("core::map")}
        program = read_program(definitions, ["d::f"], lambda name: {"core::map": "c", "d::f": "d"}[name])
        self.assertEqual([function.name for function in program.functions], ["core::map", "d::f"])

    def test_what_is_not_there_or_calls_itself(self):
        for definitions in ({"c::f": calling("c::g")}, {"c::f": calling("c::g"), "c::g": calling("c::f")}, {}):
            with self.assertRaises(Unknown):
                read_program(definitions, ["c::f"])

    def test_parameters_that_are_types(self):
        generic, declared = calling(), calling()
        generic["generics"] = {**generic["generics"], "types": [{}]}
        declared["types"] = [{**kept_type("c::Pair", {"Fields": []}), "type_params": 1}]
        for definition in (generic, declared):
            with self.assertRaises(Unknown):
                read_program({"c::f": definition}, ["c::f"])

    def test_members_that_are_not_known(self):
        function, local, declared = calling(), calling(), calling()
        function["unwinds"] = False
        local["locals"][0] = {**local["locals"][0], "pinned": False}
        declared["types"] = [{**kept_type("c::Pair", {"Fields": []}), "packed": False}]
        for definition in (function, local, declared):
            with self.assertRaises(Unknown):
                read_program({"c::f": definition}, ["c::f"])

    def test_two_declarations(self):
        pair, other = calling("c::g"), calling()
        pair["types"] = [kept_type("c::Pair", {"Fields": []})]
        other["types"] = [kept_type("c::Pair", {"Fields": ["Bool"]})]
        with self.assertRaises(Unknown):
            read_program({"c::f": pair, "c::g": other}, ["c::f"])

    def test_unit_is_nothing(self):
        self.assertEqual(reader().operand("Unit"), Nothing())
