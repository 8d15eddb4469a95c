import json
import unittest

from .making import (
    in_turn, kept_array, kept_assign, kept_call, kept_copy, kept_function, kept_generic, kept_impl, kept_int,
    kept_method, kept_named, kept_number, kept_place, kept_ref, kept_slice, kept_type,
)
from translator.instances import instances
from translator.terms import Unknown

T, N, GIVEN = {"Param": 0}, {"Param": 1}, {"Given": 0}
U16, U32, U64 = kept_int(16), kept_int(32), kept_int(64)
OPTION = {**kept_type("core::option::Option", {"Variants": [[], [T]]}), "type_params": 1}
PAIR = {**kept_type("(,)", {"Fields": [T, N]}), "type_params": 2, "is_tuple": True}
NONE = {**kept_type("c::fn::f::map+Self", {"Fields": []}), "is_tuple": True}
UNIT = {"Opd": "Unit"}


def option(of):
    return kept_named("core::option::Option", of)


def function(result, *statements, locals_=(), types=()):
    return kept_function(0, [result, *locals_], in_turn(*statements, "Return"), types)


def calling(*calls, locals_=(U64,) * 4, types=()):
    return function("Unit", *calls, locals_=locals_, types=types)


def impl(name, types=(), dicts=()):
    return {"Impl": [name, list(types), list(dicts)]}


class Names(unittest.TestCase):
    def names(self, definitions, entry="c::f"):
        return list(instances(definitions, [entry]).definitions)

    def test_a_function_at_its_types(self):
        low = kept_generic(function(T))
        calls = (kept_call("low::g", [], 1, [ty]) for ty in (
            U16, "Bool", kept_slice("Mut", U16), kept_array(U32, 3), kept_ref("Imm", U16), option(option(U16)), U16,
        ))
        names = self.names({"low::g": low, "c::f": calling(*calls, types=[OPTION])})
        types = ["u16", "bool", "slice_u16_mut", "u32_3", "ref_u16", "Option_Option_u16"]
        self.assertEqual(names, [*(f"low::g_{ty}" for ty in types), "c::f"])

    def test_types_of_one_name_go_by_their_paths(self):
        types = [kept_type(name, {"Fields": [U16]}) for name in ("low::Seen", "high::Seen", "low::Once")]
        calls = [kept_call("low::g", [], 1, [kept_named(entry["name"])]) for entry in types]
        caller = calling(*calls, types=types)
        definitions = {"low::g": kept_generic(function(T)), "high::h": function(U16), "c::f": caller}
        self.assertEqual(self.names(definitions), ["low::g_low_Seen", "low::g_Once", "low::g_high_Seen", "c::f"])

    def test_the_types_of_the_kit_and_tuples(self):
        pair = kept_named("(,)", option(U16), kept_named("c::Own", U16))
        own = {**kept_type("c::Own", {"Fields": [T]}), "type_params": 1}
        plain = instances({"core::g": function(U16), "c::f": function(pair, types=[OPTION, PAIR, own])}, ["c::f"])
        types = {entry["name"]: entry["shape"] for entry in plain.definitions["c::f"]["types"]}
        self.assertEqual(types, {
            "tuple_Option_u16_Own_u16": {"Fields": [kept_named("Option_u16"), kept_named("c::Own_u16")]},
            "Option_u16": {"Variants": [[], [U16]]}, "c::Own_u16": {"Fields": [U16]},
        })
        self.assertEqual(plain.definitions["c::f"]["locals"][0]["ty"], kept_named("tuple_Option_u16_Own_u16"))
        origin = plain.origins["tuple_Option_u16_Own_u16"]
        self.assertEqual((origin.name, origin.types, origin.crate), ("(,)", ["Option_u16", "Own_u16"], "c"))

    def test_a_function_that_is_passed(self):
        """It is of the type unit: which it is only the dictionary tells."""
        definitions = {
            "low::g": kept_generic(function(U16, kept_method(GIVEN, 0, [], 0)), bounds=[("core::ops::Fn", T)]),
            "c::c++one+Fn::call": function(U16), "c::c++two+Fn::call": function(U16),
        }
        impls = [kept_impl(f"c::c++{name}+Fn", [f"c::c++{name}+Fn::call"]) for name in ("one", "two")]
        calls = [kept_call("low::g", [], 1, ["Unit"], [impl(entry["name"])]) for entry in impls]
        definitions["c::f"] = kept_generic(calling(*calls), (), impls=impls)
        names = ["c::c++one+Fn::call", "low::g_one", "c::c++two+Fn::call", "low::g_two", "c::f"]
        self.assertEqual(sorted(self.names(definitions)), sorted(names))

    def test_dictionaries_that_no_name_tells_apart(self):
        """A type meets a bound by one impl alone."""
        definitions = {
            "low::g": kept_generic(function(U16, kept_method(GIVEN, 0, [], 0)), bounds=[("low::Tr", T)]),
            "low::a": function(U16), "low::b": function(U16),
        }
        impls = [kept_impl("low::A", ["low::a"]), kept_impl("low::B", ["low::b"])]
        calls = [kept_call("low::g", [], 1, [U16], [impl(entry["name"])]) for entry in impls]
        for one in calls:
            caller = kept_generic(calling(one), (), impls=impls)
            self.assertIn("low::g_u16", self.names({**definitions, "c::f": caller}))
        with self.assertRaises(Unknown):
            self.names({**definitions, "c::f": kept_generic(calling(*calls), (), impls=impls)})

    def test_a_closure_goes_by_its_own_name(self):
        captures = {**kept_type("c::fn::f::map+Self", {"Fields": [T]}), "type_params": 1, "is_tuple": True}
        closure = kept_named("c::fn::f::map+Self", kept_ref("Imm", U16))
        definitions = {"low::g": kept_generic(function(T))}
        for kinds, name in (((), "low::g_f_map"), ((None,), "low::g_f_map_Self_ref_u16")):
            impls = [kept_impl("c::fn::f::map+FnOnce", ["c::fn::f::map+FnOnce::call_once"], len(kinds))]
            caller = calling(kept_call("low::g", [], 1, [closure]), types=[captures])
            definitions["c::f"] = kept_generic(caller, (), impls=impls)
            self.assertEqual(self.names(definitions), [name, "c::f"])

    def test_one_name_for_two(self):
        of = kept_generic(function(T))
        call = kept_call("low::g", [], 1, [U16])
        for definitions in (
            {"low::g": of, "low::g_u16": function(U16)},
            {"low::g": of, "low::h": function(U16, types=[kept_type("low::g_u16", {"Fields": [U16]})])},
        ):
            with self.assertRaises(Unknown):
                self.names({**definitions, "c::f": calling(call)})

    def test_one_name_for_two_instances(self):
        types = [kept_type(f"low::{name}", {"Fields": [U16]}) for name in ("A", "B", "A_A", "A_B")]
        low = {"low::g": kept_generic(function(T), (None, None))}
        pairs = [[kept_named(f"low::{name}") for name in pair] for pair in (("A_A", "B"), ("A", "A_B"))]
        first, second = (kept_call("low::g", [], 1, pair) for pair in pairs)
        for call in (first, second):
            self.assertEqual(self.names({**low, "c::f": calling(call, types=types)}), ["low::g_A_A_B", "c::f"])
        with self.assertRaises(Unknown):
            self.names({**low, "c::f": calling(first, second, types=types)})


class Bodies(unittest.TestCase):
    def made(self, definitions, name, entry="c::f"):
        return instances(definitions, [entry]).definitions[name]

    def test_types_and_numbers_are_put_in(self):
        body = in_turn(
            kept_assign(1, {"Opd": {"SizeOf": T}}), kept_assign(1, {"Opd": {"NumOf": [64, N]}}),
            kept_assign(2, {"Repeat": [kept_copy(3, {"Deref": T}), N]}), "Return",
        )
        low = kept_generic(kept_function(1, [{"Array": [T, N]}, U64, {"Array": [T, N]}, kept_ref("Imm", T)], body),
                           (None, 64))
        made = self.made({"low::g": low, "c::f": calling(kept_call("low::g", [], 1, [U16, {"Const": 3}]))},
                         "low::g_u16_3")
        self.assertEqual([local["ty"] for local in made["locals"]], [
            kept_array(U16, 3), U64, kept_array(U16, 3), kept_ref("Imm", U16),
        ])
        self.assertEqual(made["body"], in_turn(
            kept_assign(1, {"Opd": kept_number(64, 2)}), kept_assign(1, {"Opd": kept_number(64, 3)}),
            kept_assign(2, {"Repeat": [kept_copy(3, {"Deref": U16}), {"Lit": 3}]}), "Return",
        ))
        self.assertFalse(any(made["generics"].values()))

    def test_the_impl_of_a_dictionary(self):
        """The impl's arguments come before the method's own."""
        definitions = {
            "low::g": kept_generic(function(U16, kept_method(GIVEN, 1, [kept_copy(0)], 0)), bounds=[("low::Tr", T)]),
            "low::PairTr::a": function(U16),
            "low::PairTr::b": kept_generic(
                function(T, kept_method({"Given": 1}, 0, [], 0)), bounds=[("low::X", T), ("low::Y", T)]
            ),
            "low::U16Tr::a": function(U16),
        }
        impls = [kept_impl("low::PairTr", ["low::PairTr::a", "low::PairTr::b"], 1, 2),
                 kept_impl("low::U16Tr", ["low::U16Tr::a"])]
        inner = impl("low::U16Tr")
        dictionary = impl("low::PairTr", [U32], [inner, inner])
        definitions["c::f"] = kept_generic(calling(kept_call("low::g", [], 1, [U16], [dictionary])), (), impls=impls)
        made = instances(definitions, ["c::f"]).definitions
        self.assertEqual(made["low::g_u16"]["body"][1], kept_call("low::PairTr::b_u32", [kept_copy(0)], 0))
        self.assertEqual(made["low::PairTr::b_u32"]["body"][1], kept_call("low::U16Tr::a", [], 0))

    def test_calls_that_do_nothing_are_left_out(self):
        """Where a value is dropped. Then the dictionary makes no difference."""
        definitions = {
            "low::g": kept_generic(function(T, kept_method(GIVEN, 0, [kept_copy(1)], 2), locals_=[T, "Unit"]),
                                   bounds=[("core::marker::Destruct", T)]),
            "c::D::drop": kept_generic(kept_function(1, ["Unit", T], in_turn("Skip", kept_assign(0, UNIT), "Return"))),
            "d::D::drop": kept_generic(kept_function(1, ["Unit", T], in_turn(kept_assign(0, UNIT), "Return"))),
        }
        impls = [kept_impl("c::D", ["c::D::drop"], 1), kept_impl("d::D", ["d::D::drop"], 1)]
        calls = [kept_call("low::g", [], 1, [U16], [impl(name, [U16])]) for name in ("c::D", "d::D")]
        definitions["d::f"] = kept_generic(calling(*calls), (), impls=impls)
        made = instances(definitions, ["d::f"]).definitions
        self.assertEqual(list(made), ["low::g_u16", "d::f"])
        self.assertEqual(made["low::g_u16"]["body"][1], kept_assign(2, UNIT))

    def test_a_call_that_does_something_is_none_of_these(self):
        definitions = {
            "low::g": kept_generic(function("Unit", kept_method(GIVEN, 0, [], 0)), bounds=[("low::Tr", T)]),
            "c::D::drop": function("Unit", kept_call("low::h", [], 0), kept_assign(0, UNIT)),
            "low::h": function("Unit"),
        }
        caller = calling(kept_call("low::g", [], 1, [U16], [impl("c::D")]))
        definitions["c::f"] = kept_generic(caller, (), impls=[kept_impl("c::D", ["c::D::drop"])])
        self.assertIn("c::D::drop", instances(definitions, ["c::f"]).definitions)

    def test_what_holds_nothing_is_the_unit(self):
        held = {**kept_type("c::Held", {"Fields": [T, U16]}), "type_params": 1}
        inner = kept_type("c::Inner", {"Fields": ["Unit", kept_named("c::fn::f::map+Self")]})
        locals_ = [kept_named("c::fn::f::map+Self"), kept_ref("Mut", kept_named("c::Inner")),
                   kept_named("c::Held", kept_named("c::fn::f::map+Self"))]
        plain = instances({"c::f": function("Unit", locals_=locals_, types=[NONE, held, inner])}, ["c::f"])
        made = plain.definitions["c::f"]
        self.assertEqual([local["ty"] for local in made["locals"][1:]], ["Unit", "Unit", kept_named("c::Held_f_map")])
        shapes = {entry["name"]: entry["shape"] for entry in made["types"]}
        self.assertEqual(shapes["c::Held_f_map"], {"Fields": ["Unit", U16]})

    def test_lifetimes_make_no_difference(self):
        span = {**kept_type("c::Span", {"Fields": [{"Ref": [{"Bound": 0}, "Imm", U16]}]}), "lifetimes": 1}
        named = {"Named": [{"name": "c::Span", "lifetimes": [{"Named": 0}]}, []]}
        calls = [kept_call("low::g", [], 1, [{"Ref": [region, "Imm", named]}]) for region in ("Erased", {"Named": 3})]
        made = instances({"low::g": kept_generic(function(T)), "c::f": calling(*calls, types=[span])}, ["c::f"])
        self.assertEqual(list(made.definitions), ["low::g_ref_Span", "c::f"])
        self.assertEqual(made.definitions["low::g_ref_Span"]["locals"][0]["ty"], kept_ref("Imm", kept_named("c::Span")))


class Crates(unittest.TestCase):
    def crates(self, definitions, entry):
        plain = instances(definitions, [entry])
        return {name: plain.origins[name].crate for name in plain.definitions}

    def test_the_last_that_an_instance_is_made_of(self):
        definitions = {
            "core::map": kept_generic(function(U16, kept_method(GIVEN, 0, [], 0)), bounds=[("core::ops::Fn", T)]),
            "low::h": function(U16), "c::fn::f::map+Fn::call": function(U16, kept_call("low::h", [], 0)),
            "top::e": calling(kept_call("c::f", [], 1)),
        }
        low = kept_type("low::Low", {"Fields": [U16]})
        impls = [kept_impl("c::fn::f::map+Fn", ["c::fn::f::map+Fn::call"])]
        call = kept_call("core::map", [], 1, [kept_named("low::Low")], [impl("c::fn::f::map+Fn")])
        definitions["c::f"] = kept_generic(calling(call, types=[low]), (), impls=impls)
        order = ["core::map", "low::h", "c::f", "c::fn::f::map+Fn::call", "top::e"]
        crates = self.crates({name: definitions[name] for name in order}, "top::e")
        self.assertEqual(crates, {
            "low::h": "low", "c::fn::f::map+Fn::call": "c", "core::map_Low": "c", "c::f": "c", "top::e": "top",
        })
        plain = instances({name: definitions[name] for name in order}, ["top::e"])
        self.assertEqual(list(plain.definitions)[0], "low::h")

    def test_a_type_alone(self):
        low = kept_type("low::Low", {"Fields": [U16]})
        definitions = {
            "core::g": kept_generic(function(T)), "low::h": function(U16),
            "c::f": calling(kept_call("core::g", [], 1, [kept_named("low::Low")]), types=[low]),
        }
        self.assertEqual(self.crates(definitions, "c::f"), {"core::g_Low": "low", "c::f": "c"})


class Refused(unittest.TestCase):
    def test_calls(self):
        low = kept_generic(function(T), bounds=[("low::Tr", T)])
        impls = [kept_impl("low::U16Tr", ["low::U16Tr::a"])]
        number = kept_generic(function(U16), (64,))
        known = {"low::g": low, "low::U16Tr::a": function(U16), "low::n": number}
        right = impl("low::U16Tr")
        for call in (
            kept_call("low::g", [], 1, [U16]), kept_call("low::g", [], 1, [], [right]),
            kept_call("low::g", [], 1, [U16, U16], [right]), kept_call("low::g", [], 1, [{"Const": 3}], [right]),
            kept_call("low::g", [], 1, [U16], [impl("low::None")]), kept_call("low::g", [], 1, [U16], [GIVEN]),
            kept_call("low::g", [], 1, [U16], [{"Other": 0}]), kept_call("low::g", [], 1, [T], [right]),
            kept_call("low::g", [], 1, [{"Float": 32}], [right]), kept_call("low::none", [], 1),
            kept_call("low::n", [], 1, [U16]), kept_method(right, 1, [], 1), kept_method(GIVEN, 0, [], 1),
            kept_call("low::g", [], 1, [kept_named("low::None")], [right]),
            {"Call": [{"Prim": "Load"}, [], kept_place(1)]},
            {"Call": [{"Fn": ["low::g", {"types": [U16], "dicts": [right], "more": []}]}, [], kept_place(1)]},
        ):
            caller = kept_generic(calling(call), (), impls=impls)
            with self.assertRaises(Unknown, msg=call):
                instances({**known, "c::f": caller}, ["c::f"])
        fine = kept_generic(calling(kept_call("low::g", [], 1, [U16], [right])), (), impls=impls)
        self.assertIn("low::g_u16", instances({**known, "c::f": fine}, ["c::f"]).definitions)

    def test_an_entry_that_takes_types(self):
        with self.assertRaises(Unknown):
            instances({"c::f": kept_generic(function(T))}, ["c::f"])

    def test_types(self):
        for entry, used in (
            (OPTION, kept_named("core::option::Option")), (OPTION, kept_named("core::option::Option", U16, U16)),
            (OPTION, option({"Const": 3})), ({**OPTION, "const_params": [[0, 64]]}, option(U16)),
            ({**OPTION, "shape": {"Fields": [N]}}, option(U16)), ({**OPTION, "shape": {"Union": [T]}}, option(U16)),
            (OPTION, {"Array": [U16, N]}), (OPTION, {"Int": 16, "Bool": 1}),
        ):
            with self.assertRaises(Unknown, msg=str(used)):
                instances({"core::g": function(U16), "c::f": function(used, types=[entry])}, ["c::f"])

    def test_two_declarations(self):
        definitions = {"c::f": function(U16, types=[OPTION]), "c::g": function(U16, types=[{**OPTION, "owns": True}])}
        with self.assertRaises(Unknown):
            instances(definitions, ["c::f"])

    def test_members_that_are_not_known(self):
        generics = {**function(U16)["generics"], "unwinds": False}
        with self.assertRaises(Unknown):
            instances({"c::f": {**function(U16), "generics": generics}}, ["c::f"])
        spends = {**function(U16)["generics"], "spends_self": True}
        self.assertTrue(instances({"c::f": {**function(U16), "generics": spends}}, ["c::f"]).definitions)
        call = kept_call("low::g", [], 1, [U16], [impl("low::U16Tr")])
        for change in ({"generics": {}}, {"methods": None}):
            impls = [{**kept_impl("low::U16Tr", ["low::U16Tr::a"]), **change}]
            impls = [{key: value for key, value in impls[0].items() if value is not None}]
            definitions = {"low::g": kept_generic(function(T), bounds=[("low::Tr", T)]), "low::U16Tr::a": function(U16)}
            definitions["c::f"] = kept_generic(calling(call), (), impls=impls)
            with self.assertRaises(Unknown):
                instances(definitions, ["c::f"])

    def test_calls_at_ever_more_types(self):
        more = kept_generic(calling(kept_call("c::g", [], 1, [option(T)]), types=[OPTION]))
        definitions = {"core::h": function(U16), "c::g": more, "c::f": calling(kept_call("c::g", [], 1, [U16]))}
        with self.assertRaises(Unknown):
            instances(definitions, ["c::f"])

    def test_the_size_of_what_is_no_number(self):
        for ty in (option(U16), kept_slice("Imm", U16), "Ptr"):
            body = function("Unit", kept_assign(1, {"Opd": {"SizeOf": ty}}), locals_=[U64], types=[OPTION])
            with self.assertRaises(Unknown, msg=json.dumps(ty)):
                instances({"core::g": function(U16), "c::f": body}, ["c::f"])
