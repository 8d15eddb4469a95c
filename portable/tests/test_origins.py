import unittest

from . import making  # noqa: F401, for the path
from translator.instances import Origin
from translator.origins import other_note, texts
from translator.source import FunctionText, Names, TypeText
from translator.terms import Fields, Int, Unit, Unknown, Variants

FILE = "crates/c/src/lib.rt"
SOURCE = Names(
    {"c::store": FunctionText(FILE, ["Stores."], ["values"], [])},
    {"c::Clear": TypeText(FILE, [], ["at", "many"], derived=["Clone", "PartialEq"])},
)
U16 = Int(16)


def told(name, origin, types, declared):
    return texts(SOURCE, {name: Origin(origin, types, "c")}, {name: declared}).types[name]


class Texts(unittest.TestCase):
    def test_an_instance_has_the_text_that_it_was_made_from(self):
        found = texts(SOURCE, {"c::store_u16": Origin("c::store", ["u16"], "c")}, {})
        self.assertEqual(found.functions["c::store_u16"].parameters, ["values"])
        self.assertEqual(found.functions["c::store_u16"].path, "c::store<u16>")
        clear = told("c::Clear_u16", "c::Clear", ["u16"], Fields((U16, U16)))
        self.assertEqual((clear.fields, clear.path, clear.file), (["at", "many"], "c::Clear<u16>", FILE))

    def test_the_kits_types(self):
        result = told("Result_unit_u16", "core::result::Result", ["unit", "u16"], Variants(((Unit(),), (U16,))))
        self.assertEqual(result.variants, [("Ok", [None]), ("Err", [None])])
        option = told("Option_u16", "core::option::Option", ["u16"], Variants(((), (U16,))))
        self.assertEqual(option.variants, [("None", []), ("Some", [None])])
        flow = told("ControlFlow_u16", "core::ops::ControlFlow", ["u16"], Variants(((U16,), (U16,))))
        self.assertEqual([name for name, _ in flow.variants], ["Continue", "Break"])
        pair = told("tuple_u16_u16", "(,)", ["u16", "u16"], Fields((U16, U16)))
        self.assertEqual((pair.fields, pair.path), ([None, None], "(u16, u16)"))
        captures = told("c::fn::f::map+Self", "c::fn::f::map+Self", [], Fields((U16,)))
        self.assertEqual((captures.fields, captures.file), ([None], "what a closure captures"))

    def test_types_that_nothing_tells_of(self):
        for origin, declared in (
            ("c::Other", Fields((U16,))), ("core::other::Enum", Variants(((), ()))),
            ("core::result::Result", Variants(((U16,),) * 3)),
        ):
            with self.assertRaises(Unknown, msg=origin):
                found = told("name", origin, [], declared)
                if len(found.variants) != len(declared.types):
                    raise Unknown("the shape, which check_shape refuses")


class Notes(unittest.TestCase):
    def test_functions_without_a_text(self):
        for name, said in (
            ("core::option::Option::map", "of the kit's library"), ("c::ClearPartialEq::eq", "which is derived"),
            ("c::fn::f::map", "a closure"), ("c::fn::f::map+2", "a closure"),
            ("c::fn::f::map+2+FnOnce::call_once", "how what is passed to a function is called"),
            ("c::c++f+Fn::call", "how what is passed to a function is called"),
        ):
            self.assertEqual(other_note(SOURCE, Origin(name, ["u16"], "c")), f"{name}<u16>, {said}")

    def test_a_function_that_the_source_should_have(self):
        for name in ("c::missing", "c::ClearOrd::cmp", "c::Clear::get"):
            with self.assertRaises(Unknown, msg=name):
                other_note(SOURCE, Origin(name, [], "c"))
