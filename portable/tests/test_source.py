import tempfile
import unittest
from pathlib import Path

from . import making  # noqa: F401, for the path
from translator.source import (
    Elements, Names, Question, Variable, bound, owner_name, read_crates, read_file, tokens_of, variables_of,
)

TEXT = """
// The head of the file.
#![tactic(auto)]

ghost use Rattle.std.specs.Prelude.{length};

// A length.
pub struct Length(pub u16);

// Two of them.
#[derive(Clone, Copy)]
pub struct Pair {
    // the shorter
    pub short: Length,
    pub long: Length,
}

pub enum Found {
    Nothing,
    At(usize),
    Field { place: usize, holds: bool },
}

impl Pair {
    // The sum,
    // told in two lines.
    #[tactic(auto, using(crate::proofs::M::lemma))]
    #[unsafe(no_mangle)]
    pub fn sum<'a>(self, mut more: u16, list: &'a [u16]) -> u16
        requires { (record { n = self.short }).n ≤ length list.now }
        ensures answer { result ≡ 0 }
    {
        let mut total: u16 = more; // not a `let other = 1`
        match look(list) {
            Found::Nothing => 0,
            Found::At(place) => { let twice = place * 2; twice }
            Found::Field { place, holds: good } if good => place,
            Found::Field { .. } => 1,
        }
    }
}

// A lonely comment.

fn none() -> usize {
    let (a, b) = (1, "let c = }");
    'scan: loop {
        let d = [a, b];
    }
}
"""


def read():
    names = Names()
    read_file(TEXT, ["crate", "module"], "crates/crate/src/module.rt", names)
    return names


class Functions(unittest.TestCase):
    def test_parameters_variables_and_comment(self):
        function = read().functions["crate::module::Pair::sum"]
        self.assertEqual(function.parameters, ["self", "more", "list"])
        names = [variable.name for variable in function.variables]
        self.assertEqual(names, ["total", "place", "twice", "place", "good"])
        self.assertEqual([variable.by_let for variable in function.variables], [True, False, True, False, False])
        self.assertEqual([variable.told for variable in function.variables], ["u16", None, None, None, None])
        self.assertEqual(function.comment, ["The sum,", "told in two lines."])
        self.assertEqual(function.file, "crates/crate/src/module.rt")

    def test_a_comment_above_a_blank_line_belongs_to_nothing(self):
        function = read().functions["crate::module::none"]
        self.assertEqual(function.comment, [])
        self.assertEqual([variable.name for variable in function.variables], ["a", "b", "d"])

    def test_what_patterns_bind(self):
        self.assertEqual(bound(tokens_of("Found::Field { place, holds: good, .. }")), ["place", "good"])
        self.assertEqual(bound(tokens_of("Found::At(_)")), [])
        self.assertEqual(bound(tokens_of("mut k")), ["k"])
        self.assertEqual(bound(tokens_of("3")), [])

    def test_values_bind_nothing(self):
        self.assertEqual(variables_of(tokens_of("f(a, b); Pair { short: a, long: b }")), [])


class Types(unittest.TestCase):
    def test_structs(self):
        types = read().types
        self.assertEqual(types["crate::module::Length"].fields, [None])
        self.assertEqual(types["crate::module::Pair"].fields, ["short", "long"])

    def test_enums(self):
        found = read().types["crate::module::Found"]
        self.assertEqual(found.variants, [("Nothing", []), ("At", [None]), ("Field", ["place", "holds"])])


class Handed(unittest.TestCase):
    def handed_to(self, body):
        names = Names()
        read_file(f"fn f(a: u8, out: &mut [u8]) {{ {body} }}", ["c"], "crates/c/src/lib.rt", names)
        return names.functions["c::f"].handed_to()

    def test_a_call_with_the_parameters(self):
        self.assertEqual(self.handed_to("low::part::g(a, out)"), "low::part::g")
        self.assertEqual(self.handed_to("low::g(\n a, // first\n out,\n )"), "low::g")

    def test_whatever_else(self):
        for body in ("low::g(out, a)", "low::g(a)", "low::g(a, &out)", "low::g(a, out);", "low::g(a, out)()", "a", ""):
            self.assertIsNone(self.handed_to(body), msg=body)
        self.assertEqual(self.handed_to("1 + low::g(a, out)"), "1+low::g")


GENERIC = """
#[derive(Clone, Copy, PartialEq)]
pub struct Clear<T, const N: usize> {
    pub at: [T; N],
    ghost clear: { length at ≡ N },
    pub many: usize,
}

enum Found<T: Copy> {
    Nothing,
    At(T),
}

pub trait Weight {
    fn weight(self) -> [u8; 2]
        ensures { length result ≡ 2 };
    fn twice(self) -> u32 { let two = 2; two }
}

impl<T: Weight, const N: usize> Weight for Clear<T, N> {
    fn weight(self) -> [u8; 2] { let own = 1; [own, own] }
}

impl<'a, T> Index<'a, T> where T: Copy {
    pub fn get<F: Fn(u16, &T) -> Option<T>>(&'a self, by: F) -> Option<T>
        requires { F.IsAlwaysCallable by }
    {
        let found = 1;
    }
}

impl From<Result<(), low::Refusal>> for Told {
    fn from(r: Result<(), low::Refusal>) -> Told { r }
}

fn store<T: Copy, U>(values: &[T]) -> Found<U> {}
"""


class Generic(unittest.TestCase):
    def setUp(self):
        self.names = Names()
        read_file(GENERIC, ["c"], "crates/c/src/lib.rt", self.names)

    def test_functions(self):
        parameters = {name: text.parameters for name, text in self.names.functions.items()}
        self.assertEqual(parameters, {
            "c::Weight::twice": ["self"], "c::ClearWeight::weight": ["self"], "c::Index::get": ["self", "by"],
            "c::ToldFromResultUnitRefusal::from": ["r"], "c::store": ["values"],
        })
        found = self.names.functions["c::Index::get"]
        self.assertEqual([variable.name for variable in found.variables], ["found"])

    def test_types(self):
        clear = self.names.types["c::Clear"]
        self.assertEqual((clear.fields, clear.derived), (["at", "many"], ["Clone", "Copy", "PartialEq"]))
        self.assertEqual(self.names.types["c::Found"].variants, [("Nothing", []), ("At", [None])])

    def test_what_an_impl_is_named(self):
        for head, name in (
            ("Pair", "Pair"), ("<'a> Index<'a>", "Index"), ("Weight for u16", "U16Weight"),
            ("Weight for &Id", "RefIdWeight"), ("Weight for &mut Id", "RefMutIdWeight"),
            ("Weight for &'a Id", "RefIdWeight"), ("<T> Weight for Clear<T>", "ClearWeight"),
            ("TryFrom<&[u16]> for Id", "IdTryFromRefSliceU16"), ("From<[u16; 4]> for Id", "IdFromArrayU164"),
            ("From<(u16, bool)> for low::Id", "IdFromTuple2U16Bool"), ("Weight for Clear<u8>", "ClearU8Weight"),
            ("From<Result<usize, Refusal>> for Told", "ToldFromResultUsizeRefusal"),
            ("<T, const N: usize> From<[T; N]> for Held<T, N>", "HeldFromArray"),
            ("From<&[u16; low::TWO_MORE]> for Told", "ToldFromRefArrayU16TWOMORE"),
        ):
            self.assertEqual(owner_name(tokens_of(head)), name)


class Loops(unittest.TestCase):
    def names(self, text):
        return [(type(variable).__name__[0], variable.name) for variable in variables_of(tokens_of(text))]

    def test_a_range_binds_its_variable_alone(self):
        for over in ("0..n", "f(a[0])..=9u16", "(0..n).rev()", "(a.b(0)..n)"):
            self.assertEqual(self.names(f"for k in {over} {{ let x = 1; }}"), [("V", "k"), ("V", "x")])
        self.assertEqual(self.names("for _ in 0..4 { f(); }"), [])

    def test_elements_are_counted(self):
        for over in ("s", "&s[a..b]", "s.iter()", "f(a..b, |x| { x })"):
            self.assertEqual(self.names(f"for x in {over} {{}}"), [("E", "x"), ("V", "x")])
        found = variables_of(tokens_of("for (k, &x) in s.iter_mut().enumerate() {}"))
        self.assertEqual(found, [Elements("x", True), Variable("k", False), Variable("x", False)])


class Questions(unittest.TestCase):
    def test_each_stands_where_it_is_asked(self):
        found = variables_of(tokens_of("f()?; let a = g(h()?)?; match k()? { b => b }"))
        a, b, asked = Variable("a", True), Variable("b", False), Question()
        self.assertEqual(found, [asked, a, asked, asked, asked, b])


class Closures(unittest.TestCase):
    def test_what_they_bind_is_their_own(self):
        for closure in (
            "|x| { let y = x; y }", "move |x| match x { y => y, z => z }", "|x: u16| -> u16 { let y = x; y }",
            "|| { let y = 1; y }", "|x| requires { y ≤ x } { let y = x; y }", "|x| f(x, { let y = 1; y }) + g(x)",
        ):
            found = variables_of(tokens_of(f"let a = f({closure}, 1); let b = {closure}; let c = a | b | 2;"))
            self.assertEqual([variable.name for variable in found], ["a", "b", "c"], msg=closure)

    def test_each_is_a_function(self):
        text = """
        impl Pair {
            fn sum(self) -> u16 {
                let add = |x| x + 1;
                let a = self.list.map(3, |x: u16| x).map(move |(x, y), &z, _, mut w| { let v = x; v });
                fold(a, |x| { fold(a, |y| y + add(x)) })
            }
        }
        """
        names = Names()
        read_file(text, ["c", "m"], "crates/c/src/m.rt", names)
        found = {name: (text.parameters[1:], [variable.name for variable in text.variables])
                 for name, text in names.functions.items() if "fn" in name.split("::")}
        self.assertEqual(found, {
            "c::m::fn::Pair::sum::add": (["x"], []), "c::m::fn::Pair::sum::map": (["x"], []),
            "c::m::fn::Pair::sum::map+2": (["p2", "p3", "p4", "w"], ["x", "y", "z", "v"]),
            "c::m::fn::Pair::sum::fold": (["x"], []), "c::m::fn::Pair::sum::fn::fold::fold": (["y"], []),
        })

    def test_alternatives_are_none(self):
        found = variables_of(tokens_of("match a { At | Other(1 | 2) => { let y = x; } _ => 1 }"))
        self.assertEqual([variable.name for variable in found], ["y"])


class Crates(unittest.TestCase):
    def test_modules_go_by_their_files(self):
        with tempfile.TemporaryDirectory() as root:
            for file in ("lib", "part", "deep/part"):
                path = Path(root, "crates", "c", "src", f"{file}.rt")
                path.parent.mkdir(parents=True, exist_ok=True)
                path.write_text("#[unsafe(no_mangle)]\nfn f() {}\nfn g() {}\n", encoding="utf-8")
            functions = read_crates(root).functions
        self.assertEqual({name for name in functions if functions[name].exported},
                         {"c::f", "c::part::f", "c::deep::part::f"})
        self.assertEqual(functions["c::deep::part::g"].file, "crates/c/src/deep/part.rt")
