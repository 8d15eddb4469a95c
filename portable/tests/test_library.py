import json
import os
import subprocess
import tempfile
import unittest
from pathlib import Path

from .making import (
    in_turn, kept_assign, kept_call, kept_copy, kept_function, kept_generic, kept_impl, kept_int, kept_method,
    kept_named, kept_number, kept_place, kept_ref, kept_slice, kept_type,
)
from translator.terms import Unknown
from translator.unit import Library

FROM_MIR = Path(__file__).resolve().parent.parent / "from_mir"

HEADER = """
typedef struct {
    uint16_t t1, t0;
} c_pair;

uint16_t c_first(c_pair pair, const uint16_t *list, size_t n);
"""

SOURCE = """
#![tactic(auto)]

pub struct Pair {
    pub t1: u16,
    pub t0: u16,
}

// Their sum.
fn sum(pair: Pair) -> u16 {
    pair.t1 + pair.t0
}

pub fn c_first(pair: Pair, list: &[u16]) -> u16
    ensures some { length list.now ≡ 0 }
{
    let k = list.len();
    if k == 0 {
        return sum(pair);
    }
    list[k - 1]
}
"""

EXPORTS = """
#[unsafe(no_mangle)]
pub extern "C" fn c_first(pair: Pair, list: &[u16]) -> u16
    ensures some { length list.now ≡ 0 }
{
    c::c_first(pair, list)
}
"""

INT16, INT64, NAMED, SLICE = kept_int(16), kept_int(64), kept_named("c::Pair"), kept_slice("Imm", kept_int(16))


def two(op, left, right):
    return {"Op2": [op, left, right]}


def definitions():
    """What the built library c has, in another order than that of its calls."""
    pair = [kept_type("c::Pair", {"Fields": [INT16, INT16]})]
    sum_ = two({"Add": "Unsigned"}, kept_copy(1, {"Field": 0}), kept_copy(1, {"Field": 1}))
    first = in_turn(
        kept_assign(3, {"Opd": kept_copy(2, {"Field": 1})}),
        kept_assign(4, two("Eq", kept_copy(3), kept_number(64, 0))),
    )
    first = [
        "Seq", first[1], "Seq", first[2], "Seq", {"If": kept_copy(4)},
        *in_turn(kept_call("c::sum", [kept_copy(1)], 0), "Return"), "Skip",
        *in_turn(
            kept_assign(5, two({"Sub": "Unsigned"}, kept_copy(3), kept_number(64, 1))),
            kept_assign(6, two({"Mul": "Unsigned"}, kept_copy(5), kept_number(64, 2))),
            kept_assign(7, two("Offset", kept_copy(2, {"Field": 0}), kept_copy(6))),
            kept_assign(0, {"Opd": kept_copy(7, {"Deref": INT16})}), "Return",
        ),
    ]
    unused = kept_function(0, [{"Float": 32}], ["Unreachable"])
    return {
        "c::c_first": kept_function(2, [INT16, NAMED, SLICE, INT64, "Bool", INT64, INT64, "Ptr"], first, pair),
        "c::sum": kept_function(1, [INT16, NAMED], in_turn(kept_assign(0, sum_), "Return"), pair),
        "c::unused": unused,
    }


class Whole(unittest.TestCase):
    def setUp(self):
        folder = tempfile.TemporaryDirectory()
        self.addCleanup(folder.cleanup)
        self.root = Path(folder.name)
        (self.root / "include").mkdir()
        for crate in ("c", "c_c"):
            (self.root / "crates" / crate / "src").mkdir(parents=True)
        self.write(HEADER, SOURCE)

    def write(self, header, source, exports=EXPORTS):
        (self.root / "include" / "c.h").write_text(header, encoding="utf-8")
        for crate, text in (("c", source), ("c_c", exports)):
            (self.root / "crates" / crate / "src" / "lib.rt").write_text(text, encoding="utf-8")

    def text(self, changed=None):
        return Library("c", changed or definitions(), self.root, "the kit").text()

    def test_the_functions(self):
        text = self.text()
        self.assertIn("""\
/* c::sum, crates/c/src/lib.rt: Their sum. */
static uint16_t c_sum(c_pair pair) {
    return pair.t1 + pair.t0;
}
""", text)
        self.assertIn("""\
static uint16_t c_c_first(c_pair pair, struct slice_u16 list) {
    uint64_t k = list.len;
    if (k == 0) return c_sum(pair);
    return list.at[k - 1];
}
""", text)

    def test_the_entry_and_the_asserts(self):
        text = self.text()
        self.assertIn("""\
uint16_t c_first(c_pair pair, const uint16_t *list, size_t n) {
    uint16_t none_u16 = 0;
    return c_c_first(pair, slice_u16(n == 0 ? &none_u16 : list, n));
}
""", text)
        self.assertIn("SIZE(c_pair, 4);\nFIELD(c_pair, t1, 0, 2);\nFIELD(c_pair, t0, 2, 2);\n", text)

    def test_twice_the_same(self):
        self.assertEqual(self.text(), self.text())

    def test_no_line_is_long(self):
        self.assertLessEqual(max(len(line) for line in self.text().splitlines()), 120)

    def test_a_header_that_does_not_fit(self):
        for header in (HEADER.replace("uint16_t t1", "uint32_t t1"), HEADER.replace("c_first(", "c_last("), ""):
            self.write(header, SOURCE)
            with self.assertRaises(Unknown):
                self.text()

    def test_a_source_that_does_not_fit(self):
        for unlike in (("pub t0: u16,", ""), ("sum(pair: Pair)", "sum()")):
            self.write(HEADER, SOURCE.replace(*unlike))
            with self.assertRaises(Unknown):
                self.text()

    def test_exports_that_do_not_fit(self):
        for unlike in (
            ("#[unsafe(no_mangle)]", ""), ("fn c_first", "fn c_last"),
            ("c::c_first(pair, list)", "c::c_first(list, pair)"),
            ("c::c_first(pair, list)", "c::sum(pair)"), ("c::c_first(pair, list)", "1 + c::c_first(pair, list)"),
            ("c::c_first(pair, list)", "c::c_first(pair, list);"), ("    c::", "    let list = list;\n    c::"),
        ):
            self.write(HEADER, SOURCE, EXPORTS.replace(*unlike))
            with self.assertRaises(Unknown, msg=unlike):
                self.text()

    def test_a_function_that_calls_itself(self):
        with self.assertRaises(Unknown):
            self.text({**definitions(), "c::sum": definitions()["c::c_first"]})


GENERIC_HEADER = "uint16_t c_fill(uint16_t *list, size_t n);"

GENERIC_SOURCE = """
// Stores what a function makes of a value.
fn store<T: Copy, F: Fn(T) -> T>(out: &mut [T], value: T, by: F) -> Option<()> {
    for x in out {
        *x = by(value);
    }
    Some(())
}

pub fn c_fill(list: &mut [u16]) -> u16 {
    store(list, 3, |x| x);
    7
}
"""

GENERIC_EXPORTS = """
#[unsafe(no_mangle)]
pub extern "C" fn c_fill(list: &mut [u16]) -> u16 {
    c::c_fill(list)
}
"""

OF, BY, LIST = {"Param": 0}, {"Param": 1}, kept_slice("Mut", INT16)
CLOSURE, GIVES = kept_named("c::fn::c_fill::store+Self"), kept_named("core::option::Option", "Unit")
OPTION = {**kept_type("core::option::Option", {"Variants": [[], [OF]]}), "type_params": 1}
SELF = {**kept_type("c::fn::c_fill::store+Self", {"Fields": []}), "is_tuple": True}


def store():
    """`by` lies in memory, and its copy there is the first of the variables."""
    locals_ = [GIVES, kept_slice("Mut", OF), OF, BY, BY, INT64, kept_ref("Mut", OF), "Bool", INT64, "Ptr", OF, "Unit"]
    turn = [
        kept_assign(8, two({"Mul": "Unsigned"}, kept_copy(5), {"SizeOf": OF})),
        kept_assign(9, two("Offset", kept_copy(1, {"Field": 0}), kept_copy(8))),
        kept_assign(6, {"AddrOf": kept_place(9, {"Deref": OF})}),
        kept_method({"Given": 0}, 0, [kept_copy(4), kept_copy(2)], 10),
        {"Assign": [kept_place(6, {"Deref": OF}), {"Opd": kept_copy(10)}]},
        kept_assign(5, two({"Add": "Unsigned"}, kept_copy(5), kept_number(64, 1))),
    ]
    below = kept_assign(7, two({"Lt": "Unsigned"}, kept_copy(5), kept_copy(1, {"Field": 1})))
    body = [
        "Seq", kept_assign(4, {"Opd": kept_copy(3)}), "Seq", kept_assign(5, {"Opd": kept_number(64, 0)}),
        "Seq", "Block", "Loop", "Seq", below, "Seq", {"If": kept_copy(7)}, "Skip", {"Exit": 1}, *in_turn(*turn),
        *in_turn(
            kept_method({"Given": 1}, 0, [kept_copy(4)], 11),
            kept_assign(0, {"Aggregate": [kept_number(8, 1), "Unit"]}), "Return",
        ),
    ]
    function = kept_function(3, locals_, body, [OPTION], in_memory=[4])
    return kept_generic(function, (None, None), [("core::ops::Fn+1", BY, OF, OF), ("core::marker::Destruct", BY)])


def generic_definitions():
    impls = [kept_impl(f"c::fn::c_fill::store+{name}", ["c::fn::c_fill::store+Fn::call"]) for name in ("Fn", "FnOnce")]
    impls.append(kept_impl("c::Destruct++none", ["c::Destruct++none::drop"], 1))
    dicts = [{"Impl": [impls[0]["name"], [], []]}, {"Impl": ["c::Destruct++none", [CLOSURE], []]}]
    fill = in_turn(
        kept_assign(2, {"Aggregate": []}),
        kept_call("c::store", [kept_copy(1), kept_number(16, 3), kept_copy(2)], 3, [INT16, CLOSURE], dicts),
        kept_assign(0, {"Opd": kept_number(16, 7)}), "Return",
    )
    call = in_turn(kept_assign(0, {"Opd": kept_copy(2)}), "Return")
    drop = in_turn(kept_assign(0, {"Opd": "Unit"}), "Return")
    return {
        "c::c_fill": kept_generic(
            kept_function(1, [INT16, LIST, CLOSURE, GIVES], fill, [OPTION, SELF]), (), impls=impls
        ),
        "c::store": store(),
        "c::fn::c_fill::store+Fn::call": kept_function(2, [INT16, kept_ref("Imm", CLOSURE), INT16], call, [SELF]),
        "c::Destruct++none::drop": kept_generic(kept_function(1, ["Unit", OF], drop)),
    }


class Generic(unittest.TestCase):
    def text(self):
        with tempfile.TemporaryDirectory() as folder:
            files = {"include/c.h": GENERIC_HEADER, "crates/c/src/lib.rt": GENERIC_SOURCE}
            for name, text in {**files, "crates/c_c/src/lib.rt": GENERIC_EXPORTS}.items():
                Path(folder, name).parent.mkdir(parents=True)
                Path(folder, name).write_text(text, encoding="utf-8")
            return Library("c", generic_definitions(), Path(folder), "the kit").text()

    def test_an_instance(self):
        text = self.text()
        self.assertIn("""\
/* c::store<u16, c_fill_store>, crates/c/src/lib.rt: Stores what a function makes of a value. */
static struct Option_unit c_store_u16_c_fill_store(struct slice_u16_mut out, uint16_t value) {
    uint64_t x_index = 0;
    while (x_index < out.len) {
        out.at[x_index] = c_fn_c_fill_store_Fn_call(value);
        x_index++;
    }
    return (struct Option_unit){.tag = Option_unit_Some};
}
""", text)
        self.assertIn("    c_store_u16_c_fill_store(list, 3);\n    return 7;\n", text)
        self.assertNotIn("drop", text)

    def test_what_it_is_made_of(self):
        text = self.text()
        self.assertIn("""\
/* core::option::Option<unit>, of the kit's library */
enum { Option_unit_None, Option_unit_Some };
struct Option_unit {
    uint8_t tag;
};
""", text)
        self.assertIn("""\
/* c::fn::c_fill::store+Fn::call, how what is passed to a function is called */
static uint16_t c_fn_c_fill_store_Fn_call(uint16_t p2) {
    return p2;
}
""", text)


class Command(unittest.TestCase):
    def run_with(self, version, library=None):
        """Runs from_mir with a kit that prints a version, and a library of its own."""
        with tempfile.TemporaryDirectory() as folder:
            rt = Path(folder, "rt")
            said = f"[ $1 = version ] && echo '{version}' || echo {folder}/page.md"
            rt.write_text(f"#!/bin/sh\n{said}\n", encoding="utf-8")
            rt.chmod(0o755)
            if library is not None:
                kept = Path(folder, "rlibs", "core.rlib", "toolchain")
                kept.mkdir(parents=True)
                (kept / "mir.json").write_text(json.dumps(library), encoding="utf-8")
            path = f"{folder}:{os.environ['PATH']}"
            return subprocess.run(
                [FROM_MIR, "none"], env={**os.environ, "PATH": path}, capture_output=True, text=True, check=False
            )

    def known(self):
        lines = FROM_MIR.read_text(encoding="utf-8").splitlines()
        return next(line for line in lines if line.startswith("KIT = ")).split('"')[1]

    def test_another_kit_says_so(self):
        done = self.run_with("another kit")
        self.assertEqual((done.returncode, done.stdout), (2, ""))
        self.assertIn("the kit is another kit, and this translator was written for", done.stderr)

    def test_a_library_that_is_not_built(self):
        done = self.run_with(self.known())
        self.assertEqual((done.returncode, done.stdout), (2, ""))
        self.assertIn("the library core is not built", done.stderr)

    def test_two_functions_of_one_name(self):
        done = self.run_with(self.known(), [["core::f", {}], ["core::f", {}]])
        self.assertEqual((done.returncode, done.stdout), (2, ""))
        self.assertIn("two functions core::f", done.stderr)
