import unittest

from .making import BOOL, U8, U16, U32, U64, WORDS, WORDS_MUT, Array, Named
from translator.header import Crossing, read_text
from translator.source import Names, TypeText
from translator.terms import Fields, Function, Unknown

TEXT = """
/* typedef struct { uint8_t no; } comment; */
#define MOST 0x3u
typedef struct {
    uint16_t a, b; /* two */
} c_pair;

typedef struct {
    uint32_t number;
    c_pair pairs[MOST];
} c_report;

c_report c_make(c_pair pair, const uint16_t *list, size_t n, uint16_t *out,
                size_t room);
"""
PAIR, REPORT = Named("c::Pair"), Named("c::Report")
DECLARED = {"c::Pair": Fields((U16, U16)), "c::Report": Fields((U32, Array(PAIR, 3)))}
LOCALS = [REPORT, PAIR, WORDS, WORDS_MUT]


def names(**changed):
    fields = {"Pair": ["a", "b"], "Report": ["number", "pairs"], **changed}
    return Names(types={f"c::{name}": TypeText("", [], labels) for name, labels in fields.items()})


def match(text=TEXT, declared=DECLARED, locals_=LOCALS, source=None):
    header = read_text(text, {})
    crossing = Crossing(header, declared, source or names())
    crossing.match_entry(header.entries["c_make"], Function("c::c_make", len(locals_) - 1, locals_, frozenset(), []))
    return crossing


class Reading(unittest.TestCase):
    def test_an_entry_without_parameters(self):
        entry = read_text("uint32_t c_version(void); /* gives 9 */", {}).entries["c_version"]
        self.assertEqual((entry.result, entry.parameters), ("uint32_t", []))

    def test_structs_and_entries(self):
        header = read_text(TEXT, {})
        self.assertEqual(sorted(header.structs), ["c_pair", "c_report"])
        self.assertEqual([(f.type, f.name, f.length) for f in header.structs["c_report"]],
                         [("uint32_t", "number", None), ("c_pair", "pairs", 3)])
        entry = header.entries["c_make"]
        self.assertEqual([(p.type, p.name) for p in entry.parameters], [
            ("c_pair", "pair"), ("const uint16_t *", "list"), ("size_t", "n"), ("uint16_t *", "out"),
            ("size_t", "room"),
        ])


class Agreement(unittest.TestCase):
    def test_names_in_c(self):
        self.assertEqual(match().structs, {"c::Pair": "c_pair", "c::Report": "c_report"})

    def test_signed_fields(self):
        self.assertEqual(match().signed, set())
        self.assertEqual(match(text=TEXT.replace("uint32_t number", "int32_t number")).signed, {("c::Report", 0)})

    def test_what_was_proved_otherwise(self):
        wrong = [
            {"locals_": [REPORT, PAIR, WORDS, WORDS]},
            {"locals_": [REPORT, PAIR, WORDS]},
            {"locals_": [REPORT, PAIR, WORDS, WORDS_MUT, U64]},
            {"locals_": [PAIR, PAIR, WORDS, WORDS_MUT]},
            {"locals_": [REPORT, BOOL, WORDS, WORDS_MUT]},
            {"declared": {**DECLARED, "c::Pair": Fields((U16, U8))}},
            {"declared": {**DECLARED, "c::Pair": Fields((U16, U16, U16))}},
            {"declared": {**DECLARED, "c::Report": Fields((U32, Array(PAIR, 4)))}},
            {"source": names(Pair=["b", "a"])},
            {"text": TEXT.replace("const uint16_t *list", "const uint8_t *list")},
            {"text": TEXT.replace("const uint16_t *list", "const int16_t *list")},
            {"text": TEXT.replace("uint32_t number", "int16_t number")},
        ]
        for change in wrong:
            with self.assertRaises(Unknown, msg=change):
                match(**change)
