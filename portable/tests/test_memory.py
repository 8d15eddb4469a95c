import unittest

from .making import BOOL, U16, U32, U64, U8, WORDS
from translator.memory import Memory
from translator.terms import Array, Fields, Named, Ref, Unit, Unknown, Variants

DECLARED = {
    "c::Mixed": Fields((U32, U64, U16)),
    "c::Small": Fields((U16, U8)),
    "c::Plain": Variants(((), ())),
    "c::Choice": Variants(((), (U8, U16), (U64,))),
    "c::Holder": Fields((Named("c::Plain"), BOOL, Named("c::Small"))),
}


class Sizes(unittest.TestCase):
    def setUp(self):
        self.memory = Memory(DECLARED)

    def test_parts_are_aligned(self):
        self.assertEqual(self.memory.offsets(Named("c::Mixed")), [0, 8, 16])
        self.assertEqual(self.memory.size(Named("c::Mixed")), 24)
        self.assertEqual(self.memory.size(Named("c::Small")), 4)
        self.assertEqual(self.memory.offsets(Named("c::Holder")), [0, 1, 2])

    def test_an_enum_is_a_tag_and_its_longest_variant(self):
        self.assertEqual(self.memory.size(Named("c::Plain")), 1)
        self.assertEqual(self.memory.size_and_alignment(Named("c::Choice")), (16, 8))

    def test_the_others(self):
        for ty, size in ((BOOL, 1), (Unit(), 0), (Ref(True, U8), 8), (WORDS, 16), (Array(Named("c::Small"), 3), 12)):
            self.assertEqual(self.memory.size(ty), size)

    def test_what_is_not_declared(self):
        with self.assertRaises(Unknown):
            self.memory.size(Named("c::Other"))
