import unittest

from .making import U16, U32, U64, WORDS, WORDS_MUT, assign, binary, call, element, local, number, returned
from translator.pointers import keep_pointers
from translator.terms import (
    Address, Aggregate, Assign, Deref, Field, Function, Local, Offset, Pointer, Ref, Unknown,
)

LIST, OUT, AT = Local(1, WORDS), Local(2, WORDS_MUT), Local(3, Pointer())
TO_WORD, TO_WORD_MUT = Ref(False, U16), Ref(True, U16)


def kept(*body):
    locals_ = [U64, WORDS, WORDS_MUT, Pointer(), U16, U64]
    function = Function("c::f", 2, locals_, frozenset(), list(body))
    keep_pointers(function)
    return function


class Kept(unittest.TestCase):
    def test_the_address_of_an_element(self):
        for of, ty in ((LIST, TO_WORD), (OUT, TO_WORD_MUT)):
            stored = Assign(AT, Address(element(of, local(5)), Pointer()))
            function = kept(stored, assign(4, Deref(AT, U16)), returned(local(5)))
            self.assertEqual(function.locals[3], ty)
            here = Local(3, ty)
            self.assertEqual(function.body[:2], [
                Assign(here, Address(element(of, local(5)), ty)), assign(4, Deref(here, U16)),
            ])

    def test_so_many_bytes_past_one(self):
        past = Offset(Field(OUT, 0, TO_WORD_MUT), binary("mul", local(5), number(2)))
        rest = Aggregate((AT, number(1)), WORDS_MUT)
        function = kept(Assign(AT, past), Assign(OUT, rest), returned(local(5)))
        self.assertEqual(function.body[0], Assign(Local(3, TO_WORD_MUT), Address(Deref(past, U16), TO_WORD_MUT)))
        self.assertEqual(function.body[1].value.parts[0], Local(3, TO_WORD_MUT))

    def test_a_local(self):
        function = kept(Assign(AT, Address(local(4, U16), Pointer())), assign(5, local(5)))
        self.assertEqual(function.locals[3], TO_WORD_MUT)

    def test_not_to_two_types_or_from_elsewhere(self):
        here = Assign(AT, Address(element(LIST, local(5)), Pointer()))
        past = Assign(AT, Offset(Field(LIST, 0, TO_WORD), local(5)))
        for body in (
            [here, assign(4, Deref(AT, U32))],
            [past, assign(4, Deref(AT, U32)), assign(5, Deref(AT, U16))], [past],
            [Assign(AT, call("c::f", ty=Pointer())), assign(4, Deref(AT, U16))],
        ):
            with self.assertRaises(Unknown):
                kept(*body)
