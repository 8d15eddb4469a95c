import unittest

from .making import U16, U64, WORDS, Named, assign, binary, local, number, returned
from translator.cnames import PathNames, local_names, located
from translator.source import Elements, FunctionText, Question, Variable
from translator.terms import Block, Exit, Function, Loop, Ref, Unit, Unknown

X = Variable("x", False)


def loop(locals_, counter, variables):
    """A function of a slice with a loop that counts by a local."""
    turn = [assign(counter, binary("add", local(counter), number(1))), Exit(1)]
    body = [assign(counter, number(0)), Block([Loop(turn)]), returned(number(1))]
    function = Function("c::f", 1, [U64, WORDS, *locals_], frozenset(), body)
    return function, FunctionText("crates/c/src/lib.rt", [], ["s"], variables)


class Variables(unittest.TestCase):
    def names(self, *parts):
        return {index: variable.name for index, variable in located(*loop(*parts), 0)}

    def test_one_after_the_other(self):
        found = self.names([U64, U16], 2, [Variable("k", True), X])
        self.assertEqual(found, {2: "k", 3: "x"})

    def test_the_number_of_an_element_stands_before_it(self):
        found = self.names([U16, U64, Ref(False, U16), U16], 3, [Variable("a", True), Elements("x", False), X])
        self.assertEqual(found, {2: "a", 3: "x_index", 4: "x"})

    def test_and_what_holds_the_elements_before_that(self):
        found = self.names([WORDS, U64, U16], 3, [Elements("x", False), X])
        self.assertEqual(found, {2: "x_items", 3: "x_index", 4: "x"})

    def test_a_number_that_has_a_name(self):
        variables = [Elements("x", True), Variable("k", False), X]
        self.assertEqual(self.names([U64, U16], 2, variables), {2: "k", 3: "x"})
        self.assertEqual(self.names([WORDS, U64, U16], 3, variables), {2: "x_items", 3: "k", 4: "x"})

    def test_an_iterator_that_lies_in_memory(self):
        steps = Named("Rev_Iter_u16")
        for variables, names in (
            ([Elements("x", False), X], ["x_items", "x_steps", "x_item", "x"]),
            ([Elements("x", True), Variable("k", False), X], ["x_items", "x_steps", "x_item", "k", "x"]),
        ):
            function, text = loop([steps, steps, U16, U16, U16, U64], 7, variables)
            with self.assertRaises(Unknown):
                located(function, text, 0)
            function.in_memory = frozenset({3})
            self.assertEqual([variable.name for _, variable in located(function, text, 0)], names)

    def test_what_a_question_binds_has_no_name(self):
        refused = Named("ErrResidual_Refusal")
        for handed_back in (refused, Unit()):
            found = self.names([U16, U16, handed_back, U64], 5, [Variable("a", True), Question(), X])
            self.assertEqual(found, {2: "a", 5: "x"})
        for locals_ in ([U16, U16, U64, U64], [U16, U16]):
            with self.assertRaises(Unknown):
                self.names(locals_, 3, [Variable("a", True), Question(), X])

    def test_not_where_mir_has_none(self):
        for locals_, counter in (([U16, U64, U16, U16], 3), ([WORDS, U16, U64, U16], 5), ([U64, U16, U16, U16], 2)):
            function, text = loop(locals_, counter, [Variable("a", True), Elements("x", False), X])
            if counter == 3:
                self.assertEqual(len(located(function, text, 0)), 3)
                function.body[0] = assign(counter, number(1))
            with self.assertRaises(Unknown, msg=locals_):
                located(function, text, 0)

    def test_a_type_that_is_told(self):
        for told, fine in (("u16", False), ("usize", True), ("Pair", True)):
            function, text = loop([U64], 2, [Variable("k", True, told)])
            if fine:
                self.assertEqual(local_names(function, text, 0)[2], "k")
            else:
                with self.assertRaises(Unknown):
                    local_names(function, text, 0)


class Paths(unittest.TestCase):
    def test_signs_that_c_does_not_have(self):
        self.assertEqual(PathNames(set()).name("c::fn::f::map+2+Fn::call"), "c_fn_f_map_2_Fn_call")

    def test_one_name_for_two(self):
        paths = PathNames(set())
        self.assertEqual(paths.name("c::store_u16"), "c_store_u16")
        with self.assertRaises(Unknown):
            paths.name("c::store::u16")
