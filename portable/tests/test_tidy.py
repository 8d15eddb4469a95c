import unittest
from copy import deepcopy

from .making import BOOL, TABLE, U64, assign, binary, call, local, number, returned
from translator.terms import Assign, Block, Exit, Function, If, Local, Loop, Nothing, Return, Switch, Unit
from translator.tidy import (
    drop_unread, drop_unread_values, drop_units, gives, join, leaves, open_blocks, short_circuit, sink, use_parameters,
)

TEMPORARIES = frozenset(range(10, 100))


class Units(unittest.TestCase):
    def test_nothing_is_not_stored(self):
        body = [Assign(Local(0, Unit()), Nothing()), If(local(1, BOOL), [Assign(Local(0, Unit()), Nothing())], [])]
        drop_units(body)
        self.assertEqual(body, [If(local(1, BOOL), [], [])])

    def test_nothing_is_returned(self):
        body = [Return(Local(0, Unit()))]
        drop_units(body)
        self.assertEqual(body, [Return(Nothing())])


class Parameters(unittest.TestCase):
    def function(self, *body):
        return Function("f", 1, [U64, TABLE, TABLE, TABLE], frozenset({2}), list(body))

    def test_a_copy_to_memory_is_the_parameter(self):
        function = self.function(Assign(Local(2, TABLE), Local(1, TABLE)), Assign(Local(3, TABLE), Local(2, TABLE)))
        self.assertEqual(use_parameters(function), 1)
        self.assertEqual(function.body, [Assign(Local(3, TABLE), Local(1, TABLE))])
        self.assertEqual(function.in_memory, {1, 2})

    def test_not_where_the_parameter_is_used_too(self):
        body = [Assign(Local(2, TABLE), Local(1, TABLE)), Assign(Local(3, TABLE), Local(1, TABLE))]
        function = self.function(*body)
        self.assertEqual(use_parameters(function), 0)
        self.assertEqual(function.body, body)


    def test_what_holds_nothing_has_a_copy_too(self):
        """The variables stand behind the copies."""
        copies = [Assign(Local(2, Unit()), Nothing()), Assign(Local(3, TABLE), Local(1, TABLE))]
        function = Function("f", 1, [U64, TABLE, Unit(), TABLE, U64], frozenset({2, 3}), [*copies, returned(local(4))])
        self.assertEqual(use_parameters(function), 2)
        self.assertEqual(function.body, [returned(local(4))])
        self.assertEqual(function.in_memory, {1, 2, 3})
        function = Function("f", 1, [U64, TABLE, Unit()], frozenset(), [copies[0]])
        self.assertEqual(use_parameters(function), 0)


class Blocks(unittest.TestCase):
    def test_one_that_nothing_leaves_is_what_it_holds(self):
        body = [Loop([Block([assign(3, number(1)), If(local(1, BOOL), [Exit(2)], [Exit(1)])]), Exit(1)])]
        open_blocks(body)
        self.assertEqual(body, [Loop([assign(3, number(1)), If(local(1, BOOL), [Exit(1)], [Exit(0)]), Exit(1)])])

    def test_one_that_something_leaves_stays(self):
        for inner in ([Exit(0)], [Loop([Exit(1)])], [If(local(1, BOOL), [Exit(0)], [])]):
            body = [Block([*inner, assign(3, number(1))])]
            before = deepcopy(body)
            open_blocks(body)
            self.assertEqual(body, before)

    def test_what_leaves_blocks_within_stays_as_it_is(self):
        body = [Block([Block([Loop([Exit(1), Exit(3)])])])]
        open_blocks(body)
        self.assertEqual(body, [Block([Loop([Exit(1), Exit(2)])])])


class Sinks(unittest.TestCase):
    def test_a_return_goes_to_the_arms(self):
        body = [If(local(1, BOOL), [assign(10, number(1))], [assign(10, number(2))]), returned(local(10))]
        self.assertTrue(sink(body, TEMPORARIES))
        arms = [[assign(10, number(n)), returned(local(10))] for n in (1, 2)]
        self.assertEqual(body, [If(local(1, BOOL), *arms)])

    def test_so_does_an_assignment(self):
        switch = Switch(local(1), [([0], [assign(10, number(1))]), ([1], [returned(number(3))])], None)
        body = [switch, assign(3, local(10)), returned(local(3))]
        self.assertTrue(sink(body, TEMPORARIES))
        self.assertEqual(body[0].arms[0][1], [assign(10, number(1)), assign(3, local(10))])
        self.assertEqual(body[0].arms[1][1], [returned(number(3))])
        self.assertEqual(body[1:], [returned(local(3))])

    def test_not_past_an_arm_that_gives_nothing(self):
        body = [If(local(1, BOOL), [assign(10, number(1))], []), returned(local(10))]
        self.assertFalse(sink(body, TEMPORARIES))

    def test_not_where_the_value_is_needed_after(self):
        choice = If(local(1, BOOL), [assign(10, number(1))], [assign(10, number(2))])
        self.assertFalse(sink([choice, assign(3, local(10)), returned(local(10))], TEMPORARIES))

    def test_what_leaves_and_what_gives(self):
        self.assertTrue(leaves([If(local(1, BOOL), [Exit(0)], [returned(local(1))])]))
        self.assertFalse(leaves([If(local(1, BOOL), [Exit(0)], [])]))
        self.assertFalse(gives(If(local(1, BOOL), [Exit(0)], [Exit(1)]), 10))


class ShortCircuits(unittest.TestCase):
    def choice(self, then, otherwise):
        return [assign(10, binary("lt", local(1), local(2))), If(local(10, BOOL), then, otherwise)]

    def test_and_or(self):
        second = binary("eq", local(1), number(0))
        for arms, op in (([[assign(10, second)], []], "andalso"), ([[], [assign(10, second)]], "orelse")):
            body = self.choice(*arms)
            self.assertTrue(short_circuit(body))
            (joined,) = body
            self.assertEqual((joined.value.op, joined.value.right), (op, second))

    def test_not_where_an_arm_does_more(self):
        second = assign(10, binary("eq", local(1), number(0)))
        self.assertFalse(short_circuit(self.choice([assign(3, number(1)), second], [])))
        self.assertFalse(short_circuit(self.choice([second], [assign(3, number(1))])))
        self.assertFalse(short_circuit(self.choice([assign(11, second.value)], [])))

    def test_not_where_the_second_reads_the_first_or_memory_holds_it(self):
        second = assign(10, binary("xor", local(10, BOOL), local(5, BOOL)))
        self.assertFalse(short_circuit(self.choice([second], [])))
        self.assertFalse(short_circuit(self.choice([assign(10, local(5, BOOL))], []), frozenset({10})))


class Joins(unittest.TestCase):
    def test_a_temporary_that_is_a_variables_first_value(self):
        loop = Block([Loop([assign(10, call("f")), Exit(1)])])
        body = [loop, assign(3, local(10)), returned(local(3))]
        join(body, body, TEMPORARIES)
        self.assertEqual(body, [Block([Loop([assign(3, call("f")), Exit(1)])]), returned(local(3))])

    def test_not_where_either_is_used_elsewhere(self):
        loop = Block([Loop([assign(10, call("f")), Exit(1)])])
        set_before = [assign(3, number(0)), loop, assign(3, local(10))]
        for body in (set_before, [loop, assign(3, local(10)), returned(local(10))]):
            before = deepcopy(body)
            join(body, body, TEMPORARIES)
            self.assertEqual(body, before)


class UnreadValues(unittest.TestCase):
    def test_a_value_that_nothing_reads(self):
        body = [
            assign(10, local(1)), If(local(1, BOOL), [assign(11, local(2)), assign(3, number(1))], []),
            returned(local(3)),
        ]
        self.assertTrue(drop_unread_values(body, TEMPORARIES))
        self.assertEqual(body, [If(local(1, BOOL), [assign(3, number(1))], []), returned(local(3))])
        self.assertFalse(drop_unread_values(body, TEMPORARIES))

    def test_not_what_is_read_or_called_or_a_variable(self):
        carried = [Loop([assign(12, local(10)), assign(10, number(1)), If(local(12, BOOL), [Exit(1)], [])])]
        for body in (
            [assign(10, call("f")), returned(number(1))], [assign(3, number(1)), returned(number(1))],
            [assign(10, number(1)), returned(local(10))], [Block(carried)],
        ):
            before = deepcopy(body)
            self.assertFalse(drop_unread_values(body, TEMPORARIES))
            self.assertEqual(body, before)


class Unread(unittest.TestCase):
    def test_a_call_for_what_it_stores(self):
        body = [assign(10, call("f")), assign(3, call("g")), assign(10, call("h")), returned(local(10))]
        drop_unread(body, TEMPORARIES)
        self.assertEqual(body[0], Assign(Nothing(), call("f")))
        self.assertEqual(body[1:], [assign(3, call("g")), assign(10, call("h")), returned(local(10))])
