import unittest

from .making import BOOL, U64, assign, call, local, number, returned
from translator.reach import reached, without_unreachable
from translator.terms import Block, Exit, Function, If, Loop, Switch, Unknown, Unreachable

FLAG, NEVER = local(1, BOOL), [Unreachable()]
ONE, TWO = [assign(3, number(1))], [assign(3, number(2))]


def left(*body):
    return reached(list(body), {"c::never"})


class Lists(unittest.TestCase):
    def test_one_that_goes_on_to_it_is_never_begun(self):
        for body in (NEVER, [*ONE, *NEVER], [assign(3, call("c::never"))], [*ONE, Block(NEVER)], [Loop(NEVER)]):
            self.assertIsNone(left(*body))
        self.assertEqual(left(assign(3, call("c::f"))), [assign(3, call("c::f"))])

    def test_not_where_something_may_leave_before(self):
        for before in (If(FLAG, [returned(local(1))], []), Loop([Exit(1)]), Block([Exit(0)])):
            with self.assertRaises(Unknown):
                left(before, *NEVER)


class Choices(unittest.TestCase):
    def test_the_other_arm_stands_for_an_if(self):
        self.assertEqual(left(If(FLAG, ONE, NEVER), *TWO), ONE + TWO)
        self.assertEqual(left(If(FLAG, NEVER, ONE)), ONE)
        self.assertEqual(left(If(FLAG, NEVER, []), *TWO), TWO)
        self.assertIsNone(left(If(FLAG, NEVER, NEVER)))
        self.assertEqual(left(If(FLAG, ONE, [If(FLAG, TWO, NEVER)])), [If(FLAG, ONE, TWO)])

    def test_a_switch_is_without_the_arm(self):
        arms = [([0], ONE), ([1], NEVER), ([2], TWO)]
        self.assertEqual(left(Switch(local(1), arms, None)), [Switch(local(1), [arms[0], arms[2]], None)])
        self.assertEqual(left(Switch(local(1), arms[:2], NEVER)), ONE)
        self.assertEqual(left(Switch(local(1), arms[:2], TWO)), [Switch(local(1), arms[:1], TWO)])
        self.assertEqual(left(Switch(local(1), arms[1:2], TWO)), TWO)
        self.assertIsNone(left(Switch(local(1), arms[1:2], None)))

    def test_what_stands_within_blocks(self):
        self.assertEqual(left(Block([If(FLAG, [Exit(0)], NEVER)])), [Block([Exit(0)])])


class Functions(unittest.TestCase):
    def test_one_that_is_never_called(self):
        bodies = {"c::a": NEVER, "c::b": [assign(0, call("c::a"))], "c::f": [If(FLAG, ONE, [assign(3, call("c::b"))])]}
        (function,) = without_unreachable(self.functions(bodies), ["c::f"])
        self.assertEqual((function.name, function.body), ("c::f", ONE))
        for entry in ("c::a", "c::b"):
            with self.assertRaises(Unknown):
                without_unreachable(self.functions(bodies), [entry])

    def test_one_that_is_called_where_nothing_comes(self):
        """No compiler likes a function that is not called."""
        arm = [assign(3, call("c::only_there")), *NEVER]
        bodies = {
            "c::a": ONE, "c::only_there": [assign(3, call("c::a"))], "c::b": TWO,
            "c::f": [If(FLAG, [assign(3, call("c::b"))], arm)],
        }
        functions = without_unreachable(self.functions(bodies), ["c::f"])
        self.assertEqual([function.name for function in functions], ["c::b", "c::f"])

    def functions(self, bodies):
        return [Function(name, 1, [U64, BOOL], frozenset(), list(body)) for name, body in bodies.items()]
