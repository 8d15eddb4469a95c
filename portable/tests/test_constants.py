import unittest

from .making import BOOL, TABLE, U16, WORDS, Named, binary, local, number
from translator.cnames import PathNames
from translator.constants import Constants
from translator.ctypes_ import Types
from translator.expressions import Expressions
from translator.source import Names, TypeText
from translator.terms import Address, Aggregate, Array, Deref, Field, Fields, Lent, Offset, Ref, Truth

ROW = Named("c::Row")
VALUE = Aggregate(tuple(number(n, U16) for n in (3, 1, 4, 1)), TABLE)
HERE = Lent(VALUE, Ref(False, TABLE))


def writer():
    paths = PathNames(set())
    source = Names(types={"c::Row": TypeText("crates/c/src/lib.rt", [], ["mark", "on"])})
    types = Types({"c::Row": Fields((U16, BOOL))}, source, paths, {})
    constants = Constants(types, paths)
    return constants, Expressions(types, paths, {1: "k"}, lambda value: constants.name(value, "c::f"))


class Written(unittest.TestCase):
    def test_each_stands_once_and_is_named_by_who_lends_it_first(self):
        constants, _ = writer()
        row = Aggregate((number(7, U16),), Array(U16, 1))
        names = [constants.name(*pair) for pair in ((VALUE, "c::f"), (row, "c::f"), (VALUE, "c::g"))]
        self.assertEqual(names, ["c_f_constant", "c_f_constant_2", "c_f_constant"])
        self.assertEqual(constants.lines(), [
            "", "static const struct array_u16_4 c_f_constant = {{3, 1, 4, 1}};",
            "", "static const struct array_u16_1 c_f_constant_2 = {{7}};",
        ])

    def test_rows(self):
        constants, _ = writer()
        row = Aggregate((number(7, U16), Truth(True)), ROW)
        constants.name(Aggregate((row, row), Array(ROW, 2)), "c::f")
        part = "{.mark = 7, .on = true}"
        line = "static const struct array_c_Row_2 c_f_constant = {{" + f"{part}, {part}" + "}};"
        self.assertEqual(constants.lines()[1], line)

    def test_what_reads_it(self):
        _, expressions = writer()
        whole = Address(Deref(HERE, TABLE), Ref(False, TABLE))
        for expression, text in (
            (HERE, "&c_f_constant"), (Deref(HERE, TABLE), "c_f_constant"),
            (whole, "&c_f_constant"), (Deref(HERE, U16), "*c_f_constant.a"),
            (Address(Deref(HERE, U16), Ref(False, U16)), "c_f_constant.a"),
            (Deref(Offset(whole, binary("mul", local(1), number(2))), U16), "c_f_constant.a[k]"),
            (Aggregate((HERE, number(4)), WORDS), "slice_u16(c_f_constant.a, 4)"),
        ):
            self.assertEqual(expressions.text(expression), text)

    def test_a_part_of_it(self):
        _, expressions = writer()
        row = Lent(Aggregate((number(7, U16), Truth(True)), ROW), Ref(False, ROW))
        self.assertEqual(expressions.text(Field(Deref(row, ROW), 0, U16)), "c_f_constant.mark")
