import unittest
from copy import deepcopy

from .making import BOOL, U8, U16, U32, U64, WORDS, WORDS_MUT, assign, binary, call, element, local, number, returned
from translator.fold import Folder
from translator.terms import Address, Aggregate, Assign, Block, Deref, Exit, Field, If, Local, Loop, Ref, Switch

LIST, OUT = Local(1, WORDS), Local(2, WORDS_MUT)
# locals from 10 on are temporaries; local 9 is one whose address is taken
TEMPORARIES = frozenset(range(9, 100)) | {0}


def folded(*body, in_memory=frozenset({9}), too_long=lambda statement: False):
    body = list(body)
    Folder(in_memory, TEMPORARIES, too_long).fold(body)
    return body


class GivesWay(unittest.TestCase):
    def test_to_its_one_reader(self):
        sum_ = binary("add", local(3), number(1))
        self.assertEqual(folded(assign(10, sum_), assign(4, local(10))), [assign(4, sum_)])

    def test_through_a_row_of_temporaries(self):
        sum_ = binary("add", local(3), number(1))
        product = binary("mul", local(10), number(2))
        body = folded(assign(10, sum_), assign(11, product), returned(local(11)))
        self.assertEqual(body, [returned(binary("mul", sum_, number(2)))])

    def test_to_a_condition_and_to_a_switch(self):
        test = binary("lt", local(3), local(4))
        body = folded(assign(10, test), If(local(10, BOOL), [returned(local(3))], []))
        self.assertEqual(body, [If(test, [returned(local(3))], [])])
        body = folded(assign(10, local(3)), Switch(local(10), [([0], [])], [returned(local(4))]))
        self.assertEqual(body[0].value, local(3))

    def test_where_it_is_set_anew(self):
        body = folded(assign(10, local(3)), assign(10, binary("add", local(10), number(1))), returned(local(10)))
        self.assertEqual(body, [returned(binary("add", local(3), number(1)))])

    def test_past_what_does_not_touch_it(self):
        store = Assign(element(OUT, local(3)), number(1, U16))
        sum_ = binary("add", local(4), number(1))
        self.assertEqual(folded(assign(10, sum_), store, returned(local(10))), [store, returned(sum_)])

    def test_an_address_to_what_it_is_reached_by(self):
        """What is reached through its own address is itself."""
        place = element(OUT, local(3))
        address = Assign(Local(10, Ref(True, U16)), Address(place, Ref(True, U16)))
        stored = Assign(Deref(Local(10, Ref(True, U16)), U16), number(1, U16))
        self.assertEqual(folded(address, stored), [Assign(place, number(1, U16))])
        read = assign(4, Deref(Local(10, Ref(True, U16)), U16))
        self.assertEqual(folded(address, read), [assign(4, place)])
        bytes_ = Deref(Local(10, Ref(True, U16)), U8)
        self.assertEqual(folded(address, assign(4, bytes_))[0].value.of.of, place)

    def test_a_slice_to_its_part(self):
        at, length = Field(LIST, 0, Ref(False, U16)), binary("sub", Field(LIST, 1, U64), number(1))
        made = Assign(Local(10, WORDS), Aggregate((at, length), WORDS))
        self.assertEqual(folded(made, assign(4, Field(Local(10, WORDS), 1, U64))), [assign(4, length)])
        here = Assign(Local(5, Ref(False, U16)), Field(Local(10, WORDS), 0, Ref(False, U16)))
        self.assertEqual(folded(made, here), [Assign(here.target, at)])

    def test_inside_of_lists(self):
        loop = Block([Loop([assign(10, number(1)), assign(3, local(10)), Exit(1)])])
        folded_loop = folded(loop)[0]
        self.assertEqual(folded_loop, Block([Loop([assign(3, number(1)), Exit(1)])]))

    def test_a_call_to_what_comes_next(self):
        body = folded(assign(10, call("f", local(3))), returned(binary("add", local(10), local(4))))
        self.assertEqual(body, [returned(binary("add", call("f", local(3)), local(4)))])
        body = folded(assign(10, call("f", local(3))), assign(4, call("g", local(10))))
        self.assertEqual(body, [assign(4, call("g", call("f", local(3))))])

    def test_a_read_of_memory_to_the_arguments_of_a_call(self):
        read = element(LIST, local(3))
        body = folded(assign(10, read), assign(4, call("f", local(10, U16))))
        self.assertEqual(body, [assign(4, call("f", read))])


class Stays(unittest.TestCase):
    def stays(self, *body, **options):
        before = deepcopy(list(body))
        self.assertEqual(folded(*body, **options), before)

    def test_a_variable_of_the_source(self):
        self.stays(assign(3, number(1)), returned(local(3)))

    def test_one_whose_address_is_taken(self):
        self.stays(assign(9, number(1)), returned(local(9)))

    def test_one_that_is_read_twice(self):
        self.stays(assign(10, call("f")), returned(binary("add", local(10), local(10))))
        self.stays(assign(10, call("f")), assign(3, local(10)), returned(local(10)))

    def test_one_that_an_arm_reads_too(self):
        test = binary("eq", local(10), number(0))
        self.stays(assign(10, call("f")), If(test, [returned(local(10))], [returned(local(3))]))

    def test_one_that_the_next_turn_reads(self):
        self.stays(assign(10, number(1)), Loop([assign(3, local(10)), assign(10, call("f")), Exit(0)]))
        inner = [assign(10, call("f")), If(binary("lt", local(10), local(3)), [Exit(0)], []), Exit(1)]
        body = [Block([Loop([assign(4, local(10)), *inner])])]
        self.stays(assign(10, number(0)), *body)

    def test_one_that_is_read_inside_of_a_loop(self):
        self.stays(assign(10, call("f")), Block([Loop([assign(3, local(10)), Exit(1)])]))

    def test_one_whose_operand_changes_before_it_is_read(self):
        self.stays(assign(10, local(3)), assign(3, number(2)), returned(local(10)))
        part = Assign(Field(LIST, 1, U64), number(2))
        self.stays(assign(10, Field(LIST, 1, U64)), part, returned(local(10)))
        inner = If(local(5, BOOL), [assign(3, number(2))], [])
        self.stays(assign(10, local(3)), inner, returned(local(10)))

    def test_a_read_of_memory_before_a_store_or_a_call(self):
        read = element(LIST, local(3))
        store = Assign(element(OUT, local(3)), number(1, U16))
        self.stays(assign(10, read), store, returned(local(10, U16)))
        self.stays(assign(10, read), assign(4, call("f")), returned(local(10, U16)))
        self.stays(assign(10, local(9)), assign(9, number(1)), returned(local(10)))

    def test_a_call_before_another_statement(self):
        self.stays(assign(10, call("f")), assign(3, number(1)), returned(local(10)))

    def test_one_that_is_needed_where_a_way_leads_out(self):
        way_out = If(local(5, BOOL), [Exit(0)], [])
        inner = [assign(10, local(3)), way_out, assign(4, local(10)), assign(10, number(0))]
        self.stays(Block(inner), returned(local(10)))
        body = folded(Block([assign(10, local(3)), way_out, assign(4, local(10))]), returned(local(4)))
        self.assertEqual(body[0], Block([way_out, assign(4, local(3))]))

    def test_a_call_that_would_be_left_out(self):
        for op in ("andalso", "orelse"):
            test = binary(op, local(5, BOOL), binary("eq", local(10), number(3)))
            self.stays(assign(10, call("f")), If(test, [returned(local(3))], []))

    def test_two_calls_in_one_statement(self):
        body = folded(assign(10, call("f")), assign(11, call("g")), returned(binary("add", local(10), local(11))))
        self.assertEqual(body, [assign(10, call("f")), returned(binary("add", local(10), call("g")))])
        body = folded(assign(10, call("f")), assign(11, call("g")), returned(call("h", local(10), local(11))))
        self.assertEqual(body, [assign(10, call("f")), returned(call("h", local(10), call("g")))])

    def test_a_call_beside_a_read_of_memory(self):
        sum_ = binary("add", local(10, U16), element(LIST, local(3)))
        self.stays(assign(10, call("f", ty=U16)), returned(sum_))
        self.stays(assign(10, element(LIST, local(3))), returned(binary("add", local(10, U16), call("f", ty=U16))))

    def test_in_the_target_of_a_call(self):
        index = binary("add", local(10), number(0))
        self.stays(assign(10, call("f")), Assign(element(OUT, index), number(1, U16)))
        read = assign(10, local(9))
        self.stays(read, Assign(element(OUT, index), call("f", ty=U16)))

    def test_what_would_be_too_long(self):
        self.stays(assign(10, local(3)), returned(local(10)), too_long=lambda statement: True)

    def test_a_pointer_gives_way_however_long(self):
        place = element(LIST, local(3)).of
        body = folded(assign(10, place), returned(local(3)), too_long=lambda statement: True)
        self.assertEqual(len(body), 2)
        read = type(element(LIST, local(3)))(local(10, place.ty), U16)
        body = folded(assign(10, place), assign(4, read), too_long=lambda statement: True)
        self.assertEqual(body, [assign(4, element(LIST, local(3)))])


class Width(unittest.TestCase):
    def test_types_do_not_matter(self):
        self.assertEqual(folded(assign(10, number(1, U32)), returned(local(10, U32))), [returned(number(1, U32))])
