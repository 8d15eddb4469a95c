"""Statements as a person would write them: a temporary that is used once gives way to its value.

MIR computes each step of an expression into a temporary. Its value may stand where it is read, under conditions that
leave what is computed as it was:

- it is read once, and nothing needs it after that, nor where a way leads out between the two;
- nothing between the two changes what it is computed from;
- C leaves open which operand is computed first, so next to a call there is no other call and no read of memory, and a
  call does not go behind `&&` or `||`, which may leave it out.

A pointer always has to give way: C's pointers count elements of a type, and MIR's count bytes.
"""

from .terms import Aggregate, Assign, Binary, Call, If, Local, Number, Pointer, Return, Switch
from .walk import (
    address_reads, all_parts, bodies, calls, children, has_call, heads, live_at_start, live_inside, locals_of, mentions,
    reads_memory, substituted, target_reads, written,
)


class Folder:
    """Folds the temporaries of one function; `too_long` says whether a statement is longer than one likes to read."""

    def __init__(self, in_memory, temporaries, too_long=lambda statement: False):
        self.memory = in_memory
        self.temporaries = temporaries
        self.too_long = too_long

    def fold(self, body, after=frozenset(), exits=()):
        """Folds a list of statements until nothing more gives way, and all lists within it."""
        while self.fold_one(body, after, exits):
            pass
        for i, statement in enumerate(body):
            live = live_at_start(body[i + 1 :], after, exits)
            for inner, inner_after, inner_exits in live_inside(statement, live, exits):
                self.fold(inner, inner_after, inner_exits)

    def fold_one(self, body, after, exits):
        for i, statement in enumerate(body):
            use = self.use_of(body, i, after, exits) if self.is_candidate(statement) else None
            if use is not None:
                body[use] = replaced(body[use], statement.target.index, statement.value)
                del body[i]
                return True
        return False

    def is_candidate(self, statement):
        """A whole temporary that gets a value, and whose address nothing takes."""
        target = statement.target if isinstance(statement, Assign) else None
        return isinstance(target, Local) and target.index in self.temporaries and target.index not in self.memory

    def use_of(self, body, i, after, exits):
        """The statement that reads the temporary of statement i, if its value may stand there; else None."""
        index, value = body[i].target.index, body[i].value
        for j in range(i + 1, len(body)):
            if mentions(body[j], index):
                live = live_at_start(body[j + 1 :], after, exits)
                alone = j == i + 1 or not calls(value)
                leaves_with_it = index in live_at_start(body[i + 1 : j], frozenset(), exits)
                taken = alone and not leaves_with_it and self.takes(body[j], index, value, live, exits)
                return j if taken else None
            if self.disturbs(body[j], value):
                return None
        return None

    def disturbs(self, statement, value):
        """Whether a statement between the two can change what the value is computed from."""
        changed = written(statement)
        if changed & set(locals_of(value)):
            return True
        stores = has_call(statement) or None in changed or changed & self.memory
        return bool(stores) and reads_memory(value, self.memory)

    def takes(self, statement, index, value, live, exits):
        """Whether a statement reads the temporary once, in good order, and nothing needs it after that."""
        if reads_of(statement).count(index) != 1 or self.is_needed(statement, index, live, exits):
            return False
        if not self.in_order(statement, index, value):
            return False
        whole = replaced(statement, index, value)
        return isinstance(value.ty, Pointer) or is_constant(value) or not self.too_long(whole)

    def is_needed(self, statement, index, live, exits):
        """Whether the temporary is read again after the head of a statement."""
        if isinstance(statement, Assign):
            again = isinstance(statement.target, Local) and statement.target.index == index
            return index in live and not again
        return any(index in live_at_start(body, live, exits) for body in bodies(statement))

    def in_order(self, statement, index, value):
        """Whether the value is the same at whatever turn C computes it among the parts of the statement."""
        if not calls(value) and not reads_memory(value, self.memory):
            return True
        if calls(value) and any(is_conditional(expression, index) for expression in heads(statement)):
            return False
        place = address_reads(statement.target) if isinstance(statement, Assign) else []
        outer = heads(statement)[-1]
        # the arguments of the outermost call are computed before it
        parts = [*place, *(outer.arguments if isinstance(outer, Call) else [outer])]
        if any(calls(part) for part in parts):
            return False
        if any(index in locals_of(part) for part in place):
            return not calls(value) and not isinstance(outer, Call)
        return not calls(value) or not any(reads_memory(part, self.memory) for part in parts)


def is_conditional(expression, index):
    """Whether a local stands where C computes it only if another operand asks for it."""
    if isinstance(expression, Binary) and expression.op in ("andalso", "orelse"):
        if index in locals_of(expression.right):
            return True
    return any(is_conditional(part, index) for part in children(expression))


def is_constant(value):
    return all(isinstance(part, (Aggregate, Number)) for part in all_parts(value))


def reads_of(statement):
    """Each local that the head of a statement reads, as often as it does."""
    if isinstance(statement, Assign):
        return target_reads(statement.target) + locals_of(statement.value)
    return [index for expression in heads(statement) for index in locals_of(expression)]


def replaced(statement, index, value):
    """The statement with a temporary replaced by its value."""
    if isinstance(statement, Assign):
        target = statement.target
        if not isinstance(target, Local):
            target = substituted(target, index, value)
        return Assign(target, substituted(statement.value, index, value))
    if isinstance(statement, If):
        return If(substituted(statement.condition, index, value), statement.then, statement.otherwise)
    if isinstance(statement, Switch):
        return Switch(substituted(statement.value, index, value), statement.arms, statement.default)
    return Return(substituted(statement.value, index, value))
