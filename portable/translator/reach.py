"""What cannot be reached is left out, as C has no word for it.

MIR's machine is stuck at the word `Unreachable`, and the proofs show that it never comes there. So a list of statements
that goes straight on to it is never begun: where that is an arm, the choice is without it, and where one arm is left,
that arm stands for the choice. A function that is such a list is never called, and its calls cannot be reached either.
"""

from .terms import Assign, Block, Call, If, Loop, Switch, Unknown, Unreachable
from .walk import all_parts, all_statements, heads


def without_unreachable(functions, entries):
    """The functions that the entries can call, each after those that it calls, and in them what can be reached."""
    never, kept = set(), []
    for function in functions:
        body = reached(function.body, never)
        if body is None:
            never.add(function.name)
        else:
            function.body = body
            kept.append(function)
    if never & set(entries):
        raise Unknown(f"{', '.join(sorted(never & set(entries)))}, which cannot be called")
    called = set(entries)
    for function in reversed(kept):
        if function.name in called:
            called |= called_by(function)
    return [function for function in kept if function.name in called]


def called_by(function):
    expressions = [expression for part in all_statements(function.body) for expression in heads(part)]
    return {part.function for whole in expressions for part in all_parts(whole) if isinstance(part, Call)}


def reached(body, never):
    """What is left of a list, or None where it is never begun."""
    kept = []
    for statement in body:
        left = None if is_never(statement, never) else left_of(statement, never)
        if left is None:
            if not all(isinstance(before, Assign) for before in kept):
                raise Unknown("what cannot be reached, behind more than assignments")
            return None
        kept += left
    return kept


def is_never(statement, never):
    called = statement.value if isinstance(statement, Assign) else None
    return isinstance(statement, Unreachable) or isinstance(called, Call) and called.function in never


def left_of(statement, never):
    """The statements that stand for one, or None where it is never begun."""
    if isinstance(statement, (Block, Loop)):
        body = reached(statement.body, never)
        return None if body is None else [type(statement)(body)]
    if isinstance(statement, If):
        then, otherwise = reached(statement.then, never), reached(statement.otherwise, never)
        if then is None or otherwise is None:
            return otherwise if then is None else then
        return [If(statement.condition, then, otherwise)]
    if isinstance(statement, Switch):
        return left_of_switch(statement, never)
    return [statement]


def left_of_switch(statement, never):
    """Without a default the last arm stands for whatever keys are left."""
    arms = [(keys, reached(body, never)) for keys, body in statement.arms]
    arms = [(keys, body) for keys, body in arms if body is not None]
    default = None if statement.default is None else reached(statement.default, never)
    bodies = [body for _, body in arms] + ([] if default is None else [default])
    if len(bodies) < 2:
        return bodies[0] if bodies else None
    return [Switch(statement.value, arms, default)]
