"""Going over expressions and statements: what they read, write and call, and which locals are still needed."""

from dataclasses import fields, replace

from .terms import (
    Address, Aggregate, Assign, Block, Call, Deref, Exit, Field, If, Local, Loop, Payload, Return, Slice, Switch, Tag,
    Unknown,
)


def children(expression):
    found = []
    for field in fields(expression):
        value = getattr(expression, field.name)
        if isinstance(value, tuple):
            found += [part for part in value if hasattr(part, "ty")]
        elif hasattr(value, "ty"):
            found.append(value)
    return found


def all_parts(expression):
    """The expression and all below it."""
    yield expression
    for child in children(expression):
        yield from all_parts(child)


def mapped(expression, change):
    """The expression with each of its children changed."""
    changed = {}
    for field in fields(expression):
        value = getattr(expression, field.name)
        if isinstance(value, tuple):
            changed[field.name] = tuple(change(part) if hasattr(part, "ty") else part for part in value)
        elif hasattr(value, "ty"):
            changed[field.name] = change(value)
    return replace(expression, **changed) if changed else expression


def substituted(expression, index, by):
    """The expression with a local replaced by what it stands for."""
    if isinstance(expression, Local):
        return by if expression.index == index else expression
    return direct(mapped(expression, lambda part: substituted(part, index, by)))


def direct(expression):
    """What is reached through its own address is itself, and a part of a slice that is just made is that part."""
    if isinstance(expression, Deref) and isinstance(expression.of, Address):
        place = expression.of.of
        return place if place.ty == expression.ty else expression
    if isinstance(expression, Field) and isinstance(expression.of, Aggregate) and not calls(expression.of):
        return expression.of.parts[expression.index] if isinstance(expression.of.ty, Slice) else expression
    return expression


def locals_of(expression):
    """Each local that an expression mentions, as often as it does."""
    return [part.index for part in all_parts(expression) if isinstance(part, Local)]


def calls(expression):
    return sum(isinstance(part, Call) for part in all_parts(expression))


def root(target):
    """The local that a target is or is a part of; None where it is reached through a pointer."""
    while isinstance(target, (Field, Payload, Tag)):
        target = target.of
    return target.index if isinstance(target, Local) else None


def reads_memory(expression, in_memory):
    """Whether what it gives can change when something is stored through a pointer."""
    if isinstance(expression, Address):
        return any(reads_memory(part, in_memory) for part in address_reads(expression.of))
    if isinstance(expression, Deref) or isinstance(expression, Local) and expression.index in in_memory:
        return True
    return any(reads_memory(part, in_memory) for part in children(expression))


def address_reads(place):
    """What has to be read to know where a place is."""
    while isinstance(place, (Field, Payload, Tag)):
        place = place.of
    return [place.of] if isinstance(place, Deref) else []


def target_reads(target):
    """The locals that an assignment reads for its target; a part of a local needs the rest of it."""
    return [] if isinstance(target, Local) else locals_of(target)


def bodies(statement):
    """The lists of statements within a statement."""
    if isinstance(statement, If):
        return [statement.then, statement.otherwise]
    if isinstance(statement, Switch):
        return [body for _, body in statement.arms] + ([] if statement.default is None else [statement.default])
    return [statement.body] if isinstance(statement, (Loop, Block)) else []


def heads(statement):
    """The expressions that a statement itself computes, the target of an assignment first."""
    if isinstance(statement, Assign):
        return [statement.target, statement.value]
    if isinstance(statement, If):
        return [statement.condition]
    return [statement.value] if isinstance(statement, (Switch, Return)) else []


def all_statements(body):
    for statement in body:
        yield statement
        for inner in bodies(statement):
            yield from all_statements(inner)


def mentions(statement, index):
    """How often a statement and all within it mention a local."""
    inner = all_statements([statement])
    return sum(locals_of(expression).count(index) for part in inner for expression in heads(part))


def written(statement):
    """The locals that a statement and all within it write, whole or in part; None stands for memory."""
    return {root(part.target) for part in all_statements([statement]) if isinstance(part, Assign)}


def has_call(statement):
    return any(calls(expression) for part in all_statements([statement]) for expression in heads(part))


def head_reads(statement):
    """The locals that a statement reads before anything within it runs."""
    if isinstance(statement, Assign):
        return set(target_reads(statement.target)) | set(locals_of(statement.value))
    return {index for expression in heads(statement) for index in locals_of(expression)}


def live_before(statement, after, exits):
    """The locals whose values are needed before a statement, from those needed after it and at each exit."""
    if isinstance(statement, Assign):
        kept = after - {statement.target.index} if isinstance(statement.target, Local) else after
        return kept | head_reads(statement)
    if isinstance(statement, Return):
        return head_reads(statement)
    if isinstance(statement, Exit):
        if statement.depth >= len(exits):
            raise Unknown(f"an exit from {statement.depth + 1} blocks where there are {len(exits)}")
        return exits[statement.depth]
    if isinstance(statement, Block):
        return live_at_start(statement.body, after, [after, *exits])
    if isinstance(statement, Loop):
        return live_in_loop(statement.body, exits)
    return head_reads(statement).union(*(live_at_start(body, after, exits) for body in bodies(statement)))


def live_in_loop(body, exits):
    """A turn ends where the next begins."""
    live = frozenset()
    while True:
        again = live_at_start(body, live, [live, *exits])
        if again == live:
            return live
        live = again


def live_at_start(body, after, exits):
    for statement in reversed(body):
        after = live_before(statement, after, exits)
    return frozenset(after)


def live_inside(statement, after, exits):
    """For each list within a statement: what is needed after that list, and at each exit from it."""
    if isinstance(statement, Block):
        return [(statement.body, after, [after, *exits])]
    if isinstance(statement, Loop):
        live = live_in_loop(statement.body, exits)
        return [(statement.body, live, [live, *exits])]
    return [(body, after, exits) for body in bodies(statement)]
