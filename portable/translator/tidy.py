"""A function's body made ready for C: what MIR needs and C does not is left out, and temporaries give way."""

from .fold import Folder
from .terms import Assign, Binary, Block, Bool, Call, Exit, If, Local, Loop, Nothing, Return, Switch, Unit
from .walk import all_statements, bodies, calls, live_at_start, live_inside, locals_of, mapped, mentions


def tidy(function, named, too_long):
    """Changes the body of a function. `named` are the locals that the source names; the others are temporaries."""
    drop_units(function.body)
    open_blocks(function.body)
    temporaries = frozenset(range(len(function.locals))) - frozenset(named)
    while drop_unread_values(function.body, temporaries - function.in_memory):
        pass
    folder = Folder(function.in_memory, temporaries, too_long)
    folder.fold(function.body)
    while short_circuit(function.body, function.in_memory) or sink(function.body, temporaries - function.in_memory):
        folder.fold(function.body)
    join(function.body, function.body, temporaries - function.in_memory)
    drop_unread(function.body, temporaries - function.in_memory)


def drop_units(body):
    """The value of nothing is not stored in C."""
    body[:] = [part for part in body if not (isinstance(part, Assign) and part.value == Nothing())]
    for i, statement in enumerate(body):
        if isinstance(statement, Return) and statement.value.ty == Unit():
            body[i] = Return(Nothing())
        for inner in bodies(statement):
            drop_units(inner)


def open_blocks(body):
    """A block that nothing leaves before its end is the statements in it."""
    for i in reversed(range(len(body))):
        for inner in bodies(body[i]):
            open_blocks(inner)
        if isinstance(body[i], Block) and not exits_to(body[i].body, 0):
            leave_one_less(body[i].body, 0)
            body[i : i + 1] = body[i].body


def exits_to(body, depth):
    """Whether an exit from a list ends the block or loop that stands so many around it."""
    return any(
        isinstance(statement, Exit) and statement.depth == depth
        or any(exits_to(inner, depth + isinstance(statement, (Block, Loop))) for inner in bodies(statement))
        for statement in body
    )


def leave_one_less(body, depth):
    """The exits that leave a block which is no more, so many around them."""
    for statement in body:
        if isinstance(statement, Exit) and statement.depth > depth:
            statement.depth -= 1
        for inner in bodies(statement):
            leave_one_less(inner, depth + isinstance(statement, (Block, Loop)))


def drop_unread_values(body, temporaries, after=frozenset(), exits=()):
    """Drops values that nothing reads, as those that were handed to a function which does nothing. True where there was
    one.
    """
    found = False
    for i in reversed(range(len(body))):
        statement, live = body[i], live_at_start(body[i + 1 :], after, exits)
        target = statement.target if isinstance(statement, Assign) else None
        if isinstance(target, Local) and target.index in temporaries - live and not calls(statement.value):
            del body[i]
            found = True
            continue
        for inner, *rest in live_inside(statement, live, exits):
            found |= drop_unread_values(inner, temporaries, *rest)
    return found


def drop_unread(body, temporaries, after=frozenset(), exits=()):
    """A call whose result nothing reads is made for what it stores."""
    for i, statement in enumerate(body):
        live = live_at_start(body[i + 1 :], after, exits)
        target = statement.target if isinstance(statement, Assign) else None
        if isinstance(target, Local) and target.index in temporaries - live and isinstance(statement.value, Call):
            body[i] = Assign(Nothing(), statement.value)
        for inner, *rest in live_inside(statement, live, exits):
            drop_unread(inner, temporaries, *rest)


def use_parameters(function):
    """MIR first copies a parameter whose address it takes. In C a parameter has an address: the copy is left out.

    How many there are.
    """
    copies = 0
    while function.body and is_parameter_copy(function, function.body[0], copies):
        copy, parameter = function.body[0].target, function.body[0].value
        del function.body[0]
        if parameter != Nothing():
            rename(function.body, copy.index, parameter)
            function.in_memory |= {parameter.index}
        copies += 1
    return copies


def is_parameter_copy(function, statement, copies):
    if not isinstance(statement, Assign) or statement.target.ty != statement.value.ty:
        return False
    copy, parameter = statement.target, statement.value
    if parameter == Nothing():
        return copy == Local(function.parameters + 1 + copies, Unit()) and copy.index in function.in_memory
    if not isinstance(copy, Local) or not isinstance(parameter, Local) or copy.index not in function.in_memory:
        return False
    is_parameter = 1 <= parameter.index <= function.parameters < copy.index
    return is_parameter and count(function.body, parameter.index) == 1


def count(body, index):
    return sum(mentions(statement, index) for statement in body)


def rename(body, index, by):
    """Another local for one, wherever it stands, also where it is written."""
    for statement in all_statements(body):
        for name in ("target", "value", "condition"):
            if hasattr(statement, name):
                setattr(statement, name, with_local(getattr(statement, name), index, by))


def with_local(expression, index, by):
    if isinstance(expression, Local):
        return by if expression.index == index else expression
    return mapped(expression, lambda part: with_local(part, index, by))


def short_circuit(body, in_memory=frozenset()):
    """MIR computes the second operand of `||` and `&&` in an arm. True where one was found."""
    for i, (first, second) in enumerate(zip(body, body[1:])):
        joined = both_operands(first, second)
        if joined and joined.target.index not in in_memory:
            body[i : i + 2] = [joined]
            return True
    return any(short_circuit(inner, in_memory) for statement in body for inner in bodies(statement))


def both_operands(first, second):
    """`t = a; if (t) t = b;` is `t = a && b;`, and with the other arm `t = a || b;`, where b does not read t."""
    if not isinstance(first, Assign) or not isinstance(second, If) or second.condition != first.target:
        return None
    if not isinstance(first.target, Local) or first.target.ty != Bool() or len(second.then + second.otherwise) != 1:
        return None
    arm = (second.then + second.otherwise)[0]
    if not isinstance(arm, Assign) or arm.target != first.target or first.target.index in locals_of(arm.value):
        return None
    op = "andalso" if second.then else "orelse"
    return Assign(first.target, Binary(op, "unsigned", first.value, arm.value, Bool()))


def sink(body, temporaries, after=frozenset(), exits=()):
    """What takes the value of an if or of a match goes to the end of each of its arms. True where something went."""
    for i in range(len(body) - 1):
        live = live_at_start(body[i + 2 :], after, exits)
        index = taken(body[i + 1])
        if index in temporaries and index not in live and is_choice(body[i]) and gives(body[i], index):
            give_to_arms(body[i], body[i + 1])
            del body[i + 1]
            return True
    for i, statement in enumerate(body):
        live = live_at_start(body[i + 1 :], after, exits)
        if any(sink(inner, temporaries, *rest) for inner, *rest in live_inside(statement, live, exits)):
            return True
    return False


def taken(statement):
    """The local whose value a statement takes, and does nothing else."""
    value = statement.value if isinstance(statement, (Assign, Return)) else None
    return value.index if isinstance(value, Local) else None


def is_choice(statement):
    return isinstance(statement, (If, Switch))


def leaves(body):
    """Whether a list of statements never goes on to what follows it."""
    if not body:
        return False
    last = body[-1]
    return isinstance(last, (Exit, Return)) or is_choice(last) and all(leaves(inner) for inner in bodies(last))


def gives(statement, index):
    """Whether each arm ends by giving a local its value, or leaves."""
    arms = bodies(statement)
    return all(leaves(arm) or arm_gives(arm, index) for arm in arms) and not all(leaves(arm) for arm in arms)


def arm_gives(arm, index):
    last = arm[-1] if arm else None
    if isinstance(last, Assign):
        return isinstance(last.target, Local) and last.target.index == index
    return is_choice(last) and gives(last, index)


def give_to_arms(statement, taker):
    for arm in bodies(statement):
        if leaves(arm):
            continue
        if is_choice(arm[-1]):
            give_to_arms(arm[-1], taker)
        else:
            arm.append(Return(taker.value) if isinstance(taker, Return) else Assign(taker.target, taker.value))


def join(body, whole, temporaries):
    """A temporary that only gives a variable its first value is that variable."""
    i = 0
    while i < len(body):
        if is_first_value(body, i, whole, temporaries):
            variable, temporary = body[i].target, body[i].value
            del body[i]
            rename(body[:i], temporary.index, variable)
        else:
            i += 1
    for statement in body:
        for inner in bodies(statement):
            join(inner, whole, temporaries)


def is_first_value(body, i, whole, temporaries):
    statement = body[i]
    if taken(statement) not in temporaries or not isinstance(statement, Assign):
        return False
    target, source = statement.target, statement.value
    if not isinstance(target, Local) or target.ty != source.ty:
        return False
    only_before = count(whole, source.index) == count(body[:i], source.index) + 1
    return only_before and count(whole, target.index) == count(body[i:], target.index)
