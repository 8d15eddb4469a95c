"""Statements in C: blocks and exits as loops, breaks and gotos, and each variable declared where it is first needed."""

import math

from .expressions import SIGNS, is_zero, literal
from .layout import WIDTH, indented
from .terms import (
    Aggregate, Array, Assign, Binary, Block, Call, Exit, Field, If, Local, Loop, Nothing, Number, Pointer, Repeat,
    Return, Switch, Tag, Unit, Unknown,
)
from .tidy import leaves
from .walk import (
    address_reads, all_statements, bodies, calls, heads, live_at_start, live_inside, locals_of, mentions, reads_memory,
    root,
)


class Frame:
    """A block, loop or C switch that a statement stands in; `label` is the one that a goto out of it needs."""

    def __init__(self, kind, loop_only=False):
        self.kind = kind
        self.loop_only = loop_only
        self.label = None


class Statements:
    """Writes the body of one function."""

    def __init__(self, function, expressions):
        self.function = function
        self.expressions = expressions
        self.types = expressions.types
        self.frames = []
        self.labels = 0

    def width(self, statement):
        """How long the line of a statement would be; without end where C has no such form of it."""
        if isinstance(statement, Assign) and statement.target.ty == Pointer():
            return 0
        try:
            if isinstance(statement, Assign):
                lines = self.write_assign(statement)
            elif isinstance(statement, Return):
                lines = self.write_return(statement)
            else:
                lines = [self.expressions.text(head) for head in heads(statement)]
        except Unknown:
            return math.inf
        return max(len(line) for line in lines)

    # lists and declarations

    def write_function_body(self):
        body = self.function.body
        if isinstance(body[-1], Return) and body[-1].value == Nothing():
            body = body[:-1]
        parameters = frozenset(range(1, self.function.parameters + 1))
        unset = live_at_start(body, frozenset(), ()) - parameters
        if unset:
            raise Unknown(f"locals {sorted(unset)} of {self.function.name} that may be read before they are set")
        mentioned = {index for index in range(len(self.function.locals)) if any(mentions(s, index) for s in body)}
        values = {index for index in mentioned if self.function.locals[index] != Unit()}
        held = {index for index in parameters if self.function.locals[index] != Unit()}
        unused = [f"(void){self.expressions.locals[index]};" for index in sorted(held - mentioned)]
        return unused + self.write_list(body, values - parameters, frozenset(), ())

    def write_list(self, body, undeclared, after, exits):
        """A list of statements; `undeclared` are the locals that it alone mentions."""
        below = self.wholly_below(body, undeclared)
        here = undeclared - {index for indices in below.values() for index in indices}
        lines = []
        for i, statement in enumerate(body):
            first = sorted(index for index in here if mentions(statement, index))
            here -= set(first)
            live = live_at_start(body[i + 1 :], after, exits)
            lines += self.write_first(statement, first, live, exits, below)
        return lines

    def wholly_below(self, body, undeclared):
        """For each list within a statement: the locals that only it mentions. None comes in with a value: it would be
        read before it is set.
        """
        found = {}
        for index in undeclared:
            users = [i for i, statement in enumerate(body) if mentions(statement, index)]
            if len(users) != 1 or index in {j for head in heads(body[users[0]]) for j in locals_of(head)}:
                continue
            inner = [part for part in bodies(body[users[0]]) if count(part, index)]
            if len(inner) == 1:
                found.setdefault(id(inner[0]), (inner[0], set()))[1].add(index)
        return {key: self.without_escaping(*pair) for key, pair in found.items()}

    def without_escaping(self, body, indices):
        """In C a variable ends with its list. One whose address may be kept beyond that is declared further out."""
        kept = [part.target for part in all_statements(body) if isinstance(part, Assign)]
        if any(self.types.holds_reference(target.ty) and root(target) not in indices for target in kept):
            return indices - self.function.in_memory
        return indices

    def write_first(self, statement, first, live, exits, below):
        """A statement before which some locals are not declared yet."""
        target = statement.target if isinstance(statement, Assign) else None
        declares = isinstance(target, Local) and first == [target.index] and self.can_begin(target, statement.value)
        if declares:
            return [f"{self.declarator(target.index)} = {self.expressions.initial(statement.value)};"]
        lines = [f"{self.declarator(index)};" for index in first]
        return lines + self.write(statement, live, exits, below)

    def can_begin(self, target, value):
        """Whether a declaration can begin with the value: C has no such form of loops over arrays."""
        return target.index not in locals_of(value) and not self.needs_loop(value)

    def declarator(self, index):
        return self.types.declarator(self.function.locals[index], self.expressions.locals[index])

    # statements

    def write(self, statement, live, exits, below):
        if isinstance(statement, Assign):
            return self.write_assign(statement)
        if isinstance(statement, Return):
            return self.write_return(statement)
        if isinstance(statement, Exit):
            return [f"{self.jump(statement.depth)};"]
        inside = [(body, below.get(id(body), set()), *rest) for body, *rest in live_inside(statement, live, exits)]
        name = {If: "if", Switch: "switch", Loop: "loop", Block: "block"}[type(statement)]
        return getattr(self, f"write_{name}")(statement, inside)

    def write_assign(self, statement):
        target, value = statement.target, statement.value
        self.check_order(target, value)
        if target.ty == Unit():
            if not isinstance(value, Call):
                raise Unknown(f"an assignment of {value}")
            return [f"{self.expressions.text(value)};"]
        if self.needs_loop(value):
            return self.write_parts(target, value)
        return [self.assignment(target, value)]

    def check_order(self, target, value):
        """MIR finds the place after the call. C leaves open when, which must make no difference."""
        if calls(value) and any(reads_memory(part, self.function.in_memory) for part in address_reads(target)):
            raise Unknown(f"a call in {self.function.name} whose result goes to a place that memory tells")

    def assignment(self, target, value):
        place = self.expressions.text(target)
        if isinstance(value, Binary) and value.op in ("add", "sub") and value.left == target:
            if value.sign == "unsigned":
                sign = SIGNS[value.op]
                if isinstance(value.right, Number) and value.right.value == 1:
                    return f"{place}{sign}{sign};"
                return f"{place} {sign}= {self.expressions.text(value.right)};"
        return f"{place} = {self.expressions.text(value)};"

    def needs_loop(self, value):
        """C assigns no arrays: what the header has as an array goes over one by one, as does a repeated value."""
        if isinstance(value, Repeat):
            return not is_zero(value)
        if isinstance(value, Field) and self.types.is_bare(value.of.ty, value.ty):
            return True
        return isinstance(value, Aggregate) and self.expressions.has_bare(value.ty)

    def write_parts(self, target, value):
        if set(locals_of(target)) & set(locals_of(value)):
            raise Unknown(f"{target} from parts of itself")
        if isinstance(value, Repeat):
            element = self.expressions.text(value.of)
            return self.copy_loop(value.ty.length, self.expressions.elements(target, value.ty.of), element)
        if isinstance(value, Field):
            return self.copy_array(target, value)
        lines = []
        for i, part in enumerate(value.parts):
            field = Field(target, i, part.ty)
            if isinstance(part.ty, Array):
                lines += self.copy_array(field, part)
            else:
                lines.append(f"{self.expressions.text(field)} = {self.expressions.text(part)};")
        return lines

    def copy_array(self, target, value):
        to, from_ = (self.expressions.elements(place, value.ty.of) for place in (target, value))
        return self.copy_loop(value.ty.length, to, f"{from_}[each]")

    def copy_loop(self, length, target, value):
        return [f"for (uint64_t each = 0; each < {length}; each++) {{", f"    {target}[each] = {value};", "}"]

    def write_return(self, statement):
        if statement.value == Nothing():
            return ["return;"]
        return [f"return {self.expressions.text(statement.value)};"]

    def write_if(self, statement, inside):
        then, otherwise = (self.write_list(*part) for part in inside)
        conditions = [self.condition(statement.condition, holds) for holds in (True, False)]
        return choice(*conditions, then, otherwise, leaves(statement.then))

    def condition(self, condition, holds):
        return self.expressions.text(condition) if holds else self.expressions.negation(condition)[0]

    def write_switch(self, statement, inside):
        """Two arms are an if. The last of the arms needs no test, since the keys are all that can occur."""
        arms = [(keys, body) for (keys, _), body in zip(statement.arms, inside)]
        if statement.default is None and len(arms) == 2 and len(arms[0][0]) == 1:
            return self.write_two_arms(statement, arms)
        self.frames.append(Frame("switch"))
        lines = [f"switch ({self.expressions.text(statement.value)}) {{"]
        for i, (keys, part) in enumerate(arms):
            is_last = statement.default is None and i == len(arms) - 1
            names = [self.key(statement.value, key) for key in keys]
            if is_last:
                lines += self.write_arm(["default:"], part, f" /* {', '.join(names)} */")
            else:
                lines += self.write_arm([f"case {name}:" for name in names], part)
        if statement.default is not None:
            lines += self.write_arm(["default:"], inside[-1])
        self.frames.pop()
        return [*lines, "}"]

    def write_two_arms(self, statement, arms):
        (keys, first), (_, second) = arms
        value, key = self.expressions.operand(statement.value, "==", False), self.key(statement.value, keys[0])
        then, otherwise = self.write_list(*first), self.write_list(*second)
        return choice(f"{value} == {key}", f"{value} != {key}", then, otherwise, leaves(first[0]))

    def key(self, value, key):
        return self.types.constant(value.of.ty, key) if isinstance(value, Tag) else literal(key)

    def write_arm(self, labels, part, note=""):
        lines = self.write_list(*part)
        end = [] if leaves(part[0]) else ["break;"]
        *above, last = labels
        if len(lines) == 1 and not end and len(last) + len(lines[0]) < WIDTH - 40:
            return [*above, f"{last} {lines[0]}{note}"]
        return [*above, f"{last} {{{note}", *indented(lines + end), "}"]

    # loops, blocks and jumps

    def write_block(self, statement, inside):
        body, *_ = inside[0]
        loop_only = len(body) == 1 and isinstance(body[0], Loop)
        frame = Frame("block", loop_only)
        self.frames.append(frame)
        lines = self.write_list(*inside[0])
        self.frames.pop()
        if not loop_only:
            lines = ["{", *indented(lines), "}"]
        return lines + ([f"{frame.label}:;"] if frame.label else [])

    def write_loop(self, statement, inside):
        """A loop whose first statement is the way out is a while."""
        body, undeclared, after, exits = inside[0]
        frame = Frame("loop")
        self.frames.append(frame)
        test = body[0] if self.is_way_out(body[0]) else None
        rest = self.write_list(body[1:] if test else body, undeclared, after, exits)
        head = f"while ({self.condition(test.condition, not test.then)})" if test else "for (;;)"
        self.frames.pop()
        if frame.label:
            rest.append(f"{frame.label}:;")
        return [f"{head} {{", *indented(rest), "}"]

    def is_way_out(self, statement):
        """Whether a statement is an if that only leaves the block around the loop, which holds nothing else."""
        around = self.frames[-2] if len(self.frames) > 1 else None
        leads_out = isinstance(statement, If) and statement.then + statement.otherwise == [Exit(1)]
        return leads_out and around is not None and around.loop_only

    def jump(self, depth):
        """The way to the end of a block, or to the next turn of a loop."""
        targets = [frame for frame in reversed(self.frames) if frame.kind != "switch"]
        target = targets[depth]
        inner = self.frames[self.frames.index(target) + 1 :]
        if target.kind == "loop" and not any(frame.kind == "loop" for frame in inner):
            return "continue"
        if target.loop_only and is_plain(inner[1:]):
            return "break"
        return f"goto {self.label(target)}"

    def label(self, frame):
        if frame.label is None:
            self.labels += 1
            frame.label = f"{'next' if frame.kind == 'loop' else 'done'}_{self.labels}"
        return frame.label


def is_plain(frames):
    """Whether a `break` passes: there is no loop or switch, which would take it."""
    return not any(frame.kind in ("loop", "switch") for frame in frames)


def count(body, index):
    return sum(mentions(statement, index) for statement in body)


def choice(condition, opposite, then, otherwise, then_leaves):
    """An if. What follows one that leaves needs no else."""
    if not then:
        return conditional(opposite, otherwise)
    if not otherwise:
        return conditional(condition, then)
    if then_leaves:
        return conditional(condition, then) + otherwise
    return [f"if ({condition}) {{", *indented(then), "} else {", *indented(otherwise), "}"]


def conditional(condition, lines):
    """An if without else, on one line where there is only a short statement in it."""
    one = f"if ({condition}) {lines[0]}" if len(lines) == 1 else ""
    if one and len(one) <= WIDTH - 20 and not lines[0].startswith(("if ", "for ", "while ")):
        return [one]
    return [f"if ({condition}) {{", *indented(lines), "}"]
