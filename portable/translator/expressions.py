"""Expressions in C.

MIR's numbers are unsigned, and its proofs show that no sum, difference or product leaves its width, where it is not
told to wrap. So C computes the same number, also where it widens the operands to int first. A shift to the left drops
bits, sums that wrap do so by design, and so do signed numbers: those are cut to their width by a cast. Between
constants alone C would compute in int: the first of them gets its type.
"""

import re

from .helpers import helper_name, signed_name
from .terms import (
    Address, Aggregate, Array, Binary, Bool, Call, Case, Cast, Deref, Field, Int, Lent, Local, Named, Nothing, Number,
    Offset, Payload, Ref, Repeat, Slice, Tag, Truth, Unary, Unknown,
)

SIGNS = {
    "add": "+", "sub": "-", "mul": "*", "div": "/", "rem": "%", "and": "&", "or": "|", "xor": "^", "shr": ">>",
    "eq": "==", "ne": "!=", "lt": "<", "le": "<=", "andalso": "&&", "orelse": "||",
}
OPPOSITE = {"==": "!=", "!=": "==", "<": ">=", "<=": ">"}
SUMS, PRODUCTS, COMPARISONS, MASKS = ("+", "-"), ("*", "/", "%"), ("==", "!=", "<", "<=", ">", ">="), ("&", "|", "^")
ATOM, PREFIX = "atom", "prefix"


class Expressions:
    """Writes the expressions of one function, whose locals have names."""

    def __init__(self, types, paths, locals_, lent=None):
        """`lent` gives a constant that the function lends its name."""
        self.lent = lent
        self.types = types
        self.paths = paths
        self.locals = locals_

    def text(self, expression):
        return self.write(expression)[0]

    def write(self, expression):
        """The text, and the operator that it ends up with: ATOM, PREFIX or a sign."""
        return getattr(self, f"write_{type(expression).__name__.lower()}")(expression)

    def operand(self, expression, sign, is_right):
        """An operand of a sign, in parentheses where a reader or a compiler may want them."""
        text, inner = self.write(expression)
        return text if stands_bare(inner, sign, is_right) else f"({text})"

    def atom(self, expression):
        text, inner = self.write(expression)
        return text if inner == ATOM else f"({text})"

    def unary_operand(self, expression):
        text, inner = self.write(expression)
        return text if inner in (ATOM, PREFIX) else f"({text})"

    # numbers

    def write_number(self, number):
        return literal(number.value), ATOM

    def write_truth(self, truth):
        return "true" if truth.value else "false", ATOM

    def write_binary(self, expression):
        if expression.op == "shl":
            return self.shifted_left(expression)
        sign = SIGNS[expression.op]
        text = f"{self.side(expression, 'left', sign)} {sign} {self.side(expression, 'right', sign)}"
        if expression.sign != "unsigned":
            return f"(uint{expression.ty.bits}_t)({text})", PREFIX
        return text, sign

    def side(self, expression, name, sign):
        operand = getattr(expression, name)
        if isinstance(operand, Number):
            if name == "left" and is_constant(expression.right):
                return f"(uint{operand.ty.bits}_t){literal(operand.value)}"
            if sign in MASKS:
                return f"0x{operand.value:X}"
        return self.operand(operand, sign, name == "right")

    def shifted_left(self, expression):
        """C would widen a number of 16 bits to a signed int, which a shift may overflow."""
        bits = expression.ty.bits
        wide = f"(uint{max(bits, 32)}_t)"
        left = self.unary_operand(expression.left)
        if bits < 32 or isinstance(expression.left, Number):
            left = wide + left
        return f"(uint{bits}_t)({left} << {self.operand(expression.right, '<<', True)})", PREFIX

    def write_unary(self, expression):
        if expression.op == "not":
            if isinstance(expression.ty, Bool):
                return self.negation(expression.of)
            return f"(uint{expression.ty.bits}_t)~{self.unary_operand(expression.of)}", PREFIX
        bits = expression.of.ty.bits
        text = f"{helper_name(expression.op, bits)}({self.text(expression.of)})"
        if expression.op == "leadingZeros" and bits < 32:
            return f"{text} - {32 - bits}", "-"
        return text, ATOM

    def negation(self, condition):
        if isinstance(condition, Binary) and SIGNS.get(condition.op) in OPPOSITE:
            sign = SIGNS[condition.op]
            other = OPPOSITE[sign]
            return f"{self.side(condition, 'left', sign)} {other} {self.side(condition, 'right', sign)}", other
        return f"!{self.unary_operand(condition)}", PREFIX

    def write_cast(self, expression):
        """A cast keeps the number, and the proofs show that it fits. Signed to wider signed would repeat the sign."""
        signs = (expression.source_sign, expression.target_sign)
        wider = isinstance(expression.of.ty, Int) and expression.of.ty.bits < expression.ty.bits
        if signs == ("signed", "signed") and wider:
            raise Unknown("a cast to a wider signed number")
        return f"(uint{expression.ty.bits}_t){self.unary_operand(expression.of)}", PREFIX

    # places

    def write_local(self, local):
        return self.locals[local.index], ATOM

    def write_field(self, expression):
        if self.types.is_signed(expression.of.ty, expression.index):
            raise Unknown("a signed number of the header that is read or stored by itself")
        return self.member(expression.of, self.types.field(expression.of.ty, expression.index)), ATOM

    def write_tag(self, expression):
        return self.member(expression.of, "tag"), ATOM

    def write_payload(self, expression):
        of = expression.of
        return self.member(of, self.types.payload(of.ty, expression.variant, expression.index)), ATOM

    def member(self, of, name):
        if isinstance(of, Deref) and not isinstance(of.of, Offset) and not is_constant_place(of):
            return f"{self.atom(of.of)}->{name}"
        return f"{self.atom(of)}.{name}"

    def write_deref(self, expression):
        if isinstance(expression.of, Offset):
            base, index = self.element(expression.of, expression.ty)
            return f"{base}[{index}]", ATOM
        if is_constant_place(expression):
            return self.lent(expression.of.value), ATOM
        if isinstance(expression.of, Lent):
            return f"*{self.pointer(expression.of, expression.ty)[0]}", PREFIX
        return f"*{self.unary_operand(expression.of)}", PREFIX

    def element(self, offset, ty):
        """The first element that a pointer is an offset from, and the number of elements that the bytes are."""
        base, operator = self.pointer(offset.of, ty)
        return base if operator == ATOM else f"({base})", self.index(offset.by, self.types.memory.size(ty))

    def index(self, by, size):
        if isinstance(by, Number) and by.value % size == 0:
            return str(by.value // size)
        if isinstance(by, Binary) and by.op == "mul" and by.right == Number(size, Int(64)):
            return self.text(by.left)
        if size == 1:
            return self.text(by)
        raise Unknown(f"an offset that does not count elements of {size} bytes")

    def elements(self, place, ty):
        """An array as a pointer to its first element."""
        if not isinstance(place.ty, Array) or place.ty.of != ty:
            raise Unknown(f"elements of type {ty} in {place.ty}")
        if isinstance(place, Field) and self.types.is_bare(place.of.ty, place.ty):
            return self.text(place)
        return self.member(place, "a")

    def pointer(self, expression, ty):
        """A pointer to values of a type, and the operator that it ends up with."""
        if isinstance(expression, Address):
            return self.address(expression.of, ty)
        if isinstance(expression, Offset):
            return self.address(Deref(expression, ty), ty)
        if isinstance(expression, Lent):
            return self.address(Deref(expression, expression.value.ty), ty)
        to = expression.ty.to if isinstance(expression.ty, Ref) else None
        if to == ty:
            return self.atom(expression), ATOM
        if isinstance(to, Array) and to.of == ty:
            return f"{self.atom(expression)}->a", ATOM
        raise Unknown(f"a pointer to {ty} from {expression.ty}")

    def address(self, place, ty):
        if isinstance(place, Deref) and isinstance(place.of, Offset):
            base, index = self.element(place.of, place.ty)
            if place.ty != ty:
                raise Unknown(f"a pointer to {ty} from an element of type {place.ty}")
            return f"{base} + {index}" if re.fullmatch(r"\w+", index) else f"{base} + ({index})", "+"
        if isinstance(place, Deref) and not is_constant_place(place):
            return self.pointer(place.of, ty)
        return (f"&{self.atom(place)}", PREFIX) if place.ty == ty else (self.elements(place, ty), ATOM)

    def write_address(self, expression):
        if not isinstance(expression.ty, Ref):
            raise Unknown("a raw pointer that is kept")
        return self.address(expression.of, expression.ty.to)

    def write_lent(self, expression):
        return self.pointer(expression, expression.ty.to)

    def write_offset(self, expression):
        raise Unknown("a raw pointer that is kept")

    # values of several parts

    def write_call(self, expression):
        arguments = ", ".join(self.text(argument) for argument in expression.arguments if argument != Nothing())
        return f"{self.paths.name(expression.function)}({arguments})", ATOM

    def write_aggregate(self, expression):
        if isinstance(expression.ty, Slice):
            return self.slice(expression)
        return f"({self.types.spell(expression.ty)}){self.braces(expression)}", ATOM

    def write_case(self, expression):
        return f"({self.types.spell(expression.ty)}){self.braces(expression)}", ATOM

    def write_repeat(self, expression):
        return f"({self.types.spell(expression.ty)}){self.braces(expression)}", ATOM

    def slice(self, expression):
        at, length = expression.parts
        whole = at.of.of if isinstance(at, Address) and isinstance(at.of, Deref) else at
        if isinstance(whole, Field) and whole.of.ty == expression.ty and length == Field(whole.of, 1, Int(64)):
            return self.write(whole.of)
        self.types.define(expression.ty)
        pointer, _ = self.pointer(at, expression.ty.of)
        return f"{self.types.tag(expression.ty)}({pointer}, {self.text(length)})", ATOM

    def initial(self, expression):
        """A value where a declaration or another value begins with it: in braces, without its type."""
        if isinstance(expression, (Aggregate, Case, Repeat)) and not isinstance(expression.ty, Slice):
            return self.braces(expression)
        return self.text(expression)

    def braces(self, expression):
        if isinstance(expression, Repeat):
            if not is_zero(expression):
                raise Unknown("a repeated value within an expression")
            return "{0}"
        if isinstance(expression, Case):
            return self.case_braces(expression)
        kept = [(i, part) for i, part in enumerate(expression.parts) if part != Nothing()]
        parts = [self.part(expression.ty, i, part) for i, part in kept]
        if not parts:
            return "{0}"
        if isinstance(expression.ty, Array):
            return "{{" + ", ".join(parts) + "}}"
        if self.has_bare(expression.ty):
            raise Unknown(f"{expression.ty.name} within an expression")
        fields = [f".{self.types.field(expression.ty, i)} = {part}" for (i, _), part in zip(kept, parts)]
        return "{" + ", ".join(fields) + "}"

    def part(self, owner, index, expression):
        text = self.initial(expression)
        if self.types.is_signed(owner, index) and not is_zero(expression):
            return f"{signed_name(expression.ty.bits)}({text})"
        return text

    def has_bare(self, ty):
        """Whether a struct crosses and holds an array, which C cannot assign."""
        declared = self.types.declared[ty.name].types if isinstance(ty, Named) else ()
        return any(self.types.is_bare(ty, part) for part in declared)

    def case_braces(self, expression):
        tag = f".tag = {self.types.constant(expression.ty, expression.variant)}"
        kept = [i for i, part in enumerate(expression.parts) if part != Nothing()]
        if not kept:
            return "{" + tag + "}"
        parts = [self.initial(expression.parts[i]) for i in kept]
        member, labels = self.types.variant(expression.ty, expression.variant)
        if labels == [None]:
            return "{" + f"{tag}, .u.{member} = {parts[0]}" + "}"
        fields = ", ".join(f".{labels[i]} = {part}" for i, part in zip(kept, parts))
        return "{" + f"{tag}, .u.{member} = {{{fields}}}" + "}"

    def write_nothing(self, nothing):
        raise Unknown("a value of no type")


def is_constant(expression):
    """Whether C would compute an expression from constants alone, as an int."""
    if isinstance(expression, Binary):
        return is_constant(expression.left) and is_constant(expression.right)
    return isinstance(expression, Number)


def is_constant_place(place):
    """Whether a place is a constant that is lent, and not an element of it."""
    return isinstance(place, Deref) and isinstance(place.of, Lent) and place.of.value.ty == place.ty


def is_zero(expression):
    """Whether all bits of a value are 0, so that C can begin with {0}."""
    if isinstance(expression, Number):
        return expression.value == 0
    if isinstance(expression, Repeat):
        return is_zero(expression.of)
    return isinstance(expression, Aggregate) and all(is_zero(part) for part in expression.parts)


def literal(value):
    """A decimal constant; from 2 to the 31 on it is marked unsigned, so that no compiler wonders."""
    if value < 2**31:
        return str(value)
    return f"{value}u" if value < 2**32 else f"{value}ull"


def stands_bare(inner, sign, is_right):
    """Whether an operand that ends up with one operator needs no parentheses beside another."""
    if inner in (ATOM, PREFIX):
        return True
    if sign in ("&&", "||"):
        return inner in COMPARISONS
    if sign in COMPARISONS:
        return inner in SUMS + PRODUCTS
    if sign in SUMS:
        return inner in PRODUCTS or inner in SUMS and not is_right
    return inner == sign and not is_right and sign in ("*", "&", "|", "^")
