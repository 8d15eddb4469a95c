"""MIR as Python objects: types, expressions and statements.

What MIR means is defined by the kit's machine: a number is its bits, below 2 to its width; an operation whose result
does not fit, or that divides by zero or shifts by its width or more, is not defined, and the proofs show that it never
happens. `Unknown` is raised at whatever there is no rule for: nothing is guessed.
"""

from dataclasses import dataclass


class Unknown(Exception):
    """Something that the translator has no rule for."""


# Types


@dataclass(frozen=True)
class Int:
    bits: int


@dataclass(frozen=True)
class Bool:
    pass


@dataclass(frozen=True)
class Unit:
    pass


@dataclass(frozen=True)
class Pointer:
    """A raw pointer. It says nothing of what it points to; the `Deref` of a place does."""


@dataclass(frozen=True)
class Ref:
    mutable: bool
    to: object


@dataclass(frozen=True)
class Slice:
    mutable: bool
    of: object


@dataclass(frozen=True)
class Array:
    of: object
    length: int


@dataclass(frozen=True)
class Named:
    name: str


# What a declared type holds: a struct's fields, or each variant's.


@dataclass(frozen=True)
class Fields:
    types: tuple


@dataclass(frozen=True)
class Variants:
    types: tuple


# Places, operands and what is computed from them, all as expressions with their type `ty`.


@dataclass(frozen=True)
class Local:
    index: int
    ty: object


@dataclass(frozen=True)
class Number:
    value: int
    ty: Int


@dataclass(frozen=True)
class Truth:
    value: bool
    ty: Bool = Bool()


@dataclass(frozen=True)
class Nothing:
    ty: Unit = Unit()


@dataclass(frozen=True)
class Field:
    of: object
    index: int
    ty: object


@dataclass(frozen=True)
class Tag:
    of: object
    ty: Int = Int(8)


@dataclass(frozen=True)
class Payload:
    of: object
    variant: int
    index: int
    ty: object


@dataclass(frozen=True)
class Deref:
    of: object
    ty: object


@dataclass(frozen=True)
class Address:
    of: object
    ty: object


@dataclass(frozen=True)
class Lent:
    """A reference to a constant, which lies in memory of its own."""

    value: object
    ty: Ref


@dataclass(frozen=True)
class Offset:
    """So many bytes past a pointer."""

    of: object
    by: object
    ty: Pointer = Pointer()


@dataclass(frozen=True)
class Unary:
    op: str
    of: object
    ty: object


@dataclass(frozen=True)
class Cast:
    source_sign: str
    target_sign: str
    of: object
    ty: Int


@dataclass(frozen=True)
class Binary:
    op: str
    sign: str
    left: object
    right: object
    ty: object


@dataclass(frozen=True)
class Aggregate:
    """The parts of a struct, slice or array, one for each."""

    parts: tuple
    ty: object


@dataclass(frozen=True)
class Case:
    """An enum's value: its variant and that variant's fields."""

    variant: int
    parts: tuple
    ty: object


@dataclass(frozen=True)
class Repeat:
    of: object
    ty: Array


@dataclass(frozen=True)
class Call:
    function: str
    arguments: tuple
    ty: object


# Statements. A body is a list of them.


@dataclass
class Assign:
    target: object
    value: object


@dataclass
class If:
    condition: object
    then: list
    otherwise: list


@dataclass
class Switch:
    """Arms of keys and a body; `default` is None where the keys are all that can occur."""

    value: object
    arms: list
    default: list


@dataclass
class Loop:
    body: list


@dataclass
class Block:
    body: list


@dataclass
class Exit:
    """Leaves so many blocks and loops and then ends a block, or begins the next turn of a loop."""

    depth: int


@dataclass
class Return:
    value: object


@dataclass
class Unreachable:
    """Stands where the proofs show that the machine never comes."""


@dataclass
class Function:
    name: str
    parameters: int
    locals: list
    in_memory: frozenset
    body: list


@dataclass
class Program:
    functions: list
    declared: dict
