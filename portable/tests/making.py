"""Short forms of terms, and of MIR as the kit keeps it, for the tests."""

import sys
from pathlib import Path

sys.path.insert(0, str(Path(__file__).resolve().parent.parent))

from translator.terms import (  # noqa: E402
    Array, Assign, Binary, Bool, Call, Deref, Field, Int, Local, Named, Number, Offset, Ref, Return, Slice,
)

U8, U16, U32, U64, BOOL = Int(8), Int(16), Int(32), Int(64), Bool()
WORDS = Slice(False, U16)
WORDS_MUT = Slice(True, U16)
TABLE = Array(U16, 4)


def local(index, ty=U64):
    return Local(index, ty)


def number(value, ty=U64):
    return Number(value, ty)


def binary(op, left, right, sign="unsigned"):
    return Binary(op, sign, left, right, BOOL if op in ("eq", "ne", "lt", "le") else left.ty)


def assign(index, value):
    return Assign(Local(index, value.ty), value)


def call(name, *arguments, ty=U64):
    return Call(name, arguments, ty)


def element(of, index, ty=U16):
    """An element of a slice, as MIR reaches it."""
    bytes_ = binary("mul", index, number(ty.bits // 8)) if ty.bits > 8 else index
    return Deref(Offset(Field(of, 0, Ref(of.ty.mutable, ty)), bytes_), ty)


def returned(value):
    return Return(value)


# MIR as the kit keeps it


def kept_int(bits):
    return {"Int": bits}


def kept_ref(mutability, to):
    return {"Ref": ["Erased", mutability, to]}


def kept_slice(mutability, of):
    return {"Struct": ["&[]", [kept_ref(mutability, of), kept_int(64)]]}


def kept_array(of, length):
    return {"Array": [of, {"Lit": length}]}


def kept_named(name, *arguments):
    return {"Named": [{"name": name, "lifetimes": []}, list(arguments)]}


def kept_place(index, *steps):
    return {"local": index, "steps": list(steps)}


def kept_copy(index, *steps):
    return {"Copy": kept_place(index, *steps)}


def kept_number(bits, value):
    return {"Int": {"width": bits, "value": value}}


def kept_assign(index, value):
    return {"Assign": [kept_place(index), value]}


def kept_call(name, arguments, index, types=(), dicts=()):
    return {"Call": [{"Fn": [name, {"types": list(types), "dicts": list(dicts)}]}, arguments, kept_place(index)]}


def kept_method(dictionary, k, arguments, index):
    return {"Call": [{"Method": [dictionary, k, {"types": [], "dicts": []}]}, arguments, kept_place(index)]}


def kept_type(name, shape):
    return {
        "name": name, "lifetimes": 0, "bounds": [], "type_params": 0, "const_params": [], "type_bounds": [],
        "owns": False, "is_cell": False, "shape": shape, "is_tuple": False,
    }


def kept_generic(function, kinds=(None,), bounds=(), impls=()):
    """A function that takes types, and numbers where a kind is so many bits, with dictionaries for its bounds."""
    types = [{"is_copy": False, "is_kept": False, "const_bits": kind} for kind in kinds]
    bounds = [{"of": of, "lifetimes": [], "types": list(types)} for of, *types in bounds]
    return {**function, "generics": {**function["generics"], "types": types, "bounds": bounds, "impls": list(impls)}}


def kept_impl(name, methods, types=0, bounds=0):
    return {
        "name": name, "lifetimes": 0, "outlives": [], "types": [{}] * types, "type_outlives": [],
        "bounds": [{}] * bounds, "of": {}, "methods": list(methods),
    }


def kept_function(parameters, locals_, body, types=(), in_memory=()):
    homes = ["MemorySlot" if i in in_memory else "ValueLocal" for i in range(len(locals_))]
    return {
        "lifetimes": 0,
        "outlives": [],
        "params": parameters,
        "generics": {
            "types": [], "outlives": [], "bounds": [], "method_of": None, "trait_lifetimes": 0, "impls": [],
        },
        "types": list(types),
        "locals": [{"ty": ty, "home": home} for ty, home in zip(locals_, homes)],
        "body": body,
    }


def in_turn(*statements):
    """A body of statements one after the other."""
    return [word for statement in statements[:-1] for word in ("Seq", statement)] + [statements[-1]]
