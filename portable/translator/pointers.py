"""Raw pointers that stay in a local.

A raw pointer says nothing of what it points to, and mostly gives way to where it is read (`fold`). One that is read
twice, or after what it is computed from has changed, stays, as a reference to what it is read as everywhere.
"""

from .terms import Address, Aggregate, Assign, Deref, Local, Offset, Pointer, Ref, Slice, Unknown
from .tidy import rename
from .walk import address_reads, all_parts, all_statements, heads


def keep_pointers(function):
    """Gives each raw pointer that is left in a function the type of a reference."""
    for index, ty in enumerate(function.locals):
        stored = [s for s in all_statements(function.body) if isinstance(s, Assign) and s.target == Local(index, ty)]
        if ty == Pointer() and stored:
            kept = Local(index, Ref(all(is_mutable(s.value) for s in stored), pointed_to(function, index)))
            for statement in stored:
                statement.value = reference(statement.value, kept.ty)
            function.locals[index] = kept.ty
            rename(function.body, index, kept)


def pointed_to(function, index):
    """The type of what a raw pointer is read as, stored as, or made a slice of."""
    pointer, found = Local(index, Pointer()), set()
    for statement in all_statements(function.body):
        if isinstance(statement, Assign) and statement.target == pointer and isinstance(statement.value, Address):
            found.add(statement.value.of.ty)
        for part in (part for expression in heads(statement) for part in all_parts(expression)):
            if isinstance(part, Deref) and part.of == pointer:
                found.add(part.ty)
            elif isinstance(part, Aggregate) and isinstance(part.ty, Slice) and part.parts[0] == pointer:
                found.add(part.ty.of)
    if len(found) != 1:
        raise Unknown(f"a raw pointer of {function.name} that is kept, to one of {len(found)} types")
    return found.pop()


def is_mutable(value):
    """Whether what a raw pointer points to can be written: it is of a local, or behind a reference that allows it."""
    if isinstance(value, Address):
        return all(is_mutable(pointer) for pointer in address_reads(value.of))
    if isinstance(value, Offset):
        return is_mutable(value.of)
    return not isinstance(value.ty, Ref) or value.ty.mutable


def reference(value, ty):
    """The value of a raw pointer as that of a reference."""
    if isinstance(value, Address) and value.of.ty == ty.to:
        return Address(value.of, ty)
    if isinstance(value, Offset):
        return Address(Deref(value, ty.to), ty)
    raise Unknown(f"a raw pointer that is kept, to {ty.to} from {value}")
