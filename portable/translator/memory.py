"""How values lie on MIR's machine, whose pointers count bytes: structs as C's do, an enum's tag before its fields."""

from .terms import Array, Bool, Fields, Int, Named, Pointer, Ref, Slice, Unit, Unknown


class Memory:
    """Sizes and places in bytes; `declared` has the parts of the types that are given by name."""

    def __init__(self, declared):
        self.declared = declared

    def size(self, ty):
        return self.size_and_alignment(ty)[0]

    def offsets(self, ty):
        """Where the fields of a struct begin."""
        return self.laid_out(self.declared[ty.name].types)[0]

    def size_and_alignment(self, ty):
        if isinstance(ty, Int):
            return ty.bits // 8, ty.bits // 8
        if isinstance(ty, Bool):
            return 1, 1
        if isinstance(ty, Unit):
            return 0, 1
        if isinstance(ty, (Ref, Pointer)):
            return 8, 8
        if isinstance(ty, Slice):
            return 16, 8
        if isinstance(ty, Array):
            size, alignment = self.size_and_alignment(ty.of)
            return size * ty.length, alignment
        return self.size_of_declared(ty)

    def size_of_declared(self, ty):
        declared = self.declared.get(ty.name) if isinstance(ty, Named) else None
        if declared is None:
            raise Unknown(f"the size of {ty}")
        if isinstance(declared, Fields):
            return rounded(*self.laid_out(declared.types)[1:])
        ends = [self.laid_out(types, 1)[1:] for types in declared.types]
        return rounded(max((end for end, _ in ends), default=1), max((most for _, most in ends), default=1))

    def laid_out(self, types, end=0):
        """Where each part begins, where the last ends, and the largest alignment, from so many bytes on."""
        offsets, most = [], 1
        for size, alignment in map(self.size_and_alignment, types):
            start = up(end, alignment)
            offsets.append(start)
            end = start + size
            most = max(most, alignment)
        return offsets, end, most


def up(number, step):
    """The least multiple of a step that is not below a number."""
    return -(-number // step) * step


def rounded(end, alignment):
    return up(end, alignment), alignment
