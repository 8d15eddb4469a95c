"""Compile-time asserts: each struct that crosses lies in the header as it was proved."""

from .terms import Named

MACROS = """
/* The structs of the header lie as those that were proved: sizes and places in bytes. */
#define SIZE(type, size) typedef char size_of_##type[sizeof(type) == (size) ? 1 : -1]
#define FIELD(type, field, place, size) \\
    typedef char place_of_##type##_##field[ \\
            offsetof(type, field) == (place) && sizeof(((type *)0)->field) == (size) ? 1 : -1]"""


def assert_lines(types):
    lines = MACROS.split("\n")
    for path, name in sorted(types.crossing.items(), key=lambda pair: pair[1]):
        lines += ["", *struct_lines(types, Named(path), name)]
    return lines


def struct_lines(types, ty, name):
    memory, parts = types.memory, types.declared[ty.name].types
    lines = [f"SIZE({name}, {memory.size(ty)});"]
    for place, part, field in zip(memory.offsets(ty), parts, types.source.types[ty.name].fields):
        lines.append(f"FIELD({name}, {field}, {place}, {memory.size(part)});")
    return lines
