"""What stands at the head of the file, and the functions for operations that C has no sign for."""

from .layout import comment, filled
from .terms import Unknown

PREFACE = """\
The library {name} as one C file, for any processor.

Made by portable/from_mir from the libraries that {kit} has proved and built: from the MIR of every function, for which
the proofs hold on Rattle's abstract machine. The translator and the C compiler are not proved; portable/README.md says
how they are tested. Not to be edited: change the Rattle source, prove it, and make this file again.

Strict C99 without undefined behaviour; no heap, no library function, no state. Needs {name}.h beside it or on the
include path: cc -std=c99 -O2 -Iinclude -c portable/{name}.c

Each function is named by its path in the Rattle source, with _ for ::, and carries the comment that it has there. A
number of n bits is a uintn_t, usize is uint64_t, a slice is a pointer and a length, an array is a struct of one so that
it can be assigned, and an enum is a tag and a union. Sums, differences and products are proved to stay within their
widths. Temporaries that MIR has and the source does not are named t and a number."""

# A function for each operation on bits and the widest number that it takes; the wider ones use the others.
HELPERS = {
    "leading_zeros": """\
/* The zeros above the highest one; 32 where there is none. */
static uint32_t leading_zeros(uint32_t bits) {
#if defined(__GNUC__) && __SIZEOF_INT__ == 4
    return bits == 0 ? 32 : (uint32_t)__builtin_clz(bits);
#else
    uint32_t zeros = 32;
    for (; bits != 0; bits >>= 1) zeros--;
    return zeros;
#endif
}""",
    "leading_zeros_64": """\
static uint32_t leading_zeros_64(uint64_t bits) {
    return bits >> 32 == 0 ? 32 + leading_zeros((uint32_t)bits) : leading_zeros((uint32_t)(bits >> 32));
}""",
    "count_ones": """\
/* The ones of each two bits, of each four, of each eight, and of all. */
static uint32_t count_ones(uint32_t bits) {
    bits = bits - ((bits >> 1) & 0x55555555);
    bits = (bits & 0x33333333) + ((bits >> 2) & 0x33333333);
    bits = (bits + (bits >> 4)) & 0x0F0F0F0F;
    return (uint32_t)(bits * 0x01010101) >> 24;
}""",
    "count_ones_64": """\
static uint32_t count_ones_64(uint64_t bits) {
    return count_ones((uint32_t)bits) + count_ones((uint32_t)(bits >> 32));
}""",
    "as_int32": """\
/* The signed number whose bits these are, in two's complement. */
static int32_t as_int32(uint32_t bits) {
    return bits < 0x80000000 ? (int32_t)bits : -(int32_t)(0xFFFFFFFF - bits) - 1;
}""",
}
NAMES = {"leadingZeros": "leading_zeros", "countOnes": "count_ones"}


def helper_name(op, bits):
    """The function for an operation on a number of so many bits."""
    return f"{NAMES[op]}_64" if bits == 64 else NAMES[op]


def signed_name(bits):
    """The function from the bits of a signed number to the number."""
    if bits != 32:
        raise Unknown(f"a signed number of {bits} bits in a struct of the header")
    return "as_int32"


def helper_lines(used):
    """The functions that are used, with those that they use."""
    used = used | {name.removesuffix("_64") for name in used}
    lines = []
    for name, text in HELPERS.items():
        if name in used:
            lines += ["", *text.split("\n")]
    return lines


def preface(name, kit):
    paragraphs = PREFACE.format(name=name, kit=kit).split("\n\n")
    lines = []
    for paragraph in paragraphs:
        lines += [*filled(paragraph, 116), ""]
    includes = [f'#include "{name}.h"', "", "#include <stdbool.h>", "#include <stddef.h>"]
    return [*comment(lines[:-1]), *includes, "#include <stdint.h>"]
