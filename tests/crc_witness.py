#!/usr/bin/env python3
"""CRC values of the paper's implementation and of the library against binascii.crc_hqx, a third implementation.

usage: crc_witness.py OUTSIDE

OUTSIDE is the comparison program; its mode `crc` prints both values for each row of bytes on standard input.
"""

import binascii
import random
import subprocess
import sys

SEED = 0xC2C
START = 0xFFFF


def rows():
    """Every row of one byte, some of two, runs of one byte, random rows up to the longest that fits a strip."""
    chance = random.Random(SEED)
    yield b""
    yield b"123456789"
    yield b"\xA1\xA1\xA1"
    yield from (bytes([b]) for b in range(256))
    yield from (bytes([a, b]) for a in range(0, 256, 5) for b in range(256))
    yield from (bytes([b]) * n for b in (0x00, 0x4E, 0xA1, 0xFF) for n in range(1, 300, 7))
    yield from (chance.randbytes(chance.randrange(3, 300)) for _ in range(3000))
    yield from (chance.randbytes(n) for n in (1030, 4096, 6397, 6398))


def main():
    if len(sys.argv) != 2:
        sys.exit(__doc__)
    cases = list(rows())
    text = "".join(row.hex() + "\n" for row in cases)
    answers = subprocess.run([sys.argv[1], "crc"], input=text, capture_output=True, text=True, check=True).stdout
    lines = answers.splitlines()
    if len(lines) != len(cases):
        sys.exit(f"crc_witness: {len(cases)} rows gave {len(lines)} lines")
    for row, line in zip(cases, lines):
        witness = f"{binascii.crc_hqx(row, START):04X}"
        if line.split() != [witness, witness]:
            print(f"DISAGREEMENT on {row.hex()}: paper and library {line}, crc_hqx {witness}")
            sys.exit(1)
    print(f"crc_witness: {len(cases)} rows agree, seed {SEED:#x}")


main()
