#!/usr/bin/env python3
"""The 64 cells of braille ASCII as a display table of liblouis has them, through a master and shown in Unicode.

    tests/page_cells.py TABLE PROGRAM
"""
import subprocess, sys

table, program = sys.argv[1:]
cells = {}
for line in open(table):
    words = line.split()
    if words[:1] == ["display"]:
        character = {"\\s": " ", "\\\\": "\\"}.get(words[1], words[1])
        dots = 0 if words[2] == "0" else sum(1 << int(dot) - 1 for dot in words[2])
        assert len(character) == 1 and character not in cells
        cells[character] = chr(0x2800 + dots)
assert len(cells) == 64 and set(cells.values()) == {chr(0x2800 + dots) for dots in range(64)}
text = "".join(cells)
open("cells.brf", "w").write(text[:40] + "\n" + text[40:] + "\n")
subprocess.run([program, "pack", "cells.brf", "cells.hfe"], check=True)
shown = subprocess.run([program, "show", "cells.hfe", "1"], check=True, capture_output=True, encoding="utf-8").stdout
expected = "".join(cells[character] for character in text).ljust(1000, "\u2800")
assert shown.replace("\n", "") == expected
