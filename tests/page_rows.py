#!/usr/bin/env python3
"""Whether the rows of a PEF file that have a dot are the lines of a BRF file that have one, page by page.

    tests/page_rows.py BRF PEF
"""
import re
import sys

LETTERS = " A1B'K2L@CIF/MSP\"E3H9O6R^DJG>NTQ,*5<-U8V.%[$+X!&;:4\\0Z7(_?W]#Y)="


def brf_pages(text):
    """Lists of lines: pages end in FF or after 25 lines, and an FF behind the 25th, or the last, begins none."""
    pages = []
    for chunk in re.split("\f", text):
        lines = chunk.split("\n")
        if lines[-1] == "":
            lines.pop()
        pages += [lines[i : i + 25] for i in range(0, len(lines), 25)] or [[]]
    if text.endswith("\f") or text == "":
        pages.pop()
    return pages


def row(line):
    """A line in Unicode, without its blank end."""
    folded = (chr(ord(c) - 0x20) if 0x60 <= ord(c) <= 0x7E else c for c in line.rstrip(" "))
    return "".join(chr(0x2800 + LETTERS.index(c)) for c in folded)


brf, pef = sys.argv[1:]
pages = brf_pages(open(brf, newline="").read().replace("\r\n", "\n"))
expected = [[row(line) for line in page if line.strip(" ")] for page in pages]
packed = re.findall("<page>(.*?)</page>", open(pef, encoding="utf-8").read(), re.S)
sys.exit(expected != [[cells for cells in re.findall("<row>(.*)</row>", page) if cells] for page in packed])
