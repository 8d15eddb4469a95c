#!/usr/bin/env python3
"""The tracks of a MOOF file, as floptool writes it, in an HxC MFM file: half cell for half cell, nothing is decoded.

    moof_to_mfm.py DISK.moof DISK.mfm

floptool's own MFM files have no room for high density; its MOOF files have, and the disk program reads no MOOF.
"""

import struct
import sys

HEADER, ENTRY, TRACKS, SIDES, RATE = 19, 11, 80, 2, 500


def chunks(file):
    """The chunks of a file by name, each with the place of its contents."""
    place = 12
    while place + 8 <= len(file):
        name, length = struct.unpack_from("<4sI", file, place)
        yield name, place + 8
        place += 8 + length


def main():
    source, target = sys.argv[1:]
    with open(source, "rb") as opened:
        file = opened.read()
    places = dict(chunks(file))
    out = b"HXCMFM\0" + struct.pack("<HBHHBI", TRACKS, SIDES, 300, RATE, 1, HEADER)
    tracks, begin = b"", HEADER + ENTRY * TRACKS * SIDES
    for number in range(TRACKS * SIDES):
        entry = file[places[b"TMAP"] + number]
        block, _, bits = struct.unpack_from("<HHI", file, places[b"TRKS"] + 8 * entry)
        assert bits % 8 == 0
        cells = file[512 * block : 512 * block + bits // 8]
        out += struct.pack("<HBII", number // SIDES, number % SIDES, len(cells), begin + len(tracks))
        tracks += cells
    with open(target, "wb") as opened:
        opened.write(out + tracks)


main()
