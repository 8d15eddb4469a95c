#!/usr/bin/env python3
"""Draws the windows of a profile, after a short cell and after any other, with the lengths that are written in them,
the room at each edge and the sides that hold the margin down: as SVG, or the same figures as a table of 40 columns.

use: mfm_strip < SCRIPT | docs/draw_windows.py SCRIPT MHZ > docs/windows.svg
     mfm_strip < SCRIPT | docs/draw_windows.py SCRIPT MHZ --table > docs/windows.txt

The edges come from the script's profile line; lengths, classes and margin are the program's own output, so the script
has to write every length (examples/windows.strip does). MHZ is the chip's clock: a half clock is 500 / MHZ nanoseconds.
"""
import sys
from typing import NamedTuple

CLASSES = ("2", "3", "4")
KINDS = ("short", "long")  # after a cell of 2 units, after any other
COLOURS = {"2": "#cfe3f5", "3": "#d9efd3", "4": "#f8e3c5"}
INK, FAINT, RED = "#222", "#666", "#a31515"
SCALE, LEFT, RIGHT, TOP, HEIGHT, STEP, BEYOND = 7, 120, 24, 76, 96, 146, 6


class Side(NamedTuple):
    """The lengths on one side of an edge: the nearest of them, and how far it may move without crossing."""

    edge: str
    after: str  # short, long, or both for Min and Rpt
    at: int
    side: str  # below or above
    length: int
    room: int


class Drawing(NamedTuple):
    numbers: list  # the eleven of the profile
    mhz: float
    margin: int
    lengths: dict  # by kind and class, ascending
    sides: list

    def nanoseconds(self, half_clocks):
        return round(half_clocks * 500 / self.mhz)

    def edges(self, kind):
        least, b23_short, b23_long, b34_short, b34_long, most = self.numbers[5:]
        b23, b34 = (b23_short, b34_short) if kind == "short" else (b23_long, b34_long)
        return {"Min": least, "B23": b23, "B34": b34, "Rpt": most}


# ---------------------------------------------------------------------------------------------------------------- input


def read_profile(path):
    try:
        with open(path, encoding="ascii") as script:
            fields = script.readline().rstrip("\n").split("\t")
    except (OSError, UnicodeDecodeError) as error:
        raise ValueError(f"{path}: {getattr(error, 'strerror', None) or 'not plain text'}") from error
    if fields[0] != "profile" or len(fields) != 12 or not all(field.isdecimal() for field in fields[1:]):
        raise ValueError(f"{path}: the first line is no profile of eleven numbers")
    return [int(field) for field in fields[1:]]


def read_answer(lines):
    """The margin, and the lengths by kind and class, from the strip program's output."""
    rows = [line.split("\t") for line in lines]
    if not rows:
        raise ValueError("no output of the strip program on standard input")
    if rows[0][0] == "refused":
        raise ValueError(f"the strip program answers: {' '.join(rows[0])}")
    forms = [("margin", 2)] + [("cell", 4)] * (len(rows) - 2) + [("end", 2)]
    formed = ((row[0], len(row)) == form and all(map(str.isdecimal, row[1:])) for row, form in zip(rows, forms))
    if len(rows) < 2 or not all(formed) or not all(row[2] in CLASSES for row in rows[1:-1]):
        raise ValueError("standard input is no output of the strip program")
    seen = {(kind, name): set() for kind in KINDS for name in CLASSES}
    kind = "short"
    for _, _, name, length in rows[1:-1]:
        seen[kind, name].add(int(length))
        kind = "short" if name == "2" else "long"
    return int(rows[0][1]), {key: sorted(found) for key, found in seen.items()}


def sides_of(edges, lengths):
    """The ten sides, in the order Min, B23, B34, Rpt, short before long, below before above."""
    if not all(lengths.values()):
        raise ValueError("the script does not write a cell of each class after each kind")
    least = min(lengths[kind, "2"][0] for kind in KINDS)
    most = max(lengths[kind, "4"][-1] for kind in KINDS)
    sides = [Side("Min", "both", edges["short"]["Min"], "above", least, least - edges["short"]["Min"])]
    for edge, under, over in (("B23", "2", "3"), ("B34", "3", "4")):
        for kind in KINDS:
            at, below, above = edges[kind][edge], lengths[kind, under][-1], lengths[kind, over][0]
            sides.append(Side(edge, kind, at, "below", below, at - 1 - below))
            sides.append(Side(edge, kind, at, "above", above, above - at))
    return sides + [Side("Rpt", "both", edges["short"]["Rpt"], "below", most, edges["short"]["Rpt"] - 1 - most)]


def drawing_of(path, mhz, lines):
    try:
        clock = float(mhz)
    except ValueError as error:
        raise ValueError(f"{mhz} is no clock in MHz") from error
    if not 0.1 <= clock <= 1000:
        raise ValueError(f"{mhz} is no clock in MHz")
    empty = Drawing(read_profile(path), clock, *read_answer(lines), [])
    drawing = empty._replace(sides=sides_of({kind: empty.edges(kind) for kind in KINDS}, empty.lengths))
    least = min(side.room for side in drawing.sides)
    if least != drawing.margin:
        raise ValueError(f"the least room of the lengths written is {least}, and the margin is {drawing.margin}")
    return drawing


# ---------------------------------------------------------------------------------------------------------------- table


def table(drawing):
    """The figures in lines of at most 40 columns."""
    yield "Windows of the profile"
    yield " ".join(map(str, drawing.numbers))
    yield f"at {drawing.mhz:g} MHz: a half clock is {500 / drawing.mhz:.1f} ns"
    yield f"margin {drawing.margin} half clocks, {drawing.nanoseconds(drawing.margin)} ns"
    yield "short: after a cell of 2 units"
    yield "long: after any other cell"
    for unit, scaled in (("half clocks", int), ("nanoseconds", drawing.nanoseconds)):
        yield ""
        yield f"Room at each edge, {unit}"
        yield "edge after    at side  length room holds"
        for side in drawing.sides:
            holds = " yes" if side.room == drawing.margin else ""
            room = f"{scaled(side.length):>6} {scaled(side.room):>4}{holds}"
            yield f"{side.edge:4} {side.after:5} {scaled(side.at):>5} {side.side:5} {room}"
        yield ""
        yield f"Lengths written, {unit}"
        yield "cell    after short  after long"
        for name in CLASSES:
            short, long = (" ".join(f"{scaled(d):>5}" for d in drawing.lengths[kind, name]) for kind in KINDS)
            yield f"{name} units {short:>11} {long:>11}"


# -------------------------------------------------------------------------------------------------------------- picture


def text(x, y, words, anchor="middle", size=13, fill=INK):
    return f'<text x="{x:g}" y="{y:g}" text-anchor="{anchor}" font-size="{size}" fill="{fill}">{words}</text>'


def line(x1, y1, x2, y2, colour, width=1):
    return f'<line x1="{x1:g}" y1="{y1:g}" x2="{x2:g}" y2="{y2:g}" stroke="{colour}" stroke-width="{width}"/>'


def after(side):
    return {"both": "", "short": " after class 2", "long": " after any other"}[side.after]


def told(drawing):
    """The description: what the picture shows, side by side."""
    yield f"Margin {drawing.margin} half clocks, {drawing.nanoseconds(drawing.margin)} ns at {drawing.mhz:g} MHz."
    for side in drawing.sides:
        holds = ", holds the margin down" if side.room == drawing.margin else ""
        yield f"{side.edge} {side.at}{after(side)}: room {side.room} {side.side}, from the length {side.length}{holds}."


class Picture:
    def __init__(self, drawing):
        self.drawing = drawing
        self.start = min(drawing.numbers[5:]) - BEYOND
        self.end = max(drawing.numbers[5:]) + BEYOND
        self.width = LEFT + RIGHT + SCALE * (self.end - self.start)
        self.below = TOP + STEP + HEIGHT + 34
        self.height = self.below + 126

    def across(self, half_clocks):
        return LEFT + SCALE * (half_clocks - self.start)

    def room(self, top, side):
        """The room at an edge as a bar from the nearest length to the edge, red with a triangle where it holds."""
        holds = side.room == self.drawing.margin
        colour = RED if holds else FAINT
        way, end = (1, side.at - 1) if side.side == "below" else (-1, side.at)
        y = top + 62
        x1, x2 = self.across(side.length), self.across(end)
        told_room = "holds the margin down" if holds else f"has room {side.room}"
        yield f"<g><title>{side.side} {side.edge}{after(side)} {told_room}</title>"
        yield line(x1, y, x2, y, colour, 3 if holds else 1.5)
        yield line(x1, y - 5, x1, y + 5, colour, 1.5)
        yield text((x1 + x2) / 2, y - 6, side.room, size=12, fill=colour)
        if holds:
            x = self.across(side.at)
            yield f'<polygon points="{x:g},{y} {x - way * 9:g},{y - 6} {x - way * 9:g},{y + 6}" fill="{RED}"/>'
        yield "</g>"

    def window(self, top, kind, name, low, high):
        x, lengths = self.across(low), self.drawing.lengths[kind, name]
        box = f'x="{x:g}" y="{top}" width="{SCALE * (high - low)}" height="{HEIGHT}"'
        yield f'<rect {box} fill="{COLOURS[name]}" stroke="{FAINT}"/>'
        yield text(self.across((low + high) / 2), top + 18, f"class {name}")
        for length in lengths:
            yield f'<circle cx="{self.across(length):g}" cy="{top + 34}" r="4" fill="{INK}"/>'
        anchors = ("middle",) if len(lengths) == 1 else ("end", "start")
        for length, anchor in zip((lengths[0], lengths[-1]), anchors):
            yield text(self.across(length), top + 84, length, anchor, 12)

    def row(self, top, kind, words):
        edges = self.drawing.edges(kind)
        for place, word in enumerate(words):
            yield text(LEFT + SCALE * BEYOND - 14, top + 42 + 17 * place, word, "end")
        names = list(edges)
        for name, lower, upper in zip(CLASSES, names, names[1:]):
            yield from self.window(top, kind, name, edges[lower], edges[upper])
        for side in self.drawing.sides:
            if side.after in (kind, "both") and side.length in self.drawing.lengths[kind, self.class_of(side)]:
                yield from self.room(top, side)
        for name, edge in edges.items():
            yield text(self.across(edge), top + HEIGHT + 17, f"{name} {edge}")

    def class_of(self, side):
        under, over = {"Min": ("", "2"), "B23": ("2", "3"), "B34": ("3", "4"), "Rpt": ("4", "")}[side.edge]
        return under if side.side == "below" else over

    def scale(self, y, step, unit, scaled):
        """An axis with a tick at each step of its unit; `scaled` turns the unit into half clocks."""
        yield line(self.across(self.start), y, self.across(self.end), y, INK)
        tick = -(-self.start // scaled(step))
        while scaled(step) * tick <= self.end:
            x = self.across(scaled(step) * tick)
            yield line(x, y, x, y + 6, INK)
            yield text(x, y + 19, f"{step * int(tick):,}", size=11)
            tick += 1
        yield text(LEFT - 12, y + 5, unit, "end", 12)

    def svg(self):
        drawing = self.drawing
        size = f'width="{self.width}" height="{self.height}" viewBox="0 0 {self.width} {self.height}"'
        yield f'<svg xmlns="http://www.w3.org/2000/svg" {size} role="img" aria-labelledby="name told" '
        yield 'font-family="sans-serif">'
        name = f"Windows by the interval before, and the room at each edge; the margin is {drawing.margin} half clocks"
        yield f'<title id="name">{name}</title>'
        yield f'<desc id="told">{" ".join(told(drawing))}</desc>'
        yield '<rect width="100%" height="100%" fill="white"/>'
        yield text(self.width / 2, 28, name, size=15)
        numbers = " ".join(map(str, drawing.numbers))
        yield text(self.width / 2, 50, f"profile {numbers} at {drawing.mhz:g} MHz", size=12, fill=FAINT)
        yield from self.row(TOP, "short", ("after class 2,", "a short cell"))
        yield from self.row(TOP + STEP, "long", ("after", "any other"))
        yield from self.scale(self.below, 10, "half clocks", lambda number: number)
        yield from self.scale(self.below + 32, 500, "ns", lambda number: number * drawing.mhz / 500)
        dots = "dots: the lengths that are written"
        bars = "bars: the room at each edge, by which the nearest length may move and keep its class"
        yield text(self.width / 2, self.below + 78, f"{dots}; {bars}", size=12)
        triangles = "red, with a triangle at the edge: the sides whose room is the margin, which hold it down"
        yield text(self.width / 2, self.below + 97, triangles, size=12, fill=RED)
        yield "</svg>"


def main(arguments):
    chosen = [argument for argument in arguments if argument != "--table"]
    if len(chosen) != 2 or len(arguments) > 3:
        raise ValueError("usage: mfm_strip < SCRIPT | draw_windows.py SCRIPT MHZ [--table]")
    drawing = drawing_of(chosen[0], chosen[1], sys.stdin.buffer.read().decode("ascii", "replace").splitlines())
    print("\n".join(table(drawing) if "--table" in arguments else Picture(drawing).svg()))


if __name__ == "__main__":
    try:
        main(sys.argv[1:])
    except ValueError as error:
        sys.exit(f"draw_windows.py: {error}")
