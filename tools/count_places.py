#!/usr/bin/env python3
"""Counts the places of docs/DESIGN-PASS.md in crates/*/src: where the code could be written in a plainer form.

    tools/count_places.py [POINT]            one line a place: point, kind, file:line, function, text
    tools/count_places.py [POINT] --table    counts by point and kind, and by crate
    tools/count_places.py --dir FOLDER ..    another checkout

Run at the top of the repository. What a text cannot tell is told by lists of names below, of functions as they stood at
the commit in that page's first line. Points are 1 to 8, with kinds below them:

 1 own-option, own-result   an enum of the shape of Option or Result, where it is declared
   own-result-in            a function whose result is such an enum (what changes its signature)
   ladder                   a match arm that only hands a refusal on: E::Refused(r) => [return] F::Refused(r)
   flag-beside, sentinel    a flag or a number beside a value; a number that stands for "none" in a result
   number-for-kind          a number for a kind or a refusal outside #[repr(C)] structs
   no-derives               an enum without PartialEq
 2 twin                     functions alike but for a type, a size, a constant or a direction (groups below, by name)
   twin-const               a constant declared in two crates or files
   twin-type                structs or enums of one shape
 3 index-loop               a `while` that counts an index by one to an end
   index-loop-step          a `while` that counts by more than one, or block by block
   loop-other               any other `while` or `loop`
 4 by-hand                  equality, copying, filling, the lesser and greater, conversion by hand
 5 repeated-fact            a fact that stands in three or more contracts
   together                 parameters that travel together through three or more functions
 6 length-beside            a buffer with a length beside it, an array with a count, a place into a slice handed on
   index-of                 an array searched by hand, an arena of indices
 7 step-switch              a switch on which step to run
 8 counted from proofs/, not src/: with --table only
"""
import argparse
import re
import sys
from collections import Counter, defaultdict
from pathlib import Path

ap = argparse.ArgumentParser()
ap.add_argument("point", nargs="?")
ap.add_argument("--table", action="store_true")
ap.add_argument("--dir", default=".")
args = ap.parse_args()
ROOT = Path(args.dir)

# Enums of the shape of Option or Result, and their refusing case, told by shape below and by these names.
NONE_CASES = {"NoField", "NoId", "Missing", "Malformed", "Faulty", "Nowhere", "End"}

# Groups of functions that differ in a type, a size or a constant. Told by name, since a text cannot tell likeness:
# `rattle` has no tool for it. `twins()` checks that each still stands.
TWINS = {
    "a run stored from a place on, by element type and conversion": [
        "lists::store", "lists::copy", "shifts::store", "fields::store_bytes", "sectors::put_data", "text::append"],
    "one number so many times": ["sectors::repeat", "page::put_fill"],
    "the lesser of two": ["lists::at_most", "intervals::lesser", "lengths::least", "best::least", "report::lesser", "clearance::lesser"],
    "the greater of two": ["intervals::greater", "sets::at_least", "locks::later", "report::greater"],
    "cut off at 0": ["lengths::room", "clearance::above", "passes::last_place"],
    "either of two by a test": ["words::either", "lengths::either", "timing::chosen"],
    "all ones or none": ["intervals::mask_of", "clearance::mask_of"],
    "either of two by a mask": ["intervals::choose", "clearance::chosen"],
    "whether of class 2, as masks": ["intervals::mark_kinds", "clearance::fill_alike"],
    "whether of class 2": ["intervals::is_two", "timing::meets_two"],
    "the units of an interval by bounds": ["intervals::units_by", "timing::units"],
    "four numbers as lanes": ["items::four_at", "passes::four_at"],
    "whether two slices are the same": ["text::same", "merge::same_bytes"],
    "bytes into words, by rule or by table": ["images::turn_few", "images::turn_many"],
    "extremes of a block, by one pair of bounds or one each": ["clearance::extremes_alike", "clearance::extremes_by"],
    "the lowest page, by a test": ["page::lowest_lost", "page::lowest_soiled"],
    "the lowest number of a span, by a test": ["sets::lowest_twice", "merge::lowest_at_odds"],
    "a list run by run": ["items::write_bytes", "codec::write_items"],
    "a run and its check bytes": ["items::write_run", "codec::write_run"],
    "a field by parts": ["fields::pass_items", "fields::pass_bytes"],
    "a field through a buffer": ["fields::read_into", "speed::read_into"],
    "a short or a long buffer": ["fields::read_checked", "speed::read_checked"],
    "a block of intervals, read or looked at": ["passes::pass_block", "passes::look_block"],
}
TWIN_TYPES = {
    "how many and how many bytes, or a refusal": ["merge::Merged", "page::Made", "track_set::TrackSet"],
    "a value, or malformed": ["text::Decimal", "text::Byte", "script::ProfileLine", "script::ItemLine"],
    "an answer with its clearance": ["clearance::ClearCount", "clearance::ClearFieldRead"],
    "how a pass over a field ends": ["fields::Gathered", "speed::Gathered"],
    "something with a check register": ["speed::BlockRead", "fields::Summed", "codec::Part"],
    "a reading and a count": ["shifts::Pass", "shifts::Fours"],
    "an answer and limits": ["limits::Limits", "limits::Held"],
    "a low and a high": ["timing::Range", "sets::Span"],
}
# Facts of point 5: a text in clauses that is counted where it stands in three functions or more.
FACTS = {
    "the profile is accepted": r"\(profile_rule \w+\)\.number ≡ 0",
    "the list is accepted": r"\(list_rule \w+(?:\.now)?\)\.number ≡ 0",
    "the cursor is ascending": r"Ascending [\w.]+",
    "a field of 1 to 1,030 bytes": r"\(1 ≤ n\) × \(n ≤ 1030\)",
    "the numbers of a profile are in range": r"InRange(?:Of)? \w+",
    "the pace is able": r"Able pace",
    "at most 16 half cells are held": r"[\w.]*held ≤ 16",
    "bytes are left to read": r"[\w.]*words < (?:most|n)\b",
    "the units are of cells": r"AllCells [\w.]+",
    "the index is of the set": r"Indexed set\.now index\.\w+|Indexes first\.now a\.now second\.now b\.now span",
    "no number twice": r"anywhere \(is_twice_in \(sectors_in set\.now\)\) numbers ≡ false",
    "entries stand within the sets": r"Within (?:first|set)\.now",
    "as many as the other has": r"length (?:units|masks|kinds)\.old ≡ length intervals\.now",
    "room at a place for a run": r"[\w.]+ \+ [^{}]*≤ length (?:out|set|cells)\.old",
    "bytes written are those of the items": r"bytes ≡ written_bytes items\.now",
    "at most 16 pages": r"pages ≤ 16",
    "the output has room for what is printed": r"output_length ≤ length out\.old",
}
TOGETHER = {
    "p, intervals": r"p: Profile, (?:\w+: \w+, )?intervals: &(?:'a )?\[u16\]",
    "first, a, second, b (a set and its index, twice)": r"first: &\[u8\], a: (?:u16|usize|&\[u16; 256\]), second: &\[u8\]",
    "set, index": r"set: &(?:mut )?\[u8\], index: &(?:mut )?\[u16; 256\]|set: &\[u8\], (?:entry: u16|code: usize)",
    "out, at (an output and the place in it)": r"out: &mut \[u(?:8|16)\], (?:at|start): usize|at: usize, out: &mut \[u(?:8|16)\]",
    "most, to, out (how many bytes, and where they go)": r"most: u32, to: usize, out: &mut \[u16\]",
    "short, long (the bounds after either kind)": r"short: (?:Bounds|Cursor|HalfClocks|u16), long: ",
    "pace, intervals, n, out": r"pace: Pace, intervals: &\[u16\], n: \w+, ",
    "numbers, k (a list and a place in it)": r"(?:numbers|bytes|units|intervals|set|line|text): &\[u(?:8|16)\], (?:k|at|from|start|code): usize",
    "track, side, sector, code": r"track: u8, side: u8, sector: u8, code: u8",
}

FN = re.compile(r"^\s*(?:pub )?(?:const )?(?:extern \"C\" )?fn (\w+)")


class Src:
    def __init__(self, crate, file):
        self.crate, self.file = crate, file
        self.lines = file.read_text(encoding="utf-8").splitlines()
        self.fn = []
        name = "-"
        for line in self.lines:
            m = FN.match(line)
            if m:
                name = m.group(1)
            self.fn.append(name)
            if line == "}":
                name = "-" if not m else name
        self.heads = self._heads()

    def _heads(self):
        """(name, line, parameters and result, clauses) of each function."""
        out, i = [], 0
        while i < len(self.lines):
            m = FN.match(self.lines[i])
            if m:
                head, j = [], i
                while j < len(self.lines) and not re.match(r"^\s*\{$|.*\{$", self.lines[j].replace("{ λ", "")) or "requires" in self.lines[j] or "ensures" in self.lines[j]:
                    head.append(self.lines[j].strip())
                    j += 1
                    if j < len(self.lines) and self.lines[j].strip() == "{":
                        break
                if j == i:
                    head.append(self.lines[i].strip())
                out.append((m.group(1), i + 1, " ".join(head)))
                i = max(j, i + 1)
            else:
                i += 1
        return out


def crates():
    for line in (ROOT / "crates.txt").read_text(encoding="utf-8").splitlines():
        name = line.partition("#")[0].partition(":")[0].split()
        if name:
            yield name[0]


SOURCES = [Src(c, f) for c in crates() for f in sorted((ROOT / "crates" / c / "src").glob("**/*.rt"))]
places = []


def add(point, kind, src, number, text):
    places.append((point, kind, src.crate, f"{src.file.relative_to(ROOT)}:{number}", src.fn[number - 1], text.strip()[:90]))


def enums():
    """name -> (src, line, [(variant, fields)])"""
    found = {}
    for src in SOURCES:
        i = 0
        while i < len(src.lines):
            m = re.match(r"\s*(?:pub )?enum (\w+)", src.lines[i])
            if m:
                body, j = [], i + 1
                while src.lines[j].strip() != "}":
                    body.append(src.lines[j].partition("//")[0])
                    j += 1
                text = " ".join(body)
                variants = re.findall(r"(\w+)\s*(\([^)]*\)|\{[^}]*\})?\s*(?:,|$)", re.sub(r"\s+", " ", text).strip())
                found[(src.crate, m.group(1))] = (src, i + 1, [(v, f) for v, f in variants if v])
                i = j
            i += 1
    return found


def point1():
    own = {}
    for (crate, name), (src, number, variants) in enums().items():
        refusing = [v for v, f in variants if v == "Refused"]
        if refusing and len(variants) == 2:
            add(1, "own-result", src, number, f"enum {name}")
            own[name] = "own-result"
        elif len(variants) == 2 and sum(1 for _, f in variants if not f) == 1 and sum(1 for _, f in variants if f) == 1:
            add(1, "own-option", src, number, f"enum {name}")
            own[name] = "own-option"
        derive = src.lines[number - 2]
        if "PartialEq" not in derive and not (refusing or name in own):
            add(1, "no-derives", src, number, f"enum {name}: {derive.strip()}")
    crate_of = defaultdict(set)
    for (crate, name) in enums():
        crate_of[name].add(crate)
    for src in SOURCES:
        text = "\n".join(src.lines)
        for name, number, head in src.heads:
            m = re.search(r"-> (?:\w+::)?(\w+)\b", head)
            # a name of another crate counts where this file imports it, one of this crate where the crate declares it
            if m and m.group(1) in own and not (
                src.crate in crate_of[m.group(1)] or re.search(rf"(?m)^(?:pub )?use (?!crate)[^;]*\b{m.group(1)}\b", text)
            ):
                continue
            if m and m.group(1) in own:
                add(1, f"{own[m.group(1)]}-in", src, number, head)
        for number, line in enumerate(src.lines, 1):
            if re.search(r"\w+::Refused\((\w+)\) => (?:return )?(?:\w+::Refused\(\1\)|\w+\(\1)", line) or re.search(
                r"::(?:Refused\(_\)|NoField|NoId|Malformed|Faulty|Nowhere) => (?:return )?\w+::\w+,$", line
            ):
                add(1, "ladder", src, number, line)
            if re.search(r"::Refused\((\w+)\) => (\w+) \{$", line):
                add(1, "ladder", src, number, line)
    # a flag or a number beside a value, and numbers that stand for none, in structs and results
    for src in SOURCES:
        for number, line in enumerate(src.lines, 1):
            m = re.match(r"\s*(?:pub )?struct (\w+) \{", line)
            if m and "repr(C)" not in "".join(src.lines[max(0, number - 3):number]):
                body = []
                for l in src.lines[number:]:
                    if l.strip() == "}":
                        break
                    body.append(l)
                text = " ".join(body)
                if re.search(r"\b(?:Counted|Verdict|FieldRead)\b|\bResult<", text) and text.count("pub ") > 1:
                    add(1, "flag-beside", src, number, line)
                elif re.search(r"\bnumber: u32\b.*\bplace: u32\b", text):
                    add(1, "number-for-kind", src, number, line)
                elif re.search(r"\bstray: bool\b.*|\bplace: u32\b.*\bstray: bool\b", text) and "place" in text:
                    add(1, "flag-beside", src, number, line)
    sentinel = {  # result 0, 16, 256 or the length stands for none
        "timing::lowest_unset", "best::lowest_unset", "text::hex_digit", "sets::lowest_twice", "merge::lowest_at_odds",
        "page::lowest_lost", "page::lowest_soiled", "items::find_check", "items::find_foreign", "images::find_unruly",
        "text::find", "runs::next_two", "sets::entry", "merge::entry_size",
    }
    kinds = {"words::made_word", "locks::begins_with", "limits::is_two", "answers::edge_number", "answers::kind_number",
             "timing::number", "refusal::number", "refusal::place", "fifo::append", "fifo::shift", "entries::opens_with"}
    for src in SOURCES:
        for name, number, head in src.heads:
            full = f"{src.crate}::{name}"
            if full in sentinel and "-> Option<" not in head:
                add(1, "sentinel", src, number, head)
            by_number = {"fifo": "fault: u16", "locks": "&[usize]", "limits": ".number() == 2"}.get(src.crate)
            if full in kinds and by_number and by_number in head + "\n".join(src.lines):
                add(1, "number-for-kind", src, number, head)


def point2():
    where = defaultdict(list)
    types = defaultdict(list)
    for src in SOURCES:
        for name, number, head in src.heads:
            where[f"{src.crate}::{name}"].append((src, number))
        for number, line in enumerate(src.lines, 1):
            m = re.match(r"\s*(?:pub )?(?:struct|enum) (\w+)", line)
            if m:
                types[f"{src.crate}::{m.group(1)}"].append((src, number))
    for table, found, kind in ((TWINS, where, "twin"), (TWIN_TYPES, types, "twin-type")):
        for what, names in table.items():
            standing = [n for n in names if n in found]
            if len(standing) < 2:
                continue
            for n in standing:
                for src, number in found[n][:1]:
                    add(2, kind, src, number, f"{n}: {what}")
    consts = defaultdict(list)
    for src in SOURCES:
        for number, line in enumerate(src.lines, 1):
            m = re.match(r"\s*(?:pub )?const (\w+): ([^=]+) = ([^;\[{]+);", line)
            if m:
                consts[(m.group(1), m.group(2).replace("usize", "u16"), m.group(3))].append((src, number, line))
    for key, at in consts.items():
        if len(at) > 1:
            for src, number, line in at:
                add(2, "twin-const", src, number, line)


def loops(src):
    """(line, text, body) of each while or loop."""
    for number, line in enumerate(src.lines, 1):
        m = re.match(r"^(\s*)(?:\S+ = )?(?:let \w+ = )?(?:'\w+: )?(?:.*=> )?(?:'\w+: )?(while .*|loop) \{$", line)
        if m:
            indent = len(line) - len(line.lstrip())
            body = []
            for l in src.lines[number:]:
                if l.strip() and len(l) - len(l.lstrip()) <= indent:
                    break
                body.append(l)
            yield number, m.group(2), body


def point3():
    for src in SOURCES:
        for number, head, body in loops(src):
            text = "\n".join(body)
            m = re.match(r"while ([a-z]\w*) (?:<=?|!=) ", head) or re.match(r"while \w+ <=? ([a-z]\w*)$", head)
            variable = m.group(1) if m else None
            if head == "loop":
                kind = "loop-other"
            elif variable and re.search(rf"\b{variable} (?:\+=|-=) 1;", text):
                kind = "index-loop"
            elif re.search(r"\b(\w+) \+= (?!1;)\w+|\w+ = (?:next|end);|\w+ = \w+ \+ 1;", text) or (
                variable and re.search(rf"\b{variable} [+-]?= ", text)
            ):
                kind = "index-loop-step"
            else:
                kind = "loop-other"
            add(3, kind, src, number, head)


BY_HAND = {
    "text::same": "equality of slices: ==", "merge::same_bytes": "equality of slices: == (measure)",
    "lists::copy": "copy_from_slice", "lists::store": "copy_from_slice", "sectors::put_data": "copy with conversion",
    "sectors::repeat": "fill", "page::put_fill": "fill", "fields::store_bytes": "copy with conversion",
    "shifts::store": "copy with conversion", "text::append": "copy_from_slice",
    "lists::at_most": "min", "intervals::lesser": "min", "lengths::least": "min", "best::least": "min", "report::lesser": "min",
    "clearance::lesser": "min", "intervals::greater": "max", "sets::at_least": "max", "locks::later": "max", "report::greater": "max",
    "lengths::room": "saturating_sub", "clearance::above": "saturating_sub", "passes::last_place": "saturating_sub",
    "timing::from_numbers": "From<&[u16; 11]>", "timing::numbers": "From<Profile>", "timing::in_half_clocks": "From<Clocks> asks < 32768: TryFrom or kept",
    "report::exceed": "checked_add",
    "track::converted": "From<Entry>", "track::goes_before": "Ord by derive or PartialOrd",
    "answers::edge_number": "From<Edge>", "answers::kind_number": "From<Kind>", "answers::numbers_of": "From<Limit>",
    "answers::row": "From<[u64; 4]>", "answers::numbers": "From<IsmReportRow>, From<Profile>", "answers::rows": "From<IsmReport>",
    "answers::profile": "From<IsmProfile>", "answers::answer": "From<Result<usize, Refusal>>", "answers::clear_answer": "From",
    "answers::field_answer": "From", "answers::merged_answer": "From", "answers::corrected_answer": "From", "answers::given": "From",
    "answers::converted": "From", "best::trial": "From<Writing>", "entries::four_bytes": "TryFrom<&[u16]>",
    "text::hex_digit": "char's to_digit has lower case too: Option<u8>", "text::parse_decimal": "FromStr takes a sign and zeros: kept, as TryFrom",
    "text::append_decimal": "Display of a number needs a writer: measure", "sectors::sector_size": "a method of a type of codes",
    "merge::sum_byte": "u8::from(bool)", "words::either": "if", "lengths::either": "if", "timing::chosen": "if",
    "pace::off_speed": "abs_diff", "limits::bounds": "-",
}


def point4():
    for src in SOURCES:
        for name, number, head in src.heads:
            full = f"{src.crate}::{name}"
            if full in BY_HAND and BY_HAND[full] != "-":
                add(4, "by-hand", src, number, f"{full}: {BY_HAND[full]}")
        for number, line in enumerate(src.lines, 1):
            if re.search(r"\b(\w+)\.0 == \w+(?:\.\w+)*\.0|\.number\(\) == ", line):
                add(4, "by-hand", src, number, f"compare by parts: {line.strip()}")
            if re.search(r"std::num::wrapping_\w+\(", line):
                add(4, "old-call", src, number, f"x.wrapping_..(y): {line.strip()}")


def point5():
    for src in SOURCES:
        pass
    for what, pattern in FACTS.items():
        hits = []
        for src in SOURCES:
            for name, number, head in src.heads:
                clauses = " ".join(re.findall(r"requires .*?(?= ensures |$)", head))
                if re.search(pattern, clauses):
                    hits.append((src, number))
        if len(hits) >= 3:
            for src, number in hits:
                add(5, "repeated-fact", src, number, what)
    for what, pattern in TOGETHER.items():
        hits = []
        for src in SOURCES:
            for name, number, head in src.heads:
                flat = re.sub(r"\s+", " ", head).replace("( ", "(")
                if re.search(pattern, flat):
                    hits.append((src, number))
        if len(hits) >= 3:
            for src, number in hits:
                add(5, "together", src, number, what)


def point6():
    for src in SOURCES:
        for number, line in enumerate(src.lines, 1):
            m = re.match(r"\s*(?:pub )?struct (\w+) \{", line)
            if m:
                body = []
                for l in src.lines[number:]:
                    if l.strip() == "}":
                        break
                    body.append(l)
                text = " ".join(body)
                if re.search(r": \[\w+; \d+\]", text) and "count" in text:
                    repr_c = "repr(C)" in "".join(src.lines[max(0, number - 3):number])
                    add(6, "length-beside", src, number, line + (" (repr(C))" if repr_c else ""))
            m = re.search(r"let mut (\w+) = \[[^;]+; [^\]]+\];", line)
            if m:
                rest = "\n".join(src.lines[number:number + 60])
                if re.search(rf"\b{m.group(1)}\[\.\.\w+\]", rest):
                    add(6, "length-beside", src, number, line)
            if re.search(r": &(?:mut )?\[u16; 256\]", line) and FN.match(line):
                add(6, "index-of", src, number, line)


def point7():
    steps = {"fifo::put", "fifo::take_data", "fifo::take_mark", "fifo::chip_put", "fifo::chip_take", "limits::gather",
             "limits::push", "limits::push_both", "report::renew", "images::turn_into_words", "script::read_item_line"}
    for src in SOURCES:
        for name, number, head in src.heads:
            if f"{src.crate}::{name}" in steps:
                add(7, "step-switch", src, number, head)


for f in (point1, point2, point3, point4, point5, point6, point7):
    f()
if args.point:
    places = [p for p in places if str(p[0]) == args.point]
if not args.table:
    for point, kind, crate, at, fn, text in places:
        print(f"{point} {kind:16} {at:42} {fn:20} {text}")
else:
    for (point, kind), n in sorted(Counter((p[0], p[1]) for p in places).items()):
        print(f"{point} {kind:16} {n}")
    print()
    by = defaultdict(Counter)
    for p in places:
        by[p[2]][p[0]] += 1
    print("crate".ljust(12), *[f"{k:>4}" for k in range(1, 8)])
    for c in crates():
        if by[c]:
            print(c.ljust(12), *[f"{by[c][k] or '':>4}" for k in range(1, 8)])
    if not args.point or args.point == "8":
        answers = sum(len(re.findall(r"(?m)^pub [\w-]+ :", f.read_text(encoding="utf-8")))
                      for f in ROOT.glob("crates/*/proofs/**/Answers.antt"))
        print(f"\n8 answers {answers}")
