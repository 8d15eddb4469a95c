"""Lines of at most 120 characters."""

WIDTH = 120
INDENT = 4
# What a line may be broken before: the operators that bind least come first.
OPERATORS = [("||", "&&"), ("==", "!=", "<", "<=", ">", ">="), ("&", "|", "^"), ("+", "-"), ("*",)]


def indented(lines, by=INDENT):
    return [" " * by + line if line else line for line in lines]


def broken(line):
    """A line on as many lines as it needs, each as long as it can be; all but the first stand deeper."""
    start = len(line) - len(line.lstrip())
    if len(line) <= WIDTH or line.startswith(("#", " * ", "/*")):
        return [line]
    lines, begin, indent = [], 0, ""
    depths = depths_of(line)
    while len(indent) + len(line) - begin > WIDTH:
        first, last = begin + (start if not lines else 0) + 1, begin + WIDTH - len(indent)
        at = break_in(line, depths, first, last)
        if at is None:
            at = break_at_a_long_name(line, depths, first, last)
        if at is None:
            break
        lines.append(indent + line[begin:at])
        begin, indent = at + (line[at] == " "), " " * (start + 2 * INDENT)
    return [*lines, indent + line[begin:]]


def break_at_a_long_name(line, depths, first, last):
    """Where nothing else is left to break at: before the name of a function, or behind what opens a bracket."""
    if line.startswith("static ") and first == 1:
        return line.rindex(" ", 0, line.index("("))
    places = [at for at in range(first, last) if line[at - 1] in "({"]
    return min(places, key=lambda at: (depths[at - 1], -at), default=None)


def depths_of(line):
    """How many brackets are open before each character."""
    depths, depth = [], 0
    for character in line:
        depth -= character in ")]}"
        depths.append(depth)
        depth += character in "([{"
    return depths


def break_in(line, depths, first, last):
    """The space at which to break: the least nested, then the one at what binds least, then the last one."""
    places = [at for at in range(first, last + 1) if line[at] == " " and rank(line, depths, at) is not None]
    return min(places, key=lambda at: (depths[at], rank(line, depths, at), -at), default=None)


def rank(line, depths, at):
    """How well a line is broken at a space; None where it is not."""
    if line[at - 1] in ",{" or is_equals(line, depths, at):
        return 0
    word = line[at + 1 :].split(" ", 1)[0]
    return next((k for k, operators in enumerate(OPERATORS, 1) if word in operators), None)


def is_equals(line, depths, at):
    """Whether the outer equals sign stands before a space, and what follows fits on one line."""
    start = len(line) - len(line.lstrip()) + 2 * INDENT
    return line[:at].endswith(" =") and depths[at] == 0 and start + len(line) - at - 1 <= WIDTH


def comment(lines):
    """Lines as one comment, on one line where they fit."""
    lines = [line.replace("*/", "* /") for line in lines]
    if len(lines) == 1 and len(lines[0]) + 6 <= WIDTH:
        return [f"/* {lines[0]} */"]
    return ["/*", *(f" * {line}".rstrip() for line in lines), " */"]


def filled(text, width):
    """Words on lines of at most a width."""
    lines, line = [], ""
    for word in text.split():
        if line and len(line) + 1 + len(word) > width:
            lines.append(line)
            line = ""
        line = f"{line} {word}".lstrip()
    return [*lines, line] if line else lines
