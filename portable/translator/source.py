"""Names from the Rattle source: MIR numbers its locals and fields, and a reader of the C file wants their names.

Nothing but names and comments is taken from here. A function's locals in MIR are its result, its parameters, its
variables in the order in which the text binds them, and then temporaries. Before the variables of a `for` over elements
stand what holds the elements, where no variable does, and the number of the element, where the text binds none.
"""

import re
from dataclasses import dataclass, field
from pathlib import Path

from .terms import Unknown

TOKEN = re.compile(r'\s+|//[^\n]*|"(?:[^"\\]|\\.)*"|b?\'(?:[^\'\\]|\\.)\'|\w+|::|=>|->|==|<=|>=|!=|.', re.DOTALL)
KEYWORDS = {"mut", "ref", "_", "true", "false"}
CLAUSES = {"requires", "ensures", "invariant", "decreases"}
# What stands before a `|` that begins a closure; behind anything else it is an operator or within a pattern.
BEFORE_CLOSURE = {"(", ",", "=", "{", ";", "=>", "return", "move"}


@dataclass
class Variable:
    """A variable: whether a `let` binds it, and the type that the `let` tells."""

    name: str
    by_let: bool
    told: str = None


@dataclass
class Elements:
    """Stands before the variables of a `for` over elements; `counts` says whether the first of these is the number."""

    name: str
    counts: bool


@dataclass
class Question:
    """A `?`: in MIR a match whose arms bind the value and the refusal, which have no name here."""


@dataclass
class FunctionText:
    """A function; `path` is what a reader is told of it where its name in the program is not its path."""

    file: str
    comment: list
    parameters: list
    variables: list
    exported: bool = False
    body: list = field(default_factory=list)
    path: str = None

    def handed_to(self):
        """The path of the function that the body calls, where that is all it does, with the function's own parameters;
        else None.
        """
        open_ = self.body.index("(") if "(" in self.body else None
        if open_ is None or closing(self.body, open_) != len(self.body) - 1:
            return None
        given = [part[0] if len(part) == 1 else None for part in split(self.body[open_ + 1 : -1], ",")]
        return "".join(self.body[:open_]) if given == self.parameters else None


@dataclass
class TypeText:
    """A struct's fields, or an enum's variants with the fields of each; None stands for a field without a name."""

    file: str
    comment: list
    fields: list = field(default_factory=list)
    variants: list = None
    derived: list = field(default_factory=list)
    path: str = None


@dataclass
class Names:
    functions: dict = field(default_factory=dict)
    types: dict = field(default_factory=dict)


BLANK = "\n\n"


def tokens_of(text):
    """Words and signs; a comment is one token, as is a blank line, and other space none."""
    found = (BLANK if token.isspace() and token.count("\n") > 1 else token for token in TOKEN.findall(text))
    return [token for token in found if token == BLANK or not token.isspace()]


def closing(tokens, start):
    """The index of what closes the bracket at `start`."""
    pairs = {"(": ")", "{": "}", "[": "]"}
    depth, opening, close = 0, tokens[start], pairs[tokens[start]]
    for i in range(start, len(tokens)):
        depth += (tokens[i] == opening) - (tokens[i] == close)
        if depth == 0:
            return i
    raise Unknown(f"a {opening} that is not closed")


def after_generics(tokens, start):
    """The index behind what stands in `<` and `>` at `start`, if anything does."""
    depth = 0
    while tokens[start] == "<" or depth:
        depth += (tokens[start] == "<") - (tokens[start] == ">")
        start += 1
    return start


def split(tokens, sign):
    """Parts between a sign, outside of brackets; no part is empty."""
    parts, depth = [[]], 0
    for token in tokens:
        depth += (token in "([{<") - (token in ")]}>")
        if token == sign and depth == 0:
            parts.append([])
        else:
            parts[-1].append(token)
    return [part for part in parts if part]


def without_comments(tokens):
    return [token for token in tokens if token != BLANK and not token.startswith("//")]


def first_word(tokens, start):
    """Where a definition begins: at its attributes or its `pub`."""
    while start and not tokens[start - 1].startswith("//") and tokens[start - 1] not in ("{", "}", ";", BLANK):
        start -= 1
    return start


def comment_before(tokens, start):
    """The lines of comment right before a definition."""
    start = first_word(tokens, start)
    lines = []
    while start and tokens[start - 1].startswith("//"):
        lines.insert(0, tokens[start - 1][2:].strip())
        start -= 1
    return lines


def bound(pattern):
    """The variables that a pattern binds: words of small letters that are no path, no constructor and no field."""
    found = []
    for i, token in enumerate(pattern):
        after = pattern[i + 1] if i + 1 < len(pattern) else ""
        before = pattern[i - 1] if i else ""
        is_name = re.fullmatch(r"[a-z_]\w*", token) and token not in KEYWORDS
        if is_name and after not in ("::", "(", "{", ":") and before != "::":
            found.append(token)
    return found


def pattern_of_let(tokens, start):
    """The tokens between a `let` and its type or its value."""
    end = start + 1
    while tokens[end] not in (":", "="):
        end += 1
    return tokens[start + 1 : end]


def told_type(tokens, start):
    """The type that a `let` tells, where it is one word."""
    colon = start + 1 + len(pattern_of_let(tokens, start))
    return tokens[colon + 1] if tokens[colon] == ":" and tokens[colon + 2] == "=" else None


def variables_of(tokens):
    """What a body binds by `let`, by `?` and by the arms of its matches, in the order of the text."""
    tokens = without_closures(tokens)
    found, arm, stack = [], 0, []
    for i, token in enumerate(tokens):
        after = tokens[i + 1] if i + 1 < len(tokens) else ""
        if token == "let":
            found += [Variable(name, True, told_type(tokens, i)) for name in bound(pattern_of_let(tokens, i))]
        elif token == "for":
            found += variables_of_for(tokens, i)
        elif token == "?":
            found.append(Question())
        elif token == "=>":
            pattern = tokens[arm:i]
            guard = pattern.index("if") if "if" in pattern else len(pattern)
            found += [Variable(name, False) for name in bound(pattern[:guard])]
        if token in "({[":
            stack.append(arm)
            arm = i + 1
        elif token in ")}]":
            arm = stack.pop() if after in ("=>", "|", "if") or token != "}" else (stack.pop(), i + 1)[1]
        elif token in (",", ";", "=>"):
            arm = i + 1
    return found


def variables_of_for(tokens, start):
    """What a loop over a range, or over elements, binds."""
    in_ = tokens.index("in", start)
    names = bound(tokens[start + 1 : in_])
    body = next(k for k in range(in_, len(tokens)) if tokens[k] == "{" and is_outside(tokens, in_ + 1, k))
    over = tokens[in_ + 1 : body]
    if over[-4:] == [".", "rev", "(", ")"]:
        over = over[:-4]
    if over[0] == "(" and closing(over, 0) == len(over) - 1:
        over = over[1:-1]
    is_range = any(over[k : k + 2] == [".", "."] and is_outside(over, 0, k) for k in range(len(over)))
    counts = over[-4:] == [".", "enumerate", "(", ")"]
    before = [] if is_range else [Elements(names[-1] if names else "element", counts)]
    return before + [Variable(name, False) for name in names]


def is_outside(tokens, start, at):
    """Whether no bracket that opens behind `start` is open at a token."""
    opened = sum((token in "([{") - (token in ")]}") for token in tokens[start:at])
    return opened == 0


def without_closures(tokens):
    """A body without those of its closures, which are functions of their own."""
    kept, i = [], 0
    while i < len(tokens):
        if is_closure(tokens, i):
            i = closure_end(tokens, i)
        else:
            kept.append(tokens[i])
            i += 1
    return kept


def is_closure(tokens, start):
    """Whether a closure begins at a token."""
    return tokens[start] == "|" and (start == 0 or tokens[start - 1] in BEFORE_CLOSURE)


def closures_of(tokens, path, file):
    """The closures of a body, by their paths. Each goes by the function that it is handed to or by the `let` that binds
    it, with a number where another of the body does too.
    """
    found, names, i = {}, [], 0
    while i < len(tokens):
        name = closure_name(tokens, i) if is_closure(tokens, i) else None
        if name:
            names.append(name)
            number = names.count(name)
            label = f"{name}+{number}" if number > 1 else name
            text = read_closure(tokens[i : closure_end(tokens, i)], file)
            found["::".join([*path, label])] = text
            found.update(closures_of(text.body, [*path, "fn", label], file))
        i = closure_end(tokens, i) if is_closure(tokens, i) else i + 1
    return found


def closure_name(tokens, start):
    """What stands before the bracket that a closure is in, or the variable that it is the value of."""
    before = start - 1 - (tokens[start - 1] == "move")
    if tokens[before] == "=":
        return tokens[before - 1] if tokens[before - 2] in ("let", "mut") else None
    while before > 0 and not (tokens[before] == "(" and is_outside(tokens, before + 1, start)):
        before -= 1
    return tokens[before - 1] if before > 0 else None


def read_closure(tokens, file):
    """A closure as a function of what it captures and of its parameters, of which one that is a pattern has no name."""
    end = tokens.index("|", 1)
    patterns = [split(part, ":")[0] for part in split(tokens[1:end], ",")]
    variables, parameters = [], ["captured"]
    for pattern in patterns:
        plain = [token for token in pattern if token != "mut"]
        is_name = len(plain) == 1 and plain[0] != "_"
        parameters.append(plain[0] if is_name else f"p{len(parameters) + 1}")
        variables += [] if is_name else [Variable(name, False) for name in bound(pattern)]
    body = tokens[end + 1 :]
    if body[0] in CLAUSES | {"{", "->"}:
        body = body[body_start(body, 0) + 1 : -1]
    return FunctionText(file, [], parameters, variables + variables_of(body), body=body)


def closure_end(tokens, start):
    """Where a closure ends: with its block, or before what ends its expression."""
    i = tokens.index("|", start + 1) + 1
    is_block = tokens[i] in CLAUSES | {"{", "->"}
    if is_block:
        return closing(tokens, body_start(tokens, i)) + 1
    while i < len(tokens) and tokens[i] not in (",", ";", ")", "}", "]"):
        i = closing(tokens, i) + 1 if tokens[i] in ("(", "[", "{") else i + 1
    return i


def parameter_name(tokens):
    if "'" in tokens:
        tokens = tokens[: tokens.index("'")] + tokens[tokens.index("'") + 2 :]
    name = [token for token in split(tokens, ":")[0] if token not in ("&", "mut")]
    if len(name) != 1:
        raise Unknown(f"the parameter {' '.join(tokens)}")
    return name[0]


def body_start(tokens, start):
    """Where a function's body opens, past its result and its clauses; None where it has none."""
    while tokens[start] != "{":
        if tokens[start] == ";":
            return None
        if tokens[start] in ("(", "["):
            start = closing(tokens, start)
        elif tokens[start] in CLAUSES:
            while tokens[start] != "{":
                start += 1
            start = closing(tokens, start)
        start += 1
    return start


def read_function(tokens, start, file):
    """A function at its `fn`; also where its body ends. One of a trait may have none."""
    open_ = after_generics(tokens, start + 2)
    close = closing(tokens, open_)
    parameters = [parameter_name(part) for part in split(without_comments(tokens[open_ + 1 : close]), ",")]
    body = body_start(tokens, close + 1)
    if body is None:
        return None, close
    end = closing(tokens, body)
    inside = without_comments(tokens[body + 1 : end])
    exported = "no_mangle" in tokens[first_word(tokens, start) : start]
    comment = comment_before(tokens, start)
    return FunctionText(file, comment, parameters, variables_of(inside), exported, inside), end


def field_names(tokens):
    """`a: T, pub b: U` as names. A ghost field is not there when the program runs."""
    heads = [[t for t in split(part, ":")[0] if t != "pub"] for part in split(tokens, ",")]
    return [head[-1] for head in heads if head[0] != "ghost"]


def shape_names(tokens, start):
    """The fields that stand in brackets at `start`, or none where there are no brackets."""
    if start >= len(tokens) or tokens[start] not in "({":
        return []
    inner = tokens[start + 1 : closing(tokens, start)]
    return field_names(inner) if tokens[start] == "{" else [None] * len(split(inner, ","))


def read_type(tokens, start, file):
    """A struct or an enum at its keyword."""
    text = TypeText(file, comment_before(tokens, start), derived=derived_before(tokens, start))
    rest = without_comments(tokens[start:])
    open_ = after_generics(rest, 2)
    if rest[0] == "struct":
        text.fields = shape_names(rest, open_)
    else:
        variants = split(rest[open_ + 1 : closing(rest, open_)], ",")
        text.variants = [(variant[0], shape_names(variant, 1)) for variant in variants]
    return text


def read_file(text, path, file, names):
    """All functions and types of a file, whose module has the path."""
    tokens, i, owner, owner_ends = tokens_of(text), 0, [], []
    while i < len(tokens):
        if owner_ends and i == owner_ends[-1]:
            owner.pop()
            owner_ends.pop()
        elif tokens[i] in ("impl", "trait"):
            open_ = tokens.index("{", i)
            owner.append(owner_name(tokens[i + 1 : open_]))
            owner_ends.append(closing(tokens, open_))
            i = open_
        elif tokens[i] == "fn":
            name = "::".join([*path, *owner, tokens[i + 1]])
            within = [*path, "fn", *owner, tokens[i + 1]]
            text, i = read_function(tokens, i, file)
            if text:
                names.functions[name] = text
                names.functions.update(closures_of(text.body, within, file))
        elif tokens[i] in ("struct", "enum") and tokens[i + 1][0].isupper():
            names.types["::".join([*path, tokens[i + 1]])] = read_type(tokens, i, file)
        i += 1


def derived_before(tokens, start):
    """The traits that a type derives."""
    words = tokens[first_word(tokens, start) : start]
    opens = [k + 1 for k, word in enumerate(words) if word == "derive"]
    return [name for k in opens for name in words[k + 1 : closing(words, k)] if name != ","]


def owner_name(tokens):
    """What the functions of an impl or of a trait stand in: its name, or if it is an impl of a trait the type's and the
    trait's in one word, with their arguments.
    """
    start = after_generics(tokens, 0)
    generic = [part[1] if part[0] == "const" else part[0] for part in split(tokens[1 : max(start - 1, 1)], ",")]
    head = tokens[start : tokens.index("where") if "where" in tokens else None]
    if "for" not in head:
        return head[0]
    trait, of = head[: head.index("for")], head[head.index("for") + 1 :]
    return in_words(of, generic) + in_words(trait, generic)


def in_words(tokens, generic):
    """A type in one word, as MIR names impls; parameters are left out."""
    if tokens[0] == "&":
        rest = tokens[3:] if tokens[1] == "'" else tokens[1:]
        return "RefMut" + in_words(rest[1:], generic) if rest[0] == "mut" else "Ref" + in_words(rest, generic)
    if tokens[0] == "(":
        parts = split(tokens[1:-1], ",")
        return f"Tuple{len(parts)}" + "".join(in_words(part, generic) for part in parts) if parts else "Unit"
    if tokens[0] == "[":
        parts = split(tokens[1:-1], ";")
        return ("Array" if len(parts) > 1 else "Slice") + "".join(in_words(part, generic) for part in parts)
    if tokens[0] in generic or tokens[0] == "'":
        return ""
    open_ = tokens.index("<") if "<" in tokens else len(tokens)
    arguments = split(tokens[open_ + 1 : -1], ",")
    words = [word[:1].upper() + word[1:] for word in tokens[open_ - 1].split("_")]
    return "".join([*words, *(in_words(part, generic) for part in arguments)])


def read_crates(root):
    """The names of every crate of the repository."""
    names = Names()
    for path in sorted(Path(root, "crates").glob("*/src/**/*.rt")):
        crate, _, *folders, file = path.relative_to(Path(root, "crates")).parts
        module = folders + ([] if file in ("lib.rt", "main.rt") else [path.stem])
        read_file(path.read_text(encoding="utf-8"), [crate, *module], path.relative_to(root).as_posix(), names)
    return names
