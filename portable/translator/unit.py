"""The whole C file of a library."""

from functools import partial

from .asserts import assert_lines
from .cnames import PathNames, local_names, located, short
from .constants import Constants
from .ctypes_ import Types
from .expressions import Expressions, is_zero
from .header import Crossing, read_header
from .helpers import helper_lines, helper_name, preface, signed_name
from .instances import instances
from .layout import broken, comment, filled, indented
from .origins import other_note, texts
from .pointers import keep_pointers
from .reader import read_program
from .source import read_crates
from .statements import Statements
from .terms import Aggregate, Assign, Case, Named, Return, Slice, Unary, Unit, Unknown
from .tidy import tidy, use_parameters
from .walk import all_parts, all_statements, heads

LONGEST = 110
ENTRIES = "The entries that {name}.h declares. A slice of no elements points to something, as the caller's may be null."


class Library:
    """One library: the MIR of all built libraries, the names of its source, and its header."""

    def __init__(self, name, definitions, root, kit):
        self.name = name
        self.kit = kit
        self.source = read_crates(root)
        self.header = read_header(root / "include" / f"{name}.h")
        self.paths = PathNames(self.header.words)
        self.entries = self.find_entries(definitions)
        plain = instances(definitions, self.entries.values())
        self.origins = plain.origins
        self.program = read_program(plain.definitions, self.entries.values(), self.crate)
        self.texts = texts(self.source, self.origins, self.program.declared)
        self.functions = {function.name: function for function in self.program.functions}
        crossing = self.match_entries()
        self.types = Types(self.program.declared, self.texts, self.paths, crossing.structs, crossing.signed)

    def crate(self, name):
        """The crate that a function stands in."""
        return self.origins[name].crate

    def find_entries(self, definitions):
        """The proved function of each entry, in the header's order. The static library, whose crate has the library's
        name and _c, exports all entries and nothing else, and each is a call of the function of its name.
        """
        exports = {name: text for name, text in self.source.functions.items() if text.exported}
        exports = {path_of(name)[-1]: text for name, text in exports.items() if path_of(name)[0] == f"{self.name}_c"}
        unlike = sorted(set(self.header.entries) ^ set(exports))
        if unlike or not exports:
            names = ", ".join(unlike) or "no entry"
            raise Unknown(f"{names}: the header and the crate {self.name}_c have different entries")
        found = {entry: exports[entry].handed_to() for entry in self.header.entries}
        for entry, name in found.items():
            if name not in definitions or path_of(name)[0] != self.name or path_of(name)[-1] != entry:
                raise Unknown(f"{entry}, which does not hand its parameters to that function of {self.name}")
        return found

    def match_entries(self):
        crossing = Crossing(self.header, self.program.declared, self.texts)
        for entry, path in self.entries.items():
            crossing.match_entry(self.header.entries[entry], self.functions[path])
        return crossing

    def text(self):
        self.constants = Constants(self.types, self.paths)
        bodies, constants = self.sections(), self.constants.lines()
        entries = [line for entry in self.entries for line in ["", *self.entry_lines(entry)]]
        parts = [
            preface(self.name, self.kit),
            assert_lines(self.types),
            self.type_lines(),
            constants,
            helper_lines(self.used_helpers()),
            bodies,
            ["", *comment([ENTRIES.format(name=self.name)]), *entries],
        ]
        lines = [line for part in parts for line in part]
        return "\n".join(short for line in lines for short in broken(line)) + "\n"

    def sections(self):
        """The functions, crate by crate."""
        lines, crate = [], None
        for name in self.functions:
            if self.crate(name) != crate:
                crate = self.crate(name)
                lines += ["", *comment([f"The crate {crate}"])]
            lines += ["", *self.function_lines(self.functions[name])]
        return lines

    def function_lines(self, function):
        text = self.texts.functions.get(function.name)
        copies = use_parameters(function)
        names = local_names(function, text, copies)
        lent = partial(self.constants.name, function=function.name)
        expressions = Expressions(self.types, self.paths, names, lent)
        statements = Statements(function, expressions)
        bound = [index for index, variable in located(function, text, copies) if variable.by_let] if text else []
        named = {*range(1, function.parameters + 1), *bound}
        tidy(function, named, lambda statement: statements.width(statement) > longest(statement))
        keep_pointers(function)
        head = f"static {self.signature(function, names)} {{"
        return [*self.note(function.name, text), head, *indented(statements.write_function_body()), "}"]

    def signature(self, function, names):
        held = [i for i in range(1, function.parameters + 1) if function.locals[i] != Unit()]
        parameters = [self.types.declarator(function.locals[i], names[i]) for i in held]
        head = f"{self.paths.name(function.name)}({', '.join(parameters) or 'void'})"
        return self.types.declarator(function.locals[0], head)

    def note(self, name, text):
        """What leads from the C function to its source."""
        if not text:
            return comment([other_note(self.source, self.origins[name])])
        where, said = f"{text.path}, {text.file}", " ".join(text.comment)
        one = f"{where}: {said}" if said else where
        return comment([one] if len(one) < 110 else [where, *filled(said, 116)])

    def type_lines(self):
        """The types in an order that C accepts, and the functions that make slices."""
        lines = []
        for definition in self.types.definitions.values():
            lines += ["", *definition]
        for ty in self.types.slices:
            lines += ["", *self.slice_maker(ty)]
        return lines

    def slice_maker(self, ty):
        name, pointer = self.types.tag(ty), self.types.slice_lines(ty)[1].strip(" ;")
        head = f"static struct {name} {name}({pointer}, uint64_t len) {{"
        return [head, f"    return (struct {name}){{.at = at, .len = len}};", "}"]

    def used_helpers(self):
        found = set()
        for function in self.program.functions:
            for statement in all_statements(function.body):
                for expression in heads(statement):
                    parts = [part for part in all_parts(expression) if isinstance(part, Unary) and part.op != "not"]
                    found |= {helper_name(part.op, part.of.ty.bits) for part in parts}
                    found |= {name for part in all_parts(expression) for name in self.signs(part)}
        return found

    def signs(self, value):
        """The functions that a struct with signed numbers needs."""
        if isinstance(value, Aggregate) and isinstance(value.ty, Named):
            parts = [part for i, part in enumerate(value.parts) if self.types.is_signed(value.ty, i)]
            return {signed_name(part.ty.bits) for part in parts if not is_zero(part)}
        return set()

    def entry_lines(self, entry):
        """An entry hands its arguments to the function that was proved, a pointer and a count as a slice."""
        declared, function = self.header.entries[entry], self.functions[self.entries[entry]]
        types = function.locals[1 : function.parameters + 1]
        given, arguments = [parameter.name for parameter in declared.parameters], []
        for ty in types:
            if isinstance(ty, Slice):
                arguments.append(self.lent(ty, given.pop(0), given.pop(0)))
            else:
                arguments.append(given.pop(0))
        parameters = ", ".join(joined(parameter.type, parameter.name) for parameter in declared.parameters) or "void"
        call = f"{self.paths.name(function.name)}({', '.join(arguments)});"
        none = [f"    {line}" for line in self.none_lines(types)]
        return [f"{declared.result} {entry}({parameters}) {{", *none, f"    return {call}", "}"]

    def none_lines(self, types):
        """What a slice of no elements points to, for each type of element."""
        elements = dict.fromkeys(ty.of for ty in types if isinstance(ty, Slice))
        return [f"{self.types.declarator(element, none_name(element))} = 0;" for element in elements]

    def lent(self, ty, pointer, count):
        """A slice from a pointer and a count. With a count of 0 the pointer may be null, and null + 0 is undefined."""
        self.types.define(ty)
        return f"{self.types.tag(ty)}({count} == 0 ? &{none_name(ty.of)} : {pointer}, {count})"


def none_name(element):
    return f"none_{short(element)}"


def longest(statement):
    """How long a statement may get. One that lists parts is still read well on three lines."""
    lists_parts = isinstance(statement, (Assign, Return)) and isinstance(statement.value, (Aggregate, Case))
    return 3 * LONGEST if lists_parts else LONGEST


def joined(type_, name):
    return f"{type_}{name}" if type_.endswith("*") else f"{type_} {name}"


def path_of(name):
    return name.split("::")
