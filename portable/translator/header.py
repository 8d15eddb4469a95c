"""A library's C header: the entries that it declares and the structs that cross.

The header is written by hand. The translator takes from it what C calls an entry and a struct, and refuses a header
that does not agree with what was proved: another entry, parameter, field, width or order.
"""

import re
from dataclasses import dataclass

from .terms import Array, Fields, Int, Named, Slice, Unknown


@dataclass
class CField:
    type: str
    name: str
    length: int = None


@dataclass
class Entry:
    result: str
    name: str
    parameters: list


@dataclass
class Header:
    structs: dict
    entries: dict
    words: set
    constants: dict


def without_comments(text):
    return re.sub(r"/\*.*?\*/", " ", text, flags=re.DOTALL)


def constants_of(text):
    """The numbers that the header defines."""
    return {name: int(number, 0) for name, number in re.findall(r"#define (\w+) (0x[0-9A-F]+|\d+)u", text)}


def read_fields(text, constants):
    """`uint16_t a, b; other c[LENGTH];` as fields."""
    fields = []
    for declaration in text.split(";")[:-1]:
        kind, _, names = declaration.strip().partition(" ")
        for name in names.split(","):
            match = re.fullmatch(r"(\w+)(?:\[(\w+)\])?", name.strip())
            if not match:
                raise Unknown(f"the field {declaration.strip()} of the header")
            length = match[2] and constants.get(match[2], match[2])
            fields.append(CField(kind, match[1], length and int(length)))
    return fields


def read_entry(result, name, parameters):
    if parameters.strip() == "void":
        return Entry(result.strip(), name, [])
    pairs = [re.fullmatch(r"(.*[ *])(\w+)", parameter.strip()) for parameter in parameters.split(",")]
    if not all(pairs):
        raise Unknown(f"the parameters of {name} in the header")
    return Entry(result.strip(), name, [CField(pair[1].strip(), pair[2]) for pair in pairs])


def read_text(text, constants):
    plain = without_comments(text)
    constants = {**constants, **constants_of(plain)}
    found = re.findall(r"typedef struct \{([^}]*)\} (\w+);", plain)
    structs = {name: read_fields(body, constants) for body, name in found}
    entries = [read_entry(*found) for found in re.findall(r"^(\w+) (\w+)\(([^)]*)\);", plain, re.MULTILINE)]
    return Header(structs, {entry.name: entry for entry in entries}, set(re.findall(r"\w+", plain)), constants)


def read_header(path):
    """A header with the structs of those that it includes."""
    text = path.read_text(encoding="utf-8")
    included = [read_header(path.parent / name) for name in re.findall(r'^#include "(.*)"', text, re.MULTILINE)]
    header = read_text(text, {name: value for other in included for name, value in other.constants.items()})
    for other in included:
        header.structs.update(other.structs)
        header.words |= other.words
    return header


class Crossing:
    """The structs that cross, each with its name in C, and which of their fields are signed there, found by going over
    the entries."""

    def __init__(self, header, declared, names):
        self.header = header
        self.declared = declared
        self.names = names
        self.structs = {}
        self.signed = set()

    def match_entry(self, entry, function):
        """Holds an entry of the header to the function that was proved."""
        self.match(function.locals[0], entry.result, None, entry.name)
        given = list(entry.parameters)
        for ty in function.locals[1 : function.parameters + 1]:
            wanted = parameter_types(ty)
            if len(given) < len(wanted):
                raise Unknown(f"the header gives {entry.name} too few parameters")
            for want in wanted:
                self.match(want, given.pop(0).type, None, entry.name)
        if given:
            raise Unknown(f"the header gives {entry.name} too many parameters")

    def match(self, ty, c_type, length, where):
        if isinstance(ty, Array) and length == ty.length:
            self.match(ty.of, c_type, None, where)
        elif isinstance(ty, Named) and length is None:
            self.match_struct(ty.name, c_type, where)
        elif length is not None or c_type != (ty if isinstance(ty, str) else number_type(ty)):
            raise Unknown(f"the header has {c_type} in {where}, where {ty} was proved")

    def match_struct(self, name, c_type, where):
        fields, declared = self.header.structs.get(c_type), self.declared.get(name)
        if fields is None or not isinstance(declared, Fields) or len(fields) != len(declared.types):
            raise Unknown(f"the header has {c_type} in {where}, where {name} was proved")
        if self.structs.setdefault(name, c_type) != c_type:
            raise Unknown(f"the header has both {c_type} and {self.structs[name]} for {name}")
        if [field.name for field in fields] != self.names.types[name].fields:
            raise Unknown(f"the fields of {c_type} in the header and of {name} have different names")
        for index, (field, ty) in enumerate(zip(fields, declared.types)):
            if isinstance(ty, Int) and field.length is None and field.type == f"int{ty.bits}_t":
                self.signed.add((name, index))
            else:
                self.match(ty, field.type, field.length, f"{c_type}.{field.name}")


def number_type(ty):
    if not isinstance(ty, Int):
        raise Unknown(f"{ty} in an entry")
    return f"uint{ty.bits}_t"


def parameter_types(ty):
    """What C passes for a parameter: for a slice a pointer and a count."""
    if not isinstance(ty, Slice):
        return [ty]
    pointer = f"{number_type(ty.of)} *"
    return [pointer if ty.mutable else f"const {pointer}", "size_t"]
