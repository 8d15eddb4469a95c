"""What the source says of the functions and types of a program without parameters, each of which is an instance of one
of the source, of the kit, or of what the kit writes for a closure or a derive."""

import re
from dataclasses import replace

from . import kit
from .source import Names, TypeText
from .terms import Fields, Unknown

OF_KIT = "of the kit's library"


def texts(source, origins, declared):
    """The texts of the source by the names in the program; a function that has none there is left out."""
    found = Names()
    for name, origin in origins.items():
        if name in declared:
            found.types[name] = type_text(source, origin, declared[name])
        elif origin.name in source.functions:
            found.functions[name] = replace(source.functions[origin.name], path=path(origin))
    return found


def path(origin):
    """An instance as Rust would have it: `lists::store<u16>`."""
    types = ", ".join(origin.types)
    if origin.name == "(,)":
        return f"({types})"
    return f"{origin.name}<{types}>" if types else origin.name


def is_of_kit(origin):
    return origin.name == "(,)" or origin.name.split("::")[0] in kit.CRATES


def type_text(source, origin, declared):
    """The kit's types have no fields with names, nor have tuples and what a closure captures."""
    if origin.name in source.types:
        return replace(source.types[origin.name], path=path(origin))
    if not is_of_kit(origin) and not origin.name.endswith("+Self"):
        raise Unknown(f"the type {origin.name}, which the source does not have")
    text = TypeText(OF_KIT if is_of_kit(origin) else "what a closure captures", [], path=path(origin))
    if isinstance(declared, Fields):
        text.fields = [None] * len(declared.types)
    elif origin.name in kit.VARIANTS:
        text.variants = [(name, [None] * len(types)) for name, types in zip(kit.VARIANTS[origin.name], declared.types)]
    else:
        raise Unknown(f"the variants of {origin.name}, which have no names")
    return text


def derived_impls(source):
    """The impls that the kit writes, by their names: that of a trait has the name of the type and the trait's."""
    return {name + trait for name, text in source.types.items() for trait in text.derived}


def other_note(source, origin):
    """What is told of a function that has no text in the source."""
    if is_of_kit(origin):
        said = OF_KIT
    elif re.search(r"\+Fn(Once|Mut)?::", origin.name):
        said = "how what is passed to a function is called"
    elif "fn" in origin.name.split("::"):
        said = "a closure"
    elif origin.name.rpartition("::")[0] in derived_impls(source):
        said = "which is derived"
    else:
        raise Unknown(f"the function {origin.name}, which the source does not have")
    return f"{path(origin)}, {said}"
