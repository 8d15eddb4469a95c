"""MIR without parameters: each function and type of the built libraries at the types that it is used with.

A definition may take types, numbers, and dictionaries, which say by which impl a bound is met. It names them by
`{"Param": i}` and `{"Given": i}`, and a call brings them: `{"Fn": [name, {types, dicts}]}`, or for the k-th function of
an impl `{"Method": [dict, k, {types, dicts}]}`. From the entries on, which take none, the arguments of each call are
put into the function that it calls. What comes out is an instance: a plain function, which the reader reads as any
other. Whatever has no rule in either is an error.

An instance is named by its function or type and by the types put in: `lists::store_u16`, `Result_u64_Refusal`. In such
a name a type goes by its own name without its path, unless another type has the same, and so does a type of the kit.

An instance stands in the last of the crates that it is made of: code of the kit that calls a closure of a crate comes
with that crate, after the closure.

What the machine does not read is left out: lifetimes, and what holds nothing. At the end a struct of nothing, as a
closure that captures nothing, is the unit, and so is a reference to one.
"""

import json
import re
from dataclasses import dataclass, field

from . import kit
from .terms import Unknown

# Stands for a dictionary whose functions do nothing, as those by which a plain value is dropped.
IDLE = "Idle"
NO_ARGUMENTS = {"types": [], "dicts": []}
# How deep calls go at most. Calls that go on for ever at ever larger types go deeper.
DEEPEST = 100

# The members of what a function takes beside values, and what stands there in an instance.
GENERICS = {"types": [], "bounds": [], "impls": [], "method_of": None, "trait_lifetimes": 0, "outlives": []}
# Whether a method takes its value as a whole, which its type says already.
OF_METHODS = {"spends_self"}
IMPL = {"name", "lifetimes", "outlives", "types", "type_outlives", "bounds", "of", "methods"}
KIND = {"is_copy", "is_kept", "const_bits"}
# The members of a type that speak of its parameters, or say that its fields have no names.
PLAIN_TYPE = {
    "type_params": 0, "const_params": [], "lifetimes": 0, "bounds": [], "type_bounds": [], "is_tuple": False,
}


@dataclass
class Origin:
    """What an instance was made from, the names of the types put in, and the crate that it stands in."""

    name: str
    types: list
    crate: str


@dataclass
class Arguments:
    types: list = field(default_factory=list)
    dicts: list = field(default_factory=list)


@dataclass
class Plain:
    """Functions without parameters in the order of their crates, and where each of them and each type is from."""

    definitions: dict
    origins: dict


def instances(definitions, entries):
    """The instances that the entries need. `definitions` has the libraries one after the other."""
    made = Instances(definitions)
    for entry in entries:
        made.function(entry, Arguments())
    return made.plain()


class Instances:
    def __init__(self, definitions):
        self.definitions = definitions
        self.crates = list(dict.fromkeys(crate_of(name) for name in definitions))
        self.declared, self.impls = {}, {}
        for definition in definitions.values():
            learn(self.declared, definition["types"])
            learn(self.impls, definition["generics"]["impls"])
        self.ambiguous = twice(short_name(name) for name in self.declared)
        self.names, self.origins, self.functions, self.types = {}, {}, {}, {}
        self.depth = 0

    def plain(self):
        order = sorted(self.functions, key=lambda name: self.rank(self.origins[name].crate))
        definitions = {name: {**self.functions[name], "types": self.mentioned(name)} for name in order}
        return Plain(without(self.nothing(), definitions), self.origins)

    def nothing(self):
        """The structs that hold nothing."""
        found, before = set(), None
        while found != before:
            before = set(found)
            found |= {name for name, entry in self.types.items() if is_nothing(without(found, entry["shape"]))}
        return found

    def mentioned(self, function):
        """The types that a function mentions, and those that these hold."""
        found, todo = {}, [self.functions[function]]
        while todo:
            for name in type_names(todo.pop()):
                if name not in found:
                    found[name] = self.types[name]
                    todo.append(self.types[name]["shape"])
        return list(found.values())

    # names

    def named(self, origin, arguments, labels, name):
        """Gives an instance its name. True where it is new."""
        key = json.dumps([origin, arguments.types, arguments.dicts])
        if self.names.setdefault(name, key) != key:
            raise Unknown(f"one name, {name}, for two instances")
        if name != origin and (name in self.definitions or name in self.declared):
            raise Unknown(f"{name}, the name of an instance and of something else")
        is_new = name not in self.origins
        self.origins[name] = Origin(origin, labels, self.home(origin, arguments))
        return is_new

    def home(self, origin, arguments):
        """The last of the crates that an instance is made of."""
        crates = [kit.CRATES[0] if origin == "(,)" else crate_of(origin)]
        crates += [self.origins[name].crate for name in type_names(arguments.types)]
        crates += [crate_of(name) for name in impl_names(arguments.dicts)]
        crates += [self.origins[name].crate for name in type_names(arguments.dicts)]
        return max(crates, key=self.rank)

    def rank(self, crate):
        if crate not in self.crates and crate not in kit.CRATES:
            raise Unknown(f"something of {crate}, which is no built library")
        return 0 if crate in kit.CRATES else 1 + self.crates.index(crate)

    def label(self, ty):
        """A type in the name of an instance."""
        kind, inside = single(ty)
        if kind == "Int":
            return f"u{inside}"
        if kind in ("Bool", "Unit", "Ptr"):
            return kind.lower()
        if kind == "Const":
            return str(inside)
        if kind == "Ref":
            return ("mut_" if inside[1] == "Mut" else "ref_") + self.label(inside[2])
        if kind == "Array":
            return f"{self.label(inside[0])}_{inside[1]['Lit']}"
        if kind == "Struct" and inside[0] == "&[]":
            _, mutability, to = inside[1][0]["Ref"]
            return f"slice_{self.label(to)}" + ("_mut" if mutability == "Mut" else "")
        if kind == "Named":
            return self.type_label(inside[0]["name"])
        raise Unknown(f"the type {str(ty)[:80]} in a name")

    def labels(self, bounds, arguments):
        """What is put into a function, in its name. A function that is passed to it is of the type unit: there the name
        of that function stands, which only the dictionary tells.
        """
        labels = [self.label(ty) for ty in arguments.types]
        for bound, dictionary in zip(bounds, arguments.dicts):
            name = passed_function(impl_names(dictionary)[0]) if dictionary != IDLE else None
            kind, index = single(bound["types"][0])
            if name and kind == "Param" and arguments.types[index] == "Unit":
                labels[index] = name
        return labels

    def type_label(self, name):
        origin = self.origins[name].name
        own = name if short_name(origin) in self.ambiguous else short_name(name)
        return re.sub(r"\W+", "_", own)

    # types

    def type(self, tree, arguments):
        """A type with the arguments put in."""
        kind, inside = single(tree)
        if kind == "Param":
            return at(arguments.types, inside, "the type parameter")
        if kind == "Ref":
            _, mutability, to = inside
            return {"Ref": ["Erased", mutability, self.type(to, arguments)]}
        if kind == "Array":
            of, length = inside
            return {"Array": [self.type(of, arguments), self.length(length, arguments)]}
        if kind == "Struct":
            name, parts = inside
            return {"Struct": [name, [self.type(part, arguments) for part in parts]]}
        if kind == "Named":
            of, types = inside
            return self.declare(of["name"], [self.type(part, arguments) for part in types])
        if kind in ("Int", "Bool", "Unit", "Ptr", "Const"):
            return tree
        raise Unknown(f"the type {str(tree)[:80]}")

    def length(self, tree, arguments):
        """A number of elements: one that is told, or a parameter."""
        kind, inside = single(tree)
        return {"Lit": inside if kind == "Lit" else self.number(tree, arguments)}

    def number(self, tree, arguments):
        """The number that stands for a parameter."""
        kind, inside = single(self.type(tree, arguments))
        if kind != "Const" or not isinstance(inside, int):
            raise Unknown(f"the number {str(tree)[:80]}")
        return inside

    def declare(self, name, types):
        """A declared type at some types."""
        entry = self.declared.get(name)
        if entry is None:
            raise Unknown(f"the type {name}, which no built library has")
        numbers = [number for number, _ in entry["const_params"]]
        check_kinds(name, [k in numbers for k in range(entry["type_params"])], types)
        labels = [] if self.is_plain_closure(name) else [self.label(ty) for ty in types]
        own = self.type_name(name, labels)
        if self.named(name, Arguments(types), labels, own):
            self.types[own] = None
            shape = self.shape(entry["shape"], Arguments(types))
            self.types[own] = {**entry, **PLAIN_TYPE, "name": own, "shape": shape}
        return {"Named": [{"name": own, "lifetimes": []}, []]}

    def type_name(self, name, labels):
        if name == "(,)":
            return "_".join(["tuple", *labels])
        is_short = crate_of(name) in kit.CRATES and short_name(name) not in self.ambiguous
        return "_".join([short_name(name) if is_short else name, *labels])

    def is_plain_closure(self, name):
        """Whether a type is that of a closure whose captures are of the same types wherever it stands: the function
        around it takes none."""
        impl = self.impls.get(f"{name.removesuffix('+Self')}+FnOnce") if name.endswith("+Self") else None
        return impl is not None and not impl["types"]

    def shape(self, tree, arguments):
        kind, inside = single(tree)
        if kind == "Fields":
            return {"Fields": [self.type(part, arguments) for part in inside]}
        if kind == "Variants":
            return {"Variants": [[self.type(part, arguments) for part in variant] for variant in inside]}
        raise Unknown(f"a type of the shape {str(tree)[:80]}")

    # functions

    def function(self, name, arguments):
        """The name of a function at some arguments, which is made if it is not there yet."""
        definition = self.definitions.get(name)
        if definition is None:
            raise Unknown(f"a call of {name}, which no built library has")
        labels = self.labels(definition["generics"]["bounds"], arguments)
        own = "_".join([name, *labels])
        if self.named(name, arguments, labels, own):
            self.depth += 1
            if self.depth > DEEPEST:
                raise Unknown(f"{own}, which is called at ever more types")
            self.functions[own] = self.instance(name, definition, arguments)
            self.depth -= 1
        return own

    def instance(self, name, definition, arguments):
        generics = members(definition["generics"], set(GENERICS), OF_METHODS)
        kinds = [members(kind, KIND)["const_bits"] is not None for kind in generics["types"]]
        check_kinds(name, kinds, arguments.types)
        if len(generics["bounds"]) != len(arguments.dicts):
            raise Unknown(f"{name} with {len(arguments.dicts)} dictionaries, and not {len(generics['bounds'])}")
        locals_ = [{**local, "ty": self.type(local["ty"], arguments)} for local in definition["locals"]]
        body = [self.word(word, arguments) for word in definition["body"]]
        return {**definition, "generics": GENERICS, "types": [], "locals": locals_, "body": body}

    def word(self, word, arguments):
        kind, inside = single(word)
        if kind != "Call":
            return self.put_in(word, arguments)
        callee, operands, place = inside
        called = self.callee(callee, arguments)
        operands, place = self.put_in(operands, arguments), self.put_in(place, arguments)
        if called == IDLE:
            return {"Assign": [place, {"Opd": "Unit"}]}
        return {"Call": [{"Fn": [called, NO_ARGUMENTS]}, operands, place]}

    def callee(self, tree, arguments):
        """The instance that a call names, or IDLE."""
        kind, inside = single(tree)
        if kind == "Fn":
            name, own = inside
            return self.function(name, self.arguments(own, arguments))
        if kind != "Method":
            raise Unknown(f"a call of {str(tree)[:80]}")
        dictionary, k, own = inside
        dictionary, own = self.dictionary(dictionary, arguments), self.arguments(own, arguments)
        if dictionary == IDLE:
            return IDLE
        name, types, dicts = dictionary["Impl"]
        method = at(self.impls[name]["methods"], k, f"a function of {name}")
        return self.function(method, Arguments(types + own.types, dicts + own.dicts))

    def arguments(self, tree, arguments):
        """What a call brings, with the arguments of the caller put in."""
        members(tree, {"types", "dicts"})
        types = [self.type(ty, arguments) for ty in tree["types"]]
        return Arguments(types, [self.dictionary(dictionary, arguments) for dictionary in tree["dicts"]])

    def dictionary(self, tree, arguments):
        kind, inside = single(tree)
        if kind == "Given":
            return at(arguments.dicts, inside, "the dictionary")
        if kind != "Impl":
            raise Unknown(f"the dictionary {str(tree)[:80]}")
        name, types, dicts = inside
        if name not in self.impls:
            raise Unknown(f"the impl {name}, which no built library has")
        methods = members(self.impls[name], IMPL)["methods"]
        if all(self.does_nothing(method) for method in methods):
            return IDLE
        types = [self.type(ty, arguments) for ty in types]
        return {"Impl": [name, types, [self.dictionary(dictionary, arguments) for dictionary in dicts]]}

    def does_nothing(self, name):
        """Whether a function gives the unit and does nothing else, so that its calls can be left out."""
        definition = self.definitions.get(name)
        if definition is None:
            raise Unknown(f"the function {name} of an impl, which no built library has")
        gives_unit = {"Assign": [{"local": 0, "steps": []}, {"Opd": "Unit"}]}
        is_idle = all(word in ("Seq", "Skip", "Return", gives_unit) for word in definition["body"])
        return is_idle and definition["locals"][0]["ty"] == "Unit"

    def put_in(self, tree, arguments):
        """A part of a body with the arguments put in wherever it names a type or a number."""
        if isinstance(tree, list):
            return [self.put_in(part, arguments) for part in tree]
        if not isinstance(tree, dict):
            return tree
        kind, inside = next(iter(tree.items())) if len(tree) == 1 else (None, None)
        if kind == "Deref":
            return {"Deref": self.type(inside, arguments)}
        if kind == "SizeOf":
            return {"Int": {"width": 64, "value": size(self.type(inside, arguments))}}
        if kind == "NumOf":
            width, of = inside
            return {"Int": {"width": width, "value": self.number(of, arguments)}}
        if kind == "Repeat":
            of, count = inside
            return {"Repeat": [self.put_in(of, arguments), self.length(count, arguments)]}
        if kind == "LendStatic":
            place, ty, constant = inside
            return {"LendStatic": [self.put_in(place, arguments), self.type(ty, arguments), constant]}
        return {key: self.put_in(value, arguments) for key, value in tree.items()}


# Trees


def members(tree, wanted, optional=frozenset()):
    """A tree that has the members wanted, perhaps the optional ones, and no others."""
    if not isinstance(tree, dict) or not wanted <= set(tree) <= wanted | optional:
        raise Unknown(f"MIR has {str(tree)[:80]} where {', '.join(sorted(wanted))} are expected")
    return tree


def single(tree):
    """A constructor, and what it holds."""
    if isinstance(tree, str):
        return tree, None
    if not isinstance(tree, dict) or len(tree) != 1:
        raise Unknown(f"MIR has {str(tree)[:80]} where one constructor is expected")
    return next(iter(tree.items()))


def at(things, index, what):
    if not isinstance(index, int) or not 0 <= index < len(things):
        raise Unknown(f"{what} {index}, where there are {len(things)}")
    return things[index]


def learn(known, entries):
    """Adds what some definition says of types or of impls, which has to agree with what others say."""
    for entry in entries:
        if known.setdefault(entry["name"], entry) != entry:
            raise Unknown(f"two declarations of {entry['name']}")


def named_parts(tree, kind):
    """What stands behind each constructor of a kind within a tree."""
    if isinstance(tree, list):
        return [found for part in tree for found in named_parts(part, kind)]
    if not isinstance(tree, dict):
        return []
    own = [tree[kind]] if set(tree) == {kind} else []
    return own + [found for part in tree.values() for found in named_parts(part, kind)]


def type_names(tree):
    return [inside[0]["name"] for inside in named_parts(tree, "Named")]


def impl_names(tree):
    return [inside[0] for inside in named_parts(tree, "Impl")]


def check_kinds(name, are_numbers, types):
    """Holds arguments to the parameters that they are for: as many, and numbers for numbers."""
    given = [isinstance(ty, dict) and set(ty) == {"Const"} for ty in types]
    if given != are_numbers:
        raise Unknown(f"{name} at the types {str(types)[:80]}")


def is_nothing(shape):
    return set(shape) == {"Fields"} and all(part == "Unit" for part in shape["Fields"])


def without(nothing, tree):
    """A tree in which types that hold nothing are the unit, and so are references to them."""
    if isinstance(tree, list):
        return [without(nothing, part) for part in tree]
    if not isinstance(tree, dict):
        return tree
    tree = {key: without(nothing, value) for key, value in tree.items()}
    is_named = set(tree) == {"Named"} and tree["Named"][0]["name"] in nothing
    return "Unit" if is_named or set(tree) == {"Ref"} and tree["Ref"][2] == "Unit" else tree


def size(ty):
    """In bytes."""
    kind, inside = single(ty)
    if kind == "Int":
        return inside // 8
    if kind == "Bool":
        return 1
    raise Unknown(f"the size of {str(ty)[:80]}")


# Names


def crate_of(name):
    return name.split("::")[0]


def short_name(name):
    """A path's last part; of a closure, what comes behind the `fn` in its path."""
    path = name.removesuffix("+Self").split("::")
    return "::".join(path[path.index("fn") + 1 :]) if "fn" in path else path[-1]


def passed_function(impl):
    """The function that is passed by its name, if an impl says how one is called: `c::c++f+Fn` for `c::f`."""
    found = re.fullmatch(r"\w+::(\S+)\+Fn(Once|Mut)?", impl)
    return found[1].split("++")[-1] if found and "++" in found[1] else None


def twice(names):
    """Those that come more than once."""
    found, again = set(), set()
    for name in names:
        (again if name in found else found).add(name)
    return again
