"""MIR as the kit keeps it in a built library, `toolchain/mir.json`, read into the objects of `terms`.

There a constructor without arguments is its name, and one with arguments an object of one key. A function's body is a
flat list, in which a constructor stands before the bodies that it holds: `["Seq", a, "Seq", b, "Return"]`.
"""

from .reach import without_unreachable
from .terms import (
    Address, Aggregate, Array, Assign, Binary, Block, Bool, Call, Case, Cast, Deref, Exit, Field, Fields, Function, If,
    Int, Lent, Local, Loop, Named, Nothing, Number, Offset, Payload, Pointer, Program, Ref, Repeat, Return, Slice,
    Switch, Tag, Truth, Unary, Unit, Unknown, Unreachable, Variants,
)

# Operations on two numbers, with the names that the rest of the translator has for them.
PLAIN = {"And": "and", "Or": "or", "Xor": "xor", "Shl": "shl", "Eq": "eq", "Ne": "ne"}
WRAPPING = {"WrapAdd": "add", "WrapSub": "sub"}
WITH_SIGN = {
    "Add": "add", "Sub": "sub", "Mul": "mul", "Div": "div", "Rem": "rem", "Shr": "shr", "Lt": "lt", "Le": "le",
}
COUNTS = {"LeadingZeros": "leadingZeros", "CountOnes": "countOnes"}

# The constructors without arguments; every other holds something.
ALONE = {
    *PLAIN, *WRAPPING, *COUNTS, "Not", "Offset", "Signed", "Unsigned", "Bool", "Unit", "Ptr", "Mut", "Imm", "True",
    "False", "Skip", "Return", "Loop", "Block", "ValueLocal", "MemorySlot", "Unreachable",
}

STATEMENTS = (
    "Skip", "Return", "Assign", "Call", "If", "Loop", "Block", "Exit", "Switch", "LendStatic", "Unreachable",
)

# The members of a function, of what it takes beside values (lifetimes, the last, do not matter), and of a type.
DEFINITION = ("params", "locals", "generics", "types", "body", "lifetimes", "outlives")
GENERICS = ("types", "bounds", "impls", "method_of", "trait_lifetimes", "outlives")
TYPE = (
    "name", "shape", "type_params", "const_params", "lifetimes", "bounds", "type_bounds", "is_cell", "is_tuple", "owns",
)

# Trees


def head(tree, *allowed):
    """The constructor of a tree, one of those allowed, alone or with something inside as it has to be."""
    name = tree if isinstance(tree, str) else next(iter(tree)) if isinstance(tree, dict) and len(tree) == 1 else None
    if name not in allowed or isinstance(tree, str) != (name in ALONE):
        raise Unknown(f"MIR has {str(tree)[:80]} where only {', '.join(allowed)} are known")
    return name


def only(tree):
    """What a constructor holds."""
    if not isinstance(tree, dict) or len(tree) != 1:
        raise Unknown(f"MIR has {str(tree)[:80]}, which holds nothing")
    return next(iter(tree.values()))


def parts(tree, count):
    """What a constructor holds, so many things."""
    inside = only(tree)
    if not isinstance(inside, list) or len(inside) != count:
        raise Unknown(f"MIR has {str(tree)[:80]}, which does not hold {count} things")
    return inside


def named(tree, *names):
    """The members of an object that has no others."""
    if not isinstance(tree, dict) or set(tree) != set(names):
        raise Unknown(f"MIR has {str(tree)[:80]} where {', '.join(names)} are expected")
    return [tree[name] for name in names]


def natural(tree):
    if not isinstance(tree, int) or isinstance(tree, bool) or tree < 0:
        raise Unknown(f"MIR has {str(tree)[:80]} where a number is expected")
    return tree


def symbol(tree):
    if not isinstance(tree, str) or not tree:
        raise Unknown(f"MIR has {str(tree)[:80]} where a name is expected")
    return tree


# Types


def read_type(tree):
    kind = head(tree, "Int", "Bool", "Unit", "Ptr", "Ref", "Array", "Struct", "Named")
    if kind == "Int":
        return read_width(only(tree))
    if kind == "Ref":
        _, mutability, to = parts(tree, 3)
        return Ref(head(mutability, "Mut", "Imm") == "Mut", read_type(to))
    if kind == "Array":
        of, length = parts(tree, 2)
        head(length, "Lit")
        return Array(read_type(of), natural(only(length)))
    if kind == "Struct":
        return read_slice(*parts(tree, 2))
    if kind == "Named":
        of, arguments = parts(tree, 2)
        name, lifetimes = named(of, "name", "lifetimes")
        if arguments or lifetimes:
            raise Unknown(f"the type {name} with arguments")
        return Named(symbol(name))
    return {"Bool": Bool(), "Unit": Unit(), "Ptr": Pointer()}[kind]


def read_width(tree):
    bits = natural(tree)
    if bits not in (8, 16, 32, 64):
        raise Unknown(f"integers of {bits} bits")
    return Int(bits)


def read_slice(name, types):
    """A slice is a struct of a reference to its first element, and its length."""
    fields = [read_type(part) for part in types]
    if name != "&[]" or len(fields) != 2 or not isinstance(fields[0], Ref) or fields[1] != Int(64):
        raise Unknown(f"the struct {name}")
    return Slice(fields[0].mutable, fields[0].to)


def read_declared(tree):
    kind = head(tree, "Fields", "Variants")
    if kind == "Fields":
        return Fields(tuple(read_type(part) for part in only(tree)))
    return Variants(tuple(tuple(read_type(part) for part in variant) for variant in only(tree)))


# A function


class Reader:
    """Reads one function's body; it knows the types of its locals and of all that is declared."""

    def __init__(self, locals_, declared, results):
        self.locals = locals_
        self.declared = declared
        self.results = results

    def place(self, tree):
        index, steps = named(tree, "local", "steps")
        if natural(index) >= len(self.locals):
            raise Unknown(f"a local {index} that the function does not have")
        expression, variant = Local(index, self.locals[index]), None
        for step in steps:
            kind = head(step, "Deref", "Field", "Variant")
            if expression.ty == Unit():
                check_nothing(step)
            elif variant is not None and kind != "Field":
                raise Unknown("a variant that is not followed by one of its fields")
            elif kind == "Deref":
                expression = Deref(expression, read_type(only(step)))
            elif kind == "Variant":
                variant = natural(only(step))
            elif variant is None:
                expression = self.field(expression, natural(only(step)))
            else:
                expression, variant = self.payload(expression, variant, natural(only(step))), None
        if variant is not None:
            raise Unknown("a variant that is not followed by one of its fields")
        return expression

    def target(self, tree):
        """A place to store something; a part that is nothing has none."""
        place = self.place(tree)
        return Nothing() if place.ty == Unit() and not isinstance(place, Local) else place

    def declaration(self, ty, kind):
        declared = self.declared.get(ty.name) if isinstance(ty, Named) else None
        if not isinstance(declared, kind):
            raise Unknown(f"{ty} where {kind.__name__.lower()} are expected")
        return declared.types

    def field(self, of, index):
        if isinstance(of.ty, Slice):
            return Field(of, index, (Ref(of.ty.mutable, of.ty.of), Int(64))[index])
        return Field(of, index, self.declaration(of.ty, Fields)[index])

    def payload(self, of, variant, index):
        """Field 0 of a variant is the tag, whichever the variant."""
        types = self.declaration(of.ty, Variants)[variant]
        return Tag(of) if index == 0 else Payload(of, variant, index - 1, types[index - 1])

    def operand(self, tree):
        kind = head(tree, "Copy", "Int", "True", "False", "Unit")
        if kind == "Copy":
            place = self.place(only(tree))
            return Nothing() if place.ty == Unit() else place
        if kind == "Int":
            width, value = named(only(tree), "width", "value")
            ty, value = read_width(width), natural(value)
            if value >> ty.bits:
                raise Unknown(f"the constant {value} in {ty.bits} bits")
            return Number(value, ty)
        return Nothing() if kind == "Unit" else Truth(kind == "True")

    def operands(self, trees):
        return tuple(self.operand(part) for part in trees)

    def value(self, tree, ty):
        """What an assignment computes, for a target of type `ty`."""
        kind = head(tree, "Opd", "Op1", "Op2", "AddrOf", "Aggregate", "Repeat")
        if kind == "Opd":
            value = self.operand(only(tree))
        elif kind == "Op1":
            op, of = parts(tree, 2)
            value = self.unary(op, self.operand(of))
        elif kind == "Op2":
            op, left, right = parts(tree, 3)
            value = self.binary(op, self.operand(left), self.operand(right))
        elif kind == "AddrOf":
            return self.address(self.place(only(tree)), ty)
        elif kind == "Aggregate":
            value = self.aggregate(self.operands(only(tree)), ty)
        else:
            of, count = parts(tree, 2)
            value = self.repeat(self.operand(of), count, ty)
        return self.typed(value, ty)

    def typed(self, value, ty):
        if not fits(value.ty, ty):
            raise Unknown(f"a value of type {value.ty} for a place of type {ty}")
        return value

    def address(self, of, ty):
        if of.ty == ty == Unit():
            return Nothing()
        if not isinstance(ty, (Pointer, Ref)) or of.ty == Unit():
            raise Unknown(f"an address of {of.ty} for a place of type {ty}")
        return Address(of, ty)

    def unary(self, op, of):
        kind = head(op, "Not", *COUNTS, "Cast")
        if kind == "Cast":
            source, target, width = parts(op, 3)
            signs = [head(sign, "Signed", "Unsigned").lower() for sign in (source, target)]
            return Cast(*signs, self.number_or_truth(of), read_width(width))
        if kind == "Not":
            return Unary("not", self.number_or_truth(of), of.ty)
        if not isinstance(of.ty, Int):
            raise Unknown(f"{kind} of {of.ty}")
        return Unary(COUNTS[kind], of, Int(32))

    def number_or_truth(self, of):
        if not isinstance(of.ty, (Int, Bool)):
            raise Unknown(f"an operation on {of.ty}")
        return of

    def binary(self, op, left, right):
        kind = head(op, *PLAIN, *WITH_SIGN, *WRAPPING, "Offset")
        if kind == "Offset":
            return self.offset(left, right)
        name = {**PLAIN, **WITH_SIGN, **WRAPPING}[kind]
        sign = head(only(op), "Signed", "Unsigned").lower() if kind in WITH_SIGN else "unsigned"
        if left.ty != right.ty or not isinstance(left.ty, (Int, Bool)):
            raise Unknown(f"{name} of {left.ty} and {right.ty}")
        if isinstance(left.ty, Bool) and name not in ("and", "or", "xor", "eq", "ne"):
            raise Unknown(f"{name} of truth values")
        if sign == "signed" and name not in ("add", "sub"):
            raise Unknown(f"{name} of signed numbers")
        if kind in WRAPPING:
            sign = "wrapping"
        return Binary(name, sign, left, right, Bool() if name in ("eq", "ne", "lt", "le") else left.ty)

    def offset(self, of, by):
        if not isinstance(of.ty, (Pointer, Ref)) or by.ty != Int(64):
            raise Unknown(f"an offset of {of.ty} by {by.ty}")
        return Offset(of, by)

    def aggregate(self, values, ty):
        if ty == Unit() and set(values) <= {Nothing()}:
            return Nothing()
        if isinstance(ty, Slice):
            return Aggregate(self.slice_parts(values, ty), ty)
        if isinstance(ty, Array):
            return Aggregate(self.all_typed(values, [ty.of] * ty.length), ty)
        declared = self.declared.get(ty.name) if isinstance(ty, Named) else None
        if isinstance(declared, Fields):
            return Aggregate(self.all_typed(values, declared.types), ty)
        if isinstance(declared, Variants) and values and values[0].ty == Int(8) and isinstance(values[0], Number):
            variant = values[0].value
            return Case(variant, self.all_typed(values[1:], declared.types[variant]), ty)
        raise Unknown(f"an aggregate of type {ty}")

    def slice_parts(self, values, ty):
        """The reference may be one to an array, whose first element it then points to, or a raw pointer, which does not
        say to what: where it is written it has to be one to an element.
        """
        if len(values) != 2 or values[1].ty != Int(64) or not isinstance(values[0].ty, (Pointer, Ref)):
            raise Unknown(f"a slice of {values}")
        if values[0].ty == Pointer():
            return values
        to = values[0].ty.to
        if ty.of not in (to, to.of if isinstance(to, Array) else to):
            raise Unknown(f"a slice of {ty.of} at {to}")
        return values

    def all_typed(self, values, types):
        if len(values) != len(types):
            raise Unknown(f"{len(values)} parts where {len(types)} are expected")
        return tuple(self.typed(value, ty) for value, ty in zip(values, types))

    def repeat(self, of, count, ty):
        head(count, "Lit")
        if ty != Array(of.ty, natural(only(count))):
            raise Unknown(f"{count} times {of.ty} for a place of type {ty}")
        return Repeat(of, ty)

    def body(self, words):
        """The statements of a body that stands alone in a flat list."""
        rest = words[::-1]
        statements = self.next_body(rest)
        if rest:
            raise Unknown(f"MIR goes on with {str(rest[-1])[:80]} behind a body")
        return statements

    def next_body(self, rest):
        """Takes a body from the end of a list, where its first word stands. What follows another is read in a loop."""
        statements = []
        while rest and rest[-1] == "Seq":
            rest.pop()
            statements += self.next_body(rest)
        return statements + self.statement(rest)

    def statement(self, rest):
        tree = rest.pop() if rest else "nothing"
        kind = head(tree, *STATEMENTS)
        if kind == "Skip":
            return []
        if kind == "Unreachable":
            return [Unreachable()]
        if kind == "LendStatic":
            return [self.lend(*parts(tree, 3))]
        if kind == "Return":
            return [Return(Local(0, self.locals[0]))]
        if kind == "Assign":
            place, value = parts(tree, 2)
            target = self.target(place)
            return [Assign(target, self.value(value, target.ty))]
        if kind == "Call":
            return [self.call(*parts(tree, 3))]
        if kind == "If":
            return [If(self.truth(only(tree)), self.next_body(rest), self.next_body(rest))]
        if kind == "Switch":
            return [self.switch(*parts(tree, 3), rest)]
        if kind == "Exit":
            return [Exit(natural(only(tree)))]
        return [{"Loop": Loop, "Block": Block}[kind](self.next_body(rest))]

    def lend(self, place, ty, constant):
        target, ty = self.target(place), read_type(ty)
        if target.ty != Ref(False, ty):
            raise Unknown(f"a constant of type {ty} that is lent to a place of type {target.ty}")
        return Assign(target, Lent(self.constant(constant, ty), target.ty))

    def constant(self, tree, ty):
        """A constant that lies in memory, with all its parts."""
        if isinstance(tree, dict) and isinstance(tree.get("Bool"), bool):
            return self.typed(Truth(tree["Bool"]), ty)
        kind = head(tree, "Unit", "Int", "Ints", "Repeat", "Parts")
        if kind in ("Unit", "Int"):
            return self.typed(self.operand(tree), ty)
        if kind == "Ints":
            width, values = named(only(tree), "width", "values")
            numbers = [{"Int": {"width": width, "value": value}} for value in values]
            return self.constant({"Parts": numbers}, ty)
        if kind == "Repeat":
            of, count = parts(tree, 2)
            return self.constant({"Parts": [of] * natural(count)}, ty)
        trees, types = only(tree), self.types_of_parts(only(tree), ty)
        if len(trees) != len(types):
            raise Unknown(f"a constant of {len(trees)} parts where {len(types)} are expected")
        return self.aggregate(tuple(self.constant(part, of) for part, of in zip(trees, types)), ty)

    def types_of_parts(self, trees, ty):
        """The types of a constant's parts. Those of an enum's depend on the first, its tag."""
        if isinstance(ty, Array):
            return [ty.of] * len(trees)
        declared = self.declared.get(ty.name) if isinstance(ty, Named) else None
        if isinstance(declared, Variants):
            return [Int(8), *declared.types[self.constant(trees[0], Int(8)).value]]
        if not isinstance(declared, Fields):
            raise Unknown(f"a constant of type {ty}")
        return declared.types

    def truth(self, tree):
        condition = self.operand(tree)
        if condition.ty != Bool():
            raise Unknown(f"a condition of type {condition.ty}")
        return condition

    def call(self, callee, operands, place):
        name, target = read_callee(callee), self.target(place)
        if name not in self.results:
            raise Unknown(f"a call of {name}, which MIR does not have")
        return Assign(target, self.typed(Call(name, self.operands(operands), self.results[name]), target.ty))

    def switch(self, operand, keys, has_default, rest):
        """An arm's body for each list of keys, and behind them the default's, if there is one."""
        value = self.operand(operand)
        if not isinstance(value.ty, Int):
            raise Unknown(f"a switch on {value.ty}")
        arms = [([natural(key) for key in arm], self.next_body(rest)) for arm in keys]
        if not isinstance(has_default, bool):
            raise Unknown(f"a switch with {has_default}")
        return Switch(value, arms, self.next_body(rest) if has_default else None)


def check_nothing(step):
    """What is reached from a place that holds nothing holds nothing."""
    if head(step, "Deref", "Field") == "Deref" and read_type(only(step)) != Unit():
        raise Unknown(f"{str(step)[:80]} of nothing")


def fits(value, place):
    """References differ only by what the borrow checker knows of them; MIR's machine makes no difference."""
    return value == place or all(isinstance(ty, (Ref, Pointer)) for ty in (value, place))


def read_callee(tree):
    """The function that a call names; none that takes types or the functions of a trait."""
    head(tree, "Fn")
    name, arguments = parts(tree, 2)
    if any(named(arguments, "types", "dicts")):
        raise Unknown(f"a call of {name} at types")
    return symbol(name)


def callees(definition):
    """The functions that a definition calls, in the order of its text."""
    return [read_callee(word["Call"][0]) for word in definition["body"] if isinstance(word, dict) and "Call" in word]


def read_definition(name, definition):
    """A function's parameters, the types of its locals, and which of these lie in memory."""
    parameters, locals_, generics, *_ = named(definition, *DEFINITION)
    *of_types, _ = named(generics, *GENERICS)
    if any(of_types):
        raise Unknown(f"{name}, which takes types")
    pairs = [named(local, "ty", "home") for local in locals_]
    types = [read_type(ty) for ty, _ in pairs]
    homes = [head(home, "ValueLocal", "MemorySlot") for _, home in pairs]
    return natural(parameters), types, frozenset(i for i, home in enumerate(homes) if home == "MemorySlot")


def read_types(definitions):
    """The structs and enums that some definitions mention."""
    declared = {}
    for definition in definitions:
        for entry in definition["types"]:
            name, shape, *others = named(entry, *TYPE)
            if any(others):
                raise Unknown(f"the type {name}, which has parameters or is no plain one")
            shape = read_declared(shape)
            if declared.setdefault(symbol(name), shape) != shape:
                raise Unknown(f"two declarations of {name}")
    return declared


def reached(definitions, entries, crate_of):
    """What some functions need, themselves among it: crate by crate in the order of the definitions, and each function
    after those of its crate that it calls."""
    found, open_ = {}, set()

    def visit(name):
        if name not in definitions:
            raise Unknown(f"a call of {name}, which no built library has")
        if name in open_:
            raise Unknown(f"{name}, which calls itself")
        if name not in found:
            open_.add(name)
            for called in callees(definitions[name]):
                visit(called)
            open_.remove(name)
            found[name] = len(found)

    for name in entries:
        visit(name)
    crates = list(dict.fromkeys(crate_of(name) for name in definitions))
    order = sorted(found, key=lambda name: (crates.index(crate_of(name)), found[name]))
    for i, name in enumerate(order):
        if not set(callees(definitions[name])) <= set(order[:i]):
            raise Unknown(f"{name}, which calls a function of a later crate")
    return order


def read_program(definitions, entries, crate_of=lambda name: name.split("::")[0]):
    """The functions that the entries need; `definitions` has the crates one after the other, each after those that it
    uses."""
    order = reached(definitions, entries, crate_of)
    declared = read_types(definitions[name] for name in order)
    heads = {name: read_definition(name, definitions[name]) for name in order}
    results = {name: types[0] for name, (_, types, _) in heads.items()}
    functions = []
    for name, (parameters, types, in_memory) in heads.items():
        body = Reader(types, declared, results).body(definitions[name]["body"])
        functions.append(Function(name, parameters, types, in_memory, body))
    return Program(without_unreachable(functions, entries), declared)
