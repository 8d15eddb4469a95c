"""MIR's types in C: how each is spelled and how it is defined."""

from .cnames import check_shape, field_label, safe, short, slice_name
from .memory import Memory
from .terms import Array, Bool, Fields, Int, Named, Pointer, Ref, Slice, Unit, Unknown


class Types:
    """Spells types, and keeps the definitions of those that were spelled, in an order that C accepts."""

    def __init__(self, declared, source, paths, crossing, signed=frozenset()):
        self.declared = declared
        self.source = source
        self.paths = paths
        self.crossing = crossing
        self.signed = signed
        self.memory = Memory(declared)
        self.definitions = {}
        self.slices = []

    def spell(self, ty):
        if isinstance(ty, Int):
            return f"uint{ty.bits}_t"
        if isinstance(ty, Bool):
            return "bool"
        if isinstance(ty, Unit):
            return "void"
        if isinstance(ty, Ref):
            to = self.spell(ty.to)
            if to.endswith("*"):
                return f"{to}*" if ty.mutable else f"{to}const *"
            return f"{to} *" if ty.mutable else f"const {to} *"
        if isinstance(ty, Named) and ty.name in self.crossing:
            return self.crossing[ty.name]
        if not isinstance(ty, (Slice, Array, Named)):
            raise Unknown(f"a C type for {ty}")
        self.define(ty)
        return f"struct {self.tag(ty)}"

    def declarator(self, ty, name):
        """`T name`, where a pointer's star stands at the name."""
        spelled = self.spell(ty)
        return f"{spelled}{name}" if spelled.endswith("*") else f"{spelled} {name}"

    def tag(self, ty):
        if isinstance(ty, Slice):
            return slice_name(ty)
        return f"array_{short(ty)}" if isinstance(ty, Array) else self.paths.name(ty.name)

    def define(self, ty):
        """Adds the definition of a type after those of its parts."""
        if ty in self.definitions:
            return
        if isinstance(ty, Slice):
            lines = self.slice_lines(ty)
            self.slices.append(ty)
        elif isinstance(ty, Array):
            lines = self.array_lines(ty)
        else:
            lines = self.named_lines(ty)
        self.definitions[ty] = lines

    def array_lines(self, ty):
        """C has no array of no elements; one element that is not used stands in for it."""
        return [f"struct {self.tag(ty)} {{", f"    {self.declarator(ty.of, f'a[{max(ty.length, 1)}]')};", "};"]

    def slice_lines(self, ty):
        pointer = self.declarator(Ref(ty.mutable, ty.of), "at")
        return [f"struct {self.tag(ty)} {{", f"    {pointer};", "    uint64_t len;", "};"]

    def named_lines(self, ty):
        declared, text = self.declared[ty.name], self.source.types.get(ty.name)
        check_shape(ty.name, declared, text)
        if isinstance(declared, Fields):
            inner = self.member_lines(declared.types, text.fields, "    ")
        else:
            inner = ["    uint8_t tag;", *self.union_lines(declared, text)]
        if not inner:
            raise Unknown(f"{ty.name}, a struct of nothing")
        comment = [f"/* {text.path or ty.name}, {text.file} */"]
        constants = [] if isinstance(declared, Fields) else [self.constant_line(ty, text)]
        return [*comment, *constants, f"struct {self.tag(ty)} {{", *inner, "};"]

    def constant_line(self, ty, text):
        return "enum { " + ", ".join(self.constant(ty, k) for k in range(len(text.variants))) + " };"

    def constant(self, ty, variant):
        """The tag of a variant, by name."""
        return f"{self.tag(ty)}_{self.source.types[ty.name].variants[variant][0]}"

    def member_lines(self, types, names, indent):
        """What holds nothing is left out: C has no such member."""
        labels = [field_label(name, i) for i, name in enumerate(names)]
        return [f"{indent}{self.declarator(part, label)};" for part, label in zip(types, labels) if part != Unit()]

    def union_lines(self, declared, text):
        """A variant with one field that has no name is that field; of others it is a struct."""
        lines = []
        for types, (variant, names) in zip(declared.types, text.variants):
            if set(types) <= {Unit()}:
                continue
            if names == [None]:
                lines.append(f"        {self.declarator(types[0], safe(variant))};")
            else:
                lines += ["        struct {", *self.member_lines(types, names, " " * 12)]
                lines.append(f"        }} {safe(variant)};")
        return ["    union {", *lines, "    } u;"] if lines else []

    def field(self, ty, index):
        """The member of a struct that a field is."""
        if isinstance(ty, Slice):
            return ("at", "len")[index]
        return field_label(self.source.types[ty.name].fields[index], index)

    def variant(self, ty, variant):
        """The member that holds a variant's fields, and their labels; one field without a name is the member itself."""
        name, names = self.source.types[ty.name].variants[variant]
        labels = names if names == [None] else [field_label(label, i) for i, label in enumerate(names)]
        return safe(name), labels

    def payload(self, ty, variant, index):
        member, labels = self.variant(ty, variant)
        return f"u.{member}" if labels == [None] else f"u.{member}.{labels[index]}"

    def holds_reference(self, ty):
        """Whether a value of the type can hold an address."""
        if isinstance(ty, Array):
            return self.holds_reference(ty.of)
        if isinstance(ty, Named):
            parts = self.declared[ty.name].types
            flat = parts if isinstance(self.declared[ty.name], Fields) else [part for types in parts for part in types]
            return any(self.holds_reference(part) for part in flat)
        return isinstance(ty, (Pointer, Ref, Slice))

    def is_signed(self, owner, index):
        """Whether a field is of a struct that crosses and a signed number there: in MIR it is its bits."""
        return isinstance(owner, Named) and (owner.name, index) in self.signed

    def is_bare(self, owner, ty):
        """Whether a field is an array of a struct that crosses: there C has an array, and elsewhere a struct of one."""
        return isinstance(ty, Array) and isinstance(owner, Named) and owner.name in self.crossing
