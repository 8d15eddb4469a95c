"""What C calls things: functions and types by their path, locals and fields by their names in the source."""

import re

from .helpers import HELPERS
from .source import Elements, Question, Variable
from .terms import Array, Assign, Bool, Fields, Int, Named, Number, Unit, Unknown
from .walk import all_statements, root

KEYWORDS = frozenset(
    """auto break case char const continue default do double else enum extern float for goto if inline int long register
    restrict return short signed sizeof static struct switch typedef union unsigned void volatile while bool true false
    asm typeof alignas alignof constexpr nullptr static_assert thread_local and or not xor""".split()
)

# What the translator calls things itself within a function.
OWN = frozenset({"each", *HELPERS})

# What a `let` may say of a variable's type, and what MIR then has.
TOLD = {"u8": Int(8), "u16": Int(16), "u32": Int(32), "u64": Int(64), "usize": Int(64), "i32": Int(32), "bool": Bool()}


def safe(name):
    """A name that C can use."""
    return f"{name}_" if name in KEYWORDS | OWN else name


class PathNames:
    """Paths as C names, each with one name of its own and none that the header has."""

    def __init__(self, taken):
        self.taken = taken
        self.given = {}

    def name(self, path):
        name = re.sub(r"\W+", "_", path)
        if name in self.taken:
            name += "_"
        if self.given.setdefault(name, path) != path:
            raise Unknown(f"one C name, {name}, for {path} and {self.given[name]}")
        return name


def short(ty):
    """A type in the name of another: `u16`, `u16_256`."""
    if isinstance(ty, Int):
        return f"u{ty.bits}"
    if isinstance(ty, Bool):
        return "bool"
    if isinstance(ty, Array):
        return f"{short(ty.of)}_{ty.length}"
    if isinstance(ty, Named):
        return re.sub(r"\W+", "_", ty.name)
    raise Unknown(f"elements of type {ty}")


def slice_name(ty):
    return f"slice_{short(ty.of)}" + ("_mut" if ty.mutable else "")


def field_label(name, index):
    """A field's name; those of a tuple are numbered."""
    return f"f{index}" if name is None else safe(name)


def local_names(function, text, copies):
    """A name for each local: the result, parameters, variables, then temporaries. Two of one name get numbers.

    `copies` is how many parameters MIR copies to memory; the copies stand before the variables.
    """
    count = len(function.locals)
    names = {i: f"t{i}" for i in range(count)}
    names[0] = "result"
    for i in range(1, function.parameters + 1):
        names[i] = f"p{i}"
    if text:
        if len(text.parameters) != function.parameters:
            raise Unknown(f"{function.name} has {function.parameters} parameters, and its source others")
        names.update(enumerate(text.parameters, 1))
        names.update((index, variable.name) for index, variable in located(function, text, copies))
    return distinct(names)


def located(function, text, copies):
    """The variables of the text, each with the local that it is in MIR."""
    found, index = [], function.parameters + 1 + copies
    for variable in text.variables:
        if isinstance(variable, Elements):
            for part in parts_of_loop(function, variable, index):
                found.append((index, Variable(f"{variable.name}_{part}", False)))
                index += 1
        elif isinstance(variable, Question):
            check_question(function, index)
            index += 2
        else:
            check_told(function, variable, index)
            found.append((index, variable))
            index += 1
    return found


def parts_of_loop(function, elements, index):
    """What stands before the variables of a loop over elements. One over a slice or an array counts its elements, and
    the number may have a name. Before it stands what holds the elements, where no variable does. Any other has what it
    goes over, the same as an iterator in memory, and what that gives.
    """
    number = [] if elements.counts else ["index"]
    for at, parts in ((index, number), (index + 1, ["items", *number])):
        if at < len(function.locals) and function.locals[at] == Int(64) and begins_with_0(function, at):
            return parts
    steps = function.locals[index + 1] if index + 1 < len(function.locals) else None
    if not isinstance(steps, Named) or index + 1 not in function.in_memory:
        raise Unknown(f"the loop over {elements.name} of {function.name} is not where MIR should have it")
    return ["items", "steps", "item"]


def begins_with_0(function, index):
    values = [s.value for s in all_statements(function.body) if isinstance(s, Assign) and root(s.target) == index]
    return bool(values) and values[0] == Number(0, Int(64))


def check_question(function, index):
    """The value of a `?` may be of any type; behind it stands the refusal that is handed back, nothing where that is
    `None`.
    """
    handed_back = function.locals[index + 1] if index + 1 < len(function.locals) else None
    if handed_back != Unit() and not (isinstance(handed_back, Named) and "Residual" in handed_back.name):
        raise Unknown(f"a ? of {function.name} is not where MIR should have it")


def check_told(function, variable, index):
    known = index < len(function.locals)
    if not known or variable.told in TOLD and function.locals[index] != TOLD[variable.told]:
        raise Unknown(f"the variable {variable.name} of {function.name} is not where MIR should have it")


def distinct(names):
    """No name twice: where one is taken, it gets the first number that makes it another."""
    given = {}
    for index, name in sorted(names.items()):
        candidates = [safe(name), *(f"{name}_{k}" for k in range(2, len(names) + 2))]
        given[index] = next(other for other in candidates if other not in given.values())
    return given


def check_shape(name, declared, text):
    """Holds a type's source to its declaration in MIR."""
    if text is None:
        raise Unknown(f"the type {name}, which the source does not have")
    if isinstance(declared, Fields):
        same = text.variants is None and len(text.fields) == len(declared.types)
    else:
        same = text.variants is not None and [len(v) for _, v in text.variants] == [len(v) for v in declared.types]
    if not same:
        raise Unknown(f"the fields of {name} in the source are not those in MIR")
