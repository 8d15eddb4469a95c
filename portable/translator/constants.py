"""The constants that functions lend: each stands at the head of the file, named by the first function that lends it."""

from .expressions import Expressions


class Constants:
    def __init__(self, types, paths):
        self.types = types
        self.paths = paths
        self.names = {}

    def name(self, value, function):
        if value not in self.names:
            own = [name for name, of in self.names.values() if of == function]
            number = f"_{len(own) + 1}" if own else ""
            self.names[value] = (self.paths.name(f"{function}::constant{number}"), function)
        return self.names[value][0]

    def lines(self):
        expressions = Expressions(self.types, self.paths, {})
        lines = []
        for value, (name, _) in self.names.items():
            declared = self.types.declarator(value.ty, name)
            lines += ["", f"static const {declared} = {expressions.initial(value)};"]
        return lines
