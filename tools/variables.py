"""States and documents as the variables of a debug adapter, which are opened one by one."""

import collections

from layout import Number, flat, string

MOST_LETTERS = 100
CONFLICT = "!conflict"
DOC = "doc"

# What a reference opens: what asks for the value; where it is of a document the replica, and where one leads to it the
# expression. What has no replica is of a dump.
Opened = collections.namedtuple("Opened", "ask replica expression")


def is_number(value):
    """Whether a value of a dump is a number: it is shown there as an object."""
    return isinstance(value, dict) and list(value) == ["n"] and isinstance(value["n"], str)


def text_of(value):
    """A value in a line, cut off where it is long."""
    if isinstance(value, dict) and list(value) == [CONFLICT]:
        return "conflict of " + ", ".join(parts_of(value[CONFLICT]))
    text = flat(value)
    return text if len(text) <= MOST_LETTERS else text[:MOST_LETTERS] + ".."


def parts_of(conflict):
    """What is in conflict, in words."""
    count = len(conflict.get("values", []))
    values = [f"{count} value{'s' * (count > 1)}"] if count else []
    return values + [f"a {part}" for part in ("map", "list") if part in conflict]


def is_pair(part):
    return isinstance(part, list) and len(part) == 2 and isinstance(part[0], str) and "@" in part[0]


def entry(expression, name):
    """The expression of an entry of a map, by its name in a view, where one that begins with `!` has one more."""
    return f"{expression}.get({string(name[1:] if name.startswith('!') else name)})"


class Shown:
    """The values that can be opened, by their references. A reference is good until the debugger goes on."""

    def __init__(self):
        self.opened = []

    def keep(self, ask, replica=None, expression=None):
        """The reference of a value that is asked for when it is opened."""
        self.opened.append(Opened(ask, replica, expression))
        return len(self.opened)

    def variable(self, name, value, replica=None, expression=None):
        if not replica and is_number(value):
            value = Number(value["n"])
        shown = {"name": name, "value": text_of(value), "variablesReference": 0}
        if expression:
            shown["evaluateName"] = expression
        if isinstance(value, (dict, list)) and value:
            shown["variablesReference"] = self.keep(lambda: value, replica, expression)
            shown["indexedVariables" if isinstance(value, list) else "namedVariables"] = len(value)
        return shown

    def at(self, reference):
        if not 0 < reference <= len(self.opened):
            raise LookupError(f"nothing can be opened by {reference} any more")
        return self.opened[reference - 1]

    def variables(self, reference):
        """The parts of a value."""
        opened = self.at(reference)
        return [self.variable(name, part, opened.replica, expression) for name, part, expression in parts_in(opened)]

    def place_of(self, reference, name):
        """The replica and the expression that lead to a part of a document, by its name; none where none does."""
        opened = self.at(reference)
        found = {part: expression for part, _, expression in parts_in(opened)}
        return (opened.replica, found[name]) if opened.replica and found.get(name) else None


def parts_in(opened):
    """The parts of what is opened: their names, their values, and the expressions that lead to them."""
    value, expression = opened.ask(), opened.expression
    if isinstance(value, dict) and list(value) == [CONFLICT]:
        return [(name, part, expression if name != "values" else None) for name, part in value[CONFLICT].items()]
    if isinstance(value, dict) and opened.replica and not expression:
        return [(name, part, name if name == DOC else None) for name, part in value.items()]
    if isinstance(value, dict):
        return [(name, part, expression and entry(expression, name)) for name, part in value.items()]
    if value and all(map(is_pair, value)):
        return [(identifier, part, None) for identifier, part in value]
    return [(f"[{number}]", part, expression and f"{expression}.idx({number})")
            for number, part in enumerate(value, 1)]
