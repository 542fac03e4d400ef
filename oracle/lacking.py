"""What an event that is stuck lacks, as far as the state in which it was tried shows it: which variable, which
operations, what is at the place. A text for a reader; nothing else rests on it."""

from .refusal import close_to
from .rules import LIST, MAP, REGISTER, Stuck, below, cursor_of, evaluate
from .view import goes_through

GIVEN = {"keys": "names", "values": "values"}
CONTENTS = {MAP: "a map", LIST: "a list", REGISTER: "plain values"}


def parts_of(expression):
    """The expression, and those that it goes on from, the longest first."""
    yield expression
    while expression[0] not in ("doc", "variable"):
        expression = expression[1]
        yield expression


def is_stuck(replica, expression):
    try:
        evaluate(replica, expression, 0, [])
    except Stuck:
        return True
    return False


def lacks(tree, path):
    try:
        below(tree, path, "", 0, [])
    except Stuck:
        return True
    return False


def expression_of(command):
    return command[2] if command[0] == "let" else command[1]


class Lack:
    """The event, what it met, and the network in which it was tried; texts name its replicas."""

    def __init__(self, network, event, stuck, texts):
        self.network, self.event, self.stuck, self.texts = network, event, stuck, texts
        self.replica = network[event[1]]
        self.name = texts.names[event[1]].decode()

    def identifiers(self, identifiers):
        return ", ".join(self.texts.identifier(i).decode() for i in sorted(identifiers))

    def shown(self, expression):
        return f"`{self.texts.expression(expression).decode()}`"

    @property
    def command(self):
        return self.replica.left[0]

    def broken(self):
        """The shortest part of the command's expression that is stuck, or all of it where none is."""
        whole = expression_of(self.command)
        return [whole, *(part for part in parts_of(whole) if is_stuck(self.replica, part))][-1]

    def way(self):
        """The path that the broken part of the command follows, and the key at its end; for `idx` that is the list."""
        part = self.broken()
        path, last = cursor_of(self.replica, part[1], 0, [])
        return (*path, (LIST, last)) if part[0] == "idx" else path, last

    # ---- what the command of an `exec` asks

    def of_20(self):
        return f"{self.shown(self.command[1])} is no place of a list"

    def of_22(self):
        variable, bound = [*parts_of(self.broken())][-1][1].decode(), sorted(self.replica.variables)
        near = close_to(variable, [*bound, b"doc"])
        others = f"bound: {', '.join(f'`{name.decode()}`' for name in bound) or 'none'}"
        return f"`{self.name}` has no variable `{variable}`; " + (f"is it `{near}`?" if near else others)

    def of_23(self):
        return f"{self.shown(self.broken()[1])} is the head of a list"

    def of_24(self):
        part = self.broken()
        part = part[1] if is_stuck(self.replica, part) else part
        return f"{self.shown(part)} gives {GIVEN[evaluate(self.replica, part, 0, [])[0]]}"

    def of_25(self):
        path = self.way()[0]
        path = next(path[:end] for end in range(1, len(path) + 1) if lacks(self.replica.tree, path[:end]))
        kind = "list" if self.stuck.key[0] == LIST else "map"
        what = {2: "the key ", 3: "the element "}.get(self.stuck.key[1][0], "")
        text = f"`{self.name}` has no {kind} at {what}{self.texts.key(self.stuck.key[1]).decode()}"
        found = {i for other in self.network for i, operation in other.queue.items()
                 if i not in self.replica.applied and goes_through(operation, path[:-1], path[-1])}
        return text + (f"; {self.identifiers(found)} makes it there, and isn't applied" if found else "")

    def of_26(self):
        context = below(self.replica.tree, self.way()[0], "", 0, [])[0]
        count = sum(1 for key, found in context.presences.items() if key[0] == 3 and found)
        return f"{self.shown(self.broken()[1])} has {count} element{'s' * (count != 1)} at `{self.name}`"

    def of_27(self):
        path, last = self.way()
        context = below(self.replica.tree, path, "", 0, [])[0]
        found = [CONTENTS[tag] for tag in (MAP, LIST, REGISTER) if context.has((tag, last))]
        return f"`{self.name}` has {' and '.join(found) or 'nothing'} at {self.shown(self.broken()[1])}"

    of_28 = of_27

    # ---- what an event asks of the script and the network

    def of_30(self):
        return f"all commands of `{self.name}` have been executed"

    def of_32(self):
        return f"the next command of `{self.name}` is `{self.texts.command(self.command).decode()}`"

    def of_34(self):
        identifier, name = self.event[-1], self.name
        shown, maker = self.texts.identifier(identifier).decode(), self.texts.names[identifier[1]].decode()
        if identifier in self.replica.queue:
            return f"`{name}` applied {shown} when it made it"
        if not any(identifier in other.queue for other in self.network):
            return f"`{maker}` has made no {shown} yet"
        if identifier not in self.network[identifier[1]].sent:
            return f"`{maker}` has made {shown}, and `{maker}.send` is missing"
        if self.event[0] == "take":
            return f"`{maker}` alone offers {shown}: `{name}.take({maker}, {identifier[0]}, {maker})`"
        return f"`{maker}` offers {shown}, and `{name}.recv({maker})` is missing"

    def of_35(self):
        shown = self.texts.identifier(self.event[-1]).decode()
        return f"`{self.name}` has applied {shown}" + (" as it made it" if self.event[-1][1] == self.event[1] else "")

    def of_36(self):
        identifier = self.event[-1]
        missing = self.identifiers(self.replica.received[identifier].deps - self.replica.applied)
        return f"`{self.name}` hasn't applied {missing}, on which {self.identifiers([identifier])} depends"

    def text(self):
        """What is missing, or an empty text where the sentence of the refusal says it all."""
        say = getattr(self, f"of_{self.stuck.number}", None)
        return say() if say else ""
