"""The texts of docs/FORMATS.md: scenarios in their canonical form, events, traces, dump lines, stuck lines."""

import re

from .rules import DOC, HEAD, LIST, MAP, REGISTER, TAIL

REFUSALS = {
    1: "BadByte", 2: "OpenString", 3: "BadEscape", 4: "LoneSurrogate", 5: "BadNumber", 6: "TextTooLong",
    7: "Unexpected", 8: "EndOfText", 9: "IndexTooLarge", 10: "ReservedName", 11: "TooManyCommands",
    12: "TooLongExpression", 13: "NotUtf8", 14: "NoHeader", 15: "SameName", 16: "NoReplica", 17: "TooManyReplicas",
    18: "UnknownReplica", 19: "TooManyEvents", 20: "NotInList", 22: "UnboundVariable", 23: "GetOnHead",
    24: "NotACursor", 25: "NoSuchNode", 26: "PastEnd", 27: "NoMap", 28: "NoRegister", 29: "TooDeep", 30: "NoCommand",
    31: "AtYield", 32: "NotAtYield", 33: "NotActed", 34: "NotReceived", 35: "AlreadyApplied", 36: "DepsMissing",
    37: "NoSuchReplica", 39: "WrongVersion", 44: "GivenStuck", 50: "AtStart", 51: "AtEnd", 52: "PastSchedule",
    53: "NoSuchBreak", 54: "TooManyBreaks", 58: "BadLine",
}

ESCAPED = re.compile(rb'["\\\x00-\x1f]')
ESCAPES = {0x22: b'\\"', 0x5C: b"\\\\", 8: b"\\b", 9: b"\\t", 10: b"\\n", 12: b"\\f", 13: b"\\r"}


def escape(found):
    byte = found[0][0]
    return ESCAPES.get(byte) or b"\\u00%02x" % byte


def string(text):
    return b'"' + ESCAPED.sub(escape, text) + b'"'


def array(texts):
    return b"[" + b",".join(texts) + b"]"


def object_of(members):
    """An object, its members by the bytes of their names."""
    return b"{" + b",".join(string(name) + b":" + text for name, text in sorted(members)) + b"}"


def refused(number, place=None):
    """The line that refuses a text at a place, or whatever else."""
    at = b"" if place is None else b" at %d" % place
    return b"refused %d %s" % (number, REFUSALS[number].encode()) + at + b"\n"


class Texts:
    """Texts that name replicas by these names, in their order."""

    def __init__(self, names):
        self.names = names

    # ---- dumps

    def identifier(self, identifier):
        return b"%d@%s" % (identifier[0], self.names[identifier[1]])

    def key(self, key):
        if key == DOC:
            return b"doc"
        if key == HEAD:
            return b"head"
        return string(key[1]) if key[0] == 2 else self.identifier(key[1])

    def tagged(self, tagged):
        return b"%s(%s)" % (tagged[0].encode(), self.key(tagged[1]))

    def value(self, value):
        if value[0] == "string":
            return string(value[1])
        if value[0] == "number":
            return object_of([(b"n", string(value[1]))])
        return value[0].encode()

    def identifiers(self, identifiers):
        return array(string(self.identifier(i)) for i in sorted(identifiers))

    def pairs(self, pairs):
        """Identifiers, each with the value that is under it."""
        return array(array([string(self.identifier(i)), self.value(value)]) for i, value in sorted(pairs))

    def following(self, key):
        """What follows a key in a list: an identifier, or `tail`."""
        return b"tail" if key is TAIL else self.key(key)

    def context(self, context):
        members = []
        for tag in (MAP, LIST):
            members += [(self.tagged((tag, key)), self.context(of)) for key, of in context.entries[tag].items()]
        for key, values in context.entries[REGISTER].items():
            pairs = [(self.identifier(i), self.value(value)) for i, value in values.items()]
            members.append((self.tagged((REGISTER, key)), object_of(pairs)))
        for key, identifiers in context.presences.items():
            members.append((b"pres(%s)" % self.key(key), self.identifiers(identifiers)))
        for key, following in context.links.items():
            members.append((b"next(%s)" % self.key(key), string(self.following(following))))
        return object_of(members)

    def cursor(self, bound):
        return array(string(text) for text in [*map(self.tagged, bound[1]), self.key(bound[2])])

    def bound(self, bound):
        if bound[0] == "values":
            shown = self.pairs(bound[1])
        elif bound[0] == "keys":
            shown = array(map(string, bound[1]))
        else:
            shown = self.cursor(bound)
        return object_of([(bound[0].encode(), shown)])

    def members(self, replica):
        """The members of a dump, but for the tree."""
        return {
            b"acted": b"true" if replica.acted else b"false",
            b"left": b"%d" % len(replica.left),
            b"name": string(self.names[replica.number]),
            b"ops": self.identifiers(replica.applied),
            b"queue": self.identifiers(replica.queue),
            b"recv": self.identifiers(replica.received),
            b"send": self.identifiers(replica.sent),
            b"vars": object_of([(name, self.bound(bound)) for name, bound in replica.variables.items()]),
        }

    def brief(self, replica):
        """The dump without the tree, and without its end."""
        return object_of(self.members(replica).items())

    def dump(self, replica):
        return object_of({**self.members(replica), b"tree": self.context(replica.tree)}.items()) + b"\n"

    # ---- events

    def event(self, event):
        text = b"%s.%s" % (self.names[event[1]], event[0].encode())
        if event[0] == "recv":
            return text + b"(%s)" % self.names[event[2]]
        if event[0] in ("take", "apply"):
            sender = b"%s, " % self.names[event[2]] if event[0] == "take" else b""
            return text + b"(%s%d, %s)" % (sender, event[-1][0], self.names[event[-1][1]])
        return text

    def block(self, number, event, trace):
        rows = b"".join(b"%d %s\n" % (depth, rule.encode()) for depth, rule in trace)
        return b"event %d %s\n" % (number, self.event(event)) + rows

    def stuck(self, stuck, event):
        key = self.tagged(stuck.key) + b" " if stuck.key else b""
        return b"stuck %d %s " % (stuck.number, REFUSALS[stuck.number].encode()) + key + self.event(event) + b"\n"

    def given_stuck(self, given):
        """The lines of the given event that is stuck."""
        return refused(44, given.number) + self.stuck(given.stuck, given.event)

    # ---- scenarios

    def expression(self, expression):
        kind = expression[0]
        if kind == "doc":
            return b"doc"
        if kind == "variable":
            return expression[1]
        text = self.expression(expression[1]) + b"." + kind.encode()
        if kind == "get":
            return text + b"(%s)" % string(expression[2])
        return text + b"(%d)" % expression[2] if kind == "idx" else text

    def literal(self, value):
        if value[0] == "number":
            return value[1]
        return {"map": b"{}", "list": b"[]"}.get(value[0]) or self.value(value)

    def command(self, command):
        kind = command[0]
        if kind == "yield":
            return b"yield"
        if kind == "let":
            return b"let %s = %s" % (command[1], self.expression(command[2]))
        text = self.expression(command[1])
        if kind == "assign":
            return text + b" := " + self.literal(command[2])
        return text + (b".insertAfter(%s)" % self.literal(command[2]) if kind == "insert" else b".delete")

    def events(self, word, events):
        """The block of events that begins with this word."""
        return b"%s {\n%s}\n" % (word, b"".join(b"  %s;\n" % self.event(event) for event in events))

    def scenario(self, scenario):
        text = b"jsoncrdt %d\n" % scenario.version
        for name, script in zip(scenario.names, scenario.scripts):
            lines = b"".join(b"  %s;\n" % self.command(command) for command in script)
            text += b"replica %s {\n%s}\n" % (name, lines)
        if scenario.version == 2:
            text += self.events(b"given", scenario.given)
        return text + self.events(b"schedule", scenario.schedule)


def counts_of(scenario):
    """The line that says how much there is of a scenario."""
    given = b" given %d" % len(scenario.given) if scenario.version == 2 else b""
    counts = len(scenario.names), sum(map(len, scenario.scripts)), given, len(scenario.schedule)
    return b"replicas %d commands %d%s events %d\n" % counts
