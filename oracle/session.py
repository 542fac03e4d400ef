"""A session of the debugger: the answers to lines, which are given as tuples of their words."""

from .debugger import Debugger, Refusal
from .rules import GivenStuck
from .texts import refused

# Lines that are refused or have no answer, whatever was done before, in a session with no replica `nobody`.
FIXED = {
    b"": b"",
    b" \t": b"",
    b"jump": b"refused 58 BadLine\n",
    b"step x": b"refused 58 BadLine\n",
    b"goto": b"refused 58 BadLine\n",
    b"goto 01": b"refused 58 BadLine\n",
    b"compare": b"refused 58 BadLine\n",
    b"break rule NOTHING": b"refused 58 BadLine\n",
    b"state nobody": b"refused 18 UnknownReplica\n",
    b"break replica nobody": b"refused 18 UnknownReplica\n",
    b"act": b"refused 8 EndOfText at 0\n",
    b"act nobody.exec": b"refused 18 UnknownReplica at 0\n",
    b"act  nobody.jump": b"refused 7 Unexpected at 7\n",
}


class Session(Debugger):
    """What a debugger answers, as lines. Where a given event is stuck GivenStuck is raised."""

    def __init__(self, scenario):
        super().__init__(scenario)
        if self.failed:
            number, _ = self.number_at(self.failed.position)
            raise GivenStuck(number, self.failed.event, self.failed.cause)

    def at(self):
        return b"at %d\n" % self.position

    def moved(self, move):
        """The answer to a line that goes somewhere."""
        if move.stuck:
            return self.at() + self.texts.stuck(move.stuck.cause, move.stuck.event)
        return self.at() + (b"break %d\n" % move.hit if move.hit else b"end\n" if move.is_end else b"")

    def events_in_lines(self, events):
        return b"".join(self.texts.event(event) + b"\n" for event in events) or b"none\n"

    def compared(self, p, q):
        same, has_same_tree = self.compare(p, q)
        return b"same operations %s tree\n" % (b"same" if has_same_tree else b"different") if same else (
            b"different operations\n")

    def answer(self, line):
        try:
            return self.answered(*line)
        except Refusal as refusal:
            return refused(refusal.number, refusal.place)

    def answered(self, word, *rest):
        if word in ("step", "back", "goto", "run", "act"):
            return self.moved(getattr(self, word)(*rest))
        if word == "break":
            return b"set %d\n" % self.set_breakpoint(*rest)
        if word == "unbreak":
            return b"cleared %d\n" % self.unbreak(*rest)
        if word == "state":
            shown = self.network if rest[0] is None else [self.network[rest[0]]]
            return b"".join(map(self.texts.dump, shown))
        if word == "trace":
            here = self.position
            return self.texts.block(here, self.event_at(here), self.here.trace) if here else b"start\n"
        if word == "schedule":
            lines = (b"%d %s\n" % (n, self.texts.event(event)) for n, event in enumerate(self.schedule, 1))
            return b"".join(lines) or b"none\n"
        if word == "where":
            return b"at %d of %d\n" % (self.position, self.length)
        if word == "fixed":
            return FIXED[rest[0]]
        return self.compared(*rest) if word == "compare" else self.events_in_lines(self.enabled())

    def line(self, line):
        """The line as it is written."""
        return written(self.texts, line)


def written(texts, line):
    """The line of a session, of its tuple of words."""
    word, rest = line[0], line[1:]
    names, text = texts.names, word.encode()
    if word in ("step", "back") and rest[0] == 1:
        return text
    if word in ("step", "back", "goto", "unbreak"):
        return text + b" %d" % rest[0]
    if word == "act":
        return text + b"  " + texts.event(rest[0])
    if word == "break":
        kind, what = rest[0]
        shown = {"at": lambda: b"%d" % what, "rule": lambda: what.encode(), "replica": lambda: names[what]}[kind]()
        return text + b" " + kind.encode() + b" " + shown
    if word == "state":
        return text if rest[0] is None else text + b" " + names[rest[0]]
    if word == "compare":
        return text + b" %s\t%s" % (names[rest[0]], names[rest[1]])
    return rest[0] if word == "fixed" else text
