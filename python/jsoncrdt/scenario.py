"""Scenarios that are written from Python. A scenario has with it the network of the rules in Python to which its events
lead; so counters, and the events of an exchange, follow from what the replicas have."""

import functools
import json
from dataclasses import dataclass
from decimal import Decimal

from . import machines
from .answers import End, Identifier, Refused, Stuck
from .oracle import rules
from .oracle.grammar import Reader, read, read_event, read_part
from .oracle.journal import Journal
from .oracle.refusal import COMMAND, SCENARIO, event_of
from .oracle.texts import REFUSALS, Texts, string


def literal(value):
    """The text of a value: a string, a number, True, False, None, {} or []."""
    if isinstance(value, str):
        return string(value.encode()).decode()
    if isinstance(value, (dict, list)):
        if value:
            raise ValueError(f"a value has no parts: assign {{}} or [] first, then what is in it: {value!r}")
        return "[]" if isinstance(value, list) else "{}"
    return str(value) if isinstance(value, Decimal) else json.dumps(value, allow_nan=False)


@dataclass(frozen=True)
class Place:
    """An expression. `doc["todo"][1]` is doc.get("todo").idx(1): elements count from 1, and 0 is the head."""

    text: str

    def __getitem__(self, key):
        return self.idx(key) if isinstance(key, int) else self.get(key)

    def get(self, name):
        return Place(f"{self.text}.get({literal(name)})")

    def idx(self, number):
        return Place(f"{self.text}.idx({number})")

    def keys(self):
        return Place(f"{self.text}.keys")

    def values(self):
        return Place(f"{self.text}.values")

    def assign(self, value):
        return f"{self.text} := {literal(value)}"

    def insert_after(self, value):
        return f"{self.text}.insertAfter({literal(value)})"

    def delete(self):
        return f"{self.text}.delete"

    def let(self, name):
        """The command that binds the variable to this place; Place(name) leads there."""
        return f"let {name} = {self.text}"

    def __str__(self):
        return self.text


doc = Place("doc")


@dataclass(frozen=True)
class Woven:
    """A scenario with the schedule of a seed, and how each replica ended, by its name."""

    scenario: "Scenario"
    ends: dict[str, End]


def whole(method):
    """The method, which leaves the scenario as it was where it raises."""
    @functools.wraps(method)
    def call(self, *arguments):
        before = self.parsed._replace(scripts=list(map(list, self.parsed.scripts)), schedule=list(self.parsed.schedule))
        try:
            return method(self, *arguments)
        except Exception:
            self.parsed, self._network = before, None
            raise

    return call


class Scenario:
    """Replicas, what is in their scripts, given events and the schedule.

    `do` and the events by name write and make an event at once: one that no rule allows is raised as Stuck, and nothing
    is changed. `script` and `event` write alone, whatever comes of it. All of them give the scenario."""

    def __init__(self, *names):
        head = "".join(f"replica {name} {{}}\n" for name in names)
        self.parsed = parsed_of(f"jsoncrdt 1\n{head}schedule {{}}\n")
        self._network = None

    @classmethod
    def read(cls, text):
        """The scenario of a text."""
        scenario = cls.__new__(cls)
        scenario.parsed, scenario._network = parsed_of(text), None
        return scenario

    @property
    def names(self):
        return tuple(name.decode() for name in self.parsed.names)

    def text(self):
        """The canonical text."""
        return Texts(self.parsed.names).scenario(self.parsed).decode()

    def __repr__(self):
        return self.text()

    def __eq__(self, other):
        return isinstance(other, Scenario) and self.parsed == other.parsed

    __hash__ = None

    # ---- what there is

    def _number(self, name):
        """The number of a replica."""
        if name not in self.names:
            raise ValueError(f"no replica is named {name}: they are {', '.join(self.names)}")
        return self.names.index(name)

    def network(self):
        """The network to which the events lead, as the rules in Python have it. It is for reading."""
        if self._network is None:
            network = rules.Network(self.parsed.version, self.parsed.scripts)
            for given, events in ((True, self.parsed.given), (False, self.parsed.schedule)):
                for position, event in enumerate(events, 1):
                    if stuck := rules.attempt(network, event):
                        raise self._stuck(position, event, network, stuck, given)
            self._network = network
        return self._network

    def replica(self, name):
        """The state of a replica, as the rules in Python have it."""
        return self.network()[self._number(name)]

    def _stuck(self, position, event, network, stuck, given):
        journal = Journal(Texts(self.parsed.names), traced=False)
        return Stuck(json.loads(journal.stuck(position, event, network, stuck, given)))

    # ---- writing alone

    def script(self, name, *commands):
        """Puts commands at the end of a script."""
        trees = [command_of(str(command)) for command in commands]
        self.parsed.scripts[self._number(name)] += trees
        if self._network is not None:
            self.replica(name).left += trees
        return self

    def event(self, text):
        """Puts an event, as `p.recv(q)`, at the end of the schedule. What is behind one that is stuck is never made."""
        event, fault = read_event(text.encode(), self.parsed.names, 2)
        if fault:
            raise refused(text.encode(), fault, event_of(2, self.parsed.names))
        if event[0] == "take":
            self._second_version()
        self.parsed.schedule.append(event)
        self._network = None
        return self

    def past(self):
        """Gives what was done so far: positions count from here."""
        self._second_version()
        self.parsed = self.parsed._replace(given=self.parsed.given + self.parsed.schedule, schedule=[])
        return self

    def _second_version(self):
        """Version 2 has given events and takes."""
        self.parsed = self.parsed._replace(version=2)
        if self._network is not None:
            self._network.version = 2

    # ---- writing and making

    @whole
    def _make(self, *event):
        """Makes an event and writes it."""
        if event[0] == "take":
            self._second_version()
        network = self.network()
        if stuck := rules.attempt(network, event):
            raise self._stuck(len(self.parsed.schedule) + 1, event, network, stuck, False)
        self.parsed.schedule.append(event)
        return self

    @whole
    def do(self, name, *commands):
        """Commands, each with its event. A yield that the replica is in is ended before."""
        for command in commands:
            if self.replica(name).acted:
                self.done(name)
            self.script(name, command)._make("exec", self._number(name))
        return self

    @whole
    def _exchange(self, kind, name, *rest):
        """An event of a yield, which is begun where the script has ended."""
        if not self.replica(name).left:
            self.script(name, "yield")
        return self._make(kind, self._number(name), *rest)

    def _identifier(self, identifier):
        """The identifier that is given as such, or as `3@p`."""
        given = Identifier.of(identifier) if isinstance(identifier, str) else identifier
        return (given.counter, self._number(given.replica))

    def send(self, name):
        return self._exchange("send", name)

    def recv(self, name, sender):
        return self._exchange("recv", name, self._number(sender))

    def take(self, name, sender, identifier):
        return self._exchange("take", name, self._number(sender), self._identifier(identifier))

    @whole
    def apply(self, name, identifier=None):
        """Applies an operation, or each that was received and can be applied."""
        if identifier is not None:
            return self._exchange("apply", name, self._identifier(identifier))
        while (due := rules.due(self.replica(name))) is not None:
            self._exchange("apply", name, due)
        return self

    def done(self, name):
        return self._make("done", self._number(name))

    def _hears(self, name, sender):
        """Whether the sender offers what the replica hasn't received."""
        return bool(self.replica(sender).sent.keys() - self.replica(name).received.keys())

    @whole
    def sync(self, *names):
        """An exchange of these replicas, or of all: each offers what it made, receives what is new, applies what it
        can, and ends its yield."""
        names = names or self.names
        for name in names:
            self.send(name)
        for name in names:
            for sender in names:
                if sender != name and self._hears(name, sender):
                    self.recv(name, sender)
            self.apply(name).done(name)
        return self

    @whole
    def deliver(self, sender, name):
        """An exchange one way: what the sender made comes to the replica."""
        return self.send(sender).done(sender).recv(name, sender).apply(name).done(name)

    # ---- asking

    def check(self, by=None):
        return machines.check(self, by)

    def view(self, at=None, by=None):
        return machines.view(self, at, by)

    def run(self, by=None):
        return machines.run(self, by)

    def journal(self, trace=False, effects=False, by=None):
        return machines.journal(self, trace, effects, by)

    def weave(self, seed=0, limit=10_000, by=None):
        """The scenario with a schedule that is drawn from the seed."""
        text, ends = machines.weave(self, seed, limit, by)
        return Woven(Scenario.read(text), ends)


def refused(text, fault, kind=SCENARIO):
    offset, number = fault
    return Refused(text, number, REFUSALS[number], offset, kind)


def parsed_of(text):
    text = text.encode() if isinstance(text, str) else text
    parsed, fault = read(text)
    if fault:
        raise refused(text, fault)
    return parsed


def command_of(text):
    """The tree of a command."""
    _, command, fault = read_part(text.encode(), None, Reader.command)
    if fault:
        raise refused(text.encode(), fault, COMMAND)
    return command
