"""What is told of a scenario, as values. They are read from the texts of docs/FORMATS.md."""

import enum
import json
import re
from collections.abc import Iterable
from dataclasses import dataclass, field
from typing import Any

from .oracle.refusal import KINDS, SCENARIO, explained


class Absent(enum.Enum):
    """Where there is nothing: no document, or no such part of one. None is the null of JSON."""

    ABSENT = "absent"

    def __repr__(self):
        return self.name


ABSENT = Absent.ABSENT


@dataclass(frozen=True, order=True, repr=False)
class Identifier:
    """That of an operation. They are in the order of the rules."""

    counter: int
    replica: str

    @classmethod
    def of(cls, text):
        counter, _, replica = text.partition("@")
        return cls(int(counter), replica)

    def __str__(self):
        return f"{self.counter}@{self.replica}"

    __repr__ = __str__


@dataclass(frozen=True)
class Conflict:
    """More than one thing at a place: values by the operations that assigned them, a map, a list."""

    values: dict[Identifier, Any] = field(default_factory=dict)
    map: Any = ABSENT
    list: Any = ABSENT


@dataclass(frozen=True)
class Counts:
    """How much there is of a scenario."""

    replicas: int
    commands: int
    events: int
    given: int = 0


@dataclass(frozen=True)
class State:
    """The whole state of a replica. `left` counts commands that are left; `tree` and `variables` are as in a dump."""

    name: str
    acted: bool
    left: int
    applied: tuple[Identifier, ...]
    made: tuple[Identifier, ...]
    sent: tuple[Identifier, ...]
    received: tuple[Identifier, ...]
    tree: dict[str, Any]
    variables: dict[str, Any]


@dataclass(frozen=True)
class Operation:
    """An operation: the replicas' greatest counters among those that it depends on, its cursor as in a journal, and for
    `assign` and `insert` a value."""

    id: Identifier
    deps: dict[str, int]
    cursor: tuple[str, ...]
    mutation: str
    value: Any = ABSENT


@dataclass(frozen=True)
class Effect:
    """What an event changed at a place, and in its map and its list; members as in "Effects of an event"."""

    key: str
    gained: tuple[Identifier, ...] = ()
    lost: tuple[Identifier, ...] = ()
    made: tuple[str, ...] = ()
    next: tuple[str | None, ...] = ()
    shown: bool | None = None
    taken: tuple[tuple[Identifier, Any], ...] = ()
    written: tuple[tuple[Identifier, Any], ...] = ()
    map: tuple["Effect", ...] = ()
    list: tuple["Effect", ...] = ()


@dataclass(frozen=True)
class Event:
    """An event that was made. `rules`, pairs of a depth and a rule, and `effects` are there where they were asked."""

    number: int
    text: str
    replica: str
    kind: str
    given: bool = False
    command: str | None = None
    operation: Operation | None = None
    sender: str | None = None
    new: tuple[Identifier, ...] = ()
    rules: tuple[tuple[int, str], ...] = ()
    effects: tuple[Effect, ...] = ()


@dataclass(frozen=True)
class End:
    """How a replica ended in a woven schedule: `finished`, `limit` or `stuck`, then at an event by a refusal."""

    made: int
    how: str
    number: int | None = None
    name: str | None = None
    event: str | None = None


class NoAnswer(Exception):
    """A read or write failed, memory is lacking, or what was asked is no jsoncrdt."""


class Unproved(UserWarning):
    """The rules in Python answer, of which nothing is proved."""


class Refused(Exception):
    """A text that is no scenario: the number and name of the refusal, the offset in bytes, line and column from 1, a
    message, what was expected, the sentence of docs/ERRORS.md, a hint where there is one, and the line with a caret."""

    def __init__(self, text, number, name, offset, kind=SCENARIO):
        told = explained(text, offset, number, kind)
        self.number, self.name, self.offset = number, name, offset
        self.line, self.column, self.excerpt = told.place
        self.message, self.sentence, self.hint = told.message, told.sentence, told.hint
        self.expected = tuple(KINDS.get(part) or part.decode() for part in told.expected)
        super().__init__(f"{number} {name} at line {self.line}, column {self.column}: {self.message}\n{self.excerpt}\n"
                         f"{self.sentence}")


class Stuck(Exception):
    """An event that no rule allows: its position, from 1, in the schedule or among given ones, the number and name of
    the refusal, and what is missing: for 25 `key`, for 34 `offered`, for 36 `missing`. `before` is what was asked, of
    the state before the event; of a given one there is none."""

    def __init__(self, line, before=None):
        self.event, self.position, self.given = line["event"], line["number"], line.get("given", False)
        self.number, self.name, self.key = line["stuck"], line["cause"], line.get("key")
        self.missing, self.offered = identifiers(line.get("missing", ())), tuple(line.get("offered", ()))
        self.before = None if self.given else before
        what = f" {self.key}" if self.key else ""
        given = "given " if self.given else ""
        super().__init__(f"{self.number} {self.name}{what} at {given}event {self.position}, {self.event}")


# ---- from texts


def identifiers(texts: Iterable[str]):
    return tuple(map(Identifier.of, texts))


def document(value):
    """A document of a view, in which conflicts are such, and names have lost the mark of one that begins with `!`."""
    if isinstance(value, list):
        return [document(item) for item in value]
    if not isinstance(value, dict):
        return value
    if value.keys() == {"!conflict"}:
        parts = value["!conflict"]
        values = {Identifier.of(made): one for made, one in parts.get("values", ())}
        return Conflict(values, *(document(parts[kind]) if kind in parts else ABSENT for kind in ("map", "list")))
    return {name.removeprefix("!"): document(inside) for name, inside in value.items()}


def documents(lines: Iterable[str]):
    """The documents in lines of a view, by the names of their replicas."""
    return documents_of(map(json.loads, lines))


def documents_of(rows):
    """The documents in the values of these lines."""
    return {line["name"]: document(line["doc"]) if "doc" in line else ABSENT for line in rows}


def plain(value):
    """A value of a dump or a journal, in which a number is an object with its text."""
    return json.loads(value["n"]) if isinstance(value, dict) and value.keys() == {"n"} else value


def states(rows):
    """The states in the values of dump lines, by the names of their replicas."""
    found = {}
    for line in rows:
        sets = (identifiers(line[member]) for member in ("ops", "queue", "send", "recv"))
        found[line["name"]] = State(line["name"], line["acted"], line["left"], *sets, line["tree"], line["vars"])
    return found


def operation(told):
    value = plain(told["value"]) if "value" in told else ABSENT
    return Operation(Identifier.of(told["id"]), told["deps"], tuple(told["cursor"]), told["mutation"], value)


def effect(told):
    """An effect of a journal, with those in its map and in its list."""
    members = dict(told)
    members |= {name: identifiers(told[name]) for name in ("gained", "lost") if name in told}
    members |= {name: tuple(told[name]) for name in ("made", "next") if name in told}
    members |= {name: tuple((Identifier.of(made), plain(value)) for made, value in told[name])
                for name in ("taken", "written") if name in told}
    members |= {name: tuple(map(effect, told[name])) for name in ("map", "list") if name in told}
    return Effect(**members)


def event(told):
    """An event of a line of a journal."""
    rules = tuple((depth, rule) for depth, rule in told.get("rules", ()))
    return Event(told["number"], told["event"], told["replica"], told["kind"], told.get("given", False),
                 told.get("command"), operation(told["op"]) if "op" in told else None, told.get("from"),
                 identifiers(told.get("new", ())), rules, tuple(map(effect, told.get("effects", ()))))


def counts(line):
    words = line.split()
    return Counts(**{word: int(count) for word, count in zip(words[::2], words[1::2])})


END = re.compile(r"(\w+) made (\d+) (?:(finished|limit)|(stuck) (\d+) (\w+) (?:.* )?(\S+))")


def ends(told):
    """How replicas ended, by their names, of the lines that `weave` tells of that, or of what `serve` does."""
    return dict(end_of(each) for each in told if isinstance(each, dict) or END.fullmatch(each))


def end_of(told):
    if isinstance(told, dict):
        return told["name"], End(told["made"], told["end"], told.get("stuck"), told.get("cause"), told.get("event"))
    name, made, how, stuck, number, cause, at = END.fullmatch(told).groups()
    return name, End(int(made), how or stuck, number and int(number), cause, at)
