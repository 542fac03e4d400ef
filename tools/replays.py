"""The scenario of a journal: operations with identifiers, cursors and dependencies, as an engine may log them, become
commands, in which an element has the index that it has for the maker of the operation.

The events lead a network by the rules along, so each index is the one that the rules give there. An element that its
maker doesn't show has none; it is bound to a variable where it comes to that replica. So two goes are made: the first
finds which elements these are, since a network can make an operation by its cursor, too.
"""

import json
import re
from collections import namedtuple

from jsoncrdt.oracle.grammar import JSON_NUMBER, MOST_REPLICAS, MOST_SELECTORS, NAME_RUN, RESERVED, Scenario, read
from jsoncrdt.oracle.rules import (DOC, HEAD, LIST, MAP, Network, Stuck, change, cursor_of, element_key, index_of,
                                   make_operation,
                   name_key)
from jsoncrdt.oracle.texts import REFUSALS, Texts

TAGGED = re.compile(r"(mapT|listT)\((.*)\)", re.DOTALL)
IDENTIFIER = re.compile(r"(\d+)@(.*)", re.ASCII)
PLAIN = {True: "true", False: "false", None: "null"}
MUTATIONS = ("assign", "insert", "delete")
NAME_KIND = name_key(b"")[0]

# What is read of a line: its number, whether its event is given, the replica, whether the operation is made there or
# applied, and the operation. Of one that is applied only the identifier is needed. In a path and as the last key an
# element is the text of its identifier; the other keys are those of rules.py.
Line = namedtuple("Line", "number is_given replica is_made operation")
Logged = namedtuple("Logged", "identifier deps path last mutation", defaults=(None, None, None, None))


class NoJournal(Exception):
    """Why a text is no journal."""


class NoWay(Exception):
    """Why no scenario goes on as the journal does."""


class Number(str):
    """A number that isn't in an object, as the text of its literal."""


# ---- what is read


def key_of(text):
    if text.startswith('"'):
        return name_key(json.loads(text).encode())
    return {"doc": DOC, "head": HEAD}.get(text, text)


def tagged_of(text):
    tag, key = TAGGED.fullmatch(text).groups()
    return tag, key_of(key)


def value_of(value):
    if value in ({}, []):
        return ("map",) if value == {} else ("list",)
    if isinstance(value, (dict, Number)):
        text = (value if isinstance(value, Number) else value["n"]).encode()
        if not JSON_NUMBER.fullmatch(text):
            raise ValueError(f"{text} is no number")
        return ("number", text)
    return ("string", value.encode()) if isinstance(value, str) else (PLAIN[value],)


def cursor_in(texts):
    """The path and the last key of a cursor. It begins at the document; a map has names, a list elements and a head."""
    path, last = tuple(map(tagged_of, texts[:-1])), key_of(texts[-1])
    keys = [*(key for _, key in path), last]
    fits = [(key[0] == NAME_KIND) == (tag == MAP) for (tag, _), key in zip(path, keys[1:])]
    if keys[0] != DOC or DOC in keys[1:] or not all(fits):
        raise ValueError(f"{texts} is no cursor")
    return path, last


def logged(told, is_made):
    """The operation of a line."""
    if not is_made:
        return Logged(told["id"])
    kind = MUTATIONS[MUTATIONS.index(told["mutation"])]
    mutation = (kind,) if kind == "delete" else (kind, value_of(told["value"]))
    deps = {name: int(counter) for name, counter in told["deps"].items()} if "deps" in told else None
    return Logged(told["id"], deps, *cursor_in(told["cursor"]), mutation)


def line_of(number, text):
    """What is read of a line, the replicas that it names, and whether its event is stuck."""
    told = json.loads(text, parse_int=Number, parse_float=Number)
    names = {told[member] for member in ("replica", "from") if member in told}
    is_made = told.get("kind") == "exec"
    if "stuck" in told or not (is_made and "op" in told or told.get("kind") == "apply"):
        return None, names, "stuck" in told
    return Line(number, "given" in told, told["replica"], is_made, logged(told["op"], is_made)), names, False


class Log:
    """What is read of a journal: the lines that make or apply an operation, the names of the replicas in their order,
    and the number of the line of a stuck event, or none."""

    def __init__(self, text):
        self.lines, self.stuck, names = [], None, set()
        for number, line in enumerate(text.split("\n"), 1):
            try:
                found, named, is_stuck = line_of(number, line) if line.strip() else (None, (), False)
                names.update(name.encode() for name in named)
            except (ValueError, LookupError, TypeError, AttributeError) as error:
                raise NoJournal(f"line {number} isn't one of a journal: {error!r}") from error
            self.lines += [found] if found else []
            self.stuck = number if is_stuck else self.stuck
        self.names = sorted(names)
        for name in self.names:
            if not NAME_RUN.fullmatch(name) or name in RESERVED:
                raise NoJournal(f"a replica can't be called {name.decode()}")
        if not 0 < len(names) <= MOST_REPLICAS:
            raise NoJournal(f"it has {len(names)} replicas")


# ---- what is made of it


class Replay:
    """The scripts and events so far, and the network to which they lead. `bound` are the elements that are to be bound,
    each as a replica and a key, and `lacking` those that should have been."""

    def __init__(self, names, bound):
        self.names, self.bound, self.lacking = names, bound, set()
        self.scripts, self.given, self.schedule = [[] for _ in names], [], []
        self.network, self.at_yield = Network(2, self.scripts), set()
        self.identifiers, self.variables, self.count = {}, {}, 0
        self.vectors = [{} for _ in names]

    def scenario(self):
        return Scenario(2, self.names, self.scripts, self.given, self.schedule)

    # ---- events

    def make(self, event, is_given):
        change(self.network, event, [])
        (self.given if is_given else self.schedule).append(event)

    def execute(self, p, command, is_given):
        """The replica runs a command, behind the yield that it is at."""
        self.leave(p, is_given)
        self.network[p].left = [command]
        self.make(("exec", p), is_given)
        self.scripts[p].append(command)

    def enter(self, p):
        if p not in self.at_yield:
            self.at_yield.add(p)
            self.scripts[p].append(("yield",))
            self.network[p].left = [("yield",)]

    def leave(self, p, is_given):
        if p in self.at_yield:
            self.at_yield.remove(p)
            self.make(("done", p), is_given)

    def deliver(self, p, identifier, is_given):
        """The replica gets an operation from its maker, which offers it if it hasn't yet, and applies it."""
        q = identifier[1]
        if identifier not in self.network[q].sent:
            self.enter(q)
            self.make(("send", q), is_given)
        self.enter(p)
        if identifier not in self.network[p].received:
            self.make(("take", p, q, identifier), is_given)
        self.make(("apply", p, identifier), is_given)

    # ---- places

    def key(self, key):
        """A key as the rules have it: an element by its identifier there."""
        if isinstance(key, str) and key not in self.identifiers:
            raise NoWay(f"there is no element {key}")
        return element_key(self.identifiers[key]) if isinstance(key, str) else key

    def bind(self, p, expression, is_given):
        """A new variable of the replica that is bound to what the expression leads to."""
        self.count += 1
        self.execute(p, ("let", b"v%d" % self.count, expression), is_given)
        return ("variable", b"v%d" % self.count)

    def expression(self, p, path, last, is_given):
        """The expression that leads to a cursor at the replica, or none where it would go by an element that is neither
        shown nor bound."""
        made, selectors = ("doc",), 0
        for depth, key in enumerate([*(key for _, key in path), last][1:], 1):
            if selectors == MOST_SELECTORS:
                made, selectors = self.bind(p, made, is_given), 0
            index = index_of(self.network[p].tree, path[:depth], key) if path[depth - 1][0] == LIST else None
            if path[depth - 1][0] == MAP:
                made, selectors = ("get", made, key[1]), selectors + 1
            elif index is not None:
                made, selectors = ("idx", made, index), selectors + 1
            elif (p, key) in self.variables:
                made, selectors = self.variables[p, key], 0
            else:
                self.lacking.add((p, key))
                return None
        return made

    # ---- lines

    def follow(self, line):
        """Makes the events that do what the line says."""
        p = self.names.index(line.replica.encode())
        if line.is_made:
            self.made(p, line)
        elif line.operation.identifier not in self.identifiers:
            raise NoWay(f"{line.operation.identifier} isn't made before")
        else:
            self.deliver(p, self.identifiers[line.operation.identifier], line.is_given)
        self.arrived(p, line)

    def made(self, p, line):
        logged, replica = line.operation, self.network[p]
        if logged.identifier in self.identifiers:
            raise NoWay(f"{logged.identifier} is made already")
        if logged.deps is not None and None not in self.vectors[p] and logged.deps != self.vectors[p]:
            raise NoWay(f"{logged.identifier} depends on {logged.deps}, and {line.replica} applied {self.vectors[p]}")
        path, last = tuple((tag, self.key(key)) for tag, key in logged.path), self.key(logged.last)
        expression = self.expression(p, path, last, line.is_given)
        if expression is None:
            make_operation(replica, path, last, logged.mutation, [])
        else:
            self.execute(p, (logged.mutation[0], expression, *logged.mutation[1:]), line.is_given)
        self.identifiers[logged.identifier] = max(replica.queue)

    def arrived(self, p, line):
        """Counts an operation to what the replica has applied, and binds the element of an insert where that is due."""
        identifier = self.identifiers[line.operation.identifier]
        matched = IDENTIFIER.fullmatch(line.operation.identifier)
        counter, name = matched.groups() if matched else (0, None)
        self.vectors[p][name] = max(int(counter), self.vectors[p].get(name, 0))
        if (p, element_key(identifier)) in self.bound:
            path = self.network[identifier[1]].queue[identifier].path
            expression = self.expression(p, path, element_key(identifier), line.is_given)
            self.variables[p, element_key(identifier)] = self.bind(p, expression, line.is_given)

    def end(self):
        """The replicas leave the yields in which they did something."""
        for p in sorted(self.at_yield):
            if self.network[p].acted:
                self.leave(p, False)


def follow(log, bound):
    """The replay of a log, as far as there is one, and why it ends before the log does."""
    replay, why = Replay(log.names, bound), None
    for line in log.lines:
        try:
            replay.follow(line)
        except NoWay as reason:
            why = f"line {line.number}: {reason}"
        except Stuck as stuck:
            why = f"line {line.number}: {stuck.number} {REFUSALS[stuck.number]}"
        if why:
            break
    replay.end()
    return replay, why


def replayed(log):
    """The same with all bound that has to be."""
    replay, why = follow(log, frozenset())
    return follow(log, frozenset(replay.lacking)) if replay.lacking else (replay, why)


def text_of(replay):
    """The canonical text of the scenario, and why reading it would be refused, or none."""
    text = Texts(replay.names).scenario(replay.scenario())
    fault = read(text)[1]
    return text.decode(), fault and f"{fault[1]} {REFUSALS[fault[1]]}"
