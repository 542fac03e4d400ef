"""The woven scenarios of the kit: random scripts of a number, a schedule that `weave` draws from a seed, and what is
left when the scenario is made smaller as long as it shows the same.

The scripts are made of the commands of oracle/compare, with words of an editor. Each replica runs a few commands
between two yields, and a yield is last. All draws are words of the generator of `weave`, so the same numbers make the
same scenario on any machine.
"""

import collections
import copy
import importlib.machinery
import importlib.util
import os
import re
import sys

from judging import HERE, by_rules

sys.path.append(os.path.join(os.path.dirname(HERE), "tools"))

from jsoncrdt.oracle.editors import of_scenario
from jsoncrdt.oracle.grammar import Scenario, read
from jsoncrdt.oracle.rules import Stuck, change, execute, start
from jsoncrdt.oracle.texts import Texts
from jsoncrdt.oracle.weave import Loom, words


def loaded(path):
    """The module that a script without the ending of one is."""
    name = path.replace("/", "_")
    loader = importlib.machinery.SourceFileLoader(name, os.path.join(os.path.dirname(HERE), path))
    module = importlib.util.module_from_spec(importlib.util.spec_from_loader(name, loader))
    loader.exec_module(module)
    return module


Maker = loaded("oracle/compare").Maker
shrink = loaded("tools/shrink")

NAMES = [b"desk", b"phone", b"tablet"]
# What stands in a scenario for the names, strings and variables of oracle/compare.
WORDS = {b"a": b"shopping", b"b": b"note", b"": b"title", b"a1": b"done", b"doc": b"tags", b"\x01": b"color",
         b"x": b"item", b"y": b"place", b"xs": b"all"}
STRINGS = [b"milk", b"eggs", b"bread", b"tea", b"salt", b"oat milk"]
MOST_EVENTS, MOST_TRIES = 400, 40


class Draws:
    """The draws of random.Random that oracle/compare makes, by the words of a seed."""

    def __init__(self, seed):
        self.words = words(seed)

    def random(self):
        return next(self.words) / 2 ** 32

    def randrange(self, count):
        return next(self.words) % count

    def choice(self, items):
        return items[self.randrange(len(items))]

    def choices(self, items, weights):
        left = self.random() * sum(weights)
        for item, weight in zip(items, weights):
            left -= weight
            if left < 0:
                return [item]
        return [items[-1]]


def renamed(tree):
    """A command with the words of an editor."""
    if isinstance(tree, tuple):
        return tree if tree[0] in ("string", "number") else tuple(map(renamed, tree))
    return WORDS.get(tree, b"size") if isinstance(tree, bytes) else tree


class Writer(Maker):
    """Writes scripts, of which most commands can be run where each yield is an exchange of all. Those of an even number
    are of version 2, and something is given."""

    def __init__(self, number):
        self.random = Draws(number)
        self.names = NAMES[:self.random.choice([2, 2, 3])]
        self.network = start(Scenario(2, self.names, [[] for _ in self.names], [], []))
        self.scripts, self.given, self.version = [[] for _ in self.names], [], 2 - number % 2

    def base(self):
        """Where a path begins: mostly in the list or the map of the first replica, or what others make there."""
        document = ("doc",)
        shopping, note = ("get", document, b"a"), ("get", document, b"b")
        item = ("idx", shopping, self.random.choice([1, 1, 2]))
        return self.random.choice([document, shopping, shopping, note, note, item, item, ("variable", b"x")])

    def value(self):
        of = self.random.choice
        return of([("string", of(STRINGS)), ("string", of(STRINGS)), ("number", of([b"1", b"2"])), ("true",), ("map",),
                   ("list",)])

    def runnable(self, replica):
        """A command that the replica can run."""
        for _ in range(MOST_TRIES):
            made, trial = renamed(self.command()), copy.deepcopy(replica)
            trial.left = [made]
            try:
                execute(trial, [])
            except Stuck:
                continue
            return made
        return ("let", b"item", ("doc",))

    def run(self, p, command):
        self.scripts[p].append(command)
        self.network[p].left = [command]
        change(self.network, ("exec", p), [])

    def exchange(self):
        """All offer what they made, and all apply it."""
        for script, replica in zip(self.scripts, self.network):
            script.append(("yield",))
            replica.left = [("yield",)]
            change(self.network, ("send", replica.number), [])
        for replica in self.network:
            for other in self.network:
                replica.received.update(other.sent)
            for identifier in sorted(replica.received.keys() - replica.applied):
                change(self.network, ("apply", replica.number, identifier), [])

    def begin(self):
        """What all know before position 0: a list and a map of the first replica."""
        shopping, note = ("get", ("doc",), b"shopping"), ("get", ("doc",), b"note")
        self.run(0, ("assign", shopping, ("list",)))
        for number, item in enumerate((b"milk", b"eggs")):
            self.run(0, ("insert", ("idx", shopping, number), ("string", item)))
        self.run(0, ("assign", ("get", note, b"title"), ("string", b"Trip")))
        self.exchange()
        operations = sorted(self.network[0].queue)
        self.given = [("exec", 0)] * len(operations) + [("send", 0), ("done", 0)]
        for p in range(1, len(self.names)):
            self.given += [("recv", p, 0)] + [("apply", p, i) for i in operations] + [("done", p)]

    def scenario(self):
        if self.version == 2:
            self.begin()
        for _ in range(self.random.choice([1, 2, 2, 3])):
            for p, replica in enumerate(self.network):
                for _ in range(self.random.choice([1, 2, 2, 3])):
                    self.run(p, self.runnable(replica))
            self.exchange()
        return Scenario(self.version, self.names, self.scripts, self.given, [])


def woven(number, seed, writer=Writer):
    """The scenario of the scripts with this number, with the schedule of the seed; none where a replica is stuck."""
    scenario = writer(number).scenario()
    loom = Loom(scenario, seed)
    while len(loom.schedule) < MOST_EVENTS and loom.turn():
        pass
    if any(stuck for stuck, _ in loom.left.values()) or len(loom.left) < len(scenario.names):
        return None
    return scenario._replace(schedule=loom.schedule)


# ---- made smaller

# A scenario as tools/shrink takes it.
Parts = collections.namedtuple("Parts", "version scripts given events")


def parts_of(scenario):
    texts = Texts(scenario.names)
    scripts = {name.decode(): [texts.command(command).decode() for command in script]
               for name, script in zip(scenario.names, scenario.scripts)}
    lists = ([texts.event(event).decode() for event in events] for events in (scenario.given, scenario.schedule))
    return Parts(scenario.version, scripts, *lists)


def documents(text):
    """The documents at the end, with the makers of values alone, since counters follow what is left out."""
    return re.sub(rb'"\d+@(\w+)"', rb'"\1"', by_rules(["view"], text)[0])


class Shrinking(shrink.Shrinking):
    """Makes a scenario smaller as long as it ends with the same documents by the rules, and with others by the engine
    of oracle/adapter with a fault."""

    def __init__(self, scenario, fault):
        self.fault, self.documents = fault, documents(Texts(scenario.names).scenario(scenario))
        super().__init__(parts_of(scenario), None)

    def status_of(self, text):
        return by_rules(["run"], text.encode())[1]

    def is_found(self, text):
        return documents(text.encode()) == self.documents and shows(text.encode(), self.fault)


def shows(text, fault):
    """Whether the engine with the fault ends otherwise."""
    scenario = read(text)[0]
    return of_scenario(scenario, fault) != of_scenario(scenario)


def shrunk(number, seed, fault):
    """The text of the scenario that is left, or none where the scripts end stuck or the fault isn't seen."""
    scenario = woven(number, seed)
    if not scenario or not shows(Texts(scenario.names).scenario(scenario), fault):
        return None
    shrinking = Shrinking(scenario, fault)
    shrinking.smallest()
    return shrinking.text(shrinking.piece, shrinking.names)
