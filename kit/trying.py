"""What a worker of kit/campaign does: it makes scenarios of case numbers, runs an adapter over them, and compares with
the rules. All that comes of it follows from its arguments, so any process on any machine with this checkout gives the
same."""

import collections
import functools
import glob
import hashlib
import os
import random
import sys

from judging import (HERE, MOST_FRAMES, STUCK, Ended, bring, class_of_fault, lines_in, rules, run_adapter, told_of,
                     view_fault)
from jsoncrdt import choosing
from jsoncrdt.oracle.grammar import read
from jsoncrdt.oracle.program import made
from jsoncrdt.oracle.rules import GivenStuck, Stuck, change, start
from jsoncrdt.oracle.texts import REFUSALS, Texts
from jsoncrdt.oracle.view import line_of
from jsoncrdt.oracle.weave import woven
from jsoncrdt.serving import Here
from weaving import MOST_EVENTS, Maker, Writer, loaded, parts_of, renamed, shrink

# Of 20 cases one after another 12 are `woven`, random scripts with the schedules of seeds, and 8 are `bent`, such a
# scenario with a command or an event changed, so that many are stuck. They have their scripts in common, since to make
# scripts takes longer than to run them. The last of 100 is `wild`: any commands and events.
CASES_OF_SCRIPTS, WOVEN, CASES_OF_WILD = 20, 12, 100
WITH_COMMAND = 0.4

# How an adapter is run: the words of a command, or PATH:FUNCTION, which is called with the text and the words, and
# gives the output and the status. It gets the journal in place of the scenario where that is asked for.
Adapter = collections.namedtuple("Adapter", "words function is_journal")
# What came of a case: its number and kind, the class of the difference, what is wrong, how many events it has, and how
# often each rule was used and each refusal met.
Row = collections.namedtuple("Row", "number kind difference fault events met")


def kind_of(number):
    if number % CASES_OF_WILD == CASES_OF_WILD - 1:
        return "wild"
    return "woven" if number % CASES_OF_SCRIPTS < WOVEN else "bent"


@functools.lru_cache(maxsize=4)
def scripts_of(number):
    return Writer(number).scenario()


def scenario_of(number):
    """The scenario of a case."""
    scripts, seed = divmod(number, CASES_OF_SCRIPTS)
    if kind_of(number) == "wild":
        return Maker(number).scenario()
    scenario = scripts_of(scripts)
    if kind_of(number) == "woven":
        return scenario._replace(schedule=woven(scenario, seed, MOST_EVENTS).schedule)
    draw = random.Random(number)
    return (with_command if draw.random() < WITH_COMMAND else with_event)(scenario, seed, draw)


def with_command(scenario, seed, draw):
    """The scenario with one command more, any one, woven; where a replica ends stuck, so does the schedule."""
    maker = Maker(draw.getrandbits(32))
    scripts = [list(script) for script in scenario.scripts]
    script = draw.choice(scripts)
    script.insert(draw.randrange(len(script) + 1), renamed(maker.command()))
    changed = scenario._replace(scripts=scripts)
    try:
        loom = woven(changed, seed, MOST_EVENTS)
    except GivenStuck:
        return changed
    stuck = [event for _, (stuck, event) in sorted(loom.left.items()) if stuck]
    return changed._replace(schedule=loom.schedule + stuck[:1])


def with_event(scenario, seed, draw):
    """The woven scenario with an event too few, too many, later or other, or with operations taken one by one."""
    schedule = woven(scenario, seed, MOST_EVENTS).schedule
    lists = [list(scenario.given), list(schedule)]
    events = lists[1] if not lists[0] or draw.random() < 0.7 else lists[0]
    bends = [drop, repeat, delay, add] + [take] * 2 * (scenario.version == 2)
    draw.choice(bends)(events, len(scenario.names), draw)
    return scenario._replace(given=lists[0], schedule=lists[1])


def drop(events, _, draw):
    if events:
        del events[draw.randrange(len(events))]


def repeat(events, _, draw):
    if events:
        events.insert(draw.randrange(len(events) + 1), draw.choice(events))


def delay(events, _, draw):
    if events:
        events.append(events.pop(draw.randrange(len(events))))


def add(events, count, draw):
    kind, replica, other = draw.choice(["exec", "send", "done", "recv", "apply"]), *draw.choices(range(count), k=2)
    last = {"recv": (other,), "apply": ((draw.randint(1, 6), other),)}.get(kind, ())
    events.insert(draw.randrange(len(events) + 1), (kind, replica, *last))


def take(events, _, draw):
    """In place of a receipt the operations that are applied next are taken from the same replica, in any order."""
    receipts = [n for n, event in enumerate(events) if event[0] == "recv"]
    if not receipts:
        return
    place = draw.choice(receipts)
    _, replica, sender = events[place]
    own = [event for event in events[place + 1:] if event[1] == replica]
    ends = [n for n, event in enumerate(own) if event[0] in ("recv", "done")] or [len(own)]
    taken = [("take", replica, sender, event[2]) for event in own[:ends[0]] if event[0] == "apply"]
    draw.shuffle(taken)
    events[place:place + 1] = taken


# ---- what the rules and the adapter give


def by_rules(text):
    """The lines of `view`, the status, and how often each rule was used by an event of the schedule, and each refusal
    met. In this process that isn't asked through `serve`: to write what happened and read it again would take twice as
    long as to execute it."""
    return by_rules_here(read(text)[0]) if isinstance(rules(), Here) else by_program(text)


def by_program(text):
    answering, counts = bring(text)
    if "stuck" in counts:
        return b"", STUCK, collections.Counter(["44 GivenStuck", name_of(counts["stuck"])])
    journal = answering.ask(f"journal --trace 0 {counts['events']}")
    stuck = [line for line in journal[-1:] if "stuck" in line]
    met = collections.Counter(rule for line in journal[:len(journal) - len(stuck)] for _, rule in line["rules"])
    met.update(map(name_of, stuck))
    view = lines_in(answering, f"view --at {len(journal) - len(stuck)}")
    return b"".join(view), STUCK * len(stuck), met


def name_of(line):
    """What refused the event of a journal's line."""
    return f"{line['stuck']} {line['cause']}"


def by_rules_here(scenario):
    met, texts, count = collections.Counter(), Texts(scenario.names), len(scenario.schedule)
    try:
        network = start(scenario)
    except GivenStuck as given:
        met.update(["44 GivenStuck", refusal_of(given.stuck)])
        return b"", STUCK, met
    for number, event in enumerate(scenario.schedule):
        trace = []
        try:
            change(network, event, trace)
        except Stuck as stuck:
            met[refusal_of(stuck)] += 1
            network, count = made(scenario, scenario.schedule[:number])[0], number
            break
        met.update(rule for _, rule in trace)
    return b"".join(line_of(texts, replica) for replica in network), STUCK * (count < len(scenario.schedule)), met


def refusal_of(stuck):
    return f"{stuck.number} {REFUSALS[stuck.number]}"


@functools.cache
def function_of(name):
    """The function that PATH:FUNCTION names, of a file in Python."""
    path, _, function = name.rpartition(":")
    return getattr(loaded(os.path.abspath(path)), function)


def ended_of(adapter, given):
    """How the adapter ends for what it is given."""
    if not adapter.function:
        return run_adapter(adapter.words, given)
    try:
        output, status = function_of(adapter.function)(given, *adapter.words)
    except Exception as error:  # an engine that is tried may raise anything
        return Ended(1, b"", repr(error).encode(), None)
    return Ended(status, output, b"", None)


def judged(text, adapter):
    """The class of the difference, what is wrong, where something is, and the rules and refusals that were met."""
    view, status, met = by_rules(text)
    given = text
    if adapter.is_journal:
        given, view, status = told_of(text, True)
    ended = ended_of(adapter, given)
    fault = view_fault(view, status, ended)
    return class_of_fault(view, status, ended) if fault else "same", fault, met


def text_of(number):
    return printed(scenario_of(number))


def printed(scenario):
    return Texts(scenario.names).scenario(scenario)


def try_cases(numbers, adapter):
    """The rows of some cases, by an adapter as a plain tuple, which a worker can have before it has this module."""
    sys.setrecursionlimit(MOST_FRAMES)
    rows, adapter = [], Adapter(*adapter)
    for number in numbers:
        scenario = scenario_of(number)
        difference, fault, met = judged(printed(scenario), adapter)
        rows.append(Row(number, kind_of(number), difference, fault, len(scenario.schedule), dict(met)))
    return rows


class Shrinking(shrink.Shrinking):
    """Makes a scenario smaller as long as the adapter differs in the same class."""

    def __init__(self, number, difference, adapter):
        self.difference, self.adapter = difference, adapter
        super().__init__(parts_of(scenario_of(number)), None)

    def status_of(self, text):
        return told_of(text.encode(), False)[2]

    def is_found(self, text):
        return judged(text.encode(), self.adapter)[0] == self.difference


def shrunk(number, difference, adapter):
    """The text that is left of a case, what is wrong with it, and how many were tried."""
    sys.setrecursionlimit(MOST_FRAMES)
    adapter = Adapter(*adapter)
    shrinking = Shrinking(number, difference, adapter)
    shrinking.smallest()
    text = shrinking.text(shrinking.piece, shrinking.names).encode()
    return text, judged(text, adapter)[1], shrinking.tries


@functools.cache
def sources():
    """A sum of what decides on the results: the rules, the program that is asked for them, the making of scenarios, and
    how adapters are judged."""
    root = os.path.dirname(HERE)
    files = [*glob.glob(f"{root}/oracle/*"), *glob.glob(f"{HERE}/*.py"), f"{root}/tools/shrink",
             f"{root}/tools/asking.py", f"{root}/python/jsoncrdt/serving.py", choosing.program() or ""]
    found = hashlib.sha256()
    for path in sorted(filter(os.path.isfile, files)):
        with open(path, "rb") as file:
            found.update(file.read())
    return found.hexdigest()[:32]
