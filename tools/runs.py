"""The run of a scenario, event by event: the lines of its journal, with rules and effects, and the states of the
replicas where it begins. From these the effects lead to the tree at each position, forwards and back, so no other one
is asked for.

One numbering goes through given events and those of the schedule, so positions of the former can be told too. The
program is asked through its `serve`. As long as it has none it is asked by `journal` and by `debug`, once each, for a
scenario in which given events stand in front of those of the schedule.
"""

import functools
import json
import os
from collections import namedtuple

from asking import asked, is_in_python, journal_of, program, session

# The lines of the events before a position and of those behind it, and the state of each replica there; and for each
# event behind it that bound a variable, by its index, its replica's state then.
Run = namedtuple("Run", "before lines states bound")


def one_schedule(scenario, count):
    """The text of the scenario with its first events, given ones too, as its schedule."""
    lines = [f"jsoncrdt {scenario.version}"]
    for name, script in scenario.scripts.items():
        lines += [f"replica {name} {{", *(f"  {command};" for command in script), "}"]
    events = (scenario.given + scenario.events)[:count]
    return "\n".join([*lines, "schedule {", *(f"  {event};" for event in events), "}", ""])


def lines_of(text):
    """The lines of JSON in a text, which are those that begin with a brace."""
    return [json.loads(line) for line in text.split("\n") if line.startswith("{")]


def binds(line):
    """Whether the event's command bound a variable: it made no operation."""
    return line["kind"] == "exec" and "stuck" not in line and "op" not in line


def bindings(lines):
    """The indices of the events that bound a variable."""
    return [index for index, line in enumerate(lines) if binds(line)]


def run_of(scenario, first, count):
    """The run of so many first events of the scenario, given ones too, told from the position `first` on. Where an
    event before that is stuck there are no states."""
    return (run_served if asked() else run_by_commands)(scenario, first, count)


def run_served(scenario, first, count):
    given, ask = len(scenario.given), functools.partial(asked().about, scenario.text)
    journal = ask(f"journal --trace --effects {-given} {min(count - given, len(scenario.events))}")
    for line in journal:
        line["number"] += 0 if line.pop("given", False) else given
    before, lines = journal[:first], journal[first:]
    if before and "stuck" in before[-1]:
        return Run(before, lines, [], {})
    start = first - given
    bound = {index: ask(f"brief --at {start + index + 1} {lines[index]['replica']}") for index in bindings(lines)}
    return Run(before, lines, ask(f"state --at {start}"), bound)


def run_by_commands(scenario, first, count):
    text = one_schedule(scenario, count)
    journal = journal_of(text, "--trace", "--effects")
    before, lines = journal[:first], journal[first:]
    if before and "stuck" in before[-1]:
        return Run(before, lines, [], {})
    binding = bindings(lines)
    asked_lines = [f"goto {first}", "state"]
    for index in binding:
        asked_lines += [f"goto {first + index + 1}", f"state {lines[index]['replica']}"]
    states, replicas = lines_of(session(text, asked_lines)), len(scenario.scripts)
    return Run(before, lines, states[:replicas], dict(zip(binding, states[replicas:])))


def told_by():
    """Who tells of runs, in words. A page may be sent to somebody, so where the program is isn't said."""
    return "the rules in Python, of which nothing is proved" if is_in_python() else os.path.basename(program())
