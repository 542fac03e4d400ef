"""Whether an engine agrees with itself: replicas that have applied the same operations must show the same document.
What a replica has applied is read off the events, so no rules are needed."""

import json

from judging import NOTHING, STUCK, difference
from jsoncrdt.oracle.grammar import read

MAKERS = ("assign", "insert", "delete")


class Applied:
    """The identifiers of the operations that each replica has applied after some events."""

    def __init__(self, scenario):
        self.left = [list(script) for script in scenario.scripts]
        self.of = [set() for _ in scenario.names]

    def add(self, event):
        kind, replica = event[:2]
        if kind == "apply":
            self.of[replica].add(event[-1])
        elif kind in ("exec", "done"):
            command = self.left[replica].pop(0)
            if command[0] in MAKERS:
                counter = 1 + max((counter for counter, _ in self.of[replica]), default=0)
                self.of[replica].add((counter, replica))


def applied(scenario, is_stuck):
    """What each replica has applied at the end, by its name. An event that is stuck is the last one, and isn't made."""
    events = scenario.given + scenario.schedule
    found = Applied(scenario)
    for event in events[:len(events) - is_stuck]:
        found.add(event)
    return {name.decode(): sorted(identifiers) for name, identifiers in zip(scenario.names, found.of)}


def divergence(text, is_stuck, status, lines):
    """Two replicas that have applied the same operations and show other documents, or none. The lines are values.

    An adapter that goes on where the rules are stuck may have made that event, so its replica isn't compared."""
    scenario, first = read(text)[0], {}
    of = applied(scenario, is_stuck)
    if is_stuck and status != STUCK:
        del of[scenario.names[(scenario.given + scenario.schedule)[-1][1]].decode()]
    for line in lines:
        if line["name"] not in of:
            continue
        same = first.setdefault(json.dumps(of[line["name"]]), line)
        if difference(same.get("doc", NOTHING), line.get("doc", NOTHING)):
            return same["name"], line["name"]
    return None
