"""What a page of a run holds, packed for the page's script (page_parts/model.js). All of it is what the program tells;
nothing is reckoned by the rules here."""

import itertools

from changes import all_effects
from jsoncrdt.oracle.difference import Order, difference

MOST_RULES = 2000


def count_same(pairs):
    """How many of the pairs, from the first on, are of two equal things."""
    return sum(1 for _ in itertools.takewhile(lambda pair: pair[0] == pair[1], pairs))


class Rules:
    """The rules and the traces that events have, each trace once, with numbers for both. A trace is three numbers for
    each run of one rule that goes down in equal steps: the rule, the step from the depth before, and how many they are.
    """

    def __init__(self):
        self.numbers, self.traces = {}, {}

    def packed(self, rules):
        runs, depth = [], 0
        for below, name in rules[:MOST_RULES]:
            rule, step, depth = self.numbers.setdefault(name, len(self.numbers)), below - depth, below
            if runs and runs[-3] == rule and runs[-2] == step:
                runs[-1] += 1
            else:
                runs += [rule, step, 1]
        return tuple(runs)

    def number(self, rules):
        """The number of the trace, which is that of its first rules where it is a long one."""
        return self.traces.setdefault(self.packed(rules), len(self.traces))


def takes_away(effects):
    """Whether something was taken out of a presence set or a register."""
    return any("lost" in effect or "taken" in effect for top in effects for _, effect in all_effects(top, ()))


class Recording:
    """The events of a run as a page has them, the operations that they made, and the events before them that took
    something away.

    An event has the number of its replica `r`, its kind `k`, its text `e` and the number of its trace `t`; where it has
    them, its command `c`, the sender `f`, the new identifiers `n`, the operation `o`, the effects `x`, what it bound
    `v`, and how many `more` rules it used than are in its trace.
    """

    def __init__(self, run, names, rules):
        self.rules, self.number = rules, {name: number for number, name in enumerate(names)}
        self.operations, self.earlier, self.events, self.stuck = [], [], [], None
        self.done = dict.fromkeys(names, 0)
        self.variables = {state["name"]: state["vars"] for state in run.states}
        order = Order(names)
        self.states = [self.packed_state(state, order) for state in run.states]
        for line in run.before:
            self.add_earlier(line)
        for index, line in enumerate(run.lines):
            self.add(line, run.bound.get(index))

    @staticmethod
    def packed_state(state, order):
        """The state where the page begins; its tree as the effects that lead there from an empty one."""
        packed = {name: state[name] for name in ("acted", "left", "ops", "recv", "send", "vars")}
        return {**packed, "effects": difference({}, state["tree"], order)}

    def keep(self, line):
        """Keeps the operation that the event made, and that its command is done."""
        operation = line.get("op")
        if operation and line["kind"] == "exec":
            self.operations.append({**operation, "command": self.done[line["replica"]], "number": line["number"]})
        self.done[line["replica"]] += line["kind"] in ("exec", "done")

    def add_earlier(self, line):
        self.keep(line)
        if takes_away(line.get("effects", ())):
            self.earlier.append([self.number[line["replica"]], line["op"]["id"], line["effects"]])

    def add(self, line, state):
        name = line["replica"]
        if "stuck" in line:
            self.stuck = {**line, "r": self.number[name]}
            return
        event = {"r": self.number[name], "k": line["kind"], "e": line["event"]}
        event |= {"c": self.done[name] if "command" in line else None, "f": self.number.get(line.get("from"))}
        event |= {"n": line.get("new"), "o": line["op"]["id"] if "op" in line else None, "x": line.get("effects")}
        event |= {"v": self.new_variables(state) if state else None, "t": self.rules.number(line["rules"])}
        event["more"] = max(0, len(line["rules"]) - MOST_RULES) or None
        self.keep(line)
        self.events.append({name: member for name, member in event.items() if member is not None})

    def new_variables(self, state):
        """What the event bound, as in the state behind it."""
        old, self.variables[state["name"]] = self.variables[state["name"]], state["vars"]
        return {name: bound for name, bound in state["vars"].items() if old.get(name) != bound}


def data_of(run, scenario, first, label, rules):
    """The data of a run from its position `first` on."""
    recording = Recording(run, list(scenario.scripts), rules)
    made = first + len(recording.events) + (recording.stuck is not None)
    return {"label": label, "given": len(scenario.given), "first": first, "states": recording.states,
            "events": recording.events, "operations": recording.operations, "earlier": recording.earlier,
            "stuck": recording.stuck, "done": recording.done,
            "more": len(scenario.given) + len(scenario.events) - made}


def scripts_of(scenario, runs):
    """Of each script how many commands it has, and those that are executed in one of the runs, with the next one."""
    done = {name: max(told["done"][name] for told in runs) for name in scenario.scripts}
    return [{"count": len(script), "commands": script[:done[name] + 1]} for name, script in scenario.scripts.items()]
