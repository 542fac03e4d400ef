"""Scenarios, executed by the small engine of engine.py: scripts are run by editors, each with a replica."""

from .engine import HEAD, LONGEST_PATH, Refused, Replica
from .texts import Texts


class Editor:
    """A replica with the script that is left of it, and its variables."""

    def __init__(self, name, script, fault):
        self.replica, self.left, self.has_acted, self.variables = Replica(name, fault), list(script), False, {}

    def steps(self, expression):
        """The steps to the place that an expression leads to."""
        bound = self.bound(expression)
        if not isinstance(bound, tuple):
            raise Refused("no place")
        return bound

    def bound(self, expression):
        """What an expression gives: steps as a tuple, names or values as a list."""
        kind = expression[0]
        if kind == "doc":
            return ()
        if kind == "variable":
            if expression[1] not in self.variables:
                raise Refused("unbound")
            return self.variables[expression[1]]
        steps, document = self.steps(expression[1]), self.replica.document
        if kind == "keys":
            return document.content(steps, "map").there()
        if kind == "values":
            return document.values(steps)
        if len(steps) >= LONGEST_PATH or kind == "get" and steps[-1:] == (("list", HEAD),):
            raise Refused("too deep, or behind the head")
        if kind == "get":
            return steps + (("map", expression[2].decode()),)
        elements = [HEAD, *document.content(steps, "list").there()]
        if expression[2] >= len(elements):
            raise Refused("past the end")
        return steps + (("list", elements[expression[2]]),)

    def execute(self):
        """Runs the next command."""
        command = self.left[0]
        if command[0] == "yield":
            raise Refused("at a yield")
        if command[0] == "let":
            self.variables[command[1]] = self.bound(command[2])
        else:
            steps = self.steps(command[1])
            if command[0] == "insert" and (not steps or steps[-1][0] != "list"):
                raise Refused("not in a list")
            value = Texts(()).literal(command[2]).decode() if command[0] != "delete" else None
            self.replica.make(steps, command[0], value)
        del self.left[0]

    def take_part(self, event, editors, identifier):
        """An event of a yield."""
        if self.left[0][0] != "yield":
            raise Refused("not at a yield")
        if event[0] == "done":
            if not self.has_acted:
                raise Refused("nothing was done")
            del self.left[0]
        elif event[0] == "send":
            self.replica.send()
        elif event[0] == "apply":
            self.replica.apply(identifier)
        else:
            self.replica.receive(editors[event[2]].replica, identifier)
        self.has_acted = event[0] != "done"


def run_events(events, editors):
    """Makes the events up to the first that is stuck, and gives whether one is."""
    for event in events:
        editor = editors[event[1]]
        identifier = (event[-1][0], editors[event[-1][1]].replica.name) if event[0] in ("take", "apply") else None
        try:
            if not editor.left:
                raise Refused("the script has ended")
            if event[0] == "exec":
                editor.execute()
            else:
                editor.take_part(event, editors, identifier)
        except Refused:
            return True
    return False


def of_scenario(scenario, fault=None):
    """What the engine gives for a scenario: its lines, and whether an event is stuck. None where it is a given one."""
    editors = [Editor(name.decode(), script, fault) for name, script in zip(scenario.names, scenario.scripts)]
    if run_events(scenario.given, editors):
        return [], True
    is_stuck = run_events(scenario.schedule, editors)
    return [editor.replica.line() for editor in editors], is_stuck
