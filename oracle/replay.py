"""A journal, made again by the engine of engine.py: operations as they are told, and no expression."""

import json

from .engine import HEAD, Operation, Refused, Replica


class NoJournal(Exception):
    """Why a text is no journal."""


def identifier_of(text):
    counter, name = text.split("@")
    return int(counter), name


def key_of(text):
    """A key of a cursor: a name, an element, the head, or none for the whole document."""
    if text.startswith('"'):
        return json.loads(text)
    return None if text == "doc" else HEAD if text == "head" else identifier_of(text)


def steps_of(cursor):
    """The steps of a cursor: the tag of each key, with the key behind it."""
    kinds = [tagged[:tagged.index("T(")] for tagged in cursor[:-1]]
    keys = [key_of(tagged[tagged.index("(") + 1:-1]) for tagged in cursor[1:-1]] + [key_of(cursor[-1])]
    return tuple(zip(kinds, keys))


def value_of(value):
    """The JSON text of a value. A number is an object with its text."""
    return value["n"] if isinstance(value, dict) and value else json.dumps(value, ensure_ascii=False)


def run_line(line, replicas):
    """Does what a line of a journal says."""
    replica = replicas[line["replica"]]
    if "stuck" in line:
        raise Refused(line["cause"])
    if line["kind"] == "exec" and "op" in line:
        made = line["op"]
        value = value_of(made["value"]) if "value" in made else None
        steps = steps_of(made["cursor"])
        replica.keep(Operation(identifier_of(made["id"]), made["deps"], steps, made["mutation"], value))
    elif line["kind"] == "send":
        replica.send()
    elif line["kind"] == "apply":
        replica.apply(identifier_of(line["op"]["id"]))
    elif line["kind"] == "recv":
        replica.receive(replicas[line["from"]])
    elif line["kind"] == "take":
        for one in line["new"]:
            replica.receive(replicas[line["from"]], identifier_of(one))


def run_lines(lines, fault):
    """The lines of documents, and whether an event is stuck; none of documents where it is a given one."""
    names = {line[member] for line in lines for member in ("replica", "from") if member in line}
    replicas = {name: Replica(name, fault) for name in sorted(names)}
    is_stuck = is_given = False
    try:
        for line in lines:
            is_given = "given" in line
            run_line(line, replicas)
    except Refused:
        is_stuck = True
    return [replica.line() for replica in replicas.values() if not (is_stuck and is_given)], is_stuck


def of_journal(text, fault=None):
    """What the engine gives for a journal: the lines of documents, and whether an event is stuck."""
    try:
        return run_lines([json.loads(line) for line in text.splitlines()], fault)
    except (ValueError, LookupError, TypeError, AttributeError) as error:
        raise NoJournal(repr(error)) from error
