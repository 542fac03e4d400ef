"""The journal of a scenario: JSON Lines, an object for each event that is made, and last one for an event that is
stuck.

Members stand by their names, texts are those of dumps. Each object has `event`, the event's text; `kind`, its word;
`number`, from 1; `replica`, its name. Given events come first and have `"given":true` and numbers of their own.

`exec` has `command`, and where it made an operation `op`; `apply` has `op`. `recv` and `take` have `from`, the sender;
they and `send` have `new`, the identifiers that came to `send` or `recv` by the event. An operation has `id`, `cursor`,
`mutation`, `value` where it doesn't delete, and `deps` as a version vector: each replica's greatest counter among the
operations that it depends on. Where they are asked for, `effects` beside an `op` are the places that the event changed
(effects.py), and `rules` the rules of the event with their depths.

An event that is stuck has `stuck` and `cause`, the refusal's number and name; for 25 `key`, the tagged key that is
missing; for 34 `offered`, the replicas that send the operation; for 36 `missing`, the operations that it depends on
and that the replica has not applied.
"""

import copy
import functools
import itertools

from .effects import Effects
from .rules import Network, Stuck, change
from .texts import REFUSALS, array, object_of, string

EMPTY = {"map": b"{}", "list": b"[]"}


class Journal:
    """Writes lines. `effects`, where they are asked for, tells what an operation changed (effects.py)."""

    def __init__(self, texts, traced, effects=None):
        self.texts, self.traced, self.effects = texts, traced, effects

    def vector(self, identifiers):
        """The version vector of a set of identifiers."""
        greatest = {}
        for counter, replica in sorted(identifiers):
            greatest[self.texts.names[replica]] = b"%d" % counter
        return object_of(greatest.items())

    def operation(self, operation):
        cursor = [*map(self.texts.tagged, operation.path), self.texts.key(operation.last)]
        members = {
            b"cursor": array(map(string, cursor)),
            b"deps": self.vector(operation.deps),
            b"id": string(self.texts.identifier(operation.identifier)),
            b"mutation": string(operation.mutation[0].encode()),
        }
        if operation.mutation[0] != "delete":
            value = operation.mutation[1]
            members[b"value"] = EMPTY.get(value[0]) or self.texts.value(value)
        return object_of(members.items())

    def common(self, number, event, given):
        members = {
            b"event": string(self.texts.event(event)),
            b"kind": string(event[0].encode()),
            b"number": b"%d" % number,
            b"replica": string(self.texts.names[event[1]]),
        }
        return {**members, b"given": b"true"} if given else members

    def what(self, event, before, replica):
        """What the event ran, made, applied, sent or received; `before` is what the replica had of it."""
        if event[0] == "exec":
            made = [replica.queue[i] for i in replica.queue.keys() - before]
            command = {b"command": string(self.texts.command(before.command))}
            return {**command, **self.changed(replica, made[0])} if made else command
        if event[0] == "apply":
            return self.changed(replica, replica.received[event[2]])
        if event[0] == "done":
            return {}
        came = (replica.sent if event[0] == "send" else replica.received).keys() - before
        sender = {b"from": string(self.texts.names[event[2]])} if event[0] != "send" else {}
        return {b"new": self.texts.identifiers(came), **sender}

    def changed(self, replica, operation):
        """The operation that the replica has just made or applied, and what it changed there."""
        members = {b"op": self.operation(operation)}
        return {**members, b"effects": self.effects.of(replica, operation)} if self.effects else members

    def made(self, number, event, before, replica, trace, given):
        """The line of an event that was made."""
        members = {**self.common(number, event, given), **self.what(event, before, replica)}
        if self.traced:
            members[b"rules"] = rules_of(trace)
        return object_of(members.items()) + b"\n"

    def stuck(self, number, event, network, stuck, given):
        """The line of an event that is stuck in the network."""
        members = self.common(number, event, given)
        members[b"cause"] = string(REFUSALS[stuck.number].encode())
        members[b"stuck"] = b"%d" % stuck.number
        replica, identifier = network[event[1]], event[-1]
        if stuck.number == 25:
            members[b"key"] = string(self.texts.tagged(stuck.key))
        elif stuck.number == 34:
            senders = [self.texts.names[other.number] for other in network if identifier in other.sent]
            members[b"offered"] = array(map(string, senders))
        elif stuck.number == 36:
            members[b"missing"] = self.texts.identifiers(replica.received[identifier].deps - replica.applied)
        return object_of(members.items()) + b"\n"


@functools.cache
def rule_at(depth, rule):
    return array([b"%d" % depth, string(rule.encode())])


def rules_of(trace):
    """The rules of an event, each with its depth."""
    return array(itertools.starmap(rule_at, trace))


class Before(frozenset):
    """The identifiers of what an event may add to, and the command that is next."""

    def __new__(cls, event, replica):
        of = {"exec": replica.queue, "send": replica.sent, "recv": replica.received, "take": replica.received}
        before = super().__new__(cls, of.get(event[0], ()))
        before.command = replica.left[0] if replica.left else None
        return before


def numbered(scenario):
    """The events with their numbers, and whether each is given."""
    yield from ((number, event, True) for number, event in enumerate(scenario.given, 1))
    yield from ((number, event, False) for number, event in enumerate(scenario.schedule, 1))


def executed(events, network, journal):
    """Makes each of the numbered events in the network, and gives its line and its replica; of the one that is stuck
    the line alone."""
    for number, event, given in events:
        before, trace = Before(event, network[event[1]]), []
        try:
            change(network, event, trace)
        except Stuck as stuck:
            yield journal.stuck(number, event, network, stuck, given), None
            return
        yield journal.made(number, event, before, network[event[1]], trace, given), network[event[1]]


def lines_of(events, network, texts, flags):
    """The lines of numbered events, which are made in the network, with what the flags of the command line ask for, and
    the replica of each; of the one that is stuck the line alone."""
    effects = Effects(texts, copy.deepcopy(network)) if "--effects" in flags else None
    yield from executed(events, network, Journal(texts, "--trace" in flags, effects))


def write_journal(scenario, texts, flags, out):
    """Writes the journal, and gives the status."""
    network = Network(scenario.version, scenario.scripts)
    for line, replica in lines_of(numbered(scenario), network, texts, flags):
        out.write(line)
        if replica is None:
            return 3
    return 0
