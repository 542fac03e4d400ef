"""What events changed at which places of a document, by the effects in the journal of a scenario. tools/why, tools/fate
and the front end of the debugger are made of this.

A place is the tuple of the keys that lead to it, as they are written in effects: ("doc", '"items"', "3@ann", '"text"').
Its text has `/` between them.
"""

import json
import re
from collections import namedtuple

import asking  # which says where the modules below are
from jsoncrdt.oracle.effects import effect_at
from jsoncrdt.oracle.grammar import read_expression
from jsoncrdt.oracle.texts import REFUSALS, string

KEY = r'(?:"(?:[^"\\]|\\.)*"|head|\d+@[A-Za-z_][0-9A-Za-z_]*)'
PLACE = re.compile(f"doc(?:/{KEY})*")
# A tagged key of a cursor.
TAGGED = re.compile(r"(?:map|list)T\((.*)\)", re.DOTALL)
NOT_A_CURSOR = 24

# A line of the journal, a place, and what the event changed there and below, as it stands in the effects.
Change = namedtuple("Change", "line place effect")


class NoPlace(Exception):
    """Why a text leads to no place."""


# ---- the journal


class Journal:
    """What happened in the scenario of a text, which isn't refused: the lines of the events that were made, given ones
    first, that of the stuck one, if one is, and for each operation the line of the event that made it."""

    def __init__(self, text):
        self.text, self.lines = text, asking.journal_of(text, "--effects")
        blocks = asking.served().about(text, "places")
        self.names = sorted(block["name"] for block in blocks if block["kind"] == "replica")
        self.stuck = self.lines.pop() if self.lines and "stuck" in self.lines[-1] else None
        self.made = {line["op"]["id"]: line for line in self.lines if line["kind"] == "exec" and "op" in line}
        self.scheduled = [line for line in self.lines if "given" not in line]
        self.found = {}

    def places(self, text, position=None):
        """The place that a text leads to at each replica, after so many events of the schedule or after all, or why it
        leads to none there."""
        if (text, position) not in self.found:
            if PLACE.fullmatch(text):
                found = dict.fromkeys(self.names, place_of(text))
            else:
                check(text)
                found = {name: self.evaluated(text, name, position) for name in self.names}
            self.found[text, position] = found
        return self.found[text, position]

    def evaluated(self, text, name, position):
        """Where an expression leads to at a replica, after so many events of the schedule or after all, as far as they
        were made."""
        served = asking.served()
        last = len(self.lines) - served.bring(self.text)["given"]
        bound = served.told(self.text, f"eval --at {last if position is None else min(position, last)} {name} {text}")
        if "cursor" in bound:
            return tuple(tagged[1] if (tagged := TAGGED.fullmatch(key)) else key for key in bound["cursor"])
        why = bound.get("refused", {"number": NOT_A_CURSOR, "name": REFUSALS[NOT_A_CURSOR]})
        return NoPlace(f"{text} is no place at {name}: {refusal_in_words(why)}")

    def changes(self, place, name, position=None):
        """What changed at a place, or below it, at a replica, up to a position of the schedule; the newest is first. At
        what is no place nothing did."""
        lines = self.lines if position is None else self.lines[:len(self.lines) - len(self.scheduled) + position]
        for line in () if isinstance(place, NoPlace) else reversed(lines):
            found = effect_at(line.get("effects", ()), place) if line["replica"] == name else None
            if found:
                yield Change(line, place, found)

    def is_changed(self, number, name, place):
        """Whether an event of the schedule changed a place, or something below it, at a replica."""
        line = self.scheduled[number - 1]
        is_there = line["replica"] == name and not isinstance(place, NoPlace)
        return is_there and effect_at(line.get("effects", ()), place) is not None


def refusal_in_words(refusal):
    return " ".join(filter(None, [str(refusal["number"]), refusal["name"], refusal.get("key")]))


def place_of(text):
    """The place that is written so. A name may be spelt in any way of JSON."""
    try:
        return tuple(string(json.loads(key).encode()).decode() if key[0] == '"' else key
                     for key in re.findall(f"doc|{KEY}", text))
    except ValueError as error:
        raise NoPlace(f"{text} has a name that is no string of JSON") from error


def check_expression(text):
    try:
        _, fault = read_expression(text.encode())
    except UnicodeEncodeError as error:
        raise NoPlace(f"{text!a} isn't UTF-8") from error
    if fault:
        raise NoPlace(f"{text} is neither a place nor an expression: {fault[1]} {REFUSALS[fault[1]]} at {fault[0]}")


def check(text):
    """Raises NoPlace where no replica has a place for the text, whatever it has."""
    if PLACE.fullmatch(text):
        place_of(text)
    else:
        check_expression(text)


def places_at(journal, text, names, position):
    """The place that a text leads to at each of these replicas, or why there is none. Where there is none at any, the
    first cause is raised."""
    places = {name: journal.places(text, position)[name] for name in names}
    if all(isinstance(place, NoPlace) for place in places.values()):
        raise next(iter(places.values()))
    return places


def all_effects(effect, place):
    """An effect and those below it, each with its place, from above down."""
    yield place, effect
    for below in (*effect.get("map", ()), *effect.get("list", ())):
        yield from all_effects(below, (*place, below["key"]))


def line_of(members):
    """A line of JSON, its members by their names."""
    return json.dumps(members, ensure_ascii=False, separators=(",", ":"), sort_keys=True)


# ---- in words


def which(line):
    """The members that say which event a line is about."""
    return {member: line[member] for member in ("event", "given", "number", "replica") if member in line}


def text_of_place(place):
    return "/".join(place)


def text_of_value(value):
    """A value as one writes it: a number is the text of its literal."""
    return value["n"] if isinstance(value, dict) and "n" in value else json.dumps(value, ensure_ascii=False)


def text_of_event(line):
    """The event with its number, and whether it is a given one."""
    return f"{'given ' if 'given' in line else ''}event {line['number']} {line['event']}"


def text_of_stuck(line):
    """Which event is stuck, and why."""
    return f"{text_of_event(line)} is stuck: {line['stuck']} {line['cause']}"


def text_of_link(before, after):
    """How a place of a list is linked otherwise: an element that wasn't linked is put there."""
    if before is None:
        return "is put last" if after == "tail" else f"is put in front of {after}"
    return f"is followed by {after} now"


def clauses(effect):
    """What changed at a place itself, in words."""
    said = [f"loses {i} {text_of_value(value)}" for i, value in effect.get("taken", ())]
    said += [f"gets {i} {text_of_value(value)}" for i, value in effect.get("written", ())]
    said += [f"is made a {word}" for word in effect.get("made", ()) if word != "register"]
    said += [text_of_link(*effect["next"])] if "next" in effect else []
    if "shown" in effect:
        return said + ["appears" if effect["shown"] else "vanishes"]
    taken = [i for i, _ in effect.get("taken", ())]
    lost = " ".join(i for i in effect.get("lost", ()) if i not in taken)
    gained = " ".join(effect.get("gained", ()))
    if lost:
        return said + [f"is kept by {gained}, and no longer by {lost}" if gained else f"is no longer kept by {lost}"]
    is_all = not said and "map" not in effect and "list" not in effect
    return [f"is kept by {gained}, too"] if gained and is_all else said


def sentences(change):
    """What changed at a place and below it, a sentence for each place where something can be said."""
    for place, effect in all_effects(change.effect, change.place):
        said = clauses(effect)
        if said:
            yield f"{text_of_place(place)} {', '.join(said)}"


def in_words(journal, name, place, changes):
    """The changes of a place at a replica in lines, or why there is no place."""
    yield f"{name}: {place if isinstance(place, NoPlace) else text_of_place(place)}"
    for change in changes:
        made = journal.made[change.line["op"]["id"]]
        where = "" if made is change.line else f", which {text_of_event(made)} made"
        yield f"  {text_of_event(change.line)}, {change.line['op']['id']}{where}: {made['command']}"
        yield from (f"    {sentence}" for sentence in sentences(change))
    if not changes and not isinstance(place, NoPlace):
        yield "  no event changed it"
