"""What became of each operation at each replica, by the effects in the journal of a scenario (changes.py).

A fate is an object. Its member `fate` is one of these, and other members say more:

not received  nothing brought the operation
received      it isn't applied; `waits` has those that it depends on and that aren't applied
applied       it is a delete; `took` has those of which it took something away
visible       what it put at its place is in the document; `conflict` has those that put something else there
hidden        what it put there is kept, and no document shows it, as at the head of a list
overwritten   an assignment took it away, the operation `by`, at the event that the other members name
deleted       a delete did. In both, `kept` has those for which the place stays in the document all the same
"""

from collections import defaultdict

from changes import all_effects, text_of_event, which
from jsoncrdt.oracle.effects import branch

GOES_ON = {"mapT": "map", "listT": "list"}


def order(identifier):
    """Identifiers rise by counter, then by the bytes of the replica's name."""
    counter, name = identifier.split("@")
    return int(counter), name.encode()


class Way:
    """The way of an operation: the keys of its place, and for each the part of it that it goes on into, a map
    or a list. The last part is what it puts at its place, a map, a list or one of its values; a delete puts none."""

    def __init__(self, operation):
        *path, last = operation["cursor"]
        tags, keys = zip(*(tagged[:-1].split("(", 1) for tagged in path)) if path else ((), ())
        self.place = (*keys, operation["id"] if operation["mutation"] == "insert" else last)
        self.parts = [*map(GOES_ON.get, tags), self.put(operation)]

    @staticmethod
    def put(operation):
        if "value" not in operation:
            return None
        return "map" if operation["value"] == {} else "list" if operation["value"] == [] else "values"


class State:
    """What a replica has at the end: what it received and applied, and of each place the operations in its presence set
    and those in its register, with the lines at which others went from there."""

    def __init__(self, journal, ways, name):
        self.journal, self.ways = journal, ways
        self.received, self.applied = set(), {}
        self.present, self.values = defaultdict(set), defaultdict(set)
        self.lost, self.taken, self.found = {}, {}, {}
        for line in journal.lines:
            if line["replica"] == name:
                self.add(line)

    def add(self, line):
        if line["kind"] in ("recv", "take"):
            self.received.update(line["new"])
        if "op" in line:
            self.applied[line["op"]["id"]] = line
        for effect in line.get("effects", ()):
            for place, changed in all_effects(effect, (effect["key"],)):
                self.change(place, changed, line)

    def change(self, place, effect, line):
        lost, taken = effect.get("lost", ()), [i for i, _ in effect.get("taken", ())]
        self.present[place].update(effect.get("gained", ()))
        self.present[place].difference_update(lost)
        self.values[place].update(i for i, _ in effect.get("written", ()))
        self.values[place].difference_update(taken)
        self.lost.update({(place, i): line for i in lost})
        self.taken.update({(place, i): line for i in taken})

    def parts(self, place):
        """What is at a place: its values, its map and its list, each with the operations for which it is there."""
        if place not in self.found:
            parts = {"map": set(), "list": set(), "values": set(), None: set()}
            for identifier in self.present[place]:
                parts[self.ways[identifier].parts[len(place) - 1]].add(identifier)
            self.found[place] = {**parts, "values": self.values[place]}
        return self.found[place]

    def is_shown(self, place):
        """Whether the document shows a place: it and all on the way to it are there, and none is the head of a list."""
        goes_on = all(self.parts(place[:depth])[branch(place[depth])] for depth in range(1, len(place)))
        return goes_on and "head" not in place and bool(self.present[place])

    # ---- fates

    def fate(self, identifier):
        if identifier not in self.applied:
            return self.fate_before(identifier)
        way = self.ways[identifier]
        if way.parts[-1] is None:
            return {"fate": "applied", "took": self.taken_at(self.applied[identifier])}
        line = (self.taken if way.parts[-1] == "values" else self.lost).get((way.place, identifier))
        if line:
            return self.fate_after(identifier, way.place, line)
        if not self.is_shown(way.place):
            return {"fate": "hidden"}
        others = set().union(*(ids for part, ids in self.parts(way.place).items() if part != way.parts[-1]))
        others |= self.values[way.place] - {identifier} if way.parts[-1] == "values" else set()
        return {"fate": "visible", **({"conflict": sorted(others, key=order)} if others else {})}

    def fate_before(self, identifier):
        if identifier not in self.received:
            return {"fate": "not received"}
        deps = self.journal.made[identifier]["op"]["deps"]
        known = [i for i in self.journal.made if order(i)[0] <= deps.get(i.split("@")[1], 0)]
        return {"fate": "received", "waits": sorted({*known} - self.applied.keys(), key=order)}

    def fate_after(self, identifier, place, line):
        """The fate where the event of this line took away what the operation had put at its place."""
        kept = self.present[place] if self.lost.get((place, identifier)) is line and self.is_shown(place) else ()
        fate = "deleted" if line["op"]["mutation"] == "delete" else "overwritten"
        found = {"fate": fate, "by": line["op"]["id"], **which(line)}
        return {**found, "kept": sorted(kept, key=order)} if kept else found

    @staticmethod
    def taken_at(line):
        """The operations that an event took out of presence sets and registers."""
        effects = [effect for top in line["effects"] for _, effect in all_effects(top, ())]
        taken = {i for effect in effects for i in (*effect.get("lost", ()), *(i for i, _ in effect.get("taken", ())))}
        return sorted(taken, key=order)


def fates(journal):
    """For each operation, in the order in which they were made, its fate at each replica."""
    ways = {identifier: Way(line["op"]) for identifier, line in journal.made.items()}
    states = {name: State(journal, ways, name) for name in journal.names}
    for identifier, way in ways.items():
        yield identifier, way.place, {name: state.fate(identifier) for name, state in states.items()}


# ---- in words


def in_words(journal, identifier, found):
    """The fates of an operation in lines."""
    made = journal.made[identifier]
    yield f"{identifier}, {text_of_event(made)}: {made['command']}"
    for name, fate in found.items():
        yield f"  {name}: {words_of(fate, journal)}"


def words_of(fate, journal):
    kind = fate["fate"]
    if kind == "received":
        return "received, waits for " + " ".join(fate["waits"]) if fate["waits"] else "received, can be applied"
    if kind == "applied":
        took = "took away " + " ".join(fate["took"]) if fate["took"] else "there was nothing to take away"
        return f"applied, {took}"
    if kind == "visible":
        return "visible" + (", in conflict with " + " ".join(fate["conflict"]) if "conflict" in fate else "")
    if kind == "hidden":
        return "kept, and no document shows it"
    if kind == "not received":
        return kind
    command = journal.made[fate["by"]]["command"]
    kept = "; its place is kept for " + " ".join(fate["kept"]) if "kept" in fate else ""
    return f"{kind} by {fate['by']} ({command}) at {text_of_event(fate)}{kept}"
