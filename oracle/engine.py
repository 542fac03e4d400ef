"""A small engine for JSON documents that several replicas edit, to try the scenarios of kit/ with.

It is written from the published algorithm, and isn't rules.py again: a document is a tree of places, operations go
down it by steps, what an operation depends on is a version vector, and a list is an array of identifiers. It keeps no
trace.

A place is what is at a key: values by identifier, a map, a list. A step is ("map", name) or ("list", element), an
element being an identifier (counter, replica) or HEAD; the steps of `doc` are none. A value is its JSON text.
"""

import collections
import json

HEAD = "head"
LONGEST_PATH = 512
EVERYTHING = None

FAULTS = {
    "delete-wins": "a delete takes away what its maker didn't know, too",
    "rising": "of elements behind one and the same, the least identifier comes first",
    "arrival": "of elements behind one and the same, the one that came last comes first",
    "forgets": "a send offers what is new, and no longer what was offered before",
    "last-writer": "an assignment takes away values that its maker didn't know, too",
    "shallow": "a delete, or an assignment of {} or [], takes nothing away below its place",
    "unlinks": "an element that was deleted is taken out of its list",
    "stays-deleted": "an edit doesn't bring back the maps and lists on the way to it",
    "one-type": "a value takes away the map and the list under its key",
    "impatient": "an operation is applied before those that it depends on",
}

Operation = collections.namedtuple("Operation", "identifier known steps kind value")


class Refused(Exception):
    """What can't be done."""


def covers(known, identifier):
    """Whether a version vector has the identifier; EVERYTHING has each."""
    return known is EVERYTHING or identifier[0] <= known.get(identifier[1], 0)


class Map:
    def __init__(self):
        self.places = collections.defaultdict(Place)

    def there(self):
        return [name for name in sorted(self.places) if self.places[name].is_there()]


class List:
    """Its order has deleted elements, too, and begins with the head."""

    def __init__(self):
        self.places, self.order = collections.defaultdict(Place), [HEAD]

    def there(self):
        return [element for element in self.order[1:] if self.places[element].is_there()]

    def insert(self, behind, identifier, fault):
        """Puts an element behind another, and behind those there that are greater."""
        at = self.order.index(behind) + 1 if behind in self.order else len(self.order)
        while fault != "arrival" and at < len(self.order) and (self.order[at] > identifier) != (fault == "rising"):
            at += 1
        self.order.insert(at, identifier)

    def drop(self, element):
        if element != HEAD and not self.places[element].is_there():
            self.order.remove(element)


class Place:
    """What is at a key. A map or a list is there as long as an operation keeps it; before the first one it is none."""

    def __init__(self):
        self.values, self.content = None, {"map": None, "list": None}
        self.keepers = {"map": set(), "list": set()}

    def is_there(self):
        return bool(self.values or self.keepers["map"] or self.keepers["list"])

    def clear(self, known, is_shallow=False):
        """Takes away what the known operations did here and below."""
        self.values = self.values and {i: value for i, value in self.values.items() if not covers(known, i)}
        for kind, content in self.content.items():
            self.keepers[kind] = {i for i in self.keepers[kind] if not covers(known, i)}
            for place in content.places.values() if content and not is_shallow else ():
                place.clear(known)

    def text(self):
        """The place in the form of `view`."""
        parts = {}
        if self.keepers["list"]:
            elements = self.content["list"]
            parts["list"] = "[" + ",".join(elements.places[i].text() for i in elements.there()) + "]"
        if self.keepers["map"]:
            entries = self.content["map"]
            members = (string("!" + n if n[:1] == "!" else n) + ":" + entries.places[n].text() for n in entries.there())
            parts["map"] = "{" + ",".join(members) + "}"
        values = sorted((self.values or {}).items())
        if len(values) + len(parts) == 1:
            return next(iter(parts.values()), values and values[0][1])
        if values:
            parts["values"] = "[" + ",".join(f'["{i[0]}@{i[1]}",{value}]' for i, value in values) + "]"
        return '{"!conflict":{' + ",".join(f'"{name}":{text}' for name, text in parts.items()) + "}}"


def string(text):
    return json.dumps(text, ensure_ascii=False)


def inside(place, kind):
    """The map or the list of a place, which must be there or have been."""
    if place.content[kind] is None:
        raise Refused(f"no {kind}")
    return place.content[kind]


class Document:
    def __init__(self, fault):
        self.root, self.fault = Place(), fault

    def place(self, steps):
        """The place at the end of the steps. The maps and lists on the way must be there or have been."""
        place = self.root
        for kind, key in steps:
            place = inside(place, kind).places.get(key) or Place()
        return place

    def content(self, steps, kind):
        return inside(self.place(steps), kind)

    def values(self, steps):
        values = self.place(steps).values
        if values is None:
            raise Refused("no values")
        return sorted(values.items())

    def go(self, place, operation, kind):
        """The map or the list of a place on the operation's way. It is made where it wasn't, and is there after it."""
        content = place.content[kind]
        if operation.kind != "delete" and not (content and self.fault == "stays-deleted"):
            place.keepers[kind].add(operation.identifier)
        if content is None:
            content = place.content[kind] = Map() if kind == "map" else List()
        return content

    def apply(self, operation):
        place, content, key = self.root, None, None
        for kind, key in operation.steps:
            content = self.go(place, operation, kind)
            place = content.places[key]
        if operation.kind == "insert":
            content.insert(key, operation.identifier, self.fault)
            place = content.places[operation.identifier]
        if operation.kind == "delete":
            place.clear(EVERYTHING if self.fault == "delete-wins" else operation.known, self.fault == "shallow")
            if self.fault == "unlinks" and isinstance(content, List) and key in content.order:
                content.drop(key)
        else:
            self.assign(place, operation)

    def assign(self, place, operation):
        kind = {"{}": "map", "[]": "list"}.get(operation.value)
        if kind:
            place.clear(operation.known, self.fault == "shallow")
            self.go(place, operation, kind)
            return
        if self.fault == "one-type":
            place.clear(operation.known)
        known = EVERYTHING if self.fault == "last-writer" else operation.known
        kept = {i: value for i, value in (place.values or {}).items() if not covers(known, i)}
        place.values = {**kept, operation.identifier: operation.value}


class Replica:
    """A document, the version vector of the operations applied to it, and those made, offered and received."""

    def __init__(self, name, fault):
        self.name, self.fault, self.document = name, fault, Document(fault)
        self.applied, self.made, self.offered, self.received, self.old = {}, {}, {}, {}, {}

    def make(self, steps, kind, value):
        counter = max(self.applied.values(), default=0) + 1
        self.keep(Operation((counter, self.name), dict(self.applied), steps, kind, value))

    def keep(self, operation):
        """Applies an operation of its own."""
        self.document.apply(operation)
        self.made[operation.identifier] = operation
        self.applied[self.name] = operation.identifier[0]

    def send(self):
        self.offered = {i: o for i, o in self.made.items() if i not in self.old}
        if self.fault == "forgets":
            self.old |= self.offered

    def receive(self, sender, identifier=None):
        """Receives all that the sender offers, or one operation of it."""
        if identifier and identifier not in sender.offered:
            raise Refused("not offered")
        self.received.update({i: o for i, o in sender.offered.items() if identifier in (None, i)})

    def apply(self, identifier):
        operation = self.received.get(identifier)
        if not operation or covers(self.applied, identifier):
            raise Refused("not received, or applied already")
        lacking = [name for name, counter in operation.known.items() if not covers(self.applied, (counter, name))]
        if lacking and self.fault != "impatient":
            raise Refused("what it depends on isn't applied")
        self.document.apply(operation)
        self.applied[identifier[1]] = max(identifier[0], self.applied.get(identifier[1], 0))

    def line(self):
        document = f'"doc":{self.document.root.text()},' if self.document.root.is_there() else ""
        return f'{{{document}"name":{string(self.name)}}}\n'
