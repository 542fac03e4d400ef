"""The effects of an event by their definition (docs/FORMATS.md, "Effects of an event"): the difference of two dumped
trees, place by place. No operation and no rule occurs in it. effects.py, which looks where the operation went, is tried
beside it."""

import json

from .rules import Network, Stuck, change
from .texts import Texts

# What a dumped context calls the contents of a key, and the words for them, in the order of `made`.
TAGS = {"mapT": "map", "listT": "list", "regT": "register"}
NEW = {"mapT": {}, "listT": {"next(head)": "tail"}}


class Order:
    """The order of identifiers and of keys, as they are written, by the names of the replicas."""

    def __init__(self, names):
        self.names = names

    def identifier(self, text):
        counter, name = text.split("@")
        return int(counter), self.names.index(name)

    def key(self, text):
        """doc, head, names by their bytes, identifiers."""
        if text.startswith('"'):
            return 2, json.loads(text).encode()
        return (3, self.identifier(text)) if "@" in text else (["doc", "head"].index(text),)


def by_key(context):
    """The entries of a dumped context: of each key the contents by their kinds."""
    found = {}
    for name, content in context.items():
        kind, key = name.split("(", 1)
        found.setdefault(key[:-1], {})[kind] = content
    return found


def own(old, new, order):
    """What differs of one key's own entries. Where nothing does, that is an empty list. A set that is missing is as an
    empty one."""
    was, now = ({*entries.get("pres", ())} for entries in (old, new))
    values, others = (entries.get("regT", {}) for entries in (old, new))
    links = [entries.get("next") for entries in (old, new)]
    if any(tag in old and tag not in new for tag in TAGS):
        raise ValueError(f"{old} has what {new} hasn't: no effect says that")

    def pairs(one, other):
        return [[i, one[i]] for i in sorted(one, key=order.identifier) if i not in other or one[i] != other[i]]

    return {
        "gained": sorted(now - was, key=order.identifier),
        "lost": sorted(was - now, key=order.identifier),
        "made": [word for tag, word in TAGS.items() if tag in new and tag not in old],
        "next": links if links[0] != links[1] else [],
        "shown": [] if bool(was) == bool(now) else bool(now),
        "taken": pairs(values, others),
        "written": pairs(others, values),
    }


def difference(before, after, order):
    """The places at which two dumped contexts differ, by key; what is in a key's map or list stands in its place."""
    old, new = by_key(before), by_key(after)
    places = []
    for key in sorted({*old, *new}, key=order.key):
        was, now = old.get(key, {}), new.get(key, {})
        found = own(was, now, order)
        for kind in NEW:
            inside = [entries.get(kind, NEW[kind]) for entries in (was, now)]
            found[TAGS[kind]] = difference(*inside, order) if kind in now else []
        found = {member: content for member, content in found.items() if content != []}
        if found:
            places.append(dict(sorted({"key": key, **found}.items())))
    return places


def effects(scenario):
    """For each event that makes or applies an operation, given ones first, the difference of its replica's tree."""
    texts, network = Texts(scenario.names), Network(scenario.version, scenario.scripts)
    order = Order([name.decode() for name in scenario.names])
    for event in scenario.given + scenario.schedule:
        replica = network[event[1]]
        count, before = len(replica.applied), texts.context(replica.tree)
        try:
            change(network, event, [])
        except Stuck:
            return
        if len(replica.applied) > count:
            yield difference(json.loads(before), json.loads(texts.context(replica.tree)), order)


def with_effects(journal, scenario):
    """The text of the scenario's journal with the effects in its lines."""
    found, lines = effects(scenario), []
    for line in map(json.loads, journal.splitlines()):
        if "op" in line:
            line["effects"] = next(found)
        lines.append(json.dumps(dict(sorted(line.items())), separators=(",", ":"), ensure_ascii=False) + "\n")
    return "".join(lines).encode()
