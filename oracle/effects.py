"""What an event changed: the places at which its replica's tree differs before and after it, as docs/FORMATS.md has
them ("Effects of an event").

The two trees alone define the effects; difference.py has that definition. Here the trees are looked at only where the
operation went: at the keys of its path, at its target, below that where it clears there, and for an insert at the
element behind which it put its own. oracle/compare tries that both give the same.
"""

from .rules import LIST, MAP, REGISTER, element_key, new_content, operate
from .texts import array, object_of, string

# The tags with their words, in the order of `made`.
WORDS = {MAP: b"map", LIST: b"list", REGISTER: b"register"}
CLEARING = (("delete",), ("assign", ("map",)), ("assign", ("list",)))
NOTHING = array([])


def content(context, tagged):
    """The map or the list there, a new one where there is none yet."""
    return context.at(tagged) if context.has(tagged) else new_content(tagged[0])


def all_keys(*contexts):
    """The keys of these contexts in their order, those too that have a presence set or a link alone."""
    found = ({*context.keys(), *context.presences, *context.links} for context in contexts)
    return sorted(set().union(*found))


def target_keys(new, operation):
    """The keys whose own entries an operation may have changed where its target is. An insert changes two links."""
    key, own = operation.last, element_key(operation.identifier)
    if operation.mutation[0] != "insert":
        return [key]
    while new.links[key] != own:
        key = new.links[key]
    return sorted([key, own])


def branch(key):
    """What a key, by its text, is in: a name is in a map, an element or the head in a list."""
    return "map" if key[0] == '"' else "list"


def effect_at(effects, place):
    """What stands in the effects for a place, a list of key texts; none where nothing changed there and below."""
    found = next((effect for effect in effects if effect["key"] == place[0]), None)
    if not found or len(place) == 1:
        return found
    return effect_at(found.get(branch(place[1]), ()), place[1:])


class Since:
    """Tells the effects of an operation, where the network before it is there."""

    def __init__(self, texts, network):
        self.texts, self.network = texts, network

    def of(self, replica, operation):
        """The text of what the operation changed at the replica."""
        return self.on_path(self.network[replica.number].tree, replica.tree, operation.path, operation)

    def on_path(self, old, new, path, operation):
        """What differs in a context on the operation's way, of which this path is left."""
        if not path:
            return self.at_target(old, new, operation)
        tag, key = path[0]
        below = self.on_path(content(old, path[0]), content(new, path[0]), path[1:], operation)
        return self.places(old, new, {key: {WORDS[tag]: below}})

    def at_target(self, old, new, operation):
        """What differs in the context that the target is in. Below the target it is what was cleared."""
        keys = target_keys(new, operation)
        clears = operation.mutation in CLEARING
        return self.places(old, new, {key: self.below(old, new, key) if clears else {} for key in keys})

    def below(self, old, new, key):
        """What differs in the map and in the list of a key, however deep."""
        found = {}
        for tagged in filter(new.has, ((MAP, key), (LIST, key))):
            before, after = content(old, tagged), new.at(tagged)
            keys = {each: self.below(before, after, each) for each in all_keys(before, after)}
            found[WORDS[tagged[0]]] = self.places(before, after, keys)
        return found

    def places(self, old, new, keys):
        """The places that differ among these keys, each of which comes with what differs in its map and in its list."""
        found = []
        for key, below in keys.items():
            members = {name: text for name, text in {**self.own(old, new, key), **below}.items() if text != NOTHING}
            if members:
                found.append(object_of([(b"key", string(self.texts.key(key))), *members.items()]))
        return array(found)

    def own(self, old, new, key):
        """What differs of the key's own entries. Of what doesn't, there is an empty list or nothing."""
        was, now = (of.presences.get(key, frozenset()) for of in (old, new))
        values, others = (of.entries[REGISTER].get(key, {}).items() for of in (old, new))
        links = [self.link(of, key) for of in (old, new)]
        tags = [tag for tag in WORDS if new.has((tag, key)) and not old.has((tag, key))]
        found = {
            b"gained": self.texts.identifiers(now - was),
            b"lost": self.texts.identifiers(was - now),
            b"made": array(string(WORDS[tag]) for tag in tags),
            b"next": array(links if links[0] != links[1] else ()),
            b"taken": self.texts.pairs(values - others),
            b"written": self.texts.pairs(others - values),
        }
        return {**found, b"shown": b"true" if now else b"false"} if bool(was) != bool(now) else found

    def link(self, context, key):
        """The text of what follows the key in a list, null where it isn't linked."""
        return string(self.texts.following(context.links[key])) if key in context.links else b"null"


class Effects(Since):
    """Tells the effects of operations, each right after its replica made or applied it. The network before is one of
    its own, in whose trees an operation is made when its effects are told."""

    def of(self, replica, operation):
        text = super().of(replica, operation)
        operate(self.network[replica.number].tree, operation.path, operation, 0, [])
        return text
