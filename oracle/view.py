"""The document of a replica as an application sees it, in JSON.

A name of a map, or an element of a list, is there where its presence set isn't empty. What stands at a key are the
values of its register, its map and its list, these two where they are alive: where an operation whose identifier is in
the key's presence set goes on there into the map or the list, or makes it. One of these is shown as it is. More are
shown all, under the name `!conflict`; a name that begins with `!` has one `!` more, so that no document looks so.
"""

from .rules import DOC, HEAD, LIST, MAP, REGISTER, TAIL, Stuck, below, element_key
from .texts import array, string

EMPTY = {"map": MAP, "list": LIST}


def value_of(value):
    return string(value[1]) if value[0] == "string" else value[1] if value[0] == "number" else value[0].encode()


def members(pairs):
    return b"{" + b",".join(string(name) + b":" + text for name, text in pairs) + b"}"


def made_by(operation):
    """The tagged key of the map or list that an operation makes, if it makes one."""
    kind = operation.mutation[0]
    if kind == "delete" or operation.mutation[1][0] not in EMPTY:
        return None
    key = element_key(operation.identifier) if kind == "insert" else operation.last
    return (EMPTY[operation.mutation[1][0]], key)


def goes_through(operation, path, tagged):
    """Whether the operation goes on at the path into what is under the tagged key, or makes it there."""
    if operation.path[:len(path)] != path:
        return False
    following = operation.path[len(path):]
    return following[0] == tagged if following else made_by(operation) == tagged


class View:
    """What a replica's document is shown by: the texts of identifiers, and the operations by identifier."""

    def __init__(self, texts, replica):
        self.texts = texts
        self.operations = {**replica.received, **replica.queue}

    def is_alive(self, context, path, tagged):
        identifiers = context.presences.get(tagged[1], ())
        return any(goes_through(self.operations[i], path, tagged) for i in identifiers)

    def map(self, context, path):
        names = sorted(key for key, identifiers in context.presences.items() if key[0] == 2 and identifiers)
        marked = [b"!" + key[1] if key[1].startswith(b"!") else key[1] for key in names]
        return members((name, self.place(context, path, key)) for name, key in zip(marked, names))

    def list(self, context, path):
        shown, key = [], context.links[HEAD]
        while key is not TAIL:
            if context.presences.get(key):
                shown.append(self.place(context, path, key))
            key = context.links[key]
        return array(shown)

    def place(self, context, path, key):
        """What stands at the key of the context at the path."""
        parts = []
        for name, tag, shown in ((b"list", LIST, self.list), (b"map", MAP, self.map)):
            tagged = (tag, key)
            if context.has(tagged) and self.is_alive(context, path, tagged):
                parts.append((name, shown(context.at(tagged), path + (tagged,))))
        values = sorted(context.entries[REGISTER].get(key, {}).items())
        if len(values) == 1 and not parts:
            return value_of(values[0][1])
        if len(parts) == 1 and not values:
            return parts[0][1]
        if values:
            pairs = [array([string(self.texts.identifier(i)), value_of(value)]) for i, value in values]
            parts.append((b"values", array(pairs)))
        return members([(b"!conflict", members(parts))])


def context_at(tree, path):
    """The context at a path, or none."""
    try:
        return below(tree, path, "", 0, [])[0]
    except Stuck:
        return None


def line_of(texts, replica, path=(), key=DOC):
    """The line of a replica: its document, or what is at another key of it, where something is there, and its name."""
    shown, context = [(b"name", string(texts.names[replica.number]))], context_at(replica.tree, path)
    if context and context.presences.get(key):
        shown.insert(0, (b"doc", View(texts, replica).place(context, path, key)))
    return members(shown) + b"\n"
