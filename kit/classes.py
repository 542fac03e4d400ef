"""The classes of differences between the documents that the rules give and those of an engine: by how they look, not by
what caused them. An engine of other rules differs in many scenarios, and in few ways.

A value is one that `view` prints, with `!conflict` where there is more than one thing at a place."""

import collections
import functools

CLASSES = {
    "same": "the same",
    "one-value": "one thing where the rules keep several",
    "order": "the order of elements alone",
    "order-and-one-value": "both of these",
    "less": "shows less: an edit or an insert is lost, or a delete wins",
    "more": "shows more: a delete is lost, or an edit wins",
    "other": "anything else that is shown; with --dumps and --effects any difference",
    "lines": "another number of lines, or other names",
    "status": "stuck where no event is, or not where a given one is",
    "crash": "it died, was too slow, or wrote no JSON",
    "diverged": "replicas with the same operations show other documents (--converge)",
}
CONFLICT = "!conflict"

# In what the engine may differ and is still alike: it may have one alternative of a conflict; lists may have another
# order; one side, "rules" or "engine", may lack names, elements and alternatives that the other one shows.
Leave = collections.namedtuple("Leave", "picks reorders lacking", defaults=(False, False, None))

# What is left to the engine in each class, in the order in which they are asked. Documents in `less` and `more` may
# differ in the order and in conflicts, too.
LEFT = {
    "same": Leave(),
    "one-value": Leave(picks=True),
    "order": Leave(reorders=True),
    "order-and-one-value": Leave(picks=True, reorders=True),
    "less": Leave(True, True, "engine"),
    "more": Leave(True, True, "rules"),
}


def is_accepted(kind, accepted):
    """Whether these classes take in this one: who accepts the order and one value accepts both at once."""
    return kind in accepted or kind == "order-and-one-value" and {"order", "one-value"} <= {*accepted}


def class_of(rules, engine):
    """The class of the difference between the lines of documents of the rules and of an engine, as values."""
    names = [[line.get("name") if isinstance(line, dict) else None for line in lines] for lines in (rules, engine)]
    if names[0] != names[1]:
        return "lines"
    pairs = list(zip(rules, engine))
    return next((kind for kind, leave in LEFT.items() if all(are_alike(*pair, leave) for pair in pairs)), "other")


def alternatives(value):
    """What is at a place beside one another, where that is more than one thing."""
    if not isinstance(value, dict) or value.keys() != {CONFLICT}:
        return []
    parts = value[CONFLICT]
    return [pair[1] for pair in parts.get("values", ())] + [parts[kind] for kind in ("map", "list") if kind in parts]


def are_alike(rules, engine, leave):
    """Whether two values are alike but for what is left to the engine."""
    if leave.picks and any(are_alike(one, engine, leave) for one in alternatives(rules)):
        return True
    if leave.lacking == "rules" and any(are_alike(rules, one, leave) for one in alternatives(engine)):
        return True
    if isinstance(rules, dict) and isinstance(engine, dict):
        return have_like_members(rules, engine, leave)
    if isinstance(rules, list) and isinstance(engine, list):
        return have_like_elements(rules, engine, leave)
    return type(rules) is type(engine) and rules == engine


def have_like_members(rules, engine, leave):
    rest = {"engine": engine.keys() - rules.keys(), "rules": rules.keys() - engine.keys(),
            None: rules.keys() ^ engine.keys()}[leave.lacking]
    return not rest and all(are_alike(rules[name], engine[name], leave) for name in rules.keys() & engine.keys())


def have_like_elements(rules, engine, leave):
    if not leave.lacking and len(rules) != len(engine):
        return False
    if not leave.reorders:
        return all(are_alike(*pair, leave) for pair in zip(rules, engine))
    if leave.lacking == "rules":
        return can_pair(rules, engine, lambda one, other: are_alike(one, other, leave))
    return can_pair(engine, rules, lambda one, other: are_alike(other, one, leave))


def can_pair(few, many, fits):
    """Whether each of the few can have one of the many that it fits, each another one: by augmenting paths."""
    taken, is_fit = {}, functools.cache(lambda number, other: fits(few[number], many[other]))

    def pair(number, tried):
        """Finds one for this element: a free one, or one whose element can have another one."""
        for other in sorted(range(len(many)), key=taken.__contains__):
            if other in tried or not is_fit(number, other):
                continue
            tried.add(other)
            if other not in taken or pair(taken[other], tried):
                taken[other] = number
                return True
        return False

    return len(few) <= len(many) and all(pair(number, set()) for number in range(len(few)))
