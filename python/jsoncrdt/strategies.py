"""Strategies of Hypothesis for scenarios.

`scenarios` and `woven` give texts that are never refused, in which no event is stuck: each command is one of those
that the rules in Python allow its replica where it runs. `stuck` gives scenarios whose last event no rule allows. All
edit few places, so that edits meet, and shrink to few steps. A step is drawn as numbers, which choose among what can be
done where it is made; so a step can be left out and those behind it stay."""

import copy

from hypothesis import strategies as st

from .answers import Identifier
from .machines import Rules
from .oracle.rules import DOC, HEAD, LIST, MAP, TAIL, Stuck, candidates, execute, is_enabled, name_key
from .oracle.texts import Texts
from .scenario import Place, Scenario, command_of, doc

NAMES, KEYS, DEEPEST = ("p", "q", "r"), ("a", "b"), 3
VALUES = (0, "x", "y", 1, True, None, [], {})

# What all know before, or nothing.
PASTS = (
    (),
    (doc["a"].assign([]), doc["a"][0].insert_after("x"), doc["a"][1].insert_after("y")),
    (doc["a"]["a"].assign(1), doc["a"]["b"].assign(2)),
    (doc["a"].assign([]), doc["a"][0].insert_after({}), doc["a"][1]["a"].assign("x")),
)


# ---- what a replica can do


def edits_below(context, key, place, depth):
    """The edits in the map and in the list of a key. Near the top a map needn't be there: an edit makes it."""
    has_map = context.has((MAP, key))
    inner = context.at((MAP, key)) if has_map else None
    for name in KEYS if depth < DEEPEST and (has_map or depth < 2) else ():
        below, own = place.get(name), name_key(name.encode())
        yield below.assign
        if inner and inner.presences.get(own):
            yield lambda _, below=below: below.delete()
        yield from edits_below(inner, own, below, depth + 1) if inner else ()
    if context.has((LIST, key)) and depth < DEEPEST:
        yield from edits_in_list(context.at((LIST, key)), place, depth)


def edits_in_list(context, place, depth):
    """The edits behind the head of a list, at its elements and below these."""
    yield place.idx(0).insert_after
    index, key = 0, context.links[HEAD]
    while key is not TAIL:
        if context.presences.get(key):
            index += 1
            element = place.idx(index)
            yield from (element.insert_after, lambda _, element=element: element.delete(), element.assign)
            yield from edits_below(context, key, element, depth + 1)
        key = context.links[key]


def edit(scenario, name, choice, value):
    """One of the edits that the replica can make."""
    found = list(edits_below(scenario.replica(name).tree, DOC, doc, 0))
    scenario.do(name, found[choice % len(found)](value))


def exchange(scenario, name, choice, _):
    """An exchange of all, or of two: both ways, one way, or of one operation."""
    others = [other for other in scenario.names if other != name]
    rest, number = divmod(choice, len(others))
    rest, way = divmod(rest, 4)
    if way == 0:
        scenario.sync()
    elif way == 1:
        scenario.sync(name, others[number])
    elif way == 2:
        scenario.deliver(name, others[number])
    else:
        pass_one(scenario, name, others[number], rest)


def pass_one(scenario, sender, name, choice):
    """One of the operations that the sender made comes to the replica, which applies it if it can."""
    scenario.send(sender).done(sender)
    new = sorted(scenario.replica(sender).sent.keys() - scenario.replica(name).received.keys())
    if new:
        counter, _ = new[choice % len(new)]
        scenario.take(name, sender, Identifier(counter, sender)).apply(name).done(name)


steps = st.tuples(st.sampled_from((edit, edit, edit, exchange)), st.integers(0, len(NAMES) - 1), st.integers(0, 255),
                  st.sampled_from(VALUES))


# ---- what a replica can't do


def can_run(replica, command):
    trial = copy.deepcopy(replica)
    trial.left = [command_of(command)]
    try:
        execute(trial, [])
    except Stuck:
        return False
    return True


def wrong_commands(replica):
    """Commands of which each is stuck at some replicas, here those that are stuck at this one."""
    places = (doc, doc["a"], doc["b"], doc["a"]["a"], doc["a"].idx(1))
    forms = ([place.insert_after("x"), place.idx(9).assign("x"), place.idx(0).get("a").assign("x"),
              place.keys().let("n"), place.values().let("n")] for place in places)
    return [one for form in forms for one in form if not can_run(replica, one)] + [Place("n").assign("x")]


def wrong_events(scenario, name):
    """The events, as texts, that the replica may not make here."""
    network, texts = scenario.network(), Texts(scenario.parsed.names)
    found = [event for event in candidates(network, scenario.names.index(name)) if not is_enabled(network, event)]
    return [texts.event(event).decode() for event in sorted(found)]


# ---- scenarios


@st.composite
def begun(draw, most):
    """A scenario in which so many steps at most were made."""
    scenario = Scenario(*NAMES[:draw(st.sampled_from((2, 3)))])
    if past := draw(st.sampled_from(PASTS)):
        scenario.do(scenario.names[0], *past).sync().past()
    for step, number, choice, value in draw(st.lists(steps, max_size=most)):
        step(scenario, scenario.names[number % len(scenario.names)], choice, value)
    return scenario


@st.composite
def scenarios(draw, most=12):
    """Edits and exchanges, and at the end an exchange of all."""
    return draw(begun(most)).sync()


@st.composite
def woven(draw, most=12):
    """The scripts of such a scenario with a schedule that is drawn from a seed, by the rules in Python."""
    scenario = draw(scenarios(most))
    return scenario.weave(draw(st.integers(0, 2 ** 16)), by=Rules()).scenario


@st.composite
def stuck(draw, most=12):
    """Edits and exchanges, then an event that no rule allows: one in an exchange, or that of a command."""
    scenario = draw(begun(most))
    name, sender, *_ = draw(st.permutations(scenario.names))
    if draw(st.booleans()):
        wrong = draw(st.sampled_from(wrong_commands(scenario.replica(name))))
        return scenario.script(name, wrong).event(f"{name}.exec")
    scenario.send(sender).recv(name, sender)
    return scenario.event(draw(st.sampled_from(wrong_events(scenario, name))))


__all__ = ["scenarios", "stuck", "woven"]
