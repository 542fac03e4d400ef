"""The rules of docs/RULES.md once more, to compare the program with.

It was written from the rules alone and shares nothing with the program: contexts are dictionaries, sets are sets of
identifiers, and an event is made on a copy of its replica. Each function that makes or asks something appends the rules
that it uses to a trace, each with its depth, and raises Stuck where a numbered condition fails.

A key is a tuple that sorts as keys do: DOC, HEAD, (2, name), (3, identifier). An identifier is (counter, replica), a
tagged key (tag, key). An expression is a tuple of its kind and parts, a value ("string", bytes), ("number", text),
("true",), ("false",), ("null",), ("map",) or ("list",).
"""

import copy

DOC = (0,)
HEAD = (1,)
TAIL = None
MAP, LIST, REGISTER = "mapT", "listT", "regT"
LONGEST_PATH = 512


def name_key(name):
    return (2, name)


def element_key(identifier):
    return (3, identifier)


class Stuck(Exception):
    """A numbered condition that fails, for 25 with the tagged key."""

    def __init__(self, number, key=None):
        super().__init__(number)
        self.number = number
        self.key = key


class GivenStuck(Exception):
    """The first given event that is stuck, its number from 1, and why."""

    def __init__(self, number, event, stuck):
        super().__init__(number)
        self.number, self.event, self.stuck = number, event, stuck


class Context:
    def __init__(self):
        self.entries = {MAP: {}, LIST: {}, REGISTER: {}}
        self.presences = {}
        self.links = {}

    def has(self, tagged):
        return tagged[1] in self.entries[tagged[0]]

    def at(self, tagged):
        return self.entries[tagged[0]][tagged[1]]

    def put(self, tagged, content):
        self.entries[tagged[0]][tagged[1]] = content

    def keys(self):
        return set().union(*self.entries.values())

    def __deepcopy__(self, memo):
        copied = Context()
        for tag in (MAP, LIST):
            copied.entries[tag] = {key: copy.deepcopy(content, memo) for key, content in self.entries[tag].items()}
        copied.entries[REGISTER] = {key: dict(values) for key, values in self.entries[REGISTER].items()}
        copied.presences, copied.links = dict(self.presences), dict(self.links)
        return copied


class Operation:
    """An operation, which nothing changes: copies of replicas share it."""

    def __init__(self, identifier, deps, path, last, mutation):
        self.identifier = identifier
        self.deps = deps
        self.path = path
        self.last = last
        self.mutation = mutation

    def __deepcopy__(self, _memo):
        return self


class Replica:
    """The state of a replica: its script is what is left of it at first."""

    def __init__(self, number, script):
        self.number = number
        self.left = list(script)
        self.acted = False
        self.variables = {}
        self.tree = Context()
        self.applied = set()
        self.queue = {}
        self.sent = {}
        self.received = {}

    def __deepcopy__(self, memo):
        copied = copy.copy(self)
        copied.left, copied.variables, copied.applied = list(self.left), dict(self.variables), set(self.applied)
        copied.queue, copied.sent, copied.received = dict(self.queue), dict(self.sent), dict(self.received)
        copied.tree = copy.deepcopy(self.tree, memo)
        return copied


class Network(list):
    """The replicas by their numbers, and the version of the scenario."""

    def __init__(self, version, scripts):
        super().__init__(Replica(number, script) for number, script in enumerate(scripts))
        self.version = version


def new_content(tag):
    if tag == REGISTER:
        return {}
    content = Context()
    if tag == LIST:
        content.links[HEAD] = TAIL
    return content


# ---- presence sets and clearing: what is changed is the context, what is given the identifiers that stay


def presence(context, key, depth, trace):
    if key in context.presences:
        trace.append((depth, "PRESENCE1"))
        return context.presences[key]
    trace.append((depth, "PRESENCE2"))
    return frozenset()


def clear(context, deps, tagged, depth, trace):
    if not context.has(tagged):
        trace.append((depth, "CLEAR-NONE"))
        return frozenset()
    if tagged[0] == REGISTER:
        trace.append((depth, "CLEAR-REG"))
        kept = {i: value for i, value in context.at(tagged).items() if i not in deps}
        context.put(tagged, kept)
        return frozenset(kept)
    if tagged[0] == MAP:
        trace.append((depth, "CLEAR-MAP1"))
        return clear_map(context.at(tagged), deps, frozenset(), depth + 1, trace)
    trace.append((depth, "CLEAR-LIST1"))
    return clear_list(context.at(tagged), deps, HEAD, depth + 1, trace)


def clear_map(context, deps, done, depth, trace):
    left = context.keys() - done
    if not left:
        trace.append((depth, "CLEAR-MAP3"))
        return frozenset()
    trace.append((depth, "CLEAR-MAP2"))
    key = min(left)
    stay = clear_element(context, deps, key, depth + 1, trace)
    return stay | clear_map(context, deps, done | {key}, depth + 1, trace)


def clear_list(context, deps, key, depth, trace):
    if key is TAIL:
        trace.append((depth, "CLEAR-LIST3"))
        return frozenset()
    trace.append((depth, "CLEAR-LIST2"))
    following = context.links[key]
    stay = clear_element(context, deps, key, depth + 1, trace)
    return stay | clear_list(context, deps, following, depth + 1, trace)


def clear_element(context, deps, key, depth, trace):
    trace.append((depth, "CLEAR-ELEM"))
    trace.append((depth + 1, "CLEAR-ANY"))
    stay = frozenset()
    for tag in (MAP, LIST, REGISTER):
        stay |= clear(context, deps, (tag, key), depth + 2, trace)
    stay = (stay | presence(context, key, depth + 1, trace)) - deps
    context.presences[key] = stay
    return stay


# ---- operations


def child(context, tagged, depth, trace):
    if context.has(tagged):
        trace.append((depth, "CHILD-GET"))
        return context.at(tagged)
    trace.append((depth, {MAP: "CHILD-MAP", LIST: "CHILD-LIST", REGISTER: "CHILD-REG"}[tagged[0]]))
    return new_content(tagged[0])


def add_identifier(context, key, operation, depth, trace):
    if operation.mutation[0] == "delete":
        trace.append((depth, "ADD-ID2"))
        return
    trace.append((depth, "ADD-ID1"))
    context.presences[key] = presence(context, key, depth + 1, trace) | {operation.identifier}


def assign(context, key, operation, value, depth, trace):
    tag = {"map": MAP, "list": LIST}.get(value[0], REGISTER)
    if tag == REGISTER:
        trace.append((depth, "ASSIGN"))
        clear(context, operation.deps, (REGISTER, key), depth + 1, trace)
    else:
        trace.append((depth, "EMPTY-MAP" if tag == MAP else "EMPTY-LIST"))
        clear_element(context, operation.deps, key, depth + 1, trace)
    add_identifier(context, key, operation, depth + 1, trace)
    content = child(context, (tag, key), depth + 1, trace)
    if tag == REGISTER:
        content = {**content, operation.identifier: value}
    context.put((tag, key), content)


def insert(context, key, operation, value, depth, trace):
    if key not in context.links:
        raise Stuck(20)
    following = context.links[key]
    own = element_key(operation.identifier)
    if following is TAIL or following < own:
        trace.append((depth, "INSERT1"))
        assign(context, own, operation, value, depth + 1, trace)
        context.links[key] = own
        context.links[own] = following
    else:
        trace.append((depth, "INSERT2"))
        insert(context, following, operation, value, depth + 1, trace)


def operate(context, path, operation, depth, trace):
    if path:
        trace.append((depth, "DESCEND"))
        content = child(context, path[0], depth + 1, trace)
        operate(content, path[1:], operation, depth + 1, trace)
        add_identifier(context, path[0][1], operation, depth + 1, trace)
        context.put(path[0], content)
        return
    kind = operation.mutation[0]
    if kind == "assign":
        assign(context, operation.last, operation, operation.mutation[1], depth, trace)
    elif kind == "insert":
        insert(context, operation.last, operation, operation.mutation[1], depth, trace)
    else:
        trace.append((depth, "DELETE"))
        clear_element(context, operation.deps, operation.last, depth + 1, trace)


# ---- expressions


def below(context, path, rule, depth, trace):
    """The context at the path, and the depth there."""
    for tagged in path:
        if not context.has(tagged):
            raise Stuck(25, tagged)
        trace.append((depth, rule))
        depth += 1
        context = context.at(tagged)
    return context, depth


def element(tree, path, index, depth, trace):
    """The key of the element with the index, or of the head for 0."""
    context, depth = below(tree, path, "IDX2", depth, trace)
    key = HEAD
    while index > 0:
        following = context.links.get(key, TAIL)
        if following is TAIL:
            raise Stuck(26)
        key = following
        if context.presences.get(key):
            trace.append((depth, "IDX3"))
            index -= 1
        else:
            trace.append((depth, "IDX4"))
        depth += 1
    trace.append((depth, "IDX5"))
    return key


def index_of(tree, path, key):
    """The index that leads to a key of the list at the path, by the rules above; none where the key isn't counted."""
    context, _ = below(tree, path, "IDX2", 0, [])
    index, here = 0, HEAD
    while here != key:
        here = context.links.get(here, TAIL)
        if here is TAIL:
            raise Stuck(26)
        index += bool(context.presences.get(here))
    return index if key == HEAD or context.presences.get(key) else None


def names_in(context):
    """The names with a presence set that isn't empty."""
    return tuple(sorted(key[1] for key, found in context.presences.items() if key[0] == 2 and found))


def cursor_of(replica, expression, depth, trace):
    bound = evaluate(replica, expression, depth, trace)
    if bound[0] != "cursor":
        raise Stuck(24)
    return bound[1], bound[2]


def evaluate(replica, expression, depth, trace):
    kind = expression[0]
    if kind == "doc":
        trace.append((depth, "DOC"))
        return ("cursor", (), DOC)
    if kind == "variable":
        if expression[1] not in replica.variables:
            raise Stuck(22)
        trace.append((depth, "VAR"))
        return replica.variables[expression[1]]
    trace.append((depth, {"get": "GET", "idx": "IDX1", "keys": "KEYS1", "values": "VAL1"}[kind]))
    path, last = cursor_of(replica, expression[1], depth + 1, trace)
    if kind == "get" and last == HEAD:
        raise Stuck(23)
    if kind in ("get", "idx") and len(path) >= LONGEST_PATH:
        raise Stuck(29)
    if kind == "get":
        return ("cursor", path + ((MAP, last),), name_key(expression[2]))
    if kind == "idx":
        path += ((LIST, last),)
        return ("cursor", path, element(replica.tree, path, expression[2], depth + 1, trace))
    of_keys = kind == "keys"
    context, depth = below(replica.tree, path, "KEYS3" if of_keys else "VAL3", depth + 1, trace)
    tagged = (MAP if of_keys else REGISTER, last)
    if not context.has(tagged):
        raise Stuck(27 if of_keys else 28)
    trace.append((depth, "KEYS2" if of_keys else "VAL2"))
    content = context.at(tagged)
    return ("keys", names_in(content)) if of_keys else ("values", tuple(sorted(content.items())))


# ---- commands and events


def make_operation(replica, path, last, mutation, trace):
    trace.append((2, "MAKE-OP"))
    counter = max((i[0] for i in replica.applied), default=0) + 1
    operation = Operation((counter, replica.number), frozenset(replica.applied), path, last, mutation)
    trace.append((3, "APPLY-LOCAL"))
    operate(replica.tree, path, operation, 4, trace)
    replica.queue[operation.identifier] = operation
    replica.applied.add(operation.identifier)


def execute(replica, trace):
    command = replica.left[0]
    if command[0] == "yield":
        raise Stuck(31)
    trace.append((0, "EXEC"))
    if command[0] == "let":
        trace.append((1, "LET"))
        replica.variables[command[1]] = evaluate(replica, command[2], 2, trace)
    else:
        trace.append((1, {"assign": "MAKE-ASSIGN", "insert": "MAKE-INSERT", "delete": "MAKE-DELETE"}[command[0]]))
        path, last = cursor_of(replica, command[1], 2, trace)
        make_operation(replica, path, last, (command[0],) + command[2:], trace)
    del replica.left[0]


def apply_received(replica, identifier, trace):
    if identifier not in replica.received:
        raise Stuck(34)
    if identifier in replica.applied:
        raise Stuck(35)
    operation = replica.received[identifier]
    if not operation.deps <= replica.applied:
        raise Stuck(36)
    trace.append((0, "APPLY-REMOTE"))
    operate(replica.tree, operation.path, operation, 1, trace)
    replica.applied.add(identifier)


def receive_one(replica, offered, identifier, trace):
    if identifier not in offered:
        raise Stuck(34)
    trace.append((0, "RECV-ONE"))
    replica.received = {identifier: offered[identifier], **replica.received}


def change(network, event, trace):
    """Makes the event in the network itself, which is of no use any more where it is stuck."""
    kind = event[0]
    if max(event[1:3] if kind in ("recv", "take") else event[1:2]) >= len(network):
        raise Stuck(37)
    if kind == "take" and network.version == 1:
        raise Stuck(39)
    replica = network[event[1]]
    if not replica.left:
        raise Stuck(30)
    if kind == "exec":
        execute(replica, trace)
        return
    if replica.left[0][0] != "yield":
        raise Stuck(32)
    if kind == "done":
        if not replica.acted:
            raise Stuck(33)
        trace.append((0, "DONE"))
        del replica.left[0]
        replica.acted = False
        return
    if kind == "send":
        trace.append((0, "SEND"))
        replica.sent = {**replica.queue, **replica.sent}
    elif kind == "recv":
        trace.append((0, "RECV"))
        replica.received = {**network[event[2]].sent, **replica.received}
    elif kind == "take":
        receive_one(replica, network[event[2]].sent, event[3], trace)
    else:
        apply_received(replica, event[2], trace)
    replica.acted = True


def attempt(network, event):
    """Makes the event in the network itself. Where it is stuck the network stays as it was, and why is given."""
    before = network[event[1]]
    if event[0] == "exec":
        network[event[1]] = copy.deepcopy(before)
    try:
        change(network, event, [])
    except Stuck as stuck:
        network[event[1]] = before
        return stuck
    return None


def step(network, event):
    """The network after the event, and its trace. An event changes the state of its own replica alone."""
    after, trace = copy.copy(network), []
    if event[1] < len(network):
        after[event[1]] = copy.deepcopy(network[event[1]])
    change(after, event, trace)
    return after, trace


def start(scenario):
    """The network to which the given events lead."""
    network = Network(scenario.version, scenario.scripts)
    for number, event in enumerate(scenario.given, 1):
        try:
            change(network, event, [])
        except Stuck as stuck:
            raise GivenStuck(number, event, stuck) from stuck
    return network


def candidates(network, p):
    """The events that a replica may make, in the order in which they are listed."""
    applies = [("apply", p, identifier) for identifier in sorted(network[p].received)]
    receives = [("recv", p, q) for q in range(len(network))]
    takes = [("take", p, q, identifier) for q, other in enumerate(network) for identifier in sorted(other.sent)]
    return [("exec", p), ("send", p)] + receives + takes * (network.version == 2) + applies + [("done", p)]


def is_enabled(network, event):
    # To see that an operation was applied before needs no copy of the document. Of these there are the most.
    if event[0] == "apply" and event[2] in network[event[1]].applied:
        return False
    try:
        step(network, event)
        return True
    except Stuck:
        return False


def due(replica):
    """The least operation that the replica received and can apply, or none."""
    waiting = (operation for i, operation in replica.received.items() if i not in replica.applied)
    return min((operation.identifier for operation in waiting if operation.deps <= replica.applied), default=None)


def chosen(network, p, last):
    """The event that the thread of a replica makes next, by its own last event, or none."""
    replica = network[p]
    if not replica.left:
        return None
    if replica.left[0][0] != "yield":
        return ("exec", p)
    if last is None or last[0] in ("exec", "take", "done"):
        return ("send", p)
    if last[0] != "apply":
        ahead = range(0 if last[0] == "send" else last[2] + 1, len(network))
        others = [q for q in ahead if q != p]
        if others:
            return ("recv", p, others[0])
    following = due(replica)
    return ("apply", p, following) if following else ("done", p)


def without_empty_sets(content):
    """A content as a value, without its empty presence sets."""
    if not isinstance(content, Context):
        return tuple(sorted(content.items()))
    entries = tuple(
        (tag, tuple(sorted((key, without_empty_sets(of)) for key, of in content.entries[tag].items())))
        for tag in (MAP, LIST, REGISTER)
    )
    sets = tuple(sorted((key, tuple(sorted(ids))) for key, ids in content.presences.items() if ids))
    return (entries, sets, tuple(sorted(content.links.items(), key=lambda link: link[0])))
