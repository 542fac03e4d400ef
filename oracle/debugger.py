"""A debugger of a scenario by the rules: what the lines of a session and the requests of `serve` mean. session.py and
serve.py write its answers."""

import collections
import copy
import json

from .effects import Since, effect_at
from .rules import Network, Stuck, candidates, change, evaluate, is_enabled, without_empty_sets
from .texts import Texts

MOST_BREAKPOINTS = 256
MOST_STEPS = 100_000
MOST_COPIES, SHORTEST_WAY = 12, 64

# How a move ended: at an event that is stuck, or at a breakpoint, with that, or at the schedule's end or its start.
Move = collections.namedtuple("Move", "stuck hit is_end is_start", defaults=(None, None, False, False))
# An event that is stuck: why, the event, and the position to which it would lead.
Failed = collections.namedtuple("Failed", "cause event position")


class Refusal(Exception):
    """A request that is refused: the number, and for a text the place in it."""

    def __init__(self, number, place=None, text=None):
        super().__init__(number, place)
        self.number, self.place, self.text = number, place, text


class Copies:
    """Copies of a network at some counts of the events made in it, so that no way back is long."""

    def __init__(self, scenario):
        self.scenario, self.distance, self.copies = scenario, SHORTEST_WAY, {}

    def keep(self, count, network):
        if count % self.distance or count in self.copies:
            return
        self.copies[count] = copy.deepcopy(network)
        if len(self.copies) > MOST_COPIES:
            self.distance *= 2
            self.copies = {count: kept for count, kept in self.copies.items() if count % self.distance == 0}

    def last(self, count):
        """The count of the last one that is kept up to a count."""
        return max((kept for kept in self.copies if kept <= count), default=0)

    def network(self, count):
        """A network like the one that is kept at a count; at 0 there is always one."""
        if not count:
            return Network(self.scenario.version, self.scenario.scripts)
        return copy.deepcopy(self.copies[count])

    def cut(self, count):
        self.copies = {kept: network for kept, network in self.copies.items() if kept <= count}


class Runner:
    """A network in which some of the events were made: it goes to any count of them. `trace` has the rules of the last
    one. A network that it gives is good until it goes on."""

    def __init__(self, events, copies):
        self.events, self.copies = events, copies
        self.restart(0)

    def restart(self, count):
        """Goes to the last copy before where so many events are made."""
        self.count = self.copies.last(count - 1)
        self.network, self.trace = self.copies.network(self.count), []

    def go(self, count):
        """Goes to where so many events are made, which can be."""
        if count < self.count or self.copies.last(count - 1) > self.count:
            self.restart(count)
        while self.count < count:
            self.made(self.events[self.count])
            self.copies.keep(self.count, self.network)
        return self.network

    def made(self, event):
        trace = []
        change(self.network, event, trace)
        self.count, self.trace = self.count + 1, trace

    def attempt(self, event):
        """Makes an event next. Where it is stuck all stays as it was, and why is given."""
        try:
            self.made(event)
        except Stuck as stuck:
            count = self.count
            self.restart(count)
            self.go(count)
            return stuck
        return None


class Debugger:
    """A scenario whose given events are made before position 0, and never taken back. Where one of them is stuck,
    `failed` is that one, and there is no position 0: only what was before it can be looked at."""

    def __init__(self, scenario):
        self.scenario, self.texts, self.version = scenario, Texts(scenario.names), scenario.version
        self.given, self.events = len(scenario.given), scenario.given + scenario.schedule
        self.copies, self.breakpoints, self.reached = Copies(scenario), {}, 0
        self.here, self.aside = (Runner(self.events, self.copies) for _ in range(2))
        self.failed = self.reach(self.here, 0)

    @property
    def position(self):
        return self.here.count - self.given

    @property
    def length(self):
        return len(self.events) - self.given

    @property
    def schedule(self):
        return self.events[self.given:]

    @property
    def network(self):
        return self.here.network

    def event_at(self, position):
        """The event that leads to a position, or none to the first one."""
        count = self.given + position
        return self.events[count - 1] if count else None

    def number_at(self, position):
        """The number of the event that leads to a position, and whether it is given."""
        return (position, False) if position > 0 else (self.given + position, True)

    def reach(self, runner, position):
        """Brings a runner to a position, or to the first event before that is stuck, which is given."""
        count = self.given + position
        runner.go(min(count, self.reached))
        while runner.count < count:
            failed = self.forward(runner)
            if failed:
                return failed
        return None

    def forward(self, runner):
        """Makes the next event in a runner. Gives one that is stuck."""
        event = self.events[runner.count]
        stuck = runner.attempt(event)
        if stuck:
            return Failed(stuck, event, runner.count + 1 - self.given)
        self.copies.keep(runner.count, runner.network)
        self.reached = max(self.reached, runner.count)
        return None

    # ---- moves

    def go_to(self, position):
        return Move(self.reach(self.here, position))

    def step(self, count):
        if self.position + count > self.length:
            raise Refusal(51)
        return self.go_to(self.position + count)

    def back(self, count):
        if count > self.position:
            raise Refusal(50)
        return self.go_to(self.position - count)

    def goto(self, position):
        if position > self.length:
            raise Refusal(52)
        return self.go_to(position)

    def run(self):
        if self.position == self.length:
            raise Refusal(51)
        while self.position < self.length:
            failed = self.forward(self.here)
            if failed:
                return Move(failed)
            hit = self.hit(self.here)
            if hit:
                return Move(hit=hit)
        return Move(is_end=True)

    def back_run(self):
        """Goes back to the last position behind 0 that a breakpoint names, or to position 0."""
        if not self.position:
            raise Refusal(50)
        found, runner = (0, None), Runner(self.events, self.copies)
        for position in range(1, self.position if self.breakpoints else 1):
            runner.go(self.given + position)
            hit = self.hit(runner)
            found = (position, hit) if hit else found
        self.go_to(found[0])
        return Move(hit=found[1], is_start=not found[1])

    def act(self, event):
        """Makes another event than the schedule's, which is cut off there and goes on with it."""
        if self.position == MOST_STEPS:
            raise Refusal(19)
        count = self.here.count
        stuck = self.here.attempt(event)
        if stuck:
            return Move(Failed(stuck, event, self.position + 1))
        self.events[count:] = [event]
        self.copies.cut(count)
        self.reached = self.here.count
        if self.aside.count > count:
            self.aside.restart(count)
        return Move()

    # ---- breakpoints

    def set_breakpoint(self, breakpoint):
        free = [number for number in range(1, MOST_BREAKPOINTS + 1) if number not in self.breakpoints]
        if not free:
            raise Refusal(54)
        self.breakpoints[free[0]] = breakpoint
        return free[0]

    def unbreak(self, number):
        if not self.breakpoints.pop(number, None):
            raise Refusal(53)
        return number

    def hit(self, runner):
        """The least breakpoint that names the position where the runner is."""
        return min((number for number, each in self.breakpoints.items() if self.names(each, runner)), default=None)

    def names(self, breakpoint, runner):
        """Whether a breakpoint names the position where the runner is."""
        kind, *what = breakpoint
        event = self.events[runner.count - 1]
        if kind == "at":
            return what[0] == runner.count - self.given
        if kind == "rule":
            return any(rule == what[0] for _, rule in runner.trace)
        if kind == "replica":
            return event[1] == what[0]
        if kind == "op":
            return self.operation_of(event, runner.network) == what[0]
        return event[1] == what[0] and self.changes(event, runner, what[1])

    def operation_of(self, event, network):
        """The identifier of the operation that an event made or applied, right behind it; or none."""
        if event[0] == "apply":
            return event[2]
        if event[0] != "exec":
            return None
        replica, script = network[event[1]], self.scenario.scripts[event[1]]
        return None if script[-len(replica.left) - 1][0] == "let" else max(replica.queue)

    def changes(self, event, runner, bound):
        """Whether the last event of the runner has effects at a place or below it."""
        identifier = self.operation_of(event, runner.network)
        if not identifier:
            return False
        replica = runner.network[event[1]]
        operation = {**replica.received, **replica.queue}[identifier]
        before = self.aside.go(runner.count - 1)
        effects = json.loads(Since(self.texts, before).of(replica, operation))
        keys = [key for _, key in bound[1]] + [bound[2]]
        return effect_at(effects, [self.texts.key(key).decode() for key in keys]) is not None

    def place(self, p, expression):
        """The place at a replica to which an expression leads now."""
        bound = self.evaluated(p, expression)
        if bound[0] != "cursor":
            raise Stuck(24)
        return bound

    # ---- what there is

    def evaluated(self, p, expression, network=None):
        """What an expression gives at a replica, as `let` would bind it."""
        return evaluate((network or self.network)[p], expression, 0, [])

    def enabled(self):
        events = [event for p in range(len(self.network)) for event in candidates(self.network, p)]
        return [event for event in events if is_enabled(self.network, event)]

    def compare(self, p, q):
        """Whether two replicas have applied the same operations, and whether they have the same tree then."""
        one, other = self.network[p], self.network[q]
        if one.applied != other.applied:
            return False, None
        return True, without_empty_sets(one.tree) == without_empty_sets(other.tree)

    def as_now(self):
        """The scenario with the schedule as it is."""
        return self.scenario._replace(schedule=self.schedule)
