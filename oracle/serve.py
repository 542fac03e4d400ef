"""The command `serve`: requests of a program, each answered by one line of JSON (docs/FORMATS.md, "Serve: answers").

What the requests mean is the debugger's, as in a session; here it is written. `answers` of a text has the answers as
long as the text stays."""

import copy

from .debugger import Debugger, Failed, Refusal
from .effects import Since
from .grammar import MOST_BYTES, NAME_RUN, NUMBER_RUN, Reader, read, string_end
from .journal import Before, Journal, lines_of, rules_of
from .lines import BAD
from .refusal import expected_at
from .requests import AnyName, NotRead, TooMany, read_request
from .rules import Stuck, step
from .texts import REFUSALS, array, object_of, string
from .view import line_of
from .weave import woven

CONTINUATION = bytes(range(0x80, 0xC0))
GIVEN_STUCK, AT_START, PAST_SCHEDULE, READ_FAILED = 44, 50, 52, 4
# Requests that may be asked at another position; it comes first.
LOOKS = ("view", "state", "brief", "eval", "event")
# Refusals at whose offset a token begins, or a number that is none; and that where an escape does, of six bytes.
AT_TOKEN, AT_ESCAPE, LENGTH_OF_ESCAPE = {5, 6, 7, *range(9, 13), *range(14, 20)}, 4, 6
# Those of a token that doesn't fit, and of a text that ends too early.
MISFITS = (7, 8)
TRUE, QUIT = b"true", ("quit",)


def number(value):
    return b"%d" % value


def object_with(**members):
    """An object of those members that are there."""
    return object_of((name.encode(), text) for name, text in members.items() if text is not None)


# ---- refusals


def refused(refusal_number, **more):
    return object_with(refused=object_with(name=string(REFUSALS[refusal_number].encode()),
                                           number=number(refusal_number), **more))


def end_of_token(text, offset):
    """Where the token ends that begins at an offset."""
    if text[offset] == 0x22:
        return string_end(text, offset)[0]
    run = NUMBER_RUN.match(text, offset) or NAME_RUN.match(text, offset)
    return run.end() if run else offset + (2 if text[offset:offset + 2] == b":=" else 1)


def end_of(text, offset, refusal_number):
    """Where that ends which is refused at an offset."""
    if refusal_number == AT_ESCAPE:
        return offset + LENGTH_OF_ESCAPE
    if refusal_number in AT_TOKEN and offset < min(len(text), MOST_BYTES):
        return end_of_token(text, offset)
    behind = text[offset + 1:]
    return min(offset + 1 + len(behind) - len(behind.lstrip(CONTINUATION)), len(text))


def refused_text(refusal_number, offset, text, expected=None):
    """Why a text is refused, where, and what could stand there."""
    line = text[text.rfind(b"\n", 0, offset) + 1:offset].translate(None, CONTINUATION)
    return refused(refusal_number, column=number(len(line) + 1), end=number(end_of(text, offset, refusal_number)),
                   expected=expected, line=number(text.count(b"\n", 0, offset) + 1), offset=number(offset))


def refused_scenario(refusal_number, offset, text):
    """Why a text is no scenario, and where."""
    expected = array(map(string, expected_at(text, offset))) if refusal_number in MISFITS else None
    return refused_text(refusal_number, offset, text, expected)


# ---- texts


def places_of(text):
    """The blocks of a text that isn't refused, with their commands or events."""
    reader = Placing(text)
    reader.scenario()
    return array(reader.blocks)


class Placing(Reader):
    """A reader that keeps where blocks and what is in them begin and end."""

    def __init__(self, text):
        super().__init__(text)
        self.blocks, self.begun = [], []

    def behind(self):
        """The offset behind the last token that was taken."""
        _, spelling, place = self.tokens[self.next - 1]
        return place + len(spelling)

    def block(self, item, most, number_of_fault):
        items = []

        def placed():
            start = self.place
            made = item()
            items.append(array(map(number, (start, self.behind()))))
            return made

        found = super().block(placed, most, number_of_fault)
        self.begun.append((items, self.behind()))
        return found

    def replica(self, scripts):
        start, name = self.place, self.tokens[self.next + 1][1]
        super().replica(scripts)
        self.keep(b"replica", start, string(name))

    def events(self, word):
        start = self.place if self.is_next(word) else None
        found = super().events(word)
        if start is not None:
            self.keep(word, start)
        return found

    def keep(self, kind, start, name=None):
        items, end = self.begun.pop()
        self.blocks.append(object_with(end=number(end), items=array(items), kind=string(kind), name=name,
                                       start=number(start)))


# ---- answers


class Served(Debugger):
    """A scenario, and the answers to requests about it. Where a given event is stuck, `refusal` answers all of them but
    those for which it doesn't matter."""

    def __init__(self, scenario):
        super().__init__(scenario)
        self.stuck = self.failed and self.line_of_stuck(self.failed, self.network)
        self.refusal = self.stuck and refused(GIVEN_STUCK, stuck=self.stuck)

    def counts(self):
        """How much there is of the scenario, and the given event that is stuck."""
        scenario = self.scenario
        return object_with(commands=number(sum(map(len, scenario.scripts))), events=number(len(scenario.schedule)),
                           given=number(len(scenario.given)), replicas=number(len(scenario.names)), stuck=self.stuck)

    def answer(self, asked):
        word, *rest = asked
        is_elsewhere = word in LOOKS and rest[0] is not None
        if self.failed and word not in ("print", "journal") and not is_elsewhere:
            return self.refusal
        try:
            return getattr(self, f"on_{word}", self.moves(word))(*rest)
        except Refusal as refusal:
            return refused(refusal.number)
        except Unreached as unreached:
            return self.refusal or self.unreached(unreached.failed)
        except Stuck as stuck:
            return refused(stuck.number, key=self.key_of(stuck))

    def moves(self, word):
        """What answers a request that goes somewhere."""
        return lambda *rest: self.moved(getattr(self, word)(*rest))

    def key_of(self, stuck):
        """The text of the key that is missing, where one is."""
        return stuck.key and string(self.texts.tagged(stuck.key))

    def line_of_stuck(self, failed, network):
        which, is_given = self.number_at(failed.position)
        journal = Journal(self.texts, traced=False)
        return journal.stuck(which, failed.event, network, failed.cause, is_given).rstrip(b"\n")

    def there(self, position, **more):
        """A position, with the event that leads to it."""
        event = self.event_at(position)
        return object_with(at=number(position), event=event and string(self.texts.event(event)), **more)

    def moved(self, move):
        stuck = self.line_of_stuck(move.stuck, self.network) if move.stuck else None
        return self.there(self.position, stuck=stuck, end=TRUE if move.is_end else None,
                          start=TRUE if move.is_start else None, **({"break": number(move.hit)} if move.hit else {}))

    def on_goto_end(self):
        return self.moved(self.goto(self.length))

    def on_where(self):
        return self.there(self.position, of=number(self.length))

    # ---- breakpoints

    def on_break(self, breakpoint):
        kind, *what = breakpoint
        if kind == "place":
            breakpoint = (kind, what[0], self.place(*what))
        return object_with(set=number(self.set_breakpoint(breakpoint)))

    def on_unbreak(self, k):
        return object_with(cleared=number(self.unbreak(k)))

    def on_breaks(self):
        return array(self.shown_breakpoint(k, *self.breakpoints[k]) for k in sorted(self.breakpoints))

    def shown_breakpoint(self, k, kind, what, place=None):
        members = {"number": number(k), "kind": string(kind.encode())}
        if kind in ("replica", "place"):
            members["replica"] = string(self.texts.names[what])
        else:
            members[kind] = {"at": lambda: number(what), "rule": lambda: string(what.encode()),
                             "op": lambda: string(self.texts.identifier(what))}[kind]()
        return object_with(**members, cursor=place and self.texts.cursor(place))

    # ---- what there is at a position

    def checked(self, position):
        """A position that there is."""
        if position < -self.given:
            raise Refusal(AT_START)
        if position > self.length:
            raise Refusal(PAST_SCHEDULE)
        return position

    def network_at(self, position):
        """The network at a position, or here; where an event on the way is stuck Unreached is raised."""
        if position is None:
            return self.network
        failed = self.reach(self.aside, self.checked(position))
        if failed:
            raise Unreached(failed)
        return self.aside.network

    def unreached(self, failed):
        """What is answered at a position that isn't reached, since this event is stuck before."""
        return self.there(failed.position - 1, stuck=self.line_of_stuck(failed, self.aside.network))

    def each(self, shows, position, p):
        """What shows a replica at a position, or a list for all."""
        network = self.network_at(position)
        return shows(network[p]) if p is not None else array(map(shows, network))

    def on_view(self, position, p, expression=None):
        if expression:
            return self.view_of_place(self.network_at(position), p, expression)
        return self.each(self.view, position, p)

    def view(self, replica, *place):
        return line_of(self.texts, replica, *place).rstrip(b"\n")

    def view_of_place(self, network, p, expression):
        kind, *bound = self.evaluated(p, expression, network)
        return self.view(network[p], *bound) if kind == "cursor" else self.texts.bound((kind, *bound))

    def on_state(self, position, p):
        return self.each(lambda replica: self.texts.dump(replica).rstrip(b"\n"), position, p)

    def on_brief(self, position, p):
        return self.each(self.texts.brief, position, p)

    def on_eval(self, position, p, expression):
        return self.texts.bound(self.evaluated(p, expression, self.network_at(position)))

    def on_enabled(self):
        return self.in_list(self.enabled())

    def on_schedule(self):
        return self.in_list(self.schedule)

    def in_list(self, events):
        return array(string(self.texts.event(event)) for event in events)

    def on_compare(self, p, q):
        same, has_same_tree = self.compare(p, q)
        if not same:
            return object_with(operations=string(b"different"))
        return object_with(operations=string(b"same"), tree=string(b"same" if has_same_tree else b"different"))

    # ---- events

    def numbered(self, position):
        """The number of a position's event, the event, and whether it is given."""
        which, is_given = self.number_at(position)
        return which, self.event_at(position), is_given

    def on_event(self, position, flags):
        position = self.position if position is None else self.checked(position)
        if position == -self.given:
            return object_with(start=TRUE)
        before = self.network_at(position - 1)
        which, event, is_given = self.numbered(position)
        network, trace = self.behind(position, event, before)
        journal = Journal(self.texts, "--trace" in flags, Since(self.texts, before) if "--effects" in flags else None)
        old, new = before[event[1]], network[event[1]]
        return journal.made(which, event, Before(event, old), new, trace, is_given).rstrip(b"\n")

    def behind(self, position, event, before):
        """The network at a position, which its event makes of the one before, and the event's rules."""
        if position == self.position:
            return self.network, self.here.trace
        try:
            return step(before, event)
        except Stuck as stuck:
            raise Unreached(Failed(stuck, event, position)) from stuck

    def on_trace(self):
        if not self.position:
            return object_with(start=TRUE)
        event = self.texts.event(self.event_at(self.position))
        return object_with(event=string(event), number=number(self.position), rules=rules_of(self.here.trace))

    def on_journal(self, flags, first=None, last=None):
        if first is None:
            first, last = -self.given, self.length
        first, last = self.checked(first), self.checked(last)
        try:
            network = copy.deepcopy(self.network_at(first))
        except Unreached:
            return array([])
        events = map(self.numbered, range(first + 1, last + 1))
        return array(line.rstrip(b"\n") for line, _ in lines_of(events, network, self.texts, flags))

    # ---- the scenario as a whole

    def on_print(self):
        return string(self.texts.scenario(self.as_now()))

    def on_weave(self, seed, limit):
        loom = woven(self.scenario, seed, limit)
        ends = array(self.end(loom, p, replica) for p, replica in enumerate(loom.network))
        return object_with(ends=ends, events=self.in_list(loom.schedule))

    def end(self, loom, p, replica):
        """How a replica ended in a woven schedule."""
        stuck, event = loom.left.get(p, (None, None))
        how = b"stuck" if stuck else b"limit" if replica.left else b"finished"
        made = number(sum(event[1] == p for event in loom.schedule))
        ended = {"end": string(how), "made": made, "name": string(self.texts.names[p])}
        if not stuck:
            return object_with(**ended)
        return object_with(**ended, cause=string(REFUSALS[stuck.number].encode()), stuck=number(stuck.number),
                           event=string(self.texts.event(event)), key=self.key_of(stuck))


class Unreached(Exception):
    """A position that isn't reached, since an event before is stuck."""

    def __init__(self, failed):
        super().__init__(failed)
        self.failed = failed


class Subject:
    """A text, and what is served of it: answers, or where it is refused that alone."""

    def __init__(self, text):
        self.text, self.served, self.refusal = text, None, None
        scenario, fault = read(text)
        if fault:
            self.refusal = refused_scenario(fault[1], fault[0], text)
        else:
            self.served = Served(scenario)
            self.refusal = self.served.refusal

    def counts(self):
        """The answer to the request that brought the text."""
        return self.served.counts() if self.served else self.refusal

    def read(self, line):
        """What a line asks."""
        if not self.served:
            return read_request(line, AnyName(), 2)
        return read_request(line, self.served.texts.names, self.served.version)

    def answer(self, asked):
        """The answer to a request that was read."""
        if asked == QUIT:
            return object_with(quit=TRUE)
        if not self.served:
            return self.refusal
        return places_of(self.text) if asked == ("places",) else self.served.answer(asked)

    def refuse(self, refusal):
        """The answer to a line that is refused as it is read."""
        if refusal.number != BAD and not self.served:
            return self.refusal
        if refusal.place is None:
            return refused(refusal.number)
        return refused_text(refusal.number, refusal.place, refusal.text)


def answers(requests):
    """The answers to all requests, or to those up to `quit`."""
    subject = Subject(b"")
    while (line := requests.line()) is not None:
        try:
            asked = subject.read(line)
        except Refusal as refusal:
            yield subject.refuse(refusal)
            continue
        if asked[0] == "scenario":
            subject = Subject(requests.text(asked[1]))
            yield subject.counts()
        else:
            yield subject.answer(asked)
        if asked == QUIT:
            return


def serve(requests, out, err):
    """Answers requests, each before the next is read, and gives the status."""
    try:
        for answer in answers(requests):
            out.write(answer + b"\n")
            out.flush()
    except NotRead as fault:
        err.write(f"read failed: standard input: {fault}\n")
        return READ_FAILED
    except TooMany:
        err.write("too many lines\n")
        return READ_FAILED
    return 0
