"""A scenario that is debugged in an editor: its session, which is that of tools/debug, and where its events and
commands are. As long as the schedule is that of the file, they are in the file; behind an `act` they are in a document
of its own, which the editor asks for."""

import collections
import functools
import os

from asking import Scenario, bytes_of
from conversation import Ended, begun
from debugger import REFUSED, Debugger
from documents import GIVEN_STUCK, found_and_meant
from evaluation import value_of
from layout import read_json
from placed import ENDS_COMMAND
from places import Source
from jsoncrdt.oracle.refusal import place_of, sentence_of

# Where something is: in the file where `reference` is 0, else in the document with this number.
Place = collections.namedtuple("Place", "reference span")
# What a line stands for: the number of the event before which it is, its place, and why there is no such event.
Target = collections.namedtuple("Target", "number place why")


class NoScenario(Exception):
    """Why there is nothing to debug."""


def why_ended(file, content, end):
    """Why the program has no session: each of its lines, with what is said of a refusal."""
    told = []
    for line in end.answer:
        refused = REFUSED.fullmatch(line)
        if refused and refused[3] and int(refused[1]) != GIVEN_STUCK:  # of which the number is no offset
            number, offset = int(refused[1]), int(refused[3])
            place = place_of(content, offset)
            told += [f"{file}:{place.line}:{place.column}: {sentence_of(number)}"]
            told += found_and_meant(content, number, offset)
        else:
            number = line.split()[1] if line.startswith(("refused ", "stuck ")) else None
            told.append(f"{line.strip()}: {sentence_of(int(number))}" if number else line.strip())
    return "\n".join(told) or str(end)


class Debuggee:
    """A session on a file. `pressed` is true when the editor wants a search to end."""

    def __init__(self, file, pressed):
        self.file, self.said, content = file, [], bytes_of(file)
        try:
            self.conversation = begun(file, content)
        except Ended as end:
            raise NoScenario(why_ended(file, content, end)) from None
        try:
            scenario = Scenario(content.decode())
        except SystemExit:
            self.conversation.end()
            raise
        self.source = Source(content)
        self.debugger = Debugger(self.conversation, scenario, self.said.append, pressed)
        self.replicas, self.planned = self.debugger.names, scenario.events
        self.texts, self.traced = [], (None, [])

    def end(self):
        self.conversation.end()

    @property
    def position(self):
        return self.conversation.position

    @property
    def events(self):
        return self.debugger.positions.events

    def ask(self, line):
        """The lines that answer a line of a session."""
        return [row.rstrip("\n") for row in self.conversation.ask(line)]

    def console(self, line):
        """What tools/debug answers to a line, and whether that ended the session."""
        self.said.clear()
        is_over = self.debugger.is_over(line)
        return "".join(self.said).rstrip("\n"), is_over

    # ---- what there is at the position

    def trace(self):
        """The rules of the event that led to the position, each with its depth."""
        key = self.position, self.debugger.positions
        if self.traced[0] != key:
            self.traced = key, [row.split() for row in self.ask("trace")[1:]]
        return self.traced[1]

    def state(self, replica):
        return read_json(self.ask(f"state {replica}")[0])

    def document(self, replica):
        view = read_json(self.debugger.positions.view(self.position, replica))
        return {"doc": view["doc"]} if "doc" in view else {}

    def value(self, replica, expression):
        return value_of(self.debugger.positions, expression, replica, self.position)

    # ---- where things are

    def text(self, reference):
        """The text of the document with this number."""
        if not 0 < reference <= len(self.texts):
            raise LookupError(f"there is no document {reference}")
        return self.texts[reference - 1]

    def source_of(self, reference):
        return source_of(self.text(reference)) if reference else self.source

    def document_number(self):
        """The number of the document that has the schedule as it is now."""
        text = self.debugger.scenario.scheduled(self.events)
        if text not in self.texts:
            self.texts.append(text)
        return self.texts.index(text) + 1

    def place_of(self, number):
        """Where an event of the schedule is, by its number from 1."""
        is_planned = self.events is self.planned or self.events[:number] == self.planned[:number]
        reference = 0 if is_planned else self.document_number()
        return Place(reference, self.source_of(reference).schedule.items[number - 1])

    def ended_by(self, replica, events):
        """The numbers of the events that end a command of a replica, each the next one; 0 for those that are given."""
        own = [f"{replica}.{kind}" for kind in ENDS_COMMAND]
        given = [0 for event in self.debugger.scenario.given if event in own]
        return given + [number for number, event in enumerate(events, 1) if event in own]

    def next_command(self, replica):
        """The number, from 0, of the command that is next at a replica."""
        return len(self.ended_by(replica, self.events[:self.position]))

    def target_on(self, reference, line, unit=0):
        """What a line of a text stands for: the first event or command that begins there or behind it."""
        source = self.source_of(reference)
        offset = source.lines.offset(line, unit)
        for block in source.blocks:
            number = next((number for number, start in enumerate(block.starts) if start >= offset), None)
            if number is not None:
                return self.target_of(reference, block, number)
        return Target(None, None, "no event is on this line or behind it")

    def target_of(self, reference, block, number):
        place = Place(reference, block.items[number])
        if block.word == "schedule":
            is_here = number < len(self.events) and self.place_of(number + 1).reference == reference
            return Target(number + 1, place, None) if is_here else Target(None, place, "`act` has cut this event off")
        ended = self.ended_by(block.name, self.events) if block.word == "replica" else [0] * (number + 1)
        event = ended[number] if number < len(ended) else None
        why = "it is made before the start" if event == 0 else None if event else "the schedule doesn't come to it"
        return Target(event or None, place, why)

    def targets_on(self, reference, line):
        """What the events and commands stand for that begin on a line."""
        source = self.source_of(reference)
        start, end = source.lines.offset(line, 0), source.lines.offset(line + 1, 0)
        return [self.target_of(reference, block, number) for block in source.blocks
                for number, item in enumerate(block.items) if start <= item.start < end]

    def end_line(self, reference):
        """The line on which the schedule ends."""
        source = self.source_of(reference)
        return source.lines.position(source.schedule.end - 1)[0] if source.schedule else None

    def is_file(self, path):
        return not path or os.path.realpath(path) == os.path.realpath(self.file)


@functools.lru_cache(maxsize=4)
def source_of(text):
    return Source(text.encode())
