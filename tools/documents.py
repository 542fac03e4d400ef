"""A text that is open in an editor, what was asked of the program about it, and what an editor marks in it."""

import asking  # which says where the modules below are
import functools
import threading

from jsoncrdt.oracle.explaining import stuck_by
from jsoncrdt.oracle.grammar import read
from jsoncrdt.oracle.lacking import Lack
from placed import Placed
from places import Source, in_bytes
from questions import Questions
from jsoncrdt.oracle.refusal import OF_SENTENCES, explained, sentence_of
from jsoncrdt.oracle.rules import Network, change
from jsoncrdt.oracle.texts import Texts

ERROR, WARNING = 1, 2
GIVEN_STUCK = 44
# What is said besides of a longer text, or of one with more events, would keep the server busy.
MOST_EXPLAINED, MOST_EVENTS = 262_144, 2_000


class Document:
    """A text of an editor. A change makes another one, and this one is left. Several threads ask about it: what needs
    nothing of the program doesn't wait for what does."""

    def __init__(self, uri, text):
        self.uri, self.text = uri, in_bytes(text)
        self.questions, self.looking, self.found = Questions(self.text), threading.Lock(), None

    @functools.cached_property
    def source(self):
        return Source(self.text)

    @functools.cached_property
    def placed(self):
        return Placed(self.source, self.questions)

    @property
    def refusal(self):
        """Why the text is refused, if it is, which is asked once."""
        with self.looking:
            self.found = self.found or self.questions.counts()
            return self.found.get("refused")

    def location(self, span):
        return {"uri": self.uri, "range": self.source.range(span.start, span.end)}


def diagnostics(document):
    """What is wrong: why the text is refused, or the event that is stuck."""
    if document.refusal:
        return [of_refused(document, document.refusal)]
    return [of_stuck(document, document.placed)] if document.placed.stuck else []


def diagnostic(where, severity, number, *said):
    return {"range": where, "severity": severity, "code": number, "source": "jsoncrdt",
            "message": "\n".join([sentence_of(number), *filter(None, said)])}


def of_refused(document, refused):
    """The refusal of a text, at what is refused of it."""
    number, offset = refused["number"], refused["offset"]
    where = document.source.range(offset, refused["end"])
    return diagnostic(where, ERROR, number, *found_and_meant(document.text, number, offset))


def found_and_meant(text, number, offset):
    """What was found in a text that is refused, with what could be there, and a hint; nothing of a long text, where
    the grammar had to read all of it."""
    if number in OF_SENTENCES and len(text) > MOST_EXPLAINED:
        return []
    told = explained(text, offset, number)
    return [told.message, *([f"hint: {told.hint}"] if told.hint else [])]


def of_stuck(document, placed):
    line = placed.stuck
    item, command = placed.item_of(line), placed.command_of(line)
    said = [f"here: {lack}" if (lack := lack_of(document, line)) else in_journal(line)]
    if "given" in line:
        said.append(sentence_of(GIVEN_STUCK))
    found = diagnostic(document.source.range(item.start, item.end), WARNING, line["stuck"], *said)
    if command:
        found["relatedInformation"] = [
            {"location": document.location(command), "message": f"this is the next command of `{line['replica']}`"}]
    return found


def in_journal(line):
    """What the journal tells of what is missing."""
    told = [line.get("key"), *line.get("missing", []), *line.get("offered", [])]
    return " ".join(filter(None, told))


def lack_of(document, line):
    """What is missing for the event that is stuck, in words, as the rules in Python find it; nothing behind too many
    events."""
    count = document.placed.given + document.placed.last
    scenario, fault = read(document.text) if count <= MOST_EVENTS else (None, True)
    if fault:
        return ""
    events, network = scenario.given + scenario.schedule, Network(scenario.version, scenario.scripts)
    for event in events[:count]:
        change(network, event, [])
    stuck = stuck_by(network, events[count])
    return Lack(network, events[count], stuck, Texts(scenario.names)).text() if stuck else ""
