"""What a reader is told besides of a refusal, on standard error: FILE:LINE:COLUMN, what is there, the line with a
caret, the sentence of docs/ERRORS.md, and what is missing. It is said where --explain asks for it, or to a terminal."""

import re
from functools import partial

from .grammar import read
from .lacking import Lack
from .lines import FORMS, MOST_OF_LINE, RULES, event_text, read_line, without_end
from .refusal import Asking, close_to, event_of, explained, listed, near_name, place_of, sentence_of
from .rules import Stuck, start, step
from .texts import Texts

INPUT = "standard input"
# Words of other debuggers, and those that are meant.
SLIPS = {"next": "step", "continue": "run", "undo": "back", "exit": "quit"}


def name_of(file):
    return INPUT if file == "-" else file


def lines_of(where, place, message, *notes):
    """The lines of an explanation."""
    rows = [*place.excerpt.split("\n"), *notes]
    return f"{where}:{place.line}:{place.column}: {message}\n" + "".join(f"  {row}\n" for row in rows if row)


# ---- texts


def of_text(file, text, fault):
    """Why the text of a scenario is refused."""
    told = explained(text, *fault)
    return lines_of(name_of(file), told.place, told.message, told.sentence, told.hint and f"hint: {told.hint}")


# ---- events


class Places:
    """Where the events and commands of a scenario are in its text, and why one of them is stuck."""

    def __init__(self, file, text):
        self.file, self.text, self.scenario, reader = name_of(file), text, read(text)[0], Asking(text)
        scripts, given, _ = reader.scenario()
        self.given, self.schedule = reader.event_places[:len(given)], reader.event_places[len(given):]
        self.commands, first = {}, 0
        for name, script in scripts.items():
            self.commands[name] = reader.command_places[first:first + len(script)]
            first += len(script)

    def lines(self, offset, message, *notes):
        return lines_of(self.file, place_of(self.text, offset), message, *notes)

    def next_command(self, replica, message, *notes):
        """The lines of the command that is next at a replica."""
        offsets = self.commands[self.scenario.names[replica.number]]
        return self.lines(offsets[len(offsets) - len(replica.left)], message, *notes)

    def of_stuck(self, lack, lines):
        """Why an event is stuck; `lines` gives the lines of where it is, for a message and notes."""
        told = lines(*told_of(lack))
        if lack.event[0] == "exec" and lack.replica.left:
            told += self.next_command(lack.replica, f"this is the next command of `{lack.name}`")
        return told

    def of_given(self, given):
        before = start(self.scenario._replace(given=self.scenario.given[:given.number - 1]))
        lack = Lack(before, given.event, given.stuck, Texts(self.scenario.names))
        offset = self.given[given.number - 1]
        return self.of_stuck(lack, lambda *told: self.lines(offset, *told, sentence_of(44)))

    def of_scheduled(self, network, index, stuck):
        """Why the event of the schedule with this index is stuck in the network."""
        lack = Lack(network, self.scenario.schedule[index], stuck, Texts(self.scenario.names))
        return self.of_stuck(lack, partial(self.lines, self.schedule[index]))

    def of_chosen(self, network, stuck, event):
        """Why an event is stuck that a replica chose itself: one that executes a command."""
        lack = Lack(network, event, stuck, Texts(self.scenario.names))
        return self.next_command(lack.replica, *told_of(lack))


def told_of(lack):
    """What is said of an event that is stuck: a message and notes."""
    missing = lack.text()
    event = lack.texts.event(lack.event).decode()
    return f"`{event}` is stuck", sentence_of(lack.stuck.number), missing and f"here: {missing}"


# ---- lines of a session


class Lines:
    """What is said of the lines of a session on the text of a file."""

    def __init__(self, file, text, session):
        self.places, self.session = Places(file, text), session

    def told(self, number, line, answer):
        """What is said of the answer to the line with this number, or an empty text. The session has answered it."""
        last = answer.rstrip(b"\n").rpartition(b"\n")[2]
        line = without_end(line)
        if found := re.match(rb"refused (\d+) \w+(?: at (\d+))?", last):
            offset = found[2] and int(found[2])
            return (self.of_line(number, line, int(found[1])) if offset is None
                    else self.of_event(number, line, offset, int(found[1])))
        return self.of_stuck(number, line) if last.startswith(b"stuck ") else ""

    def lines(self, number, line, offset, message, *notes):
        return lines_of(INPUT, place_of(line, offset)._replace(line=number), message, *notes)

    def of_line(self, number, line, refusal):
        offset, hint = hint_of_line(line, refusal, self.session.texts.names)
        return self.lines(number, line, offset, "this line is refused", sentence_of(refusal), hint and f"hint: {hint}")

    def of_event(self, number, line, offset, refusal):
        """Why the event of `act` is refused, with an offset in its own text."""
        text = event_text(line)
        told = explained(text, offset, refusal, event_of(self.session.version, self.session.texts.names))
        there = min(len(line) - len(text) + offset, len(line))
        return self.lines(number, line, there, told.message, told.sentence, told.hint and f"hint: {told.hint}")

    def of_stuck(self, number, line):
        session, places = self.session, self.places
        asked = read_line(line, session.texts.names, session.version)
        index, is_act = session.position, asked[0] == "act"
        event = asked[1] if is_act else session.schedule[index]
        lack = Lack(session.network, event, stuck_by(session.network, event), session.texts)
        if not is_act and places.scenario.schedule[index:index + 1] == [event]:
            return places.of_stuck(lack, partial(places.lines, places.schedule[index]))
        offset = len(line) - len(event_text(line))
        return places.of_stuck(lack, partial(self.lines, number, line, offset))


def stuck_by(network, event):
    try:
        step(network, event)
    except Stuck as stuck:
        return stuck


def meant(word, words):
    """A question that names the words that may be meant: those that begin so, or else the one that is like it."""
    found = [other for other in words if other.startswith(word)] or [close_to(word, [w.encode() for w in words])]
    return f"is it {listed(w.encode() for w in found)}?" if found[0] else ""


def hint_of_line(line, refusal, names):
    """Where in a refused line what is wrong begins, and a hint."""
    words = [*re.finditer(rb"[^ \t]+", line)]
    spelt = [word[0].decode(errors="replace") for word in words]
    if len(line) > MOST_OF_LINE or not line.isascii():
        return 0, f"a line has {MOST_OF_LINE} bytes at most, all of them ASCII"
    if refusal == 18:
        behind = words[2:] if spelt[0] == "break" else words[1:]
        unknown = next(word for word in behind if word[0] not in names)
        return unknown.start(), near_name(unknown[0].decode(), names)
    if refusal != 58:
        return words[0].start(), ""
    if spelt[:2] == ["break", "rule"] and spelt[2:]:
        return words[2].start(), meant(spelt[2].upper(), RULES)
    if spelt[0] in FORMS:
        return words[0].start(), f"the line is `{FORMS[spelt[0]]}`"
    return words[0].start(), meant(SLIPS.get(spelt[0], spelt[0]), FORMS)
