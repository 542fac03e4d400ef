"""What is said of a text that is refused: its line and column, what was found there, what could be there, the line
itself with a caret below, the sentence of the refusal, and a hint. All of it follows from the text, the offset and the
number, whoever refused the text.

What could be there is what the reader asked of the token at which it stopped, so it is the grammar's own answer.
"""

import collections
import difflib
import re
import unicodedata

from .grammar import (END, MOST_BYTES, NAME, NAME_RUN, NUMBER, NUMBER_RUN, SELECTORS, SIGN, STRING, Fault, Reader,
                      token)
from .hints import HINTS
from .sentences import SENTENCES
from .texts import REFUSALS

# Two names and a number that the grammar tells apart by where they are.
REPLICA, VARIABLE, DIGITS = "replica", "variable", "digits"
NAMES = {REPLICA: NAME, VARIABLE: NAME}
KINDS = {NAME: "a name", NUMBER: "a number", STRING: "a string", END: "the end of the text", DIGITS: "digits",
         REPLICA: "the name of a replica", VARIABLE: "a variable"}
UNSEEN = {"\n": "a line break", "\r": "a carriage return", "\t": "a tab", "\ufeff": "a byte order mark"}
AT_END = "the end of the text"
LOOKS = re.compile(NUMBER_RUN.pattern + b"|" + NAME_RUN.pattern + rb'|"[^\n]{0,200}|\\u[0-9A-Fa-f]{0,4}|\\[^\n]?')
BLANKS = b" \t\r\n"
MOST_SHOWN, WIDEST, MOST_NAMES = 40, 100, 10
# The faults for which it matters how the sentence begins.
OF_SENTENCES = (7, 8, 14, 16, 18)

# What a program may be told that could stand at an offset, in this order, each with the spelling by which it is tried
# (docs/FORMATS.md, "What could stand there").
TOLD = {**{word: word for word in (b"yield", b"let", b"doc", *SELECTORS, b"insertAfter", b"delete", b"true", b"false",
                                   b"null", b"replica", b"given", b"schedule", b"exec", b"send", b"recv", b"take",
                                   b"apply", b"done")},
        NAME: b"x", DIGITS: b"100", NUMBER: b"0.5", STRING: b'""',
        **{sign: sign for sign in (b".", b":=", b"=", b"(", b")", b"[", b"]", b"{", b";", b",", b"}")}}

# Where an offset is, from line 1 and column 1 on, in characters, and that line with a caret below the column.
Place = collections.namedtuple("Place", "line column excerpt")

# `message` says what was found and what could be there, `expected` has the latter's parts.
Explanation = collections.namedtuple("Explanation", "place message expected sentence hint")


def sentence_of(number):
    return f"{number} {REFUSALS[number]}: {SENTENCES[number]}"


class Asking(Reader):
    """A reader that keeps what it asked of the token that is next, and where commands and events begin."""

    def __init__(self, text, version=None):
        super().__init__(text, version)
        self.asked_at, self.wanted = 0, []
        self.command_places, self.event_places = [], []

    def want(self, *what):
        if self.asked_at != self.next:
            self.asked_at, self.wanted = self.next, []
        self.wanted += [part for part in what if part not in self.wanted]

    def is_next(self, *spellings):
        self.want(*spellings)
        return super().is_next(*spellings)

    def take_kind(self, *kinds):
        is_told = self.asked_at == self.next and {REPLICA, VARIABLE} & set(self.wanted)
        self.want(*(() if is_told else kinds))
        return super().take_kind(*kinds)

    def end(self):
        self.want(END)
        super().end()

    def digits(self):
        self.want(DIGITS)
        return super().digits()

    def value(self):
        self.want(STRING, NUMBER)
        return super().value()

    def named(self):
        self.want(REPLICA)
        return super().named()

    def expression(self, in_command):
        self.want(VARIABLE)
        return super().expression(in_command)

    def command(self):
        self.command_places.append(self.place)
        return super().command()

    def event(self):
        self.event_places.append(self.place)
        return super().event()

    def stopped(self, read_it):
        """Reads up to where it stops."""
        try:
            read_it(self)
            self.end()
        except Fault:
            pass
        return self


# What a text is: how it is read, of which version, and by which names of replicas where it says neither itself.
Kind = collections.namedtuple("Kind", "read_it version names")
SCENARIO = Kind(lambda reader: reader.scenario(), None, ())
COMMAND = Kind(lambda reader: reader.command(), None, ())


def event_of(version, names):
    """The kind of text that an event is by itself."""
    return Kind(lambda reader: reader.event(), version, names)


def reader_of(text, kind):
    """What the text asked of a reader, or none where it has no tokens."""
    try:
        return Asking(text, kind.version).stopped(kind.read_it)
    except Fault:
        return None


def wanted_behind(text, part):
    """What could come behind the beginning of a part of a scenario, `Asking.command` or `Asking.event`, up to which
    nothing is wrong; nothing behind what is no such beginning."""
    try:
        text.decode()
        reader = Asking(text, 2)
    except (Fault, UnicodeDecodeError):
        return []
    try:
        part(reader)
        reader.end()
    except Fault:
        pass
    is_at_end = reader.tokens[reader.next][0] == END and reader.asked_at == reader.next
    return [each for each in reader.wanted if each != END] if is_at_end else []


def expected_at(text, offset):
    """What could stand at the offset at which a scenario's text fits nothing or ends too early, as a program is told."""
    wanted = {NAMES.get(part, part) for part in reader_of(text, SCENARIO).wanted}
    return [told if isinstance(told, bytes) else told.encode() for told, tried in TOLD.items()
            if told in wanted and offset + 1 + len(tried) <= MOST_BYTES]


# ---- places


def width(text):
    """How many columns of a terminal the text takes."""
    return sum(0 if unicodedata.combining(c) else 1 + (unicodedata.east_asian_width(c) in "WF") for c in text)


def visible(text):
    return "".join(c if c.isprintable() else " " if c == "\t" else "\ufffd" for c in text)


def excerpt_of(line, column):
    """The line, or what of a long one is around the column, with a caret below; nothing where the line is empty."""
    first = max(0, min(column - 1 - WIDEST // 2, len(line) - WIDEST))
    last = first + WIDEST
    before = (".." if first else "") + visible(line[first:column - 1])
    after = visible(line[column - 1:last]) + (".." if len(line) > last else "")
    return f"{before}{after}".rstrip() + f"\n{' ' * width(before)}^" if line else ""


def place_of(text, offset):
    """Where the offset is. The text's end is behind its last token."""
    if offset >= len(text):
        offset = len(text.rstrip(BLANKS))
    start = text.rfind(b"\n", 0, offset) + 1
    end = text.find(b"\n", offset)
    line = text[start:len(text) if end < 0 else end].decode(errors="replace").rstrip("\r")
    column = len(text[start:offset].decode(errors="replace")) + 1
    return Place(text.count(b"\n", 0, offset) + 1, column, excerpt_of(line, column))


# ---- what was found, and what could be there


def quoted(spelling):
    shown = visible(spelling.decode(errors="replace"))
    return f"`{shown}`" if len(shown) <= MOST_SHOWN else f"`{shown[:MOST_SHOWN - 2]}..`"


def spelling_at(text, offset):
    """The token at the offset, or what looks like a number, a name, a string or an escape; else a character or a
    byte."""
    try:
        return text[offset:token(text, offset)[1]]
    except Fault:
        pass
    if looks := LOOKS.match(text, offset):
        return looks[0]
    return character_at(text, offset) or text[offset:offset + 1]


def character_at(text, offset):
    """The bytes of the character that begins there, or none where none does."""
    for end in range(offset + 1, offset + 5):
        try:
            return text[offset:end].decode() and text[offset:end]
        except UnicodeDecodeError:
            continue
    return None


def found_at(text, offset):
    """What is at the offset, in words."""
    if offset >= len(text):
        return AT_END
    spelling = spelling_at(text, offset)
    character = spelling.decode(errors="replace")
    if character in UNSEEN:
        return UNSEEN[character]
    if len(character) == 1 and (character == "\ufffd" or not character.isprintable()):
        return f"the byte {spelling[0]:02X}"
    return quoted(spelling)


def listed(parts):
    """`a`, `b` or `c`, with what closes a block last."""
    words = [KINDS.get(part) or f"`{part.decode()}`" for part in sorted(parts, key=lambda part: part == b"}")]
    return " or ".join([", ".join(words[:-1]), words[-1]] if words[1:] else words)


# ---- hints


def unclosed(reader):
    """The place of the innermost opening bracket that nothing closes, and its spelling; or none."""
    opened = []
    for kind, spelling, place in reader.tokens:
        if kind == SIGN and spelling in (b"{", b"(", b"["):
            opened.append((place, spelling))
        elif kind == SIGN and spelling in (b"}", b")", b"]") and opened:
            opened.pop()
    return opened[-1] if opened else None


def close_to(word, words):
    """Which of the words a reader may have meant, or none."""
    spelt = [w.decode() for w in words if isinstance(w, bytes) and w[:1] not in b".(){}[],;:="]
    near = difflib.get_close_matches(word, spelt, 1, 0.6)
    return near[0] if near and near[0] != word else None


def names_in(reader):
    """The names behind the word `replica`, as they come."""
    pairs = zip(reader.tokens, reader.tokens[1:])
    return [name for (_, word, _), (kind, name, _) in pairs if word == b"replica" and kind == NAME]


def near_name(found, names):
    """Which of the names of replicas may be meant, or all."""
    near = close_to(found, names)
    return f"is it `{near}`?" if near else "the replicas are " + ", ".join(map(quoted, names[:MOST_NAMES]))


def nearest(before, found, wanted):
    """A question that names the word that may be meant, for what is found or for the word before it; or none."""
    near = close_to(found, wanted)
    last = re.search(r"(\w+)$", before)
    if not near and last and b":=" in wanted:
        near = close_to(last[0], (b"yield", b"let"))
    return near and f"is it `{near}`?"


def row_that_fits(number, found, before, wanted):
    for numbers, at, behind, asked, hint in HINTS:
        fits = number in numbers and re.fullmatch(at, found, re.DOTALL) and re.search(behind, before)
        if fits and all(part in wanted for part in asked):
            return hint.replace("FOUND", found)
    return None


def hint_of(text, offset, number, reader, names=()):
    """What a reader who made a usual slip is told besides, or an empty text."""
    found = spelling_at(text, offset).decode(errors="replace") if offset < len(text) else ""
    before = text[max(0, offset - 200):offset].decode(errors="replace").rstrip()
    if number == 8 and (opening := unclosed(reader)):
        place = place_of(text, opening[0])
        return f"the `{opening[1].decode()}` of line {place.line}, column {place.column} isn't closed"
    if number == 18:
        return near_name(found, names or names_in(reader))
    wanted = {14: [b"jsoncrdt"], 16: [b"replica"]}.get(number) or (reader.wanted if reader else [])
    hints = nearest(before, found, wanted), row_that_fits(number, found, before, wanted)
    return " ".join(filter(None, hints))


# ---- all together


def explained(text, offset, number, kind=SCENARIO):
    """What is said of a text of this kind that is refused for this number at the offset."""
    reader = reader_of(text, kind) if number in OF_SENTENCES else None
    expected = reader.wanted if reader and number in (7, 8) else []
    message = f"found {found_at(text, offset)}" + (f", expected {listed(expected)}" if expected else "")
    hint = hint_of(text, offset, number, reader, kind.names)
    return Explanation(place_of(text, offset), message, expected, sentence_of(number), hint)
