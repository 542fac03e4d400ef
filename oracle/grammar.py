"""The scenario that a text is, or the fault for which it is refused, by docs/FORMATS.md.

A fault is (place, number): the first by place is given, and the least number at one place. The trees of expressions,
commands, values and events are the tuples of rules.py, with replicas by their numbers in the order of their names.
"""

import collections
import json
import re

RESERVED = {b"let", b"doc", b"yield", b"get", b"idx", b"keys", b"values", b"insertAfter", b"delete", b"true", b"false",
            b"null"}
SELECTORS = (b"get", b"idx", b"keys", b"values")
EVENTS = (b"exec", b"send", b"done", b"recv", b"apply")
NAME, NUMBER, STRING, SIGN, END = "name", "number", "string", "sign", "end"
MOST_SELECTORS = 256
MOST_REPLICAS = 64
MOST_COMMANDS = 65_536
MOST_EVENTS = 100_000
MOST_BYTES = 8_388_608
LEAST_TOO_LARGE = 2 ** 32

JSON_NUMBER = re.compile(rb"-?(0|[1-9][0-9]*)(\.[0-9]+)?([eE][+-]?[0-9]+)?")
NUMBER_RUN = re.compile(rb"[0-9-][0-9A-Za-z_+.-]*")
NAME_RUN = re.compile(rb"[A-Za-z_][0-9A-Za-z_]*")
UNICODE = re.compile(rb"\\u([0-9A-Fa-f]{4})")
BLANKS = re.compile(rb"[ \t\r\n]+")
LONGEST = {NAME: 255, NUMBER: 65_535, STRING: 65_535}
# Most tokens, with the blanks before them, at once: a name, a string without escapes, digits, a sign. `token` has all.
PLAIN = re.compile(rb"[ \t\r\n]*+(?:([A-Za-z_][0-9A-Za-z_]{0,254}(?![0-9A-Za-z_]))" rb'|("[^"\\\x00-\x1f]{0,65535}")'
                   rb"|((?:0|[1-9][0-9]{0,9})(?![0-9A-Za-z_+.-]))" rb"|(:=|[.(){}\[\],;=]))")
PLAIN_KINDS = (None, NAME, STRING, NUMBER, SIGN)


class Fault(Exception):
    def __init__(self, place, number):
        super().__init__(place, number)
        self.at = (place, number)


def string_end(text, start):
    """The end of the string that starts there, and how many bytes it spells."""
    at, spelt = start + 1, 0
    while at < len(text):
        byte = text[at]
        if byte == 0x22:
            return at + 1, spelt
        if byte < 0x20:
            raise Fault(at, 1)
        if byte != 0x5C:
            at, spelt = at + 1, spelt + 1
        elif text[at + 1:at + 2] in (b'"', b"\\", b"/", b"b", b"f", b"n", b"r", b"t"):
            at, spelt = at + 2, spelt + 1
        else:
            first = UNICODE.match(text, at)
            if not first:
                raise Fault(at, 3)
            unit = int(first[1], 16)
            if 0xD800 <= unit < 0xDC00:
                second = UNICODE.match(text, at + 6)
                if not second or not 0xDC00 <= int(second[1], 16) < 0xE000:
                    raise Fault(at, 4)
                at, spelt = at + 12, spelt + 4
            elif 0xDC00 <= unit < 0xE000:
                raise Fault(at, 4)
            else:
                at, spelt = at + 6, spelt + len(chr(unit).encode())
    raise Fault(start, 2)


def token(text, at):
    """The kind and the end of the token there."""
    if text[at] == 0x22:
        end, size = string_end(text, at)
        kind = STRING
    elif run := NUMBER_RUN.match(text, at):
        if not JSON_NUMBER.fullmatch(run[0]):
            raise Fault(at, 5)
        kind, end, size = NUMBER, run.end(), len(run[0])
    elif run := NAME_RUN.match(text, at):
        kind, end, size = NAME, run.end(), len(run[0])
    elif text[at:at + 2] == b":=":
        return SIGN, at + 2
    elif text[at] in b".(){}[],;=":
        return SIGN, at + 1
    else:
        raise Fault(at, 1)
    if size > LONGEST[kind]:
        raise Fault(at, 6)
    return kind, end


def tokens(text):
    found, at = [], 0
    while at < len(text):
        if plain := PLAIN.match(text, at):
            group, at = plain.lastindex, plain.end()
            found.append((PLAIN_KINDS[group], plain[group], plain.start(group)))
            continue
        if blanks := BLANKS.match(text, at):
            at = blanks.end()
            continue
        kind, end = token(text, at)
        found.append((kind, text[at:end], at))
        at = end
    return found + [(END, b"", len(text))]


class Reader:
    """Goes through the tokens and gives the trees. Faults of names and numbers are kept, since the sentence goes on
    behind them. Version 2 alone has takes and given events; a scenario says itself of which version it is."""

    def __init__(self, text, version=None):
        self.version = version
        self.tokens = tokens(text)
        self.next = 0
        self.faults = []
        self.asked = []

    @property
    def place(self):
        return self.tokens[self.next][2]

    def is_next(self, *spellings):
        kind, spelling, _ = self.tokens[self.next]
        return kind in (NAME, SIGN) and spelling in spellings

    def misfit(self):
        raise Fault(self.place, 8 if self.tokens[self.next][0] == END else 7)

    def take(self, *spellings):
        """The next token's spelling, which must be one of these."""
        if not self.is_next(*spellings):
            self.misfit()
        self.next += 1
        return self.tokens[self.next - 1][1]

    def take_kind(self, *kinds):
        if self.tokens[self.next][0] not in kinds:
            self.misfit()
        self.next += 1
        return self.tokens[self.next - 1][1]

    def end(self):
        if self.tokens[self.next][0] != END:
            self.misfit()

    def name(self):
        """A name that may not be a reserved word."""
        place = self.place
        spelling = self.take_kind(NAME)
        if spelling in RESERVED:
            self.faults.append((place, 10))
        return spelling

    def digits(self):
        kind, spelling, place = self.tokens[self.next]
        if kind != NUMBER or not spelling.isdigit():
            self.misfit()
        self.next += 1
        if len(spelling) > 10 or int(spelling) >= LEAST_TOO_LARGE:
            self.faults.append((place, 9))
            return LEAST_TOO_LARGE
        return int(spelling)

    def string(self):
        """The bytes that a string stands for."""
        return json.loads(self.take_kind(STRING).decode()).encode()

    def value(self):
        kind = self.tokens[self.next][0]
        if kind == STRING:
            return ("string", self.string())
        if kind == NUMBER:
            return ("number", self.take_kind(NUMBER))
        opening = self.take(b"{", b"[", b"true", b"false", b"null")
        if opening == b"{":
            self.take(b"}")
            return ("map",)
        if opening == b"[":
            self.take(b"]")
            return ("list",)
        return (opening.decode(),)

    def selector(self, made, word):
        """The expression that the selector makes of another."""
        if word not in (b"get", b"idx"):
            return (word.decode(), made)
        self.take(b"(")
        argument = self.string() if word == b"get" else self.digits()
        self.take(b")")
        return (word.decode(), made, argument)

    def expression(self, in_command):
        """An expression, and in a command the word that ends it, if one does."""
        endings = [b"insertAfter", b"delete"] if in_command else []
        if self.is_next(b"doc"):
            self.take(b"doc")
            made = ("doc",)
        else:
            made = ("variable", self.name())
        count = 0
        while self.is_next(b"."):
            dot = self.place
            self.take(b".")
            word = self.take(*SELECTORS, *endings)
            if word in endings:
                return made, word
            count += 1
            if count == MOST_SELECTORS + 1:
                self.faults.append((dot, 12))
            made = self.selector(made, word)
        return made, None

    def command(self):
        if self.is_next(b"yield"):
            self.take(b"yield")
            return ("yield",)
        if self.is_next(b"let"):
            self.take(b"let")
            name = self.name()
            self.take(b"=")
            return ("let", name, self.expression(in_command=False)[0])
        of, word = self.expression(in_command=True)
        if word == b"delete":
            return ("delete", of)
        if word == b"insertAfter":
            self.take(b"(")
            value = self.value()
            self.take(b")")
            return ("insert", of, value)
        self.take(b":=")
        return ("assign", of, self.value())

    def named(self):
        self.asked.append((self.tokens[self.next][1], self.place))
        return self.take_kind(NAME)

    def event(self):
        """An event, with the names of its replicas."""
        replica = self.named()
        self.take(b".")
        word = self.take(*EVENTS, *((b"take",) if self.version == 2 else ())).decode()
        made = (word, replica)
        if word not in ("recv", "take", "apply"):
            return made
        self.take(b"(")
        if word != "apply":
            made += (self.named(),)
        if word == "take":
            self.take(b",")
        if word != "recv":
            made += (self.identifier(),)
        self.take(b")")
        return made

    def identifier(self):
        counter = self.digits()
        self.take(b",")
        return (counter, self.named())

    def block(self, item, most, number):
        """Items in braces, parted by semicolons, of which one may stand behind the last; more than the most have this
        fault."""
        items = []
        self.take(b"{")
        while not self.is_next(b"}"):
            if len(items) == most:
                self.faults.append((self.place, number))
            items.append(item())
            if not self.is_next(b"}"):
                self.take(b";")
        self.take(b"}")
        return items

    def replica(self, scripts):
        self.take(b"replica")
        place = self.place
        name = self.name()
        if name in scripts:
            self.faults.append((place, 15))
        elif len(scripts) == MOST_REPLICAS:
            self.faults.append((place, 17))
        scripts[name] = self.block(self.command, MOST_COMMANDS, 11)

    def header(self):
        for words in ((b"jsoncrdt",), (b"1", b"2")):
            if self.tokens[self.next][1] not in words:
                raise Fault(self.place, 14)
            self.next += 1
        self.version = int(self.tokens[self.next - 1][1])
        if not self.is_next(b"replica"):
            raise Fault(self.place, 16)

    def events(self, word):
        """The events of the block that begins with this word; where it isn't there, none."""
        if not self.is_next(word):
            return []
        self.take(word)
        return self.block(self.event, MOST_EVENTS, 19)

    def scenario(self):
        """The scripts by the names of the replicas, the given events and the schedule."""
        self.header()
        scripts = {}
        while self.is_next(b"replica"):
            self.replica(scripts)
        given = self.events(b"given") if self.version == 2 else []
        schedule = self.events(b"schedule")
        self.end()
        return scripts, given, schedule


Scenario = collections.namedtuple("Scenario", "version names scripts given schedule")


def resolved(event, names):
    """The event by the numbers of its replicas: what is a name, or the second part of an identifier."""

    def by_number(part):
        return (part[0], names.index(part[1])) if isinstance(part, tuple) else names.index(part)

    return (event[0], *map(by_number, event[1:]))


def sentence(reader, read_it):
    """What is read, or the first fault: those which were kept count with the one that ended it."""
    made = None
    try:
        made = read_it()
    except Fault as fault:
        reader.faults.append(fault.at)
    return made, min(reader.faults, default=None)


def unknown(reader, names):
    return min(((place, 18) for spelling, place in reader.asked if spelling not in names), default=None)


def read(text):
    """The scenario that the text is, or its fault; the other is none."""
    if len(text) > MOST_BYTES:
        return None, (MOST_BYTES, 6)
    try:
        text.decode()
    except UnicodeDecodeError as error:
        return None, (error.start, 13)
    try:
        reader = Reader(text)
    except Fault as fault:
        return None, fault.at
    made, fault = sentence(reader, reader.scenario)
    fault = fault or unknown(reader, made[0])
    if fault:
        return None, fault
    scripts, *lists = made
    names = sorted(scripts)
    given, schedule = ([resolved(event, names) for event in events] for events in lists)
    return Scenario(reader.version, names, [scripts[name] for name in names], given, schedule), None


def read_part(text, version, read_it):
    """The reader of a text that is a part of a scenario by itself, what was read, and the fault. One of the last two is
    none; so is the reader where the text has no tokens."""
    try:
        reader = Reader(text, version)
    except Fault as fault:
        return None, None, fault.at

    def whole():
        made = read_it(reader)
        reader.end()
        return made

    return reader, *sentence(reader, whole)


def read_event(text, names, version):
    """The event of these replicas that the text is, or its fault; the other is none."""
    reader, made, fault = read_part(text, version, Reader.event)
    fault = fault or unknown(reader, names)
    return (None, fault) if fault else (resolved(made, names), None)


def read_expression(text):
    """The expression that the text is, or its fault; the other is none."""
    _, made, fault = read_part(text, None, lambda reader: reader.expression(in_command=False)[0])
    return (None, fault) if fault else (made, None)
