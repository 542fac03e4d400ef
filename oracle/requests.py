"""The requests of `serve`, as they are read (docs/FORMATS.md, "Serve: requests")."""

import re

from .debugger import Refusal
from .grammar import read_expression
from .lines import BAD, NUMBER, UNKNOWN, number_of, read_line, without_end, words_of
from .streams import reason_of
from .weave import LARGEST_SEED

MOST_REQUESTS, MOST_BYTES = 2 ** 32, 2 ** 40
LONGEST_LINE, PIECE = 4096, 1 << 16
# Of a longer text no byte behind these is looked at.
MOST_OF_TEXT = 8_388_609
MOST_EVENTS = 100_000
POSITION = re.compile(rb"0|-?[1-9][0-9]{0,9}")
SEED = re.compile(rb"0|[1-9][0-9]{0,19}")
IDENTIFIER = re.compile(rb"(0|[1-9][0-9]{0,9})@([A-Za-z_][0-9A-Za-z_]*)")
# The forms of the requests that a session hasn't: the word, and what may stand behind it, in this order. An option is
# there or isn't; so is a part in brackets.
AT, TRACE, EFFECTS = b"--at", b"--trace", b"--effects"
NAMED = {"view": (AT,), "state": (AT,), "brief": (AT,)}
ALONE = ("places", "print", "breaks")


class AnyName(list):
    """The names of the replicas where there is no scenario: any name may be one."""

    def __contains__(self, name):
        return True

    def index(self, name):
        return 0


class TooMany(Exception):
    """More requests, or bytes of them, than there may be."""


class NotRead(Exception):
    """Why standard input can't be read."""


class Input:
    """Standard input, by lines and texts, up to its bounds."""

    def __init__(self, source, most_requests=MOST_REQUESTS, most_bytes=MOST_BYTES):
        self.source, self.count, self.size = source, 0, 0
        self.most_requests, self.most_bytes = most_requests, most_bytes

    def read(self, read, most):
        try:
            piece = read(most)
        except OSError as error:
            raise NotRead(reason_of(error)) from error
        self.size += len(piece)
        if self.size > self.most_bytes:
            raise TooMany
        return piece

    def line(self):
        """The next line, none at the input's end. Of one that is too long it is a beginning that is so, too."""
        line = piece = self.read(self.source.readline, LONGEST_LINE + 2)
        while len(piece) > LONGEST_LINE and not piece.endswith(b"\n"):
            piece = self.read(self.source.readline, PIECE)
        self.count += bool(line)
        if self.count > self.most_requests:
            raise TooMany
        return line or None

    def text(self, size):
        """So many bytes. Of a text that is too long it is a beginning that is so, too."""
        kept, left = [], size
        while left:
            piece = self.read(self.source.read, min(left, PIECE))
            if not piece:
                raise NotRead("it ends within a text")
            if size - left < MOST_OF_TEXT:
                kept.append(piece)
            left -= len(piece)
        return b"".join(kept)[:MOST_OF_TEXT]


# ---- what a request asks: a tuple of its word and what it goes with


def taken_options(rest, options):
    """The options at the beginning of the words, in this order, and the words behind them."""
    found = {}
    for option in options:
        if rest[:1] != [option]:
            continue
        if option == AT and not (rest[1:] and POSITION.fullmatch(rest[1])):
            raise Refusal(BAD)
        found[option] = int(rest[1]) if option == AT else True
        rest = rest[2 if option == AT else 1:]
    return found, rest


def behind(line, count):
    """The text of a line behind so many words and the blanks behind them."""
    return re.sub(rb"\A[ \t]*(?:[^ \t]+[ \t]*){%d}" % count, b"", line)


def expression_of(line, count, name, names):
    """The replica with this name, and the expression that stands behind so many words."""
    number, text = number_of(name, names), behind(line, count)
    expression, fault = read_expression(text)
    if fault:
        raise Refusal(fault[1], fault[0], text)
    return number, expression


def evaluation(line, words, names):
    """A request that evaluates an expression at a replica."""
    found, rest = taken_options(words[1:], (AT,))
    if not rest:
        raise Refusal(BAD)
    count = len(words) - len(rest) + 1
    return (words[0].decode(), found.get(AT), *expression_of(line, count, rest[0], names))


def breakpoint_of(line, words, names):
    """The breakpoints that a session hasn't."""
    if words[1] == b"place" and len(words) > 2:
        return ("break", ("place", *expression_of(line, 3, words[2], names)))
    found = IDENTIFIER.fullmatch(words[2]) if words[1] == b"op" and len(words) == 3 else None
    if not found:
        raise Refusal(BAD)
    return ("break", ("op", (int(found[1]), number_of(found[2], names))))


def shown(word, rest, names):
    """A request that shows one replica, or each."""
    found, rest = taken_options(rest, NAMED[word])
    if len(rest) > 1 or word == "brief" and not rest:
        raise Refusal(BAD)
    return (word, found.get(AT), number_of(rest[0], names) if rest else None)


def journal_of(rest):
    found, rest = taken_options(rest, (TRACE, EFFECTS))
    if len(rest) not in (0, 2) or not all(map(POSITION.fullmatch, rest)):
        raise Refusal(BAD)
    return ("journal", flags_of(found), *map(int, rest))


def event_of(rest):
    found, rest = taken_options(rest, (AT, TRACE, EFFECTS))
    if rest:
        raise Refusal(BAD)
    return ("event", found.get(AT), flags_of(found))


def flags_of(found):
    return {option.decode() for option in (TRACE, EFFECTS) if option in found}


def weave_of(rest):
    if len(rest) != 2 or not SEED.fullmatch(rest[0]) or not NUMBER.fullmatch(rest[1]):
        raise Refusal(BAD)
    seed, limit = map(int, rest)
    if seed > LARGEST_SEED or limit > MOST_EVENTS:
        raise Refusal(BAD)
    return ("weave", seed, limit)


def read_request(line, names, version):
    """What a line asks of a scenario with these replicas. Where it is refused Refusal is raised."""
    words = words_of(line)
    word, rest = words[0].decode() if words else "", words[1:]
    if word == "view" and len(taken_options(rest, NAMED[word])[1]) > 1:
        return evaluation(without_end(line), words, names)
    if word in NAMED:
        return shown(word, rest, names)
    if word == "event":
        return event_of(rest)
    if word == "journal":
        return journal_of(rest)
    if word == "weave":
        return weave_of(rest)
    if word == "eval":
        return evaluation(without_end(line), words, names)
    if word == "break" and rest[:1] in ([b"op"], [b"place"]):
        return breakpoint_of(without_end(line), words, names)
    if word in ALONE and not rest:
        return (word,)
    if word == "scenario" and len(rest) == 1 and NUMBER.fullmatch(rest[0]):
        return (word, int(rest[0]))
    if (word, rest) in (("back", [b"run"]), ("goto", [b"end"])):
        return (f"{word}_{rest[0].decode()}",)
    asked = read_line(line, names, version)
    if not asked:
        raise Refusal(BAD)
    return asked
