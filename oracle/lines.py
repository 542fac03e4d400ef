"""The lines of a session as they are read: what each asks, as session.py takes it, or the text that refuses it."""

import re

from .debugger import Refusal
from .grammar import read_event

MOST_OF_LINE = 4096
RULES = """
EXEC LET VAR DOC GET IDX1 IDX2 IDX3 IDX4 IDX5 KEYS1 KEYS2 KEYS3 VAL1 VAL2 VAL3 MAKE-ASSIGN MAKE-INSERT MAKE-DELETE
MAKE-OP APPLY-LOCAL SEND RECV RECV-ONE APPLY-REMOTE DONE DESCEND CHILD-GET CHILD-MAP CHILD-LIST CHILD-REG ADD-ID1
ADD-ID2 PRESENCE1 PRESENCE2 ASSIGN EMPTY-MAP EMPTY-LIST INSERT1 INSERT2 DELETE CLEAR-ELEM CLEAR-ANY CLEAR-NONE CLEAR-REG
CLEAR-MAP1 CLEAR-MAP2 CLEAR-MAP3 CLEAR-LIST1 CLEAR-LIST2 CLEAR-LIST3
""".split()
OF_VERSION_TWO = ("RECV-ONE",)
ALONE = ("run", "trace", "enabled", "schedule", "where", "quit")
# How each line is written, by its first word.
FORMS = {"step": "step [N]", "back": "back [N]", "goto": "goto N", "act": "act EVENT", "state": "state [NAME]",
         "break": "break at N, break rule RULE or break replica NAME", "unbreak": "unbreak K",
         "compare": "compare NAME NAME", **{word: word for word in ALONE}}
NUMBER = re.compile(rb"0|[1-9][0-9]{0,9}")
BAD, UNKNOWN = 58, 18


def without_end(line):
    """The line without its LF and one CR right before it. A CR without LF stays."""
    return re.sub(rb"\r?\n\Z", b"", line)


def is_rule(name, version):
    """Whether a rule of this version has the name."""
    return name in RULES and (version == 2 or name not in OF_VERSION_TWO)


def number_of(name, names):
    """The number of the replica with this name."""
    if name not in names:
        raise Refusal(UNKNOWN)
    return names.index(name)


def breakpoint_of(kind, what, names, version):
    if kind == "at" and NUMBER.fullmatch(what):
        return ("break", ("at", int(what)))
    if kind == "rule" and is_rule(what.decode(), version):
        return ("break", ("rule", what.decode()))
    if kind == "replica":
        return ("break", ("replica", number_of(what, names)))
    raise Refusal(BAD)


def named(word, rest, names):
    """A line that names replicas: state with one or none, compare with two."""
    return (word, *([number_of(name, names) for name in rest] or [None]))


def event_text(line):
    """The text of the event of `act`: the rest of the line behind the word and its blanks."""
    return re.sub(rb"\A[ \t]*act[ \t]*", b"", line)


def event_of(text, names, version):
    event, fault = read_event(text, names, version)
    if fault:
        raise Refusal(fault[1], fault[0], text)
    return ("act", event)


def words_of(line):
    """The words of a line without its end. One that is too long, or has a byte beyond ASCII, is refused."""
    if len(line) - line.endswith(b"\n") > MOST_OF_LINE or not line.isascii():
        raise Refusal(BAD)
    return [word for word in re.split(rb"[ \t]+", without_end(line)) if word]


def read_line(line, names, version):
    """What a line asks in a session of a scenario of this version: a tuple, or none where it has no word. Where it is
    refused Refusal is raised."""
    words = words_of(line)
    if not words:
        return None
    word, rest = words[0].decode(), words[1:]
    if word == "act":
        return event_of(event_text(without_end(line)), names, version)
    if word in ALONE and not rest:
        return (word,)
    if word in ("step", "back") and not rest:
        return (word, 1)
    if word in ("step", "back", "goto", "unbreak") and len(rest) == 1 and NUMBER.fullmatch(rest[0]):
        return (word, int(rest[0]))
    if word == "state" and len(rest) <= 1 or word == "compare" and len(rest) == 2:
        return named(word, rest, names)
    if word == "break" and len(rest) == 2:
        return breakpoint_of(rest[0].decode(), rest[1], names, version)
    raise Refusal(BAD)
