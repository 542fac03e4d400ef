"""The commands of the program, by the rules in Python: texts and statuses are those of docs/FORMATS.md."""

import collections
import itertools
import os
import re

from . import explaining
from .debugger import Refusal
from .grammar import read
from .journal import write_journal
from .lines import read_line
from .refusal import close_to
from .requests import Input
from .rules import GivenStuck, Stuck, change, start
from .serve import serve
from .session import Session
from .streams import reason_of
from .texts import Texts, counts_of, refused
from .view import line_of
from .weave import LARGEST_SEED, weave, woven

VERSION = "jsoncrdt 2.0.0\n"
USAGE = "usage: oracle/jsoncrdt check|print|run|view|journal|weave|debug FILE, or serve    (help says more)"
HELP = """\
usage: oracle/jsoncrdt [--explain] COMMAND FILE   (FILE - is standard input; no arguments are run --trace -)
       oracle/jsoncrdt help | --version

The program by the same rules, written once more in Python. Nothing of it is proved. After --explain, and in a terminal,
it says besides why a text is refused or an event stuck.

  check FILE            is this text a scenario? prints how many replicas, commands and events it has
  print FILE            prints the scenario in its canonical text
  run [--trace] FILE    executes the schedule and prints each replica's state, as a line of JSON;
                        with --trace the rules that each event used come first (this may be long)
  view [--at N] FILE    prints each replica's document as an application sees it, after N events
  journal [--trace] [--effects] FILE
                        prints a line of JSON for each event, with its operation in full, and for the
                        one that is stuck with why; with --effects what each changed at which places
  weave [--seed N] [--limit N] FILE
                        prints the scenario with a schedule drawn from the seed (0 unless it is said):
                        each replica chooses its events as its thread does, up to the limit (10,000);
                        yields between commands make schedules that end differently; a command that is
                        stuck, since it needs what others made, wants more yields before it, or that as
                        the past, in a block given { .. }
  debug FILE            the debugger: steps forwards and backwards by lines of standard input (`act`
                        cuts off the rest of the schedule for good); in a terminal it is tools/debug,
                        which has a prompt, a history and Tab, and `help` lists the lines
  serve                 for programs: answers requests of standard input, a line each, by a line of JSON; a
                        request can be a scenario, so one process answers for many (docs/PROGRAMS.md; here
                        only: the proved program has no serve yet)

A scenario of version 2 begins with `jsoncrdt 2`, and may have a block `given { .. }` of events before its
schedule, which are made before event 1.

Statuses: 0 done; 1 the text was refused; 2 wrong arguments; 3 an event is stuck, also one that is given;
4 a file can't be read or the output not be written; 5 Python's own limits.

Not here: `threads`, which runs each replica in a thread of its own. The proved program has it.
"""
SERVE = "serve"
COMMANDS = ("check", "print", "run", "view", "journal", "weave", "debug", SERVE)
MOST_LINES, MOST_OF_LINES, MOST_EVENTS = 1_000_000, 67_108_864, 100_000

# The options without a value, and their commands.
FLAGS = {"--trace": ("run", "journal"), "--effects": ("journal",)}
# The options with a value, their commands, the greatest value and what it is where it isn't said.
OPTIONS = {
    "--at": ("view", MOST_EVENTS, MOST_EVENTS),
    "--seed": ("weave", LARGEST_SEED, 0),
    "--limit": ("weave", MOST_EVENTS, 10_000),
}

Order = collections.namedtuple("Order", "command file flags numbers")


class BadWords(Exception):
    pass


class NotRead(Exception):
    """A file or standard input that can't be read, and why."""


def meant(words):
    """The words as they are read: `help` is `--help`, and `help TOPIC` is `TOPIC --help`."""
    if words[:1] != ["help"]:
        return words
    return ["--help"] if words[1:2] in ([], ["help"]) else [words[1], "--help"]


def asked(words):
    """The text that is asked for without a scenario, help or the version, or none."""
    words = meant(words)
    if words[:1] in (["--version"], ["-V"]):
        return VERSION
    options = itertools.takewhile(lambda word: word != "--", words)
    if {"--help", "-h"} & set(options) and words[0] in (*COMMANDS, "threads", "--help", "-h"):
        return HELP
    return None


def taken(words, number):
    """The word with this number, which must be there."""
    if number == len(words):
        raise BadWords(f"{words[-1]} needs a value")
    return words[number]


def number_in(word, most):
    """The number that the word is: digits, as many zeros first as one likes, and before them a plus or none."""
    # No limit has 21 digits, and Python reads no number of some thousands.
    digits = word.removeprefix("+").lstrip("0")[:21] or "0"
    if not re.fullmatch(r"\+?[0-9]+", word) or int(digits) > most:
        raise BadWords(f"{word} is no number from 0 to {most}")
    return int(digits)


def tip(word, command=None):
    """What may be meant by a word that is no command, or by one that is no option of the command."""
    known = {flag: " and ".join(of) for flag, of in FLAGS.items()} | {option: of[0] for option, of in OPTIONS.items()}
    option = word.partition("=")[0]
    if command is None:
        near = close_to(word, [name.encode() for name in COMMANDS])
        if near or word.startswith("-"):
            return f"; is it {near}?" if near else "; options are behind the command"
        return "; a command is before the FILE, as in run FILE" if os.path.exists(word) else ""
    if option in ("--explain", "--unproved"):
        return f"; {option} is before the command"
    near = close_to(option, [name.encode() for name in known])
    return f"; {option} is an option of {known[option]}" if option in known else f"; is it {near}?" if near else ""


def order_of(words):
    """What the words ask for."""
    if not words:
        return Order("run", "-", {"--trace"}, {})
    words = meant(words)
    command, files, flags, numbers, number = words[0], [], set(), {}, 1
    if command == "threads":
        raise BadWords("threads is a command of the proved program alone; weave draws a schedule here")
    if command not in COMMANDS:
        raise BadWords(f"there is no command {command}{tip(command)}")
    options = True
    while number < len(words):
        word = words[number]
        number += 1
        option, equals, value = word.partition("=")
        if options and word == "--":
            options = False
        elif options and command in FLAGS.get(word, ()) and word not in flags:
            flags.add(word)
        elif options and OPTIONS.get(option, ("",))[0] == command and option not in numbers:
            numbers[option] = number_in(value if equals else taken(words, number), OPTIONS[option][1])
            number += not equals
        elif options and word.startswith("-") and word != "-":
            raise BadWords(f"{command} has no option {word}, or has it already{tip(word, command)}")
        else:
            files.append(word)
    if command == SERVE:
        if files:
            raise BadWords(f"{SERVE} has no FILE: a scenario is a request to it")
        return Order(command, None, flags, numbers)
    if len(files) != 1:
        raise BadWords(f"{command} needs one FILE, and {len(files)} are given; - is standard input")
    return Order(command, files[0], flags, {option: of[2] for option, of in OPTIONS.items()} | numbers)


def made(scenario, events, texts=None, out=None):
    """The network after the events, and how many were made, with why the next one is stuck. Blocks go to the output."""
    network = start(scenario)
    for number, event in enumerate(events, 1):
        trace = []
        try:
            change(network, event, trace)
        except Stuck as stuck:
            return made(scenario, events[:number - 1])[0], number - 1, stuck
        if out:
            out.write(texts.block(number, event, trace))
    return network, len(events), None


def show(order, scenario, out):
    """Executes the schedule, and shows states or documents."""
    texts, events = Texts(scenario.names), scenario.schedule[:order.numbers.get("--at")]
    network, count, stuck = made(scenario, events, texts, out if "--trace" in order.flags else None)
    for replica in network:
        out.write(line_of(texts, replica) if order.command == "view" else texts.dump(replica))
    if stuck:
        out.write(texts.stuck(stuck, events[count]))
    return 3 if stuck else 0


def lines_of(source):
    """The lines of a session, up to its limits; none stands for what is past them."""
    size = 0
    try:
        for number, line in enumerate(source, 1):
            size += len(line)
            if number > MOST_LINES or size > MOST_OF_LINES:
                yield None
                return
            yield line
    except OSError as error:
        raise NotRead(f"standard input: {reason_of(error)}") from error


def answer(session, line):
    """The answer to a line, or none where it ends the session."""
    try:
        asked = read_line(line, session.texts.names, session.version)
    except Refusal as refusal:
        return refused(refusal.number, refusal.place)
    if asked == ("quit",):
        return None
    return session.answer(asked) if asked else b""


def debug(session, lines, out, err, told=None):
    """Answers the lines; `told`, where it is there, says more of a line by its number, itself and its answer."""
    for number, line in enumerate(lines_of(lines), 1):
        if line is None:
            err.write("too many lines\n")
            return 4
        text = answer(session, line)
        if text is None:
            break
        out.write(text)
        out.flush()
        if told:
            err.write(told(number, line, text))
    return 0


def text_of(file, source):
    try:
        if file == "-":
            return source.read()
        with open(file, "rb") as opened:
            return opened.read()
    except OSError as error:
        raise NotRead(f"{file}: {reason_of(error)}") from error


def done(order, text, source, out, err, explains_lines):
    """Does what the order says of the text, and gives the status."""
    scenario, fault = read(text)
    if fault:
        out.write(refused(fault[1], fault[0]))
        return 1
    texts = Texts(scenario.names)
    if order.command in ("check", "print"):
        out.write(counts_of(scenario) if order.command == "check" else texts.scenario(scenario))
        return 0
    if order.command == "journal":
        return write_journal(scenario, texts, order.flags, out)
    try:
        if order.command == "weave":
            return weave(scenario, texts, order.numbers["--seed"], order.numbers["--limit"], out, err)
        if order.command != "debug":
            return show(order, scenario, out)
        session = Session(scenario)
    except GivenStuck as given:
        out.write(texts.given_stuck(given))
        return 3
    told = explaining.Lines(order.file, text, session).told if explains_lines else None
    return debug(session, () if order.file == "-" else source, out, err, told)


def reason(order, text):
    """Why the text is refused, or an event stuck in what the order asks of it, which is done once more."""
    scenario, fault = read(text)
    if fault:
        return explaining.of_text(order.file, text, fault)
    places = explaining.Places(order.file, text)
    try:
        if order.command == "weave":
            loom = woven(scenario, order.numbers["--seed"], order.numbers["--limit"])
            ends = [loom.left[p] for p in sorted(loom.left)]
            return "".join(places.of_chosen(loom.network, *end) for end in ends if end[0])
        network, count, stuck = made(scenario, scenario.schedule[:order.numbers.get("--at")])
    except GivenStuck as given:
        return places.of_given(given)
    return places.of_scheduled(network, count, stuck) if stuck else ""


def command_line(words, source, out, err, explains=False, explains_lines=False):
    """Does what the words ask for, and gives the status. Source and out are files of bytes, err is one of text.

    Where it explains, it says on err why a text is refused or an event stuck, and also, where that is asked for, why a
    line of a session is.
    """
    try:
        order = order_of(words)
        if order.command == SERVE:
            return serve(Input(source), out, err)
        text = text_of(order.file, source)
        status = done(order, text, source, out, err, explains_lines)
        if explains and status in (1, 3):
            out.flush()
            err.write(reason(order, text))
        return status
    except BadWords as fault:
        err.write(f"oracle/jsoncrdt: {fault}\n{USAGE}\n")
        return 2
    except NotRead as fault:
        err.write(f"read failed: {fault}\n")
        return 4
