"""What executes scenarios: a program, or the rules in Python here. Both answer the words of a command line about the
text of a scenario (`tell`), and all else here is made of that. A program is asked through processes of its `serve`, as
many as threads ask at once; one that has none yet is started for each call.

Each function takes a scenario or its text, and `by`, the machine that is asked. A text that is no scenario is raised as
Refused, an event that no rule allows as Stuck."""

import atexit
import contextlib
import functools
import io
import json
import os
import subprocess
import warnings
from typing import Any, NamedTuple

from . import answers, choosing
from .oracle.program import command_line
from .serving import Foreign, Lost, Process, has_serve, line_of_refusal, with_room

REFUSED, STUCK = 1, 3
LONGEST_CALL = 600  # seconds
AT_ONCE, MOST_AT_ONCE = 50, 1 << 20  # scenarios that a program is asked about at once, and about how many bytes


class Told(NamedTuple):
    """What a call wrote on both streams, and its status. Of one through `serve` no text but the values of its lines of
    JSON, and what the journal tells of the event that is stuck."""

    output: str
    errors: str
    status: int
    rows: list[Any] | None = None
    stuck: dict[str, Any] | None = None


class Rules:
    """The rules in Python. Nothing of what they tell is proved."""

    has_effects = True

    def tell_all(self, words, texts):
        return [self.tell(words, text) for text in texts]

    def tell(self, words, text):
        out, err = io.BytesIO(), io.StringIO()
        status = with_room(command_line, [*words, "-"], io.BytesIO(text), out, err)
        return Told(out.getvalue().decode(), err.getvalue(), status)


class Pool:
    """Processes of a program's `serve`: `idle` are those that nobody asks. One that is asked by nobody else is taken, or
    begun where there is none."""

    def __init__(self, path):
        self.path, self.idle = path, []
        atexit.register(self.end)

    @contextlib.contextmanager
    def one(self):
        """One for all that is asked about a text."""
        try:
            process = self.idle.pop()
        except IndexError:
            process = Process(self.path)
        try:
            yield process
        finally:
            self.idle.append(process)

    def end(self):
        for process in self.idle:
            process.end()


@functools.cache
def pool_of(path):
    """The processes of a program, which all that ask it share."""
    return Pool(path)


class Program:
    """A program, by its path."""

    def __init__(self, path):
        self.path = path

    @property
    def has_effects(self):
        return has_serve(self.path)

    def tell(self, words, text):
        return self.tell_all(words, [text])[0]

    def tell_all(self, words, texts):
        """What is told of each text. A process of serve is asked about all of them at once."""
        if not has_serve(self.path):
            return [self.call(words, text) for text in texts]
        try:
            with pool_of(self.path).one() as served:
                found = served.bring_and_ask(texts, *known_at_once(*words))
                return [told_of(served, words, *each) for each in found]
        except (Lost, Foreign) as fault:
            raise answers.NoAnswer(f"{self.path}: {fault}") from fault

    def call(self, words, text):
        try:
            ended = subprocess.run([self.path, *words, "-"], input=text, capture_output=True, check=False,
                                   timeout=LONGEST_CALL)
        except (OSError, subprocess.TimeoutExpired) as error:
            raise answers.NoAnswer(f"{self.path}: {error}") from error
        output, errors = (stream.decode(errors="replace") for stream in (ended.stdout, ended.stderr))
        return Told(output, errors, ended.returncode)


# By which request of `serve` a command shows what there is.
SHOWS = {"view": "view", "run": "state"}


def known_at_once(command, *options):
    """The requests of a command that don't follow from an answer, so that they are written with the text."""
    if command == "journal":
        return [" ".join([command, *options])]
    if command == "weave":
        return [" ".join([command, *options[1::2]]), "print"]
    return ["goto end", SHOWS[command]] if command in SHOWS and not options else []


def told_of(served, words, counts, *found):
    """What the words of a command line tell of a text: of its counts, and of the answers to what was asked with it."""
    command, *options = words
    if "refused" in counts:
        return Told(line_of_refusal(counts["refused"]) + "\n", "", REFUSED)
    if command == "check":
        return Told("", "", 0, [{name: count for name, count in counts.items() if name != "stuck"}])
    if command == "journal":
        [rows] = found
        return Told("", "", STUCK if rows and "stuck" in rows[-1] else 0, rows)
    if "stuck" in counts:
        return Told("", "", STUCK, [], counts["stuck"])
    return woven(*found) if command == "weave" else shown(*found or shown_at(served, counts, command, options[1]))


def shown_at(served, counts, command, at):
    """What a command shows at a position: what answers the way there, and the rows."""
    return served.ask("goto end" if int(at) > counts["events"] else f"goto {at}"), served.ask(SHOWS[command])


def shown(moved, rows):
    return Told("", "", STUCK if "stuck" in moved else 0, rows, moved.get("stuck"))


def woven(weave, printed):
    text = "".join([printed.rpartition("\nschedule {\n")[0], "\nschedule {\n",
                    *(f"  {event};\n" for event in weave["events"]), "}\n"])
    return Told(text, "", STUCK if any("stuck" in end for end in weave["ends"]) else 0, weave["ends"])


def machine():
    """The machine of the program that is asked (choosing.py). Where it is the rules in Python that is said, once."""
    path = choosing.program()
    if path:
        return Program(path)
    say_unproved(f"{choosing.VARIABLE} names them" if os.environ.get(choosing.VARIABLE) else choosing.lack())
    return Rules()


@functools.cache
def say_unproved(lack):
    """Says it where a scenario is asked: machine, called, a function here and a method of the scenario are between."""
    warnings.warn(f"the rules in Python answer, unproved: {lack}", answers.Unproved, stacklevel=6)


class Call:
    """What a machine has told of a scenario, which raises what is refused. `rows` are the values of its lines of
    JSON."""

    def __init__(self, text, by, told):
        self.text, self.machine, self.told = text, by, told
        self.lines = self.told.output.split("\n")[:-1]
        if self.told.status == REFUSED and self.lines and self.lines[0].startswith("refused "):
            _, number, name, _, offset = self.lines[0].split()
            raise answers.Refused(self.text, int(number), name, int(offset))
        if self.told.status not in (0, STUCK):
            said = self.told.errors.strip().rpartition("\n")[2] or "and nothing else is told"
            raise answers.NoAnswer(f"it ended with status {self.told.status}: {said}")

    @property
    def rows(self):
        if self.told.rows is not None:
            return self.told.rows
        return with_room(lambda: [json.loads(line) for line in self.lines if line.startswith("{")])

    def read(self, read):
        """What is read of the lines of JSON. Where an event is stuck it is raised, with what was read."""
        rows = self.rows
        if not rows and self.told.status == 0:
            raise answers.NoAnswer("what was asked is no jsoncrdt: it tells of no replica")
        found = with_room(read, rows)
        if self.told.status == STUCK:
            self.raise_stuck(found)
        return found

    def raise_stuck(self, before):
        """Raises the event that is stuck, of which the journal tells most."""
        raise answers.Stuck(self.told.stuck or called(["journal"], self.text, self.machine).rows[-1], before)


def bytes_of(scenario):
    text = scenario if isinstance(scenario, (str, bytes)) else scenario.text()
    return text.encode() if isinstance(text, str) else text


def called(words, scenario, by):
    """The call of a machine for a scenario."""
    text, by = bytes_of(scenario), by or machine()
    return Call(text, by, by.tell(words, text))


def check(scenario, by=None):
    """How much there is of a scenario."""
    call = called(["check"], scenario, by)
    return answers.Counts(**call.rows[0]) if call.rows else answers.counts(call.lines[0])


def view(scenario, at=None, by=None):
    """The documents after `at` events, or after all, by the names of the replicas."""
    return called(["view"] if at is None else ["view", "--at", str(at)], scenario, by).read(answers.documents_of)


def views(scenarios, by=None):
    """For each scenario what `view` gives, or the Refused or Stuck that it raises. A program is asked about many of
    them at once, which takes less time."""
    return views_by(scenarios, by or machine())


def views_by(scenarios, by):
    for texts in portions(map(bytes_of, scenarios)):
        for text, told in zip(texts, by.tell_all(["view"], texts)):
            try:
                yield Call(text, by, told).read(answers.documents_of)
            except (answers.Refused, answers.Stuck) as why:
                yield why


def portions(texts):
    """Lists of texts: as many as are asked about at once, but fewer where they are long."""
    portion, size = [], 0
    for text in texts:
        portion.append(text)
        size += len(text)
        if len(portion) >= AT_ONCE or size >= MOST_AT_ONCE:
            yield portion
            portion, size = [], 0
    if portion:
        yield portion


def run(scenario, by=None):
    """The states at the end, by the names of the replicas."""
    return called(["run"], scenario, by).read(answers.states)


def has_effects(by):
    """Whether what is asked tells effects."""
    return by.has_effects if by else not choosing.program() or has_serve(choosing.program())


def journal(scenario, trace=False, effects=False, by=None):
    """The events, given ones first; with `trace` their rules, with `effects` what they changed. A program that has no
    serve has no effects: for these the rules in Python are asked, whatever `by` is, which is said."""
    if effects and not has_effects(by):
        say_unproved("effects come from them alone")
        by = Rules()
    told = called(["journal"] + ["--trace"] * trace + ["--effects"] * effects, scenario, by).rows
    made = with_room(lambda: [answers.event(line) for line in told if "stuck" not in line])
    if len(made) < len(told):
        raise answers.Stuck(told[-1], made)
    return made


def weave(scenario, seed=0, limit=10_000, by=None):
    """The text of the scenario with the schedule of a seed, and how each replica ended, by its name."""
    call = called(["weave", "--seed", str(seed), "--limit", str(limit)], scenario, by)
    if call.told.rows == [] or call.told.output.startswith("refused "):
        call.raise_stuck(None)
    return call.told.output, answers.ends(call.told.rows or call.told.errors.split("\n"))
