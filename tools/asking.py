"""What the tools here have in common: which program they ask and how, and how they read its texts."""

import collections
import contextlib
import errno
import functools
import json
import os
import re
import signal
import subprocess
import sys
import tempfile
import textwrap
import threading

ROOT = os.path.dirname(os.path.dirname(os.path.abspath(__file__)))
sys.path.insert(0, os.path.join(ROOT, "python"))

from jsoncrdt import choosing, serving
from jsoncrdt.choosing import IN_PYTHON
from jsoncrdt.oracle import streams
from jsoncrdt.oracle.streams import READ_OR_WRITE_FAILED, number_from, reason_of, run, say, stop
from jsoncrdt.serving import line_of_refusal

BUILT = os.path.join(ROOT, choosing.BUILT)
ASKED = ("The program that is asked is the one that the variable JSONCRDT of the environment names; else the built "
         "one, where no source is newer; else the rules in Python, oracle/jsoncrdt, which give the same texts.")


class Parser(streams.Parser):
    """The command line of a tool that asks the program: its help says which."""

    def format_help(self):
        return f"{super().format_help()}\n{textwrap.fill(ASKED, 78)}\n"


def program():
    return choosing.program() or IN_PYTHON


def is_in_python():
    """Whether the program is the rules in Python, which a tool can ask in its own process."""
    return choosing.program() is None


def started(words):
    """The program's process with these words, its streams as pipes. It is out of reach of Ctrl-C, which ends a tool
    with what it started, or is the tool's own affair."""
    try:
        return subprocess.Popen([program(), *words], stdin=subprocess.PIPE, stdout=subprocess.PIPE,
                                stderr=subprocess.PIPE, start_new_session=True)
    except OSError as error:
        return stop(f"{program()}: {reason_of(error)}")


def ended_by(process, content):
    """The process when it has ended, with all that it wrote. This is its input."""
    with process:
        try:
            output, errors = process.communicate(content)
        except BaseException:
            process.kill()
            raise
    return subprocess.CompletedProcess(process.args, process.returncode, output, errors)


def streams_of(ended):
    """What a process that has ended wrote on its output and on standard error, and its status. Where it couldn't read,
    or is no jsoncrdt, the tool ends."""
    if ended.returncode == -signal.SIGINT:  # it came before the program was out of its reach
        raise KeyboardInterrupt
    if ended.returncode not in (0, 1, 3):
        last = ended.stderr.decode(errors="replace").strip().split("\n")[-1]
        stop(last or f"{program()} ended with {ended.returncode}", ended.returncode if ended.returncode > 0 else 2)
    output, errors = (stream.decode(errors="replace") for stream in (ended.stdout, ended.stderr))
    if ended.returncode == 1 and not output.startswith("refused "):
        stop(f"{program()} isn't jsoncrdt: it ended with 1 and told no refusal")
    return output, errors, ended.returncode


def answer_of(ended):
    """What a process that has ended wrote on its output, and its status."""
    output, _, status = streams_of(ended)
    return output, status


def answered(words, text=""):
    """What the program writes on its output and on standard error, and its status. Where it can't read, write or be
    found, the tool ends."""
    return streams_of(ended_by(started(words), text.encode()))


def told(words, text=""):
    """What the program writes on its output, and its status."""
    return answer_of(ended_by(started(words), text.encode()))


class Asked:
    """The program, asked through its `serve`, or the rules in Python: requests about a scenario. They change nothing of
    it but the position, on which no other request relies; what makes events, as `act`, stands within `changing`. Where
    there is no answer, or a refusal that the tool can't go on with, the tool ends."""

    def __init__(self, answering):
        self.answering, self.brought, self.counts, self.lock = answering, None, None, threading.RLock()

    def bring(self, text):
        """Brings a scenario, and gives the answer: its counts, with a given event that is stuck, or why it is
        refused."""
        with self.lock:
            if text != self.brought or not self.answering.is_ready():
                self.brought = None
                content = text if isinstance(text, bytes) else text.encode()
                self.counts, self.brought = self.whole(self.answering.bring, content), text
            return self.counts

    def break_off(self):
        """Ends what another thread asks, which has no answer then."""
        self.answering.break_off()

    @contextlib.contextmanager
    def changing(self):
        """Requests meanwhile may change the scenario, which is brought anew behind them."""
        with self.lock:
            self.brought = None
            try:
                yield
            finally:
                self.brought = None

    def refusal(self, text):
        """The line that refuses a scenario, if one does. A given event may be stuck."""
        refusal = self.bring(text).get("refused")
        return refusal and line_of_refusal(refusal)

    def told(self, text, request):
        """The answer to a request about a scenario, be it a refusal."""
        with self.lock:
            self.bring(text)
            return self.whole(self.answering.ask, request)

    def about(self, text, request):
        """The answer to a request about a scenario that the tool can't go on without."""
        return unless_refused(self.told(text, request))

    def line_told(self, text, request):
        """What answers a request, as it is written."""
        with self.lock:
            self.bring(text)
            return self.whole(lambda asked: self.answering.answer(serving.line_of(asked)).decode(), request)

    def line_about(self, text, request):
        """The same of one that the tool can't go on without."""
        return line_unless_refused(self.line_told(text, request))

    def lines_about(self, text, requests):
        """The same of some requests, which are asked all at once."""
        with self.lock:
            self.bring(text)
            asked = [(serving.line_of(request), None) for request in requests]
            return [line_unless_refused(line.decode()) for line in self.whole(self.answering.answers, asked)]

    def whole(self, ask, what):
        try:
            return ask(what)
        except serving.Lost as lost:
            self.brought = None
            return stop(f"{lost}, and gave no answer", READ_OR_WRITE_FAILED)
        except serving.Foreign as why:
            self.brought = None
            return stop(f"{program()} isn't jsoncrdt: {why}")


def unless_refused(answer):
    """The answer; where it is a refusal the tool ends."""
    if isinstance(answer, dict) and "refused" in answer:
        stop(line_of_refusal(answer["refused"]), 1)
    return answer


def line_unless_refused(line):
    if line.startswith(REFUSED):
        unless_refused(json.loads(line))
    return line


# Who answers requests of `serve` in place of the rules in this process: a process of theirs, in a tool that has a
# client to answer meanwhile, and may have to break off what it asks.
IN_THIS_PROCESS = True


def ask_apart():
    """From now on the rules in Python answer in a process of their own, too."""
    global IN_THIS_PROCESS
    IN_THIS_PROCESS = False


@functools.cache
def asked():
    """What answers requests of `serve`; none where the program hasn't the command yet."""
    path = choosing.program()
    if not path:
        return in_python()
    return Asked(serving.Process(path, say)) if serving.has_serve(path) else None


@functools.cache
def in_python():
    """The rules in Python, by their `serve`."""
    return Asked(serving.Here() if IN_THIS_PROCESS else serving.Process(IN_PYTHON, say))


def served():
    """What answers requests of `serve`: the program, or where it hasn't the command yet the rules in Python."""
    if not asked() and not os.path.exists(program()):
        stop(f"{program()}: {os.strerror(errno.ENOENT)}")
    return asked() or in_python()


def lack_of_serve():
    """Why the rules in Python answer requests of `serve` in place of a program, or nothing where none is replaced."""
    return "" if is_in_python() or asked() else f"{program()} has no serve"


DOCUMENT, REFUSED = '{"doc":', '{"refused":'


def document_of(line):
    """The JSON text of the document in a line of a view, or none."""
    return line[len(DOCUMENT):line.rindex(',"name":')] if line.startswith(DOCUMENT) else None


def bytes_of(file):
    """The bytes of the file, or of standard input for -."""
    try:
        if file == "-":
            return sys.stdin.buffer.read()
        with open(file, "rb") as opened:
            return opened.read()
    except OSError as error:
        return stop(f"read failed: {file}: {reason_of(error)}", READ_OR_WRITE_FAILED)


def text_of(file):
    """The text of the file, or of standard input for -."""
    try:
        return bytes_of(file).decode()
    except UnicodeDecodeError as error:
        stop(f"{file}: refused 13 NotUtf8 at {error.start}", 1)


def refusal_of(text):
    """The line that refuses a text, or none."""
    if asked():
        return asked().refusal(text)
    line, status = told(["check", "-"], text)
    return line.strip() if status else None


def journal_of(text, *flags):
    """The lines of the journal as values, with what the flags ask for, which the program must have."""
    if asked():
        return asked().about(text, " ".join(["journal", *flags]))
    return [json.loads(line) for line in told(["journal", *flags, "-"], text)[0].split("\n")[:-1]]


def printed_of(text):
    """The canonical text. Where the text is refused the tool ends."""
    if asked():
        return asked().about(text, "print")
    printed, status = told(["print", "-"], text)
    return stop(printed, status) if status else printed


class Scenario:
    """The canonical text of a scenario: its version, the commands of each replica, the given events and those of the
    schedule, as they are written there."""

    def __init__(self, text):
        printed = printed_of(text)
        header = re.match(r"jsoncrdt ([12])\n", printed)
        if not header:
            stop(f"{program()} isn't jsoncrdt: it printed no scenario")
        self.version, self.text = int(header[1]), printed
        self.scripts, self.given, self.events, block = {}, [], [], None
        for line in printed.split("\n"):
            if line.startswith("replica "):
                block = self.scripts.setdefault(line.split()[1], [])
            elif line in ("given {", "schedule {"):
                block = self.given if line == "given {" else self.events
            elif line.startswith("  "):
                block.append(line[2:-1])

    def scheduled(self, events):
        """The canonical text with this schedule."""
        before = self.text.rpartition("\nschedule {\n")[0]
        return "".join([before, "\nschedule {\n", *(f"  {event};\n" for event in events), "}\n"])


EVENT = re.compile(r"(\w+)\.(exec|send|done|recv|take|apply)(?:\((?:([A-Za-z_]\w*), )?(?:(\d+), )?(\w+)\))?")

# The replica of an event, its kind, for recv and take the sender, and for take and apply the counter and the maker of
# the operation. What an event hasn't is none.
Parts = collections.namedtuple("Parts", "replica kind sender counter maker")


def parts_of(event):
    replica, kind, sender, counter, other = EVENT.fullmatch(event).groups()
    return Parts(replica, kind, other, None, None) if kind == "recv" else Parts(replica, kind, sender, counter, other)


def session(text, lines):
    """The answers to lines of a session on the scenario, as one text. Where a given event is stuck the tool ends."""
    with tempfile.NamedTemporaryFile("w", encoding="utf-8", newline="") as file:
        file.write(text)
        file.flush()
        answers, status = told(["debug", file.name], "".join(line + "\n" for line in lines))
    if status:
        stop(answers, status)
    return answers
