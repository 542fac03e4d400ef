"""What answers requests of `serve` (docs/PROGRAMS.md): a process that is kept, or the rules in Python in this one."""

import functools
import json
import os
import re
import select
import subprocess
import sys
import threading
import time

from .oracle.debugger import Refusal
from .oracle.serve import Subject
from .oracle.streams import MOST_FRAMES

LONGEST_ANSWER, LONGEST_PROBE = 600, 60  # seconds
PIECE = 1 << 16
BRINGS = "scenario "
BROKEN_OFF = "its work was broken off"


class Lost(Exception):
    """Why there is no answer, in a sentence. What was asked about has to be brought once more."""


class Foreign(Exception):
    """Why what answered is no `serve`, in a few words."""


def with_room(call, *arguments):
    """What the call gives. Documents may be deeper than the frames that Python allows at first."""
    before = sys.getrecursionlimit()
    sys.setrecursionlimit(max(before, MOST_FRAMES))
    try:
        return call(*arguments)
    finally:
        sys.setrecursionlimit(before)


def value_of(line):
    """The value that an answer is."""
    try:
        return with_room(json.loads, line.decode())
    except ValueError:
        raise Foreign("it answered no JSON") from None


def line_of(request):
    """The line of a request: in one line, with escapes for what isn't ASCII."""
    if request.isascii() and request.isprintable():
        return request.encode()
    request = re.sub(r"[^\x00-\x7f]", lambda found: json.dumps(found[0])[1:-1], request)
    return " ".join(request.splitlines()).encode()


def line_of_refusal(refusal):
    """The line by which other commands tell a refusal."""
    at = f" at {refusal['offset']}" if "offset" in refusal else ""
    return f"refused {refusal['number']} {refusal['name']}{at}"


def line_of_stuck(told):
    """The line by which other commands tell an event that is stuck, of what the journal or `weave` has of it."""
    return " ".join(filter(None, ["stuck", str(told["stuck"]), told["cause"], told.get("key"), told["event"]]))


@functools.cache
def has_serve(path):
    """Whether a program has the command. It is asked once."""
    try:
        ended = subprocess.run([path, "serve"], input=b"quit\n", capture_output=True, check=False,
                               timeout=LONGEST_PROBE)
    except (OSError, subprocess.TimeoutExpired):
        return False
    return ended.returncode == 0 and ended.stdout == b'{"quit":true}\n'


class Answering:
    """Answers requests, about one scenario at a time, by values of JSON; a refusal is one with the member `refused`."""

    def ask(self, request):
        return value_of(self.answer(line_of(request)))

    def bring(self, text):
        """Brings a scenario, and gives the answer."""
        [[counts]] = self.bring_and_ask([text])
        return counts

    def bring_and_ask(self, texts, *requests):
        """Brings scenarios, one behind the other, and asks the same about each: for each the answer to its coming, and
        those to the requests."""
        lines = [(line_of(request), None) for request in requests]
        asked = [line for text in texts for line in [(b"%s%d" % (BRINGS.encode(), len(text)), text), *lines]]
        found = list(map(value_of, self.answers(asked)))
        parts = [found[first:first + 1 + len(lines)] for first in range(0, len(found), 1 + len(lines))]
        if not all(isinstance(counts, dict) and counts.keys() & {"commands", "refused"} for counts, *_ in parts):
            raise Foreign("it neither took a scenario nor refused it")
        return parts

    def answers(self, asked):
        """The answers to lines, each of which has a text behind it or none."""
        return [self.answer(line, text) for line, text in asked]

    def is_ready(self):
        """Whether what was brought is still there."""
        return True

    def break_off(self):
        """Ends at once what is asked by another thread, where that can be done."""

    def end(self):
        """Ends what answers."""


class Here(Answering):
    """The rules in Python, in this process."""

    def __init__(self):
        self.subject = Subject(b"")

    def answer(self, line, text=None):
        if text is not None:
            self.subject = with_room(Subject, text)
            return self.subject.counts()
        try:
            return with_room(self.subject.answer, self.subject.read(line))
        except Refusal as refusal:
            return self.subject.refuse(refusal)


class Process(Answering):
    """A process of a program's `serve`. It is started where a scenario is brought; where it is lost, anew by the next
    one, of which `say` is told."""

    def __init__(self, path, say=None, seconds=LONGEST_ANSWER):
        self.path, self.say, self.seconds = path, say, seconds
        self.process, self.owner, self.read, self.why = None, None, bytearray(), None
        self.lock, self.is_broken_off = threading.RLock(), False

    def start(self):
        if self.why and self.say:
            self.say(f"{self.why}; it is started anew")
        try:
            self.process = subprocess.Popen([self.path, "serve"], stdin=subprocess.PIPE, stdout=subprocess.PIPE,
                                            stderr=subprocess.DEVNULL, start_new_session=True)
        except OSError as error:
            raise Lost(f"{self.path}: {error.strerror}") from error
        os.set_blocking(self.process.stdin.fileno(), False)
        self.owner, self.read, self.why, self.is_broken_off = os.getpid(), bytearray(), None, False

    def answer(self, line, text=None):
        return self.answers([(line, text)])[0]

    def answers(self, asked):
        """All is written before an answer is waited for, since a turn between two processes takes as long as a short
        answer does."""
        with self.lock:
            self.be_ready(asked[0][1])
            try:
                return self.exchange(b"".join(b"%s\n%s" % (line, text or b"") for line, text in asked), len(asked))
            except BaseException as fault:
                self.lose(fault)
                raise

    def be_ready(self, text):
        """Starts the process where none is there, which is possible where a text is brought."""
        if self.owner != os.getpid():
            self.process = None  # it answers the process from which this one was forked
        elif self.process and self.is_broken_off:
            self.lose(BROKEN_OFF)
        elif self.process and text is not None and self.process.poll() is not None:
            self.lose(self.ended())
        if not self.process:
            if text is None:
                raise Lost(f"{self.path} has no scenario any more")
            self.start()

    def exchange(self, content, count):
        """Writes what is asked, and gives so many answers. Where there is no room for all that is asked, answers are
        read meanwhile, so neither end waits for the other one."""
        limit, left, lines, looked = time.monotonic() + self.seconds, self.write(memoryview(content)), [], 0
        while left or len(lines) < count:
            end = self.read.find(b"\n", looked)
            if end >= 0:
                lines.append(bytes(self.read[:end]))
                del self.read[:end + 1]
                looked = 0
                continue
            looked = len(self.read)
            asked = [self.process.stdin] if left else []
            told, has_room, _ = select.select([self.process.stdout], asked, [], max(0, limit - time.monotonic()))
            if not told and not has_room:
                what = "reads nothing for" if left else "gives no answer in"
                raise Lost(f"{self.path} {what} {self.seconds} seconds")
            left = self.write(left) if has_room else left
            if told:
                self.take()
        return lines

    def write(self, left):
        """Writes as much as there is room for, and gives what is left."""
        try:
            while left:
                left = left[os.write(self.process.stdin.fileno(), left[:PIECE]):]
        except BlockingIOError:
            pass
        except BrokenPipeError:
            return b""  # what it wrote before it ended is read all the same
        return left

    def take(self):
        """Reads what is there of answers."""
        piece = os.read(self.process.stdout.fileno(), 1 << 20)
        if not piece:
            raise Lost(self.ended())
        self.read += piece

    def ended(self):
        status = self.process.wait()
        return f"{self.path} " + (f"ended with {status}" if status >= 0 else f"was killed by signal {-status}")

    def is_ready(self):
        return bool(self.process) and self.owner == os.getpid() and not self.is_broken_off

    def break_off(self):
        """Ends the process, and what another thread asks it: that is Lost. It is started anew as it is at first."""
        process, self.is_broken_off = self.process, True
        if process:
            process.kill()

    def lose(self, fault):
        """Ends the process, which has given no answer."""
        self.why = None if self.is_broken_off else str(fault) or BROKEN_OFF
        self.process.kill()
        self.end()

    def end(self):
        if self.process and self.owner == os.getpid():
            for stream in (self.process.stdin, self.process.stdout):
                stream.close()
            self.process.wait()
        self.process = None


def answering(path, say=None):
    """What answers for a program, or, where there is none, for the rules in Python; nothing where the program has no
    serve yet."""
    if not path:
        return Here()
    return Process(path, say) if has_serve(path) else None
