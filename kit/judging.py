"""What the commands of the kit have in common: its folders, how an adapter is run, and how what it writes is judged."""

import collections
import contextlib
import decimal
import fnmatch
import functools
import hashlib
import io
import json
import os
import re
import selectors
import shutil
import signal
import subprocess
import sys
import tempfile
import threading
import time

HERE = os.path.dirname(os.path.abspath(__file__))
sys.path.insert(0, os.path.join(os.path.dirname(HERE), "python"))

from classes import class_of
from jsoncrdt import choosing, serving
from jsoncrdt.oracle.program import command_line
from jsoncrdt.oracle.streams import READ_OR_WRITE_FAILED, reason_of, stop

REFUSED, STUCK = 1, 3
SECONDS, MOST_BYTES = 10, 1 << 26
# No document of a scenario is as deep as this, in frames of Python.
MOST_FRAMES = 10_000
NOTHING = object()

# A line of standard error that names an error, as Python, Node, Rust, Go and Java write it.
NAMES_ERROR = re.compile(r"(?:uncaught |exception in thread \S+ |thread .* )?[\w.$]*(?:error|exception|panic|fatal)",
                         re.IGNORECASE)

HEADING = re.compile(r"^### (\d+) ", re.MULTILINE)
# An adapter that gives no answer for this one, either, can't start.
SIMPLEST = b"""jsoncrdt 1
replica ann {
  doc.get("title") := "Trip";
}
schedule {
  ann.exec;
}
"""

Ended = collections.namedtuple("Ended", "status output errors fault")


# ---- folders


def names():
    """The names of the scenarios, in their order."""
    return sorted(name for name in os.listdir(HERE) if os.path.exists(os.path.join(HERE, name, "about")))


def fits(name, patterns):
    return any(fnmatch.fnmatchcase(name, pattern) for pattern in patterns)


def chosen(only, but=None):
    """The names that one of the patterns fits, or all but some."""
    there = names()
    for pattern in [*(only or ()), *(but or ())]:
        if not fnmatch.filter(there, pattern):
            stop(f"the kit has no scenario {pattern}")
    return [name for name in there if (not only or fits(name, only)) and not fits(name, but or ())]


def path_of(name, file):
    return os.path.join(HERE, name, file)


def stored(name, file):
    try:
        with open(path_of(name, file), "rb") as opened:
            return opened.read()
    except OSError as error:
        stop(f"read failed: {path_of(name, file)}: {reason_of(error)}", READ_OR_WRITE_FAILED)


def by_rules(words, text):
    """What the rules in Python tell of a scenario, and their status."""
    out = io.BytesIO()
    status = command_line([*words, "-"], io.BytesIO(text), out, io.StringIO())
    return out.getvalue(), status


def refusals_of_events():
    """The numbers that docs/ERRORS.md has for events, the given ones too."""
    with open(os.path.join(HERE, os.pardir, "docs", "ERRORS.md"), encoding="utf-8") as file:
        parts = re.split(r"^## ", file.read(), flags=re.MULTILINE)
    return [int(n) for part in parts if part.startswith(("An event", "A given event")) for n in HEADING.findall(part)]


# ---- what is made anew

# What the rules in Python make of a scenario where it is needed, and isn't kept: the words that print it. A trace ends
# with the dump.
MADE = {"dump": ["run"], "trace": ["run", "--trace"]}
SUMS = os.path.join(HERE, "sums")


def sum_of(trace):
    """What `sums` has of a trace, by which it is known again."""
    return hashlib.sha256(trace).hexdigest()[:32]


@functools.cache
def sums():
    """The sums of the traces by the names of the scenarios. Where there is no file there are none."""
    try:
        with open(SUMS, encoding="utf-8") as file:
            return dict(line.split() for line in file)
    except FileNotFoundError:
        return {}
    except OSError as error:
        stop(f"read failed: {SUMS}: {reason_of(error)}", READ_OR_WRITE_FAILED)


def made(name, kind):
    """The dump or the trace of a scenario by the rules in Python. Where that is another one than `sums` knows, or it
    knows none, nothing can be compared with it."""
    text = stored(name, "scenario.jsoncrdt")
    found = {each: by_rules(words, text)[0] for each, words in MADE.items()}
    if sums().get(name) != sum_of(found["trace"]) or not found["trace"].endswith(found["dump"]):
        stop(f"{name}: the rules in Python make another trace than kit/sums has (kit/make --check says more)", 1)
    return found[kind]


# ---- how an adapter is run


def run_adapter(words, text):
    """How the adapter ends for this text on its standard input. Where it can't be started the command ends."""
    with tempfile.TemporaryFile() as source:
        source.write(text)
        source.seek(0)
        try:
            process = subprocess.Popen(words, stdin=source, stdout=subprocess.PIPE, stderr=subprocess.PIPE,
                                       start_new_session=True)
        except OSError as error:
            stop(f"{words[0]}: {reason_of(error)}")
    with process:
        try:
            return ended(process)
        finally:
            # A process that was waited for has given its number back. Where only the first of them has ended, some
            # systems refuse.
            if process.returncode is None:
                with contextlib.suppress(PermissionError):
                    os.killpg(process.pid, signal.SIGKILL)


def ended(process):
    """Reads both streams up to their ends, and waits for the process, but not for ever."""
    found, end = {process.stdout: [], process.stderr: []}, time.monotonic() + SECONDS
    fault = read_to_end(found, end)
    output, errors = (b"".join(parts) for parts in found.values())
    if not fault:
        try:
            process.wait(max(0, end - time.monotonic()))
        except subprocess.TimeoutExpired:
            fault = f"it didn't end within {SECONDS} seconds"
    return Ended(process.returncode, output, errors, fault)


def read_to_end(found, end):
    """Reads the streams into their lists, and tells why that didn't end, if it didn't."""
    with selectors.DefaultSelector() as selector:
        for stream in found:
            selector.register(stream, selectors.EVENT_READ)
        size = 0
        while selector.get_map():
            ready = selector.select(max(0, end - time.monotonic()))
            for key, _ in ready:
                part = os.read(key.fd, 1 << 16)
                found[key.fileobj].append(part)
                size += len(part)
                if not part:
                    selector.unregister(key.fileobj)
            if time.monotonic() > end:
                return f"it didn't end within {SECONDS} seconds"
            if size > MOST_BYTES:
                return f"it wrote more than {MOST_BYTES} bytes"
    return None


# ---- how what it wrote is judged


class NoJson(Exception):
    """Why a line is no JSON."""


def number(text):
    try:
        return decimal.Decimal(text)
    except decimal.InvalidOperation:  # an exponent that no machine has
        return ("number", text)


def members(pairs):
    found = dict(pairs)
    if len(found) < len(pairs):
        raise NoJson("an object has one name twice")
    return found


def no_constant(text):
    raise NoJson(f"{text} is no JSON")


def value_of(line):
    """The value that a line of JSON is."""
    try:
        return json.loads(line.decode(), parse_int=number, parse_float=number, parse_constant=no_constant,
                          object_pairs_hook=members)
    except (ValueError, RecursionError) as error:
        raise NoJson(str(error)) from error


def difference(want, got, at=""):
    """The first place where two values differ; none where they are the same. The order of names doesn't count."""
    if isinstance(want, dict) and isinstance(got, dict):
        found = (difference(want.get(n, NOTHING), got.get(n, NOTHING), f"{at}/{n}") for n in sorted({*want, *got}))
        return next(filter(None, found), None)
    if isinstance(want, list) and isinstance(got, list):
        longer = range(max(len(want), len(got)))
        found = (difference(*(of[n] if n < len(of) else NOTHING for of in (want, got)), f"{at}/{n}") for n in longer)
        return next(filter(None, found), None)
    return None if type(want) is type(got) and want == got else at or "/"


def lines_of(output, is_stuck):
    """The lines of documents. Where an event is stuck, `view` has lines of its own behind them."""
    lines = [line.rstrip(b"\r") for line in output.split(b"\n")]
    own = (b"stuck ", b"refused ") if is_stuck else ()
    return [line for line in lines if line.strip() and not line.startswith(own)]


def line_names(lines):
    return [json.loads(line)["name"] for line in lines]


def text_of(line):
    return line.decode(errors="backslashreplace")


def line_fault(number, want, got):
    """What is wrong with a line, or none."""
    try:
        at = difference(value_of(want), value_of(got))
    except NoJson as error:
        return f"line {number} isn't JSON: {error}\n    {text_of(got)}"
    if not at:
        return None
    return f"line {number} differs at {at}\n    the rules give  {text_of(want)}\n    the adapter     {text_of(got)}"


def lines_fault(want, got):
    """What is wrong with the lines of documents, or none."""
    for number, pair in enumerate(zip(want, got), 1):
        fault = line_fault(number, *pair)
        if fault:
            return fault
    if len(want) == len(got):
        return None
    rest = (want + got)[min(len(want), len(got)):]
    kind, line = ("is missing", want[len(got)]) if len(want) > len(got) else ("is one too many", got[len(want)])
    return f"line {min(len(want), len(got)) + 1} {kind}: {text_of(line)}"


def how(status):
    return f"it was ended by signal {-status}" if status < 0 else f"it ended with status {status}"


def telling_words(ended):
    """The line of standard error that tells most, where there is one: the first that names an error, else the last."""
    lines = [line.strip() for line in ended.errors.decode(errors="backslashreplace").split("\n") if line.strip()]
    found = [line for line in lines if NAMES_ERROR.match(line)] or lines[-1:]
    return f": {found[0]}" if found else ""


def is_dead(ended):
    """Whether the adapter died or was ended, and gave no answer."""
    return bool(ended.fault) or ended.status not in (0, STUCK)


def why_dead(ended):
    return (ended.fault or how(ended.status)) + telling_words(ended)


def view_fault(view, status, ended):
    """What is wrong with the documents that an adapter wrote, or none."""
    if is_dead(ended):
        return why_dead(ended)
    is_stuck = status == STUCK
    want, got = lines_of(view, is_stuck), lines_of(ended.output, ended.status == STUCK)
    if ended.status == STUCK and not is_stuck:
        return f"{how(STUCK)}, and no event is stuck{telling_words(ended)}"
    # A scenario whose given event is stuck has no documents to compare.
    if ended.status == STUCK and not (want and got):
        return None
    return lines_fault(want, got)


def class_of_fault(view, status, ended):
    """The class of what is wrong with the documents that an adapter wrote, where something is."""
    if is_dead(ended):
        return "crash"
    want, got = lines_of(view, status == STUCK), lines_of(ended.output, ended.status == STUCK)
    if ended.status == STUCK and status != STUCK or status == STUCK and not want:
        return "status"
    try:
        return class_of(list(map(value_of, want)), list(map(value_of, got)))
    except NoJson:
        return "crash"


def dump_fault(dump, status, ended):
    """What is wrong with the states that an adapter wrote, byte for byte, or none."""
    if ended.fault or ended.status != status:
        return why_dead(ended)
    if ended.output == dump:
        return None
    pairs = zip(dump.split(b"\n") + [b"(end)"], ended.output.split(b"\n") + [b"(end)"])
    number, (want, got) = next((n, pair) for n, pair in enumerate(pairs, 1) if pair[0] != pair[1])
    return f"line {number} differs\n    the rules give  {text_of(want)}\n    the adapter     {text_of(got)}"


def effects_in(lines):
    """The lines of a journal that have effects; others are left aside."""
    values = (value_of(line) for line in lines if line.strip())
    return [value for value in values if isinstance(value, dict) and "effects" in value]


def effects_fault(journal, status, ended):
    """What is wrong with the effects that an adapter wrote, or none. The journal's lines have those of the rules."""
    if ended.fault or ended.status not in (0, status):
        return why_dead(ended)
    want = effects_in(journal)
    try:
        got = effects_in(lines_of(ended.output, ended.status == STUCK))
    except NoJson as error:
        return f"a line isn't JSON: {error}"
    for pair in zip(want, got):
        effects = [line["effects"] for line in pair]
        at = difference(*effects)
        if at:
            due, written = (json.dumps(of, ensure_ascii=False, separators=(",", ":"), default=str) for of in effects)
            event = f"{'given ' if 'given' in pair[0] else ''}event {pair[0]['number']} {pair[0]['event']}"
            return f"the effects of {event} differ at {at}\n    the rules give  {due}\n    the adapter     {written}"
    same = len(want) == len(got)
    return None if same else f"{len(want)} events have effects, and it wrote {len(got)} lines with some"


# ---- what the rules give

OF_THREAD, BEGINNING, DECODER = threading.local(), threading.Lock(), json.JSONDecoder()


def rules():
    """What answers for the rules in this thread: a process of the program's `serve` for all that the thread asks; where
    the program has none yet, or isn't there, the rules in Python here."""
    if not hasattr(OF_THREAD, "answering"):
        with BEGINNING:  # so that the program is looked at once
            path = choosing.program()
            if path and not shutil.which(path):
                stop(f"{path} can't be started")
            OF_THREAD.answering = serving.answering(path) or serving.Here()
    return OF_THREAD.answering


def bring(text):
    """Brings a scenario: what answers requests about it, and its counts or why it is refused."""
    try:
        return rules(), rules().bring(text)
    except serving.Lost as lost:
        return stop(f"{lost}, and gave no answer", READ_OR_WRITE_FAILED)
    except serving.Foreign as why:
        return stop(f"{choosing.program()} isn't jsoncrdt: {why}")


def lines_in(answering, request):
    """The lines in the list that answers a request, each as it is written."""
    answer, at, lines = answering.answer(request.encode()).decode(), 1, []
    while answer[at - 1:at + 1] != "[]" and at < len(answer):
        end = DECODER.raw_decode(answer, at)[1]
        lines.append(answer[at:end].encode() + b"\n")
        at = end + 1
    return lines


def journal_of(text, *flags):
    """The lines of the journal of a scenario that isn't refused."""
    return lines_in(bring(text)[0], " ".join(["journal", *flags]))


def told_of(text, is_journal):
    """What an adapter is given for a scenario, the text itself or its journal, and what `view` tells of it with the
    status. A replica that the journal doesn't name isn't asked for. Where a given event is stuck there is no
    document."""
    answering, counts = bring(text)
    if "refused" in counts:
        return text, serving.line_of_refusal(counts["refused"]).encode() + b"\n", REFUSED
    is_stuck = "stuck" in counts or "stuck" in answering.ask("goto end")
    view = [] if "stuck" in counts else lines_in(answering, "view")
    given = text
    if is_journal:
        lines = lines_in(answering, "journal")
        given, events = b"".join(lines), map(json.loads, lines)
        named = {event.get(member) for event in events for member in ("replica", "from")}
        view = [line for line in view if json.loads(line)["name"] in named]
    return given, b"".join(view), STUCK * is_stuck


@functools.cache
def why_no_start(words, is_journal):
    """Why the adapter can't start, or none: it gives no answer for the simplest scenario, either."""
    ended = run_adapter(words, told_of(SIMPLEST, is_journal)[0])
    return why_dead(ended) if is_dead(ended) else None
