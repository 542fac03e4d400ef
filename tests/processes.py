"""The program as a process: its own exit code, which of its streams has which line, and streams that fail.

Each row is tried by the program that is there: the built one, and then by the launcher too, or the rules in Python.
These say a line of their own first, and more of a fault, and have no threads.
"""

import collections
import subprocess

ONE = 'jsoncrdt 1 replica a { doc.get("a") := 1 } schedule { a.exec }'
DUMP = ('{"acted":false,"left":0,"name":"a","ops":["1@a"],"queue":["1@a"],"recv":[],"send":[],"tree":'
        '{"mapT(doc)":{"pres(\\"a\\")":["1@a"],"regT(\\"a\\")":{"1@a":{"n":"1"}}},"pres(doc)":["1@a"]},"vars":{}}\n')
EMPTY = '{"acted":false,"left":0,"name":"a","ops":[],"queue":[],"recv":[],"send":[],"tree":{},"vars":{}}\n'
NOTHING = "jsoncrdt 1 replica a {} schedule {}"
PAST_THE_END = "jsoncrdt 1 replica a {} schedule {a.exec}"
NO_COMMAND = "stuck 30 NoCommand a.exec\n"
STUCK_BEFORE = "jsoncrdt 2 replica a {yield} given {a.send; a.exec}"
GIVEN_STUCK = "refused 44 GivenStuck at 2\nstuck 31 AtYield a.exec\n"
RECORDED = 'jsoncrdt 1\nreplica a {\n  doc.get("a") := 1;\n}\nschedule {\n  a.exec;\n}\n'
# The first command is executed by a given event, the second one by the thread.
BEGUN = 'jsoncrdt 2 replica a { doc.get("a") := 1; doc.get("a") := 2 } given {a.exec} schedule {a.send}'
RECORDED_TWO = ('jsoncrdt 2\nreplica a {\n  doc.get("a") := 1;\n  doc.get("a") := 2;\n}\ngiven {\n'
                '  a.exec;\n}\nschedule {\n'
                '  a.exec;\n}\n')
JOURNAL = ('{"command":"doc.get(\\"a\\") := 1",'
           '"event":"a.exec","kind":"exec","number":1,"op":{"cursor":["mapT(doc)","\\"a\\""],'
           '"deps":{},"id":"1@a","mutation":"assign","value":{"n":"1"}},"replica":"a"}\n')
JOURNAL_STUCK = ('{"event":"a.send","given":true,"kind":"send","new":[],"number":1,"replica":"a"}\n'
                 '{"cause":"AtYield","event":"a.exec","given":true,"kind":"exec","number":2,"replica":"a",'
                 '"stuck":31}\n')
UNBEGUN = "jsoncrdt 1\nreplica a {\n  let s = doc.keys;\n}\nschedule {\n}\n"
# The most events that there may be, and one replica that sends at each.
FULL = "jsoncrdt 1 replica a {yield} schedule {" + "a.send;" * 100_000 + "}"
# A text of nearly eight MiB, which is a scenario.
LARGE = "jsoncrdt 1" + "".join(f" replica r{n} {{{'yield;' * 65_536}}}" for n in range(20))
MANY_REPLICAS = "jsoncrdt 1" + "".join(f" replica r{n} {{doc := 1}}" for n in range(64))


def most_bytes(front, end):
    """A text that is made where it is used: 67,108,864 bytes of lines, which begin so and are else empty, and an
    end."""
    return lambda: front + ((" " * 4_095 + "\n") * 16_384)[len(front):] + end


# The words, where FILE is the name of a file with the first text; standard input; the exit code; what standard output
# has, and what standard error. `shell` is what a shell does with the streams, `limit` the KiB of memory that there are.
# With `built` a row is for the built program alone.
Row = collections.namedtuple("Row", "words file input status out err shell limit built", defaults=("", None, False))

ROWS = [
    Row("run FILE", ONE, "", 0, DUMP, ""),
    Row("run -", "", ONE, 0, DUMP, ""),
    Row("journal FILE", ONE, "", 0, JOURNAL, ""),
    Row("journal -", "", ONE, 0, JOURNAL, ""),
    Row("check FILE", "jsoncrdt 2", "", 1, "refused 16 NoReplica at 10\n", ""),
    Row("check FILE", "jsoncrdt 3", "", 1, "refused 14 NoHeader at 9\n", ""),
    Row("debug FILE", "", "step\n", 1, "refused 14 NoHeader at 0\n", ""),
    Row("jump", ONE, "", 2, "", "error: "),
    Row("run", ONE, "", 2, "", "error: "),
    Row("run FILE", PAST_THE_END, "", 3, EMPTY + NO_COMMAND, ""),
    Row("view FILE", PAST_THE_END, "", 3, '{"name":"a"}\n' + NO_COMMAND, ""),
    # A given event that is stuck: the lines of a session aren't read.
    Row("run FILE", STUCK_BEFORE, "", 3, GIVEN_STUCK, ""),
    Row("view FILE", STUCK_BEFORE, "", 3, GIVEN_STUCK, ""),
    Row("journal FILE", STUCK_BEFORE, "", 3, JOURNAL_STUCK, ""),
    Row("debug FILE", STUCK_BEFORE, "where\n", 3, GIVEN_STUCK, ""),
    Row("journal FILE", "", "", 1, "refused 14 NoHeader at 0\n", ""),
    Row("check FILE", STUCK_BEFORE, "", 0, "replicas 1 commands 1 given 2 events 0\n", ""),
    Row("debug FILE", STUCK_BEFORE, "where\n", 4, "", "write failed\n", ">/dev/full"),
    # A file that isn't there, and one that opens and can't be read.
    Row("run /no/such/file", "", "", 4, "", "read failed\n"),
    Row("run /", "", "", 4, "", "read failed\n"),
    Row("debug /", "", "step\n", 4, "", "read failed\n"),
    Row("run -", "", "", 4, "", "read failed\n", "<&-"),
    Row("run -", "", "", 4, "", "read failed\n", "</", built=True),
    # A byte that is no UTF-8.
    Row("run \udcff", "", "", 2, "", "a word is not UTF-8\n", built=True),
    # A standard output that is full, or closed.
    Row("run FILE", ONE, "", 4, "", "write failed\n", ">/dev/full"),
    Row("check FILE", "", "", 4, "", "write failed\n", ">/dev/full"),
    Row("journal FILE", ONE, "", 4, "", "write failed\n", ">/dev/full"),
    Row("journal /", "", "", 4, "", "read failed\n"),
    Row("debug FILE", ONE, "where\n", 4, "", "write failed\n", ">/dev/full"),
    Row("run FILE", ONE, "", 4, "", "write failed\n", ">&-"),
    # A standard error that is full, or closed, changes no status.
    Row("run FILE", ONE, "", 0, DUMP, "", "2>/dev/full"),
    Row("run FILE", PAST_THE_END, "", 3, EMPTY + NO_COMMAND, "", "2>&-"),
    Row("run /", "", "", 4, "", "", "2>/dev/full"),
    Row("jump", "", "", 2, "", "", "2>/dev/full"),
    Row("run FILE", ONE, "", 4, "", "", ">/dev/full 2>/dev/full"),
    # The limits of a session, and one byte more. Python is slow at these.
    Row("debug FILE", NOTHING, "\n" * 1_000_000, 0, "", "", built=True),
    Row("debug FILE", NOTHING, "\n" * 1_000_001, 4, "", "too many lines\n", built=True),
    Row("debug FILE", NOTHING, most_bytes("where\n", ""), 0, "at 0 of 0\n", "", built=True),
    Row("debug FILE", NOTHING, most_bytes("where\n", " "), 4, "at 0 of 0\n", "too many lines\n",
        built=True),
    # No event more than there may be: what is no event comes first.
    Row("debug FILE", FULL, "goto 100000\nact a.send\nact a.exec\nact b.send\nact a.jump\nback\nact a.send\n", 0,
        "at 100000\nrefused 19 TooManyEvents\nrefused 19 TooManyEvents\nrefused 18 UnknownReplica at 0\n"
        "refused 7 Unexpected at 2\nat 99999\nat 100000\n", "", built=True),
    # Threads, by the built program alone.
    Row("threads FILE", ONE, "", 0, RECORDED, "a made 1 finished\n"),
    Row("threads --limit 1 FILE", ONE, "", 0, RECORDED, "a made 1 limit\n"),
    Row("threads FILE", "jsoncrdt 1 replica a { let s = doc.keys }", "", 3, UNBEGUN,
        "a made 0 stuck 27 NoMap a.exec\n"),
    Row("threads FILE", "", "", 1, "refused 14 NoHeader at 0\n", ""),
    Row("threads FILE", BEGUN, "", 0, RECORDED_TWO, "a made 1 finished\n"),
    Row("threads FILE", STUCK_BEFORE, "", 3, GIVEN_STUCK, ""),
    Row("threads --limit 100001 FILE", ONE, "", 2, "", "error: "),
    Row("threads /", "", "", 4, "", "read failed\n"),
    Row("threads FILE", ONE, "", 4, "", "write failed\n", ">/dev/full"),
    Row("threads FILE", ONE, "", 0, RECORDED, "", "2>/dev/full"),
    Row("weave FILE", ONE, "", 0, RECORDED, "a made 1 finished\n"),
    Row("weave --seed 18446744073709551615 --limit 1 FILE", ONE, "", 0, RECORDED, "a made 1 finished\n"),
    Row("weave FILE", "jsoncrdt 1 replica a { let s = doc.keys }", "", 3, UNBEGUN, "a made 0 stuck 27 NoMap a.exec\n"),
    Row("weave -", "", BEGUN, 0, RECORDED_TWO, "a made 1 finished\n"),
    Row("weave FILE", "", "", 1, "refused 14 NoHeader at 0\n", ""),
    Row("weave FILE", STUCK_BEFORE, "", 3, GIVEN_STUCK, ""),
    Row("weave --seed 18446744073709551616 FILE", ONE, "", 2, "", "error: "),
    Row("weave --limit 100001 FILE", ONE, "", 2, "", "error: "),
    Row("weave /", "", "", 4, "", "read failed\n"),
    Row("weave FILE", ONE, "", 4, "", "write failed\n", ">/dev/full"),
    Row("weave FILE", ONE, "", 0, RECORDED, "", "2>/dev/full"),
    # Little memory: too little for threads, and for a large text.
    Row("threads FILE", MANY_REPLICAS, "", 5, "", "no thread\n", "", 200_000),
    Row("check FILE", LARGE, "", 0, "replicas 20 commands 1310720 events 0\n", "", "", 4_000_000),
    Row("check FILE", LARGE, "", 5, "", "no memory\n", "", 30_000),
]


def needs_built(row):
    """Whether the rules in Python haven't what the row asks for."""
    return row.built or row.limit is not None or row.words.startswith("threads")


def ended(program, row, path):
    """How the process ended: its exit code, and both streams."""
    words = ["FILE" == word and path or word for word in row.words.split()]
    limit = f"ulimit -v {row.limit}; " if row.limit else ""
    line = f'{limit}exec "$0" "$@" {row.shell}'
    text = row.input() if callable(row.input) else row.input
    told = subprocess.run(["sh", "-c", line, program, *words], input=text.encode(), capture_output=True, check=False,
                          timeout=60)
    return told.returncode, told.stdout.decode(), told.stderr.decode(errors="backslashreplace")


def is_told(got, want, is_exact):
    """Whether standard error has what is due. Python tells more of a fault, and of words that are none."""
    if want == "error: ":
        return got.startswith(want) if is_exact else "usage: " in got
    return got == want if is_exact else want.rstrip("\n") in got


def difference(program, row, path, is_exact):
    """What is otherwise than the row says, or an empty text."""
    status, out, err = ended(program, row, path)
    if status != row.status:
        return f"it ended with {status} and not with {row.status}: {err}"
    if out != row.out:
        return f"standard output has\n{out[:500]}\nand not\n{row.out[:500]}"
    if not is_told(err, row.err, is_exact):
        return f"standard error has\n{err[:500]}\nand not\n{row.err}"
    return ""


def quits_at_once(program, path):
    """Whether a session ends at `quit` while its standard input stays open."""
    with subprocess.Popen([program, "debug", path], stdin=subprocess.PIPE, stdout=subprocess.PIPE,
                          stderr=subprocess.DEVNULL) as process:
        process.stdin.write(b"step\nquit\n")
        process.stdin.flush()
        try:
            return process.wait(timeout=20) == 0 and process.stdout.read() == b"at 1\n"
        except subprocess.TimeoutExpired:
            process.kill()
            return False
