"""The front end of the debugger, tools/debug: typed in a terminal, and read from a pipe."""

import fcntl
import io
import itertools
import json
import os
import pty
import random
import re
import select
import struct
import subprocess
import sys
import tempfile
import termios
import time
from unittest import mock

from cases import IN_PYTHON, expect, expect_same, folder_of, run, stored

import positions
from asking import Scenario
from commands import COMMANDS
from layout import WIDTH, laid_out, read_json, runs_of
from positions import Positions
from predicates import KINDS, predicate_of
from jsoncrdt.oracle.program import command_line
from jsoncrdt.oracle.sentences import SENTENCES
from jsoncrdt.oracle.texts import REFUSALS

TO_DO, FIRST = "examples/to-do.jsoncrdt", "examples/first.jsoncrdt"
STUCK, ANSWER = "examples/out-of-order.jsoncrdt", "examples/answer-first.jsoncrdt"
SECONDS = 120
CTRL_C, CTRL_D, UP, CLEAR_LINE = "\x03", "\x04", "\x1b[A", "\x15"
# Takes the terminal that is its standard input, so that Ctrl-C there is a signal, and goes on as the command.
STARTER = "import fcntl, os, sys, termios; fcntl.ioctl(0, termios.TIOCSCTTY, 0); os.execvp(sys.argv[1], sys.argv[1:])"
# A program that waits before each view, and has no serve yet.
SLOW = """#!/bin/sh
[ "$1" = serve ] && exit 2
[ "$1" != view ] || {{ : >"$0.begun"; sleep 0.3; }}
exec "{oracle}" "$@"
"""
# A program that ends while a line is answered.
DYING = """#!/bin/sh
[ "$1" = debug ] || exec "{oracle}" "$@"
while read -r line; do
    case $line in
        where) echo "at 0 of 1" ;;
        step) {end} ;;
    esac
done
"""


class Terminal:
    """A command in a terminal of 200 columns."""

    def __init__(self, words, folder, **variables):
        self.ours, theirs = pty.openpty()
        fcntl.ioctl(theirs, termios.TIOCSWINSZ, struct.pack("HHHH", 50, 200, 0, 0))
        environment = {**os.environ, "XDG_STATE_HOME": folder, "TERM": "dumb", "INPUTRC": os.devnull, **variables}
        self.process = subprocess.Popen([sys.executable, "-c", STARTER, *words], stdin=theirs, stdout=theirs,
                                        stderr=theirs, env=environment, start_new_session=True)
        os.close(theirs)
        self.shown = ""

    def __enter__(self):
        return self

    def __exit__(self, *_):
        self.process.kill()
        self.process.wait()
        os.close(self.ours)

    def type(self, text):
        os.write(self.ours, text.encode())

    def read_to(self, text):
        """Reads until the text is shown, and gives what was shown up to its end."""
        end = time.monotonic() + SECONDS
        while text not in self.shown:
            is_there = select.select([self.ours], [], [], max(0, end - time.monotonic()))[0]
            expect(is_there, f"{text!r} isn't in {self.shown!r}")
            try:
                part = os.read(self.ours, 4096).decode(errors="replace")
            except OSError:  # the end of a terminal's output
                part = ""
            expect(part, f"{text!r} isn't in {self.shown!r}, and the command has ended")
            self.shown += part.replace("\r", "")
        before, found, self.shown = self.shown.partition(text)
        return before + found

    def status(self):
        return self.process.wait(SECONDS)


def debugger(folder, program=IN_PYTHON, file=TO_DO):
    return Terminal(["tools/debug", file], folder, JSONCRDT=os.path.abspath(program))


# What is typed, and up to where it is then read; what must have been shown, beside this.
TYPED = [
    ("s\n", "(1/20) ", "1 p.exec  1@p  doc.get(\"todo\") := []"),
    ("\n", "(2/20) ", "2 p.exec"),
    ("step 3\n", "(5/20) ", "at 5\n  3 p.exec  3@p  doc.get(\"todo\").idx(1).get(\"title\") := "),
    ("\n", "(8/20) ", "8 q.apply(1, p)  applies 1@p  doc.get(\"todo\") := []"),
    ("b\n", "(7/20) ", "7 q.recv(p)  gets from p"),
    ("g 12\n", "(12/20) ", "12 q.done"),
    ("brea rule clear-reg\n", "(12/20) ", "set 1"),
    ("break replica q\n", "(12/20) ", "set 2"),
    ("breaks\n", "(12/20) ", "1 rule CLEAR-REG\n  2 replica q"),
    ("r\n", "(13/20) ", "break 1\n  rule CLEAR-REG\n  13 p.exec"),
    ("\n", "(14/20) ", "break 1"),
    ("unbreak 2\n", "(14/20) ", "cleared 2\n  replica q"),
    ("back until break\n", "(13/20) ", "13 p.exec"),
    ("until q lacks title\n", "(20/20) ", "20 q.apply(5, p)"),
    ("back until diverge\n", "(19/20) ", "19 p.apply(5, q)"),
    ("\n", "(18/20) ", "18 q.recv(p)"),
    ("u event *.apply(5, q)\n", "(19/20) ", "at 19"),
    ("u conflict\n", "(19/20) ", "at no later position, still at 19"),
    ("b until shows nothing\n", "(19/20) ", "at no earlier position, still at 19"),
    ("view\n", "(19/20) ", "p  {\"todo\": [{\"done\": true}]}\nq  "),
    ("l\n", "(19/20) ", "-> 19 p.apply(5, q)  applies 5@q"),
    ("next\n", "(19/20) ", "refused 58 BadLine\n  There is no such line: "),
    ("step x\n", "(19/20) ", "refused 58 BadLine\n  There is no such line: `debug --help` lists those that there are.\n"
     "  step [N]"),
    ("st\n", "(19/20) ", "st begins step and state"),
    ("step 2\n", "(19/20) ", "refused 51 AtEnd\n  There are fewer events left"),
    ("act p.exit\n", "(19/20) ", "refused 7 Unexpected at 2\n  p.exit\n    ^"),
    ("act q.apply(5, q)\n", "(19/20) ", "stuck 34 NotReceived q.apply(5, q)\n  The operation isn't there"),
    ("act p.recv(q)\n", "(20/20) ", "20 p.recv(q)  gets from q: nothing new"),
    ("help until\n", "(20/20) ", "shows TEXT"),
    ("why q doc.get(\"todo\").idx(1).get(\"title\")\n", "(20/20) ", "q: doc/\"todo\"/2@p/\"title\"\n  event 10 "),
    ("b until q changes doc/\"todo\"/2@p/\"title\"\n", "(10/20) ", "10 q.apply(3, p)"),
]


def answers_what_is_typed(_):
    with tempfile.TemporaryDirectory() as folder, debugger(folder) as terminal:
        terminal.read_to("(0/20) ")
        for typed, end, wanted in TYPED:
            terminal.type(typed)
            shown = terminal.read_to(end).split("\n", 1)[-1]
            expect(wanted in shown, f"{typed!r} shows {shown!r}, and not {wanted!r}")
        terminal.type(CTRL_D)
        expect(terminal.status() == 0, "it doesn't end with 0")


# What is begun, before Tab is pressed twice, and what must be offered, or be in the line.
TABS = [
    ("un", ["unbreak", "until"]),
    ("break", ["break", "breaks"]),
    ("break ", ["at", "rule", "replica"]),
    ("break rule CLEAR-LIST", ["CLEAR-LIST1", "CLEAR-LIST2", "CLEAR-LIST3"]),
    ("state ", ["p", "q", "--raw"]),
    ("unbreak ", ["unbreak 1"]),
    ("until ", [*KINDS, "not"]),
    ("u q sho", ["u q shows"]),
    ("back until rule RE", ["RECV"]),
    ("help whe", ["help where"]),
    ("why ", ["p", "q"]),
    ("fate ", ["1@p", "5@p", "5@q"]),
    ("act ", ["q.exec", "p.send", "p.recv(p)", "p.recv(q)"]),
    ("act p.s", ["act p.send"]),
]


def completes(_):
    with tempfile.TemporaryDirectory() as folder, debugger(folder) as terminal:
        terminal.read_to("(0/20) ")
        terminal.type("g 13\nbreak at 3\n")
        terminal.read_to("set 1")
        terminal.read_to("(13/20) ")
        for begun, offered in TABS:
            terminal.type(begun + "\t\t" + CLEAR_LINE + "no\n")
            shown = terminal.read_to("help lists the commands\n")
            lacking = [word for word in offered if not re.search(rf"(?<!\S){re.escape(word)}(?!\S)", shown)]
            expect(not lacking, f"{begun!r} offers {shown!r}, and not {lacking}")
            terminal.read_to("(13/20) ")


def wait_for(path):
    end = time.monotonic() + SECONDS
    while not os.path.exists(path):
        expect(time.monotonic() < end, f"there is no {path}")
        time.sleep(0.05)


def is_interrupted(_):
    """Ctrl-C ends a search and keeps the session; at the prompt it drops the line."""
    slow = {"slow": SLOW.format(oracle=os.path.abspath(IN_PYTHON))}
    with tempfile.TemporaryDirectory() as folder, folder_of(slow) as commands:
        with debugger(folder, os.path.join(commands, "slow")) as terminal:
            terminal.read_to("(0/20) ")
            terminal.type("until shows nothing\n")
            wait_for(os.path.join(commands, "slow.begun"))
            terminal.type(CTRL_C)
            terminal.read_to("stopped, still at 0")
            terminal.read_to("(0/20) ")
            terminal.type("until p shows todo\n")
            terminal.read_to("(1/20) ")
            terminal.type("goto 0\n")
            terminal.read_to("(0/20) ")
            terminal.type("step 5" + CTRL_C)
            terminal.read_to("(0/20) ")
            terminal.type("s\n")
            terminal.read_to("(1/20) ")
            terminal.type("quit\n")
            expect(terminal.status() == 0, "it doesn't end with 0")


def keeps_history(_):
    """A line of one session is there in the next."""
    with tempfile.TemporaryDirectory() as folder:
        with debugger(folder) as terminal:
            terminal.read_to("(0/20) ")
            terminal.type("goto 7\n")
            terminal.read_to("(7/20) ")
            terminal.type("q\n")
            expect(terminal.status() == 0, "it doesn't end with 0")
        with debugger(folder) as terminal:
            terminal.read_to("(0/20) ")
            terminal.type(UP + UP + "\n")
            terminal.read_to("(7/20) ")


def has_no_home(_):
    """Where the history can't be kept there is none, and the session goes on."""
    with debugger("/dev/null/no") as terminal:
        terminal.read_to("(0/20) ")
        terminal.type("s\n")
        terminal.read_to("(1/20) ")
        terminal.type(CTRL_D)
        expect(terminal.status() == 0, "it doesn't end with 0")


def is_that_of_the_rules(_):
    """In a terminal the session of the rules in Python is this one."""
    with tempfile.TemporaryDirectory() as folder, Terminal([IN_PYTHON, "debug", FIRST], folder) as terminal:
        terminal.read_to("nothing of this is proved")
        terminal.read_to("(0/1) ")
        terminal.type("s\nv\n")
        terminal.read_to("a  {\"a\": 1}")
        terminal.read_to("(1/1) ")
        terminal.type(CTRL_D)
        expect(terminal.status() == 0, "it doesn't end with 0")


# ---- lines of a pipe


def piped(programs, file, lines, words=("tools/debug",)):
    return run([*words, file], programs.program, "".join(f"{line}\n" for line in lines))


def some_lines(file, seed):
    """Lines of a session on the file, some of them refused."""
    chosen, scenario = random.Random(seed), Scenario(stored(file))
    names, count = list(scenario.scripts), len(scenario.events)
    kinds = [
        lambda: chosen.choice(["step", "back", "run", "trace", "state", "enabled", "schedule", " where "]),
        lambda: chosen.choice(["step 01", "breakx", "quit now", "\u00e9", f"act {names[0]}.exec;", "break rule EXEC"]),
        lambda: f"step {chosen.randrange(4)}",
        lambda: f"goto {chosen.randrange(count + 2)}",
        lambda: f"break at {chosen.randrange(count)}",
        lambda: f"break replica {chosen.choice([*names, 'no'])}",
        lambda: f"unbreak {chosen.randrange(1, 4)}",
        lambda: f"act {chosen.choice(scenario.events)}",
        lambda: f"compare {chosen.choice(names)} {chosen.choice(names)}",
        lambda: f"state {chosen.choice([*names, 'no'])}",
    ]
    return [chosen.choice(kinds)() for _ in range(80)]


def answers_as_the_program(file):
    """What isn't indented is the program's own answer, of the same lines."""

    def tried(programs):
        for seed in range(2):
            lines = some_lines(file, seed)
            raw = [f"{line} --raw" if line.split()[0] in ("state", "trace") else line for line in lines]
            wanted = piped(programs, file, lines, [programs.program, "debug"]).stdout.decode()
            told = piped(programs, file, raw)
            expect(told.returncode == 0 and wanted.count("\n") > 80, f"{told}")
            expect_same("".join(re.findall(r"^(?!  ).*\n", told.stdout.decode(), re.MULTILINE)), wanted)

    return f"debug: {file} as the program", tried


def is_laid_out(programs):
    """A state in many lines is that of the bytes, and a trace has the rules and the depths."""
    lines = [line for n in (0, 7, 19) for line in (f"goto {n}", "state --raw", "state", "trace --raw", "trace")]
    shown = piped(programs, TO_DO, lines).stdout.decode()
    for part in re.split(r"^at .*\n", shown, flags=re.MULTILINE)[1:]:
        raw, rest = re.fullmatch(r"(?:  .*\n)*((?:\{\".*\n)+)((?:.*\n)*)", part).groups()
        state, traces = re.fullmatch(r"((?:.*\n)*\}\n)((?:.*\n)*)", rest).groups()
        texts = re.findall(r"^\{$.*?^\}$|^\{.*\}$", state, re.MULTILINE | re.DOTALL)
        expect([json.loads(text) for text in texts] == [json.loads(line) for line in raw.splitlines()], state)
        expect(max(map(len, state.splitlines())) <= WIDTH, state)
        if traces != "start\nstart\n":
            _, rows, again = re.split(r"^event .*\n", traces, flags=re.MULTILINE)
            expect_same(re.sub(r" {2,}(\d+)  +", r"\1 ", again), rows)


def layout_holds(_):
    """Runs of a rule in a trace are one row; a number keeps its text."""
    found = runs_of(["0 A", "1 B", "2 B", "3 B", "2 B", "4 C"])
    expect(found == [(0, 0, "A"), (1, 3, "B"), (2, 2, "B"), (4, 4, "C")], f"{found}")
    text = '{"a": 1.50, "b": [-0, 1e400, "' + "x" * 90 + '"], "c": "\\u0001\u00e9", "d": {}}'
    rows = list(laid_out(read_json(text)))
    expect(len(rows) > 5 and "".join(row.strip() + " " * row.endswith(",") for row in rows) == text, "\n".join(rows))


# ---- predicates


def brute(file, predicate):
    """The positions at which the predicate of documents holds, by a view for each."""
    scenario, text = Scenario(stored(file)), stored(file).encode()
    for position in itertools.count():
        out = io.BytesIO()
        status = command_line(["view", "--at", str(position), "-"], io.BytesIO(text), out, io.StringIO())
        if status or position > len(scenario.events):
            return
        lines = [json.loads(line) for line in out.getvalue().decode().splitlines()]
        texts = [json.dumps(line["doc"], separators=(",", ":")) if "doc" in line else None for line in lines]
        if predicate.holds(dict(zip(scenario.scripts, texts))):
            yield position


ASKED = [(TO_DO, "conflict"), (TO_DO, "diverge"), (TO_DO, "not diverge"), (TO_DO, "shows title"),
         (TO_DO, "lacks title"), (TO_DO, "q lacks title"), (TO_DO, 'shows "done":true'), (ANSWER, "r shows now"),
         (ANSWER, "not r shows now"), ("examples/one-value.jsoncrdt", "conflict"), (STUCK, "diverge"),
         ("examples/one-value.jsoncrdt", "p conflict")]


def found_case(file, text):
    """From each position the nearest ones that way and this, by `serve` and by the commands of a program without it."""

    def tried(_):
        scenario = Scenario(stored(file))
        predicate = predicate_of(text, list(scenario.scripts))
        wanted, last = list(brute(file, predicate)), len(scenario.events) - (file == STUCK)
        expect(wanted or text == "conflict", "it holds nowhere")
        for has_serve, step in ((True, 1), (False, 6)):
            with mock.patch.object(positions, "asked", positions.asked if has_serve else lambda: None):
                along = Positions(scenario, scenario.events)
                for here in range(0, last + 1, step):
                    found = along.next_with(here, predicate.holds), along.last_with(here, predicate.holds)
                    later, earlier = [n for n in wanted if n > here], [n for n in wanted if n < here]
                    due = min(later, default=None), max(earlier, default=None)
                    expect(found == due, f"{found} from {here}, and not {due}, with serve: {has_serve}")

    return f"debug: {text} in {file}", tried


# A predicate, what it looks at, and whether it holds there.
HOLDS = [
    ("shows x", {"p": '{"a":"x"}', "q": '{"a":"x"}'}, True),
    ("shows x", {"p": '{"a":"x"}', "q": '{"a":"y"}'}, False),
    ("shows x", {"p": '{"a":"x"}', "q": None}, False),
    ("lacks x", {"p": '{"a":"x"}', "q": '{"a":"y"}'}, True),
    ("lacks x", {"p": '{"a":"x"}', "q": '{"a":"x"}'}, False),
    ("p lacks x", {"p": '{"a":"x"}', "q": '{"a":"y"}'}, False),
    ("q lacks x", {"p": '{"a":"x"}', "q": None}, True),
    ('shows "a":"x y"', {"p": '{"a":"x y"}', "q": '{"a":"x y"}'}, True),
    ("conflict", {"p": '{"a":[{"!conflict":{"values":[]}}]}', "q": None}, True),
    ("q conflict", {"p": '{"!conflict":{}}', "q": "{}"}, False),
    ("conflict", {"p": '{"!!conflict":1,"b":"!conflict","x\\"!conflict":2}', "q": '"\\"!conflict\\":"'}, False),
    ("diverge", {"p": "1", "q": None}, True),
    ("diverge", {"p": "1", "q": "1"}, False),
    ("not diverge", {"p": "1", "q": "1"}, True),
    ("not not diverge", {"p": "1", "q": "1"}, False),
    ("event q.apply(5,p)", "q.apply(5, p)", True),
    ("event *.apply(5, *)", "q.apply(5, p)", True),
    ("event q.apply", "q.apply(5, p)", False),
    ("rule clear-*", ["EXEC", "CLEAR-REG"], True),
    ("rule CLEAR", ["EXEC", "CLEAR-REG"], False),
    ("stuck", True, True),
    ("not stuck", True, False),
]
LOOKS_AT = {dict: "documents", str: "event", list: "rules", bool: "stuck"}


def holds_case(text, what, wanted):
    def tried(_):
        predicate = predicate_of(text, ["p", "q"])
        expect(predicate.looks_at == LOOKS_AT[type(what)], f"it looks at {predicate.looks_at}")
        expect(predicate.holds(what) == wanted, f"{text} of {what}")

    return f"debug: {text} of {json.dumps(what)}", tried


TITLE, IN_TITLE = 'doc.get("todo").idx(1).get("title")', 'doc/"todo"/2@p/"title"'
# What is read from a pipe, and what is told beside the program's own answers.
PREDICATES = ("there are shows, lacks, conflict, diverge, stuck, event, rule, changes, and `not` before any of "
              "these")
PIPED = [
    (STUCK, ["until stuck"], """\
at 13
stuck 36 DepsMissing r.apply(2, q)
  An operation is applied after all that its maker had applied when it made it:
  apply these before.
  missing: 1@p
  13 r.apply(1, q)  applies 1@q  doc.get("author") := "Ada"
"""),
    (STUCK, ["goto 13", "until not stuck"], """\
at 13
  13 r.apply(1, q)  applies 1@q  doc.get("author") := "Ada"
  at no later position, still at 13
"""),
    (STUCK, ["goto 12", "act r.apply(9, q)"], """\
at 12
  12 r.recv(q)  gets from q: 1@q 2@q
at 12
stuck 34 NotReceived r.apply(9, q)
  The operation isn't there to be applied or taken: its maker has to `send` it,
  and this replica to `recv` or `take` it, before.
  offered by: none
"""),
    (FIRST, ["until", "until what", "until shows", "until diverge x", "back until"], f"""\
  a predicate is missing; {PREDICATES}
  what is no predicate; {PREDICATES}
  shows needs TEXT
  nothing stands behind diverge
  a predicate is missing; {PREDICATES}
"""),
    (FIRST, ["", "step\r", "back 1", "\t", "view"], """\
at 1
  1 a.exec  1@a  doc.get("a") := 1
at 0
  the start
refused 50 AtStart
  There are fewer events to take back: `where` shows the position, and `goto 0`
  goes to the start.
a  no document
"""),
    # What changed the title: events 3 and 13 at p, 10 and 20 at q. At 13 the item has no index at p, and at q it has.
    (TO_DO, [f"until changes {TITLE}", "goto 3", f"until changes {TITLE}", "until q changes " + IN_TITLE,
             f"back until changes {IN_TITLE}", f"back until p changes {IN_TITLE}", "goto 13", f"until changes {TITLE}",
             f"until changes {TITLE}", "until p changes doc/", "until changes", "goto 3", f"until q changes {TITLE}",
             "goto 0", f"until changes {TITLE}.keys"],
     """\
  doc.get("todo").idx(1).get("title") is no place at p: 25 NoSuchNode mapT(doc)
at 3
  3 p.exec  3@p  doc.get("todo").idx(1).get("title") := "buy milk"
at 13
  13 p.exec  5@p  doc.get("todo").idx(1).delete
at 20
  20 q.apply(5, p)  applies 5@p  doc.get("todo").idx(1).delete
at 13
  13 p.exec  5@p  doc.get("todo").idx(1).delete
at 3
  3 p.exec  3@p  doc.get("todo").idx(1).get("title") := "buy milk"
at 13
  13 p.exec  5@p  doc.get("todo").idx(1).delete
at 20
  20 q.apply(5, p)  applies 5@p  doc.get("todo").idx(1).delete
  at no later position, still at 20
  doc/ is neither a place nor an expression: 1 BadByte at 3
  changes needs PLACE
at 3
  3 p.exec  3@p  doc.get("todo").idx(1).get("title") := "buy milk"
  doc.get("todo").idx(1).get("title") is no place at q: 25 NoSuchNode mapT(doc)
at 0
  the start
  doc.get("todo").idx(1).get("title").keys is no place at p: 25 NoSuchNode mapT(doc)
"""),
    (TO_DO, ["goto 13", f"why p {IN_TITLE}", f"why {TITLE}", "fate 2@p", "fate 5@q", "fate 3@p 4@p", "why", "why p"],
     """\
at 13
  13 p.exec  5@p  doc.get("todo").idx(1).delete
p: doc/"todo"/2@p/"title"
  event 13 p.exec, 5@p: doc.get("todo").idx(1).delete
    doc/"todo"/2@p/"title" loses 3@p "buy milk", vanishes
  event 3 p.exec, 3@p: doc.get("todo").idx(1).get("title") := "buy milk"
    doc/"todo"/2@p/"title" gets 3@p "buy milk", appears
p: doc.get("todo").idx(1).get("title") is no place at p: 26 PastEnd
q: doc/"todo"/2@p/"title"
  event 10 q.apply(3, p), 3@p, which event 3 p.exec made: doc.get("todo").idx(1).get("title") := "buy milk"
    doc/"todo"/2@p/"title" gets 3@p "buy milk", appears
2@p, event 2 p.exec: doc.get("todo").idx(0).insertAfter({})
  p: deleted by 5@p (doc.get("todo").idx(1).delete) at event 13 p.exec
  q: visible
  no operation 5@q was made up to here
  fate [OPERATION]
  fate goes with one operation, or none
  fate [OPERATION]
  a place is missing
  why [NAME] PLACE
  p is no place at p: 22 UnboundVariable
"""),
    (ANSWER, ["why r doc", "fate", "goto 4", "why r doc", "fate 2@q"], """\
r: doc
  no event changed it
1@p, given event 1 p.exec: doc.get("question") := "when"
  p: visible
  q: visible
  r: not received
2@q, given event 7 q.exec: doc.get("answer") := "now"
  p: not received
  q: visible
  r: not received
at 4
  4 r.apply(2, q)  applies 2@q  doc.get("answer") := "now"
r: doc
  event 4 r.apply(2, q), 2@q, which given event 7 q.exec made: doc.get("answer") := "now"
    doc/"answer" gets 2@q "now", appears
  event 3 r.apply(1, p), 1@p, which given event 1 p.exec made: doc.get("question") := "when"
    doc is made a map, appears
    doc/"question" gets 1@p "when", appears
2@q, given event 7 q.exec: doc.get("answer") := "now"
  p: not received
  q: visible
  r: visible
"""),
    (FIRST, ["breaks", "br", "back until break", "break at 1", "unbreak 1", "breaks"], """\
  none
  none
  at no earlier position, still at 0
set 1
cleared 1
  at 1
  none
"""),
    (FIRST, ["list 0", "s", "list 9", "list x", "view b", "help st", "help no"], """\
-> 0 the start
   1 a.exec     1@a  doc.get("a") := 1
at 1
  1 a.exec  1@a  doc.get("a") := 1
   0 the start
-> 1 a.exec     1@a  doc.get("a") := 1
  list goes with one number, or none
  list [N]
  no replica b; there are a
  view [NAME] [--raw]
  st begins step and state
  help [COMMAND]
  no command is no; help lists them
  help [COMMAND]
"""),
]


def piped_case(file, lines, wanted):
    def tried(programs):
        told = piped(programs, file, lines)
        expect(told.returncode == 0, f"{told}")
        expect_same(told.stdout.decode(), wanted)

    return f"debug: {', '.join(map(repr, lines))} of {file}", tried


def sentences_are_there(_):
    """Each refusal that a session or an event has, has its sentence."""
    numbers = [number for number in REFUSALS if number not in (37, 39)]
    lacking = [number for number in numbers if not re.fullmatch(r".{10,}\.", SENTENCES.get(number, ""))]
    expect(not lacking, f"no sentence for {lacking}")


def page_has_commands(_):
    """The page of the debugger has each command with its short names, and each predicate."""
    page = stored("docs/DEBUGGER.md")
    for command in COMMANDS.values():
        shorts = itertools.chain([", ".join(f"`{short}`" for short in command.shorts)], itertools.repeat(""))
        for short, (form, about) in zip(shorts, command.forms.items()):
            expect(f"| `{form}` | {short} | {about} |\n" in page, f"no row for {form}")
    lacking = [name for name in KINDS if not re.search(rf"^\| `{name}\b", page, re.MULTILINE)]
    expect(not lacking, f"no row for {lacking}")


def dying_case(end, sentence, status):
    """The program's end is one sentence."""

    def tried(_):
        with folder_of({"dying": DYING.format(oracle=os.path.abspath(IN_PYTHON), end=end)}) as folder:
            told = run(["tools/debug", FIRST], os.path.join(folder, "dying"), "where\nstep\nwhere\n")
        own = [line for line in told.stderr.decode().splitlines() if not line.startswith("oracle/")]
        expect(told.returncode == status and told.stdout == b"at 0 of 1\n", f"{told}")
        expect(len(own) == 1 and own[0].endswith(f"{sentence}, and the session with it"), f"{told}")

    return f"debug: a program that ends by {end}", tried


def terminal():
    yield "debug: what is typed in a terminal", answers_what_is_typed
    yield "debug: Tab", completes
    yield "debug: Ctrl-C", is_interrupted
    yield "debug: the history", keeps_history
    yield "debug: a history that can't be kept", has_no_home
    yield "debug: oracle/jsoncrdt debug in a terminal", is_that_of_the_rules
    for file in (TO_DO, ANSWER, STUCK, FIRST):
        yield answers_as_the_program(file)
    yield "debug: states and traces in many lines", is_laid_out
    yield "debug: layout", layout_holds
    yield from itertools.starmap(found_case, ASKED)
    yield from itertools.starmap(holds_case, HOLDS)
    yield from itertools.starmap(piped_case, PIPED)
    yield "debug: sentences", sentences_are_there
    yield "debug: commands in docs/DEBUGGER.md", page_has_commands
    yield dying_case("kill -9 $$", "was killed by signal 9", 4)
    yield dying_case("exit 5", "ended with 5", 5)
    yield dying_case("exit 0", "ended with 0", 4)
