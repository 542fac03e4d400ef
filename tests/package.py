"""The package: scenarios from Python and typed answers, installing it, its strategies, and the example suite."""

import concurrent.futures
import functools
import json
import os
import shutil
import subprocess
import sys
import tempfile
from decimal import Decimal

from cases import IN_PYTHON, NotTried, copy_into, expect, expect_same, folder_of, stored
from jsoncrdt import ABSENT, Conflict, Identifier, NoAnswer, Place, Program, Refused, Rules, Scenario, Stuck, doc
from jsoncrdt import check, journal, run, view, views, weave
from jsoncrdt.machines import pool_of
from jsoncrdt.oracle.engine import FAULTS
from jsoncrdt.serving import Lost, Process
from judging import made
from launching import BY_RULES, tree

RULES = Rules()
KIT = sorted(name for name in os.listdir("kit") if os.path.exists(os.path.join("kit", name, "about")))
DEBIAN = "/usr/bin/python3"
MOST_IMPORT_CALLS = 45_000


def kit_file(name, file):
    """A file of a scenario of the kit. Dumps and traces are made, and the kit's sums know them again."""
    if file in ("dump", "trace"):
        return made(name, file).decode()
    with open(os.path.join("kit", name, file), encoding="utf-8", newline="") as opened:
        return opened.read()


# ---- typed answers are the kit's files


def encoded(value):
    """A document as `view` writes it."""
    if isinstance(value, Conflict):
        parts = {name: encoded(part) for name, part in (("list", value.list), ("map", value.map)) if part is not ABSENT}
        values = [[str(made), one] for made, one in value.values.items()]
        return {"!conflict": {**parts, **({"values": values} if values else {})}}
    if isinstance(value, dict):
        return {"!" + name if name.startswith("!") else name: encoded(inside) for name, inside in value.items()}
    return list(map(encoded, value)) if isinstance(value, list) else value


def view_lines(documents):
    return [{"name": name} if value is ABSENT else {"doc": encoded(value), "name": name}
            for name, value in documents.items()]


def dump_lines(states):
    texts = [{member: list(map(str, of)) for member, of in
              (("ops", s.applied), ("queue", s.made), ("send", s.sent), ("recv", s.received))} for s in states.values()]
    return [{"acted": s.acted, "left": s.left, "name": s.name, "tree": s.tree, "vars": s.variables, **sets}
            for s, sets in zip(states.values(), texts)]


def blocks_of(events):
    """The trace of the events of a schedule."""
    blocks = (f"event {event.number} {event.text}\n" + "".join(f"{depth} {rule}\n" for depth, rule in event.rules)
              for event in events if not event.given)
    return "".join(blocks)


def told(ask):
    """What is asked, and the event that is stuck, or none."""
    try:
        return ask(), None
    except Stuck as stuck:
        return stuck.before, stuck


def stuck_line(stuck):
    key = f"{stuck.key} " if stuck.key else ""
    first = f"refused 44 GivenStuck at {stuck.position}\n" if stuck.given else ""
    return f"{first}stuck {stuck.number} {stuck.name} {key}{stuck.event}\n"


def expect_kit(name, machine):
    """Typed answers to a scenario of the kit, written as texts, are its files."""
    text = kit_file(name, "scenario.jsoncrdt")
    for ask, lines, file in ((view, view_lines, "view"), (run, dump_lines, "dump")):
        found, stuck = told(lambda ask=ask: ask(text, by=machine))
        rows = kit_file(name, file).split("\n")[:-1]
        want = [json.loads(row) for row in rows if row.startswith("{")]
        expect(lines(found or {}) == want, f"{name}: {file} is {lines(found or {})}\nand not\n{want}")
        expect_same("".join(row + "\n" for row in rows if row[:1] != "{"), stuck_line(stuck) if stuck else "")
    events, stuck = told(lambda: journal(text, trace=True, by=machine))
    trace = kit_file(name, "trace")
    expect_same(blocks_of(events or ()), "".join(row + "\n" for row in trace.split("\n")[:-1]
                                                if row[:1].isdigit() or row.startswith("event ")))
    expect(bool(stuck) == (kit_file(name, "status") == "3\n"), f"{name}: {stuck}")


def kit_case(what, names, machine):
    def tried(programs):
        if machine is None and not programs.is_built:
            raise NotTried("the built program")
        for name in names:
            expect_kit(name, machine or Program(os.path.abspath(programs.program)))

    return f"package: typed answers of {what} are the kit's files", tried


def texts_come_back(_):
    """A canonical text that is read is written as it was, and how much there is of it is counted."""
    for name in KIT:
        text = kit_file(name, "scenario.jsoncrdt")
        expect_same(Scenario.read(text).text(), text)
        lines = text.split("\n")
        counts = check(text, RULES)
        got = counts.replicas, counts.commands + counts.events + counts.given
        want = [sum(line.startswith(begin) for line in lines) for begin in ("replica ", "  ")]
        expect([*got] == want, f"{name}: {counts}")


# ---- refusals

HEAD = "jsoncrdt 1\nreplica a {\n  "
# A text, the number and the name of its refusal, its offset, line and column, and what was expected.
REFUSALS = (
    ("", 14, "NoHeader", 0, 1, 1, ()),
    ("jsoncrdt 3\n", 14, "NoHeader", 9, 1, 10, ()),
    ("jsoncrdt 1\nschedule {}\n", 16, "NoReplica", 11, 2, 1, ()),
    (HEAD + 'doc.get("a") = 1;\n}\nschedule {}\n', 7, "Unexpected", 38, 3, 16, (".", ":=")),
    (HEAD + 'doc.get("a").deelte;\n}\nschedule {}\n', 7, "Unexpected", 38, 3, 16,
     ("get", "idx", "keys", "values", "insertAfter", "delete")),
    (HEAD + 'doc.idx("1") := 1;\n}\nschedule {}\n', 7, "Unexpected", 33, 3, 11, ("digits",)),
    (HEAD + 'doc.get("größe") := 01;\n}\nschedule {}\n', 5, "BadNumber", 47, 3, 23, ()),
    (HEAD + 'doc.get("a', 2, "OpenString", 33, 3, 11, ()),
    (HEAD + 'let yield = doc;\n}\nschedule {}\n', 10, "ReservedName", 29, 3, 7, ()),
    (HEAD + "doc.idx(4294967296) := 1;\n}\nschedule {}\n", 9, "IndexTooLarge", 33, 3, 11, ()),
    (HEAD + "yield", 8, "EndOfText", 30, 3, 8, (";", "}")),
    (HEAD + "yield;\n}\nreplica a {}\nschedule {}\n", 15, "SameName", 42, 5, 9, ()),
    (HEAD + "yield;\n}\nschedule {\n  b.exec;\n}\n", 18, "UnknownReplica", 47, 6, 3, ()),
    (HEAD + "yield;\n}\nschedule {\n  a.exec(b);\n}\n", 7, "Unexpected", 53, 6, 9, (";", "}")),
)
SENTENCE = "5 BadNumber: What begins like a number isn't one of JSON: a number has no needless leading zero"


def refusals_are_typed(_):
    for machine in (RULES, Program(os.path.abspath(IN_PYTHON))):
        for text, *want, expected in REFUSALS:
            try:
                check(text, machine)
                found = None
            except Refused as refused:
                found = refused
            expect(found, f"{text} isn't refused")
            got = [found.number, found.name, found.offset, found.line, found.column]
            expect(got == want and set(found.expected) == set(expected), f"{text}: {got} {found.expected}")
            expect(found.number != 5 or found.sentence.startswith(SENTENCE), found.sentence)


def is_refused(what, *want):
    try:
        what()
    except Refused as found:
        got = found.number, found.offset, found.line, found.column, found.expected
        expect(got == want, f"{got} and not {want}")
    else:
        expect(False, f"nothing is refused, and {want} was to be")


def parts_are_refused(_):
    """A command and an event that are no such are refused where they are written, by their own offsets."""
    scenario = Scenario("p", "q").do("p", doc["a"].assign(1))
    before = scenario.text()
    is_refused(lambda: scenario.do("p", 'doc.get("a")'), 8, 12, 1, 13, (".", ":="))
    is_refused(lambda: scenario.script("p", "let x doc"), 7, 6, 1, 7, ("=",))
    is_refused(lambda: scenario.event("p.exce"), 7, 2, 1, 3, ("exec", "send", "done", "recv", "apply", "take"))
    is_refused(lambda: scenario.event("p.recv(r)"), 18, 7, 1, 8, ())
    is_refused(lambda: Scenario("p", "p"), 15, 32, 3, 9, ())
    expect_same(scenario.text(), before)


# ---- stuck events


def is_stuck(what, number, name, event, position, **more):
    """What is called raises this stuck event, which is given."""
    try:
        what()
    except Stuck as stuck:
        got = stuck.number, stuck.name, stuck.event, stuck.position
        expect(got == (number, name, event, position), f"{got}")
        for member, want in more.items():
            expect(getattr(stuck, member) == want, f"{event}: {member} is {getattr(stuck, member)}")
    else:
        expect(False, f"{event} isn't stuck")


def stuck_ones_are_typed(_):
    for machine in (RULES, Program(os.path.abspath(IN_PYTHON))):
        asked = functools.partial(view, by=machine)
        is_stuck(lambda: asked(kit_file("refused-36-deps-missing", "scenario.jsoncrdt")), 36, "DepsMissing",
                 "cleo.apply(2, ben)", 9, missing=(Identifier(1, "ann"),), given=False,
                 before={"ann": {"question": "when"}, "ben": {"question": "when", "answer": "now"}, "cleo": ABSENT})
        is_stuck(lambda: asked(kit_file("refused-25-no-list", "scenario.jsoncrdt")), 25, "NoSuchNode", "ben.exec", 3,
                 key="mapT(doc)")
        is_stuck(lambda: asked(kit_file("refused-34-not-offered", "scenario.jsoncrdt")), 34, "NotReceived",
                 "cleo.take(ben, 1, ann)", 2, offered=("ann",))
        is_stuck(lambda: asked(kit_file("refused-44-given", "scenario.jsoncrdt")), 31, "AtYield", "ann.exec", 2,
                 given=True, before=None)
        is_stuck(lambda: journal(kit_file("refused-30-no-command", "scenario.jsoncrdt"), by=machine), 30, "NoCommand",
                 "ann.exec", 2)


# ---- scenarios from Python

WRITTEN = """\
jsoncrdt 2
replica p {
  doc.get("key") := "A";
  yield;
  doc.get("key") := "B";
  doc.get("l") := [];
  doc.get("l").idx(0).insertAfter(null);
  yield;
  yield;
}
replica q {
  yield;
  doc.get("key").delete;
  yield;
  yield;
  let x = doc.get("l").idx(1);
  x := true;
}
given {
  p.exec;
  p.send;
  q.send;
  p.done;
  q.recv(p);
  q.apply(1, p);
  q.done;
}
schedule {
  p.exec;
  p.exec;
  p.exec;
  q.exec;
  q.send;
  q.done;
  p.recv(q);
  p.apply(2, q);
  p.done;
  p.send;
  q.take(p, 3, p);
  q.recv(p);
  q.apply(2, p);
  q.apply(3, p);
  q.apply(4, p);
  q.done;
  p.done;
  q.exec;
  q.exec;
}
"""
# A value as it is given, and as it is written.
LITERALS = ((1, "1"), (-1.5, "-1.5"), (Decimal("1.50"), "1.50"), (True, "true"), (None, "null"), ([], "[]"), ({}, "{}"),
            ('é"\n\x01', '"é\\"\\n\\u0001"'))


def scenarios_are_written(_):
    """What is written from Python is the text that was written by hand."""
    scenario = Scenario("q", "p").do("p", doc["key"].assign("A")).sync().past()
    scenario.do("p", doc["key"].assign("B"), doc["l"].assign([]), doc["l"][0].insert_after(None))
    scenario.do("q", 'doc.get( "key" ) .delete').deliver("q", "p")
    scenario.send("p").take("q", "p", "3@p").recv("q", "p").apply("q").done("q").done("p")
    scenario.do("q", doc["l"][1].let("x"), Place("x").assign(True))
    expect_same(scenario.text(), WRITTEN)
    documents = {"p": {"key": "B", "l": [None]}, "q": {"key": "B", "l": [True]}}
    expect(scenario.view(by=RULES) == documents, f"{scenario.view(by=RULES)}")
    expect(scenario.view(at=0, by=RULES) == {"p": {"key": "A"}, "q": {"key": "A"}}, "at 0")
    twice = Scenario("p", "q").do("p", doc.assign(1)).past().do("q", doc.assign(2)).past()
    expect("given {\n  p.exec;\n  q.exec;\n}\nschedule {\n}\n" in twice.text(), twice.text())
    for value, text in LITERALS:
        expect_same(doc["a"].assign(value), f'doc.get("a") := {text}')


def stuck_calls_change_nothing(_):
    scenario = Scenario("p", "q").do("p", doc["a"].assign(1)).send("p")
    before = scenario.text()
    is_stuck(lambda: scenario.do("q", doc["a"][1].assign(1)), 25, "NoSuchNode", "q.exec", 3, key="mapT(doc)")
    is_stuck(lambda: scenario.apply("q", "1@p"), 34, "NotReceived", "q.apply(1, p)", 3, offered=("p",), given=False)
    is_stuck(lambda: scenario.take("q", "q", "1@p"), 34, "NotReceived", "q.take(q, 1, p)", 3)
    is_stuck(lambda: scenario.done("q"), 30, "NoCommand", "q.done", 3)
    is_stuck(lambda: scenario.do("p", doc["b"].assign(1), Place("x").delete()), 22, "UnboundVariable", "p.exec", 5)
    expect_same(scenario.text(), before)
    for wrong in (lambda: scenario.do("r", "yield"), lambda: doc.assign([1]), lambda: doc.assign(float("nan"))):
        try:
            wrong()
        except ValueError:
            continue
        expect(False, "a wrong value is taken")
    scenario.script("q", doc["a"].assign(2)).event("q.send").event("q.exec")
    is_stuck(lambda: scenario.sync(), 32, "NotAtYield", "q.send", 3)


def ends_are_typed(_):
    """Of a woven schedule, how each replica ended."""
    scenario = Scenario("p", "q").script("p", doc["a"].assign(1), "yield").script("q", doc["a"][1].delete())
    woven = scenario.weave(3, by=RULES)
    p, q = woven.ends["p"], woven.ends["q"]
    expect((p.how, p.number) == ("finished", None) and p.made == len(woven.scenario.parsed.schedule), f"{woven}")
    expect((q.made, q.how, q.number, q.name, q.event) == (0, "stuck", 25, "NoSuchNode", "q.exec"), f"{woven}")
    expect(scenario.weave(3, limit=1, by=RULES).ends["p"].how == "limit", "the limit isn't told")


def effects_are_typed(_):
    """Those of the event that docs/FORMATS.md shows."""
    event = journal(stored("examples/one-value.jsoncrdt"), effects=True, by=RULES)[12]
    (top,), made = event.effects, Identifier(2, "q")
    (key,) = top.map
    expect((top.key, top.gained, key.key, key.gained) == ("doc", (made,), '"key"', (made,)), f"{event}")
    expect((key.written, key.lost, key.shown) == (((made, "C"),), (), None), f"{key}")


# ---- which machine

ASKS = "import jsoncrdt; print(jsoncrdt.view('jsoncrdt 1 replica a {doc := 1} schedule {a.exec}')); jsoncrdt.machine()"


def called(words, folder=None, **variables):
    """How a command ends in this folder, or here, with these variables, of which JSONCRDT is there if it is given."""
    environment = {name: value for name, value in os.environ.items() if name != "JSONCRDT"}
    return subprocess.run(words, capture_output=True, check=False, cwd=folder, env={**environment, **variables})


NAMED = {"asked": '#!/bin/sh\nexec "$(dirname "$0")/oracle/jsoncrdt" "$@"\n'}


def machine_case(what, program, age, named, lack):
    """One place says which machine is asked. Where it is the rules in Python, that is said, once."""

    def tried(_):
        with tree(program, NAMED, age) as folder:
            variables = {"JSONCRDT": os.path.join(folder, named)} if named else {}
            words = [sys.executable, "-W", "always", "-c", ASKS]
            ended = called(words, PYTHONPATH=os.path.join(folder, "python"), **variables)
            expect(ended.stdout == b"{'a': 1}\n", f"{ended}")
            expect(ended.stderr.decode().count("the rules in Python answer, unproved: ") == bool(lack), f"{ended}")
            expect(lack.encode() in ended.stderr, f"{ended}")

    return f"package: {what} is asked", tried


EFFECTS = """
import jsoncrdt
print(len(jsoncrdt.journal("jsoncrdt 1 replica a {doc := 1} schedule {a.exec}", effects=True)))
"""


def effects_are_of_the_rules(_):
    """They come from the rules in Python, and that is said, also where a program is asked."""
    ended = called([sys.executable, "-W", "always", "-c", EFFECTS], PYTHONPATH="python", JSONCRDT="/bin/false")
    expect(ended.stdout == b"1\n" and b"unproved: effects come from them alone" in ended.stderr, f"{ended}")


# A program that has no serve yet.
OLDER = f'#!/bin/sh\n[ "$1" = serve ] && exit 2\nexec "{os.path.abspath(IN_PYTHON)}" "$@"\n'


def asks_call_by_call(_):
    """A program without serve is started for each call, and gives the same."""
    with folder_of({"older": OLDER}) as folder:
        older, served = Program(os.path.join(folder, "older")), Program(os.path.abspath(IN_PYTHON))
        expect((older.has_effects, served.has_effects) == (False, True), "which program has serve")
        for name in (KIT[3], "refused-44-given", "refused-25-no-list"):
            expect_kit(name, older)
            text = kit_file(name, "scenario.jsoncrdt")
            for ask in (check, functools.partial(weave, seed=7), functools.partial(weave, limit=3),
                        functools.partial(view, at=1), functools.partial(view, at=90_000)):
                got = [told(functools.partial(ask, text, by=machine)) for machine in (RULES, served, older)]
                shown = [(found, vars(stuck) if stuck else None) for found, stuck in got]
                expect(shown[0] == shown[1] == shown[2], f"{name}: {shown}")


def viewed(text):
    """The documents of a scenario, or why there are none."""
    try:
        return view(text, by=RULES)
    except (Refused, Stuck) as why:
        return why


def views_are_alike(_):
    """The documents of many scenarios are those of each. Where a text is refused or an event stuck that is told, and
    the documents behind it all the same."""
    texts = [kit_file(name, "scenario.jsoncrdt") for name in KIT[::5]] + ["jsoncrdt 1 replica a { doc = 1 }", "é"]
    texts += [Scenario("p").do("p", doc.assign("x" * 65_000))] * 20 + [kit_file("both-append", "scenario.jsoncrdt")]
    wanted = list(map(viewed, texts))
    expect({*map(type, wanted)} == {dict, Refused, Stuck}, f"{wanted}")
    plain = lambda each: vars(each) if isinstance(each, Exception) else each
    with folder_of({"older": OLDER}) as folder:
        for machine in (RULES, Program(os.path.abspath(IN_PYTHON)), Program(os.path.join(folder, "older"))):
            found = list(views(iter(texts), by=machine))
            wrong = [pair for pair in zip(map(plain, found), map(plain, wanted)) if pair[0] != pair[1]]
            expect(len(found) == len(wanted) and not wrong, f"{machine} {str(wrong[:1])[:900]}")


def asks_one_process(_):
    """A program with serve is started once, and anew where it has ended."""
    text = kit_file(KIT[0], "scenario.jsoncrdt")
    # A path of its own, so that no other test asks the same process.
    machine = Program(os.path.join(os.path.abspath("oracle"), os.curdir, "jsoncrdt"))
    found, [process] = view(text, by=machine), pool_of(machine.path).idle
    first = process.process.pid
    expect(view(text, by=Program(machine.path)) == found and process.process.pid == first, "it was started twice")
    process.process.kill()
    process.process.wait()
    expect(view(text, by=machine) == found and process.process.pid != first, "it wasn't started anew")
    expect(journal(text, effects=True, by=machine) == journal(text, effects=True, by=RULES), "effects")
    expect(pool_of(machine.path).idle == [process], "there are several")


def asks_side_by_side(_):
    """Threads that ask at once have a process each, which others have behind them."""
    texts = [kit_file(name, "scenario.jsoncrdt") for name in ("both-append", "late-joiner", "figure-to-do")] * 4
    machine = Program(os.path.join(os.path.abspath("oracle"), os.pardir, IN_PYTHON))
    pool, wanted = pool_of(machine.path), [view(text, by=RULES) for text in texts]
    with pool.one() as one, pool.one() as other:
        expect(one is not other and not pool.idle, "two have one process")
        expect(view(texts[0], by=machine) == wanted[0] and len(pool.idle) == 1, "a third one has none")
    with concurrent.futures.ThreadPoolExecutor(3) as threads:
        found = list(threads.map(functools.partial(view, by=machine), texts))
    expect(found == wanted and len(pool.idle) == len({*pool.idle}) == 3, f"{len(pool.idle)} {found}")


HANGING = ('#!/bin/sh\nread line\n[ "$line" = quit ] && { echo \'{"quit":true}\'; exit; }\n'
           'case $1 in serve) exec sleep 60 ;; esac\n')


def loses_no_time(_):
    """A process that doesn't answer, or answers no line, is given up after a time, and so is one that reads nothing."""
    with folder_of({"hanging": HANGING, "dying": HANGING.replace("exec sleep 60", "printf half; exit 7")}) as folder:
        for name, text, seconds, why in (("hanging", b"x", 1, "gives no answer in 1 seconds"),
                                         ("hanging", b"x" * 4_000_000, 1, "reads nothing for 1 seconds"),
                                         ("dying", b"x", 60, "ended with 7")):
            process = Process(os.path.join(folder, name), seconds=seconds)
            try:
                process.bring(text)
            except Lost as lost:
                expect(why in str(lost) and process.process is None, f"{lost}")
            else:
                expect(False, f"{name} has answered")
            try:
                process.ask("where")
            except Lost as lost:
                expect("has no scenario any more" in str(lost), f"{lost}")
            else:
                expect(False, "an answer about no scenario")


def answers_are_lacking(_):
    """What is no jsoncrdt gives no answer."""
    for path in ("/no/such", "/bin/false", "/bin/true"):
        try:
            view(kit_file(KIT[0], "scenario.jsoncrdt"), by=Program(path))
        except (NoAnswer, IndexError) as error:
            expect(isinstance(error, NoAnswer), f"{path}: {error!r}")
        else:
            expect(False, f"{path} has answered")


# ---- installing


def python_with(*modules):
    """The path of a Python that has these modules, the one that runs this or Debian's."""
    for python in (sys.executable, DEBIAN):
        if os.access(python, os.X_OK) and called([python, "-c", f"import {', '.join(modules)}"]).returncode == 0:
            return python
    raise NotTried(" and ".join(modules))


INSTALLED = """
import jsoncrdt, jsoncrdt.oracle.rules as rules, sys
print(jsoncrdt.__file__.startswith(sys.argv[1]) and rules.__file__.startswith(sys.argv[1]))
s = jsoncrdt.Scenario("p", "q").do("p", jsoncrdt.doc["key"].assign("A")).sync()
print(s.view())
"""


def is_installed(_):
    """Offline, into an environment of its own; there it works from another folder, with the rules in Python."""
    python = python_with("venv", "setuptools", "wheel", "pip")
    with tempfile.TemporaryDirectory() as folder:
        source, room = os.path.join(folder, "source"), os.path.join(folder, "room")
        os.mkdir(source)
        copy_into(source, "python", "oracle", "pyproject.toml")
        for words in ([python, "-m", "venv", "--system-site-packages", room],
                      [f"{room}/bin/pip", "install", "--quiet", "--no-index", "--no-build-isolation", source]):
            ended = called(words)
            expect(ended.returncode == 0, f"{ended}")
        shutil.rmtree(source)
        ended = called([f"{room}/bin/python", "-c", INSTALLED, room], folder)
        expect(ended.stdout == b"True\n{'p': {'key': 'A'}, 'q': {'key': 'A'}}\n", f"{ended}")
        expect(b"unproved: JSONCRDT names no program" in ended.stderr, f"{ended}")


IMPORTED = """
import cProfile, pstats, sys
sys.path.insert(0, "python")
with cProfile.Profile() as profile:
    import jsoncrdt
    for name in jsoncrdt.__all__:
        getattr(jsoncrdt, name)
print(pstats.Stats(profile).total_calls)
"""


def is_imported_at_once(_):
    """All of it, by the calls that this takes: they are as many on a busy machine, where seconds are not."""
    calls = int(called([sys.executable, "-c", IMPORTED]).stdout)
    expect(calls < MOST_IMPORT_CALLS, f"{calls} calls")


# ---- strategies

DRAWN = """
import collections, sys
sys.path.insert(0, "python")
from hypothesis import HealthCheck, given, seed, settings
from jsoncrdt import Refused, Rules, Stuck, view
from jsoncrdt import strategies
counts = collections.Counter()

@seed(1)
@settings(max_examples=int(sys.argv[2]), database=None, deadline=None, suppress_health_check=list(HealthCheck))
@given(getattr(strategies, sys.argv[1])())
def drawn(scenario):
    counts["drawn"] += 1
    try:
        counts["conflict"] += "Conflict(" in repr(view(scenario.text(), by=Rules()))
    except Refused:
        counts["refused"] += 1
    except Stuck as stuck:
        counts["stuck"] += stuck.position == len(scenario.parsed.schedule)
        counts[stuck.number] += 1

drawn()
refusals = sorted(kind for kind in counts if isinstance(kind, int))
print(counts["drawn"], counts["refused"], counts["stuck"], counts["conflict"], *refusals)
"""
EXAMPLES = 1000


def strategy_case(name, least_conflicts, all_stuck=False):
    """None of 1,000 drawn texts is refused; events are stuck where that is asked for alone, and then the last ones."""

    def tried(_):
        ended = called([python_with("hypothesis"), "-c", DRAWN, name, str(EXAMPLES)])
        expect(ended.returncode == 0, f"{ended}")
        drawn, refused, stuck, conflicts, *refusals = map(int, ended.stdout.split())
        expect(drawn >= EXAMPLES and refused == 0, f"{ended}")
        expect(stuck == (drawn if all_stuck else 0), f"{ended}")
        expect(conflicts >= least_conflicts, f"{conflicts} conflicts")
        expect(not all_stuck or {20, 22, 23, 25, 26, 27, 28, 31, 35, 36} <= {*refusals}, f"{refusals}")

    return f"package: {name}, {EXAMPLES} examples", tried


# ---- the example suite


def example(fault):
    """How the example suite ends with a fault in its engine."""
    python = python_with("hypothesis", "pytest")
    words = [python, "-m", "pytest", "-q", "-p", "no:cacheprovider", "examples/python"]
    return called(words, FAULT=fault, PYTHONPATH="python")


def example_case(fault):
    def tried(_):
        ended = example(fault)
        told = ended.stdout.decode()
        expect(ended.returncode == 1, f"the fault isn't found: {ended}")
        expect("Falsifying example: test_documents(" in told and "scenario=jsoncrdt " in told, told)

    return f"package: examples/python finds {fault}", tried


def example_passes(_):
    ended = example("")
    expect(ended.returncode == 0 and b"1 passed" in ended.stdout, f"{ended}")


def example_knows_faults(_):
    ended = example("risng")
    expect(ended.returncode != 0 and b"there is no fault risng" in ended.stdout, f"{ended}")


def package():
    yield kit_case("the rules in Python", KIT, RULES)
    yield kit_case("a process of serve", KIT[::8], Program(os.path.abspath(IN_PYTHON)))
    yield kit_case("the built program", KIT, None)
    for tried in (texts_come_back, refusals_are_typed, parts_are_refused, stuck_ones_are_typed, scenarios_are_written,
                  stuck_calls_change_nothing, ends_are_typed, effects_are_typed, effects_are_of_the_rules,
                  asks_call_by_call, views_are_alike, asks_one_process, asks_side_by_side, loses_no_time,
                  answers_are_lacking, is_installed, is_imported_at_once):
        yield f"package: {tried.__name__.replace('_', ' ')}", tried
    yield machine_case("the built program", BY_RULES, 0, None, "")
    yield machine_case("no program that isn't built", None, 0, None, "the program isn't built")
    yield machine_case("no program with newer sources", BY_RULES, 60, None, "sources are newer than the built program")
    yield machine_case("a named program", None, 0, "asked", "")
    yield machine_case("no program where these rules are named", None, 0, "oracle/jsoncrdt", "JSONCRDT names them")
    yield strategy_case("scenarios", EXAMPLES // 4)
    yield strategy_case("woven", EXAMPLES // 5)
    yield strategy_case("stuck", 0, True)
    yield "package: examples/python passes", example_passes
    yield "package: examples/python knows the faults", example_knows_faults
    for fault in FAULTS:
        yield example_case(fault)
