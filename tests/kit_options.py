"""What kit/check tells of an engine of other rules: the classes of differences, what is let pass, whether it agrees
with itself, and an adapter that can't start."""

import functools
import json
import os
import re
import tempfile

from cases import NotTried, expect, expect_same, place, run, stored
from kit import NAMES, check

from classes import CLASSES, class_of

BOTH = {"!conflict": {"values": [["2@p", "B"], ["2@q", "C"]]}}
MIXED = {"!conflict": {"map": {"a": 1}, "values": [["2@p", "B"]]}}
# The class, the document that the rules give, and that of the engine. None is no document.
ALIKE = [
    ("same", {"a": ["x", "y"], "b": 1}, {"b": 1, "a": ["x", "y"]}),
    ("same", None, None),
    ("one-value", {"a": BOTH}, {"a": "B"}),
    ("one-value", {"a": BOTH}, {"a": "C"}),
    ("one-value", [MIXED], [{"a": 1}]),
    ("one-value", {"a": MIXED, "b": BOTH}, {"a": "B", "b": BOTH}),
    ("order", ["x", "y", "x"], ["x", "x", "y"]),
    ("order", [["x", "y"], ["z"]], [["z"], ["y", "x"]]),
    ("order-and-one-value", ["x", BOTH], ["C", "x"]),
    ("less", {"a": 1, "b": 2}, {"a": 1}),
    ("less", {"a": 1}, {}),
    ("less", {"a": 1}, None),
    ("less", ["x", "y", "z"], ["z", "x"]),
    ("less", [{"a": 1, "b": [1, 2]}, "x"], [{"b": [2]}]),
    ("less", {"a": BOTH, "b": 1}, {"a": "C"}),
    # Each element has one of its own: the first of the engine's must leave the first of the rules' to the second.
    ("less", [{"a": 1, "b": 2}, {"a": 1}, "x"], [{"a": 1}, {"a": 1, "b": 2}]),
    ("more", {"a": 1}, {"a": 1, "b": 2}),
    ("more", None, {}),
    ("more", ["x"], ["y", "x"]),
    ("more", {"a": "B"}, {"a": BOTH}),
    ("other", {"a": BOTH}, {"a": "D"}),
    ("other", {"a": 1}, {"a": True}),
    ("other", {"a": 1, "b": 2}, {"b": 2, "c": 3}),
    ("other", ["x", "x"], ["x", "y"]),
    ("other", [], {}),
]
# Scenarios in which the engine shows less, and more, so that neither is said.
PAIRS = [
    ("same", [("p", 1), ("q", 2)], [("p", 1), ("q", 2)]),
    ("less", [("p", {"a": 1}), ("q", [1])], [("p", {}), ("q", [1])]),
    ("other", [("p", {"a": 1}), ("q", {})], [("p", {}), ("q", {"a": 1})]),
    ("lines", [("p", 1), ("q", 2)], [("p", 1)]),
    ("lines", [("p", 1), ("q", 2)], [("q", 2), ("p", 1)]),
]

# Options of kit/check, a line of a shell in place of an adapter, the scenarios, the status, and all that it tells; `..`
# stands for any text.
VIEWS = "case $(cat) in *flour*) cat kit/both-append/view;; *oat*) cat kit/element-becomes-map/view;; *) echo {}; esac"
OTHERS = """printf '{"doc":%s,"name":"%s"}\\n' 1 ann 2 ben"""
TWO = ["both-append", "first-assignment"]
TOLD = [
    (["--summary"], VIEWS, TWO, 1, """\
    1 same                 the same
    1 lines                another number of lines, or other names
                           first-assignment
1 passed, 1 failed
"""),
    (["--summary", "--accept", "lines"], VIEWS, TWO, 0, """\
    1 same                 the same
    1 lines                another number of lines, or other names (accepted)
                           first-assignment
1 passed, 1 accepted, 0 failed
"""),
    (["--accept", "lines"], VIEWS, TWO, 0, "1 passed, 1 accepted, 0 failed\n"),
    (["--accept", "less", "--accept", "order"], VIEWS, TWO, 1, "FAILED first-assignment\n..\n1 passed, 1 failed\n"),
    (["--jobs", "2", "--accept", "lines"], VIEWS, TWO, 0, "1 passed, 1 accepted, 0 failed\n"),
    (["--only", "*-44-*", "--summary"], "echo '{}'", [], 1, """\
    1 status               stuck where no event is, or not where a given one is
                           refused-44-given
0 passed, 1 failed
"""),
    (["--summary"], "exit 3", ["first-assignment"], 1, "    1 status   ..\n0 passed, 1 failed\n"),
    (["--summary"], "echo hello", ["first-assignment"], 1, "    1 crash   ..\n0 passed, 1 failed\n"),
    (["--dumps"], "oracle/jsoncrdt run - 2>/dev/null | sed s/Trip/Trap/", ["first-assignment"], 1,
     "FAILED first-assignment\n..\n  line 1 differs\n    the rules give  {..\"Trip\"..\n0 passed, 1 failed\n"),
    (["--dumps", "--summary"], "echo hello", ["first-assignment"], 1, "    1 other   ..\n0 passed, 1 failed\n"),
    # Both replicas of both-append have applied the same, whatever the rules show.
    (["--converge"], OTHERS.replace("2", "1.0"), ["both-append"], 0, "1 passed, 0 failed\n"),
    (["--converge"], OTHERS, ["both-append"], 1,
     "FAILED both-append\n..\n  ann and ben have applied the same operations and differ\n..\n0 passed, 1 failed\n"),
    (["--converge", "--summary"], "cat kit/first-assignment/view", ["both-append"], 1,
     "    1 lines   ..\n0 passed, 1 failed\n"),
    # Both have applied the same, and ben's apply is stuck. Who makes it all the same may show something else at ben.
    (["--converge"], OTHERS, ["refused-35-applied-already"], 0, "1 passed, 0 failed\n"),
    (["--converge"], OTHERS + "; exit 3", ["refused-35-applied-already"], 1, "FAILED ..\n0 passed, 1 failed\n"),
    (["--converge"], "exit 3", ["both-append"], 1, "FAILED both-append\n..\n  it ended with status 3, and no ..\n"),
    # The adapter gives no answer for some scenario, and one for the simplest: a failure as any other.
    ([], "case $(cat) in *Trip*) echo '{\"doc\":{\"title\":\"Trip\"},\"name\":\"ann\"}';; *) exit 7;; esac", TWO, 1,
     "FAILED both-append\n..\n  it ended with status 7\n  repeat: ..\n1 passed, 1 failed\n"),
]
# An adapter that can't start, and what is told on standard error.
NO_START = [
    ("echo why >&2; exit 7", "it ended with status 7: why"),
    ("kill -9 $$", "it was ended by signal 9"),
    ("sleep 60", "it didn't end within 10 seconds"),
    ("yes", "it wrote more than 67108864 bytes"),
    ("printf 'a.js:1\\n throw e\\n\\nError: Cannot find module x\\n    at f\\n\\nNode.js v20\\n' >&2; exit 1",
     "it ended with status 1: Error: Cannot find module x"),
    ("printf 'Traceback (most recent call last):\\n  raise E\\nm.FooError: 7\\nbye\\n' >&2; exit 1",
     "it ended with status 1: m.FooError: 7"),
    ("printf 'INFO: no error\\nlast\\n\\n' >&2; exit 1", "it ended with status 1: last"),
]


# What Yjs shows by its own rules, in which a client is the greater the later the name of its replica comes.
YJS = ["env", "NODE_PATH=/usr/share/nodejs", "node", "examples/engine/yjs-adapter.js"]
OF_YJS = {
    # Of elements inserted behind the same one that of the least client comes first, and the rules show ben's first.
    "both-append": ("order", '"milk","eggs","flour"'),
    # A map has one value under a name: that of the greatest client.
    "figure-one-value": ("one-value", '{"doc":{"key":"C"},"name":"p"}'),
    # A delete takes an item away with all in it.
    "figure-to-do": ("less", '{"doc":{"todo":[]},"name":"p"}'),
    # An assignment to an element is a delete and an insert.
    "element-edited-by-both": ("more", '"oat milk","soy milk","eggs"'),
    "nothing-deleted": ("same", None),
    "refused-44-given": ("same", None),
}


@functools.cache
def has_yjs():
    try:
        return run([*YJS[:3], "-e", "require('yjs')"], "").returncode == 0
    except OSError:
        return False


def as_yjs(programs):
    """The adapter of Yjs shows what Yjs is known to do."""
    if not has_yjs():
        raise NotTried("node with yjs")
    _, output = check(programs, ["--json", "--ops", *YJS], OF_YJS)
    told = {line["name"]: line for line in map(json.loads, output.splitlines()[:-1])}
    expect(told.keys() == OF_YJS.keys(), output)
    for name, (kind, shown) in OF_YJS.items():
        line = told[name]
        expect(line["class"] == kind and (shown is None or shown in line["fault"].split("the adapter")[1]), f"{line}")


def class_case(number, kind, rules, engine):
    """The class of a pair of documents."""

    def tried(_):
        lines = [[{"name": "p"} if doc is None else {"doc": doc, "name": "p"}] for doc in (rules, engine)]
        expect_same(class_of(*lines), kind)

    return f"kit: class {number + 1}, {kind}", tried


def of_some(_):
    """The class of a scenario is that of all its lines."""
    for kind, *sides in PAIRS:
        expect_same(class_of(*([{"doc": doc, "name": name} for name, doc in side] for side in sides)), kind)
    expect_same(class_of([{"name": "p"}], ["hello"]), "lines")


def told_case(options, line, names, status, told):
    def tried(programs):
        got, output = check(programs, [*options, "sh", "-c", line], names)
        pattern = ".*".join(map(re.escape, told.split("..")))
        expect(got == status and re.fullmatch(pattern, output, re.DOTALL), f"status {got}\n{output}")

    return f"kit: kit/check {' '.join(options)} with {line[:40]}", tried


def no_start_case(line, why):
    """It ends at the first scenario; those before it have been told of."""

    def tried(programs):
        told = run(["kit/check", "--only", "both-*", "--summary", "sh", "-c", line], programs.program)
        output, errors = told.stdout.decode(), told.stderr.decode()
        expect(told.returncode == 2 and output == "0 passed, 0 failed, 3 not tried\n", f"{told}")
        expect_same(errors, f"check: sh can't start: {why}\n")

    return f"kit: an adapter can't start: {line[:40]}", tried


def loses_nothing(programs):
    """Of an adapter that can't start any more, what came before is told, and how many weren't tried."""
    with tempfile.TemporaryDirectory() as folder:
        script = f"#!/bin/sh\ncd {folder}; [ -e gone ] && exit 1; touch gone; echo '{{}}'\n"
        place(os.path.join(folder, "adapter"), script)
        told = run(["kit/check", "--only", "both-*", os.path.join(folder, "adapter")], programs.program)
        output = told.stdout.decode()
        expect(told.returncode == 2 and output.startswith("FAILED both-append\n"), f"{told}")
        expect(output.endswith("\n0 passed, 1 failed, 2 not tried\n"), output)


def in_json(programs):
    """--json tells of each scenario in a line, and counts in the last one."""
    status, output = check(programs, ["--json", "sh", "-c", VIEWS], TWO)
    first, second, counts = map(json.loads, output.splitlines())
    expect((status, first["name"], first["class"], first["fault"]) == (1, TWO[0], "same", None), output)
    expect((second["class"], second["fault"].split(" differs ")[0]) == ("lines", "line 1"), output)
    expect(counts == {"passed": 1, "accepted": 0, "failed": 1, "not tried": 0}, output)


def is_listed(programs):
    """--list has each scenario, and those that fit a pattern."""
    status, output = check(programs, ["--list"])
    expect(status == 0 and [line.split()[0] for line in output.splitlines()] == NAMES, output)
    status, output = check(programs, ["--list", "--only", "figure-*", "--only", "both-append", "--except", "*-t*"])
    names = ["both-append", "figure-characters", "figure-emptied-map", "figure-one-value"]
    expect([line.split()[0] for line in output.splitlines()] == names, output)
    status, output = check(programs, ["--list", "--json", "--only", "both-append"])
    expect(json.loads(output)["about"].startswith("Rule INSERT2: "), output)


def goes_side_by_side(programs):
    """With --jobs all is told in the same order."""
    words = ["--only", "woven-a*", "oracle/adapter", "--fault", "rising"]
    one, more = (check(programs, ["--jobs", jobs, *words]) for jobs in ("1", "3"))
    expect(one == more and one[1].startswith("FAILED woven-arrival-"), f"{one}\n{more}")


def is_named(_):
    """The page of the kit has each class."""
    page = stored("kit/README.md")
    lacking = [kind for kind in CLASSES if kind != "same" and f"| `{kind}` | {CLASSES[kind]}" not in page]
    expect(not lacking, f"kit/README.md lacks {lacking}")


def kit_options():
    for number, row in enumerate(ALIKE):
        yield class_case(number, *row)
    yield "kit: classes of some lines", of_some
    for row in TOLD:
        yield told_case(*row)
    for row in NO_START:
        yield no_start_case(*row)
    yield "kit: an adapter dies after the first", loses_nothing
    yield "kit: kit/check --json", in_json
    yield "kit: kit/check --list", is_listed
    yield "kit: kit/check --jobs", goes_side_by_side
    yield "kit: classes are named", is_named
    yield "kit: Yjs", as_yjs
