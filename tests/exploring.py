"""tools/explore: the outcomes of many seeds, where they can be listed by hand, and by which seed each came first."""

import collections
import json
import os

from cases import IN_PYTHON, expect, expect_same, folder_of, run, stored, told_errors

# Two replicas with a command each and no yield: nobody hears of the other, in whatever order they act.
APART = 'jsoncrdt 1 replica p { doc.get("k") := "A" } replica q { doc.get("k") := "B" } schedule {}'
# q hears of p's A before it assigns B, which then takes A away, or it doesn't, and both are kept. At their last yields
# all that finish hear the others out, so both replicas show the same.
AFTER = ('jsoncrdt 1 replica p { doc.get("k") := "A"; yield } replica q { yield; doc.get("k") := "B"; yield } '
         'schedule {}')
# p has A, then B, and q has C. C comes without A and B, or with A alone: then p makes B without C, and both stay, or
# with it, and B alone stays. Or it comes with both, and stays alone.
THREE = "examples/one-value.jsoncrdt"
# q's command needs an element that nobody makes, or that isn't there before p has been heard.
NEVER = 'jsoncrdt 1 replica p { yield } replica q { yield; doc.get("l").idx(1).delete } schedule {}'
GIVEN = "jsoncrdt 2 replica a {} given { a.exec } schedule {}"

BOTH = {"!conflict": {"values": [["p", "A"], ["q", "B"]]}}
OUTCOMES = [
    (APART, 20, [{"p": {"k": "A"}, "q": {"k": "B"}}]),
    (AFTER, 40, [{"p": {"k": BOTH}, "q": {"k": BOTH}}, {"p": {"k": "B"}, "q": {"k": "B"}}]),
]
# Words, a scenario on standard input or a file, the status, and what is told on standard error.
LOOKED_FOR = [
    ("--until diverge -", APART, 0, "explore: diverge: it holds of seed 0\n"),
    ("--until conflict --seeds 5 -", APART, 1, "explore: conflict: it holds of none of 5 seeds\n"),
    ("--until 'q shows A' --seeds 5 -", APART, 1, "explore: q shows A: it holds of none of 5 seeds\n"),
    ("--until 'not shows A' --seeds 5 -", APART, 0, "explore: not shows A: it holds of seed 0\n"),
    ("--command 'grep -q A' --seeds 5 -", APART, 0, "explore: grep -q A: it holds of seed 0\n"),
    ("--command 'exit 1' --seeds 2 -", APART, 1, "explore: exit 1: it holds of none of 2 seeds\n"),
    ("--until stuck --seeds 9 -", NEVER, 0, "explore: in each of 1 seeds q is stuck at doc.get(\"l\").idx(1).delete: "
     "what it needs isn't there yet; give it as the past in a block given { .. }, or put more yields before it, at "
     "which "
     "it may hear of it\nexplore: stuck: it holds of seed 0\n"),
    ("--seeds 9 -", NEVER, 0, "explore: in each of 9 seeds q is stuck at doc.get(\"l\").idx(1).delete: .."),
    ("--seeds 3 examples/to-do.jsoncrdt", "", 0, "explore: in each of 3 seeds q is stuck at doc.get(\"todo\").."),
    # Of these one isn't.
    ("--seeds 15 examples/to-do.jsoncrdt", "", 0, ""),
    ("--until nothing -", APART, 2, "explore: nothing is no predicate; there are .."),
    ("--until 'rule X' -", APART, 2, "explore: rule X is asked at a position; of how a seed ended there are .."),
    ("--until stuck --command true -", APART, 2, "explore: argument --command: not allowed with argument --until .."),
    ("--seeds 0 -", APART, 2, "explore: argument --seeds: 0 is no number from 1 on .."),
    ("-", "jsoncrdt 1 replica", 1, "explore: refused .."),
    ("-", GIVEN, 3, "explore: refused 44 GivenStuck at 1 stuck 30 NoCommand a.exec\n"),
    ("no-such-file", "", 4, "explore: read failed: no-such-file: .."),
]


def explored(programs, words, text="", program=None):
    told = run(f"tools/explore {words}", program or programs.program, text, shell=True)
    return told.returncode, told.stdout.decode(), told_errors(told)


def without_counters(value):
    """A document with the makers of its values alone."""
    return json.loads(json.dumps(value).replace('"1@', '"').replace('"2@', '"'))


def outcomes_case(text, seeds, outcomes):
    def tried(programs):
        status, output, _ = explored(programs, f"--json --seeds {seeds} -", text)
        rows = list(map(json.loads, output.splitlines()))
        found = [without_counters(row["documents"]) for row in rows]
        expect(status == 0 and sorted(map(str, found)) == sorted(map(str, outcomes)), f"status {status}\n{output}")
        expect(sum(row["count"] for row in rows) == seeds and not any(row["stuck"] for row in rows), output)

    return f"tools/explore: outcomes of {text[:60]}", tried


def looked_for_case(words, text, status, told):
    def tried(programs):
        got, _, errors = explored(programs, words, text)
        is_told = errors.startswith(told[:-2]) if told.endswith("..") else errors == told
        expect(got == status and is_told, f"status {got}\n{errors}")

    return f"tools/explore: {words} of {text[:40]}", tried


def are_three(programs):
    """The outcomes of an example, listed by hand; each is that of its first seed, and as often as a seed makes it."""
    seeds = 30
    _, output, _ = explored(programs, f"--json --seeds {seeds} {THREE}")
    rows = {tuple(sorted(name for name in "ABC" if f'"{name}"' in str(row["documents"]).replace("'", '"'))): row
            for row in map(json.loads, output.splitlines())}
    counts, first = collections.Counter(), {}
    for seed in range(seeds):
        woven = run([IN_PYTHON, "weave", "--seed", str(seed), THREE], IN_PYTHON).stdout.decode()
        shown = run([IN_PYTHON, "view", "-"], IN_PYTHON, woven).stdout.decode()
        values = tuple(name for name in "ABC" if f'"{name}"' in shown)
        counts[values] += 1
        first.setdefault(values, (seed, shown))
    expect({*counts} == {("B", "C"), ("B",), ("C",)}, f"{counts}")
    expect({values: row["count"] for values, row in rows.items()} == counts, output)
    for values, (seed, shown) in first.items():
        documents = {line["name"]: line["doc"] for line in map(json.loads, shown.splitlines())}
        expect((rows[values]["seed"], rows[values]["documents"]) == (seed, documents), f"{values}: {output}")


# Programs that aren't the rules in Python: one that notes what it is asked, and one that has no serve yet.
FOUR_SEEDS = "--seeds 4 examples/to-do.jsoncrdt"
ORACLE = f'exec "{os.path.abspath(IN_PYTHON)}" "$@"\n'
PROGRAMS = {"served": f'#!/bin/sh\necho "$1" >>"$0.log"\n{ORACLE}',
            "older": f'#!/bin/sh\n[ "$1" = serve ] && exit 2\n{ORACLE}'}


def asks_the_program(programs):
    """A program is asked by one process of its serve, behind the one that finds out whether it has it. Where it hasn't,
    that is said. All give the same."""
    wanted = explored(programs, FOUR_SEEDS, program=IN_PYTHON)
    expect(wanted[0] == 0 and wanted[1].startswith("4 seeds, "), f"{wanted}")
    with folder_of(PROGRAMS) as folder:
        served, older = (os.path.join(folder, name) for name in PROGRAMS)
        expect_same(str(explored(programs, FOUR_SEEDS, program=served)), str(wanted))
        expect_same(stored(f"{served}.log"), "serve\nserve\n")
        expect_same(str(explored(programs, FOUR_SEEDS, program=older)), str(wanted))
        told = run(f"tools/explore {FOUR_SEEDS}", older, shell=True).stderr.decode()
        said = f"explore: the rules in Python answer, unproved: {older} has no serve\n"
        expect_same(told, said + wanted[2])


def exploring():
    for row in OUTCOMES:
        yield outcomes_case(*row)
    for row in LOOKED_FOR:
        yield looked_for_case(*row)
    yield "tools/explore: three outcomes", are_three
    yield "tools/explore: a program of its own", asks_the_program
