"""The kit of scenarios for other engines: its files, the adapters that must pass and those that must fail, and how
kit/check judges what an adapter writes."""

import json
import os
import re
import sys
import tempfile

from cases import IN_PYTHON, NotTried, copy_into, expect, expect_same, run, stored
from jsoncrdt.oracle.engine import FAULTS
from jsoncrdt.oracle.lines import RULES
from jsoncrdt.oracle.texts import REFUSALS

FILES = {"about", "scenario.jsoncrdt", "status", "view"}
HERE = os.path.join(os.path.dirname(os.path.dirname(os.path.abspath(__file__))), "kit")
sys.path.append(HERE)

from judging import made

NAMES = sorted(name for name in os.listdir(HERE) if os.path.exists(os.path.join(HERE, name, "about")))
LEAST_NAMES, LEAST_WOVEN, MOST_OF_ABOUT = 80, 40, 5
FIGURES = ("one-value", "emptied-map", "two-lists", "characters", "two-types", "to-do")

# The scenarios in which the engine of oracle/adapter must fail with each of its faults. It has others; these are tried.
BROKEN = {
    "delete-wins": ("delete-against-assign", "three-at-one-element", "woven-delete-wins-3"),
    "rising": ("both-append", "both-insert-between", "woven-rising-1"),
    "arrival": ("both-append", "anomaly-late-message", "woven-arrival-2"),
    "forgets": ("late-joiner", "conflict-half-settled", "woven-forgets-2"),
    "last-writer": ("figure-one-value", "element-edited-by-both", "woven-last-writer-2"),
    "shallow": ("figure-emptied-map", "list-emptied-again", "woven-shallow-3"),
    "unlinks": ("figure-characters", "insert-behind-deleted", "woven-unlinks-4"),
    "stays-deleted": ("figure-to-do", "list-deleted-against-insert", "woven-stays-deleted-1"),
    "one-type": ("value-beside-map", "woven-one-type-1", "woven-one-type-2"),
    "impatient": ("refused-36-deps-missing",),
}
# What the `about` of a woven scenario has: its numbers, a fault, and what that is.
WOVEN = re.compile(r"Woven: the random scripts \d+ with the schedule of seed \d+, .* with the fault ([\w-]+) shows "
                   r"others: (.*)\.")
# Woven scenarios that are woven again, to the byte.
WOVEN_AGAIN = ("woven-last-writer-3", "woven-rising-1")

# A scenario, a line of a shell that takes the place of an adapter, and what kit/check says of it: nothing where it
# passes.
VIEW = "cat kit/%s/view"
JUDGED = [
    ("both-append", VIEW, ""),
    ("first-assignment", """echo '{ "name" : "ann", "doc": {"title":"Trip"}}'""", ""),
    ("odd-names-and-values", VIEW + " | sed 's/1.50/1.5e0/'", ""),
    ("odd-names-and-values", VIEW + r" | sed 's/\(.*\)$/\1\r/'", ""),
    ("odd-names-and-values", VIEW + " | sed s/1e400/1e401/", "differs at /doc/far\n"),
    ("odd-names-and-values", VIEW + """ | sed 's/1e400/"1e400"/'""", "differs at /doc/far\n"),
    ("odd-names-and-values", VIEW + " | sed s/true/1/", "differs at /doc/!!important\n"),
    ("both-append", VIEW + """ | sed 's/"flour","eggs"/"eggs","flour"/'""", "line 1 differs at /doc/shopping/1\n"),
    ("both-append", VIEW + """ | sed 's/,"eggs"//'""", "line 1 differs at /doc/shopping/2\n"),
    ("both-append", VIEW + " | tac", "line 1 differs at /name\n"),
    ("both-append", VIEW + " | head -1", "line 2 is missing: {"),
    ("first-assignment", VIEW + "; echo '{}'", "line 2 is one too many: {}"),
    ("first-assignment", "echo hello", "line 1 isn't JSON: "),
    ("first-assignment", """echo '{"doc":{"title":"Trip"},"name":NaN}'""", "line 1 isn't JSON: NaN is no JSON"),
    ("first-assignment", """echo '{"name":"ann","name":"ann"}'""", "line 1 isn't JSON: an object has one name twice"),
    ("first-assignment", "true", "line 1 is missing: {"),
    ("first-assignment", "exit 3", "it ended with status 3, and no event is stuck\n"),
    ("refused-26-past-end", "exit 3", ""),
    ("refused-26-past-end", VIEW, "line 3 is one too many: stuck 26"),
    ("refused-26-past-end", VIEW + "; exit 3", ""),
    ("refused-26-past-end", VIEW + " | grep name", ""),
    ("refused-26-past-end", VIEW + " | sed s/eggs/milk/; exit 3", "line 1 differs at /doc/shopping/0\n"),
    ("refused-44-given", "exit 3", ""),
    ("refused-44-given", "echo '{}'", "line 1 is one too many: {}"),
]


def check(programs, words, names=()):
    """How kit/check ends for these words, and what it tells."""
    told = run(["kit/check", *(word for name in names for word in ("--only", name)), *words], programs.program)
    return told.returncode, told.stdout.decode()


def passing_case(words, of=NAMES):
    """Each of the scenarios passes."""

    def tried(programs):
        if "BUILT" in words and not (programs.is_built and programs.has_view):
            raise NotTried("the built program")
        asked = [programs.program if word == "BUILT" else word for word in words]
        status, output = check(programs, asked, of if of is not NAMES else ())
        expect_same(output, f"{len(of)} passed, 0 failed\n")
        expect(status == 0, f"status {status}")

    return f"kit: kit/check {' '.join(words)}" + (f", {len(of)} of them" if of is not NAMES else ""), tried


def broken_case(fault, names):
    """The engine with this fault fails in each of these scenarios."""

    def tried(programs):
        status, output = check(programs, ["oracle/adapter", "--fault", fault], names)
        failed = re.findall(r"^FAILED (\S+)$", output, re.MULTILINE)
        expect(status == 1 and failed == sorted(names), f"status {status}\n{output}")
        expect(output.endswith(f"\n0 passed, {len(names)} failed\n"), output)

    return f"kit: kit/check oracle/adapter --fault {fault}", tried


def judged_case(name, line, told):
    def tried(programs):
        status, output = check(programs, ["sh", "-c", line % name if "%s" in line else line], [name])
        parts = [f"FAILED {name}\n  {stored(f'kit/{name}/about')[:40]}", told, "\n  repeat: sh -c "] if told else []
        expect(status == bool(told) and all(part in output for part in parts), f"status {status}\n{output}")

    return f"kit: {line[:60]} for {name}" + (" fails" if told else " passes"), tried


def is_repeated(programs):
    """The command that repeats a failure gives the line that was told, in either form."""
    for form in ([], ["--ops"]):
        _, output = check(programs, [*form, "oracle/adapter", *form, "--fault", "rising"], ["both-append"])
        line = re.search(r"^    the adapter     (.*)$", output, re.MULTILINE)[1]
        repeat = re.search(r"^  repeat: (.*)$", output, re.MULTILINE)[1]
        again = run(repeat, programs.program, shell=True).stdout.decode()
        expect_same(again.split("\n")[0], line)


def is_kept(programs):
    """What an adapter is given and writes is kept, of scenarios that pass too."""
    with tempfile.TemporaryDirectory() as folder:
        path = os.path.join(folder, "new")
        line = "echo told >&2; cat kit/first-assignment/view"
        check(programs, ["--keep", path, "sh", "-c", line], ["first-assignment"])
        for kind, want in (("input", "scenario.jsoncrdt"), ("output", "view")):
            expect_same(stored(os.path.join(path, f"first-assignment.{kind}")), stored(f"kit/first-assignment/{want}"))
        expect_same(stored(os.path.join(path, "first-assignment.errors")), "told\n")


def tells_difference(programs):
    """kit/differs ends with 0 where an adapter differs, and with 1 where it doesn't."""
    text = stored("kit/both-append/scenario.jsoncrdt")
    for form in ([], ["--ops"]):
        for fault, status in ((["--fault", "rising"], 0), ([], 1)):
            told = run(["kit/differs", *form, "oracle/adapter", *form, *fault], programs.program, text)
            expect(told.returncode == status and bool(told.stdout) != bool(status), f"{form} {fault}: {told}")


def is_whole(_):
    """Each folder has its files, a short `about`, and an event of each replica, so that its journal names them all."""
    woven = [name for name in NAMES if name.startswith("woven-")]
    expect(len(NAMES) >= LEAST_NAMES and len(woven) >= LEAST_WOVEN, f"{len(NAMES)} scenarios, {len(woven)} are woven")
    for name in NAMES:
        expect({*os.listdir(f"kit/{name}")} == FILES, f"kit/{name} has {sorted(os.listdir(f'kit/{name}'))}")
        about, text = stored(f"kit/{name}/about"), stored(f"kit/{name}/scenario.jsoncrdt")
        is_short = about.count("\n") <= MOST_OF_ABOUT and max(map(len, about.split("\n"))) <= 120
        expect(is_short, f"kit/{name}/about is long")
        events = re.split("^(?:given|schedule) {$", text, 1, re.MULTILINE)[1]
        silent = [n for n in re.findall(r"^replica (\w+) {$", text, re.MULTILINE) if not re.search(rf"\b{n}\b", events)]
        expect(not silent, f"kit/{name} has no event of {silent}")


def about_fault(name, about, trace):
    """What is wrong with an `about`, or nothing. It names rules that are used, the refusal that is met, or a fault."""
    if name.startswith("woven-"):
        woven = WOVEN.fullmatch(about)
        is_right = woven and name.startswith(f"woven-{woven[1]}-") and FAULTS.get(woven[1]) == woven[2]
        return "" if is_right else "it doesn't have its numbers and its fault"
    met = re.search(r"^(?:stuck|refused) (\d+) ", trace, re.MULTILINE)
    if met:
        begin = f"Refusal {met[1]} {REFUSALS[int(met[1])]}"
        is_right = about.startswith(begin) and name.startswith(f"refused-{met[1]}-")
        return "" if is_right else f"it doesn't begin with {begin}"
    named = {rule for rule in RULES if re.search(rf"(?<![\w-]){rule}(?![\w-])", about)}
    unused = sorted(named - {*re.findall(r"^\d+ (\S+)$", trace, re.MULTILINE)})
    return f"it names {unused}, which aren't used" if unused else ""


def is_about(_):
    """Each `about` is true of its trace, as far as can be told."""
    for name in NAMES:
        about = " ".join(stored(f"kit/{name}/about").split())
        fault = about_fault(name, about, made(name, "trace").decode())
        expect(not fault, f"kit/{name}/about: {fault}")


def has_figures(_):
    """The figures are the examples of the same names."""
    for name in FIGURES:
        expect_same(stored(f"kit/figure-{name}/scenario.jsoncrdt"), stored(f"examples/{name}.jsoncrdt"))


def dump_of(name):
    """The dump of a scenario by the rules in Python, which `sums` of the kit knows again."""
    return made(name, "dump").decode()


def agree(_):
    """Where all replicas of a scenario have applied the same operations at the end, they show the same document."""
    for name in NAMES:
        dumps, views = ([json.loads(line) for line in text.split("\n") if line[:1] == "{"]
                        for text in (dump_of(name), stored(f"kit/{name}/view")))
        documents = {json.dumps(dump["ops"]): [] for dump in dumps}
        for dump, view in zip(dumps, views):
            documents[json.dumps(dump["ops"])].append(json.dumps(view.get("doc"), sort_keys=True))
        expect(all(len(set(same)) == 1 for same in documents.values()), f"kit/{name}: {documents}")


def made_case(words):
    """kit/make would write what is stored."""

    def tried(programs):
        beside = ["--program", programs.program] if programs.is_built and programs.has_view else []
        told = run(["kit/make", "--check", *words, *beside], programs.program)
        expect(told.returncode == 0 and not told.stdout and not told.stderr, (told.stdout + told.stderr).decode())

    return f"kit: kit/make --check {' '.join(words)}", tried


def covers_all(programs):
    """Each rule and each refusal of an event is met."""
    told = run(["kit/table"], programs.program)
    expect(told.returncode == 0, told.stdout.decode())


def is_made(programs):
    """In a small kit, files that lack or are otherwise are made, and the table tells that rules aren't met."""
    with tempfile.TemporaryDirectory() as folder:
        for name in ("oracle", "python", "tools", "docs"):
            os.symlink(os.path.abspath(name), os.path.join(folder, name))
        copied = os.path.join(folder, "kit")
        copy_into(folder, *(os.path.join("kit", name) for name in os.listdir("kit") if name not in NAMES[1:]))
        os.remove(os.path.join(copied, NAMES[0], "view"))
        with open(os.path.join(copied, NAMES[0], "status"), "w", encoding="utf-8") as file:
            file.write("7\n")
        otherwise, new = ([f"{NAMES[0]}/{file} {how}" for file in ("view", "status")]
                           for how in ("is otherwise", "was made"))
        # The sums are of all scenarios at first.
        otherwise, new = ([*rows, *(f"sums: {name} {how}" for name in NAMES[1:])]
                          for rows, how in ((otherwise, "is otherwise"), (new, "was made")))
        for words, status, told in ((["--check"], 1, otherwise), ([], 0, new), (["--check"], 0, [])):
            ended = run([os.path.join(copied, "make"), *words], programs.program)
            expect(ended.returncode == status and ended.stdout.decode().splitlines() == told, f"{words}: {ended}")
        expect_same(stored(os.path.join(copied, NAMES[0], "view")), stored(f"kit/{NAMES[0]}/view"))
        ended = run([os.path.join(copied, "table")], programs.program)
        expect(ended.returncode == 1 and ended.stdout.startswith(b"1 scenarios\n"), f"{ended}")
        needs_sums(copied, programs)


def needs_sums(copied, programs):
    """Without the sum of a trace, or with that of another one, nothing passes that is compared with what is made."""
    path = os.path.join(copied, "sums")
    for sums in ("", f"{NAMES[0]} {'0' * 32}\n", None):
        os.remove(path)
        if sums is not None:
            with open(path, "w", encoding="utf-8") as file:
                file.write(sums)
        for words in (["check", "--dumps", IN_PYTHON, "run", "-"], ["table"]):
            ended = run([os.path.join(copied, words[0]), *words[1:]], programs.program)
            want = f"{words[0]}: {NAMES[0]}: the rules in Python make another trace than kit/sums has"
            expect(ended.returncode == 1 and ended.stderr.decode().startswith(want) and not ended.stdout, f"{ended}")
        ended = run([os.path.join(copied, "make"), *["--check"] * (sums is not None)], programs.program)
        told = f"sums: {NAMES[0]} {'was made' if sums is None else 'is otherwise'}\n"
        expect(ended.stdout.decode() == told, f"{ended}")


def is_made_into(programs):
    """Dumps and traces are made where that is asked for: those that the program prints."""
    with tempfile.TemporaryDirectory() as folder:
        ended = run(["kit/make", "--check", "--only", "figure-o*", "--into", folder], programs.program)
        expect(ended.returncode == 0 and {*os.listdir(folder)} == {f"figure-one-value.{k}" for k in ("dump", "trace")},
               f"{ended} {os.listdir(folder)}")
        expect_same(stored(f"{folder}/figure-one-value.dump"), stored("examples/one-value.run"))
        told = run([programs.program, "run", "--trace", "examples/one-value.jsoncrdt"], programs.program).stdout
        expect_same(stored(f"{folder}/figure-one-value.trace"), told.decode())


def is_documented(_):
    """The documents have the faults, where each is seen, and how long an adapter may take."""
    document, readme = stored("docs/ENGINES.md"), stored("kit/README.md")
    expect({*BROKEN} == {*FAULTS}, "not each fault has its scenarios")
    for fault, names in BROKEN.items():
        row = f"| `{fault}` | {FAULTS[fault]} | {', '.join(names)} |\n"
        expect(row in document, f"docs/ENGINES.md lacks the row\n{row}")
    seconds = re.search(r"^SECONDS, MOST_BYTES = (\d+), ", stored("kit/judging.py"), re.MULTILINE)[1]
    expect(f"within {seconds} seconds" in readme, f"kit/README.md doesn't say that an adapter has {seconds} seconds")


def kit():
    yield "kit: files", is_whole
    yield "kit: about", is_about
    yield "kit: figures", has_figures
    yield "kit: replicas agree", agree
    yield "kit: kit/table", covers_all
    yield "kit: documents", is_documented
    yield "kit: kit/make of a small kit", is_made
    yield "kit: kit/make --into", is_made_into
    yield made_case([])
    yield made_case(["--weave", *(word for name in WOVEN_AGAIN for word in ("--only", name))])
    yield passing_case(["oracle/adapter"])
    yield passing_case([IN_PYTHON, "view", "-"])
    yield passing_case(["BUILT", "view", "-"])
    yield passing_case(["--dumps", "BUILT", "run", "-"])
    yield passing_case(["--dumps", IN_PYTHON, "run", "-"], NAMES[::8])
    yield passing_case(["--ops", "oracle/adapter", "--ops"], NAMES[::2])
    for fault, names in BROKEN.items():
        yield broken_case(fault, names)
    for row in JUDGED:
        yield judged_case(*row)
    yield "kit: the command that repeats a failure", is_repeated
    yield "kit: kit/check --keep", is_kept
    yield "kit: kit/differs", tells_difference
