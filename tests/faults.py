"""Commands that end with a fault: wrong arguments, files that can't be read, streams that fail, a program that is none.
Each is told in one line on standard error, with the status that the program has for it."""

from cases import expect, folder_of, run, told_errors

FIRST = "examples/first.jsoncrdt"
ONE = "--only first-assignment "
KIT_FIRST = "kit/first-assignment/scenario.jsoncrdt"
BELOW = '.get("k")' * 250
DEEP = f"jsoncrdt 1 replica a {{ let x = doc{BELOW}; x{BELOW} := 1 }} schedule {{ a.exec; a.exec }}"

# A line of a shell, its status, and a part of what it tells on standard error, or nothing where it tells nothing.
ROWS = [
    # Arguments.
    ("tools/lanes", 2, "lanes: "),
    ("tools/lanes --svg --mermaid " + FIRST, 2, "lanes: "),
    ("tools/lanes test", 1, "lanes: refused "),
    ("tools/tree " + FIRST, 2, "tree: "),
    ("tools/tree " + FIRST + " b", 2, "tree: no replica b"),
    ("tools/tree " + FIRST + " a --at 2", 2, "tree: the schedule has 1 events"),
    ("tools/tree " + FIRST + " a --at x", 2, "tree: "),
    ("tools/tree " + FIRST + " a --at -1", 2, "tree: "),
    ("tools/tree test a", 1, "tree: refused "),
    ("tools/tree examples/stuck.jsoncrdt q", 3, "tree: stuck "),
    ("echo 'jsoncrdt 2 replica a {} given {a.exec}' | tools/tree - a", 3, "tree: refused 44 GivenStuck at 1 stuck 30 "),
    ("tools/tree --deleted examples/stuck.jsoncrdt q", 3, "tree: stuck "),
    ("echo 'jsoncrdt 2 replica a {} given {a.exec}' | tools/tree --deleted - a", 3,
     "tree: refused 44 GivenStuck at 1 stuck 30 "),
    ("echo 'jsoncrdt 2 replica a {} given {a.exec}' | tools/lanes - >/dev/null", 3, ""),
    ("tools/page", 2, "page: one FILE is needed, or --diff with two"),
    ("tools/page --diff " + FIRST, 2, "page: argument --diff: expected 2 arguments"),
    ("tools/page --diff " + FIRST + " examples/to-do.jsoncrdt", 2, "the script of a differs"),
    ("tools/page test", 1, "page: refused 1 BadByte at 0: A byte begins no token:"),
    ("tools/page --from 2 " + FIRST, 2, "page: argument --from: the schedule has the positions 0 to 1"),
    ("tools/page --from now " + FIRST, 2, "page: argument --from: now is no position"),
    ("tools/page --most 0 " + FIRST, 2, "page: argument --most: 0 is no number from 1 on"),
    ("tools/page --most 5 examples/to-do.jsoncrdt >/dev/null", 0, "page: the page ends at position 5 of 20: --from 5 "),
    ("tools/page --from 13 examples/stuck.jsoncrdt", 3, "ends at position 12, where q.exec is stuck"),
    ("tools/page examples/stuck.jsoncrdt >/dev/null", 3, ""),
    ("echo 'jsoncrdt 2 replica a {} given {a.exec}' | tools/page - >/dev/null", 3, ""),
    ("echo 'jsoncrdt 2 replica a {} given {a.exec}' | tools/lanes --brief --view - >/dev/null", 3, ""),
    ("tools/debug", 2, "debug: the following arguments are required: FILE"),
    ("tools/debug -", 2, "debug: standard input has the lines"),
    ("tools/debug test >/dev/null", 1, ""),
    ("[ \"$(tools/debug test)\" = 'refused 1 BadByte at 0' ]", 0, ""),
    ("echo 'jsoncrdt 2 replica a {} given {a.exec}' | tools/debug /dev/stdin >/dev/null", 3, ""),
    ("tools/shrink " + FIRST, 2, "shrink: "),
    ("tools/shrink " + FIRST + " false", 2, "shrink: COMMAND doesn't end with 0"),
    ("tools/shrink " + FIRST + " ./no-such-command", 2, "shrink: ./no-such-command: "),
    ("tools/shrink test true", 1, "shrink: refused "),
    ("tools/make-completions now", 2, "make-completions: "),
    ("tools/prove now", 2, "prove: "),
    ("oracle/explain view", 2, "explain: view needs one FILE"),
    ("oracle/explain view no-such-file", 4, "explain: read failed: no-such-file: "),
    ("oracle/compare x", 2, "compare: argument COUNT"),
    ("oracle/compare -1", 2, "compare: argument COUNT"),
    ("oracle/compare 1 x", 2, "compare: argument FIRST"),
    ("oracle/compare --program /no/such 1", 2, "compare: /no/such: "),
    ("oracle/compare --program /bin/false 1", 127, "compare: /bin/false doesn't answer"),
    ("oracle/selftest x", 2, "selftest: "),
    ("examples/engine/compare x", 2, "compare: argument COUNT"),
    ("examples/engine/compare -1", 2, "compare: argument COUNT"),
    ("examples/engine/compare 0", 2, "compare: argument COUNT"),
    ("oracle/adapter x", 2, "adapter: "),
    ("oracle/adapter --fault none", 2, "adapter: argument --fault"),
    ("echo | oracle/adapter", 1, "adapter: refused 14 NoHeader at 1"),
    ("echo '[]' | oracle/adapter --ops", 1, "adapter: this is no journal: "),
    ("kit/check", 2, "check: the following arguments are required: COMMAND"),
    ("kit/check --nothing true", 2, "check: "),
    ("kit/check --dumps --ops true", 2, "check: "),
    ("kit/check --only nothing true", 2, "check: the kit has no scenario nothing"),
    ("kit/check --except nothing true", 2, "check: the kit has no scenario nothing"),
    ("kit/check ./no-such-command", 2, "check: ./no-such-command: "),
    ("kit/check docs/ENGINES.md", 2, "check: docs/ENGINES.md: "),
    ("kit/check ''", 2, "check: "),
    ("kit/differs <" + KIT_FIRST, 2, "differs: the following arguments are required: COMMAND"),
    ("kit/differs ./no-such-command <" + KIT_FIRST, 2, "differs: ./no-such-command: "),
    ("echo | kit/differs true", 2, "differs: refused 14 NoHeader at 1"),
    ("kit/make x", 2, "make: "),
    ("kit/make --check --only nothing", 2, "make: the kit has no scenario nothing"),
    ("kit/make --check " + ONE + "--program /no/such", 2, "make: /no/such: "),
    ("kit/make --check " + ONE + "--program /bin/true", 1, "make: /bin/true view - prints otherwise for "),
    ("kit/table x", 2, "table: "),
    # The quotes keep the word out of the case's own name: a case that the word selects would run itself again and
    # again.
    ("./test no-such-''word", 2, "test: no case has no-such-word in its name"),
    ("./test --nothing", 2, "test: "),
    ("dev/waits nothing", 2, "waits: nothing isn't measured; there are serve, package, "),
    ("dev/bench nothing", 2, "bench: nothing is no case"),
    ("dev/bench flat", 2, "bench: flat is no case"),
    ("dev/rows --help >/dev/null", 0, ""),
    ("dev/rows now", 2, "rows: it takes no arguments"),
    # Files and streams that can't be read.
    ("tools/lanes no-such-file", 4, "lanes: read failed: no-such-file: "),
    ("tools/lanes examples", 4, "lanes: read failed: examples: "),
    ("tools/lanes - <&-", 4, "lanes: read failed: -: "),
    ("tools/page no-such-file", 4, "page: read failed: no-such-file: "),
    ("tools/page - <&-", 4, "page: read failed: -: "),
    ("tools/tree - a <&-", 4, "tree: read failed: -: "),
    ("tools/debug no-such-file", 4, "debug: read failed: no-such-file: "),
    ("tools/debug examples", 4, "debug: read failed: examples: "),
    ("tools/debug " + FIRST + " <&-", 4, "debug: read failed: standard input: "),
    ("tools/shrink - true <&-", 4, "shrink: read failed: -: "),
    ("oracle/adapter <&-", 4, "adapter: read failed: -: "),
    ("kit/differs true <&-", 4, "differs: read failed: -: "),
    ("oracle/jsoncrdt run - <&-", 4, "read failed: -: "),
    ("oracle/jsoncrdt debug " + FIRST + " <&-", 4, "read failed: standard input: "),
    # A standard error that is closed or full changes no status.
    ("tools/lanes no-such-file 2>&-", 4, ""),
    ("tools/lanes no-such-file 2>/dev/full", 4, ""),
    ("oracle/compare x 2>&-", 2, ""),
    ("./test no-such-''word 2>&-", 2, ""),
    ("kit/check ./no-such-command 2>&-", 2, ""),
    ("kit/check ./no-such-command 2>/dev/full", 2, ""),
    # A folder that can't be made.
    ("kit/check --keep /dev/null/here true", 4, "check: write failed: /dev/null/here: "),
    # A program that is none.
    ("JSONCRDT=/bin/false tools/lanes " + FIRST, 2, "lanes: /bin/false isn't jsoncrdt"),
    ("JSONCRDT=/bin/true tools/tree " + FIRST + " a", 2, "tree: /bin/true isn't jsoncrdt"),
    ("JSONCRDT=/no/such tools/shrink " + FIRST + " true", 2, "shrink: /no/such: "),
    ("JSONCRDT=/bin/false tools/debug " + FIRST, 2, "debug: /bin/false isn't jsoncrdt: "),
    ("JSONCRDT=/bin/true tools/debug " + FIRST, 2, "debug: /bin/true isn't jsoncrdt: "),
    ("JSONCRDT=/no/such tools/debug " + FIRST, 2, "debug: /no/such: "),
    ("JSONCRDT=/bin/true examples/engine/compare 1", 2, "compare: /bin/true isn't jsoncrdt"),
    ("JSONCRDT=/bin/false tools/page " + FIRST, 2, "page: /bin/false isn't jsoncrdt"),
    ("JSONCRDT=/bin/true tools/page " + FIRST, 2, "page: /bin/true isn't jsoncrdt"),
    ("JSONCRDT=/bin/true tools/explore " + FIRST, 2, "explore: /bin/true isn't jsoncrdt"),
    # No fault: an adapter needs no standard input of kit/check.
    ("kit/check " + ONE + "oracle/adapter <&- >/dev/null", 0, ""),
    # No fault: 500 maps in one another, and a letter that the terminal hasn't.
    (f"echo '{DEEP}' | tools/tree - a >/dev/null", 0, ""),
    (f"echo '{DEEP}' | tools/tree --deleted - a >/dev/null", 0, ""),
    ("""echo 'jsoncrdt 1 replica a { doc := "\u00e9" } schedule { a.exec }' | PYTHONIOENCODING=ascii tools/lanes -""",
     0, ""),
]

# Commands whose output is tried full and closed, and what they tell.
WRITING = [
    ("tools/lanes " + FIRST, "lanes: write failed: "),
    ("tools/lanes --help", "lanes: write failed: "),
    ("tools/tree " + FIRST + " a", "tree: write failed: "),
    ("tools/page " + FIRST, "page: write failed: "),
    ("tools/explore --seeds 1 " + FIRST, "explore: write failed: "),
    ("tools/shrink " + FIRST + " true", "shrink: write failed: "),
    ("echo step | tools/debug " + FIRST, "debug: write failed: "),
    ("tools/debug --help", "debug: write failed: "),
    ("tools/make-completions --help", "make-completions: write failed: "),
    ("oracle/jsoncrdt --help", "write failed"),
    ("oracle/jsoncrdt help run", "write failed"),
    ("oracle/jsoncrdt --version", "write failed"),
    ("oracle/jsoncrdt debug " + FIRST + " <test", "write failed"),
    ("oracle/compare --help", "compare: write failed: "),
    ("oracle/selftest --help", "selftest: write failed: "),
    ("examples/engine/compare 1", "compare: write failed: "),
    ("oracle/adapter <" + KIT_FIRST, "adapter: write failed: "),
    ("kit/check " + ONE + "oracle/adapter", "check: write failed: "),
    ("kit/check " + ONE + "true", "check: write failed: "),
    ("kit/differs true <" + KIT_FIRST, "differs: write failed: "),
    ("kit/make --help", "make: write failed: "),
    ("kit/table", "table: write failed: "),
    ("./test --help", "test: write failed: "),
]
# Those that ask the program which the variable JSONCRDT names, and the others.
ASKING = ("tools/lanes", "tools/tree", "tools/page", "tools/shrink", "tools/debug", "tools/why", "tools/fate",
          "tools/replay", "tools/explore", "examples/engine/compare")
HELPED = ("tools/make-completions", "tools/prove", "oracle/compare", "oracle/selftest", "oracle/adapter", "kit/check",
          "kit/differs", "kit/make", "kit/table", "kit/campaign", "./test")
# A command rt that tells that it was called, so that nothing here can build.
NO_RT = "#!/bin/sh\necho rt was called >&2\nexit 1\n"


def ended(line, programs):
    """The status of a line of a shell, its output, and the lines that it tells but for that of the rules in Python."""
    with folder_of({"rt": NO_RT}) as folder:
        told = run(line, programs.program, shell=True, path=folder)
    return told.returncode, told.stdout.decode(), told_errors(told).splitlines()


def fault_case(line, status, told):
    def tried(programs):
        got, _, lines = ended(line, programs)
        is_told = len(lines) == 1 and told in lines[0] if told else not lines
        expect(got == status and is_told, "\n".join([f"status {got}", *lines]))

    return "faults: " + (line if len(line) < 200 else line[:60] + ".." + line[-60:]), tried


def help_case(command):
    def tried(programs):
        got, output, lines = ended(command + " --help", programs)
        expect(got == 0 and not lines and output.startswith("usage: "), "\n".join([f"status {got}", output, *lines]))
        expect(("JSONCRDT" in output) == (command in ASKING), output)

    return f"faults: {command} --help", tried


def faults():
    for line, status, told in ROWS:
        yield fault_case(line, status, told)
    for line, told in WRITING:
        yield fault_case(line + " >/dev/full", 4, told)
        yield fault_case(line + " >&-", 4, told)
    yield from map(help_case, ASKING + HELPED)
