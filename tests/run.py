"""What needs no proof, tried at once. ./test starts it."""

import collections
import concurrent.futures
import glob
import os
import re
import shutil
import signal
import subprocess
import sys
import tempfile

ROOT = os.path.dirname(os.path.dirname(os.path.abspath(__file__)))
sys.path[1:1] = [os.path.join(ROOT, folder) for folder in ("tools", "python", "dev")]
# What is wrong is told by the name of the script that starts this.
sys.argv[0] = os.path.join(ROOT, "test")

import command_line
import definition
import floors
import processes
from jsoncrdt.oracle import streams
from architecture import architecture
from blocks import ROWS, bare_blocks, commands_of, long_paragraphs, row_case
from campaigns import campaigns
from cases import IN_PYTHON, IN_TEST, NotTried, Programs, Wrong, expect, expect_same, run, stored, told_errors
from colours import colours
from edits import edits
from exploring import exploring
from faults import faults
from grammars import grammars
from journals import journals
from kit import kit
from kit_options import has_yjs, kit_options
from lanes import lanes
from launching import launching
from messages import messages
from package import package
from read_back import pictures_read_back
from run_pages import run_pages
from scripts import scripts
from server_parts import server_parts
from servers import servers
from serving import serving
from terminal import terminal

EXPECTED = os.path.join("tests", "expected")
DOCUMENTS = ("README.md", "docs/*.md", "examples/*.md", "editors/*.md", "editors/*/*.md", "kit/*.md",
             "crates/*/README.md")
AT_ONCE = 4
MOST_OF_README, MOST_OF_PARAGRAPH = 150, 12
HEADINGS = ("## What the layer above sees", "## Only tested")
ABOUT = """\
Runs what needs no proof: blocks of the documents, examples, tools, scripts, the kit for other engines, and the rules in
Python. It proves nothing; the gate, rt ci, does that. The last line is `N passed, M failed`, and the status is 1 where
one failed. What needs the built program, or a command that isn't there, is skipped, and counted on the line before."""
WORDS = """\
With words, what has one of them in its name: examples, README, docs, pages, tools, pictures, faults, launcher,
messages, edits, more-edits, gate, grammar, architecture, process, arguments, editors, debug, kit, package, serve, oracle,
or a part of a file's name or of a command."""


def block_case(command):
    def tried(programs):
        if re.search(r"\bjq\b", command.text) and not shutil.which("jq"):
            raise NotTried("jq")
        if "yjs-adapter" in command.text and not has_yjs():
            raise NotTried("node with yjs")
        if "jsoncrdt threads" in command.text and not programs.is_built:
            raise NotTried("the built program")
        program = programs.of(command.text)
        text = re.sub(r"(?<!\S)\./jsoncrdt\b(?! --explain)", program, command.text)
        ended = run(text, program, command.input, shell=True)
        fault = command.fault(ended.returncode, ended.stdout.decode(errors="replace"), told_errors(ended))
        expect(not fault, fault)

    return command.place, tried


def documents():
    return [path for pattern in DOCUMENTS for path in sorted(glob.glob(pattern))]


def blocks():
    for path in documents():
        yield from map(block_case, commands_of(path))


def page_case(path):
    """A document can be read: its blocks have commands, which are tried, and its paragraphs are short."""

    def tried(_):
        bare, long = list(bare_blocks(path)), list(long_paragraphs(path, MOST_OF_PARAGRAPH))
        expect(not bare, f"blocks without a command begin at the lines {bare}")
        expect(not long, f"paragraphs of more than {MOST_OF_PARAGRAPH} lines begin at the lines {long}")
        count = stored(path).count("\n")
        expect(path != "README.md" or count <= MOST_OF_README,
               f"it has {count} lines, and {MOST_OF_README} are the most")

    return f"pages: {path}", tried


def readme_case(crate):
    """A crate has a page that says what is seen of it and what is only tested."""

    def tried(_):
        path = os.path.join(crate, "README.md")
        expect(os.path.exists(path), "it isn't there")
        lacking = [heading for heading in HEADINGS if f"\n{heading}\n" not in stored(path)]
        expect(not lacking, f"it lacks {lacking}")

    return f"pages: headings of {crate}/README.md", tried


def pages():
    for row in ROWS:
        yield row_case(*row)
    yield from map(page_case, documents())
    yield from map(readme_case, sorted(glob.glob("crates/*")))
    yield "pages: the crates of docs/WORKING.md", floors.are_shown


def told_case(name, words, path, end=(0, ""), write=False):
    """The command tells what is stored under the path, and ends with this status and with what fits this pattern on
    standard error."""

    def tried(programs):
        program = programs.of(" ".join(words))
        ended = run([program if word == "./jsoncrdt" else word for word in words], program)
        told = ended.stdout.decode()
        if write:
            with open(path, "w", encoding="utf-8") as file:
                file.write(told)
        expect_same(told, stored(path))
        is_right = ended.returncode == end[0] and re.fullmatch(end[1], told_errors(ended))
        expect(is_right, f"it ended with {ended.returncode}: {told_errors(ended)}")

    return name, tried


def pictures(file):
    """What is printed of an example: the name of the stored file, and the words of the command."""
    yield "lanes", ["tools/lanes", file]
    yield "brief", ["tools/lanes", "--brief", "--view", file]
    yield "mermaid", ["tools/lanes", "--mermaid", file]
    yield "svg", ["tools/lanes", "--svg", file]
    for name in re.findall(r"^replica (\w+)", stored(file), re.MULTILINE):
        yield f"{name}.dot", ["tools/tree", file, name]
        yield f"{name}.deleted.dot", ["tools/tree", "--deleted", file, name]
    yield "view", ["./jsoncrdt", "view", file]


def examples(write):
    for file in sorted(glob.glob("examples/**/*.jsoncrdt", recursive=True)):
        base = file.removesuffix(".jsoncrdt")
        # An example with a stuck event ends so, and a graph says which it is.
        stuck = re.search(r"^stuck .*\n", stored(base + ".run"), re.MULTILINE)
        status = 3 if stuck else 0
        yield told_case(f"examples: run {file}", ["./jsoncrdt", "run", file], base + ".run", (status, ""))
        yield told_case(f"examples: print {file}", ["./jsoncrdt", "print", file], file)
        for kind, words in pictures(file):
            path = os.path.join(EXPECTED, f"{os.path.basename(base)}.{kind}")
            errors = f"tree: {re.escape(stuck[0])}" if stuck and kind.endswith("dot") else ""
            yield told_case(f"examples: {' '.join(words)}", words, path, (status, errors), write)


# Examples that are made smaller, each as long as this is found in what a command tells of it.
SHRUNK = (
    ("out-of-order", "run", "^stuck 36"),
    ("answer-first", "view", '"answer":"now".*"name":"r"'),
)


def tools(write):
    for name, command, looked_for in SHRUNK:
        file = f"examples/{name}.jsoncrdt"
        agrees = f"\"$JSONCRDT\" {command} - 2>/dev/null | grep -q '{looked_for}'"
        errors = rf"\d+ commands and events of {len(re.findall('^  ', stored(file), re.MULTILINE))}, \d+ tries\n"
        yield told_case(f"tools: shrink {name}", ["tools/shrink", file, "sh", "-c", agrees],
                        os.path.join(EXPECTED, f"{name}.shrunk"), (0, errors), write)


def process_case(row):
    """The program ends as the row says, and so does the launcher, where it runs the built program."""

    def tried(programs):
        if processes.needs_built(row) and not programs.is_built:
            raise NotTried("the built program")
        with tempfile.TemporaryDirectory() as folder:
            path = os.path.join(folder, "scenario")
            with open(path, "w", encoding="utf-8") as file:
                file.write(row.file)
            found = processes.difference(programs.program, row, path, programs.is_built)
            # Of a file that isn't there or can't be read the launcher says more.
            if not found and programs.is_built and " /" not in row.words and row.words.isascii():
                found = processes.difference("./jsoncrdt", row, path, True)
        expect(not found, found)

    limit = f" within {row.limit} KiB" if row.limit else ""
    name = row.words.encode("ascii", "backslashreplace").decode()
    return f"process: {name} {row.shell}{limit}, status {row.status}", tried


def quits_at_once(programs):
    expect(processes.quits_at_once(programs.program, "examples/first.jsoncrdt"), "it didn't end, or not with 0")


def process():
    yield from map(process_case, processes.ROWS)
    yield "process: quit while the input stays open", quits_at_once


def ends_well(words):
    """The command ends with 0 and tells nothing."""

    def tried(programs):
        if not shutil.which(words[0]):
            raise NotTried(words[0])
        told = run(words, programs.program)
        expect(told.returncode == 0 and not told.stderr, (told.stdout + told.stderr).decode())

    return "editors: " + " ".join(words), tried


def completed_case(words, offered):
    """What bash offers behind these words, of which the last may be a beginning."""

    def tried(programs):
        script = ('. completions/jsoncrdt.bash; COMP_WORDS=("$@"); COMP_CWORD=$(($# - 1)); _jsoncrdt; '
                  'echo "${COMPREPLY[@]}"')
        told = run(["bash", "-c", script, "bash", *words], programs.program)
        expect_same(told.stdout.decode(), offered + "\n")

    return f"editors: completion of {' '.join(words)}", tried


def is_defined(_):
    """The table of the command line is what the program's sources define."""
    found = list(definition.differences(command_line))
    expect(not found, "\n".join(found))


def names_commands(programs):
    """The table of the command line has the commands that the help lists; view is newer, and threads is not in
    Python."""
    text = run([programs.program, "--help"], programs.program).stdout.decode()
    lacking = {c.name for c in command_line.COMMANDS if not re.search(rf"^ +{c.name}\b", text, re.MULTILINE)}
    missing = lacking - ({"view"} if programs.is_built and not programs.has_view else set())
    expect(not missing - (set() if programs.is_built else {"threads"}), f"--help doesn't name {missing}")


# Arguments that ask for a text or for nothing that there is, with the status, and what stands in the text.
ASKED = (
    (["--version"], 0, "jsoncrdt 2.0.0\n"),
    (["-V"], 0, "jsoncrdt 2.0.0\n"),
    (["help", "--version"], 0, "jsoncrdt 2.0.0\n"),
    (["help"], 0, "Statuses:"),
    (["--help"], 0, "Statuses:"),
    (["help", "help"], 0, "Statuses:"),
    (["help", "debug"], 0, "for good"),
    (["debug", "-h"], 0, "for good"),
    (["help", "nothing"], 2, ""),
    (["help", "--"], 2, ""),
    (["run", "--version"], 2, ""),
    (["version"], 2, ""),
)


def asked_case(program, words, status, text):
    """Help and the version come on standard output alone, and wrong arguments are told on standard error alone."""

    def tried(programs):
        told = run([program or programs.program, *words], programs.program)
        expect(told.returncode == status, f"{told}")
        expect(text in told.stdout.decode() and (status == 0) == bool(told.stdout) != bool(told.stderr), f"{told}")

    return f"arguments: {'oracle/jsoncrdt' if program else './jsoncrdt'} {' '.join(words)}", tried


def arguments():
    for words, status, text in ASKED:
        yield asked_case(None, words, status, text)
        yield asked_case(IN_PYTHON, words, status, text)


def editors():
    yield ends_well(["tools/make-completions", "--check"])
    yield ends_well(["bash", "-n", "completions/jsoncrdt.bash"])
    yield ends_well(["groff", "-man", "-ww", "-z", "completions/jsoncrdt.1"])
    yield completed_case(["jsoncrdt", "r"], "run")
    yield completed_case(["jsoncrdt", "-"], "-h --help -V --version --explain --unproved --prove")
    yield completed_case(["jsoncrdt", "--explain", "r"], "run")
    yield completed_case(["jsoncrdt", "--unproved", "--explain", "view", "-"], "--at -h --help")
    yield completed_case(["jsoncrdt", "view", "-"], "--at -h --help")
    yield completed_case(["jsoncrdt", "journal", "-"], "--trace --effects -h --help")
    yield completed_case(["jsoncrdt", "run", "examples/tw"], "examples/two-lists.jsoncrdt examples/two-types.jsoncrdt")
    yield "editors: tools/command_line.py and the sources of the program", is_defined
    yield "editors: tools/command_line.py and --help", names_commands
    yield from colours(sorted(glob.glob("examples/**/*.jsoncrdt", recursive=True) + glob.glob("kit/*/scenario.jsoncrdt")))


PASSED, FAILED, SKIPPED = "passed", "failed", "skipped"


def result_of(case, programs):
    """What came of a case, and the line that tells it."""
    name, tried = case
    try:
        tried(programs)
    except NotTried as lack:
        return SKIPPED, f"skipped: {name} needs {lack}"
    except Wrong as wrong:
        return FAILED, f"FAILED {name}\n  " + str(wrong).rstrip().replace("\n", "\n  ")
    except Exception as fault:  # of the test itself; the others are tried all the same
        return FAILED, f"FAILED {name}\n  {fault!r}"
    return PASSED, None


def results_of_rules():
    """What came of the tests of the rules in Python, which tell what failed themselves."""
    told = subprocess.run(["oracle/selftest"], capture_output=True, check=False).stdout.decode()
    numbers = re.search(r"^(\d+) passed, (\d+) failed$", told, re.MULTILINE)
    if not numbers:
        return [(FAILED, f"FAILED oracle/selftest\n{told}")]
    failed = int(numbers[2])
    return [(PASSED, None)] * int(numbers[1]) + [(FAILED, told.rstrip() if n == 0 else None) for n in range(failed)]


def chosen_of(cases, words):
    """The cases that have one of the words in their names. A word that none has is told."""
    for word in words:
        if not any(word in name for name, _ in cases):
            streams.stop(f"no case has {word} in its name (--help says more)")
    return [case for case in cases if not words or any(word in case[0] for word in words)]


def main():
    os.chdir(ROOT)
    # Started in the background this may ignore Ctrl-C, and what is tried here would too.
    signal.signal(signal.SIGINT, signal.default_int_handler)
    parser = streams.Parser(prog="./test", description=ABOUT, epilog=WORDS)
    parser.add_argument("words", metavar="WORD", nargs="*", help="only what has one of these words in its name")
    parser.add_argument("--write", action="store_true",
                        help="write what the tools print of each example to tests/expected, to be read before it is "
                             "kept")
    parser.add_argument("--built", action="store_true",
                        help="fail where the built program isn't there, or what it is made of is newer")
    asked, programs = parser.parse_args(), Programs()
    if asked.built and not programs.is_built:
        print(f"FAILED test: {programs.lack}\n0 passed, 1 failed")
        return 1
    cases = [*examples(asked.write), *blocks(), *pages(), *tools(asked.write), *pictures_read_back(), *lanes(),
             *faults(), *scripts(), *edits(), *architecture(), *launching(), *messages(), *process(), *arguments(),
             *editors(), *terminal(), *kit(), *kit_options(), *exploring(), *campaigns(), *journals(), *run_pages(),
             *package(), *serving(), *server_parts(), *servers(), *grammars()]
    cases = chosen_of(cases, asked.words)
    if IN_TEST in os.environ:
        streams.stop("a test runs no tests")
    print("test: nothing is proved here; the gate, rt ci, does that")
    if not programs.is_built:
        print(f"test: {programs.lack}; what is tried is the rules in Python")
    with concurrent.futures.ThreadPoolExecutor(AT_ONCE) as pool:
        results = list(pool.map(lambda case: result_of(case, programs), cases))
    if not asked.words or "oracle" in asked.words:
        results += results_of_rules()
    for _, line in results:
        if line:
            print(line)
    counts = collections.Counter(kind for kind, _ in results)
    if counts[SKIPPED]:
        print(f"{counts[SKIPPED]} skipped, for what they need isn't here")
    print(f"{counts[PASSED]} passed, {counts[FAILED]} failed")
    return 1 if counts[FAILED] else 0


streams.run(main)
