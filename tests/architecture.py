"""What the documents say of the crates as a whole, read off crates.txt, sources and definitions: who uses whom, who
says what a rule is, who writes to the outside, and who may wait.

A check is given all files, by their paths, and yields what is wrong. Each is tried on files too in which something is.
"""

import functools
import glob
import re

from cases import expect, stored
from crates import TESTS, below, crates_of
from jsoncrdt.oracle.lines import RULES

# Where bytes come from and go to: the sources and sinks of jc_io, and what std has for them.
OUTSIDE = re.compile(r"\bjc_io\b|\b(?:Sink|Source|ToWrite|FromRead)\b|\bstd::(?:io|fs|net|os|process|env)\b"
                     r"|\be?print(?:ln)?!")
WRITING = ("jc_io", "jc_out", "jc_session", "jc_requests", "jc_serve", "jc_program", "jc_app")
# The streams and files of the machine.
MACHINE = re.compile(r"\bstd::fs\b|\b(?:Stdin|Stdout|Stderr|File)\b|\b(?:stdin|stdout|stderr)\(")
# What waits, or starts what is waited for.
WAITING = re.compile(r"\bforever\(|\b(?:un)?park\(|\bspawn\w*\(|\bsleep\(|\bjoin_promised\b|\b(?:Promised)?Handle\b")
WAITERS = ("jc_lock", "jc_runner")
# The definitions that say what a rule is; what in them is of derivations, and which of them hold.
TABLE = [f"crates/jc_rules/specs/{name}.antt" for name in ("Derivation", "Table", "Derives", "Refused", "Step")]
OF_DERIVATIONS = {"Derivation", "derive", "Premises", "premise", "none", "Judgement", "conclusion", "conclusions",
                  "trace", "Holds", "AllHold", "HoldsFifty", "AllHoldFifty", "FollowsFifty", "TakesOne"}
IMPORT = re.compile(r"\bRattle\.jc_rules\.specs\.(?:Derivation|Table)(?:\.\{([^}]*)\}|\.(\S+)|(?= as|\s*$|;))",
                    re.MULTILINE)
DECLARED = re.compile(r"^ *(?:(?:pub|abbrev|unfoldable|opaque|data|record) +)+([A-Z]\w*)\b[^=\n]*:", re.MULTILINE)


@functools.cache
def files():
    """All files that a check looks at, without their comments."""
    paths = ["crates.txt", *(path for ending in ("src/**/*.rt", "specs/**/*.antt", "proofs/**/*.antt")
                             for path in glob.glob(f"crates/*/{ending}", recursive=True))]
    return {path: code_of(path, stored(path)) for path in paths}


def code_of(path, text):
    """A text without its comments."""
    if path == "crates.txt":
        return text
    return re.sub(r"//.*" if path.endswith(".rt") else r"--.*", "", text)


def crate_of(path):
    return path.split("/")[1]


def crates_in(texts):
    return crates_of(texts["crates.txt"])


def libraries(texts):
    """The crates that aren't for tests."""
    return [name for name, crate in crates_in(texts).items() if crate.heading != TESTS]


def files_of(texts, names, *parts):
    """The files of these crates, in these parts, each with its crate."""
    return [(crate_of(path), path, text) for path, text in texts.items()
            if path != "crates.txt" and crate_of(path) in names and path.split("/")[2] in parts]


def floors(texts):
    """Each crate stands under a heading, behind those that it uses. The headings rise, that of the tests is last."""
    crates, seen = crates_in(texts), []
    headings = list(dict.fromkeys(crate.heading for crate in crates.values()))
    numbers = [heading.split()[0] for heading in headings[:-1]]
    if headings[-1] != TESTS or numbers != [str(number) for number in range(len(numbers))]:
        yield f"the headings are {headings}"
    for name, crate in crates.items():
        late = [used for used in crate.uses if used in crates and used not in seen]
        if late:
            yield f"{name} uses {late}, which stand behind it"
        seen.append(name)
    folders = {crate_of(path) for path in texts if path != "crates.txt"}
    if folders != {*crates}:
        yield f"crates.txt and the folders differ in {sorted(folders ^ {*crates})}"


def names_below(texts):
    """No crate names one that isn't below it."""
    crates = crates_in(texts)
    for name, path, text in files_of(texts, crates, "src", "specs", "proofs"):
        may = {name, *below(crates, name)}
        others = {other for other in re.findall(r"\bjc_\w+", text) if other in crates} - may
        if others:
            yield f"{path} names {sorted(others)}"


def tests_apart(texts):
    """What is for tests stands under its heading and is named for it. No other crate uses it, or may what it may."""
    crates = crates_in(texts)
    for name, crate in crates.items():
        is_test = crate.heading == TESTS
        if is_test != (name.endswith("_tests") or name in ("jc_fakes", "jc_rows")):
            yield f"{name} stands under {crate.heading}"
        used = [other for other in crate.uses if other in crates and crates[other].heading == TESTS]
        if not is_test and (used or any(word.startswith("tests_may") for word in crate.may)):
            yield f"{name} uses {used} or may what tests may"


def writes_nothing(texts):
    """No library but the six has to do with what bytes come from or go to. Of the six, jc_app alone knows the streams
    and files of the machine."""
    crates = crates_in(texts)
    names = [name for name in libraries(texts) if name not in WRITING]
    for name in names:
        if "jc_io" in crates[name].uses:
            yield f"{name} uses jc_io"
    for name, path, text in files_of(texts, names, "src"):
        if OUTSIDE.search(text):
            yield f"{path} names {OUTSIDE.findall(text)}"
    for name, path, text in files_of(texts, libraries(texts), "src"):
        if name != "jc_app" and MACHINE.search(text):
            yield f"{path} names {MACHINE.search(text)[0]}"


def waits(texts):
    """The crates that may wait are those of crates.txt, and all waiting is done in two of them."""
    crates, bound = crates_in(texts), set()
    for name, path, text in files_of(texts, libraries(texts), "src"):
        bound |= {name} if re.search(r"\bWait\b", text) else set()
        if name not in WAITERS and WAITING.search(text):
            yield f"{path} waits: {WAITING.search(text)[0]}"
    may = {name for name, crate in crates.items() if any(word.startswith("may_wait=") for word in crate.may)}
    if bound != may or not {*WAITERS} <= may:
        yield f"{sorted(bound)} have the bound, and crates.txt has {sorted(may)}"


def says_rules(texts):
    """Other crates' definitions and contracts speak of no derivation, and have no name of the table's; so what holds by
    a rule they can but cite. The names of the rules are in the code of jc_rules alone."""
    own = {name for path in TABLE for name in DECLARED.findall(texts[path])}
    expected = {"Derivation", "Question", "Holds", "Follows", "Derives", "Refused", "Step", "StepIn"}
    if not expected <= own:
        yield f"the table doesn't declare {sorted(expected - own)}"
    others = [name for name in libraries(texts) if name != "jc_rules"]
    for _, path, text in files_of(texts, others, "src", "specs"):
        names = " ".join(names or one or "whole" for names, one in IMPORT.findall(text))
        imported = {*re.findall(r"\w+", names)} & {*OF_DERIVATIONS, "whole"}
        if imported:
            yield f"{path} imports {sorted(imported)}"
        if path.endswith(".antt") and own & {*DECLARED.findall(text)}:
            yield f"{path} declares {sorted(own & {*DECLARED.findall(text)})}"
        named = path.endswith(".rt") and {*re.findall(r'"([A-Z][A-Z0-9-]*)"', text)} & {*RULES}
        if named or re.search(r"\benum Rule\b", text):
            yield f"{path} has {sorted(named or ['enum Rule'])}"


def has_no_unsafe(texts):
    """Nothing is unsafe."""
    for _, path, text in files_of(texts, crates_in(texts), "src"):
        if re.search(r"\bunsafe\b", text):
            yield path


CHECKS = {"crates stand on those before them": floors, "no crate names one above": names_below,
          "tests stand apart": tests_apart, "nothing below jc_session writes to the outside": writes_nothing,
          "who may wait": waits, "jc_rules alone says what a rule is": says_rules, "nothing is unsafe": has_no_unsafe}

# A check, a file, a pattern in it or nothing for its end, what is put there, and what is then told.
BROKEN = (
    (floors, "crates.txt", "^jc_vectors: jc_rules$", "jc_vectors: jc_rules jc_tree", "jc_vectors uses ['jc_tree']"),
    (floors, "crates.txt", "^# 3 document$", "", "the headings are"),
    (floors, "crates.txt", "^jc_weave: .*$", "", "differ in ['jc_weave']"),
    (floors, "crates.txt", None, "jc_new: jc_io\n", "differ in ['jc_new']"),
    (names_below, "crates/jc_tree/src/lib.rt", None, "use jc_apply::apply_op;\n", "names ['jc_apply']"),
    (names_below, "crates/jc_dump/specs/Dump.antt", None, "use Rattle.jc_session.specs.Sent as S\n",
     "names ['jc_session']"),
    (names_below, "crates/jc_rules/proofs/Lib.antt", None, "use Rattle.jc_tree.proofs.Lib\n", "names ['jc_tree']"),
    (tests_apart, "crates.txt", "^jc_cli: jc_rules clap$", "jc_cli: jc_rules jc_fakes", "jc_cli uses ['jc_fakes']"),
    (tests_apart, "crates.txt", "^jc_cli: ", "jc_old_tests: ", "jc_old_tests stands under 6 program"),
    (tests_apart, "crates.txt", None, "jc_more: jc_io\n", "jc_more stands under tests"),
    (tests_apart, "crates.txt", "^jc_debug: ", "jc_debug tests_may=Wait: ", "jc_debug uses [] or may"),
    (writes_nothing, "crates.txt", "^jc_dump: ", "jc_dump: jc_io ", "jc_dump uses jc_io"),
    (writes_nothing, "crates/jc_debug/src/debugger.rt", None, "fn f<K: Sink>(out: &mut K) {}\n", "names ['Sink']"),
    (writes_nothing, "crates/jc_rules/src/lib.rt", None, "fn f<K: Sink>(out: &mut K) {}\n", "names ['Sink']"),
    (writes_nothing, "crates/jc_lock/src/lib.rt", None, 'fn f() { eprintln!(rt; "x"); }\n', "names ['eprintln!']"),
    (writes_nothing, "crates/jc_weave/src/lib.rt", None, "use std::env;\n", "names ['std::env']"),
    (writes_nothing, "crates/jc_session/src/lib.rt", None, "fn f(out: &mut Stdout) {}\n", "names Stdout"),
    (writes_nothing, "crates/jc_program/src/lib.rt", None, "use std::fs;\n", "names std::fs"),
    (waits, "crates.txt", "^jc_lock may_wait=2: ", "jc_lock: ",
     "['jc_app', 'jc_lock', 'jc_program', 'jc_runner'] have the bound"),
    (waits, "crates/jc_weave/src/lib.rt", None, "fn f<R: Wait>(rt: &R) {}\n", "'jc_weave'] have the bound"),
    (waits, "crates/jc_program/src/lib.rt", None, "fn f() { for _ in rt.forever() {} }\n", "waits: forever("),
    (waits, "crates/jc_app/src/main.rt", None, "fn f() { scope.spawn_with(promise, g); }\n", "waits: spawn_with("),
    (says_rules, "crates/jc_apply/specs/Lib.antt", None, "use Rattle.jc_rules.specs.Table.{Holds}\n",
     "imports ['Holds']"),
    (says_rules, "crates/jc_apply/src/lib.rt", None, "ghost use Rattle.jc_rules.specs.Derivation.{derive, gives};\n",
     "imports ['derive']"),
    (says_rules, "crates/jc_apply/specs/Lib.antt", None, "use Rattle.jc_rules.specs.Table as T\n", "imports ['whole']"),
    (says_rules, "crates/jc_network/specs/Lib.antt", None, "pub record Step (a : State) : Type 0 where\n",
     "declares ['Step']"),
    (says_rules, "crates/jc_network/specs/Lib.antt", None, "abbrev pub Follows : Rule → Type 0\n",
     "declares ['Follows']"),
    (says_rules, "crates/jc_dump/src/lib.rt", None, 'const A: &str = "CLEAR-REG";\n', "has ['CLEAR-REG']"),
    (says_rules, "crates/jc_dump/src/lib.rt", None, "pub enum Rule { A }\n", "has ['enum Rule']"),
    (says_rules, "crates/jc_rules/specs/Table.antt", "pub Holds :", "pub HeldToBe :",
     "doesn't declare ['Holds']"),
    (has_no_unsafe, "crates/jc_lock_tests/src/lib.rt", None, "unsafe fn f() {}\n", "jc_lock_tests/src/lib.rt"),
)


def check_case(what, check):
    def tried(_):
        wrong = list(check(files()))
        expect(not wrong, "\n".join(wrong))

    return f"architecture: {what}", tried


def broken_case(check, path, pattern, text, told):
    def tried(_):
        before = files()[path]
        after = before + text if pattern is None else re.sub(pattern, text, before, flags=re.MULTILINE)
        expect(after != before, f"{path} hasn't {pattern}")
        wrong = list(check({**files(), path: code_of(path, after)}))
        expect(len(wrong) == 1 and told in wrong[0], f"{wrong}")

    return f"architecture: {check.__name__} and {text.strip() or pattern} in {path}", tried


def architecture():
    for what, check in CHECKS.items():
        yield check_case(what, check)
    for row in BROKEN:
        yield broken_case(*row)
