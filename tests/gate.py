"""The gate: dev/more-edits with a command rt that is none, each hole through which its check could be passed, .ci/run,
and ./test --built."""

import calendar
import contextlib
import itertools
import os
import pickle
import re
import shutil
import subprocess
import time

from cases import IN_TEST, expect, expect_same, folder_of, place, stored
from crates import BUILT, lack_of_built
from dependencies import Kept, Tree
from statements import Source, Theory, sum_of

# A command rt for which an edit comes to what its file has beside its pairs of lines. A crate isn't proved that has a
# file `unproved`.
TRYING = """#!/bin/sh
case $1 in
    version) cat "${0%/*}/kit" ;;
    check)
        [ ! -e unproved ] || exit 1
        [ ! -e "${0%/*}/checking" ] || . "${0%/*}/checking"
        ;;
    must-fail)
        shift
        if [ "$1" = --anew ]; then
            echo anew
            shift
        fi
        ended=0
        [ ! -e "${0%/*}/noting" ] || . "${0%/*}/noting"
        echo "rt: $1: ${KNOWN:-0} of its 2 must-fail edits were tried by an earlier run on this machine"
        for edit in crates/"$1"/must-fail/*.edit; do
            told=$(grep -v -e "^file: " -e "^old: " -e "^new: " "$edit")
            echo "rt: must-fail $1/${edit##*/}: $told"
            case $told in refused*) ;; *) ended=1 ;; esac
        done
        exit "$ended"
        ;;
    *) exit "${GATE:-0}" ;;
esac
"""
REFUSED, NOT_REFUSED = "refused, as it must be: why\n", "NOT REFUSED: the crate is still proved\n"
NAMES = ("jc_a", "jc_b", "jc_c")
# Folders of git's, of what is built, and of npm's.
NOT_OURS = {".git", "out", "build", "node_modules"}
# The source of each of them.
SOURCE = """pub fn one() -> u8
    ensures { result ≡ 1 }
{
    1
}
"""
FILES = {
    "crates.txt": "# low\njc_a:\n# high\njc_b: jc_a thiserror\njc_c: jc_b\n",
    "HANDLES": "Handles allowed: none.\n",
    "kit": "rattle-kit-1a logic 0a\n",
    **{f"crates/{name}/src/lib.rt": SOURCE for name in NAMES},
    **{f"crates/{name}/specs/Lib.antt": "abbrev pub two : N\ntwo = 2\n" for name in NAMES},
    **{f"crates/{name}/proofs/lib/Answers.antt": "pub two : N\ntwo = 2\n" for name in NAMES},
    **{f"crates/{name}/more-edits/{edit}.edit": REFUSED for name in NAMES for edit in ("one", "two")},
    "crates/jc_b/must-fail/of_the_gate.edit": NOT_REFUSED,
}
RECORD = "dev/more-edits.txt"
PROGRESS = r"^more-edits: (\w+): (\d+) edits tried in \d+ s; (\d+) are left, and (\d+) of other crates\n"
# What a run that tries the edits of a crate tells.
KNOWN = "rt: {}: 0 of its 2 must-fail edits were tried by an earlier run on this machine\n"
TRIED = {name: KNOWN.format(name) + "".join(f"rt: must-fail {name}/{edit}.edit: {REFUSED}" for edit in ("one", "two"))
         for name in NAMES}


def called(folder, words, **variables):
    """How a script ends that stands in the folder, where the command rt is too."""
    environment = {**os.environ, **variables, "PATH": f"{folder}:{os.environ['PATH']}"}
    return subprocess.run(words, cwd=folder, capture_output=True, check=False, env=environment)


def more_edits(folder, *words):
    """So of dev/more-edits: its status, and what it tells on both streams."""
    told = called(folder, ["dev/more-edits", *words])
    return told.returncode, told.stdout.decode(), told.stderr.decode()


def expect_end(folder, words, status, output="", told=""):
    """dev/more-edits ends so, and tells this on its streams, beside how far it is."""
    ended = more_edits(folder, *words)
    ended = *ended[:2], re.sub(PROGRESS, "", ended[2], flags=re.MULTILINE)
    expect(ended == (status, output, told), f"{words} ended with {ended[0]}, and told\n{ended[1]}{ended[2]}")


@contextlib.contextmanager
def crates():
    """A folder with three crates, each on the one before, that have edits, and with the script."""
    with folder_of({"rt": TRYING, "dev/more-edits": stored("dev/more-edits")}) as folder:
        for path in ("dev/statements.py", "dev/dependencies.py", "dev/together.py", "tools/crates.py",
                     "python/jsoncrdt/__init__.py", "python/jsoncrdt/choosing.py", "oracle/__init__.py",
                     "oracle/streams.py"):
            write(folder, path, stored(path))
        for path, text in FILES.items():
            write(folder, path, text)
        yield folder


def write(folder, path, text):
    os.makedirs(os.path.dirname(os.path.join(folder, path)), exist_ok=True)
    with open(os.path.join(folder, path), "w", encoding="utf-8") as file:
        file.write(text)


def read(folder, path):
    return stored(os.path.join(folder, path))


def replace(folder, path, pattern, text):
    """Puts the text in place of what stands there once for the pattern."""
    changed, count = re.subn(pattern, text, read(folder, path), flags=re.MULTILINE)
    expect(count == 1, f"{path} has {pattern} {count} times")
    write(folder, path, changed)


def append(path):
    return lambda folder: write(folder, path, read(folder, path) + "more\n")


def line_by_hand(folder):
    """A changed file, and the line that the script has for it, by hand."""
    before = read(folder, RECORD)
    append("crates/jc_b/src/lib.rt")(folder)
    more_edits(folder)
    line = re.search("^jc_b edit one .*$", read(folder, RECORD), re.MULTILINE)[0]
    write(folder, RECORD, before)
    replace(folder, RECORD, "^jc_b edit one .*$", line)


def short_by_hand(folder):
    """Of what an edit stands on only the first sum is left, with the right sum of the crate's lines."""
    replace(folder, RECORD, r"^(jc_b edit one \w{12})\S+", r"\1")
    lines = re.findall("^jc_b edit .*$", read(folder, RECORD), re.MULTILINE)
    replace(folder, RECORD, "^jc_b tried .*$", f"jc_b tried {sum_of('more-edits', *lines)}")


def verdict_by_hand(folder):
    write(folder, "crates/jc_b/more-edits/one.edit", NOT_REFUSED)
    more_edits(folder)
    replace(folder, RECORD, "^(jc_b edit one .*) not-refused ", r"\1 refused ")


def moved(folder):
    """Edits go to the gate's own."""
    shutil.move(f"{folder}/crates/jc_b/more-edits/one.edit", f"{folder}/crates/jc_b/must-fail")


def wanting(*edits, of=2):
    return f"{len(edits)} of its {of} edits want trying: {', '.join(edits)}"


OWN = "run dev/more-edits {}, and mend what it doesn't find refused"
NO_RUN = "no run wrote what is recorded of it"
BOTH = wanting("one", "two")
# What is changed when all edits were tried, and what the check then tells of which crate. These edits change more than
# functions, for all that can be seen, so each stands on all of its crate and on all statements below.
HOLES = {
    "a source": (append("crates/jc_b/src/lib.rt"), {"jc_b": BOTH, "jc_c": BOTH}),
    "a body": (lambda folder: replace(folder, "crates/jc_b/src/lib.rt", "^    1$", "    2"), {"jc_b": BOTH}),
    "a clause": (lambda folder: replace(folder, "crates/jc_b/src/lib.rt", "≡ 1", "≡ 2"),
                 {"jc_b": BOTH, "jc_c": BOTH}),
    "a definition": (append("crates/jc_a/specs/Lib.antt"), {name: BOTH for name in NAMES}),
    "a file of definitions more": (lambda folder: write(folder, "crates/jc_b/specs/New.antt", "abbrev pub new : N\n"),
                                   {"jc_b": BOTH, "jc_c": BOTH}),
    "a proof": (append("crates/jc_b/proofs/lib/Answers.antt"), {"jc_b": BOTH}),
    "an edit": (append("crates/jc_b/more-edits/two.edit"), {"jc_b": wanting("two")}),
    "an edit more": (lambda folder: write(folder, "crates/jc_b/more-edits/three.edit", REFUSED),
                     {"jc_b": wanting("three", of=3)}),
    "an edit less": (moved, {"jc_b": "one is recorded and isn't there"}),
    "no folder of edits": (lambda folder: shutil.rmtree(f"{folder}/crates/jc_b/more-edits"),
                           {"jc_b": "it is recorded, and has no edits any more"}),
    "crates.txt": (lambda folder: replace(folder, "crates.txt", "^jc_b: ", "jc_b may_wait=1: "), {"jc_b": BOTH}),
    "a crate less below": (lambda folder: replace(folder, "crates.txt", "^jc_b: jc_a ", "jc_b: "),
                           {"jc_b": BOTH, "jc_c": BOTH}),
    "a crate that crates.txt hasn't": (lambda folder: replace(folder, "crates.txt", "^jc_c: jc_b\n", ""),
                                       {"jc_c": "crates.txt hasn't this crate"}),
    "a sum by hand": (line_by_hand, {"jc_b": NO_RUN, "jc_c": BOTH}),
    "a shorter line by hand": (short_by_hand, {"jc_b": wanting("one")}),
    "a verdict by hand": (verdict_by_hand, {"jc_b": NO_RUN}),
    "a line less": (lambda folder: replace(folder, RECORD, "^jc_b edit two .*\n", ""), {"jc_b": NO_RUN}),
    "no sum of the lines": (lambda folder: replace(folder, RECORD, "^jc_b tried .*\n", ""), {"jc_b": NO_RUN}),
    "a line more": (lambda folder: write(folder, RECORD, read(folder, RECORD) + "jc_b said so\n"), {"jc_b": NO_RUN}),
    "a crate less": (lambda folder: replace(folder, RECORD, "^(jc_b .*\n)+", ""), {"jc_b": "its edits weren't tried"}),
    "no record": (lambda folder: os.remove(f"{folder}/{RECORD}"), {name: "its edits weren't tried" for name in NAMES}),
}


# Files, with whether only statements of lemmas count there, and what they state: of each item its names and its text.
LEMMAS = """-- About them.
use Rattle.jc_a.specs.Ones.{one}

-- why
pub lem-one : (n : N)
  → one n
unfolding one
lem-one n = n

abbrev two : N
two = 2

module _ (n : N) where
  -- why
  pub three : N
  three = n

module Named where
  pub four : N
  four = 4

mutual
  pub data Tree : Type where
    leaf : Tree

more
"""
STATED = (
    (SOURCE, [(["one"], "pub fn one() -> u8\n    ensures { result ≡ 1 }\n{\n")]),
    ("fn two(a: u8) {\n    three(a);\n\n    four();\n}\n\nfn five();\n",
     [(["two"], "fn two(a: u8) {\n"), (["five"], "fn five();\n")]),
    ("/// It is\n#[derive(A)]\n#[b]\nconst A: u8 = 1;\n// why\nuse b::c;\npub use d::{e, F as g};\n#[cfg(test)]\n"
     "mod t;\n",
     [(["A"], "#[derive(A)]\n#[b]\nconst A: u8 = 1;\n"), (["e"], "pub use d::e as e"), (["g"], "pub use d::F as g")]),
    ("impl<K: S> T<A> for B<K> {\n    type C = u8;\n\n    pub(crate) fn b(\n        c: u8,\n    ) -> u8\n"
     "        ensures {\n            d\n        }\n    {\n        if c {\n        }\n    }\n\n    fn e() {\n        1\n"
     "    }\n}\n",
     [(None, "impl<K: S> T<A> for B<K> {\n    type C = u8;\n"),
      (["b"], "    pub(crate) fn b(\n        c: u8,\n    ) -> u8\n        ensures {\n            d\n        }\n"
              "    {\n"),
      (["e"], "    fn e() {\n")]),
    ("pub trait A {\n    type B;\n    fn b() {\n        1\n    }\n    fn d();\n}\nfn c() {\n    1\n}\n",
     [(["A"], "pub trait A {\n    type B;\n"), (["b"], "    fn b() {\n        1\n    }\n"),
      (["d"], "    fn d();\n"), (["c"], "fn c() {\n")]),
    ("fn a() -> u8 {\n1\n}\n", [(["a"], "fn a() -> u8 {\n1\n}\n")]),
    ("fn a() {\n    1\n}\nmore\n", [(["a"], "fn a() {\n    1\n}\nmore\n")]),
    ("more\nfn a() {\n    1\n}\n", [(None, "more\n"), (["a"], "fn a() {\n")]),
)
DEFINED = (
    (True, [(["lem-one"], "pub lem-one : (n : N)\n  → one n\n"), (["two"], "abbrev two : N\ntwo = 2\n"),
            (["three"], "module _ (n : N) where\n  pub three : N\n"),
            (["Named"], "module Named where\n  pub four : N\n  four = 4\n"),
            (["Tree", "leaf"], "mutual\n  pub data Tree : Type where\n    leaf : Tree\nmore\n")]),
    (False, [(["lem-one"], "pub lem-one : (n : N)\n  → one n\nunfolding one\nlem-one n = n\n"),
             (["two"], "abbrev two : N\ntwo = 2\n"),
             (["three"], "module _ (n : N) where\n  pub three : N\n  three = n\n"),
             (["Named"], "module Named where\n  pub four : N\n  four = 4\n"),
            (["Tree", "leaf"], "mutual\n  pub data Tree : Type where\n    leaf : Tree\nmore\n")]),
)


# A source with these imports, texts of it, and the names of items that they mention.
IMPORTS = """use jc_a::deep::{Pair, far as near_by};
ghost use Rattle.jc_a.specs.Ones.{is_one, ◌⊑◌};
ghost use Rattle.jc_a.specs.declared.deep.Pair.TheVariants as P;
ghost use Rattle.jc_a.specs.Twos as twos;

fn own() {
    1
}
"""
MENTIONED = (
    ("near_by(x)", "far near_by"),
    ("own() + other()", "own"),
    ("pair.first.second().third", "second"),
    ("pair.first::<u8>()", "first"),
    ("Pair::<u8>::new(1)", "Pair new"),
    ("<Pair as Show>::show", "Pair show"),
    ("Pair::new, jc_a::deep::far", "Pair new far jc_a"),
    ("a..pair.len()", "len"),
    ("is_one result.now", "Rattle.jc_a.specs.Ones Rattle.jc_a.specs.Ones.is_one"),
    ("a ⊑ b", "Rattle.jc_a.specs.Ones Rattle.jc_a.specs.Ones.◌⊑◌"),
    ("P.Left", "Left Pair TheVariants inside.jc_a.Pair"),
    ("twos.four", "Rattle.jc_a.specs.Twos Rattle.jc_a.specs.Twos.four"),
    ("Rattle.jc_b.proofs.Some.lem x", "Rattle.jc_b.proofs.Some Rattle.jc_b.proofs.Some.lem"),
    ("#[tactic(auto, using(crate::proofs::Some::lem))]",
     "Some lem crate Rattle.jc_b.proofs.Some Rattle.jc_b.proofs.Some.lem"),
)


def mentioned_case(text, names):
    scope = Source("jc_b/src/lib.rt", IMPORTS).read().scope
    return f"more-edits: names in {text}", lambda _: expect_same(scope.mentioned(text)[0] - {"◌"}, {*names.split()})


def stated(reader):
    """What a reader of a file finds there."""
    return [(names and sorted(name.rpartition(".")[2] for name in names), text.replace(" \n", "\n"))
            for names, _, _, text, *_ in reader.items]


def source_case(source, items):
    return f"more-edits: statements of {source!r}", lambda _: expect_same(stated(Source("a/src/lib.rt", source)), items)


def theory_case(is_proof, items):
    path = "a/proofs/L.antt" if is_proof else "a/specs/L.antt"
    return f"more-edits: statements of {path}", lambda _: expect_same(stated(Theory(path, LEMMAS, is_proof)), items)


# Three crates of which the last one has edits.
LOWEST = """#![tactic(auto)]
ghost use Rattle.jc_a.specs.Ones.{is_one};

use std::fmt::Display;

pub trait Shows {
    ghost shown: { Self → N };

    fn show(&self) -> u8
        ensures { result ≡ 4 };

    fn hide(&self) -> u8;
}

pub struct Pair {
    first: u8,
}

pub struct Count {
    number: u8,
}

impl Model for Count {
    ghost use Rattle.jc_a.specs.Ones.{three};

    ghost Value = { N };

    ghost view = { λ a. three + a.number };
}

impl Display for Pair {
    fn fmt(&mut self)
        ensures { is_one 1 }
    {
        5
    }
}

impl Shows for Pair {
    fn show(&self) -> u8 {
        6
    }
}

impl Pair {
    pub fn first(&self, count: &Count) -> u8
        ensures { is_one result }
    {
        self.first
    }

    pub fn other(&self) -> u8
        ensures { result ≡ 3 }
    {
        8
    }
}

pub fn far() -> Pair
    ensures { is_one result.first }
{
    Pair { first: 9 }
}

pub fn unused() -> u8
    ensures { result ≡ 7 }
{
    7
}
"""
HIGHEST = """use jc_b::middle;

pub const MOST: u8 = 3;

pub struct Held;

pub fn top() -> u8
    ensures { result ≡ 1 }
{
    let pair = middle();
    pair.first()
}

pub fn near() -> u8
    ensures { result ≡ 2 }
{
    2
}

#[cycle(round)]
fn ping() -> u8 {
    pong()
}

#[cycle(round)]
fn pong() -> u8 {
    ping()
}
"""
REACHING = {
    "crates/jc_a/src/lib.rt": LOWEST,
    "crates/jc_a/specs/Ones.antt": "abbrev pub is_one : N → Type 0\nis_one n = n ≡ one\n\nabbrev pub one : N\n"
                                   "one = 1\n\nabbrev pub two : N\ntwo = 2\n\nabbrev pub three : N\n"
                                   "three = 3\n",
    "crates/jc_a/proofs/Lemmas.antt": "pub lem : N\nlem = 1\n\npub free : N\nfree = 2\n",
    "crates/jc_b/src/lib.rt": "use jc_a::{Pair, far};\n\npub fn middle() -> Pair\n    ensures { true }\n{\n    far()\n"
                              "}\n",
    "crates/jc_c/src/lib.rt": HIGHEST,
    "crates/jc_c/proofs/top/Answers.antt": "use Rattle.jc_a.proofs.Lemmas.{lem}\n\nreturns : goal.returns\n"
                                           "returns c = lem\n",
    "crates/jc_c/proofs/near/Answers.antt": "use Rattle.jc_a.specs.contracts.Count.{the_view}\n\n"
                                            "returns : goal.returns\nreturns c = the_view\n",
    "crates/jc_c/src/more.rt": "use crate::Held;\n\nimpl Held {\n    fn hold(&self) -> u8 {\n        6\n    }\n}\n",
    "crates/jc_c/proofs/Held/hold/Answers.antt": "returns : goal.returns\nreturns c = refl\n",
    "crates/jc_c/proofs/+round/Answers.antt": "returns : goal.returns\nreturns c = refl\n",
    "crates/jc_c/more-edits/hold.edit": f"{REFUSED}file: src/more.rt\nold:         6\nnew:         7\n",
    **{f"crates/jc_c/more-edits/{name}.edit": f"{REFUSED}file: src/lib.rt\n{pairs}" for name, pairs in {
        "both": "old:     pair.first()\nnew:     3\nfile: src/lib.rt\nold:     2\nnew:     4\n",
        "line": "old: u8 = 3\nnew: u8 = 4\n",
        "near": "old:     2\nnew:     3\n",
        "ping": "old:     pong()\nnew:     5\n",
        "top": "old:     pair.first()\nnew:     2\n"}.items()},
}
A, C = "crates/jc_a/src/lib.rt", "crates/jc_c/src/lib.rt"
DEFINITIONS, PROOFS = "crates/jc_a/specs/Ones.antt", "crates/jc_a/proofs/Lemmas.antt"
EACH = ["both", "hold", "line", "near", "ping", "top"]
OF_TOP, OF_NEAR = ["both", "line", "top"], ["both", "line", "near"]
# What is changed, where, and which edits then want trying. One changes a line outside of functions: it stands on all of
# its crate and on all statements below.
REACHED = {
    "a contract that only a body below uses": (A, "is_one result.first }", "true }", ["line"]),
    "a contract that isn't reached": (A, "result ≡ 7", "result ≡ 8", ["line"]),
    "a body below": (A, "Pair . first: 9 .", "Pair { first: 1 }", []),
    "a contract two crates below": (A, "is_one result }", "true }", OF_TOP),
    "a method that isn't called": (A, "result ≡ 3", "result ≡ 4", ["line"]),
    "a function more": (A, r"\Z", "\n" + SOURCE, ["line"]),
    "a function more of a name that is used": (A, r"\Z", "\n" + SOURCE.replace("one()", "middle()"), OF_TOP),
    "a method of a trait more": (A, "    fn hide", "    fn seek(&self) -> u8;\n\n    fn hide", ["line"]),
    "a method of a trait": (A, "result ≡ 4", "result ≡ 5", ["line"]),
    "what a trait has beside its methods": (A, "Self → N", "Self → B", OF_TOP),
    "a trait for a type": (A, "impl Shows for Pair {", "impl Shows for Pair {\n    type A = u8;", OF_TOP),
    "an impl of another's trait": (A, "is_one 1", "is_one 2", OF_TOP),
    "a body in an impl of another's trait": (A, "        5", "        6", []),
    "an impl of another's trait more": (A, r"\Z", "\nimpl Drop for Pair {}\n", OF_TOP),
    "an impl of no type that is used": (A, r"\Z", "\npub struct New;\n\nimpl Drop for New {}\n", ["line"]),
    "an impl for all types": (A, r"\Z", "\nimpl<T: Copy> Drop for T {}\n", EACH),
    "the type of a field": (A, "    first: u8,", "    first: u16,", OF_TOP),
    "a definition of a definition": (DEFINITIONS, "^one = 1", "one = 5", OF_TOP),
    "a definition that isn't reached": (DEFINITIONS, "^two = 2", "two = 5", ["line"]),
    "a definition more": (DEFINITIONS, r"\Z", "\nabbrev pub ten : N\nten = 10\n", ["line"]),
    "a field behind a model, which one proof opens": (A, "number: u8", "number: u64", OF_NEAR),
    "the view of a model": (A, "three . a.number", "a.number", OF_NEAR),
    "a definition that a view has": (DEFINITIONS, "^three = 3", "three = 5", OF_NEAR),
    "the value of a model": (A, "Value = . N .", "Value = { B }", ["both", "line", "near", "top"]),
    "a field behind a model that becomes public": (A, "    number: u8", "    pub number: u8",
                                                   ["both", "line", "near", "top"]),
    "a lemma": (PROOFS, "lem : N", "lem : B", OF_TOP),
    "a lemma's proof": (PROOFS, "^lem = 1", "lem = 5", []),
    "a lemma more": (PROOFS, r"\Z", "\npub more : N\nmore = 3\n", ["line"]),
    "a text that isn't understood": (A, r"\A", "more\n", EACH),
    "what an import leads to": (C, "jc_b::middle", "jc_b::other::middle", OF_TOP),
    "the function's contract": (C, "≡ 1", "≡ 2", OF_TOP),
    "the function's body": (C, "^    let pair", "    let one = 1;\n    let pair", OF_TOP),
    "the body of a function of its cycle": (C, r"^    ping\(\)", "    let one = 1;\n    ping()", ["line", "ping"]),
    "the proof of its cycle": ("crates/jc_c/proofs/+round/Answers.antt", "= refl", "= (refl)", ["line", "ping"]),
    "the proof of a method, beside its type": ("crates/jc_c/proofs/Held/hold/Answers.antt", "= refl", "= (refl)",
                                               ["hold", "line"]),
    "an attribute of a module": (C, r"\A", "#[tactic(auto)]\nmod more;\n", EACH),
    "another function's body": (C, "^    2$", "    let one = 1;\n    2", OF_NEAR),
    "an attribute of all functions": (C, r"\A", "#![tactic(auto)]\n", EACH),
    "the function's proof": ("crates/jc_c/proofs/top/Answers.antt", "= lem", "= (lem)", OF_TOP),
    "another function's proof": ("crates/jc_c/proofs/near/Answers.antt", "= the_view", "= (the_view)", OF_NEAR),
    "a test below": ("crates/jc_a/src/tests.rt", None, SOURCE, []),
}


@contextlib.contextmanager
def reaching():
    """A folder with these crates, whose edits were tried."""
    with crates() as folder:
        for name in NAMES:
            shutil.rmtree(f"{folder}/crates/{name}")
        for path, text in REACHING.items():
            write(folder, path, text)
        expect_same(more_edits(folder)[0], 0)
        expect_end(folder, ["--check"], 0)
        yield folder


def reached_case(what):
    """Where this is changed, those edits want trying that can depend on it, and no others."""
    path, pattern, text, edits = REACHED[what]

    def tried(_):
        with reaching() as folder:
            if pattern is None:
                write(folder, path, text)
            else:
                replace(folder, path, pattern, text)
            wrong = {"jc_c": wanting(*edits, of=6)} if edits else {}
            expect_end(folder, ["--check"], int(bool(edits)), "", told_of(wrong) if edits else "")

    return f"more-edits: --check and {what}", tried


# What is changed, and what is then told of the edit of the function.
WHYS = (
    (append("crates/jc_c/more-edits/top.edit"), "the edit changed"),
    (lambda folder: replace(folder, C, "^    let", "    let one = 1;\n    let"),
     "the function that it changes, or a proof of that changed"),
    (lambda folder: replace(folder, C, "≡ 1", "≡ 2"),
     "the function that it changes, or a proof of that and a statement that it can depend on changed"),
    (lambda folder: replace(folder, DEFINITIONS, "^one = 1", "one = 5"), "a statement that it can depend on changed"),
    (append("kit"), "the kit's logic or the crate's line of crates.txt changed"),
    (lambda folder: write(folder, "crates/jc_c/more-edits/top2.edit", REFUSED), "wasn't tried"),
)


def tells_why(_):
    """With --why it is told of each edit what changed."""
    for change, why in WHYS:
        with reaching() as folder:
            change(folder)
            status, _, told = more_edits(folder, "--why", "jc_c")
            expect(status == 1 and re.search(rf"\btop2? \({why}\)", told), told)


def needs_no_kept(_):
    """What was worked out before is taken only if it is whole and of these scripts, and is written anew then."""
    kept = "build/more-edits.pickle"
    with reaching() as folder:
        with open(f"{folder}/{kept}", "rb") as file:
            whole = file.read()
        scripts, found = pickle.loads(whole)
        for text in (whole[:-9], b"", b"more", pickle.dumps(("other scripts", {"more": 1})), pickle.dumps({})):
            with open(f"{folder}/{kept}", "wb") as file:
                file.write(text)
            expect_end(folder, ["--check"], 0)
            with open(f"{folder}/{kept}", "rb") as file:
                again = pickle.load(file)
            expect((again[0], again[1].keys()) == (scripts, found.keys()), f"{text[:20]}: {again[0]}")
        replace(folder, "dev/statements.py", r"\Z", "# another version\n")
        expect_end(folder, ["--check"], 0)
        with open(f"{folder}/{kept}", "rb") as file:
            expect(pickle.load(file)[0] != scripts, "what other scripts worked out stays")


# Modules that rt makes: of the function beside which an answer is, or of a type.
MADE = re.compile(r"\.(Goals|Given|The[A-Z]\w*)(\.|$)")


def understands_all(_):
    """Each name of a definition or a lemma that one of our crates has by an import leads to an item or a file there,
    all of them is understood, and each answer is one of a function. What leads nowhere would be missed where it
    changes."""
    tree = Tree(".", "", Kept(os.devnull))
    files = [(name, path, file) for name in tree.crates for path, file in tree.files(name).items()]
    items = {each for *_, file in files for item in file.items for each in item.names or ()}
    modules = {f"Rattle.{name}.{path.removesuffix('.antt').replace('/', '.')}" for name, path, _ in files}
    lost = set()
    for name, path, file in files:
        imports = {at for found in file.scope.imports.values() for at in found} | {at for _, at in file.scope.operators}
        for at in imports:
            steps = at.split(".")
            ours = len(steps) > 3 and steps[1] in tree.crates and not {"declared", "contracts"} & {*steps}
            leads = at in modules or any(".".join(steps[:end]) in items for end in range(5, len(steps) + 1))
            if ours and not leads and not MADE.search(at):
                lost.add(f"{at} in {name}/{path}")
        lost |= {f"{name}/{path}" for item in file.items if not item.names and item.owners is None}
    for name in tree.crates:
        found = {proof for path, file in tree.files(name).items() for item in file.items if item.place
                 for proof in tree.proofs(name, path, item)}
        lost |= {f"{name}/{path}" for path in tree.texts(name)
                 if path.startswith("proofs/") and path.count("/") > 1 and path not in found}
    expect(len(items) > 9000 and not lost, f"{len(items)} items; {sorted(lost)[:9]}")


def told_of(wrong):
    """What the check tells of these crates."""
    lines = [f"more-edits: {name}: {why}\n" for name, why in sorted(wrong.items())]
    return "".join([*lines, f"more-edits: {OWN.format(' '.join(sorted(wrong)))}\n"])


def hole_case(what):
    """When all edits were tried the check passes, and fails where this is changed, of these crates alone."""
    change, wrong = HOLES[what]

    def tried(_):
        with crates() as folder:
            expect_end(folder, [], 0, "".join(TRIED.values()))
            expect_end(folder, ["--check"], 0)
            change(folder)
            expect_end(folder, ["--check"], 1, "", told_of(wrong))

    return f"more-edits: --check and {what}", tried


# What the kit says of itself when edits are tried and when the record is checked, and whether the verdicts stand.
KITS = (
    ("rattle-kit-1a logic 0a", "rattle-kit-1b logic 0a", True),
    ("rattle-kit-1a logic 0a", "rattle-kit-1a logic 0b", False),
    ("rattle-kit-1a logic 0a", "rattle-kit-1a logic 0a0a", False),
    ("rattle-kit-1a logic 0a", "rattle-kit-1a", False),
    ("rattle-kit-1a logic 0a", "rattle-kit-1b logic 0a more", False),
    ("rattle-kit-1a", "rattle-kit-1a", True),
    ("rattle-kit-1a", "rattle-kit-1b", False),
    ("rattle-kit-1a more logic 0a", "rattle-kit-1b more logic 0a", False),
)


def kit_case(tried_by, checked_by, stands):
    """The verdicts stand on the kit's logic, whatever its release, and on all that it says where it names none."""

    def tried(_):
        with crates() as folder:
            write(folder, "kit", f"{tried_by}\n")
            expect_end(folder, [], 0, "".join(TRIED.values()))
            write(folder, "kit", f"{checked_by}\n")
            wrong = {} if stands else {name: BOTH for name in NAMES}
            expect_end(folder, ["--check"], int(not stands), "", told_of(wrong) if wrong else "")

    return f"more-edits: --check by {checked_by} of what {tried_by} tried", tried


def moved_back(folder):
    shutil.move(f"{folder}/crates/jc_b/must-fail/one.edit", f"{folder}/crates/jc_b/more-edits")


def one_becomes(text):
    return lambda folder: write(folder, "crates/jc_b/more-edits/one.edit", text)


# Steps in one folder: what is changed first, the words, the status, and what is tried.
ONE = KNOWN.format("jc_b") + "rt: must-fail jc_b/one.edit: "
STEPS = (
    ("nothing is tried again", None, [], 0, ""),
    ("one edit went", moved, [], 0, ""),
    ("one is back", moved_back, [], 0, ONE + REFUSED),
    ("one isn't refused", one_becomes(NOT_REFUSED), [], 1, ONE + NOT_REFUSED),
    ("it isn't tried again", None, [], 1, ""),
    ("it is refused", one_becomes(REFUSED), [], 0, ONE + REFUSED),
    ("all of one crate", None, ["--anew", "jc_c"], 0, "anew\n" + TRIED["jc_c"]),
    ("a definition below", append("crates/jc_a/specs/Lib.antt"), [], 0, "".join(TRIED.values())),
    ("a crate by its name", append("crates/jc_b/src/lib.rt"), ["jc_b"], 0, TRIED["jc_b"]),
    ("and the one above", None, [], 0, TRIED["jc_c"]),
    ("edits of a crate went", lambda folder: shutil.rmtree(f"{folder}/crates/jc_c/more-edits"), [], 0, ""),
)


def takes_steps(_):
    """Only edits are tried that have no verdict on what there is, and the check passes when they are refused."""
    with crates() as folder:
        expect(more_edits(folder)[0] == 0, "the first run failed")
        for what, change, words, status, output in STEPS:
            if change:
                change(folder)
            ended = more_edits(folder, *words)
            expect(ended[:2] == (status, output), f"{what}: {ended}")
            ended = more_edits(folder, "--check", *(word for word in words if word in NAMES))
            expect(ended[0] == status, f"{what}: {ended}")


def goes_on(_):
    """Where one edit isn't refused those of other crates are tried all the same, and the last line names its crate."""
    with crates() as folder:
        write(folder, "crates/jc_a/more-edits/one.edit", NOT_REFUSED)
        output = "".join(TRIED.values()).replace(REFUSED, NOT_REFUSED, 1)
        expect_end(folder, [], 1, output, "more-edits: jc_a: one is recorded as not-refused\n"
                                          "more-edits: an edit wasn't refused, or couldn't be tried, in: jc_a\n")


# What rt tells of an edit, and how the check tells it, or nothing where that is a refusal.
WORDS = (
    ("refused, as it must be\n", ""),
    ("refused, as it must be (only by a limit of the prover, which gave no verdict): why\n", ""),
    ("refused, as it must be (only because a proof file names what the edit took away, so this says little): why\n",
     "one is recorded as names-gone"),
    (NOT_REFUSED, "one is recorded as not-refused"),
    ("BAD EDIT: it did not reach the prover; the first lines of what it said:\nsrc/lib.rt:91:17: error\n",
     "one is recorded as bad"),
    ("NOT TRIED: its check was killed\n", wanting("one")),
    ("refused, as nobody has told before\n", wanting("one")),
    ("as nobody has told before\n", wanting("one")),
)


def word_case(told, fault):
    def tried(_):
        with crates() as folder:
            write(folder, "crates/jc_b/more-edits/one.edit", told)
            more_edits(folder)
            expect_end(folder, ["--check"], int(bool(fault)), "", told_of({"jc_b": fault}) if fault else "")

    return f"more-edits: an edit is {told.splitlines()[0]}", tried


def is_proved_first(_):
    """Of a crate that isn't proved as it stands no edit is tried, and none is recorded."""
    with crates() as folder:
        write(folder, "crates/jc_b/unproved", "")
        status, output, told = more_edits(folder)
        expect(status == 1 and "jc_b" not in output and "jc_b isn't proved as it stands" in told, f"{output}{told}")
        expect_end(folder, ["--check"], 1, "", told_of({"jc_b": "its edits weren't tried"}))
        os.remove(f"{folder}/crates/jc_b/unproved")
        expect_end(folder, [], 0, TRIED["jc_b"])


def has_times(_):
    """Of each edit it is recorded when a run told what came of it, and how many edits that run tried."""
    with crates() as folder:
        for known, tried in (("0", "2"), ("1", "1")):
            began = time.time() - 60
            called(folder, ["dev/more-edits", "--anew"], KNOWN=known)
            text = read(folder, RECORD)
            lines = re.findall(r"^jc_b edit \w+ [-0-9a-f]{51} refused (\S+Z) \d+s/(\d+)$", text, re.MULTILINE)
            expect([count for _, count in lines] == [tried, tried], text)
            told = [calendar.timegm(time.strptime(when, "%Y-%m-%dT%H:%MZ")) for when, _ in lines]
            expect(all(began <= each <= time.time() for each in told), f"{lines}")


# Notes which edits are tried together, for how many processors, how many such runs there are then, and what is built in
# the copy. Two wait for each other.
NOTING = """at=${0%/*}
mkdir "$at/under_way/$$"
for second in 1 2 3 4 5 6 7 8 9 10; do
    [ "$(ls "$at/under_way" | wc -l)" -lt "$TOGETHER" ] || break
    sleep 1
done
echo "$1 ${RT_JOBS:-any} $(ls "$at/under_way" | wc -l)" $(cd "crates/$1/must-fail" && ls) >>"$at/noted"
(cd crates && find */out -type f | sort) >"$at/built"
sleep 0.2
rmdir "$at/under_way/$$"
"""
BUILT_PARTS = {f"crates/{name}/out/{part}": "" for name in NAMES for part in (
    f"{name}", f"rlib/{name}.rlib/format", "incremental/one/some.oantt", "incremental/one/judged")}


def noted(folder, words, together):
    """What is noted of the portions that these words lead to, and how far the script told to be."""
    for name in ("noted", "under_way"):
        shutil.rmtree(f"{folder}/{name}", ignore_errors=True)
    write(folder, "noted", "")
    os.mkdir(f"{folder}/under_way")
    ended = called(folder, ["dev/more-edits", *words], TOGETHER=str(together), TMPDIR=f"{folder}/room")
    expect(ended.returncode == 0, f"{ended}")
    lines = [line.replace(".edit", "").split() for line in read(folder, "noted").splitlines()]
    return lines, re.findall(PROGRESS, ended.stderr.decode(), re.MULTILINE)


def has_portions(_):
    """Edits are tried in portions, of 8 at most, so many at once as it was asked for, each in a copy that goes."""
    with crates() as folder:
        for path, text in {**BUILT_PARTS, "noting": NOTING, "room/kept": ""}.items():
            write(folder, path, text)
        for number in range(17):
            write(folder, f"crates/jc_b/more-edits/edit{number:02}.edit", REFUSED)
        lines, told = noted(folder, ["jc_b"], 1)
        expect_same([line[:3] for line in lines], [["jc_b", "any", "1"]] * 3)
        expect_same([len(line[3:]) for line in lines], [7, 6, 6])
        expect_same(sorted(edit for line in lines for edit in line[3:]),
                    sorted(["one", "two", *(f"edit{number:02}" for number in range(17))]))
        expect_same(told, [("jc_b", "7", "12", "0"), ("jc_b", "6", "6", "0"), ("jc_b", "6", "0", "0")])
        expect_same(read(folder, "built").split(), [
            "jc_a/out/rlib/jc_a.rlib/format", "jc_b/out/incremental/one/judged", "jc_b/out/incremental/one/some.oantt"])
        append("crates/jc_b/src/lib.rt")(folder)
        many = f"19 of its 19 edits want trying: {', '.join(f'edit{number:02}' for number in range(8))}, and 11 more"
        expect_end(folder, ["--check", "jc_b"], 1, "", told_of({"jc_b": many}))
        lines, _ = noted(folder, ["--anew", "jc_b"], 1)
        expect_same([len(line[3:]) for line in lines], [19])
        lines, _ = noted(folder, ["--jobs", "2", "jc_a", "jc_c"], 2)
        expect_same(sorted(line[0] for line in lines), ["jc_a", "jc_a", "jc_c", "jc_c"])
        expect_same([len(line[3:]) for line in lines], [1] * 4)
        expect({line[1] for line in lines} == {"1"} and max(line[2] for line in lines) == "2", f"{lines}")
        expect_end(folder, ["--check"], 0)
        expect_left(f"{folder}/room", ["kept"])


def expect_left(folder, names):
    """In a folder there is only this soon."""
    for _ in range(100):
        if os.listdir(folder) == names:
            break
        time.sleep(0.1)
    expect_same(os.listdir(folder), names)


# Interrupts the script where one is tried.
INTERRUPTING = """case $(ls "crates/$1/must-fail") in *one*) kill -INT "$PPID"; exec sleep 10 ;; esac
"""


def keeps_portions(_):
    """An interrupted run has recorded what came of the portions that ended, and the next one tries the others."""
    with crates() as folder:
        write(folder, "noting", INTERRUPTING)
        for number in range(7):
            write(folder, f"crates/jc_b/more-edits/a{number}.edit", REFUSED)
        expect_same(more_edits(folder, "jc_b")[0], 130)
        os.remove(f"{folder}/noting")
        status, output, _ = more_edits(folder, "jc_b")
        expect_same((status, re.findall(r"jc_b/(\w+)\.edit", output)), (0, ["a1", "a3", "a5", "one"]))
        expect_end(folder, ["--check", "jc_b"], 0)


def needs_rt(_):
    with crates() as folder:
        os.remove(f"{folder}/rt")
        told = subprocess.run(["dev/more-edits", "--check"], cwd=folder, capture_output=True, check=False,
                              env={**os.environ, "PATH": "/usr/bin:/bin"})
        expect(told.returncode == 127 and b"rt isn't on the path" in told.stderr, f"{told}")


def gate_case(edits, gate, tests, status, output, why):
    """The gate ends as ./test --built does, or as rt ci where this failed, and tells the processor time of rt ci at its
    end. It runs neither where dev/more-edits --check fails."""

    def tried(_):
        ending = f'#!/bin/sh\necho "$*: {tests} failed"\nexit {tests}\n'
        check = f'#!/bin/sh\n[ "$*" = --check ]\n{"echo stale >&2; exit 1" if edits else ""}\n'
        with folder_of({"rt": TRYING, "test": ending, "dev/more-edits": check, ".ci/run": ""}) as folder:
            place(os.path.join(folder, ".ci", "run"), stored(".ci/run"))
            told = called(folder, [".ci/run"], GATE=str(gate))
        expect(told.returncode == status and told.stdout.decode() == output, f"{told}")
        expect_same(told.stderr.decode(), why)

    return f"gate: dev/more-edits --check ends with {edits}, rt ci with {gate}, ./test --built with {tests}", tried


def has_no_links(_):
    """`rt ci` takes no links, so none is here."""
    found = set()
    for at, folders, files in os.walk("."):
        folders[:] = [name for name in folders if name not in NOT_OURS or os.path.islink(os.path.join(at, name))]
        found |= {os.path.join(at, name) for name in folders + files if os.path.islink(os.path.join(at, name))}
    expect(os.path.exists("crates.txt") and not found, f"{found}")


# A small program: a crate of it, and one of tests.
PARTS = {"crates.txt": "jc_low: jc_low_more thiserror\njc_low_more:\njc_app: jc_low\n# tests\njc_low_tests: jc_low\n",
         **{f"crates/{name}/{part}": "" for name in ("jc_low", "jc_low_more", "jc_app", "jc_low_tests")
            for part in ("src/lib.rt", "src/tests.rt", "specs/Lib.antt", "proofs/lib/Lib.antt")}}
# What is newer than the program, and whether that is told of it.
NEWER = (
    ("crates.txt", True),
    ("crates/jc_app/src/lib.rt", True),
    ("crates/jc_low/src/lib.rt", True),
    ("crates/jc_low/src", True),
    ("crates/jc_low_more/specs/Lib.antt", True),
    ("crates/jc_low/proofs/lib/Lib.antt", True),
    ("crates/jc_low_more/proofs", True),
    ("crates/jc_app/src/tests.rt", False),
    ("crates/jc_low_tests/src/lib.rt", False),
)


@contextlib.contextmanager
def program():
    """A folder with a small program, as it was built of its parts, and with all else that is here."""
    with folder_of({}) as folder:
        for path, text in PARTS.items():
            write(folder, path, text)
        os.makedirs(os.path.join(folder, os.path.dirname(BUILT)))
        place(os.path.join(folder, BUILT), "#!/bin/sh\n")
        for at, folders, files in os.walk(folder):
            for name in folders + files:
                os.utime(os.path.join(at, name), (1000, 1000))
        os.utime(os.path.join(folder, BUILT), (2000, 2000))
        for name in os.listdir():
            if name not in (".git", "crates", "crates.txt"):
                os.symlink(os.path.abspath(name), os.path.join(folder, name))
        place(os.path.join(folder, "own-test"), stored("test"))
        yield folder


def newer_case(path, is_told):
    """The program is no longer as new as what it is made of where this is newer; tests are no part of it."""

    def tried(_):
        with program() as folder:
            expect_same(lack_of_built(folder), "")
            os.utime(os.path.join(folder, path), (3000, 3000))
            expect_same(lack_of_built(folder), f"{path} is newer than {BUILT}" if is_told else "")

    return f"gate: {path} is newer than the program", tried


def is_built_case(change, lack):
    """./test --built fails at once where the program isn't there or is old, and goes on where it is new enough."""

    def tried(_):
        with program() as folder:
            change(folder)
            told = called(folder, ["./own-test", "--built", "no-such-word"], **{IN_TEST: "yes"})
        if lack:
            expect_same(told.stdout.decode(), f"FAILED test: {lack}\n0 passed, 1 failed\n")
        else:
            expect(b"no case has no-such-word" in told.stderr, f"{told}")
        expect(told.returncode == (1 if lack else 2), f"{told}")

    return f"gate: ./test --built where {lack or 'the program is as new as its parts'}", tried


def gate():
    yield from map(hole_case, HOLES)
    yield from itertools.starmap(kit_case, KITS)
    for row in STATED:
        yield source_case(*row)
    for row in MENTIONED:
        yield mentioned_case(*row)
    for row in DEFINED:
        yield theory_case(*row)
    yield from map(reached_case, REACHED)
    yield "more-edits: --why", tells_why
    yield "more-edits: what was worked out before", needs_no_kept
    yield "more-edits: all that the crates state is understood", understands_all
    yield "more-edits: only what has no verdict is tried", takes_steps
    yield "more-edits: goes on behind a crate that fails", goes_on
    for row in WORDS:
        yield word_case(*row)
    yield "more-edits: a crate that isn't proved as it stands", is_proved_first
    yield "more-edits: times", has_times
    yield "more-edits: portions", has_portions
    yield "more-edits: an interruption", keeps_portions
    yield "more-edits: without rt", needs_rt
    for row in NEWER:
        yield newer_case(*row)
    yield is_built_case(lambda folder: None, "")
    yield is_built_case(lambda folder: os.remove(f"{folder}/{BUILT}"), f"{BUILT} isn't there")
    yield is_built_case(lambda folder: os.utime(f"{folder}/crates.txt"), f"crates.txt is newer than {BUILT}")
    took = "gate: rt ci took 0.0 processor minutes\n"
    yield gate_case(0, 0, 0, 0, "--built: 0 failed\n", took)
    yield gate_case(0, 0, 1, 1, "--built: 1 failed\n", took)
    yield gate_case(0, 3, 0, 3, "", took)
    yield gate_case(1, 0, 0, 1, "", "stale\n")
    yield "gate: no link", has_no_links
