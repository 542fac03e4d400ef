"""Whether the edits that the checker must refuse can be applied, those of the gate and the others. rt ci only notes one
that can't be: it shows nothing. Whether what it makes compiles is seen where it is tried, and not here."""

import glob
import os
import re
import tempfile

from cases import Wrong, expect, stored
from floors import libraries

NAME = re.compile(r"[A-Za-z0-9_-][A-Za-z0-9_.-]*\.edit")
FOLDERS = ("must-fail", "more-edits")
# The crates whose edits the gate leaves to the record, all of them. docs/DECISIONS.md says why.
BY_RECORD = {f"jc_{name}" for name in """
    answers app choice cli cursor dump effects expected journal json listings looks parser printer replies requests
    scenario session tree view weave
    """.split()}


def is_of_laws(folder):
    """Whether a crate has laws alone: it has no bodies, and its edits are of definitions."""
    sources = glob.glob(os.path.join(folder, "src/**/*.rt"), recursive=True)
    return all(re.fullmatch(r"(?:lib|\w*laws)\.rt", os.path.basename(path)) for path in sources)


def edited(text, folder):
    """The files of a crate that an edit changes, with their texts then. Each pair of lines applies to what those before
    it made."""
    before, after, path, old = {}, {}, None, None
    sources = r"src/[\w/]+\.rt" + (r"|specs/[\w/]+\.antt" if is_of_laws(folder) else "")
    for line in filter(None, text.split("\n")):
        kind, _, rest = line.partition(" ")
        follows = {"file:": old is None, "old:": path and old is None, "new:": old is not None}
        expect(follows.get(kind), f"`{line}` stands where it can't")
        if kind == "file:":
            path = rest
            expect(re.fullmatch(sources, path), f"{path} is no file of sources")
            expect(os.path.isfile(os.path.join(folder, path)), f"there is no file {path}")
            before.setdefault(path, stored(os.path.join(folder, path)))
            after.setdefault(path, before[path])
        elif kind == "old:":
            old = rest
            expect(after[path].count(old) == 1, f"{old} is in {path} {after[path].count(old)} times")
        else:
            after[path], old = after[path].replace(old, rest), None
    expect(old is None and after != before, "it changes nothing")
    return after


def edits_case(crate):
    """Each edit of a crate can be applied, and none makes what another one makes."""

    def tried(_):
        made = {}
        for path in sorted(path for folder in FOLDERS for path in glob.glob(os.path.join(crate, folder, "*"))):
            expect(NAME.fullmatch(os.path.basename(path)), f"{path} has no name of an edit")
            try:
                one = edited(stored(path), crate)
            except Wrong as fault:
                raise Wrong(f"{path}: {fault}") from fault
            twin = made.setdefault(str(one), path)
            expect(twin == path, f"{path} makes what {twin} makes")

    return f"edits: of {crate}", tried


FILES = {"src/lib.rt": "let a = 1;\nlet b = 1;\n", "src/more.rt": "c\n"}
# An edit of these files, and what is wrong with it, or nothing.
ROWS = (
    ("file: src/lib.rt\nold: a = 1\nnew: a = 2\n", ""),
    ("file: src/lib.rt\nold: let b = 1;\nnew:\n", ""),
    ("file: src/lib.rt\nold: a = 1\nnew: a = b\n\nold: a = b\nnew: a = 3\n", ""),
    ("file: src/lib.rt\nold: a = 1\nnew: a = 2\nfile: src/more.rt\nold: c\nnew: d\n", ""),
    ("file: src/lib.rt\nold: = 1\nnew: = 2\n", "= 1 is in src/lib.rt 2 times"),
    ("file: src/lib.rt\nold: a = 2\nnew: a = 3\n", "a = 2 is in src/lib.rt 0 times"),
    ("file: src/lib.rt\nold: a = 1\nnew: a = 1\n", "it changes nothing"),
    ("file: src/lib.rt\nold: a = 1\nnew: a = 2\nold: a = 1\nnew: a = 3\n", "a = 1 is in src/lib.rt 0 times"),
    ("file: src/no.rt\nold: a = 1\nnew: a = 2\n", "there is no file src/no.rt"),
    ("file: specs/Lib.antt\nold: a\nnew: b\n", "specs/Lib.antt is no file of sources"),
    ("file: ../lib.rt\nold: a\nnew: b\n", "../lib.rt is no file of sources"),
    ("file: src/lib.rt\n", "it changes nothing"),
    ("file: src/lib.rt\nold: a = 1\n", "it changes nothing"),
    ("file: src/lib.rt\nold: a = 1\nold: b = 1\nnew: a = 2\n", "`old: b = 1` stands where it can't"),
    ("file: src/lib.rt\nnew: a = 2\nold: a = 1\n", "`new: a = 2` stands where it can't"),
    ("file: src/lib.rt\nold: a = 1\nnews: a = 2\n", "`news: a = 2` stands where it can't"),
    ("file: src/lib.rt\nold: a = 1\nfile: src/lib.rt\n", "`file: src/lib.rt` stands where it can't"),
    ("old: a = 1\nnew: a = 2\n", "`old: a = 1` stands where it can't"),
    ("", "it changes nothing"),
)


# The same of a crate of laws alone.
OF_LAWS = {"src/lib.rt": "let a = 1;\n", "src/laws.rt": "", "specs/Lib.antt": "a\n"}
ROWS_OF_LAWS = (
    ("file: specs/Lib.antt\nold: a\nnew: b\n", ""),
    ("file: src/lib.rt\nold: a = 1\nnew: a = 2\n", ""),
    ("file: proofs/Lib.antt\nold: a\nnew: b\n", "proofs/Lib.antt is no file of sources"),
)


def fault_case(files, text, fault):
    def tried(_):
        with tempfile.TemporaryDirectory() as folder:
            for name, content in files.items():
                path = os.path.join(folder, name)
                os.makedirs(os.path.dirname(path), exist_ok=True)
                with open(path, "w", encoding="utf-8") as file:
                    file.write(content)
            try:
                edited(text, folder)
                told = ""
            except Wrong as wrong:
                told = str(wrong)
        expect(fault in told and bool(fault) == bool(told), told)

    return f"edits: {text!r}" + (f" is refused: {fault}" if fault else " applies"), tried


def has_edits(_):
    for folder in FOLDERS:
        expect(glob.glob(f"crates/*/{folder}/*.edit"), f"no crate has any in {folder}")


def gate_case(crate):
    """The gate tries edits of a library, or leaves all that it has to the record. One of laws alone has no bodies."""

    def tried(_):
        folder = f"crates/{crate}"
        expect(glob.glob(f"{folder}/src/**/*.rt", recursive=True), f"{crate} has no sources")
        here = "more-edits" if crate in BY_RECORD else "must-fail"
        expect(is_of_laws(folder) or glob.glob(f"{folder}/{here}/*.edit"), f"{crate} has no edit in {here}")
        if crate in BY_RECORD:
            expect(not glob.glob(f"{folder}/must-fail/*"), f"{crate} has edits in must-fail")

    who = "the record has those" if crate in BY_RECORD else "the gate tries one"
    return f"edits: {who} of {crate}", tried


def libraries_by_record(_):
    """Each crate that is left to the record is a library."""
    expect(BY_RECORD <= {*libraries()}, f"no libraries: {BY_RECORD - {*libraries()}}")


def edits():
    yield "edits: there are some", has_edits
    yield "edits: the record is of libraries", libraries_by_record
    yield from map(gate_case, libraries())
    yield from map(edits_case, sorted(glob.glob("crates/*")))
    for row in ROWS:
        yield fault_case(FILES, *row)
    for row in ROWS_OF_LAWS:
        yield fault_case(OF_LAWS, *row)
