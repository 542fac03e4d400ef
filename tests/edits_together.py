"""dev/more-edits where it tries edits of different functions in one check, with a command rt that is none."""

import contextlib
import re
import shutil

from cases import expect
from gate import RECORD, called, crates, expect_left, more_edits, read, write
from together import MOST

FUNCTION = "{}pub fn {} -> u8\n    ensures {{ result ≡ the_{} }}\n{{\n    begin_{}();\n    right_{}\n{}}}\n"
CYCLE = "#[cycle(around)]\n"


def function(name, before="", given="()", more=""):
    return FUNCTION.format(before, name + given, *[name] * 3, more)


def of_impl(head, *names):
    functions = "\n".join(function(name, given="(&self)") for name in names)
    return head + " {\n" + re.sub(r"^(?=.)", "    ", functions, flags=re.MULTILINE) + "}\n"


MANY = [f"many{number:02}" for number in range(MOST + 1)]
SOURCES = {
    "lib": "\n".join([function("one"), function("two"), function("three"), function("four", CYCLE),
                      function("five", CYCLE), function("over", more="    one();\n"),
                      function("above", more="    over();\n"), *map(function, MANY),
                      "pub const TEN: u8 = right_ten;\n"]),
    "more": "\n".join([of_impl("impl Thing", "six", "one"), of_impl("impl Shown for Thing", "seven"),
                       function("eight")]),
}
# What rt check tells of a function whose body became such.
OWN = "./proofs/NAME/Answers.antt:1:9: error: `goal`: it doesn't follow\n"
NOT_PROVED = "fn jc_b::NAME: not proved\n"
TOLD = {
    "refused": OWN + NOT_PROVED,
    "noted": "note: src/lib.rt:4:5: it isn't proved that what the function ensures holds\n" + NOT_PROVED,
    "with advice": OWN + "note: ./proofs/Lemmas.antt:1:1: it can be shorter\n" + NOT_PROVED,
    "with itself": OWN.replace("NAME", "+NAME") + NOT_PROVED,
    "with its cycle": OWN.replace("NAME", "Thing/+around") + NOT_PROVED,
    "a method": OWN.replace("NAME", "of/Thing/NAME") + "fn jc_b::of::Thing::NAME: not proved\n",
    "of a trait": OWN.replace("NAME", "of/ThingShown/NAME") + "fn jc_b::of::ThingShown::NAME: not proved\n",
    "in its file": OWN.replace("NAME", "more/NAME") + "fn jc_b::more::NAME: not proved\n",
    "without answers": ("note: src/lib.rt:4:5: it isn't proved that what the function ensures holds\n"
                        "fn jc_b::NAME: no proof: expected answers in ./proofs/NAME/Answers.antt; `search` did not "
                        "prove `returns`\n"),
    "not tried": (OWN + "fn jc_b::NAME: not proved; it calls `jc_b::two`, which is not proved\n"),
    "no proof": (OWN + "fn jc_b::NAME: no proof: it calls `jc_b::two`, which is not proved\n"),
    "proved": "fn jc_b::NAME: proved\n",
    "untold": OWN,
    "without a reason": NOT_PROVED,
    "waits": OWN + "fn jc_b::NAME: not proved; it waits for the proof of `two`\n",
    "gone": "./proofs/NAME/Answers.antt:1:9: error: `lemma` is not in scope\n" + NOT_PROVED,
    "gone too": "./proofs/NAME/Answers.antt:1:9: error: `a` has no field `b`\n" + OWN + NOT_PROVED,
    "for another": ("src/lib.rt:14:1: error: `two`: no\nnote: src/lib.rt:7:1: no\nnote: src/more.rt:8:1: no\n"
                    "note: a goal may be false\n" + NOT_PROVED),
    "a lemma": OWN + OWN.replace("NAME/Answers", "Lemmas") + NOT_PROVED,
    "another's proof": OWN + OWN.replace("NAME", "NAME/more") + NOT_PROVED,
    "another": OWN + "fn jc_b::more::NAME: not proved\nfn jc_b::NAME2: not proved\nfn jc_a::NAME: not proved\n",
    "unread": "src/lib.rt:4:5: error: it can't be read\n" + OWN + NOT_PROVED,
    "out of scope": "./src/lib.rt:4:5: error: `goal`: `it` is not in scope\n" + OWN + NOT_PROVED,
    "stale": "module `Rattle-jc_a-x` isn't there. Run the lower steps again\n" + OWN + NOT_PROVED,
    "uncompiled": OWN + NOT_PROVED,
    "at a limit": OWN + NOT_PROVED,
    "of another status": OWN + NOT_PROVED + "logic=not-proved\n",
    "interrupted": "",
}
# So it ends, and in the file `checked` it notes which functions are wrong.
CHECKING = r"""at=$(dirname "$(command -v rt)")
wrong=$(sed -n 's| //.*||; s/^ *wrong_//p' src/*.rt)
[ "$wrong" ] || exit 0
echo $(echo "$wrong" | cut -d" " -f1) >>"$at/checked"
echo "$wrong" | while read -r name how; do sed "s/NAME/$name/" "$at/told/$how"; done
case $wrong in
    *interrupted) kill -INT "$PPID"; exec sleep 10 ;;
    *"at a limit"* | *"of another status"*) exit 3 ;;
    *uncompiled*) echo "error[E0308]: mismatched types" ;;
    *) printf 'crate jc_b: modules loaded=9\nlogic=not-proved\nrt: rt lemma WORD.. finds a lemma\n' ;;
esac
exit 1
"""
# What rt must-fail tells of each edit, so that it can be seen who did.
ALONE, ALONE_WORD = "refused, as it must be (only by a limit of the prover): why\n", "refused-at-a-limit"


def edit(name, how, file="lib"):
    return f"file: src/{file}.rt\nold: right_{name}\nnew: wrong_{name} {how}\n"


def pair(how):
    return {"a": edit("one", "refused"), "b": edit("two", how)}


# What is seen, the edits, the functions of each check that has some, and the edits that are tried alone.
CASES = (
    ("two functions", pair("refused"), ["one two"], []),
    ("a reason in the source", {"a": edit("one", "noted"), "b": edit("two", "refused")}, ["one two"], []),
    ("a reason without answers", {"a": edit("one", "without answers"), "b": edit("two", "refused")}, ["one two"], []),
    ("a function and its caller", {"a": edit("over", "refused"), "b": edit("one", "refused")}, ["one", "over"], []),
    ("a caller of callers", {"a": edit("above", "refused"), "b": edit("one", "refused"), "c": edit("two", "refused")},
     ["one two", "above"], []),
    ("advice on another proof", pair("with advice"), ["one two"], []),
    ("a function that calls itself", pair("with itself"), ["one two"], []),
    ("a function of a cycle", {"a": edit("one", "refused"), "b": edit("five", "with its cycle")}, ["one five"], []),
    ("methods", {"a": edit("six", "a method", "more"), "b": edit("seven", "of a trait", "more"),
                 "c": edit("eight", "in its file", "more")}, ["six seven eight"], []),
    ("a method told as a function", {"a": edit("two", "refused"), "b": edit("six", "refused", "more")},
     ["two six"], ["a", "b"]),
    ("one function twice", {"a": edit("two", "refused"), "b": edit("one", "refused"),
                            "c": edit("one", "refused").replace("right", "begin")}, ["one two", "one"], ["c"]),
    ("two functions of one name", {"a": edit("one", "refused"), "b": edit("one", "a method", "more")},
     ["one", "one"], []),
    ("two of a cycle", {"a": edit("four", "refused"), "b": edit("five", "refused")}, ["four", "five"], []),
    ("more than bodies", {**pair("refused"), "c": edit("ten", "refused"),
                          "d": "file: src/lib.rt\nold: the_three\nnew: the_four\n",
                          "e": edit("three", "refused") + edit("ten", "refused").partition("\n")[2]},
     ["one two"], ["c", "d", "e"]),
    ("an edit of two functions", {"a": edit("one", "proved") + edit("two", "refused").partition("\n")[2],
                                  "b": edit("three", "refused")}, ["one two three"], []),
    ("an edit that another's text hides", {"a": edit("one", "refused // right_two"), "b": edit("two", "refused"),
                                           "c": edit("three", "refused")}, ["one three"], ["b"]),
    ("more than one check tries", {name: edit(name, "refused") for name in MANY}, [" ".join(MANY[:-1]), MANY[-1]], []),
    *((how, pair(how), ["one two"], ["b"])
      for how in ("proved", "untold", "without a reason", "waits", "not tried", "no proof", "gone", "gone too",
                  "for another", "another")),
    *((how, pair(how), ["one two"], ["a", "b"])
      for how in ("a lemma", "another's proof", "unread", "out of scope", "stale", "uncompiled", "at a limit",
                  "of another status")),
)


@contextlib.contextmanager
def with_edits(edits):
    """A folder with crates, of which one has these edits and sources, and with rt."""
    with crates() as folder:
        shutil.rmtree(f"{folder}/crates/jc_b")
        for name, text in SOURCES.items():
            write(folder, f"crates/jc_b/src/{name}.rt", text)
        for name, text in edits.items():
            write(folder, f"crates/jc_b/more-edits/{name}.edit", text + ALONE)
        for how, text in TOLD.items():
            write(folder, f"told/{how}", text)
        write(folder, "checking", CHECKING)
        write(folder, "checked", "")
        write(folder, "room/kept", "")
        yield folder


def together_case(what, edits, checks, alone):
    """These checks are made, these edits are tried alone, and of each it is recorded what that told of it."""

    def tried(_):
        with with_edits(edits) as folder:
            ended = more_edits(folder, "jc_b")
            told = [line.strip() for line in read(folder, "checked").splitlines()]
            expect(ended[0] == 0 and told == checks, f"{told}: {ended}")
            found = re.findall(r"must-fail jc_b/(\w+)\.edit", ended[1])
            expect(sorted(found) == alone, f"{found} were tried alone")
            words = dict(re.findall(r"^jc_b edit (\w+) \S+ (\S+) ", read(folder, RECORD), re.MULTILINE))
            expect(words == {edit: ALONE_WORD if edit in alone else "refused" for edit in edits}, f"{words}")

    return f"more-edits: together, {what}", tried


def is_alone_anew(_):
    """Anew, each edit is tried alone, and so recorded."""
    with with_edits(pair("refused")) as folder:
        ended = more_edits(folder, "jc_b", "--anew")
        expect(ended[0] == 0 and not read(folder, "checked"), f"{ended}")
        expect(read(folder, RECORD).count(ALONE_WORD) == 2, read(folder, RECORD))


def is_interrupted(_):
    """An interrupted run has recorded what the checks before told, and left nothing; the next one tries the others."""
    edits = {**pair("refused"), "c": edit("one", "refused"), "d": edit("two", "interrupted")}
    with with_edits(edits) as folder:
        ended = called(folder, ["dev/more-edits", "jc_b"], TMPDIR=f"{folder}/room")
        expect(ended.returncode == 130, f"{ended}")
        lines = re.findall(r"^jc_b edit (\w+) \S+ refused \S+Z \d+s/2$", read(folder, RECORD), re.MULTILINE)
        expect(lines == ["a", "b"], f"{lines}")
        write(folder, "crates/jc_b/more-edits/d.edit", edit("two", "refused") + ALONE)
        write(folder, "checked", "")
        ended = called(folder, ["dev/more-edits", "--jobs", "2", "jc_b"], TMPDIR=f"{folder}/room")
        expect(ended.returncode == 0 and read(folder, "checked") == "one two\n", f"{ended}")
        expect_left(f"{folder}/room", ["kept"])


def edits_together():
    for row in CASES:
        yield together_case(*row)
    yield "more-edits: together, anew", is_alone_anew
    yield "more-edits: together, an interruption", is_interrupted
