"""What is said of a refusal, on standard error: usual mistakes in texts, schedules, sessions and command lines, each
with words that name its place and its cure. What could be there is compared with the grammar, by trying it."""

import io
import os
import re
import subprocess

from cases import IN_PYTHON, expect, stored
from jsoncrdt.oracle.grammar import END, NAME, NUMBER, RESERVED, STRING, read, tokens
from jsoncrdt.oracle.program import command_line
from jsoncrdt.oracle.refusal import DIGITS, REPLICA, VARIABLE, explained
from jsoncrdt.oracle.sentences import SENTENCES
from jsoncrdt.oracle.texts import REFUSALS

ERRORS = os.path.join("docs", "ERRORS.md")
DEEP = '.get("a")' * 256
FIRST, STUCK = "examples/first.jsoncrdt", "examples/stuck.jsoncrdt"

# Texts of which `check` says why they are refused: the text, and what the explanation must have.
TEXTS = [
    # What is written in other languages.
    ('jsoncrdt 1\nreplica a {\n  doc.get("a") = 1\n}\n',
     ["standard input:3:16: found `=`, expected `.` or `:=`", "\n    doc.get(\"a\") = 1\n                 ^\n",
      "an assignment is `:=`"]),
    ("jsoncrdt 1 replica a { let x := doc }", ["1:30: found `:=`, expected `=`", "`let` binds by `=`"]),
    ("jsoncrdt 1 replica a { var x = doc }", ["1:28: found `x`", "a variable is bound by `let x = ..`"]),
    ("jsoncrdt 1 replica a { doc.x := 1 }",
     ["1:28: found `x`, expected `get`, `idx`, `keys`, `values`, `insertAfter` or `delete`", '`.get("x")`']),
    ('jsoncrdt 1 replica a { doc["x"] := 1 }', ["1:27: found `[`", '`.get("key")`', "`.idx(1)`"]),
    ("jsoncrdt 1 replica a { doc.get(x) := 1 }", ["1:32: found `x`, expected a string", '`get("x")`']),
    ("jsoncrdt 1 replica a { doc.get('x') := 1 }", ["1:32: found `'`", '1 BadByte', 'a string is between `"`']),
    ("jsoncrdt 1 replica a { doc := \u201cx\u201d }", ["1:31: found `\u201c`", 'a string is between `"`']),
    ("jsoncrdt 1 replica a { doc := [1,2] }", ["1:32: found `1`, expected `]`", "assign `[]`, and insert"]),
    ('jsoncrdt 1 replica a { doc := {"k": 1} }', ["1:35: found `:`", "a map is assigned as `{}`"]),
    ("jsoncrdt 1 replica a { doc := None }", ["1:31: found `None`", "`true`, `false` or `null`", "nothing is `null`"]),
    ("jsoncrdt 1 replica a { doc := True }", ["1:31: found `True`", "is it `true`?"]),
    ("jsoncrdt 1 replica a { doc := milk }", ["1:31: found `milk`", '`"milk"`']),
    ("jsoncrdt 1 replica a { doc.delete() }", ["1:34: found `(`, expected `;` or `}`", "no brackets behind it"]),
    ("jsoncrdt 1 replica a { # note\n }", ["1:24: found `#`", "there are no comments: leave it out"]),
    # What is left out or misspelt.
    ("jsoncrdt 1 replica a {\n  doc := 1\n  doc := 2\n}",
     ["3:3: found `doc`, expected `;` or `}`", "a `;` is missing before it"]),
    ("jsoncrdt 1 replica a {\n  yield\n", ["2:8: found the end of the text, expected `;` or `}`",
                                             "the `{` of line 1, column 22 isn't closed"]),
    ("jsoncrdt 1 replica a { yield } }", ["1:32: found `}`", "a `}` too many"]),
    ("jsoncrdt 1 replica a { yeild; }", ["1:29: found `;`, expected `.` or `:=`", "is it `yield`?"]),
    ("jsoncrdt 1 replica a { doc }", ["1:28: found `}`", "an expression alone is no command"]),
    ('jsoncrdt 1 replica a { doc.insert("x") }', ["1:28: found `insert`", "is it `insertAfter`?"]),
    ("jsoncrdt 1 replica a {} shedule {}",
     ["1:25: found `shedule`, expected `replica`, `schedule` or the end of the text", "is it `schedule`?"]),
    ("jsoncrdt 1 replica a { yield } schedule { a.exe }",
     ["1:45: found `exe`, expected `exec`, `send`, `done`, `recv` or `apply`", "is it `exec`?"]),
    ("jsoncrdt 1 replica a { yield } schedule a.send", ["1:41: found `a`, expected `{`", "between `{` and `}`"]),
    ("jsoncrdt 1 replica alice {} schedule { alic.exec }",
     ["1:40: found `alic`", "18 UnknownReplica", "is it `alice`?"]),
    ('jsoncrdt 1 replica a { doc := "x }', ['1:31: found `"x }`', 'put the closing `"`']),
    # Numbers and names.
    ("jsoncrdt 1 replica a { doc.idx(-1).delete }", ["1:32: found `-1`, expected digits", "elements count from 1"]),
    ("jsoncrdt 1 replica a { doc := 01 }", ["1:31: found `01`", "leave out the zeros in front"]),
    ("jsoncrdt 1 replica my-name {}", ["1:22: found `-name`", "a name has letters, digits and `_`"]),
    ("jsoncrdt 1 replica keys {}", ["1:20: found `keys`", "10 ReservedName", "take another name"]),
    ("jsoncrdt 1 replica a {} replica a {}", ["1:33: found `a`", "give this one another"]),
    ('jsoncrdt 1 replica a { doc := "\\x41" }', ["1:32: found `\\x`", "`\\u` with four digits"]),
    ('jsoncrdt 1 replica a { doc := "\\ud83d" }', ["1:32: found `\\ud83d`", "write both halves"]),
    # Limits.
    (f"jsoncrdt 1 replica {'n' * 256} {{}}", ["1:20: found `nnnn", "255 bytes", "make it shorter"]),
    ("jsoncrdt 1 replica a { doc.idx(4294967296).delete }", ["1:32: found `4294967296`", "9 IndexTooLarge"]),
    (f"jsoncrdt 1 replica a {{{'yield;' * 65_537}}}", ["1:393239: found `yield`", "part it between replicas"]),
    (f"jsoncrdt 1 replica a {{ doc{'.keys' * 257} }}", ["1:1307: found `.`", "bind a prefix of it by `let`"]),
    (f"jsoncrdt 1 {' '.join(f'replica r{n} {{}}' for n in range(65))}", ["found `r64`", "leave this one out"]),
    (f"jsoncrdt 1 replica a {{}} schedule {{{'a.send;' * 100_001}}}",
     ["1:700035: found `a`", "part them into scenarios"]),
    # Events.
    ("jsoncrdt 1 replica a { a.exec }", ["1:26: found `exec`", "events are in the schedule"]),
    ("jsoncrdt 1 replica a { yield } schedule { a.apply(a, 1) }",
     ["1:51: found `a`, expected digits", "`p.apply(2, q)`"]),
    ("jsoncrdt 1 replica a { yield } schedule { a.apply(1@a) }", ["1:52: found `@`", "`2@q` is written `2, q`"]),
    ("jsoncrdt 1 replica a { yield } schedule { a.take(a, 1, a) }", ["1:45: found `take`", "begin with `jsoncrdt 2`"]),
    ("jsoncrdt 1 replica a { yield } given { a.send }", ["1:32: found `given`", "begin with `jsoncrdt 2`"]),
    ("jsoncrdt 1 replica a {} schedule {} replica b {}", ["1:37: found `replica`, expected the end of the text",
                                                          "replicas come first"]),
    # The beginning, and files that are none.
    ("jsoncrdt 3 replica a {}", ["1:10: found `3`", "there is no version 3", "`jsoncrdt 1` or `jsoncrdt 2`"]),
    ("replica a {}", ["1:1: found `replica`", "the first line, `jsoncrdt 1`, is missing"]),
    ("", ["1:1: found the end of the text", "begins with `jsoncrdt 1` or `jsoncrdt 2`"]),
    ("jsoncrdt 1 schedule {}", ["1:12: found `schedule`", "`replica p { yield }`"]),
    ("\ufeffjsoncrdt 1 replica a {}", ["1:1: found a byte order mark", "without a byte order mark"]),
    (b"\x7fELF\x02\x01\x01" + bytes(9) + b"\x90", ["1:17: found the byte 90", "save the file as UTF-8", "no text"]),
]

# Scenarios of which `run` says why an event is stuck: the scenario, and what the explanation must have.
EVENTS = [
    ("jsoncrdt 1 replica a {\n  x := 1\n}\nschedule { a.exec }",
     ["standard input:4:12: `a.exec` is stuck", "22 UnboundVariable", "`a` has no variable `x`",
      "standard input:2:3: this is the next command of `a`", "bind it in an earlier command"]),
    ("jsoncrdt 1 replica a { Doc := 1 } schedule { a.exec }", ["`a` has no variable `Doc`; is it `doc`?"]),
    ('jsoncrdt 1 replica a { doc := []; doc.insertAfter("x") } schedule { a.exec; a.exec }',
     ["1:77: `a.exec` is stuck", "`doc` is no place of a list", "write `.idx(0).insertAfter(..)`"]),
    ('jsoncrdt 1 replica a { doc.get("k") := 1; yield; doc.get("l").idx(1).delete } '
     'replica b { doc.get("l") := []; yield } schedule { a.exec; b.exec; b.send; a.recv(b); a.done; a.exec }',
     ['`a` has no list at the key "l"; 1@b makes it there, and isn\'t applied', "apply the operation that makes it"]),
    ('jsoncrdt 1 replica a { doc.get("l").idx(1).delete } schedule { a.exec }', ["`a` has no map at doc\n"]),
    ('jsoncrdt 1 replica a { doc := []; doc.idx(0).insertAfter("x"); doc.idx(2).delete } '
     "schedule { a.exec; a.exec; a.exec }", ["1:111: `a.exec` is stuck", "`doc` has 1 element at `a`"]),
    ('jsoncrdt 1 replica a { doc := []; doc.idx(0).get("k") := 1 } schedule { a.exec; a.exec }',
     ["1:81: `a.exec` is stuck", "`doc.idx(0)` is the head of a list", "elements count from 1"]),
    ('jsoncrdt 1 replica a { doc.get("a") := 1; let k = doc.keys; k.delete } schedule { a.exec; a.exec; a.exec }',
     ["1:61: this is the next command of `a`", "`k` gives names", "bind the place instead"]),
    ('jsoncrdt 1 replica a { doc.get("a") := 1; let k = doc.get("a").keys } schedule { a.exec; a.exec }',
     ['`a` has plain values at `doc.get("a")`', "27 NoMap"]),
    ('jsoncrdt 1 replica a { doc.get("m") := {}; let v = doc.get("m").values } schedule { a.exec; a.exec }',
     ['`a` has a map at `doc.get("m")`', "28 NoRegister"]),
    (f"jsoncrdt 1 replica a {{ let x = doc{DEEP}; let y = x{DEEP}; y.idx(0) := 1 }} "
     "schedule { a.exec; a.exec; a.exec }", ["29 TooDeep", "more than 512 maps and lists deep"]),
    ("jsoncrdt 1 replica a { yield } schedule { a.exec }",
     ["1:43: `a.exec` is stuck", "31 AtYield", "1:24: this is the next command of `a`", "`done` ends it"]),
    ("jsoncrdt 1 replica a { yield } schedule { a.done }", ["33 NotActed", "put one before `done`"]),
    ("jsoncrdt 1 replica a { doc := 1; yield } schedule { a.exec; a.send; a.recv(a); a.apply(1, a) }",
     ["`a` has applied 1@a as it made it", "leave this event out"]),
    ("jsoncrdt 1 replica a { yield } replica b { doc := 1 } schedule { b.exec; b.recv(a) }",
     ["1:74: `b.recv(a)` is stuck", "all commands of `b` have been executed", "end it with one `yield;`"]),
    ("jsoncrdt 1 replica a { doc := 1; yield } schedule { a.send }",
     ["the next command of `a` is `doc := 1`", "execute it first by `exec`"]),
    ("jsoncrdt 1 replica a { doc := 1; yield } replica b { yield } schedule { a.exec; a.send; b.apply(1, a) }",
     ["1:89: `b.apply(1, a)` is stuck", "`a` offers 1@a, and `b.recv(a)` is missing"]),
    ("jsoncrdt 1 replica a { doc := 1; yield } replica b { yield } schedule { a.exec; b.recv(a); b.apply(1, a) }",
     ["`a` has made 1@a, and `a.send` is missing"]),
    ("jsoncrdt 1 replica a { yield } replica b { yield } schedule { b.apply(3, a) }", ["`a` has made no 3@a yet"]),
    ('jsoncrdt 1 replica a { doc.get("x") := 1; doc.get("y") := 2; yield } replica b { yield } '
     "schedule { a.exec; a.exec; a.send; b.recv(a); b.apply(2, a) }",
     ["1:136: `b.apply(2, a)` is stuck", "`b` hasn't applied 1@a, on which 2@a depends", "apply these before"]),
    ("jsoncrdt 2 replica a { yield } given { a.send; a.exec } schedule { a.done }",
     ["1:48: `a.exec` is stuck", "31 AtYield", "44 GivenStuck", "the scenario has no start"]),
]

# Lines of a session on examples/stuck.jsoncrdt, and what is said of the last of them.
LINES = [
    (["next"], ["standard input:1:1: this line is refused", "is it `step`?"]),
    (["where", "step two"], ["standard input:2:1:", "the line is `step [N]`"]),
    (["s"], ["is it `step`, `state` or `schedule`?"]),
    (["break rule insert"], ["standard input:1:12:", "is it `INSERT1` or `INSERT2`?"]),
    (["state nobody"], ["standard input:1:7:", "the replicas are `p`, `q`"]),
    (["goto 12", "step 2"], ["standard input:2:1:", "51 AtEnd", "`goto N` with the number of events"]),
    (["break at 1"] * 257, ["standard input:257:1:", "54 TooManyBreaks", "`unbreak K` clears one"]),
    (["act"], ["standard input:1:4: found the end of the text, expected the name of a replica"]),
    (["back 100"], ["50 AtStart", "`goto 0` goes to the start"]),
    (["goto 99"], ["52 PastSchedule", "`where` shows how many"]),
    (["unbreak 1"], ["53 NoSuchBreak", "the answer to `break`"]),
    (["act p.exe"], ["standard input:1:7: found `exe`, expected `exec`,", "is it `exec`?"]),
    (["act r.exec"], ["standard input:1:5: found `r`", "the replicas are `p`, `q`"]),
    (["act p.send"], ["standard input:1:5: `p.send` is stuck", "the next command of `p` is `doc.get(\"l\") := []`"]),
    (["goto 13"], [f"{STUCK}:26:3: `q.exec` is stuck", "has 1 element at `q`", f"{STUCK}:11:3: this is the next"]),
]

# Words of a command line, the status, and what is said.
WORDS = [
    (["veiw", FIRST], 2, ["there is no command veiw; is it view?"]),
    ([FIRST], 2, ["a command is before the FILE, as in run FILE"]),
    (["run"], 2, ["run needs one FILE", "- is standard input"]),
    (["view", "--seed", "3", FIRST], 2, ["--seed is an option of weave"]),
    (["view", "--att", "3", FIRST], 2, ["is it --at?"]),
    (["--trace", "run", FIRST], 2, ["options are behind the command"]),
    (["run", "--explain", FIRST], 2, ["--explain is before the command"]),
    (["view", "--at", "x", FIRST], 2, ["x is no number from 0 to 100000"]),
    (["threads", FIRST], 2, ["of the proved program alone", "weave"]),
    (["run", "no-such-file"], 4, ["read failed: no-such-file: No such file"]),
    (["run", "examples"], 4, ["read failed: examples: Is a directory"]),
]


def told_case(name, words, text, status, wanted):
    """The rules in Python say this of a refusal."""

    def tried(_):
        given = text if isinstance(text, bytes) else text.encode()
        told = subprocess.run([IN_PYTHON, *words], input=given, capture_output=True, check=False)
        said, got = told.stderr.decode(), told.returncode
        lacking = [part for part in wanted if part not in said]
        expect(got == status and not lacking, f"status {got}, without {lacking}:\n{said}")

    return name, tried


def mistakes():
    for text, wanted in TEXTS:
        yield told_case(f"messages: check {text[:60]!r}", ["--explain", "check", "-"], text, 1, wanted)
    for text, wanted in EVENTS:
        yield told_case(f"messages: run {text[:60]!r}", ["--explain", "run", "-"], text, 3, wanted)
    for lines, wanted in LINES:
        typed = "".join(line + "\n" for line in lines)
        yield told_case(f"messages: debug, {lines[-1]}", ["--explain", "debug", STUCK], typed, 0, wanted)
    for words, status, wanted in WORDS:
        yield told_case(f"messages: {' '.join(words)}", words, "", status, wanted)


def each_number(_):
    """The rows meet each refusal that there is a sentence for, but for too many lines, which has a line of its own."""
    rows = [(["check", "-"], text) for text, _ in TEXTS] + [(["run", "-"], text) for text, _ in EVENTS]
    rows += [(["debug", STUCK], "".join(line + "\n" for line in lines)) for lines, _ in LINES]
    told = io.StringIO()
    for words, text in rows:
        given = io.BytesIO(text if isinstance(text, bytes) else text.encode())
        command_line(words, given, io.BytesIO(), told, explains=True, explains_lines=True)
    met = {int(number) for number in re.findall(r"^  (\d+) [A-Z]\w+: ", told.getvalue(), re.MULTILINE)}
    expect(met == set(SENTENCES) - {57}, f"no row meets {set(SENTENCES) - met}")


def is_quiet(_):
    """Without --explain and a terminal nothing more is said than that it is unproved."""
    for words in (["check", "-"], ["run", STUCK]):
        told = subprocess.run([IN_PYTHON, *words], input=b"", capture_output=True, check=False)
        expect(told.returncode in (1, 3) and told.stderr.decode().count("\n") == 1, f"{told}")


def same_output(_):
    """--explain changes nothing of standard output."""
    for words, typed in ((["run", STUCK], b""), (["journal", STUCK], b""), (["weave", STUCK], b""),
                         (["check", "-"], b"x"), (["debug", STUCK], b"next\nstep\n")):
        plain, more = (subprocess.run([IN_PYTHON, *option, *words], input=typed, capture_output=True, check=False)
                       for option in ([], ["--explain"]))
        expect(plain.stdout == more.stdout and plain.returncode == more.returncode, f"{more}")
        expect(len(more.stderr) > len(plain.stderr), f"{more}")


# ---- what could be there

LANGUAGE = b"""let doc yield get idx keys values insertAfter delete true false null replica given schedule exec send
    done recv apply take . ( ) { } [ ] , ; := =""".split()
# Tokens of each kind, and the kinds of which one has to be asked for where it fits.
SPELT = {b"zz": {NAME, REPLICA, VARIABLE}, b"1.5": {NUMBER}, b"7": {NUMBER, DIGITS}, b'"s"': {STRING}, b"": {END}}
ALL_FORMS = b"""jsoncrdt 2
replica p { let x = doc.get("a").idx(1); x := {}; doc.keys.values.insertAfter([]); x.delete; yield }
given { p.exec } schedule { p.recv(p); p.take(p, 1, p); p.apply(1, p); p.done }"""


def fits(text, offset, token):
    """Whether what is before the offset and the token begin a sentence, by reading them; without a token, are one."""
    fault = read(text[:offset] + b" " + token)[1]
    return not fault or fault[1] == 18 or bool(token) and fault[0] > offset + 1


def is_asked(word, asked):
    """Whether the word is one of what is said to fit: by itself, or as a name."""
    is_name = word.isalpha() and (REPLICA in asked or {NAME, VARIABLE} & asked and word not in RESERVED)
    return word in asked or bool(is_name)


def wrong_about(text, offset, number):
    """The tokens that fit at the offset and aren't said to, and those that are said to and don't fit."""
    asked = set(explained(text, offset, number).expected)
    words = [word for word in LANGUAGE if fits(text, offset, word) != is_asked(word, asked)]
    return words + [token for token, kinds in SPELT.items() if fits(text, offset, token) != bool(kinds & asked)]


def is_complete(_):
    """Where a token is left out of a text with all forms, or stands twice, what could be there is what fits there."""
    tried, places = 0, [token[2] for token in tokens(ALL_FORMS)]
    for first, end in zip(places, places[1:]):
        for text in (ALL_FORMS[:first] + ALL_FORMS[end:], ALL_FORMS[:end] + b" " + ALL_FORMS[first:]):
            offset, number = read(text)[1] or (0, 0)
            if number in (7, 8):
                wrong = wrong_about(text, offset, number)
                expect(not wrong, f"{text[:offset]} is wrong about {wrong}")
                tried += 1
    expect(tried > 150, f"only {tried} texts were tried")


# ---- the sentences


def sections():
    """The first paragraph that is no block of each section of docs/ERRORS.md with a number, by the number."""
    found = {}
    for part in re.split(r"^### ", stored(ERRORS), flags=re.MULTILINE)[1:]:
        heading, _, rest = part.partition("\n")
        paragraphs = [text for text in rest.split("\n\n") if text.strip() and not text.lstrip("\n").startswith("    ")]
        found[int(heading.split()[0])] = heading.split()[1], " ".join(paragraphs[0].split())
    return found


def are_documented(_):
    """Each section of docs/ERRORS.md begins with the sentence of its number, and each sentence has a section."""
    found = sections()
    expect(set(found) == set(SENTENCES), f"these have a sentence or a section alone: {set(found) ^ set(SENTENCES)}")
    for number, sentence in SENTENCES.items():
        name, paragraph = found[number]
        expect(paragraph.startswith(sentence), f"{number} begins {paragraph[:100]}")
        expect(REFUSALS.get(number, name) == name, f"{number} is {name}")


def messages():
    yield from mistakes()
    yield "messages: each refusal", each_number
    yield "messages: without --explain", is_quiet
    yield "messages: standard output with --explain", same_output
    yield "messages: what could be there", is_complete
    yield "messages: sentences of docs/ERRORS.md", are_documented
