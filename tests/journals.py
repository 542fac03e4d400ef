"""Effects in journals, and the tools that read journals: why, fate and replay."""

import glob
import json
import os
import re
import subprocess
import sys
import tempfile

from cases import IN_PYTHON, copy_into, expect, expect_same, run, stored

ROOT = os.path.dirname(os.path.dirname(os.path.abspath(__file__)))
sys.path.append(os.path.join(ROOT, "kit"))

from changes import Journal
from faults import fault_case
from fates import fates
from jsoncrdt.oracle.difference import with_effects
from jsoncrdt.oracle.grammar import read
from jsoncrdt.oracle.texts import Texts, string
from judging import by_rules
from replays import Log, replayed, text_of
from weaving import Maker, Writer, woven

RANDOM = range(40)

# ---- effects


def alone(commands):
    """A scenario of one replica that runs these commands."""
    return f"jsoncrdt 1 replica p {{{'; '.join(commands)}}} schedule {{{'p.exec; ' * len(commands)}}}"


DELETES = alone(['doc.get("x").get("y").delete', 'doc.get("x").get("y").delete', "doc := 5", "doc := {}", "doc := 6",
                 "doc.delete"])
TEN = alone([f'doc.get("m").get("{name}") := {n}' for n, name in enumerate("abcdefghij", 1)] + ['doc.get("m").delete'])
HEADS = alone(["doc := []", 'doc.idx(0) := "h"', 'doc.idx(0).insertAfter({})', 'doc.idx(1).get("a\\"\\u0001") := []'])
# Elements that are put between two, and behind greater ones.
BETWEEN = """jsoncrdt 1
replica p {
  doc.get("l") := []; let l = doc.get("l"); l.idx(0).insertAfter("a"); yield; l.idx(1).insertAfter("p1"); yield
}
replica q { yield; let l = doc.get("l"); l.idx(1).insertAfter("q1"); l.idx(1).insertAfter("q2"); yield }
schedule {
  p.exec; p.exec; p.exec; p.send; p.done; q.recv(p); q.apply(1, p); q.apply(2, p); q.done; p.exec; q.exec; q.exec;
  q.exec; q.send; p.recv(q); p.apply(3, q); p.apply(4, q); p.send; q.recv(p); q.apply(3, p)
}"""
CONFLICT = """jsoncrdt 2 replica p { doc := 1; yield; doc := 3 } replica q { doc := 2; yield }
given { q.exec; q.send; p.exec; p.send } schedule { p.recv(q); p.apply(1, q); p.done; p.exec }"""

# An example or a scenario, the number of an event (less than 0: of a given one), and its effects, worked out by hand.
WORKED = [
    # The value that both knew goes, that of the other replica stays.
    ("one-value", 7, '[{"gained":["2@p"],"key":"doc","map":[{"gained":["2@p"],"key":"\\"key\\"","taken":[["1@p","A"]],'
     '"written":[["2@p","B"]]}]}]'),
    ("one-value", 13, '[{"gained":["2@q"],"key":"doc","map":[{"gained":["2@q"],"key":"\\"key\\"",'
     '"written":[["2@q","C"]]}]}]'),
    # What the maker of {} didn't know, red, isn't among the places.
    ("emptied-map", 16, '[{"gained":["3@q"],"key":"doc","map":[{"gained":["3@q"],"key":"\\"colors\\"",'
     '"lost":["1@p","2@p"],"map":[{"key":"\\"blue\\"","lost":["2@p"],"shown":false,"taken":[["2@p","#0000ff"]]}]}]}]'),
    # An element that was deleted is there again; then what the delete knew goes, and the element stays.
    ("to-do", 19, '[{"gained":["5@q"],"key":"doc","map":[{"gained":["5@q"],"key":"\\"todo\\"","list":['
     '{"gained":["5@q"],"key":"2@p","map":[{"gained":["5@q"],"key":"\\"done\\"","shown":true,'
     '"written":[["5@q",true]]}],"shown":true}]}]}]'),
    ("to-do", 20, '[{"key":"doc","map":[{"key":"\\"todo\\"","list":[{"key":"2@p","lost":["2@p","3@p","4@p"],"map":['
     '{"key":"\\"done\\"","lost":["4@p"]},{"key":"\\"title\\"","lost":["3@p"],"shown":false,'
     '"taken":[["3@p","buy milk"]]}]}]}]}]'),
    # A new list: its head isn't told. The first element: the link of the head is.
    (BETWEEN, 1, '[{"gained":["1@p"],"key":"doc","made":["map"],"map":[{"gained":["1@p"],"key":"\\"l\\"",'
     '"made":["list"],"shown":true}],"shown":true}]'),
    (BETWEEN, 3, '[{"gained":["2@p"],"key":"doc","map":[{"gained":["2@p"],"key":"\\"l\\"","list":[{"key":"head",'
     '"next":["tail","2@p"]},{"gained":["2@p"],"key":"2@p","made":["register"],"next":[null,"tail"],"shown":true,'
     '"written":[["2@p","a"]]}]}]}]'),
    # Between two elements, and behind two that are greater.
    (BETWEEN, 13, '[{"gained":["4@q"],"key":"doc","map":[{"gained":["4@q"],"key":"\\"l\\"","list":[{"key":"2@p",'
     '"next":["3@q","4@q"]},{"gained":["4@q"],"key":"4@q","made":["register"],"next":[null,"3@q"],"shown":true,'
     '"written":[["4@q","q2"]]}]}]}]'),
    (BETWEEN, 20, '[{"gained":["3@p"],"key":"doc","map":[{"gained":["3@p"],"key":"\\"l\\"","list":[{"gained":["3@p"],'
     '"key":"3@p","made":["register"],"next":[null,"tail"],"shown":true,"written":[["3@p","p1"]]},{"key":"3@q",'
     '"next":["tail","3@p"]}]}]}]'),
    # Ten names, and ten identifiers by their counters.
    (TEN, 11, '[{"key":"doc","map":[{"key":"\\"m\\"",'
     '"lost":["1@p","2@p","3@p","4@p","5@p","6@p","7@p","8@p","9@p","10@p"],"map":['
     + ",".join(f'{{"key":"\\"{name}\\"","lost":["{n}@p"],"shown":false,"taken":[["{n}@p",{{"n":"{n}"}}]]}}'
                for n, name in enumerate("abcdefghij", 1)) + '],"shown":false}]}]'),
    # A delete of what never was makes the maps on its way; the same again finds nothing to change.
    (DELETES, 1, '[{"key":"doc","made":["map"],"map":[{"key":"\\"x\\"","made":["map"]}]}]'),
    (DELETES, 2, '[]'),
    (DELETES, 3, '[{"gained":["3@p"],"key":"doc","made":["register"],"shown":true,"written":[["3@p",{"n":"5"}]]}]'),
    # {} takes the value away, a value leaves the map.
    (DELETES, 4, '[{"gained":["4@p"],"key":"doc","lost":["3@p"],"taken":[["3@p",{"n":"5"}]]}]'),
    (DELETES, 5, '[{"gained":["5@p"],"key":"doc","written":[["5@p",{"n":"6"}]]}]'),
    (DELETES, 6, '[{"key":"doc","lost":["4@p","5@p"],"shown":false,"taken":[["5@p",{"n":"6"}]]}]'),
    # The head of a list, an element that is a map, a name with escapes.
    (HEADS, 2, '[{"gained":["2@p"],"key":"doc","list":[{"gained":["2@p"],"key":"head","made":["register"],"shown":true,'
     '"written":[["2@p","h"]]}]}]'),
    (HEADS, 3, '[{"gained":["3@p"],"key":"doc","list":[{"key":"head","next":["tail","3@p"]},{"gained":["3@p"],'
     '"key":"3@p","made":["map"],"next":[null,"tail"],"shown":true}]}]'),
    (HEADS, 4, '[{"gained":["4@p"],"key":"doc","list":[{"gained":["4@p"],"key":"3@p","map":[{"gained":["4@p"],"key":'
     '"\\"a\\\\\\"\\\\u0001\\"","made":["list"],"shown":true}]}]}]'),
    # A given event; two values that go at once.
    (CONFLICT, -3, '[{"gained":["1@p"],"key":"doc","made":["register"],"shown":true,"written":[["1@p",{"n":"1"}]]}]'),
    (CONFLICT, 2, '[{"gained":["1@q"],"key":"doc","written":[["1@q",{"n":"2"}]]}]'),
    (CONFLICT, 4, '[{"gained":["2@p"],"key":"doc","taken":[["1@p",{"n":"1"}],["1@q",{"n":"2"}]],'
     '"written":[["2@p",{"n":"3"}]]}]'),
]

# Wrong bodies: what is wrong, the file in oracle/, a text that stands there once, and what comes in its place.
WRONG = [
    ("leaves an identifier out", "effects.py", "identifiers(was - now)", "identifiers(sorted(was - now)[1:])"),
    ("leaves a value out", "effects.py", "pairs(others - values)", "pairs(sorted(others - values)[1:])"),
    ("tells a loss where there was none", "effects.py", "identifiers(was - now)", "identifiers(was)"),
    ("tells a value as taken that stays", "effects.py", "pairs(values - others)", "pairs(values)"),
    ("tells the event before's", "effects.py", "        return text\n",
     "        self.told, text = text, getattr(self, 'told', NOTHING)\n        return text\n"),
    ("tells a link at the new element alone", "effects.py", "return sorted([key, own])", "return [own]"),
    ("tells a link at the other element alone", "effects.py", "return sorted([key, own])", "return [key]"),
    ("tells a set that is empty as one that isn't missing", "effects.py", "if bool(was) != bool(now) else",
     "if (key in old.presences) != (key in new.presences) else"),
    ("looks at nothing below what is emptied", "effects.py", '("assign", ("map",)), ', ""),
    ("tells nothing where an operation is made", "journal.py", "if self.effects else",
     "if self.effects and replica.number != operation.identifier[1] else"),
]


class Keeper(Writer):
    """Writes scripts in which replicas keep elements in variables, delete elements, and go on by the variables."""

    def command(self):
        of, number = self.random.choice, self.random.choice([1, 1, 2, 3])
        element, kept = ("idx", ("get", ("doc",), b"a"), number), ("variable", of([b"x", b"y"]))
        return of([("let", kept[1], element), ("let", kept[1], element), ("delete", element), ("delete", kept),
                   ("insert", kept, self.value()), ("assign", ("get", kept, b"b"), self.value()),
                   ("assign", kept, self.value())])


def scenarios():
    return sorted([*glob.glob("examples/**/*.jsoncrdt", recursive=True), *glob.glob("kit/*/scenario.jsoncrdt")])


def text_at(example):
    """The text of a scenario, which is given itself or as the name of an example."""
    return example if example.startswith("jsoncrdt") else stored(f"examples/{example}.jsoncrdt")


def random_texts():
    """Random scenarios, of which some name elements by variables. Where scripts come to no end there is none."""
    found = [Maker(seed).scenario() for seed in RANDOM] + [woven(2 * seed, seed, Keeper) for seed in RANDOM]
    return [Texts(made.names).scenario(made).decode() for made in found if made]


def journal_of(text, *options):
    """The lines of a scenario's journal by the rules, as one text."""
    return by_rules(["journal", *options], text.encode())[0].decode()


def worked_case(example, number, effects):
    def tried(_):
        for line in journal_of(text_at(example), "--effects").split("\n")[:-1]:
            told = json.loads(line)
            if told["number"] == abs(number) and ("given" in told) == (number < 0):
                expect(f'"effects":{effects},"event":' in line, f"{line}\nhasn't the effects\n{effects}")
                expect(list(told) == sorted(told), f"members in the order {list(told)}")
                return
        expect(False, f"there is no event {number}")

    return f"journals: effects of event {number} of {' '.join(example.split())[:60]}", tried


def is_difference(_):
    """Effects are the difference of dumped trees, of examples, of the kit, and of random scenarios."""
    count = 0
    for text in [*map(stored, scenarios()), *random_texts()]:
        told = journal_of(text, "--effects")
        expect_same(told, with_effects(journal_of(text), read(text.encode())[0]).decode())
        count += told.count('"effects":')
    expect(count > 2000, f"{count} effects are few")


def is_beside_rules(_):
    """Lines with effects and rules are those with rules, and the effects besides; without `op` there are none."""
    for path in scenarios()[:40]:
        both = [json.loads(line) for line in journal_of(stored(path), "--trace", "--effects").split("\n")[:-1]]
        expect(all(("effects" in line) == ("op" in line) for line in both), f"{path}: effects without an operation")
        plain = [{name: content for name, content in line.items() if name != "effects"} for line in both]
        expect(plain == [json.loads(line) for line in journal_of(stored(path), "--trace").split("\n")[:-1]], path)


def wrong_case(what, file, right, wrong):
    """A wrong body in the rules is seen by oracle/compare --effects."""

    def tried(_):
        text = stored(os.path.join("oracle", file))
        expect(text.count(right) == 1, f"{right} stands in oracle/{file} {text.count(right)} times")
        with tempfile.TemporaryDirectory() as folder:
            copy_into(folder, "python", "oracle")
            copied = os.path.join(folder, "oracle")
            with open(os.path.join(copied, file), "w", encoding="utf-8") as changed:
                changed.write(text.replace(right, wrong))
            told = run([os.path.join(copied, "compare"), "--effects", "20"], IN_PYTHON)
        expect(told.returncode == 1 and b"but by the rules" in told.stdout, f"{told}")

    return f"journals: a body that {what} is seen", tried


# ---- why and fate

# Ann corrects a text, ben deletes the item, cat marks it as done: the item stays, without its text.
LOST = """jsoncrdt 2
replica ann {
  doc.get("items") := [];
  doc.get("items").idx(0).insertAfter({});
  doc.get("items").idx(1).get("text") := "milk";
  yield;
  doc.get("items").idx(1).get("text") := "oat milk";
  yield;
}
replica ben { yield; doc.get("items").idx(1).delete; yield; }
replica cat { yield; doc.get("items").idx(1).get("done") := true; yield; }
given { ann.exec; ann.exec; ann.exec; ann.send; ann.done; }
schedule {
  ann.exec; ann.send; cat.recv(ann); cat.apply(1, ann); cat.apply(2, ann); cat.apply(3, ann); cat.apply(4, ann);
  cat.done; cat.exec; cat.send; ben.recv(ann); ben.apply(1, ann); ben.apply(2, ann); ben.apply(3, ann);
  ben.apply(4, ann); ben.done; ben.exec; ben.send; cat.recv(ben); cat.apply(5, ben); ann.recv(cat); ann.apply(5, cat);
  ann.recv(ben);
}
"""
TEXT, MARK = 'doc.get("items").idx(1).get("text")', 'doc.get("items").idx(1).get("done")'
# An example or a scenario, the words of tools/why behind it, and what that tells.
WHYS = [
    (LOST, [TEXT, "--replica", "cat"], """\
cat: doc/"items"/2@ann/"text"
  event 20 cat.apply(5, ben), 5@ben, which event 17 ben.exec made: doc.get("items").idx(1).delete
    doc/"items"/2@ann/"text" loses 4@ann "oat milk", vanishes
  event 7 cat.apply(4, ann), 4@ann, which event 1 ann.exec made: doc.get("items").idx(1).get("text") := "oat milk"
    doc/"items"/2@ann/"text" loses 3@ann "milk", gets 4@ann "oat milk"
  event 6 cat.apply(3, ann), 3@ann, which given event 3 ann.exec made: doc.get("items").idx(1).get("text") := "milk"
    doc/"items"/2@ann/"text" gets 3@ann "milk", appears
"""),
    # At ben no first item is left at the end; this is the one that was there at event 16.
    (LOST, [TEXT, "--replica", "ben", "--at", "16", "--json"], r"""
{"by":{"command":"doc.get(\"items\").idx(1).delete","event":"ben.exec","id":"5@ben","number":17,"replica":"ben"},
"effect":{"key":"\"text\"","lost":["3@ann","4@ann"],"shown":false,"taken":[["4@ann","oat milk"]]},"event":"ben.exec",
"number":17,"place":"doc/\"items\"/2@ann/\"text\"","replica":"ben"}

{"by":{"command":"doc.get(\"items\").idx(1).get(\"text\") := \"oat milk\"","event":"ann.exec","id":"4@ann","number":1,
"replica":"ann"},"effect":{"gained":["4@ann"],"key":"\"text\"","taken":[["3@ann","milk"]],
"written":[["4@ann","oat milk"]]},"event":"ben.apply(4, ann)","number":15,
"place":"doc/\"items\"/2@ann/\"text\"","replica":"ben"}

{"by":{"command":"doc.get(\"items\").idx(1).get(\"text\") := \"milk\"","event":"ann.exec","given":true,"id":"3@ann",
"number":3,"replica":"ann"},"effect":{"gained":["3@ann"],"key":"\"text\"","made":["register"],"shown":true,
"written":[["3@ann","milk"]]},"event":"ben.apply(3, ann)","number":14,"place":"doc/\"items\"/2@ann/\"text\"",
"replica":"ben"}
"""),
    # Each replica for itself.
    (LOST, [MARK], """\
ann: doc/"items"/2@ann/"done"
  event 22 ann.apply(5, cat), 5@cat, which event 9 cat.exec made: doc.get("items").idx(1).get("done") := true
    doc/"items"/2@ann/"done" gets 5@cat true, appears
ben: doc.get("items").idx(1).get("done") is no place at ben: 26 PastEnd
cat: doc/"items"/2@ann/"done"
  event 9 cat.exec, 5@cat: doc.get("items").idx(1).get("done") := true
    doc/"items"/2@ann/"done" gets 5@cat true, appears
"""),
    (LOST, ['doc/"items"/2@ann/"done"'], """\
ann: doc/"items"/2@ann/"done"
  event 22 ann.apply(5, cat), 5@cat, which event 9 cat.exec made: doc.get("items").idx(1).get("done") := true
    doc/"items"/2@ann/"done" gets 5@cat true, appears
ben: doc/"items"/2@ann/"done"
  no event changed it
cat: doc/"items"/2@ann/"done"
  event 9 cat.exec, 5@cat: doc.get("items").idx(1).get("done") := true
    doc/"items"/2@ann/"done" gets 5@cat true, appears
"""),
    # A list with its links; a name may be spelt in any way of JSON.
    (BETWEEN, [r'doc/"\u006c"', "--replica", "q"], """\
q: doc/"l"
  event 20 q.apply(3, p), 3@p, which event 10 p.exec made: l.idx(1).insertAfter("p1")
    doc/"l"/3@p gets 3@p "p1", is put last, appears
    doc/"l"/3@q is followed by 3@p now
  event 13 q.exec, 4@q: l.idx(1).insertAfter("q2")
    doc/"l"/2@p is followed by 4@q now
    doc/"l"/4@q gets 4@q "q2", is put in front of 3@q, appears
  event 12 q.exec, 3@q: l.idx(1).insertAfter("q1")
    doc/"l"/2@p is followed by 3@q now
    doc/"l"/3@q gets 3@q "q1", is put last, appears
  event 8 q.apply(2, p), 2@p, which event 3 p.exec made: l.idx(0).insertAfter("a")
    doc/"l"/head is followed by 2@p now
    doc/"l"/2@p gets 2@p "a", is put last, appears
  event 7 q.apply(1, p), 1@p, which event 1 p.exec made: doc.get("l") := []
    doc/"l" is made a list, appears
"""),
    # What is lost without a value, and nothing comes for it.
    ("to-do", ['doc/"todo"/2@p', "--replica", "q"], """\
q: doc/"todo"/2@p
  event 20 q.apply(5, p), 5@p, which event 13 p.exec made: doc.get("todo").idx(1).delete
    doc/"todo"/2@p is no longer kept by 2@p 3@p 4@p
    doc/"todo"/2@p/"done" is no longer kept by 4@p
    doc/"todo"/2@p/"title" loses 3@p "buy milk", vanishes
  event 14 q.exec, 5@q: doc.get("todo").idx(1).get("done") := true
    doc/"todo"/2@p/"done" loses 4@p false, gets 5@q true
  event 11 q.apply(4, p), 4@p, which event 4 p.exec made: doc.get("todo").idx(1).get("done") := false
    doc/"todo"/2@p/"done" gets 4@p false, appears
  event 10 q.apply(3, p), 3@p, which event 3 p.exec made: doc.get("todo").idx(1).get("title") := "buy milk"
    doc/"todo"/2@p/"title" gets 3@p "buy milk", appears
  event 9 q.apply(2, p), 2@p, which event 2 p.exec made: doc.get("todo").idx(0).insertAfter({})
    doc/"todo"/2@p is made a map, is put last, appears
"""),
    # What has a word of its own isn't said twice: a value that is gone, and the operation that kept the place for it.
    (DELETES, ["doc"], """\
p: doc
  event 6 p.exec, 6@p: doc.delete
    doc loses 5@p 6, vanishes
  event 5 p.exec, 5@p: doc := 6
    doc gets 5@p 6
  event 4 p.exec, 4@p: doc := {}
    doc loses 3@p 5
  event 3 p.exec, 3@p: doc := 5
    doc gets 3@p 5, appears
  event 1 p.exec, 1@p: doc.get("x").get("y").delete
    doc is made a map
    doc/"x" is made a map
"""),
    # An empty map over one that was emptied; then one over another that its maker didn't know.
    (alone(['doc.get("m") := {}', 'doc.get("m").get("x") := 1', 'doc.get("m").get("x").delete', 'doc.get("m") := {}']),
     ['doc.get("m")'], """\
p: doc/"m"
  event 4 p.exec, 4@p: doc.get("m") := {}
    doc/"m" is kept by 4@p, and no longer by 1@p 2@p
  event 3 p.exec, 3@p: doc.get("m").get("x").delete
    doc/"m"/"x" loses 2@p 1, vanishes
  event 2 p.exec, 2@p: doc.get("m").get("x") := 1
    doc/"m"/"x" gets 2@p 1, appears
  event 1 p.exec, 1@p: doc.get("m") := {}
    doc/"m" is made a map, appears
"""),
    ("jsoncrdt 1 replica p {doc := {}; yield} replica q {doc := {}; yield} "
     "schedule {p.exec; q.exec; q.send; p.recv(q); p.apply(1, q)}", ["doc", "--replica", "p"], """\
p: doc
  event 5 p.apply(1, q), 1@q, which event 2 q.exec made: doc := {}
    doc is kept by 1@q, too
  event 1 p.exec, 1@p: doc := {}
    doc is made a map, appears
"""),
    ("emptied-map", ['doc/"colors"', "--replica", "q"], """\
q: doc/"colors"
  event 18 q.apply(3, p), 3@p, which event 9 p.exec made: doc.get("colors").get("red") := "#ff0000"
    doc/"colors"/"red" gets 3@p "#ff0000", appears
  event 11 q.exec, 4@q: doc.get("colors").get("green") := "#00ff00"
    doc/"colors"/"green" gets 4@q "#00ff00", appears
  event 10 q.exec, 3@q: doc.get("colors") := {}
    doc/"colors" is kept by 3@q, and no longer by 1@p 2@p
    doc/"colors"/"blue" loses 2@p "#0000ff", vanishes
  event 7 q.apply(2, p), 2@p, which event 2 p.exec made: doc.get("colors").get("blue") := "#0000ff"
    doc/"colors"/"blue" gets 2@p "#0000ff", appears
  event 6 q.apply(1, p), 1@p, which event 1 p.exec made: doc.get("colors") := {}
    doc/"colors" is made a map, appears
"""),
]
# An example or a scenario, the words of tools/fate behind it, its status, and what it tells.
FATES = [
    ("one-value", ["1@p"], 0, """\
1@p, event 1 p.exec: doc.get("key") := "A"
  p: overwritten by 2@p (doc.get("key") := "B") at event 7 p.exec
  q: overwritten by 2@q (doc.get("key") := "C") at event 8 q.exec
"""),
    ("one-value", ["2@q"], 0, """\
2@q, event 8 q.exec: doc.get("key") := "C"
  p: visible, in conflict with 2@p
  q: visible, in conflict with 2@p
"""),
    # A delete, an element that stays for an edit in it, a value that was overwritten here and deleted there.
    ("to-do", [], 0, """\
1@p, event 1 p.exec: doc.get("todo") := []
  p: visible
  q: visible
2@p, event 2 p.exec: doc.get("todo").idx(0).insertAfter({})
  p: deleted by 5@p (doc.get("todo").idx(1).delete) at event 13 p.exec; its place is kept for 5@q
  q: deleted by 5@p (doc.get("todo").idx(1).delete) at event 20 q.apply(5, p); its place is kept for 5@q
3@p, event 3 p.exec: doc.get("todo").idx(1).get("title") := "buy milk"
  p: deleted by 5@p (doc.get("todo").idx(1).delete) at event 13 p.exec
  q: deleted by 5@p (doc.get("todo").idx(1).delete) at event 20 q.apply(5, p)
4@p, event 4 p.exec: doc.get("todo").idx(1).get("done") := false
  p: deleted by 5@p (doc.get("todo").idx(1).delete) at event 13 p.exec; its place is kept for 5@q
  q: overwritten by 5@q (doc.get("todo").idx(1).get("done") := true) at event 14 q.exec
5@p, event 13 p.exec: doc.get("todo").idx(1).delete
  p: applied, took away 2@p 3@p 4@p
  q: applied, took away 2@p 3@p 4@p
5@q, event 14 q.exec: doc.get("todo").idx(1).get("done") := true
  p: visible
  q: visible
"""),
    # A map and a list at one key: what conflicts is the other part, with all that is for it.
    ("two-types", ["1@p"], 0, """\
1@p, event 1 p.exec: doc.get("a") := {}
  p: visible, in conflict with 1@q 2@q
  q: visible, in conflict with 1@q 2@q
"""),
    # What is received and waits; the status is that of the stuck event.
    ("out-of-order", ["2@q"], 3, """\
2@q, event 9 q.exec: doc.get("title") := "final"
  p: not received
  q: visible
  r: received, waits for 1@p
"""),
    (LOST, ["5@ben"], 0, """\
5@ben, event 17 ben.exec: doc.get("items").idx(1).delete
  ann: received, can be applied
  ben: applied, took away 2@ann 3@ann 4@ann
  cat: applied, took away 2@ann 3@ann 4@ann
"""),
    (LOST, ["3@ann", "--json"], 0, r"""
{"command":"doc.get(\"items\").idx(1).get(\"text\") := \"milk\"","event":"ann.exec","fates":[
{"by":"4@ann","event":"ann.exec","fate":"overwritten","number":1,"replica":"ann"},
{"by":"4@ann","event":"ben.apply(4, ann)","fate":"overwritten","number":15,"replica":"ben"},
{"by":"4@ann","event":"cat.apply(4, ann)","fate":"overwritten","number":7,"replica":"cat"}],
"given":true,"id":"3@ann","number":3,"place":"doc/\"items\"/2@ann/\"text\"","replica":"ann"}
"""),
    (DELETES, [], 0, """\
1@p, event 1 p.exec: doc.get("x").get("y").delete
  p: applied, there was nothing to take away
2@p, event 2 p.exec: doc.get("x").get("y").delete
  p: applied, there was nothing to take away
3@p, event 3 p.exec: doc := 5
  p: overwritten by 4@p (doc := {}) at event 4 p.exec
4@p, event 4 p.exec: doc := {}
  p: deleted by 6@p (doc.delete) at event 6 p.exec
5@p, event 5 p.exec: doc := 6
  p: deleted by 6@p (doc.delete) at event 6 p.exec
6@p, event 6 p.exec: doc.delete
  p: applied, took away 4@p 5@p
"""),
    (HEADS, ["2@p"], 0, """\
2@p, event 2 p.exec: doc.idx(0) := "h"
  p: kept, and no document shows it
"""),
]


def lines_of(text):
    """A text that a tool tells, as it is written here. Where an empty line is first it has lines of JSON, each broken
    into some, with an empty line between two."""
    if text[0] != "\n":
        return text
    return "".join(line.replace("\n", "") + "\n" for line in text.strip("\n").split("\n\n"))


def tool_case(tool, example, words, status, told):
    """A tool that reads a scenario on standard input tells this."""

    def tried(_):
        ended = run([tool, "-", *words], IN_PYTHON, text_at(example))
        expect_same(ended.stdout.decode(), lines_of(told))
        expect(ended.returncode == status, f"status {ended.returncode}: {ended.stderr.decode()}")

    return f"journals: {tool} {' '.join(example.split())[:30]} {' '.join(words)}", tried


def answers_at_once(_):
    """The event that took a text is told within a second of processor time, all processes of the tool together."""
    with tempfile.NamedTemporaryFile("w", encoding="utf-8") as file:
        file.write(LOST)
        file.flush()
        words, nowhere = ["tools/why", file.name, TEXT], subprocess.DEVNULL
        with subprocess.Popen(words, stdout=nowhere, stderr=nowhere) as process:
            _, status, usage = os.wait4(process.pid, 0)
            process.returncode = os.waitstatus_to_exitcode(status)
    seconds = usage.ru_utime + usage.ru_stime
    expect(status == 0 and seconds < 1, f"status {status}, {seconds} seconds")


def parts_of(content):
    """What is at a place of a document, as `view` writes it: its values, its map and its list."""
    if isinstance(content, dict):
        return content.get("!conflict", {"map": content})
    return {"list": content} if isinstance(content, list) else {"values": content}


def elements(context):
    """The elements of a dumped list that have a presence set with something in it."""
    key = context["next(head)"]
    while key != "tail":
        if context.get(f"pres({key})"):
            yield key
        key = context[f"next({key})"]


def shown(content, context, place):
    """What a document shows at a place and below it: each thing with its place, a value by its identifier, which the
    context of the dump has, a map or a list by this word."""
    key, parts = place[-1], parts_of(content)
    if "values" in parts:
        yield from ((place, identifier) for identifier in context[f"regT({key})"])
    if "map" in parts:
        yield place, "map"
        for name, inside in parts["map"].items():
            name = string(name.removeprefix("!").encode()).decode()
            yield from shown(inside, context[f"mapT({key})"], (*place, name))
    if "list" in parts:
        yield place, "list"
        below = context[f"listT({key})"]
        for element, inside in zip(elements(below), parts["list"], strict=True):
            yield from shown(inside, below, (*place, element))


def visible(journal, name):
    """What fates tell to be visible at a replica, in the same form."""
    for identifier, place, found in fates(journal):
        if found[name]["fate"] == "visible":
            value = journal.made[identifier]["op"]["value"]
            yield place, "map" if value == {} else "list" if value == [] else identifier


def is_view(_):
    """What a fate tells to be visible is what `view` shows: each value, and of maps and lists those that are there."""
    count = 0
    for text in [*map(stored, scenarios()), *random_texts()]:
        told = [by_rules([command], text.encode())[0].decode().split("\n") for command in ("view", "run")]
        views, dumps = ([json.loads(line) for line in lines if line[:1] == "{"] for lines in told)
        for view, dump in zip(views, dumps, strict=True):
            got = {*visible(Journal(text), view["name"])}
            want = {*shown(view["doc"], dump["tree"], ("doc",))} if "doc" in view else set()
            values = {each for each in want if each[1] not in ("map", "list")}
            expect(values <= got <= want, f"{text}\n{view['name']}: {sorted(got ^ want)}")
            count += len(got)
    expect(count > 1000, f"{count} visible things are few")


# ---- replay

# A log of an engine that has identifiers of its own. An element is named by b where it is deleted already.
FOREIGN = r"""
{"kind":"exec","replica":"a","op":{"id":"list 1","cursor":["mapT(doc)","\"l\""],"mutation":"assign","value":[]}}
{"kind":"note","replica":"a","text":"left aside"}
{"kind":"exec","replica":"a","op":{"id":"x","cursor":["mapT(doc)","listT(\"l\")","head"],"mutation":"insert","value":"x"}}
{"kind":"apply","replica":"b","op":{"id":"list 1"}}
{"kind":"apply","replica":"b","op":{"id":"x"}}

{"kind":"exec","replica":"b","op":{"id":"gone","cursor":["mapT(doc)","listT(\"l\")","x"],"mutation":"delete"}}
{"kind":"exec","replica":"b","op":{"id":"y","cursor":["mapT(doc)","listT(\"l\")","x"],"mutation":"insert","value":1.50}}
{"kind":"exec","replica":"b","op":{"id":"z","cursor":["mapT(doc)","listT(\"l\")","y"],"mutation":"assign","value":null}}
"""
REPLAYED = """\
jsoncrdt 2
replica a {
  doc.get("l") := [];
  doc.get("l").idx(0).insertAfter("x");
  yield;
}
replica b {
  yield;
  let v1 = doc.get("l").idx(1);
  doc.get("l").idx(1).delete;
  v1.insertAfter(1.50);
  doc.get("l").idx(1) := null;
}
given {
}
schedule {
  a.exec;
  a.exec;
  a.send;
  b.take(a, 1, a);
  b.apply(1, a);
  b.take(a, 2, a);
  b.apply(2, a);
  b.done;
  b.exec;
  b.exec;
  b.exec;
  b.exec;
  a.done;
}
"""
IDENTIFIERS = {"list 1": "1@a", "x": "2@a", "gone": "3@b", "y": "4@b", "z": "5@b"}


def line(replica, identifier, cursor, **more):
    """A line of a journal in which a replica makes an operation."""
    operation = {"id": identifier, "cursor": cursor, "mutation": "assign", "value": "v", **more}
    return json.dumps({"kind": "exec", "replica": replica, "op": operation})


def applied(replica, identifier):
    return json.dumps({"kind": "apply", "replica": replica, "op": {"id": identifier}})


ELEMENT, HEAD = ["listT(doc)", "2@a"], ["listT(doc)", "head"]
# Lines of a journal, the status of tools/replay, and a part of what it says.
NOT_REPLAYED = [
    (["[]"], 1, "- is no journal: line 1 isn't one of a journal: "),
    (["{"], 1, "- is no journal: line 1 isn't one of a journal: "),
    ([""], 1, "- is no journal: it has 0 replicas"),
    ([line("let", "1@a", ["doc"])], 1, "a replica can't be called let"),
    ([line("a-b", "1@a", ["doc"])], 1, "a replica can't be called a-b"),
    ([line("a", "1@a", ["head"])], 1, "line 1 isn't one of a journal: "),
    ([line("a", "1@a", ["mapT(doc)", "2@a"])], 1, "line 1 isn't one of a journal: "),
    ([line("a", "1@a", ["doc"], mutation="move")], 1, "line 1 isn't one of a journal: "),
    ([line("a", "1@a", ["doc"], value={"n": "01"})], 1, "line 1 isn't one of a journal: "),
    ([line("a", "1@a", ["doc"], value=[1])], 1, "line 1 isn't one of a journal: "),
    ([line("a", "1@a", ["doc"], value="v" * 65_536)], 1, "there is no scenario so large: 6 TextTooLong"),
    ([line("a", "1@a", ["doc"]), line("a", "1@a", ["doc"])], 3, "before line 2: 1@a is made already"),
    ([line("a", "1@a", ["doc"]), applied("b", "2@a")], 3, "before line 2: 2@a isn't made before"),
    ([line("a", "1@a", ["doc"]), applied("b", "1@a"), applied("b", "1@a")], 3, "before line 3: 35 AlreadyApplied"),
    ([line("a", "1@a", ["doc"]), applied("a", "1@a")], 3, "before line 2: 35 AlreadyApplied"),
    ([line("a", "1@a", ["doc"]), line("a", "2@a", ["doc"]), applied("b", "2@a")], 3, "before line 3: 36 DepsMissing"),
    ([line("a", "1@a", ["doc"], deps={"b": 1})], 3, "before line 1: 1@a depends on {'b': 1}, and a applied {}"),
    ([line("a", "1@a", ["doc"], mutation="insert")], 3, "before line 1: 20 NotInList"),
    ([line("a", "1@a", ELEMENT)], 3, "before line 1: there is no element 2@a"),
    ([line("a", "1@a", HEAD)], 3, "before line 1: 25 NoSuchNode"),
    ([line("a", "1@a", ["doc"], value=[]), line("a", "2@a", ["doc"]), line("a", "3@a", ELEMENT)], 3,
     "before line 3: 26 PastEnd"),
    (['{"kind":"exec","replica":"a","stuck":30}'], 3, "the scenario ends before line 1, which is stuck"),
]


def operations(journal):
    """What a journal says of operations: which replica makes or applies which, and what is given."""
    lines = [json.loads(line) for line in journal.split("\n")[:-1]]
    return [(line["replica"], line["kind"], line.get("given"), line["op"]) for line in lines if "op" in line]


def is_replayed(_):
    """The scenario of a journal has a journal with the same operations; so it is with identifiers of another engine."""
    count = bound = 0
    for text in [*map(stored, scenarios()), *random_texts()]:
        journal = journal_of(text)
        if not operations(journal):
            continue
        replay, why = replayed(Log(journal))
        expect(not why, f"{text}\n{why}")
        made, _ = text_of(replay)
        expect(operations(journal_of(made)) == operations(journal), f"{text}\nbecomes\n{made}")
        foreign = re.sub(r"\b(\d+)@(\w+)", r"the \1. of \2", re.sub(r'"deps":{.*?},', "", journal))
        expect_same(text_of(replayed(Log(foreign))[0])[0], made)
        count, bound = count + len(operations(journal)), bound + bool(replay.bound)
    expect(count > 2000 and bound > 10, f"{count} operations are few, or {bound} journals with elements that are bound")


def is_foreign(_):
    with tempfile.TemporaryDirectory() as folder:
        path = os.path.join(folder, "ids")
        told = run(["tools/replay", "-", "--ids", path], IN_PYTHON, FOREIGN)
        expect_same(told.stdout.decode(), REPLAYED)
        expect(told.returncode == 0 and not told.stderr, f"{told}")
        expect(json.loads(stored(path)) == IDENTIFIERS, stored(path))


def not_replayed_case(lines, status, told):
    def tried(_):
        ended = run(["tools/replay", "-"], IN_PYTHON, "\n".join(lines) + "\n")
        expect(ended.returncode == status and told in ended.stderr.decode(), f"{ended}")
        expect(ended.stderr.count(b"\n") == 1, f"{ended}")
        expect(bool(ended.stdout) == (status == 3), f"{ended}")

    return f"journals: tools/replay, {told}", tried


# ---- the kit, and faults

EFFECTS = "oracle/jsoncrdt journal --effects - 2>/dev/null"
# A scenario of the kit, a line of a shell that takes the place of an adapter, and what kit/check --effects says of it.
JUDGED = [
    ("both-append", EFFECTS, ""),
    ("both-append", EFFECTS + """ | sed 's/"command".*"effects"/"effects"/; s/^{"event".*//'""", ""),
    ("both-append", EFFECTS + """ | sed 's/"shown":true,//'""",
     "the effects of event 2 ann.exec differ at /0/map/0/list/1/shown\n"),
    ("both-append", EFFECTS + """ | sed 's/,{"key":"3@ben","next":[^}]*}//'""",
     "the effects of event 16 ben.apply(3, ann) differ at /0/map/0/list/1\n"),
    ("answer-before-question", EFFECTS + " | sed 's/written/taken/'", "the effects of given event "),
    ("both-append", EFFECTS + " | tail -1", "8 events have effects, and it wrote 0 lines with some\n"),
    ("both-append", "echo '['", "a line isn't JSON: "),
    ("both-append", EFFECTS + "; exit 3", "it ended with status 3\n"),
    ("refused-26-past-end", EFFECTS, ""),
    ("refused-26-past-end", EFFECTS + "; true", ""),
    ("refused-44-given", EFFECTS, ""),
]
FIRST = "examples/first.jsoncrdt"
GIVEN_STUCK = "echo 'jsoncrdt 2 replica a {doc := 1} given {a.exec; a.exec}' | "
ROWS = [
    ("tools/why " + FIRST, 2, "why: the following arguments are required: PLACE"),
    ("tools/why no-such-file doc", 4, "why: read failed: no-such-file: "),
    ("tools/why test doc", 1, "why: refused "),
    ("tools/why " + FIRST + " doc --replica z", 2, "why: no replica z; there are a"),
    ("tools/why " + FIRST + " doc --at 2", 2, "why: the schedule has 1 events"),
    ("tools/why " + FIRST + " doc --at x", 2, "why: argument --at: "),
    ("tools/why " + FIRST + " 'doc/'", 2, "why: doc/ is neither a place nor an expression: 1 BadByte at 3"),
    ("tools/why " + FIRST + " 'doc.get(1)'", 2,
     "why: doc.get(1) is neither a place nor an expression: 7 Unexpected at 8"),
    ("tools/why " + FIRST + " 'doc.keys'", 2, "why: doc.keys is no place at a: 24 NotACursor"),
    ("tools/why " + FIRST + " 'x.get(\"a\")'", 2, "why: x.get(\"a\") is no place at a: 22 UnboundVariable"),
    ("tools/why " + FIRST + " 'doc.idx(1)'", 2, "why: doc.idx(1) is no place at a: 25 NoSuchNode listT(doc)"),
    ("tools/why " + FIRST + r""" 'doc/"\x"'""", 2, "why: doc/\"\\x\" has a name that is no string of JSON"),
    ("tools/why " + FIRST + r""" 'doc/"\ud800"'""", 2, "why: doc/\"\\ud800\" has a name that is no string of JSON"),
    ("tools/why " + FIRST + " \"$(printf 'doc\\377')\"", 2, "why: 'doc\\udcff' isn't UTF-8"),
    ("tools/why " + FIRST + " 'doc/\"b\"'", 2, "why: no event changed doc/\"b\""),
    ("tools/why examples/stuck.jsoncrdt doc >/dev/null", 3, "why: event 13 q.exec is stuck: 26 PastEnd"),
    (GIVEN_STUCK + "tools/why - doc >/dev/null", 3, "why: given event 2 a.exec is stuck: 30 NoCommand"),
    (GIVEN_STUCK + "tools/why - 'doc/\"a\"'", 3,
     "why: no event changed doc/\"a\"; given event 2 a.exec is stuck: 30 NoCommand"),
    ("tools/fate", 2, "fate: the following arguments are required: FILE"),
    ("tools/fate no-such-file", 4, "fate: read failed: no-such-file: "),
    ("tools/fate test", 1, "fate: refused "),
    ("tools/fate " + FIRST + " 2@a", 2, "fate: no operation 2@a was made"),
    ("tools/fate examples/stuck.jsoncrdt >/dev/null", 3, "fate: event 13 q.exec is stuck: 26 PastEnd"),
    (GIVEN_STUCK + "tools/fate - 2@a", 3,
     "fate: no operation 2@a was made; given event 2 a.exec is stuck: 30 NoCommand"),
    ("tools/replay", 2, "replay: the following arguments are required: JOURNAL"),
    ("tools/replay no-such-file", 4, "replay: read failed: no-such-file: "),
    ("oracle/jsoncrdt journal " + FIRST + " 2>/dev/null | tools/replay - --ids /no/such/file >/dev/null", 4,
     "replay: write failed: /no/such/file: "),
    ("oracle/compare --effects --program /bin/true 1", 2,
     "compare: argument --program: not allowed with argument --effects"),
    ("kit/check --effects --dumps true", 2, "check: argument --dumps: not allowed with argument --effects"),
    ("kit/check --ops --dumps true", 2, "check: argument --ops: not allowed with argument --dumps"),
]
WRITING = [
    ("tools/why " + FIRST + " doc", "why: write failed: "),
    ("tools/fate " + FIRST, "fate: write failed: "),
    ("oracle/jsoncrdt journal " + FIRST + " 2>/dev/null | tools/replay -", "replay: write failed: "),
]


def judged_case(name, adapter, told):
    def tried(programs):
        ended = run(["kit/check", "--effects", "--only", name, "sh", "-c", adapter], programs.program)
        output = ended.stdout.decode()
        expect(ended.returncode == bool(told) and told in output, f"{ended.returncode}\n{output}")
        expect(output.endswith("0 passed, 1 failed\n" if told else "1 passed, 0 failed\n"), output)

    return f"journals: kit/check --effects, {adapter[len(EFFECTS):]} for {name}", tried


def passes_kit(programs):
    """The rules in Python write the effects of the rules, for the whole kit."""
    told = run(["kit/check", "--effects", "oracle/jsoncrdt", "journal", "--effects", "-"], programs.program)
    expect(re.fullmatch(r"\d{3} passed, 0 failed\n", told.stdout.decode()), f"{told}")


def journals():
    for row in WORKED:
        yield worked_case(*row)
    yield "journals: effects are the difference of dumped trees", is_difference
    yield "journals: effects stand beside rules", is_beside_rules
    for row in WRONG:
        yield wrong_case(*row)
    for example, words, told in WHYS:
        yield tool_case("tools/why", example, words, 0, told)
    for row in FATES:
        yield tool_case("tools/fate", *row)
    yield "journals: tools/why answers at once", answers_at_once
    yield "journals: what fates call visible is what view shows", is_view
    yield "journals: journals are replayed", is_replayed
    yield "journals: tools/replay of another engine's log", is_foreign
    for row in NOT_REPLAYED:
        yield not_replayed_case(*row)
    for row in JUDGED:
        yield judged_case(*row)
    yield "journals: kit/check --effects over the kit", passes_kit
    for row in ROWS:
        yield fault_case(*row)
    for line, told in WRITING:
        yield fault_case(line + " >/dev/full", 4, told)
        yield fault_case(line + " >&-", 4, told)
