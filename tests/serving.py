"""The command `serve`: answers worked out by hand, the laws that bind it to the other commands and to a session, and
what comes of input that is none."""

import collections
import contextlib
import copy
import glob
import io
import itertools
import json
import os
import pty
import random
import re
import select
import subprocess
import tempfile
import time
from unittest import mock

from cases import IN_PYTHON, IN_TEST, copy_into, expect, expect_same, folder_of, place, run, stored
from jsoncrdt.oracle import debugger, requests
from jsoncrdt.oracle.debugger import Refusal
from jsoncrdt.oracle.grammar import read
from jsoncrdt.oracle.program import command_line, made
from jsoncrdt.oracle.requests import Input
from jsoncrdt.oracle.rules import candidates
from jsoncrdt.oracle.serve import Served, Subject, answers, serve
from jsoncrdt.oracle.texts import Texts
from jsoncrdt.serving import Here, line_of

SEED, PATIENCE, FEW_SECONDS = 20261128, 120, 20
BAD = '{"refused":{"name":"BadLine","number":58}}'


def refused(number, name, **more):
    return json.dumps({"refused": dict(sorted({"name": name, "number": number, **more}.items()))},
                      separators=(",", ":"), ensure_ascii=False)


def refused_text(number, name, offset, end, line, column, expected=None):
    told = {} if expected is None else {"expected": expected.split()}
    return refused(number, name, offset=offset, end=end, line=line, column=column, **told)


def asked(text, requests_of_it=()):
    """The requests that bring a text, and those behind it, as bytes."""
    return b"scenario %d\n%s%s" % (len(text), text, b"".join(request + b"\n" for request in requests_of_it))


def served(source):
    """The answers to these bytes, in this process."""
    return [answer.decode() for answer in answers(Input(io.BytesIO(source)))]


def answers_about(text, requests_of_it):
    """The answers to requests about a text that is a scenario."""
    return served(asked(text.encode(), [request.encode() for request in requests_of_it]))[1:]


# ---- worked answers

GIVEN = """jsoncrdt 2 replica a { doc.get("a") := 1; doc.get("a") := 2; yield } replica b { yield }
given { a.exec; a.exec; a.send } schedule { b.take(a, 2, a); b.apply(2, a) }"""
FIRST_GIVEN = ('{"command":"doc.get(\\"a\\") := 1",%s"event":"a.exec","given":true,"kind":"exec","number":1,'
               '"op":{"cursor":["mapT(doc)","\\"a\\""],"deps":{},"id":"1@a","mutation":"assign","value":{"n":"1"}},'
               '"replica":"a"}')
FIRST_EFFECTS = ('"effects":[{"gained":["1@a"],"key":"doc","made":["map"],"map":[{"gained":["1@a"],'
                 '"key":"\\"a\\"","made":["register"],"shown":true,"written":[["1@a",{"n":"1"}]]}],"shown":true}],')
SECOND_GIVEN = ('{"command":"doc.get(\\"a\\") := 2","event":"a.exec","given":true,"kind":"exec","number":2,'
                '"op":{"cursor":["mapT(doc)","\\"a\\""],"deps":{"a":1},"id":"2@a","mutation":"assign",'
                '"value":{"n":"2"}},"replica":"a"}')
SENT = '{"event":"a.send","given":true,"kind":"send","new":["1@a","2@a"],"number":3,"replica":"a"}'
TAKEN = '{"event":"b.take(a, 2, a)","from":"a","kind":"take","new":["2@a"],"number":1,"replica":"b"}'
MISSING = ('{"cause":"DepsMissing","event":"b.apply(2, a)","kind":"apply","missing":["1@a"],"number":2,"replica":"b",'
           '"stuck":36}')
BEFORE_MISSING = '{"at":1,"event":"b.take(a, 2, a)","stuck":' + MISSING + "}"
GIVEN_TEXT = ('"jsoncrdt 2\\nreplica a {\\n  doc.get(\\"a\\") := 1;\\n  doc.get(\\"a\\") := 2;\\n  yield;\\n}\\n'
              'replica b {\\n  yield;\\n}\\ngiven {\\n  a.exec;\\n  a.exec;\\n  a.send;\\n}\\n'
              'schedule {\\n  %s;\\n}\\n"')

BELOW = """jsoncrdt 1
replica p { doc.get("m") := {}; doc.get("m").get("x") := 1; doc.get("n") := 2; let m = doc.get("m"); m.get("x").delete }
replica q { yield } schedule { p.exec; p.exec; p.exec; p.exec; p.exec; q.recv(p) }"""

PARTS = """jsoncrdt 1
replica p { doc.get("l") := []; doc.get("l").idx(0).insertAfter("a"); let e = doc.get("l").idx(1);
  doc.get("l").idx(0) := "h"; e.delete; yield }
replica q { doc.get("l").get("!k") := 1.50; yield }
schedule { p.exec; p.exec; p.exec; p.exec; p.exec; q.exec; p.send; q.recv(p); q.apply(1, p); q.apply(2, p);
  q.apply(3, p); q.apply(4, p) }"""

STUCK_GIVEN = "jsoncrdt 2 replica a {yield} given {a.send; a.exec; a.done} schedule {a.done}"
STUCK_SENT = '{"event":"a.send","given":true,"kind":"send","new":[],"number":1,"replica":"a"}'
STUCK_LINE = ('{"cause":"AtYield","event":"a.exec","given":true,"kind":"exec","number":2,"replica":"a","stuck":31}')
GIVEN_STUCK = '{"refused":{"name":"GivenStuck","number":44,"stuck":' + STUCK_LINE + "}}"

# A text, and requests with their answers; that to `scenario` comes first.
WORKED = [
    (GIVEN, '{"commands":4,"events":2,"given":3,"replicas":2}', [
        ("where", '{"at":0,"event":"a.send","of":2}'),
        ("trace", '{"start":true}'),
        # Position 0 has the last given event, and the first position none.
        ("event", SENT),
        ("event --at 0", SENT),
        ("event --at -1", SECOND_GIVEN),
        ("event --at -2", FIRST_GIVEN % ""),
        ("event --at -2 --effects", FIRST_GIVEN % FIRST_EFFECTS),
        ("event --at -3", '{"start":true}'),
        ("event --at -4", refused(50, "AtStart")),
        ("event --at 3", refused(52, "PastSchedule")),
        ("view --at -1 a", '{"doc":{"a":2},"name":"a"}'),
        ("view --at -2 a", '{"doc":{"a":1},"name":"a"}'),
        ("view --at -3", '[{"name":"a"},{"name":"b"}]'),
        ("brief --at -2 a",
         '{"acted":false,"left":2,"name":"a","ops":["1@a"],"queue":["1@a"],"recv":[],"send":[],"vars":{}}'),
        ("state --at -3 b", '{"acted":false,"left":1,"name":"b","ops":[],"queue":[],"recv":[],"send":[],"tree":{},'
         '"vars":{}}'),
        ("back", refused(50, "AtStart")),
        ("back run", refused(50, "AtStart")),
        ("step", '{"at":1,"event":"b.take(a, 2, a)"}'),
        ("trace", '{"event":"b.take(a, 2, a)","number":1,"rules":[[0,"RECV-ONE"]]}'),
        ("event --trace", TAKEN[:-1] + ',"rules":[[0,"RECV-ONE"]]}'),
        ("step", BEFORE_MISSING),
        ("where", '{"at":1,"event":"b.take(a, 2, a)","of":2}'),
        ("view --at 2", BEFORE_MISSING),
        ("event --at 2", BEFORE_MISSING),
        ("journal -1 1", f"[{SENT},{TAKEN}]"),
        ("journal -3 2", f'[{FIRST_GIVEN % ""},{SECOND_GIVEN},{SENT},{TAKEN},{MISSING}]'),
        ("journal", f'[{FIRST_GIVEN % ""},{SECOND_GIVEN},{SENT},{TAKEN},{MISSING}]'),
        ("journal --effects -3 -2", f"[{FIRST_GIVEN % FIRST_EFFECTS}]"),
        ("journal 2 2", "[]"),
        ("journal 1 -1", "[]"),
        ("journal -4 9", refused(50, "AtStart")),
        ("journal 3 -4", refused(52, "PastSchedule")),
        ("act b.take(a, 1, a)", '{"at":2,"event":"b.take(a, 1, a)"}'),
        ("act b.apply(1, a)", '{"at":3,"event":"b.apply(1, a)"}'),
        ("act b.take(a, 3, a)", '{"at":3,"event":"b.apply(1, a)","stuck":{"cause":"NotReceived","event":"b.take(a,'
         ' 3, a)",'
         '"kind":"take","number":4,"offered":[],"replica":"b","stuck":34}}'),
        ("act b.take(a, 2, z)", refused_text(18, "UnknownReplica", 13, 14, 1, 14)),
        ("enabled", '["a.send","a.recv(a)","a.recv(b)","a.take(a, 1, a)","a.take(a, 2, a)","a.done","b.send",'
         '"b.recv(a)",'
         '"b.recv(b)","b.take(a, 1, a)","b.take(a, 2, a)","b.apply(2, a)","b.done"]'),
        ("schedule", '["b.take(a, 2, a)","b.take(a, 1, a)","b.apply(1, a)"]'),
        ("compare a b", '{"operations":"different"}'),
        ("compare b b", '{"operations":"same","tree":"same"}'),
        ("print", GIVEN_TEXT % "b.take(a, 2, a);\\n  b.take(a, 1, a);\\n  b.apply(1, a)"),
        ("break rule RECV-ONE", '{"set":1}'),
        ("back run", '{"at":2,"break":1,"event":"b.take(a, 1, a)"}'),
        ("back run", '{"at":1,"break":1,"event":"b.take(a, 2, a)"}'),
        ("back run", '{"at":0,"event":"a.send","start":true}'),
        ("run", '{"at":1,"break":1,"event":"b.take(a, 2, a)"}'),
        ("break op 1@a", '{"set":2}'),
        ("break at 2", '{"set":3}'),
        ("run", '{"at":2,"break":1,"event":"b.take(a, 1, a)"}'),
        ("unbreak 1", '{"cleared":1}'),
        ("unbreak 1", refused(53, "NoSuchBreak")),
        ("run", '{"at":3,"break":2,"event":"b.apply(1, a)"}'),
        ("break replica b", '{"set":1}'),
        ("breaks", '[{"kind":"replica","number":1,"replica":"b"},{"kind":"op","number":2,"op":"1@a"},'
         '{"at":2,"kind":"at","number":3}]'),
        ("back 4", refused(50, "AtStart")),
        ("step", refused(51, "AtEnd")),
        ("run", refused(51, "AtEnd")),
        ("goto 4", refused(52, "PastSchedule")),
    ]),
    # A place that is changed, also where that is below it alone; the third and the fourth event don't change it.
    (BELOW, '{"commands":6,"events":6,"given":0,"replicas":2}', [
        ("event", '{"start":true}'),
        ("where", '{"at":0,"of":6}'),
        ("break place p m", refused(22, "UnboundVariable")),
        ("break place p doc.keys", refused(27, "NoMap")),
        ("break place p doc.get(", refused_text(8, "EndOfText", 8, 8, 1, 9)),
        ("break place z doc.", refused(18, "UnknownReplica")),
        ("breaks", "[]"),
        ('break place p doc.get("m")', '{"set":1}'),
        ('break  place\tq   doc.get("m")', '{"set":2}'),
        ("breaks", '[{"cursor":["mapT(doc)","\\"m\\""],"kind":"place","number":1,"replica":"p"},'
         '{"cursor":["mapT(doc)","\\"m\\""],"kind":"place","number":2,"replica":"q"}]'),
        ("run", '{"at":1,"break":1,"event":"p.exec"}'),
        ('break place p doc.get("m").keys', refused(24, "NotACursor")),
        ("run", '{"at":2,"break":1,"event":"p.exec"}'),
        ("run", '{"at":5,"break":1,"event":"p.exec"}'),
        ("run", '{"at":6,"end":true,"event":"q.recv(p)"}'),
        ("back run", '{"at":5,"break":1,"event":"p.exec"}'),
        ("back run", '{"at":2,"break":1,"event":"p.exec"}'),
        ("back run", '{"at":1,"break":1,"event":"p.exec"}'),
        ("back run", '{"at":0,"start":true}'),
        ('break place p doc.get("m").get("x")', '{"set":3}'),
        ("unbreak 1", '{"cleared":1}'),
        ("run", '{"at":2,"break":3,"event":"p.exec"}'),
        ("goto 4", '{"at":4,"event":"p.exec"}'),
        ("event", '{"command":"let m = doc.get(\\"m\\")","event":"p.exec","kind":"exec","number":4,"replica":"p"}'),
        ("view p doc", '{"doc":{"m":{"x":1},"n":2},"name":"p"}'),
        ("view q doc", '{"name":"q"}'),
        ("view p m", '{"doc":{"x":1},"name":"p"}'),
        ('view  p\tm.get("x") ', '{"doc":1,"name":"p"}'),
        ("view --at 5 p m", '{"doc":{},"name":"p"}'),
        ('view --at 5 p m.get("x")', '{"name":"p"}'),
        ('view --at 2 p doc.get("m").get("x")', '{"doc":1,"name":"p"}'),
        ('view p doc.get("n").get("x")', '{"name":"p"}'),
        ('view p doc.get("z").get("y").get("x")', '{"name":"p"}'),
        ("view p m.keys", '{"keys":["x"]}'),
        ('view p m.get("x").values', '{"values":[["2@p",{"n":"1"}]]}'),
        ("view --at 3 p m", refused(22, "UnboundVariable")),
        ("view p m.idx(1)", refused(25, "NoSuchNode", key='listT("m")')),
        ("view p m.values", refused(28, "NoRegister")),
        ("view p  m..", refused_text(7, "Unexpected", 2, 3, 1, 3)),
        ("view p m n", refused_text(7, "Unexpected", 2, 3, 1, 3)),
        ("view r m..", refused(18, "UnknownReplica")),
        ("view --at 7 p x", refused(52, "PastSchedule")),
        ("view --at -1 p x", refused(50, "AtStart")),
        ("eval p m", '{"cursor":["mapT(doc)","\\"m\\""]}'),
        ("eval p m.keys", '{"keys":["x"]}'),
        ("eval --at 5 p m.keys", '{"keys":[]}'),
        ("eval --at 3 p m.keys", refused(22, "UnboundVariable")),
        ('eval p doc.get("\\u006d").get("x").values', '{"values":[["2@p",{"n":"1"}]]}'),
        ("eval p m.idx(1)", refused(25, "NoSuchNode", key='listT("m")')),
        ('eval p doc.get("n").keys', refused(27, "NoMap")),
        ("eval p m.values", refused(28, "NoRegister")),
        ("eval p m.keys.get", refused_text(8, "EndOfText", 10, 10, 1, 11)),
        ("eval p", refused_text(8, "EndOfText", 0, 0, 1, 1)),
        ("eval p  m..", refused_text(7, "Unexpected", 2, 3, 1, 3)),
        ("eval r m..", refused(18, "UnknownReplica")),
        ("eval --at 7 p m", refused(52, "PastSchedule")),
        ("goto end", '{"at":6,"event":"q.recv(p)"}'),
        ("places", '[{"end":131,"items":[[23,41],[43,69],[71,88],[90,110],[112,129]],"kind":"replica","name":"p",'
         '"start":11},'
         '{"end":151,"items":[[144,149]],"kind":"replica","name":"q","start":132},'
         '{"end":214,"items":[[163,169],[171,177],[179,185],[187,193],[195,201],[203,212]],"kind":"schedule",'
         '"start":152}]'),
    ]),
    # No scenario from a stuck given event on, but a text and a journal.
    (STUCK_GIVEN, '{"commands":1,"events":1,"given":3,"replicas":1,"stuck":' + STUCK_LINE + "}", [
        ("where", GIVEN_STUCK),
        ("view", GIVEN_STUCK),
        ("state a", GIVEN_STUCK),
        ("eval a doc", GIVEN_STUCK),
        ("view a doc", GIVEN_STUCK),
        ("view --at -2 a doc", '{"name":"a"}'),
        ("view --at -1 a doc", GIVEN_STUCK),
        ("goto 9", GIVEN_STUCK),
        ("state z", refused(18, "UnknownReplica")),
        ("eval a ..", refused_text(7, "Unexpected", 0, 1, 1, 1)),
        ("weave 0 1", GIVEN_STUCK),
        ("jump", BAD),
        ("print", '"jsoncrdt 2\\nreplica a {\\n  yield;\\n}\\ngiven {\\n  a.send;\\n  a.exec;\\n  a.done;\\n}\\n'
         'schedule {\\n  a.done;\\n}\\n"'),
        ("places", '[{"end":28,"items":[[22,27]],"kind":"replica","name":"a","start":11},'
         '{"end":59,"items":[[36,42],[44,50],[52,58]],"kind":"given","start":29},'
         '{"end":77,"items":[[70,76]],"kind":"schedule","start":60}]'),
        ("view --at -2", '[{"name":"a"}]'),
        ("brief --at -2 a",
         '{"acted":true,"left":1,"name":"a","ops":[],"queue":[],"recv":[],"send":[],"vars":{}}'),
        ("event --at -3", '{"start":true}'),
        ("event --at -2", STUCK_SENT),
        ("event --at -1", GIVEN_STUCK),
        ("eval --at -2 a doc", '{"cursor":["doc"]}'),
        ("eval --at -1 a doc", GIVEN_STUCK),
        ("state --at 0 a", GIVEN_STUCK),
        ("state --at 2 a", refused(52, "PastSchedule")),
        ("journal", f"[{STUCK_SENT},{STUCK_LINE}]"),
        ("journal -3 1", f"[{STUCK_SENT},{STUCK_LINE}]"),
        ("journal -2 0", f"[{STUCK_LINE}]"),
        ("journal -1 1", "[]"),
        ("journal -4 0", refused(50, "AtStart")),
        ("journal 0 2", refused(52, "PastSchedule")),
    ]),
    # An answer is never one of the scenario before.
    ("jsoncrdt 1 replica a {doc := 1} schedule {a.exec}", '{"commands":1,"events":1,"given":0,"replicas":1}', [
        ("goto end", '{"at":1,"event":"a.exec"}'),
        ("break at 1", '{"set":1}'),
        ("view", '[{"doc":1,"name":"a"}]'),
        ("weave 18446744073709551615 1", '{"ends":[{"end":"finished","made":1,"name":"a"}],"events":["a.exec"]}'),
        ("weave 0 0", '{"ends":[{"end":"limit","made":0,"name":"a"}],"events":[]}'),
        ("where", '{"at":1,"event":"a.exec","of":1}'),
    ]),
    ("jsoncrdt 1 replica b {let x = doc.keys}", '{"commands":1,"events":0,"given":0,"replicas":1}', [
        ("where", '{"at":0,"of":0}'),
        ("breaks", "[]"),
        ("view", '[{"name":"b"}]'),
        ("state a", refused(18, "UnknownReplica")),
        ("schedule", "[]"),
        ("enabled", "[]"),
        ("break rule RECV-ONE", BAD),
        ("act b.take(b, 1, b)", refused_text(7, "Unexpected", 2, 6, 1, 3)),
        ("weave 7 100",
         '{"ends":[{"cause":"NoMap","end":"stuck","event":"b.exec","made":0,"name":"b","stuck":27}],"events":[]}'),
    ]),
    (PARTS, '{"commands":8,"events":12,"given":0,"replicas":2}', [
        ("goto 3", '{"at":3,"event":"p.exec"}'),
        ('view p doc.get("l").idx(1)', '{"doc":"a","name":"p"}'),
        ('view p doc.get("l").idx(0)', '{"name":"p"}'),
        # What is assigned to a list's head is shown there alone.
        ("goto 4", '{"at":4,"event":"p.exec"}'),
        ('view p doc.get("l").idx(0)', '{"doc":"h","name":"p"}'),
        ('view p doc.get("l")', '{"doc":["a"],"name":"p"}'),
        ('view p doc.get("l").idx(0).get("x")', refused(23, "GetOnHead")),
        # An element that was deleted is still what a variable is bound to.
        ("view p e", '{"doc":"a","name":"p"}'),
        ("goto 5", '{"at":5,"event":"p.exec"}'),
        ("view p e", '{"name":"p"}'),
        ('view p doc.get("l").idx(1)', refused(26, "PastEnd")),
        ('view p doc.get("l")', '{"doc":[],"name":"p"}'),
        # A name that begins with `!` is marked in what is shown, and nowhere else.
        ("goto end", '{"at":12,"event":"q.apply(4, p)"}'),
        ('view q doc.get("l")', '{"doc":{"!conflict":{"list":[],"map":{"!!k":1.50}}},"name":"q"}'),
        ('view q doc.get("l").get("!k")', '{"doc":1.50,"name":"q"}'),
        ('view q doc.get("l").keys', '{"keys":["!k"]}'),
        ("view q doc", '{"doc":{"l":{"!conflict":{"list":[],"map":{"!!k":1.50}}}},"name":"q"}'),
    ]),
    ("jsoncrdt 1 replica a", refused_text(8, "EndOfText", 20, 20, 1, 21, "{"), [
        ("view", refused_text(8, "EndOfText", 20, 20, 1, 21, "{")),
        ("view b x", refused_text(8, "EndOfText", 20, 20, 1, 21, "{")),
        ("print", refused_text(8, "EndOfText", 20, 20, 1, 21, "{")),
        ("state b", refused_text(8, "EndOfText", 20, 20, 1, 21, "{")),
        ("break rule RECV-ONE", refused_text(8, "EndOfText", 20, 20, 1, 21, "{")),
        ("jump", BAD),
    ]),
]
HEAD = 'jsoncrdt 1 replica a {'
# Texts, and why each is refused: the number and the name, the offset, the end, the line and the column, and what could
# stand there.
TEXTS = [
    ("", (14, "NoHeader", 0, 0, 1, 1)),
    ("jsoncrdt 3", (14, "NoHeader", 9, 10, 1, 10)),
    ("jsoncrdt 1", (16, "NoReplica", 10, 10, 1, 11)),
    ("jsoncrdt 1\nreplica a {\n  doc = 1;\n}\n", (7, "Unexpected", 29, 30, 3, 7, ". :=")),
    (HEAD + 'doc := "é" xyz', (7, "Unexpected", 34, 37, 1, 34, "; }")),
    (HEAD + 'doc := "\\ud800"', (4, "LoneSurrogate", 30, 36, 1, 31)),
    (HEAD + "doc := 01.x;", (5, "BadNumber", 29, 33, 1, 30)),
    (HEAD + "# note", (1, "BadByte", 22, 23, 1, 23)),
    (HEAD + "é", (1, "BadByte", 22, 24, 1, 23)),
    (HEAD + 'doc := "abc', (2, "OpenString", 29, 30, 1, 30)),
    (HEAD + 'doc := "\\x"', (3, "BadEscape", 30, 31, 1, 31)),
    (HEAD + "n" * 256 + " := 1", (6, "TextTooLong", 22, 278, 1, 23)),
    (HEAD + "doc.idx(4294967296)", (9, "IndexTooLarge", 30, 40, 1, 31)),
    (HEAD + "let x := 1", (7, "Unexpected", 28, 30, 1, 29, "=")),
    (HEAD + "let true = doc}", (10, "ReservedName", 26, 30, 1, 27)),
    (HEAD + "} replica a {}", (15, "SameName", 32, 33, 1, 33)),
    (HEAD + "}\n\nschedule {\nbcd.exec}", (18, "UnknownReplica", 36, 39, 4, 1)),
]
# Beginnings of texts, and what could stand behind each, by docs/LANGUAGE.md; the last word is a token that could not.
VALUES = "true false null number string [ {"
SELECTORS = "get idx keys values"
EVENT = "exec send recv apply done"
SECOND = "jsoncrdt 2 replica a {} "
BEGINNINGS = [
    ("jsoncrdt 1 replica", "name", "{"),
    ("jsoncrdt 2 replica let_ {} replica", "name", '"b"'),
    ("jsoncrdt 2 replica x {} replica", "name", "1"),
    ("jsoncrdt 1 replica a", "{", "a"),
    (HEAD, "yield let doc name }", "{"),
    (HEAD + "yield", "; }", "yield"),
    (HEAD + "yield;", "yield let doc name }", ";"),
    (HEAD + "let", "name", "="),
    (HEAD + "let x", "=", ":="),
    (HEAD + "let x =", "doc name", "1"),
    (HEAD + "let x = doc", ". ; }", "yield"),
    (HEAD + "let x = y.", SELECTORS, "delete"),
    (HEAD + "let x = y.get", "(", "."),
    (HEAD + "let x = y.get(", "string", "k"),
    (HEAD + 'let x = y.get("k"', ")", "}"),
    (HEAD + "let x = y.keys", ". ; }", ":="),
    (HEAD + "x", ". :=", "="),
    (HEAD + "x.", SELECTORS + " insertAfter delete", "exec"),
    (HEAD + "x.idx(", "digits", "1.0"),
    (HEAD + "x.idx(1", ")", ","),
    (HEAD + "x.idx(1)", ". :=", ";"),
    (HEAD + "x.insertAfter(", VALUES, ")"),
    (HEAD + "x.insertAfter(1", ")", "]"),
    (HEAD + "x.delete", "; }", "("),
    (HEAD + "x :=", VALUES, "doc"),
    (HEAD + "x := {", "}", "]"),
    (HEAD + "x := [", "]", "1"),
    ("jsoncrdt 1 replica a {} schedule", "{", "a"),
    ("jsoncrdt 1 replica a {} schedule {", "name }", ";"),
    ("jsoncrdt 1 replica a {} schedule {a", ".", ":="),
    ("jsoncrdt 1 replica a {} schedule {a.", EVENT, "take"),
    (SECOND + "schedule {a.", "exec send recv take apply done", "keys"),
    (SECOND + "given {a.take(", "name", "1"),
    (SECOND + "given {a.take(a", ",", ")"),
    (SECOND + "given {a.take(a,", "digits", "0.5"),
    (SECOND + "given {a.apply(1", ",", ")"),
    (SECOND + "given {a.apply(1,", "name", "1"),
    (SECOND + "given {a.recv(a", ")", ","),
    (SECOND + "given {a.exec", "; }", "a"),
    # Limits are left aside.
    (HEAD + "let x = y" + ".keys" * 256 + ".", SELECTORS, "delete"),
    (HEAD + "yield;" * 65_536, "yield let doc name }", ";"),
    ("jsoncrdt 1 " + "".join(f"replica a{n} {{}} " for n in range(64)) + "replica", "name", "{"),
]
# The same where the beginning is a scenario.
WHOLE = [
    ("jsoncrdt 1 replica a {}", "replica schedule", "given"),
    ("jsoncrdt 2 replica a {}", "replica given schedule", "}"),
    ("jsoncrdt 2 replica a {} given {}", "schedule", "replica"),
    ("jsoncrdt 1 replica a {} schedule {}", "", "schedule"),
]
# What may be told, the spelling by which it is tried, and the one that tells that it stands for another.
TRIED = [*((word, word, "get") for word in ("yield", "let", "doc")),
         *((word, word, "let") for word in ("get", "idx", "keys", "values", "insertAfter", "delete", "true", "false",
                                            "null")),
         *((word, word, "x") for word in ("replica", "given", "schedule", "exec", "send", "recv", "take", "apply",
                                          "done")),
         ("name", "x", None), ("digits", "100", "0.5"), ("number", "0.5", None), ("string", '""', None),
         *((sign, sign, None) for sign in (".", ":=", "=", "(", ")", "[", "]", "{", ";", ",", "}"))]
OPEN = (8, 11, 12, 15, 17, 18, 19)
# What is no request, whatever there is.
NO_REQUESTS = ["", " \t", "jump", "scenario", "scenario x", "scenario 01", "scenario 1 2", "scenario -1", "brief",
               "brief a b", "event 3", "event --effects --trace", "event --trace --trace", "event --at",
               "event --at +1",
               "event --at -0", "view --at", "view --at x", "view --at x a doc", "state a doc", "goto -1", "goto ends",
               "goto", "back runs", "run back",
               "breaks 1", "break", "break op", "break op 1", "break op 1@", "break op 01@a", "break op 1@a b",
               "break place", "break spot a", "eval", "eval --at 1", "journal 0", "journal 0 1 2",
               "journal --effects --trace 0 1", "print x", "places x", "weave", "weave 1", "weave -1 1", "weave 01 1",
               "weave 18446744073709551616 1", "weave 0 100001", "view\0", "vi\0ew", "view é", "quit now", " " * 4097,
               "view" + " " * 4093, "x" * 100_000]


def worked_case(text, first, rows):
    def tried(_):
        found = served(asked(text.encode(), [request.encode() for request, _ in rows]))
        for request, got, want in zip(["scenario", *(request for request, _ in rows)], found,
                                      [first, *(answer for _, answer in rows)]):
            expect(got == want, f"{request}: {got}\nand not\n{want}")
        expect(len(found) == len(rows) + 1, f"{len(found)} answers")

    return f"serve: answers about {' '.join(text.split())[:60]}", tried


def refuses_texts(_):
    source = b"".join(asked(text.encode()) for text, _ in TEXTS)
    for (text, want), got in zip(TEXTS, served(source), strict=True):
        expect(got == refused_text(*want), f"{text}: {got}\nand not\n{refused_text(*want)}")
    for content, want in ((b"jsoncrdt 1 \xff\x80x", (13, "NotUtf8", 11, 13, 1, 12)),
                          (b" " * 8_388_609, (6, "TextTooLong", 8_388_608, 8_388_609, 1, 8_388_609)),
                          (b"\n" * 9_000_000, (6, "TextTooLong", 8_388_608, 8_388_609, 8_388_609, 1))):
        got = served(asked(content, [b"jump"]))
        expect(got == [refused_text(*want), BAD], f"{got}")


def expects_what_could_stand(_):
    """What could stand behind a beginning, where the text ends there or what comes next doesn't fit."""
    for beginning, expected, misfit in [*BEGINNINGS, *WHOLE]:
        at = len(beginning)
        wants = [(f"{beginning} {misfit}", (7, "Unexpected", at + 1, at + 1 + len(misfit), 1, at + 2, expected))]
        if (beginning, expected, misfit) in BEGINNINGS:
            wants.append((beginning, (8, "EndOfText", at, at, 1, at + 1, expected)))
        for text, want in wants:
            [got] = served(asked(text.encode()))
            expect(got == refused_text(*want), f"{text[-100:]}: {got}\nand not\n{refused_text(*want)}")
    for free, expected in ((0, ""), (1, ""), (2, "name }"), (3, "name }"), (4, "let doc name }"),
                           (6, "yield let doc name }")):
        text = HEAD.encode() + b" " * (8_388_608 - len(HEAD) - free)
        [got] = served(asked(text))
        expect(json.loads(got)["refused"]["expected"] == expected.split(), f"{free} bytes are free: {got}")


def goes_on(text, at, spelling):
    """Whether the text up to an offset is right with a spelling behind it."""
    fault = read(text[:at] + b" " + spelling.encode())[1]
    return not fault or fault[1] in OPEN


def expects_what_goes_on(_):
    """What is told is what goes on by trying, in broken texts."""
    chance, count = random.Random(SEED), 0
    sources = [text.encode() for text in (GIVEN, BELOW, PARTS)]
    while count < 150:
        text = chance.choice(sources)
        parts = re.findall(rb'"[^"]*"|[\w.]+|:=|[^\w\s]', text)
        at = chance.randrange(len(parts))
        parts[at:at + chance.randrange(2)] = chance.choices(parts, k=chance.randrange(3))
        text = b" ".join(parts[:chance.choice((len(parts), at + 3))])
        [got] = served(asked(text))
        refusal = json.loads(got).get("refused", {})
        if refusal.get("number") not in (7, 8):
            expect("expected" not in refusal, got)
            continue
        count += 1
        offset = refusal["offset"]
        want = [told for told, tried, other in TRIED
                if goes_on(text, offset, tried) and not (other and goes_on(text, offset, other))]
        expect(refusal["expected"] == want, f"{text}: {got}\nand not\n{want}")


def refuses_lines(_):
    """What is no request is refused with a scenario, without one, and where a given event is stuck."""
    for text in (b"", GIVEN.encode(), STUCK_GIVEN.encode()):
        for line in NO_REQUESTS:
            got = served(asked(text, [line.encode(), b"where"]))
            expect(len(got) == 3 and got[1] == BAD, f"{line[:60]!r}: {got[1:2]}")


def is_as_in_sessions(_):
    """The ends of lines are those of a session: CR LF, and no LF at the input's end."""
    expect(served(b"jump\r\njump\n\njump") == [BAD] * 4, "ends of lines")
    got = served(asked(GIVEN.encode()) + b"where\r\n" + b" " * 4091 + b"where\n" + b" " * 4091 + b"where\r\nwhere\r")
    expect(got[1:] == ['{"at":0,"event":"a.send","of":2}'] * 2 + [BAD] * 2, f"{got}")
    expect(served(b"quit\nwhere\n") == ['{"quit":true}'], "quit")


# ---- laws

FILES = sorted(glob.glob("examples/**/*.jsoncrdt", recursive=True))
OF_KIT = ("answer-before-question", "both-append", "figure-to-do", "list-emptied-against-edits", "own-offer-received",
          "refused-36-deps-missing", "refused-44-given", "woven-rising-1")
SCENARIOS = [*FILES, *(os.path.join("kit", name, "scenario.jsoncrdt") for name in OF_KIT)]


def told(words, text, lines=None):
    """What the command writes in a process of its own, on both streams."""
    with tempfile.NamedTemporaryFile("w", encoding="utf-8", suffix=".jsoncrdt") as file:
        file.write(text)
        file.flush()
        ended = run([IN_PYTHON, *words, file.name], IN_PYTHON, lines or "")
    errors = ended.stderr.decode().split("\n", 1)[1]
    return ended.stdout.decode(), errors


def in_list(text):
    """Lines of JSON as a list; lines of other forms behind them are left out."""
    return "[" + ",".join(line for line in text.split("\n") if line.startswith("{")) + "]"


def positions_of(text):
    """How many events are given, and some positions of the schedule that are reached."""
    given = len(read(text.encode())[0].given)
    last = json.loads(answers_about(text, ["goto end"])[0]).get("at", 0)
    return given, sorted({0, last // 2, last})


def lines_case(path):
    """What serve answers are the lines that the commands write alone."""

    def tried(_):
        text = stored(path)
        given, positions = positions_of(text)
        length, journal = len(read(text.encode())[0].schedule), ["journal", "--trace", "--effects"]
        whole, plain, printed, woven = answers_about(text, [
            " ".join(journal), f"journal {f'-{given}' if given else 0} {length}", "print", "weave 5 100"])
        expect_same(whole, in_list(told(journal, text)[0]))
        expect_same(plain, in_list(told(["journal"], text)[0]))
        expect(json.loads(printed) == told(["print"], text)[0], f"print: {printed}")
        told_weave, told_ends = told(["weave", "--seed", "5", "--limit", "100"], text)
        if "GivenStuck" in told_weave:
            expect("GivenStuck" in woven, woven)
            return
        is_woven(json.loads(woven), told_weave, told_ends)
        for position in positions:
            view, moved, state, *_ = answers_about(text, [f"view --at {position}", f"goto {position}", "state", "view"])
            expect_same(view, in_list(told(["view", "--at", str(position)], text)[0]))
            expect_same(state, in_list(told(["debug"], text, f"goto {position}\nstate\n")[0]))
            expect(json.loads(moved)["at"] == position and view == _[0], f"{moved}: {_}")

    return f"serve: the lines of the commands, for {path}", tried


def is_woven(got, text, ends):
    """The schedule and the ends are those that `weave` writes."""
    events = re.findall(r"^  (.*);$", text.rpartition("\nschedule {\n")[2], re.MULTILINE)
    expect(got["events"] == events, f"{got['events']}\nand not\n{events}")
    for end, line in zip(got["ends"], ends.splitlines(), strict=True):
        key = f"{end['key']} " if "key" in end else ""
        how = f"stuck {end['stuck']} {end['cause']} {key}{end['event']}" if end["end"] == "stuck" else end["end"]
        expect(f"{end['name']} made {end['made']} {how}" == line, f"{end} and {line}")


def in_lines(answer, request):
    """An answer as a session has it, by docs/FORMATS.md."""
    value, word = json.loads(answer), request.split()[0]
    if isinstance(value, dict) and "refused" in value:
        told_of = value["refused"]
        at = f" at {told_of['offset']}" if "offset" in told_of else ""
        return f"refused {told_of['number']} {told_of['name']}{at}"
    if word in ("enabled", "schedule"):
        return "\n".join(f"{n} {event}" if word == "schedule" else event for n, event in enumerate(value, 1)) or "none"
    if word == "state":
        return answer[1:-1].replace('},{"acted"', '}\n{"acted"') if answer[0] == "[" else answer
    if word == "trace":
        rules = [f"\n{depth} {name}" for depth, name in value.get("rules", ())]
        return "".join([f"event {value['number']} {value['event']}", *rules]) if rules else "start"
    if word == "compare":
        operations = f"{value['operations']} operations"
        return f"{operations} {value['tree']} tree" if "tree" in value else operations
    return in_lines_of_move(value)


def in_lines_of_move(value):
    if "set" in value or "cleared" in value:
        return " ".join(f"{word} {number}" for word, number in value.items())
    text = f"at {value['at']}" + (f" of {value['of']}" if "of" in value else "")
    if "stuck" in value:
        line = value["stuck"]
        key = f"{line['key']} " if "key" in line else ""
        text += f"\nstuck {line['stuck']} {line['cause']} {key}{line['event']}"
    return text + (f"\nbreak {value['break']}" if "break" in value else "\nend" if "end" in value else "")


def random_lines(chance, names, events, count):
    """Lines of a session, most of them moves."""
    of = chance.choice
    forms = (lambda: "step", lambda: f"step {of((0, 2, 3))}", lambda: "back", lambda: f"back {of((0, 1, 2, 5))}",
             lambda: "run", lambda: f"goto {chance.randint(0, len(events) + 1)}", lambda: f"act {of(events)}",
             lambda: "act a.jump",
             lambda: f"break at {chance.randint(0, 9)}", lambda: f"break replica {of(names)}",
             lambda: "break replica nobody",
             lambda: f"break rule {of(('GET', 'RECV', 'DONE', 'INSERT1', 'NONE'))}", lambda: f"unbreak {of((1, 2, 3))}",
             lambda: "state", lambda: f"state {of(names)}", lambda: "trace", lambda: "enabled", lambda: "schedule",
             lambda: "where", lambda: f"compare {of(names)} {of(names)}", lambda: "state nobody")
    return [of(forms)() for _ in range(count)]


def is_as_session(_):
    """Random requests that a session has, about all examples, are answered as it answers them."""
    for number, path in enumerate(SCENARIOS):
        text, chance = stored(path), random.Random(SEED + number)
        scenario = read(text.encode())[0]
        texts, names = Texts(scenario.names), [name.decode() for name in scenario.names]
        events = [texts.event(event).decode() for event in scenario.given + scenario.schedule] or ["p.exec"]
        lines = random_lines(chance, names, events, 60)
        with tempfile.NamedTemporaryFile("w", encoding="utf-8") as file:
            file.write(text)
            file.flush()
            out, source = io.BytesIO(), "".join(f"{line}\n" for line in lines).encode()
            command_line(["debug", file.name], io.BytesIO(source), out, io.StringIO())
        found = answers_about(text, lines)
        if "GivenStuck" in found[0]:
            continue
        want = out.getvalue().decode()
        got = "".join(f"{in_lines(answer, line)}\n" for answer, line in zip(found, lines, strict=True))
        expect(len(found) == 60, "answers")
        expect_same(got, want)


def meets_the_same(_):
    """A run and one back meet the same positions, and `event --at` tells what `journal` does."""
    count = 0
    for number, path in enumerate(SCENARIOS):
        text, chance = stored(path), random.Random(SEED + number)
        subject = Subject(text.encode())
        if subject.refusal:
            continue
        ask = lambda line: json.loads(subject.answer(subject.read(line.encode())))
        names = [name.decode() for name in subject.served.texts.names]
        lines = [line for line in random_lines(chance, names, ["p.exec"], 200) if line.startswith("break")]
        known = [line for line in lines if line.split()[-1] not in ("NONE", "nobody")][:4]
        for line in [*known, f"break place {names[0]} doc", f"break op 2@{names[-1]}"]:
            ask(line)
        forwards, backwards = [], []
        while "break" in (answer := ask("run")):
            forwards.append((answer["at"], answer["break"]))
        ask("goto end")
        last = ask("where")["at"]
        if forwards and forwards[-1][0] == last:
            backwards.append(forwards[-1])
        while "break" in (answer := ask("back run")):
            backwards.append((answer["at"], answer["break"]))
        expect(answer.get("start") or "refused" in answer, f"{path}: {answer}")
        expect(forwards == backwards[::-1], f"{path}: forwards {forwards}, backwards {backwards}")
        count += len(forwards)
    expect(count > 100, f"{count} positions are few")


def places_in(shown, expression):
    """What is shown below a document's place, each with the expression that leads there."""
    yield expression, shown
    if isinstance(shown, dict) and list(shown) == ["!conflict"]:
        for name in {"list", "map"} & shown["!conflict"].keys():
            yield from list(places_in(shown["!conflict"][name], expression))[1:]
    elif isinstance(shown, dict):
        for name, part in shown.items():
            key = json.dumps(name[1:] if name.startswith("!") else name)
            yield from places_in(part, f"{expression}.get({key})")
    elif isinstance(shown, list):
        for number, part in enumerate(shown, 1):
            yield from places_in(part, f"{expression}.idx({number})")


def shows_parts(_):
    """What is shown at a place is the part of the document there, at some positions of all examples."""
    count, shown = 0, lambda answer: json.loads(answer, parse_int=str, parse_float=str)
    for path in SCENARIOS:
        text = stored(path)
        (given, positions), ask = positions_of(text), Here()
        if ask.bring(text.encode()).keys() & {"refused", "stuck"}:
            continue
        for position in {-(given // 2), *positions}:
            for view in ask.ask(f"view --at {position}"):
                views = f"view --at {position} {view['name']}"
                line = shown(ask.answer(line_of(views)))
                for expression, part in places_in(line["doc"], "doc") if "doc" in line else ():
                    got = shown(ask.answer(line_of(f"{views} {expression}")))
                    expect(got == {"doc": part, "name": view["name"]}, f"{path} at {position}, {expression}: {got}")
                    count += 1
    expect(count > 300, f"{count} places are few")


def is_one_journal(_):
    """An event told at its position is its line in the journal, before it is gone to and when it is."""
    for path in SCENARIOS:
        text = stored(path)
        given, length = (len(part) for part in (read(text.encode())[0].given, read(text.encode())[0].schedule))
        subject = Subject(text.encode())
        if subject.refusal:
            continue
        ask = lambda line: subject.answer(subject.read(line.encode())).decode()
        flags = "--trace --effects"
        first = f"-{given}" if given else "0"
        whole = json.loads(ask(f"journal {flags} {first} {length}"))
        for position in random.Random(SEED).sample(range(1 - given, length + 1), min(12, given + length)):
            line = whole[position + given - 1] if position + given <= len(whole) else {"stuck": True}
            if "stuck" in line:
                continue
            got = json.loads(ask(f"event --at {position} {flags}"))
            expect(got == line, f"{path} at {position}: {got}\nand not\n{line}")
            if position > 0:
                ask(f"goto {position}")
                expect(json.loads(ask(f"event {flags}")) == line, f"{path} at {position}")
            views = ask(f"view --at {position}")
            expect(position <= 0 or views == ask("view"), f"{path} at {position}: {views}")


def goes_anywhere(_):
    """The states are those that the events lead to, wherever one came from, with many copies on the way and with
    few."""
    for number, path in enumerate(SCENARIOS):
        scenario, chance = read(stored(path).encode())[0], random.Random(SEED + number)
        with mock.patch.multiple(debugger, SHORTEST_WAY=chance.choice((1, 2, 5)), MOST_COPIES=chance.choice((2, 4))):
            served = Served(scenario)
            if served.failed:
                continue
            for _ in range(25):
                move = chance.choice((served.step, served.back, served.goto))
                with contextlib.suppress(Refusal):
                    move(chance.randint(0, served.length))
                if chance.random() < 0.1:
                    served.act(chance.choice(served.enabled() or [("done", 0)]))
                at = chance.randint(-served.given, served.position)
                for position, shown in ((None, served.position), (at, at)):
                    events = served.events[:served.given + shown]
                    network, _, stuck = made(scenario._replace(given=[]), events)
                    want = b"[" + b",".join(served.texts.dump(replica).rstrip(b"\n") for replica in network) + b"]"
                    expect(not stuck and served.on_state(position, None) == want, f"{path} at {shown}")


def enables_what_acts(_):
    """Of the events that a replica may make at a position those are enabled that `act` can make there."""
    counts = collections.Counter()
    for path in ("examples/late-message.jsoncrdt", "examples/answer-first.jsoncrdt"):
        scenario = read(stored(path).encode())[0]
        for position in range(0, len(scenario.schedule) + 1, 4):
            served = Served(scenario)
            served.goto(position)
            enabled = served.enabled()
            for event in [each for p in range(len(served.network)) for each in candidates(served.network, p)]:
                move = copy.deepcopy(served).act(event)
                expect((move.stuck is None) == (event in enabled), f"{path} at {position}: {event}, {move.stuck}")
                counts[event[0], move.stuck is None] += 1
    expect(all(counts[kind, is_made] for kind in ("exec", "apply", "done") for is_made in (True, False)), f"{counts}")


def evaluates_alone(_):
    """An evaluation, and each other request that shows something, changes nothing."""
    looks = ["where", "state", "schedule", "print", "breaks", "event --trace --effects", "trace"]
    text = stored("examples/to-do.jsoncrdt")
    shows = ['eval p doc.get("todo").idx(1)', "eval --at 3 q doc.keys", "view --at 20", "state --at 1",
             "event --at 5 --effects", "journal --effects 2 9", "weave 1 9", "enabled", "compare p q", "places",
             "brief --at 19 p", "eval p x"]
    for position in (0, 7, 20):
        lines = [f"goto {position}", "break at 3", *looks]
        for show in shows:
            lines += [show, *looks]
        found = answers_about(text, lines)[2:]
        first = found[:len(looks)]
        for number, show in enumerate(shows, 1):
            start = number * (len(looks) + 1)
            expect(found[start:start + len(looks)] == first, f"{show} at {position} changes something")


# ---- wrong bodies: what is wrong, the file in oracle/, a text that stands there once, and what comes in its place

WRONG = [
    ("answers of the scenario before", "serve.py", "subject = Subject(requests.text(asked[1]))",
     "subject = subject if subject.served else Subject(requests.text(asked[1]))"),
    ("answers two lines", "serve.py", "            yield subject.counts()\n",
     "            yield subject.counts()\n            yield subject.counts()\n"),
    ("makes an event to evaluate", "serve.py", "        return self.texts.bound(self.evaluated(",
     "        self.events[:0] = [('exec', 0)]\n        return self.texts.bound(self.evaluated("),
    ("misses what changes below alone", "effects.py", "    if not found or len(place) == 1:\n",
     "    if found and len(place) == 1 and found.keys() <= {'key', 'map', 'list', 'gained'}:\n        return None\n"
     "    if not found or len(place) == 1:\n"),
    ("is one off behind given events", "serve.py", "return which, self.event_at(position), is_given",
     "return which + is_given, self.event_at(position), is_given"),
    ("takes a given event for the schedule's", "debugger.py", "        count = self.given + position\n        return",
     "        count = position\n        return"),
    ("goes below 0", "debugger.py", "        if count > self.position:\n", "        if count > self.here.count:\n"),
    ("runs back past a breakpoint", "debugger.py", "found = (position, hit) if hit else found",
     "found = (position, hit) if hit and not found[1] else found"),
    ("shows the document for a place", "view.py", "View(texts, replica).place(context, path, key)",
     "View(texts, replica).place(replica.tree, (), DOC)"),
    ("shows what was deleted", "view.py", "    if context and context.presences.get(key):\n", "    if context:\n"),
    ("shows a place for its names", "serve.py", 'if kind == "cursor" else self.texts.bound((kind, *bound))',
     "if bound[-1:] else b''"),
    ("meets what was taken for another place", "debugger.py", "return event[1] == what[0] and self.changes",
     "return self.changes"),
    ("keeps breakpoints", "serve.py", "self.served = Served(scenario)",
     "self.served = Served(scenario)\n            self.served.breakpoints = vars(Subject.__init__)"),
]


def copied_with(folder, file, right, wrong):
    """The command of a copy of the rules in which a text of a file is another."""
    text = stored(os.path.join("oracle", file))
    expect(text.count(right) == 1, f"{right} stands in oracle/{file} {text.count(right)} times")
    copy_into(folder, "python", "oracle")
    with open(os.path.join(folder, "oracle", file), "w", encoding="utf-8") as changed:
        changed.write(text.replace(right, wrong))
    return os.path.join(folder, IN_PYTHON)


def wrong_case(what, file, right, wrong):
    """A wrong body is seen by the worked answers."""

    def tried(_):
        source = b"".join(asked(about.encode(), [request.encode() for request, _ in rows]) for about, _, rows in WORKED)
        want = [answer for _, first, rows in WORKED for answer in (first, *(told_of for _, told_of in rows))]
        with tempfile.TemporaryDirectory() as folder:
            program = copied_with(folder, file, right, wrong)
            ended = subprocess.run([program, "serve"], input=source, capture_output=True, check=False, timeout=PATIENCE)
        expect(ended.stdout.decode().splitlines() != want, f"it isn't seen that one {what}")
        expect(not re.search(rb"(?:Syntax|Name|Import)Error", ended.stderr), ended.stderr.decode())

    return f"serve: a body that {what} is seen", tried


# ---- as a process


def started(words=(IN_PYTHON, "serve"), **streams):
    streams = {"stdin": subprocess.PIPE, "stdout": subprocess.PIPE, "stderr": subprocess.PIPE} | streams
    # With this variable Python would keep nothing that isn't flushed.
    environment = {name: value for name, value in os.environ.items() if name != "PYTHONUNBUFFERED"}
    return subprocess.Popen(words, env={**environment, IN_TEST: "yes"}, **streams)


def is_at_once(program):
    """Whether each answer is there before the next request is sent."""
    with started((program, "serve")) as process:
        try:
            for request, want in ((b"jump\n", BAD), (asked(GIVEN.encode()), WORKED[0][1]),
                                  (b"step\n", '{"at":1,"event":"b.take(a, 2, a)"}'), (b"quit\n", '{"quit":true}')):
                process.stdin.write(request)
                process.stdin.flush()
                if not select.select([process.stdout], [], [], FEW_SECONDS)[0]:
                    return False
                expect_same(process.stdout.readline().decode(), want + "\n")
            return process.wait(PATIENCE) == 0  # while its input stays open
        finally:
            process.kill()


def answers_at_once(_):
    expect(is_at_once(IN_PYTHON), "an answer is kept")
    with tempfile.TemporaryDirectory() as folder:
        program = copied_with(folder, "serve.py", "            out.flush()\n", "")
        expect(not is_at_once(program), "it isn't seen that answers are kept")


# Input, the answers, the status, and what standard error has besides.
ENDS = [
    (b"", [], 0, ""),
    (b"jump", [BAD], 0, ""),
    (b"scenario 9\nabc", [], 4, "read failed: standard input: it ends within a text\n"),
    (b"scenario 1", [], 4, "read failed: standard input: it ends within a text\n"),
    (b"scenario 0", [refused_text(14, "NoHeader", 0, 0, 1, 1)], 0, ""),
    # A text that is longer than was said: the rest is read as requests.
    (b"scenario 10\njsoncrdt 1 replica a {}\nwhere\n", [refused_text(16, "NoReplica", 10, 10, 1, 11), BAD,
                                                       refused_text(16, "NoReplica", 10, 10, 1, 11)], 0, ""),
    # One that is shorter takes the next request in.
    (b"scenario 30\njsoncrdt 1 replica a {}\nwhere\nwhere\n",
     [refused_text(7, "Unexpected", 24, 29, 2, 1, "replica schedule")] * 2, 0, ""),
    (b"\0\0\n\xff\n", [BAD, BAD], 0, ""),
]


def ends_case(source, want, status, errors):
    def tried(_):
        with started() as process:
            output, told_errors = process.communicate(source, PATIENCE)
        expect(process.returncode == status, f"it ended with {process.returncode}: {told_errors.decode()}")
        expect_same(output.decode(), "".join(f"{answer}\n" for answer in want))
        expect_same(told_errors.decode().split("\n", 1)[1], errors)

    return f"serve: {source[:40]!r} ends with {status}", tried


def fails_to_write(_):
    """A reader that has left, and an output that is full or closed."""
    for shell in ("oracle/jsoncrdt serve >/dev/full", "oracle/jsoncrdt serve >&-"):
        ended = run(f"echo jump | {shell}", IN_PYTHON, shell=True)
        expect(ended.returncode == 4 and ended.stderr.endswith(b"write failed\n"), f"{shell}: {ended}")
    with started() as process:
        process.stdout.close()
        process.stdin.write(b"jump\n")
        process.stdin.close()
        errors = process.stderr.read().decode()
    expect(process.returncode == 4 and "Traceback" not in errors and errors.endswith("write failed\n"), errors)


def fails_to_read(_):
    ended = run("oracle/jsoncrdt serve <&-", IN_PYTHON, shell=True)
    expect(ended.returncode == 4 and b"read failed: standard input: " in ended.stderr, f"{ended}")


def is_bounded(_):
    """It always ends: behind so many requests, and so many bytes."""
    expect((requests.MOST_REQUESTS, requests.MOST_BYTES) == (4_294_967_296, 1_099_511_627_776), "the bounds")
    for bound, most, source, count, status in (
            ("most_requests", 3, b"jump\n" * 3, 3, 0), ("most_requests", 3, b"jump\n" * 4, 3, 4),
            ("most_bytes", 10, b"jump\njump\n", 2, 0), ("most_bytes", 10, b"jump\njump\nj", 2, 4),
            ("most_bytes", 12, b"scenario 1\na", 1, 0), ("most_bytes", 11, b"scenario 1\na", 0, 4)):
        out, err = io.BytesIO(), io.StringIO()
        got = serve(Input(io.BytesIO(source), **{bound: most}), out, err)
        expect(out.getvalue().count(b"\n") == count, f"{bound} {source}: {out.getvalue()}")
        expect((got, err.getvalue()) == (status, "too many lines\n" if status else ""), f"{bound} {source}: {got}")


def at_terminal(_):
    """At a terminal a sentence says what it is for, and requests are answered."""
    for words in ((IN_PYTHON, "serve"), ("./jsoncrdt", "serve")):
        master, other = pty.openpty()
        with started(words, stdin=other) as process:
            os.close(other)
            os.write(master, b"jump\n\x04")
            output, errors = process.communicate(timeout=PATIENCE)
        os.close(master)
        expect(process.returncode == 0 and output.decode() == BAD + "\n", f"{process.returncode} {output}")
        expect(re.search(rb"serve is for programs: .*docs/PROGRAMS\.md", errors), errors.decode())


OLDER = "#!/bin/sh\n[ \"$1\" = serve ] && { echo 'error: unrecognized subcommand' >&2; exit 2; }\nexec cat\n"
YOUNGER = "#!/bin/sh\n[ \"$1\" = serve ] && sed 's/.*/\"built\"/'\n"


def launched(_):
    """The launcher asks the rules in Python where the built program has no serve, and says so; else the program."""
    for program, answer, said in ((OLDER, BAD + "\n", "unproved: the program has no serve yet\n"),
                                  (YOUNGER, '"built"\n', "")):
        with tempfile.TemporaryDirectory() as folder:
            copy_into(folder, "oracle", "python", "jsoncrdt")
            os.makedirs(os.path.join(folder, "crates", "jc_app", "src"))
            os.makedirs(os.path.join(folder, "crates", "jc_app", "out"))
            place(os.path.join(folder, "crates.txt"), "jc_app:\n")
            time.sleep(0.05)
            place(os.path.join(folder, "crates", "jc_app", "out", "jc_app"), program)
            ended = run([os.path.join(folder, "jsoncrdt"), "serve"], IN_PYTHON, "jump\n")
        expect(ended.stdout.decode() == answer and ended.stderr.decode().endswith(said), f"{ended}")
        expect(bool(said) == bool(ended.stderr), f"{ended}")


TYPED = ("until conflict\nview\nlist\nfate\nback until event q.exec\nuntil changes doc\ngoto 12\nview --raw\n"
         "back until diverge\n")


def debugs_alike(_):
    """tools/debug says the same of a program that has serve, of one that hasn't it, and of the rules in Python here."""
    begin, end = "#!/bin/sh\n", f'exec "{os.path.abspath(IN_PYTHON)}" "$@"\n'
    with folder_of({"served": begin + end, "older": f'{begin}[ "$1" = serve ] && exit 2\n{end}'}) as folder:
        for path in ("examples/one-value.jsoncrdt", "examples/stuck.jsoncrdt", "examples/answer-first.jsoncrdt"):
            ended = [run(["tools/debug", path], program, TYPED) for program in
                     (IN_PYTHON, os.path.join(folder, "served"), os.path.join(folder, "older"))]
            told_of_each = [(one.returncode, one.stdout.decode()) for one in ended]
            expect(told_of_each[0][0] == 0 and told_of_each[0][1].count("\n") > 10, f"{told_of_each[0]}")
            expect(told_of_each[0] == told_of_each[1] == told_of_each[2], f"{path}: {told_of_each}")


# Programs that answer `quit` as serve does, and nothing else so; how a tool ends that asks one, and what it tells.
STRANGE = '#!/bin/sh\nread line\n[ "$line" = quit ] && { echo \'{"quit":true}\'; exit; }\n'
STRANGERS = {
    "other": ("while read line; do echo {}; done\n", 2, "isn't jsoncrdt: it neither took a scenario nor refused it"),
    "garbled": ("echo no JSON; sleep 60\n", 2, "isn't jsoncrdt: it answered no JSON"),
    "ended": ("exit 5\n", 4, "ended with 5, and gave no answer"),
}
ASKING = ("tools/page examples/first.jsoncrdt", "tools/explore examples/first.jsoncrdt",
          "tools/why examples/first.jsoncrdt doc", "tools/shrink examples/first.jsoncrdt true",
          "kit/check --only both-append --jobs 2 --ops oracle/adapter --ops",
          "kit/campaign --workers 1 --folder results --call oracle/adapter:answer")


def asks_strangers(_):
    """Whoever asks a program that is no jsoncrdt says so in a line."""
    with folder_of({name: STRANGE + rest for name, (rest, _, _) in STRANGERS.items()}) as folder:
        for name, words in itertools.product(STRANGERS, ASKING):
            path, (_, status, told_why) = os.path.join(folder, name), STRANGERS[name]
            ended = run(words.replace("results", f"{path}.d"), path, shell=True)
            tool = os.path.basename(words.split()[0])
            expect_same(ended.stderr.decode(), f"{tool}: {path} {told_why}\n")
            expect(ended.returncode == status, f"{words}: it ended with {ended.returncode}")
        for words in ASKING[-2:]:
            ended = run(words.replace("results", os.path.join(folder, "d")), os.path.join(folder, "none"), shell=True)
            expect(ended.returncode == 2 and b"/none can't be started\n" in ended.stderr, f"{ended}")


def serving():
    for row in WORKED:
        yield worked_case(*row)
    yield "serve: texts that are refused", refuses_texts
    yield "serve: what could stand where a text is refused, by hand", expects_what_could_stand
    yield "serve: what could stand where a text is refused, by trying", expects_what_goes_on
    yield "serve: lines that are no requests", refuses_lines
    yield "serve: ends of lines", is_as_in_sessions
    for path in SCENARIOS:
        yield lines_case(path)
    yield "serve: as a session", is_as_session
    yield "serve: runs forwards and back", meets_the_same
    yield "serve: events at their positions", is_one_journal
    yield "serve: places of documents", shows_parts
    yield "serve: states wherever one comes from", goes_anywhere
    yield "serve: what is enabled", enables_what_acts
    yield "serve: what shows something changes nothing", evaluates_alone
    for row in WRONG:
        yield wrong_case(*row)
    yield "serve: answers at once", answers_at_once
    for row in ENDS:
        yield ends_case(*row)
    yield "serve: output that fails", fails_to_write
    yield "serve: input that fails", fails_to_read
    yield "serve: bounds", is_bounded
    yield "serve: at a terminal", at_terminal
    yield "serve: the launcher", launched
    yield "serve: programs that are none", asks_strangers
    yield "serve: tools/debug through it", debugs_alike
