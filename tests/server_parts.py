"""What tools/lsp and tools/dap are made of, by itself: places in texts, what is said of a text, edits, values that are
opened, and texts that are mutated. Expected values are made by hand."""

import glob
import json
import os
import random
import re

from cases import expect, expect_same, stored

from completing import completions
from documents import Document, diagnostics
from editing import FILL, GIVE, SYNC, WEAVE, code_actions, definition, formatting, give_before, lenses, symbols
from hovers import hover
from places import Lines, Source, in_bytes
from questions import Left
from variables import Shown

FUZZED, SEED = 300, 20261128


# ---- places

# A text, an offset in its bytes, and the line and the unit there.
POSITIONS = [
    ("", 0, (0, 0)),
    ("ab\ncd", 1, (0, 1)),
    ("ab\ncd", 2, (0, 2)),
    ("ab\ncd", 3, (1, 0)),
    ("ab\ncd", 5, (1, 2)),
    ("ab\r\ncd", 4, (1, 0)),
    ("ab\rcd\n", 3, (1, 0)),
    ("ab\n", 3, (1, 0)),
    ("\n\n\n", 2, (2, 0)),
    ("é=", 2, (0, 1)),
    ("😀=", 4, (0, 2)),
    ("x\n😀é=", 8, (1, 3)),
    ("\u2028=", 3, (0, 1)),
    ("e\u0301=", 3, (0, 2)),
]
# A text, a line and a unit that are no offset's own, and the offset that is meant.
NEAREST = [
    ("ab\ncd", (0, 9), 2),
    ("ab\r\ncd", (0, 9), 2),
    ("ab\ncd", (1, 9), 5),
    ("ab\ncd", (7, 0), 5),
    ("😀=", (0, 1), 0),
    ("x😀=", (0, 2), 1),
]


def has_positions(_):
    for text, offset, position in POSITIONS:
        lines = Lines(in_bytes(text))
        expect(lines.position(offset) == position, f"{text!r} {offset}: {lines.position(offset)}, and not {position}")
        expect(lines.offset(*position) == offset, f"{text!r} {position}: {lines.offset(*position)}, and not {offset}")
    for text, position, offset in NEAREST:
        found = Lines(in_bytes(text)).offset(*position)
        expect(found == offset, f"{text!r} {position}: {found}, and not {offset}")
    broken = Lines(b"a\xff\xfeb\n\xffc")
    expect(broken.position(3) == (0, 3) and broken.offset(0, 3) == 3, "a byte that is no UTF-8 is one unit")
    expect(Lines(in_bytes("\ud800a")).position(3)[0] == 0, "half a pair is on its line")


# A text, and its blocks: the word and the name, and the texts of the items.
BLOCKS = [
    ("", []),
    ("jsoncrdt 1", []),
    ("jsoncrdt 1 replica a {}", [("replica", "a", [])]),
    ("replica a { x := 1; ; y := {} } schedule { a.exec; a.done }",
     [("replica", "a", ["x := 1", "y := {}"]), ("schedule", None, ["a.exec", "a.done"])]),
    ('replica a { doc.get("};{") := "\\"}" }', [("replica", "a", ['doc.get("};{") := "\\"}"'])]),
    ("replica a { doc.insertAfter({}); x } given { a.exec }",
     [("replica", "a", ["doc.insertAfter({})", "x"]), ("given", None, ["a.exec"])]),
    # Texts that aren't finished.
    ("replica a { x := 1; y", [("replica", "a", ["x := 1", "y"])]),
    ('replica a { doc.get("x\n} schedule { a.', [("replica", "a", ['doc.get("x']), ("schedule", None, ["a."])]),
    ("replica a { x := 1 replica b { y", [("replica", "a", ["x := 1"]), ("replica", "b", ["y"])]),
    ("replica a { x := { ; y } schedule {", [("replica", "a", ["x := {", "y"]), ("schedule", None, [])]),
    ("} } replica a { x }", [("replica", "a", ["x"])]),
    ("replica { x } schedule { a.exec }", [("replica", None, ["x"]), ("schedule", None, ["a.exec"])]),
]


def has_blocks(_):
    for text, blocks in BLOCKS:
        source = Source(in_bytes(text))
        found = [(block.word, block.name, block.texts()) for block in source.blocks]
        expect(found == blocks, f"{text!r}: {found}, and not {blocks}")
    source = Source(b"replica ab { let x = doc; x := 1 }")
    block = source.blocks[0]
    expect([(let.start, let.end) for let in block.lets()] == [(17, 18)], "where a let binds")
    offsets = block.name_span.start, block.name_span.end, block.inside, block.inside_end, block.end
    expect(offsets == (8, 10, 12, 33, 34), "where a block is")
    expect([block.number_at(offset) for offset in (12, 13, 24, 25, 26, 32, 33)] == [None, 0, 0, None, 1, 1, None],
           "which item is at an offset")


# A text, an offset, and the token there.
TOKENS = [
    ("p.apply(12, q)", 0, "p"),
    ("p.apply(12, q)", 1, "p"),
    ("p.apply(12, q)", 2, "apply"),
    ("p.apply(12, q)", 7, "apply"),
    ("p.apply(12, q)", 8, "12"),
    ("p.apply(12, q)", 11, ","),
    ("p.apply(12,  q)", 12, None),
    ("p.apply(12, q)", 13, "q"),
    ('doc.get("a b")', 9, '"a b"'),
    ("x := 1", 2, ":="),
]


def has_tokens(_):
    for text, offset, word in TOKENS:
        source = Source(in_bytes(text))
        token = source.token_at(0, offset)
        found = token and source.text[token.start:token.end].decode()
        expect(found == word, f"{text!r} {offset}: {found!r}, and not {word!r}")


def has_blocks_of_program(_):
    """Where blocks, commands and events are, by their tokens alone, is what the program tells of a text that it doesn't
    refuse."""
    for path in glob.glob("examples/**/*.jsoncrdt", recursive=True):
        document = document_of(stored(path))
        found = [{"kind": block.word, "start": block.start, "end": block.end,
                  **({"name": block.name} if block.name else {}),
                  "items": [[item.start, item.end] for item in block.items]} for block in document.source.blocks]
        expect(document.questions.ask("places") == found, f"{path}: {found}")


# ---- what is said

def document_of(text):
    return Document("file:///a.jsoncrdt", text)


def offsets_of(document, diagnostic):
    """From where to where a diagnostic is."""
    return [document.source.lines.offset(*diagnostic["range"][end].values()) for end in ("start", "end")]


def marked(text):
    """The numbers of what is wrong in a text, with what of it is marked."""
    document = document_of(text)
    return [(each["code"], document.text[slice(*offsets_of(document, each))].decode(errors="replace"))
            for each in diagnostics(document)]


WRONG = [
    ("jsoncrdt 1 replica a {}", []),
    ("jsoncrdt 1 replica a { # a note", [(1, "#")]),
    ('jsoncrdt 1 replica a { doc := "x', [(2, '"')]),
    ('jsoncrdt 1 replica a { doc := "x\ny', [(1, "\n")]),
    ('jsoncrdt 1 replica a { doc := "\\x41"', [(3, "\\")]),
    ('jsoncrdt 1 replica a { doc := "\\ud83d"', [(4, "\\ud83d")]),
    ("jsoncrdt 1 replica a { doc := 01", [(5, "01")]),
    ("jsoncrdt 1 replica a { é", [(1, "é")]),
    ("jsoncrdt 1 replica a { yield", [(8, "")]),
    ('jsoncrdt 1\nreplica a {\n  doc.get("😀") = 1\n}', [(7, "=")]),
    ("jsoncrdt 1 replica a { yield } schedule { a.recv(bc) }", [(18, "bc")]),
    ("jsoncrdt 1 replica a { doc := 1 } schedule { a.exec; a.exec }", [(30, "a.exec")]),
    ("jsoncrdt 1 replica a { yield } schedule { a.send; a.done; a.send }", [(30, "a.send")]),
    ("jsoncrdt 2 replica a { yield; } given { a.done } schedule { a.exec }", [(33, "a.done")]),
    ('jsoncrdt 1 replica a { doc := "\ud800" }', [(13, "\ufffd" * 3)]),
]


def has_diagnostics(_):
    for text, wanted in WRONG:
        expect(marked(text) == wanted, f"{text!r}: {marked(text)}, and not {wanted}")
    said = diagnostics(document_of("jsoncrdt 1 replica a { doc = 1 }"))[0]["message"]
    expect_same(said, "7 Unexpected: A token doesn't fit where it is: put one that could be there, or take it out.\n"
                "found `=`, expected `.` or `:=`\nhint: an assignment is `:=`; `=` is for `let` alone")


def labels(text):
    """What is offered where a text has a |."""
    before, _, after = text.partition("|")
    return [item["label"] for item in completions(document_of(before + after), len(in_bytes(before)))]


OFFERED = [
    ("|", ["jsoncrdt 2"]),
    ("jsoncrdt 1 |", ["replica"]),
    ("jsoncrdt 2 replica a { yield } |", ["replica", "given", "schedule"]),
    ("jsoncrdt 1 replica a { let x = doc; | }", ["yield", "let", "x", "doc"]),
    ("jsoncrdt 1 replica a { let x = do", ["doc"]),
    ("jsoncrdt 1 replica a { doc.|; yield }", ['get("")', "idx(1)", "keys", "values", "insertAfter(", "delete"]),
    ("jsoncrdt 1 replica a { doc := t|", ['""', "true", "false", "null", "{}", "[]"]),
    ("jsoncrdt 1 replica a { doc := := t|", []),
    ("jsoncrdt 1 replica a { doc := 1 } schedule { a.exec; | }", ["a"]),
    ("jsoncrdt 1 replica a { yield } schedule { |", ["a.send", "a.recv(a)", "a"]),
    ("jsoncrdt 1 replica a { yield } schedule { a.send; a|; a.exec", ["a.send", "a.recv(a)", "a.done", "a"]),
    ("jsoncrdt 2 replica a { yield } given { a.send; | } schedule { }", ["a.send", "a.recv(a)", "a.done", "a"]),
    ("jsoncrdt 1 replica a { wrong } schedule { |", ["a"]),
    ('jsoncrdt 1 replica a { doc.get("\ud800").|', []),
]


def completes(_):
    for text, wanted in OFFERED:
        cursor = text if "|" in text else text + "|"
        found = labels(cursor)
        if "|" in text:
            expect(sorted(found) == sorted(wanted), f"{text!r}: {found}, and not {wanted}")
        else:
            expect(set(wanted) <= set(found), f"{text!r}: {found}, and not {wanted}")


def replaces_what_is_begun(_):
    """An item comes in place of what is begun: an event as a whole, a word of a script."""
    for text, begin in (("jsoncrdt 1 replica a { yield } schedule {\n a.se", 1),
                        ("jsoncrdt 1 replica a {\n doc.ge", 5)):
        found = completions(document_of(text), len(text))
        ranges = [item["textEdit"]["range"] for item in found]
        wanted = {"start": {"line": 1, "character": begin}, "end": {"line": 1, "character": len(text.split("\n")[1])}}
        expect(ranges and all(each == wanted for each in ranges), f"{text!r}: {found}")
        expect(not any("filterText" in item for item in found), "Neovim doesn't look at the range then")


HOVERED = """jsoncrdt 1
replica a { let x = doc.get("x"); let x = doc; x.get("y") := 1; x.get("z") := 2; x.get("z") := 3 }
schedule { a.exec; a.exec; a.exec; a.exec; a.exec }
"""


def hovered(text, nth=1):
    """What is shown of a text's place, in the text above."""
    place = [found.start() for found in re.finditer(re.escape(text), HOVERED)][nth - 1]
    return hover(document_of(HOVERED), place)["contents"]["value"]


def shows_events(_):
    told = hovered("exec", 4)
    expect('**a.exec**, event 4\n' in told and '2@a  x.get("z") := 2' in told, told)
    expect('```\ndoc/"z" gets 2@a 2, appears\n```' in told, told)
    told = hovered("exec", 5)
    expect('doc/"z" loses 2@a 2, gets 3@a 3' in told and "appears" not in told, told)
    rules = re.findall(r"^- ([A-Z0-9-]+): [A-Z`].*\.$", told, re.MULTILINE)
    expect(rules[:4] == ["EXEC", "MAKE-ASSIGN", "GET", "VAR"] and len(set(rules)) == len(rules), f"{rules}")
    expect('{"cursor": ["doc"]}' in hovered("x = doc;"), hovered("x = doc;"))
    expect('{"y": 1}' in hovered("a.exec", 3) and '{"y": 1, "z": 3}' in hovered("a {"), hovered("a.exec", 3))


def leads_to_definitions(_):
    document = document_of(HOVERED)
    for text, wanted in (('x.get("y")', (1, 38)), ('x = doc.get("x")', (1, 16)), ("exec; a.exec }", (1, 64))):
        found = definition(document, HOVERED.index(text))["range"]["start"]
        expect((found["line"], found["character"]) == wanted, f"{text}: {found}")


def gives_edits(_):
    text = "jsoncrdt 1\nreplica a { doc := 1; yield }\nschedule { a.exec; a.send; a.done }\n"
    document = document_of(text)
    edits = give_before(document, text.index(" a.done"))["changes"][document.uri]
    expect([edit["newText"] for edit in edits] ==
           ["2", "given {\n  a.exec;\n  a.send;\n}\nschedule {\n  a.done;\n}"], f"{edits}")
    expect(edits[0]["range"] == {"start": {"line": 0, "character": 9}, "end": {"line": 0, "character": 10}}, f"{edits}")
    actions = code_actions(document, text.index("a.done"), 3)
    expect([action["command"]["command"] for action in actions] == [WEAVE, GIVE], f"{actions}")
    actions = code_actions(document_of("jsoncrdt 2 replica a {} replica b {} given {} schedule { a.exec }"), 60, 0)
    expect([action["command"]["command"] for action in actions] == [WEAVE, FILL, SYNC], f"{actions}")
    expect(formatting(document)[0]["newText"].startswith("jsoncrdt 1\nreplica a {\n  doc := 1;\n"), "formatting")


def opens_values(_):
    shown = Shown()
    document = {"doc": {"!!x": [1, {"!conflict": {"values": [["1@p", "a"]], "list": []}}]}}
    top = shown.variables(shown.keep(lambda: document, "p"))[0]
    entry = shown.variables(top["variablesReference"])[0]
    expect(entry["evaluateName"] == 'doc.get("!x")' and entry["indexedVariables"] == 2, f"{entry}")
    second = shown.variables(entry["variablesReference"])[1]
    expect((second["name"], second["value"]) == ("[2]", "conflict of 1 value, a list"), f"{second}")
    expect(shown.place_of(entry["variablesReference"], "[2]") == ("p", 'doc.get("!x").idx(2)'), "a place")
    number = shown.variables(shown.keep(lambda: {"a": {"n": "1.50"}}))[0]
    expect((number["value"], number["variablesReference"]) == ("1.50", 0), f"{number}")
    try:
        shown.variables(99)
    except LookupError:
        return
    expect(False, "a reference that is none opens something")


def is_left(_):
    document = document_of("jsoncrdt 1 replica a {}")
    document.questions.leave()
    try:
        diagnostics(document)
    except Left:
        return
    expect(False, "a text that was left is asked about")


# ---- texts that are mutated

PIECES = ["{", "}", ";", ".", "(", ")", '"', "\\", ":=", "=", "\n", "\r", "\t", "\0", "\x7f", "\ufffd", "\ud800", "😀",
          "replica a {", "given {", "schedule {", "a.exec;", "q.apply(1, p)", "let x = ", 'doc.get("', "99999999999",
          "doc", " "]


def mutation(draw, texts):
    """One of the texts with a few places changed."""
    text = draw.choice(texts)
    for _ in range(draw.randint(1, 4)):
        start = draw.randrange(len(text) + 1)
        end = start + draw.choice((0, 0, 1, 3, 20, 200))
        piece = draw.choice(PIECES) if draw.random() < 0.7 else text[end:end + draw.randrange(30)]
        text = text[:start] + piece + text[end:]
    return text


def looked_at(draw, text):
    """Asks all that an editor asks about a text, at a place that is drawn; gives the number of what is wrong."""
    document = document_of(text)
    offset = draw.randrange(len(document.text) + 1)
    found = diagnostics(document)
    if found:
        is_marked_where_refused(document, found[0])
    json.dumps([hover(document, offset), completions(document, offset), definition(document, offset),
                code_actions(document, offset, 0), give_before(document, offset), symbols(document),
                formatting(document), lenses(document, 0)])
    return found[0]["code"] if found else 0


def is_marked_where_refused(document, diagnostic):
    """A diagnostic begins at the offset that the program has, and goes on within the text. Between CR and LF there is
    no position, and none within a character."""
    start, end = offsets_of(document, diagnostic)
    expect(start <= end <= len(document.text), f"{diagnostic}")
    refused = document.refusal
    begin = document.text[refused["offset"]:] if refused else b""
    has_position = refused and b"\r" not in document.text and not 0x80 <= (begin or b" ")[0] < 0xC0
    expect(not has_position or start == refused["offset"], f"{start} and {refused}")


def fuzz(count, seed):
    """The numbers of what was wrong in so many mutated texts, each with how often it was met."""
    draw, met = random.Random(seed), {}
    files = sorted(glob.glob("examples/*.jsoncrdt"))
    texts = [stored(file) for file in files if os.path.getsize(file) < 2000]
    for number in range(count):
        text = mutation(draw, texts)
        try:
            code = looked_at(draw, text)
        except Exception as fault:
            raise AssertionError(f"mutation {number} of seed {seed}, {text!r}: {fault!r}") from fault
        met[code] = met.get(code, 0) + 1
    return met


def survives_mutations(_):
    met = fuzz(FUZZED, SEED)
    expect(sum(met.values()) == FUZZED and {0, 7, 8} <= set(met), f"{met}")


def server_parts():
    yield "tools/lsp: offsets and positions", has_positions
    yield "tools/lsp: blocks and items", has_blocks
    yield "tools/lsp: tokens", has_tokens
    yield "tools/lsp: blocks and items as the program has them", has_blocks_of_program
    yield "tools/lsp: diagnostics", has_diagnostics
    yield "tools/lsp: completions", completes
    yield "tools/lsp: what a completion replaces", replaces_what_is_begun
    yield "tools/lsp: hovers", shows_events
    yield "tools/lsp: definitions", leads_to_definitions
    yield "tools/lsp: edits", gives_edits
    yield "tools/lsp: a text that was left", is_left
    yield f"tools/lsp: {FUZZED} mutated texts", survives_mutations
    yield "tools/dap: values that open", opens_values
