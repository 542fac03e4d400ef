"""The colours of scenarios by editors/vscode/jsoncrdt.tmLanguage.json. Its patterns are applied as editors apply such
grammars: line by line, and of the patterns of a block the one that is found first."""

import json
import re

from cases import expect, expect_same, stored
from jsoncrdt.oracle.grammar import EVENTS, NAME, NUMBER, RESERVED, SIGN, STRING, tokens

GRAMMAR = "editors/vscode/jsoncrdt.tmLanguage.json"
WORDS = {**dict.fromkeys((b"yield", b"let"), "keyword.control"), b"doc": "variable.language",
         **dict.fromkeys((b"get", b"idx", b"keys", b"values", b"insertAfter", b"delete"), "support.function"),
         **dict.fromkeys((b"true", b"false", b"null"), "constant.language")}
OF_KIND = {STRING: "string.quoted.double", NUMBER: "constant.numeric"}
OF_SIGN = {b":=": "keyword.operator", b"=": "keyword.operator", b"[": "constant.language", b"]": "constant.language"}
REPLICA, EVENT, VARIABLE, BLOCK = ("entity.name.type.replica", "support.function.event", "variable.other",
                                   "keyword.control")
# A line with a string that isn't closed, and the next one, which has its own colours.
OPEN = 'jsoncrdt 1 replica p {\n  doc.get("a := 1;\n  doc := true }\n'


class Colours:
    """A grammar, applied to texts."""

    def __init__(self, grammar):
        self.grammar, self.opened, self.scopes = grammar, [], []

    def rules(self, patterns):
        """The patterns of a block in their order, with those that it includes."""
        for each in patterns:
            if "include" in each:
                named = self.grammar["repository"][each["include"].removeprefix("#")]
                yield from self.rules([named] if {"match", "begin"} & named.keys() else named["patterns"])
            else:
                yield each

    def found(self, line, at):
        """What is found first from there: where, and by which rule; that of the open block's end stands before all."""
        top, found = self.opened[-1], []
        for rule in [top, *self.rules(top["patterns"])]:
            pattern = rule.get("end") if rule is top else rule.get("match", rule.get("begin"))
            if pattern and (there := re.compile(pattern).search(line, at)):
                found.append((there, rule))
        return min(found, key=lambda each: each[0].start(), default=(None, None))

    def put(self, begun, there, name, captures):
        """Colours what a rule found."""
        self.scopes[begun + there.start():begun + there.end()] = [name] * (there.end() - there.start())
        for group, capture in captures.items():
            start, end = there.span(int(group))
            self.scopes[begun + start:begun + end] = [capture["name"]] * (end - start)

    def colour_line(self, line, begun):
        at = 0
        while True:
            top = self.opened[-1]
            there, rule = self.found(line, at)
            self.scopes[begun + at:begun + len(line)] = [top.get("name")] * (len(line) - at)
            if not there:
                return
            if rule is top:
                self.put(begun, there, top.get("name"), top.get("endCaptures", {}))
                self.opened.pop()
            else:
                assert there.end() > there.start(), f"{rule} takes nothing"
                self.put(begun, there, rule.get("name"), rule.get("captures", rule.get("beginCaptures", {})))
                if "begin" in rule:
                    self.opened.append({"patterns": [], **rule})
            at = there.end()

    def of(self, text):
        """The innermost scope of each character of a text, or none."""
        self.opened, self.scopes, begun = [self.grammar], [None] * len(text), 0
        for line in text.splitlines(keepends=True):
            self.colour_line(line, begun)
            begun += len(line)
        return self.scopes


def wanted(text):
    """The tokens of a scenario, each with the scope that it should have and its offset."""
    block, depth, before = b"", 0, b""
    for kind, word, offset in tokens(text)[:-1]:
        depth += (word == b"{") - (word == b"}") if kind == SIGN else 0
        if kind == NAME and depth == 0:
            scope = REPLICA if before == b"replica" and block == b"replica" else BLOCK
            block = word if scope == BLOCK else b""
        elif kind == NAME and block in (b"given", b"schedule"):
            scope = EVENT if before == b"." else REPLICA
        elif kind == NAME:
            scope = WORDS.get(word, VARIABLE)
        else:
            scope = OF_KIND.get(kind) or OF_SIGN.get(word, "punctuation")
        yield word, scope, offset
        before = word


def fits(scope, there, word):
    """Whether a character has the colour of its token; escapes have their own, and empty maps that of lists."""
    may_be = {"string.quoted.double": "constant.character.escape", "punctuation": "constant.language"}
    return bool(there) and there.startswith((scope, may_be[scope] if word[:1] in b'"{}' and scope in may_be else scope))


def faults_of(colours, path):
    text = stored(path).encode()
    scopes = colours.of(text.decode("latin-1"))
    for word, scope, offset in wanted(text):
        if wrong := [there for there in scopes[offset:offset + len(word)] if not fits(scope, there, word)]:
            yield f"{path}: {word.decode()} at {offset} is {wrong[0]}, and should be {scope}"


def colours_words(_):
    """Each word of the language stands in a pattern, and has a colour here."""
    grammar = Colours(json.loads(stored(GRAMMAR)))
    expect_same({*WORDS}, RESERVED)
    for word in (*EVENTS, b"take"):
        scopes = grammar.of(f"schedule {{ p.{word.decode()}(q) }}")
        expect(scopes[13].startswith(EVENT), f"{word}: {scopes[13]}")


def scenarios_case(paths):
    def tried(_):
        colours = Colours(json.loads(stored(GRAMMAR)))
        expect(len(paths) > 100, f"{paths}")
        faults = [fault for path in paths for fault in faults_of(colours, path)]
        expect(not faults, "\n".join(faults[:9]))

    return f"editors: {GRAMMAR} and every scenario", tried


def closes_strings(_):
    scopes = Colours(json.loads(stored(GRAMMAR))).of(OPEN)
    expect(scopes[OPEN.index(":= 1")].startswith("string"), "the string ends before its line does")
    expect(scopes[OPEN.index("true")] == "constant.language.jsoncrdt", f"{scopes[OPEN.index('true')]}")


def colours(paths):
    yield f"editors: {GRAMMAR} and the words", colours_words
    yield scenarios_case(paths)
    yield f"editors: {GRAMMAR} and a string that isn't closed", closes_strings
