"""The language of scenarios as the value in crates/jc_grammar has it: the value is read from its files, and a text by
the value. What a class, a guard and a reader do is written here once more, by the definitions of these names."""

import functools
import re

from jsoncrdt.oracle.grammar import END, NAME, NUMBER, RESERVED, SIGN, STRING
from jsoncrdt.oracle.refusal import DIGITS

FOLDER = "crates/jc_grammar/specs/"
VALUE, LISTS, GUARDS = FOLDER + "ScenarioGrammar.antt", FOLDER + "Grammar.antt", FOLDER + "Guards.antt"
LIMITS = "crates/jc_rules/src/limits.rt"
KINDS = {"Name": NAME, "Number": NUMBER, "Str": STRING}
SIGNS = {"Dot": b".", "ParenL": b"(", "ParenR": b")", "BraceL": b"{", "BraceR": b"}", "BracketL": b"[",
         "BracketR": b"]", "Comma": b",", "Semi": b";", "Assign": b":=", "Equals": b"="}
CLASSES = ("any", "the_word", "other_word", "the_number", "digits")
VERSIONS = ("One", "Two")
LEAST_TOO_LARGE = 2 ** 32
COMMENT = re.compile(r"--.*")
DEFINITION = re.compile(r"^(?:abbrev|unfoldable) pub (\w+) :.*\n((?:\1\b.*\n(?:[ \t].*\n)*)+)", re.MULTILINE)
GUARD = re.compile(r"^pub data Guard .*\n((?:  .*\n)+)", re.MULTILINE)
CONSTANT = re.compile(r"^pub const (MAX_\w+): usize = ([\d_]+);", re.MULTILINE)
WORD = re.compile(r'\s*(?:"([^"]*)"|([()\[\]∷]|[^\s()\[\]∷"]+))')
PATTERN = re.compile(r"\(suc (\w+)\)|(\w+)")


class Unknown(Exception):
    """What the files have and this doesn't know."""


class Part:
    """A grammar: its form, and what it is made of. A production has its name and is worked out when it is asked for, so
    that long lists cost nothing."""

    def __init__(self, form, *parts, name=None, later=None):
        self.form, self.parts, self.name, self.later = form, parts, name, later

    @functools.cached_property
    def own(self):
        """The grammar without names in front."""
        return self.later().own if self.later else self


class Words:
    """The words of a term, from left to right."""

    def __init__(self, text):
        self.words = [(string, word) for string, word in WORD.findall(text)]
        self.next = 0

    def peek(self):
        return self.words[self.next][1] if self.next < len(self.words) else None

    def take(self):
        if self.next == len(self.words):
            raise Unknown("a term ends too early")
        self.next += 1
        return self.words[self.next - 1]


def guards_of(text):
    """The names of the guards."""
    return [line.split(":")[0].strip() for line in GUARD.search(COMMENT.sub("", text))[1].splitlines()]


def limits_of(text):
    return {name: int(number.replace("_", "")) for name, number in CONSTANT.findall(text)}


class Value:
    """The definitions of the value, and what they come to with these limits."""

    def __init__(self, texts, limits):
        text = "".join(COMMENT.sub("", part) + "\n" for part in texts)
        self.definitions = {name: self.clauses(name, body) for name, body in DEFINITION.findall(text)}
        self.limits = limits
        self.guards = set(GUARD_CALLS)

    @staticmethod
    def clauses(name, text):
        """The clauses of a definition, each as its patterns and its body."""
        found = re.findall(rf"^{name}\b([^=\n]*)=((?:.*\n)(?:[ \t].*\n)*)", text, re.MULTILINE)
        return [(PATTERN.findall(patterns), body) for patterns, body in found]

    def production(self, name, *arguments):
        """The grammar of this name, where its clauses fit the arguments."""
        return Part("production", name=name, later=lambda: self.body(name, arguments))

    def body(self, name, arguments):
        for patterns, text in self.definitions.get(name, ()):
            bound = self.bound(patterns, arguments)
            if bound is not None:
                words = Words(text)
                term = self.choice(words, bound)
                if words.peek() is not None:
                    raise Unknown(f"{name}: {words.peek()}")
                return term
        raise Unknown(f"{name} of {arguments}")

    @staticmethod
    def bound(patterns, arguments):
        """What the names of the patterns are, if the arguments fit them."""
        if len(patterns) != len(arguments):
            return None
        bound = {}
        for (less, word), argument in zip(patterns, arguments):
            if less and argument:
                bound[less] = argument - 1
            elif less or word in VERSIONS and word != argument or word == "zero" and argument != 0:
                return None
            elif word:
                bound[word] = argument
        return bound

    # ---- terms, the weakest sign first

    def choice(self, words, bound):
        first = self.sequence(words, bound)
        if words.peek() != "or":
            return first
        words.take()
        return Part("or", first, self.choice(words, bound))

    def sequence(self, words, bound):
        first = self.row(words, bound)
        if words.peek() != "then":
            return first
        words.take()
        return Part("then", first, self.sequence(words, bound))

    def row(self, words, bound):
        first = self.difference(words, bound)
        if words.peek() != "∷":
            return first
        words.take()
        return [first, *self.row(words, bound)]

    def difference(self, words, bound):
        first = self.call(words, bound)
        if words.peek() != "-":
            return first
        words.take()
        return first - self.call(words, bound)

    def call(self, words, bound):
        function, arguments = self.atom(words, bound), []
        while words.peek() not in (None, ")", "]", "then", "or", "∷", "-"):
            arguments.append(self.plain(self.atom(words, bound)))
        return self.applied(function, arguments)

    def atom(self, words, bound):
        string, word = words.take()
        if word == "(":
            inner = self.choice(words, bound)
            if words.take()[1] != ")":
                raise Unknown("a parenthesis is open")
            return inner
        if word == "[":
            words.take()
            return []
        if not word:
            return string.encode()
        if word.isdigit():
            return int(word)
        return bound[word] if word in bound else word

    def plain(self, term):
        """What a name without arguments is."""
        return self.applied(term, []) if isinstance(term, str) else term

    def applied(self, function, arguments):
        if not isinstance(function, str):
            return function
        if function in self.definitions:
            return self.production(function, *arguments)
        if function in ("symbol", "guarded", "nothing"):
            return Part(function, *arguments)
        if function in CLASSES or function in self.guards:
            return (function, *arguments)
        if function in self.limits:
            return self.limits[function]
        if function == "codes":
            return arguments[0]
        if function in KINDS or function in SIGNS or function in VERSIONS:
            return function
        raise Unknown(function)


# ---- classes and guards

def is_of(kind, token):
    """Whether a token is of a class."""
    sort, spelling, _ = token
    name, *asked = kind
    if name == "any":
        return (sort, spelling) == (SIGN, SIGNS[asked[0]]) if asked[0] in SIGNS else sort == KINDS[asked[0]]
    if name == "the_word":
        return sort == NAME and spelling == asked[0]
    if name == "other_word":
        return sort == NAME and spelling not in asked[0]
    if name == "the_number":
        return sort == NUMBER and spelling == asked[0]
    return sort == NUMBER and spelling.isdigit()


def part_of(kind):
    """What messages call a class: a word or a sign itself, a kind of tokens, or digits."""
    name, *asked = kind
    if name == "any":
        return SIGNS.get(asked[0]) or KINDS[asked[0]]
    return {"other_word": NAME, "digits": DIGITS}.get(name) or asked[0]


def unless_reserved(state, token):
    return 10 if token[1] in RESERVED else state


def new_replica(state, token, most):
    names, dot = state
    if token[1] in RESERVED:
        return 10
    if token[1] in names:
        return 15
    return (names + (token[1],), dot) if len(names) < most else 17


# What each guard makes of the state, the names and the last dot: another state, or the number of a refusal.
GUARD_CALLS = {
    "small_index": lambda state, token: state if int(token[1]) < LEAST_TOO_LARGE else 9,
    "free_binding": unless_reserved,
    "free_root": lambda state, token: state if token[1] == b"doc" else unless_reserved(state, token),
    "dot_seen": lambda state, token: (state[0], token[2]),
    "new_replica": new_replica,
    "no_selector": lambda state, token: 12,
    "no_command": lambda state, token: 10 if token[1] in RESERVED - {b"let", b"yield", b"doc"} else 11,
    "no_event": lambda state, token: 19,
}


def judged(guard, state, token):
    """The state that the guard leaves, and the fault with which it refuses; the other is none."""
    name, *asked = guard
    found = GUARD_CALLS[name](state, token, *asked)
    if isinstance(found, tuple):
        return found, None
    return None, (state[1] if found == 12 else token[2], found)


# ---- readers

def first_classes(part, after=lambda: []):
    """The classes of a first symbol, where these may come behind the part."""
    part = part.own
    if part.form == "symbol":
        return [part.parts[0]]
    if part.form == "nothing":
        return after()
    if part.form == "then":
        return first_classes(part.parts[0], lambda: first_classes(part.parts[1], after))
    if part.form == "or":
        return first_classes(part.parts[0], after) + first_classes(part.parts[1], after)
    return first_classes(part.parts[1], after)


class Stopped(Exception):
    """A fault as (offset, number); none where what comes fits nothing. The number of tokens before it is told too."""

    def __init__(self, fault, before):
        super().__init__(fault, before)
        self.fault, self.before = fault, before


class Reader:
    """Reads tokens by a part. A tree is a list of tokens and of pairs, the name of a production and what is in it. Of the
    token that is next it keeps which classes it was asked for, and so what could stand there."""

    def __init__(self, tokens):
        self.tokens = tokens
        self.next = 0
        self.state = ((), 0)
        self.asked = set()

    def fits(self, kinds):
        token = self.tokens[self.next]
        self.asked.update(map(part_of, kinds))
        return token[0] != END and any(is_of(kind, token) for kind in kinds)

    def begins(self, part):
        return self.fits(first_classes(part))

    def tree(self, part):
        if part.name:
            return [(part.name, self.tree(part.later()))]
        if part.form == "symbol":
            return [self.symbol(part.parts[0])]
        if part.form == "nothing":
            return []
        if part.form == "then":
            return self.tree(part.parts[0]) + self.tree(part.parts[1])
        if part.form == "or":
            return self.tree(part.parts[0 if self.begins(part.parts[0]) else 1])
        guard, inner = part.parts
        if self.begins(inner):
            self.state, fault = judged(guard, self.state, self.tokens[self.next])
            if fault:
                raise Stopped(fault, self.next)
        return self.tree(inner)

    def symbol(self, kind):
        if not self.fits([kind]):
            raise Stopped(None, self.next)
        self.next += 1
        self.asked = set()
        return self.tokens[self.next - 1]

    def whole(self, part):
        tree = self.tree(part)
        self.asked.add(END)
        if self.tokens[self.next][0] != END:
            raise Stopped(None, self.next)
        return tree


def misfit(tokens, before, is_scenario):
    """The fault where what comes fits nothing."""
    sort, _, place = tokens[before]
    if is_scenario and before < 3:
        return place, 14 if before < 2 else 16
    return place, 8 if sort == END else 7


def read(part, tokens, is_scenario):
    """The tree that the tokens are, and their fault; the other is none."""
    try:
        return Reader(tokens).whole(part), None
    except Stopped as stopped:
        return None, stopped.fault or misfit(tokens, stopped.before, is_scenario)


def expected(part, tokens):
    """What could stand where the tokens stop to fit."""
    reader = Reader(tokens)
    try:
        reader.whole(part)
    except Stopped:
        pass
    return reader.asked


# ---- trees as those of the rules in Python

def plain_tokens(tree):
    """The tokens of a tree, from left to right."""
    return [token for item in tree for token in (plain_tokens(item[1]) if len(item) == 2 else [item])]


def under(tree, *names):
    """What is nearest in a tree under one of these productions, from left to right, with the production's name."""
    for item in tree:
        if len(item) == 2 and item[0] in names:
            yield item
        elif len(item) == 2:
            yield from under(item[1], *names)
