"""Edits of one crate that are tried in one check: each changes bodies of functions that no other of them changes. None
of these calls another, since a function's goals wait for the proofs of those that it calls. Such a check only shows
that an edit is refused; whatever else it tells of one says nothing, and asks for a try of that edit alone.
docs/WORKING.md, "Edits", says why that is enough."""

import collections
import os
import re

from dependencies import pairs_of, text_of
from statements import FUNCTION

# The most edits that one check tries.
MOST = 16
# How a check ends that told of each function whether it is proved; behind that rt gives advice.
ENDED = re.compile(r"^logic=not-proved\b.*\n(?:rt: .*\n)*\Z", re.MULTILINE)
# A text that can't be read, and what is kept of a library that can't be used: by either rt takes such a check for none.
UNREAD = re.compile(r"^(?:\./)?(?:src|specs)/\S+?:\d+:\d+: error: (?:(?!`[^`]*`: )|.*(?:is not in scope|has no field|"
                    r"is no name|operand is missing|expected the end|cannot continue))|Run the lower steps again",
                    re.MULTILINE)
# Why a function isn't proved, with the file and the line.
REASON = re.compile(r"^(?:(?:\./)?(?P<error>\S+?):(?P<at>\d+):\d+: error|"
                    r"note: (?:\./)?(?P<note>\S+?):(?P<line>\d+):\d+:).*$", re.MULTILINE)
Reason = collections.namedtuple("Reason", "told file line")
# How a function is told of whose goals were tried, without and with answers that it may keep to, and not all proved.
REFUSED = r"(?:not proved|no proof: expected answers in \S+; `search` did not prove `[^`]*`(?:(?:,| and) `[^`]*`)*)"
# Such a reason by which rt tells that a proof names what isn't there any more, which shows nothing.
NAMES_GONE = re.compile(r"(?:note: )?(?:\./)?proofs/.*(?:has no field|is not in scope|has no `|was not admitted)")


class Changed:
    """A function of a crate with a text of its body: how a check tells of it, and where the reasons are."""

    def __init__(self, name, path, text, item, old):
        of, function, cycle = item.place
        module = path.removeprefix("src/").removesuffix(".rt")
        # A method is told of, and proved, in the module of its type, which may be that of another file.
        at = rf"(?:\w+/)*{of}\w*/" if of is not None else f"{module}/" if module != "lib" else ""
        self.told = re.compile(rf"^fn {name}::{at.replace('/', '::')}{function}: {REFUSED}$", re.MULTILINE)
        # Functions of a cycle are proved together, in a folder of one's module or type.
        self.proof = re.compile(rf"proofs/(?:{at}\+?{function}|(?:\w+/)*\+{cycle})/[^/]+")
        self.path, self.lines = path, lines_around(text, old)

    def own(self, reasons):
        """Those of these reasons that are the function's own."""
        return [reason for reason in reasons if self.proof.fullmatch(reason.file) or
                reason.file == self.path and reason.line in self.lines]


def lines_around(text, old):
    """The numbers of the lines of the function that has this in it: they stay, since a line is put in place of one."""
    at = text.index(old)
    found = next((each for each in FUNCTION.finditer(text) if each.start() <= at < each.end()), None)
    first = text.count("\n", 0, found.start()) + 1 if found else 0
    return range(first, first + found[0].count("\n") + 1) if found else range(0)


def pairs_in(tree, name, edit):
    return [*pairs_of(text_of(os.path.join(tree.folder(name, "more-edits"), f"{edit}.edit")))]


def names_held(tree, name, edit):
    """The names of the functions that an edit changes, and of those in their cycles: no other edit that is tried in the
    same check may change a function of such a name. None where it changes aught else than bodies."""
    return {each.place[1] for path, item in tree.functions(name, pairs_in(tree, name, edit))
            for _, each in tree.proved_together(name, path, item)}


def called_by(tree, name):
    """The names of the crate's functions, each with those that it can call, also by way of others, by their names."""
    named = collections.defaultdict(set)
    for file in tree.files(name).values():
        for item in file.items:
            if item.place:
                named[item.place[1]] |= item.all_mentions
    named = {function: names & named.keys() for function, names in named.items()}
    called = {}
    for function in named:
        open_ones, called[function] = [function], set()
        while open_ones:
            more = named[open_ones.pop()] - called[function]
            called[function] |= more
            open_ones += more
    return called


class Group:
    """Edits for one check: the functions that they change, by their names, and those that these can call."""

    def __init__(self):
        self.edits, self.held, self.called = [], set(), set()

    def fits(self, held, called):
        """Whether these functions are others, none of which calls one of the group's or is called by one."""
        return (len(self.edits) < MOST and self.held.isdisjoint(held) and self.held.isdisjoint(called)
                and self.called.isdisjoint(held))

    def add(self, edit, held, called):
        self.edits.append(edit)
        self.held |= held
        self.called |= called


def groups_of(tree, name, edits):
    """These edits in groups, each for one check, and those that are to be tried alone."""
    groups, called = [], called_by(tree, name)
    held = {edit: names for edit in edits if (names := names_held(tree, name, edit))}
    below = {edit: set().union(*(called[function] for function in names)) for edit, names in held.items()}
    # Those that call least come first, so that functions of one height come together.
    for edit in sorted(held, key=lambda edit: len(below[edit])):
        group = next((group for group in groups if group.fits(held[edit], below[edit])), None)
        if not group:
            groups.append(group := Group())
        group.add(edit, held[edit], below[edit])
    return [group.edits for group in groups], [edit for edit in edits if edit not in held]


def edited(tree, name, edit, texts):
    """The files of a crate of which some have these texts, with an edit, or none where it can't be made."""
    texts = dict(texts)
    for path, old, new in pairs_in(tree, name, edit):
        text = texts.get(path, tree.texts(name)[path])
        if text.count(old) != 1:
            return None
        texts[path] = text.replace(old, new)
    return texts


def apply(tree, name, edits, folder):
    """Makes these edits in a copy of the crate, and gives those that could be made, each behind those before it."""
    texts, made = {}, []
    for edit in edits:
        if (now := edited(tree, name, edit, texts)) is not None:
            texts = now
            made.append(edit)
    for path, text in texts.items():
        with open(os.path.join(folder, path), "w", encoding="utf-8") as file:
            file.write(text)
    return made


def refused(tree, name, edits, told, status):
    """Those of these edits that a check refuses, each with a reason, by what it told and how it ended. None where a
    proof fails that is of no function that they change: others may stand on it."""
    if status != 1 or not ENDED.search(told) or UNREAD.search(told):
        return {}
    reasons = [Reason(each[0], each["error"] or each["note"], int(each["at"] or each["line"]))
               for each in REASON.finditer(told)]
    found, known = {}, set()
    for edit in edits:
        pairs = pairs_in(tree, name, edit)
        for (path, item), (_, old, _) in zip(tree.functions(name, pairs), pairs):
            changed = Changed(name, path, tree.texts(name)[path], item, old)
            own = changed.own(reasons)
            known.update(own)
            if own and changed.told.search(told) and not any(NAMES_GONE.match(reason.told) for reason in own):
                found.setdefault(edit, own[0].told)
    failed = {reason for reason in reasons if re.match(r"(?:\./)?proofs/", reason.told)}
    return found if failed <= known else {}
