"""The breakpoints that an editor sets: those of the program's session, and predicates that are looked for."""

import collections

from changes import NoPlace
from debugger import REFUSED
from jsoncrdt.oracle.lines import RULES
from predicates import NoPredicate, predicate_of
from jsoncrdt.oracle.sentences import SENTENCES

# A breakpoint: its number for the editor, what it is called there, and what it is here: the number of one of the
# session, or a predicate.
Break = collections.namedtuple("Break", "id kind number predicate", defaults=(None, None))


def explained(line):
    """The line, and what it means where it refuses something."""
    refused = REFUSED.fullmatch(f"{line}\n")
    return f"{line}: {SENTENCES.get(int(refused[1]), '')}" if refused else line


def named(name, replicas):
    """What a function breakpoint means: a rule or a replica, with that word before it where one name is both, or else a
    predicate as `until` has it."""
    words = name.split()
    if len(words) == 2 and words[0] == "replica":
        return name
    if words[-1:] and words[-1].upper() in RULES and words[:-1] in ([], ["rule"]):
        return f"rule {words[-1].upper()}"
    return f"replica {name}" if name in replicas else predicate_of(name, replicas)


class Breakpoints:
    """What is set, in groups that an editor sets anew as a whole: a group is the kind, and for those on lines the
    number of the document, which is 0 for the file."""

    def __init__(self):
        self.groups, self.wanted, self.last_id = {}, {}, 0

    def set(self, debuggee, group, wanted):
        """Sets these in place of those of the group, and gives what became of each. One is wanted as a function of the
        debuggee, which gives the words of a session's breakpoint, a predicate or none, and what is shown of it."""
        for old in self.groups.get(group, []):
            if old.number and old.number in debuggee.debugger.breakpoints:
                debuggee.ask(f"unbreak {old.number}")
                del debuggee.debugger.breakpoints[old.number]
        self.groups[group], self.wanted[group] = [], wanted
        return [self.set_one(debuggee, group, meaning) for meaning in wanted]

    def set_one(self, debuggee, group, meaning):
        self.last_id += 1
        found, why, shown = None, None, {}
        try:
            words, shown = meaning(debuggee)
            if isinstance(words, str):
                found, why = self.in_session(debuggee, group, words)
            elif words:
                found = Break(self.last_id, group[0], predicate=words)
        except (NoPredicate, NoPlace) as fault:
            why = str(fault)
        self.groups[group] += [found] if found else []
        return {"id": self.last_id, "verified": found is not None, **({"message": why} if why else {}), **shown}

    def in_session(self, debuggee, group, words):
        """A breakpoint of the session, or why it sets none."""
        answer = debuggee.ask(f"break {words}")[0]
        if not answer.startswith("set "):
            return None, explained(answer)
        number = int(answer.split()[1])
        debuggee.debugger.breakpoints[number] = words
        return Break(self.last_id, group[0], number), None

    def set_again(self, debuggee):
        """Sets all of them in a session that is new, but for those in documents of the old one."""
        self.groups, wanted = {}, {group: each for group, each in self.wanted.items() if not any(group[1:])}
        self.wanted = {}
        for group, each in wanted.items():
            self.set(debuggee, group, each)

    def all(self):
        return [each for group in self.groups.values() for each in group]

    def with_predicates(self):
        return [each for each in self.all() if each.predicate]

    def numbered(self, number):
        """The one that the session has under this number; none where a line of the console has set it."""
        return next((each for each in self.all() if each.number == number), None)
