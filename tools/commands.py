"""The commands of tools/debug: what each does, and the table of them, with their help and what Tab offers.

A command is given the session, a Debugger, and the line. Another module adds one by a row of its own in COMMANDS.
"""

import collections
import itertools
import re

import changes
import fates
from asking import served
from layout import laid_out, read_json, shortened, traced
from jsoncrdt.oracle.lines import RULES, is_rule
from predicates import KINDS, predicate_of

AROUND = 5
RAW = "--raw"
OVER = object()

# A line: its text, with the whole word of its command; the text behind that, and its words.
Line = collections.namedtuple("Line", "text rest words")


class Stopped(Exception):
    """Ctrl-C was pressed."""


class Wrong(Exception):
    """Why a line of the front end can't be answered."""


def begun_by(word, commands):
    """The sentence for a word that is the beginning of more commands than one."""
    return f"{word} begins {' and '.join(command.name for command in commands)}"


def pass_on(debugger, line):
    debugger.pass_on(line.text, COMMANDS[line.text.split()[0]])


def move(debugger, line):
    """A line that goes somewhere: the event that led there is shown, of `step` each that was made."""
    before, command = debugger.position, line.text.split()[0]
    pass_on(debugger, line)
    after = debugger.position
    if after != before:
        debugger.show_events(before + 1 if command == "step" and after > before else after)


def back(debugger, line):
    if line.words[:1] == ["until"]:
        back_until(debugger, line.rest.removeprefix("until").strip())
    else:
        move(debugger, line)


def go_to(debugger, position):
    """Goes to a position that was looked for, or to the stuck event behind it."""
    move(debugger, Line(f"goto {position}", str(position), [str(position)]))


def until(debugger, line):
    predicate = predicate_of(line.rest, debugger.names)
    found = debugger.next_with(predicate)
    if found is None:
        debugger.add(f"at no later position, still at {debugger.position}")
    else:
        is_stuck = predicate.looks_at == "stuck" and debugger.positions.is_stuck(found + 1)
        go_to(debugger, found + is_stuck)


def back_until(debugger, text):
    if text == "break":
        found = last_breakpoint(debugger)
    else:
        found = debugger.last_with(predicate_of(text, debugger.names))
    if found is None:
        debugger.add(f"at no earlier position, still at {debugger.position}")
    else:
        go_to(debugger, found)


def last_breakpoint(debugger):
    """The position before this one at which a run from the start would stop last, or none."""
    asked, text = served(), debugger.positions.text
    numbers = [asked.about(text, f"break {what}")["set"] for what in debugger.breakpoints.values()]
    asked.about(text, f"goto {debugger.position}")
    found = asked.told(text, "back run")
    for number in numbers:
        asked.about(text, f"unbreak {number}")
    return found["at"] if "break" in found else None


def act(debugger, line):
    before = debugger.position
    pass_on(debugger, line)
    if debugger.position > before:
        event = debugger.conversation.ask("trace")[0].split(maxsplit=2)[2].rstrip("\n")
        debugger.refresh(event)
        debugger.show_events(debugger.position)


def set_breakpoint(debugger, line):
    """Sets one; without words lists them. The name of a rule may be written in small letters."""
    if not line.words:
        list_breakpoints(debugger, line)
        return
    text = re.sub(r"(?<=\brule)([ \t]+)(\S+)$", lambda rule: rule[0].upper(), line.text)
    for answered in debugger.pass_on(text, COMMANDS["break"]):
        if done := re.fullmatch(r"set (\d+)\n", answered):
            debugger.breakpoints[int(done[1])] = " ".join(text.split()[1:])


def clear_breakpoint(debugger, line):
    for answered in debugger.pass_on(line.text, COMMANDS["unbreak"]):
        if done := re.fullmatch(r"cleared (\d+)\n", answered):
            debugger.add(debugger.breakpoints.pop(int(done[1])))


def list_breakpoints(debugger, _line):
    debugger.add(*[f"{number} {what}" for number, what in sorted(debugger.breakpoints.items())] or ["none"])


def without_raw(line):
    """The line for the session, and whether it asks for the bytes."""
    if RAW not in line.words:
        return line.text, False
    return " ".join(word for word in line.text.split() if word != RAW), True


def trace(debugger, line):
    text, is_raw = without_raw(line)
    answer = debugger.conversation.ask(text)
    if is_raw or not answer[0].startswith("event "):
        debugger.show(answer, text, COMMANDS["trace"])
    else:
        rows = traced(row.rstrip("\n") for row in answer[1:])
        debugger.write(answer[0] + "".join(f"{row}\n" for row in rows))


def state(debugger, line):
    text, is_raw = without_raw(line)
    answer = debugger.conversation.ask(text)
    if is_raw or not answer[0].startswith("{"):
        debugger.show(answer, text, COMMANDS["state"])
    else:
        rows = (row for state in answer for row in laid_out(read_json(state)))
        debugger.write("".join(f"{row}\n" for row in rows))


def view(debugger, line):
    names = [word for word in line.words if word != RAW]
    for name in names:
        if name not in debugger.names:
            raise Wrong(f"no replica {name}; there are {', '.join(debugger.names)}")
    for name, shown in zip(debugger.names, debugger.positions.views(debugger.position)):
        if name not in (names or debugger.names):
            continue
        value = read_json(shown)
        rows = laid_out(value["doc"], f"{name}  ") if "doc" in value else [f"{name}  no document"]
        debugger.write(f"{shown}\n" if RAW in line.words else "".join(f"{row}\n" for row in rows))


def why(debugger, line):
    """What changed a place up to here, at each replica or at one, which then comes first."""
    first, _, rest = line.rest.partition(" ")
    names, text = ([first], rest.strip()) if first in debugger.names and rest.strip() else (debugger.names, line.rest)
    if not text:
        raise Wrong("a place is missing")
    journal, here = debugger.positions.effects, debugger.position
    for name, place in changes.places_at(journal, text, names, here).items():
        rows = changes.in_words(journal, name, place, list(journal.changes(place, name, here)))
        debugger.write("".join(f"{row}\n" for row in rows))


def fate(debugger, line):
    """What became up to here of each operation, or of one."""
    journal = changes.Journal(debugger.scenario.scheduled(debugger.positions.events[:debugger.position]))
    if len(line.words) > 1:
        raise Wrong("fate goes with one operation, or none")
    if line.words and line.words[0] not in journal.made:
        raise Wrong(f"no operation {line.words[0]} was made up to here")
    for identifier, _, found in fates.fates(journal):
        if not line.words or identifier == line.words[0]:
            debugger.write("".join(f"{row}\n" for row in fates.in_words(journal, identifier, found)))


def list_events(debugger, line):
    """The events around the position, or around another one; the one that led to the position is marked."""
    if len(line.words) > 1 or not all(word.isascii() and word.isdigit() for word in line.words):
        raise Wrong("list goes with one number, or none")
    here, length = debugger.position, debugger.conversation.length
    middle = min(int(line.words[0]), length) if line.words else here
    numbers = range(max(0, middle - AROUND), min(length, middle + AROUND) + 1)
    rows = [(number, *(debugger.parts(number) if number else ("the start", ""))) for number in numbers]
    wide, long = len(str(numbers[-1])), max(len(event) for _, event, _ in rows)
    for number, event, what in rows:
        mark = "->" if number == here else "  "
        debugger.write(shortened(f"{mark} {number:{wide}} {event:{long}}  {what}".rstrip()) + "\n")


def help_of(debugger, line):
    if not line.words:
        debugger.write("".join(f"{row}\n" for row in table()))
        return
    word, found = line.words[0], commands_of(line.words[0])
    if len(found) != 1:
        raise Wrong(begun_by(word, found) if found else f"no command is {word}; help lists them")
    command = found[0]
    debugger.add(*(f"{form:24}{about}" for form, about in command.forms.items()))
    debugger.add(*[f"in short: {', '.join(command.shorts)}"] * bool(command.shorts), *command.more())


def over(debugger, line):
    if not line.words:
        return OVER
    return pass_on(debugger, line)


# ---- what Tab offers behind a command: the words that may come next, or the rest of the line


def offer_names(debugger, _words):
    return debugger.names


def offer_shown(debugger, _words):
    return [*debugger.names, RAW]


def offer_rules(debugger):
    return [rule for rule in RULES if is_rule(rule, debugger.scenario.version)]


def offer_breaks(debugger, words):
    if not words:
        return ["at", "rule", "replica"]
    return {"rule": offer_rules(debugger), "replica": debugger.names}.get(words[0], []) if len(words) == 1 else []


def offer_predicates(debugger, words):
    words = words[1:] if words[:1] == ["not"] else words
    if not words:
        return [*KINDS, "not", *debugger.names]
    if words[0] in debugger.names and len(words) == 1:
        return [name for name, kind in KINDS.items() if kind.is_of_one]
    return offer_rules(debugger) if words == ["rule"] else []


def offer_back(debugger, words):
    return offer_predicates(debugger, words[1:]) + ["break"] * (words == ["until"]) if words else ["until"]


def offer_operations(debugger, words):
    return [] if words else list(debugger.positions.effects.made)


def offer_events(debugger, words):
    before = "".join(f"{word} " for word in words)
    return [event.removeprefix(before) for event in debugger.enabled() if event.startswith(before)]


def offer_numbers(debugger, _words):
    return [str(number) for number in debugger.breakpoints]


def offer_commands(_debugger, _words):
    return list(COMMANDS)


def nothing(_debugger, _words):
    return []


# ---- the table


def predicates():
    """The predicates, in lines of help."""
    for name, kind in KINDS.items():
        yield f"{'[NAME] ' if kind.is_of_one else ''}{name} {kind.operand}".ljust(22) + kind.about
    yield "not PREDICATE".ljust(22) + "it doesn't hold"
    yield "With NAME it is asked of this replica's document alone."


# A command: its name and what does it; its forms, each with what it is for; its short names; whether Enter repeats it;
# what Tab offers behind it; more lines for its help.
Command = collections.namedtuple("Command", "name does forms shorts moves offers more",
                                 defaults=((), False, nothing, lambda: ()))

COMMANDS = {command.name: command for command in (
    Command("step", move, {"step [N]": "executes the next event, or the next N"}, ("s",), True),
    Command("back", back, {
        "back [N]": "takes the last event back, or the last N",
        "back until PREDICATE": "goes back to the nearest position where it holds",
        "back until break": "goes back to where `run` would have stopped last",
    }, ("b",), True, offer_back, predicates),
    Command("goto", move, {"goto N": "goes to the position after N events"}, ("g",), True),
    Command("run", move, {"run": "goes on to a breakpoint, a stuck event or the end"}, ("r",), True),
    Command("until", until, {"until PREDICATE": "goes on to the nearest position where it holds"}, ("u",), True,
            offer_predicates, predicates),
    Command("break", set_breakpoint, {
        "break at N": "makes `run` stop at position N",
        "break rule RULE": "makes `run` stop behind each event that used it",
        "break replica NAME": "makes `run` stop behind each event of it",
    }, ("br",), False, offer_breaks),
    Command("unbreak", clear_breakpoint, {"unbreak K": "clears a breakpoint"}, (), False, offer_numbers),
    Command("breaks", list_breakpoints, {"breaks": "lists the breakpoints"}),
    Command("list", list_events, {"list [N]": "shows the events around here, or around event N"}, ("l",)),
    Command("view", view, {"view [NAME] [--raw]": "shows the documents as an application sees them"}, ("v",), False,
            offer_shown),
    Command("state", state, {"state [NAME] [--raw]": "shows the whole state of each replica, or of one"}, (), False,
            offer_shown),
    Command("trace", trace, {"trace [--raw]": "shows the rules of the event that led here"}, ("t",), False,
            lambda _debugger, _words: [RAW]),
    Command("why", why, {"why [NAME] PLACE": "shows which events up to here changed a place, the newest first"}, (),
            False, offer_names, lambda: ['PLACE is an expression, or keys as in doc/"items"/3@ann/"text".']),
    Command("fate", fate, {"fate [OPERATION]": "shows what became of each operation up to here, or of one as 2@p"},
            ("f",), False, offer_operations),
    Command("enabled", pass_on, {"enabled": "lists the events that could be executed here"}, ("e",)),
    Command("act", act, {"act EVENT": "executes this event; cuts the rest off for good"}, ("a",),
            False, offer_events),
    Command("compare", pass_on, {"compare NAME NAME": "says whether both have applied the same operations"},
            ("c",), False, offer_names),
    Command("schedule", pass_on, {"schedule": "lists the events of the schedule"}),
    Command("where", pass_on, {"where": "says the position, and how many events there are"}, ("w",)),
    Command("help", help_of, {"help [COMMAND]": "lists the commands, or says more of one"}, ("h", "?"), False,
            offer_commands),
    Command("quit", over, {"quit": "ends the session, as Ctrl-D does"}, ("q",)),
)}


def commands_of(word):
    """The commands that a word may mean: the one of that name or short name, or those that it begins. Of `break` and
    `breaks` it is the first."""
    exact = [command for command in COMMANDS.values() if word == command.name or word in command.shorts]
    begun = [command for command in COMMANDS.values() if command.name.startswith(word)]
    first = [command for command in begun if all(other.name.startswith(command.name) for other in begun)]
    return exact or first or begun


def table():
    """The commands, in lines of help."""
    for command in COMMANDS.values():
        shorts = itertools.chain([", ".join(command.shorts)], itertools.repeat(""))
        for short, (form, about) in zip(shorts, command.forms.items()):
            yield f"{short:6}{form:24}{about}"
    yield "An unambiguous beginning is enough. Enter alone repeats the last that moved."
