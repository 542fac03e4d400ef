"""The front end of tools/debug, over the lines of the program's session. commands.py has what it does at each line.

What the session answers is shown as it is; what is said besides is indented below it. A line that begins with no
command of the table goes to the session as it is, and so do the lines of the table that are its own.
"""

import re
import textwrap

from asking import EVENT
from changes import NoPlace
from commands import COMMANDS, OVER, Line, Stopped, Wrong, begun_by, commands_of
from layout import WIDTH, shortened
from positions import Positions
from predicates import NoPredicate
from rows import Row
from jsoncrdt.oracle.sentences import SENTENCES

MOST_SHOWN = 10
REFUSED = re.compile(r"refused (\d+) (\w+)(?: at (\d+))?\n")
STUCK = re.compile(r"stuck (\d+) (\w+) .*?(" + EVENT.pattern + r")\n")
BREAK = re.compile(r"break (\d+)\n")


class Debugger:
    """A session. `write` takes texts, and `pressed` is true when Ctrl-C was."""

    def __init__(self, conversation, scenario, write, pressed=lambda: False):
        self.conversation, self.scenario, self.write, self.pressed = conversation, scenario, write, pressed
        self.names = list(scenario.scripts)
        self.positions = Positions(scenario, scenario.events)
        self.breakpoints, self.last_move, self.enabled_at = {}, None, (None, [])

    @property
    def position(self):
        return self.conversation.position

    # ---- lines

    def prompt(self):
        return f"({self.position}/{self.conversation.length}) "

    def offers(self, before, beginning):
        """What Tab offers for a word that is begun, behind the text that stands before it."""
        words, offered = before.split(), COMMANDS
        if words:
            found = commands_of(words[0])
            offered = found[0].offers(self, words[1:]) if len(found) == 1 else []
        return [f"{word} " for word in offered if word.startswith(beginning)]

    def is_over(self, text):
        """Answers a line, and says whether it ended the session."""
        text = text.removesuffix("\r").strip(" \t") or self.last_move or ""
        word, rest = re.fullmatch(r"([^ \t]*)[ \t]*(.*)", text, re.DOTALL).groups()
        if not word:
            return False
        found = commands_of(word)
        if not found:
            self.pass_on(text)
        elif len(found) > 1:
            self.add(begun_by(word, found))
        else:
            return self.does(found[0], text if word == found[0].name else f"{found[0].name} {rest}".strip(), rest)
        return False

    def does(self, command, text, rest):
        if command.moves:
            self.last_move = text
        try:
            return command.does(self, Line(text, rest.strip(), rest.split())) is OVER
        except Wrong as wrong:
            self.add(str(wrong), *command.forms)
        except (NoPlace, NoPredicate) as wrong:
            self.add(str(wrong))
        except Stopped:
            self.add(f"stopped, still at {self.position}")
        return False

    def add(self, *texts):
        """Says something besides what the session answered."""
        for text in texts:
            for line in text.split("\n"):
                self.write(f"  {line}\n")

    def pass_on(self, text, command=None):
        """Sends a line to the session, shows the answer, and gives it."""
        answer = self.conversation.ask(text)
        self.show(answer, text, command)
        return answer

    def show(self, answer, text, command):
        """Shows an answer as it is, and says what its lines mean."""
        self.write("".join(answer))
        for line in answer:
            if refused := REFUSED.fullmatch(line):
                self.explain(refused, text, command)
            elif stuck := STUCK.fullmatch(line):
                self.explain_stuck(stuck)
            elif hit := BREAK.fullmatch(line):
                self.add(self.breakpoints[int(hit[1])])

    # ---- what is said of a refusal

    def say_sentence(self, number):
        self.add(*textwrap.wrap(SENTENCES.get(number, ""), WIDTH - 2))

    def explain(self, refused, text, command):
        """Says where a text is wrong, and what the refusal means."""
        number, offset = int(refused[1]), refused[3]
        if offset is not None:
            event = re.sub(r"\A[ \t]*act[ \t]*", "", text)
            self.add(event, re.sub(r"[^\t]", " ", event[:int(offset)]) + "^")
        self.say_sentence(number)
        if refused[2] == "UnknownReplica":
            self.add(f"The replicas are {', '.join(self.names)}.")
        elif refused[2] == "BadLine":
            self.add(*(command.forms if command else ["help lists the commands"]))

    def explain_stuck(self, stuck):
        """Says what the cause of a stuck event means, and what is missing."""
        self.say_sentence(int(stuck[1]))
        line = self.positions.tried(self.position, stuck[3])
        if "missing" in line:
            self.add(f"missing: {' '.join(line['missing'])}")
        elif "offered" in line:
            self.add(f"offered by: {' '.join(line['offered']) or 'none'}")

    # ---- events

    def parts(self, number):
        """The text of an event of the schedule, and what it does, where the schedule comes to it."""
        line, event = self.positions.line(number), self.positions.events[number - 1]
        if not line or line["kind"] == "done" and "stuck" not in line:
            return event, ""
        row = Row(line)
        if row.is_stuck:
            return event, row.text.removeprefix(event).strip()
        command = f"  {self.positions.journal.commands[row.operation]}" if row.kind == "apply" else ""
        return event, row.text + command

    def show_events(self, first):
        """Shows the events from this one on that led to the position, or the last few of them."""
        last = self.position
        if not last:
            self.add("the start")
            return
        if last - first >= MOST_SHOWN:
            self.add("..")
            first = last - MOST_SHOWN + 1
        for number in range(first, last + 1):
            self.add(shortened(f"{number} {'  '.join(self.parts(number))}".rstrip()))

    def refresh(self, event):
        """Takes over the schedule that `act` has cut off and gone on with."""
        events = self.positions.events[:self.position - 1] + [event]
        self.positions = Positions(self.scenario, events)

    def enabled(self):
        """The events that can be executed at the position, asked once for each."""
        key = self.position, self.positions
        if self.enabled_at[0] != key:
            answer = self.conversation.ask("enabled")
            self.enabled_at = key, [line.rstrip("\n") for line in answer if line != "none\n"]
        return self.enabled_at[1]

    # ---- positions at which something holds

    def unless_stopped(self, holds):
        def asked(what):
            if self.pressed():
                raise Stopped
            return holds(what)

        return asked

    def look(self, looks_at, position):
        """What a predicate looks at, at a position; there is an event behind the start alone."""
        if looks_at == "places":
            return dict.fromkeys(self.names, (self.positions.effects, position, self.position))
        if looks_at == "stuck":
            return self.positions.is_stuck(position + 1)
        return self.positions.rules(position) if looks_at == "rules" else self.positions.line(position)["event"]

    def next_with(self, predicate):
        holds, position = self.unless_stopped(predicate.holds), self.position
        if predicate.looks_at == "documents":
            return self.positions.next_with(position, holds)
        while self.positions.is_made(position := position + 1):
            if holds(self.look(predicate.looks_at, position)):
                return position
        return None

    def last_with(self, predicate):
        holds = self.unless_stopped(predicate.holds)
        if predicate.looks_at == "documents":
            return self.positions.last_with(self.position, holds)
        least = 0 if predicate.looks_at == "stuck" else 1
        earlier = range(self.position - 1, least - 1, -1)
        return next((position for position in earlier if holds(self.look(predicate.looks_at, position))), None)
