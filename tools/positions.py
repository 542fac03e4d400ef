"""What there is at the positions of a schedule: the journal's line of each event, its rules, and the documents.

The program is asked through its `serve`, or as long as it has none by its commands `journal` and `view`, for as many
events as are needed.
"""

import functools
import itertools

import changes
from asking import asked, document_of, journal_of, told

FEWEST_EVENTS, FEWEST_BACK = 1000, 16
MOST_VIEWS, MOST_AT_ONCE = 1000, 64


class Journal:
    """The lines of a journal, as far as they were asked for, and the commands that made the operations in it. `text`
    has the scenario with all of these events."""

    def __init__(self, scenario, events, text, *flags):
        self.scenario, self.events, self.text, self.flags = scenario, events, text, flags
        self.lines, self.commands, self.asked = [], {}, None

    def line(self, number):
        """The line of an event, the first that is stuck too; none of one that isn't reached."""
        if self.asked is None or min(number, len(self.events)) > self.asked:
            self.ask_up_to(min(len(self.events), max(2 * number, FEWEST_EVENTS)))
        return self.lines[number - 1] if 0 < number <= len(self.lines) else None

    def ask_up_to(self, count):
        """Asks for what isn't there yet of the lines up to this event."""
        if asked():
            first = -len(self.scenario.given) if self.asked is None else self.asked
            lines = asked().about(self.text, " ".join(["journal", *self.flags, str(first), str(count)]))
        else:
            self.lines, lines = [], journal_of(self.scenario.scheduled(self.events[:count]), *self.flags)
        made = [line for line in lines if line["kind"] == "exec" and "op" in line]
        self.commands |= {line["op"]["id"]: line["command"] for line in made}
        self.lines += [line for line in lines if "given" not in line]
        self.asked = count


class Positions:
    def __init__(self, scenario, events):
        self.scenario, self.events, self.text = scenario, events, scenario.scheduled(events)
        self.journal = Journal(scenario, events, self.text)
        self.traced = Journal(scenario, events, self.text, "--trace")
        self.view = functools.lru_cache(maxsize=MOST_VIEWS)(self.view_of)
        self.told = functools.lru_cache(maxsize=1)(self.told_of)

    def line(self, number):
        return self.journal.line(number)

    def is_made(self, number):
        """Whether the schedule comes to the event, and it isn't stuck."""
        line = self.line(number)
        return line is not None and "stuck" not in line

    def is_stuck(self, number):
        return "stuck" in (self.line(number) or ())

    def rules(self, number):
        """The names of the rules of an event that is made."""
        return [rule for _, rule in self.traced.line(number)["rules"]]

    @functools.cached_property
    def effects(self):
        """The journal with what each event changed, of the whole schedule."""
        return changes.Journal(self.text)

    def tried(self, position, event):
        """The journal's line of an event at a position to which the schedule comes, be it the next or another one."""
        if self.events[position:position + 1] == [event]:
            return self.line(position + 1)
        return Positions(self.scenario, [*self.events[:position], event]).line(position + 1)

    def view_of(self, position, name):
        """The line of a replica's view at a position to which the schedule comes."""
        if asked():
            return asked().line_about(self.text, f"view --at {position} {name}")
        return self.told(position)[list(self.scenario.scripts).index(name)]

    def told_of(self, position):
        """The lines of the view there, by a program that has no `serve`."""
        return told(["view", "-"], self.scenario.scheduled(self.events[:position]))[0].split("\n")[:-1]

    def views(self, position):
        return [self.view(position, name) for name in self.scenario.scripts]

    # Documents are those of the operations that were applied, so an event without one leaves them as they are.

    def forwards(self, position):
        """The next position, and each behind it whose documents are others than those before."""
        made = itertools.takewhile(self.is_made, itertools.count(position + 1))
        return (number for number in made if number == position + 1 or "op" in self.line(number))

    def backwards(self, position):
        """The position before, and each before it whose documents are others than those behind, the nearest first."""
        nearest = position - 1
        return (number for number in range(nearest, -1, -1) if number == nearest or "op" in self.line(number + 1))

    def documents(self, positions):
        """These positions, which rise, each with the JSON text of each replica's document, or none, by its name. Where
        no event of a replica is between two of them, its document is the same. More and more are asked for at once."""
        documents, before, positions, count = {}, None, iter(positions), 1
        while some := list(itertools.islice(positions, count)):
            for position, changed in zip(some, self.changed([before, *some])):
                documents = documents | changed
                yield position, documents
            before, count = some[-1], min(2 * count, MOST_AT_ONCE)

    def changed(self, positions):
        """For each of these but the first, the documents of the replicas that have an event behind the one before; of
        all where there is none before."""
        pairs = [(position, self.acting(before, position)) for before, position in itertools.pairwise(positions)]
        found = iter(self.views_at([(position, name) for position, names in pairs for name in names]))
        return [{name: document_of(next(found)) for name in names} for _, names in pairs]

    def acting(self, before, position):
        """The replicas with an event behind the one position, up to the other; all where there is none before."""
        if before is None:
            return self.scenario.scripts
        return {self.line(number)["replica"] for number in range(before + 1, position + 1)}

    def views_at(self, wanted):
        """The lines of views, each at a position of a replica."""
        if asked():
            return asked().lines_about(self.text, [f"view --at {position} {name}" for position, name in wanted])
        return [self.view(position, name) for position, name in wanted]

    def next_with(self, position, holds):
        """The nearest position behind this one whose documents are as is asked, or none."""
        along = self.documents(self.forwards(position))
        return next((number for number, documents in along if holds(documents)), None)

    def last_with(self, position, holds):
        """The nearest before it. More and more positions are looked at in turn, which rise: to go on costs less than to
        go back."""
        positions, count = self.backwards(position), FEWEST_BACK
        while some := list(itertools.islice(positions, count)):
            found = [number for number, documents in self.documents(reversed(some)) if holds(documents)]
            if found:
                return found[-1]
            count *= 2
        return None
