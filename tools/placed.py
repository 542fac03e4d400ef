"""The events of a scenario, as the program tells them, each with its place in the text. A position is that of `serve`:
the schedule's events lead to those above 0, given ones to the others."""

import functools

from asking import parts_of

# The kinds of events behind which their replica goes on to its next command.
ENDS_COMMAND = ("exec", "done")


class Placed:
    """The events of a text that isn't refused."""

    def __init__(self, source, questions):
        self.source, self.questions = source, questions
        self.given = len(source.given.items) if source.given else 0

    @functools.cached_property
    def stuck(self):
        """The journal's line of the first event that is stuck, if one is."""
        return self.questions.counts().get("stuck") or self.questions.ask("goto end").get("stuck")

    @functools.cached_property
    def last(self):
        """The position behind all events that are made."""
        scheduled = len(self.source.schedule.items) if self.source.schedule else 0
        return self.position_of(self.stuck) - 1 if self.stuck else scheduled

    @functools.cached_property
    def ending(self):
        """For each replica the positions of the events that end its commands, each the next one."""
        found = {}
        for position, event in enumerate(self.events(), 1 - self.given):
            replica, _, rest = event.partition(".")
            if rest.strip() in ENDS_COMMAND:
                found.setdefault(replica.strip(), []).append(position)
        return found

    @functools.cached_property
    def makers(self):
        """The journal's lines of the events that made operations, by these."""
        lines = self.questions.ask("journal")
        return {line["op"]["id"]: line for line in lines if line["kind"] == "exec" and "op" in line}

    def events(self):
        """The texts of all events, given ones first."""
        return [event for block in (self.source.given, self.source.schedule) if block for event in block.texts()]

    def position_of(self, line):
        """The position to which the event of a journal's line leads."""
        return line["number"] - (self.given if "given" in line else 0)

    def line(self, position, *flags):
        """The journal's line of the event that leads to a position, which may be stuck; none where it isn't reached."""
        if position is None or position > self.last + 1:
            return None
        if position == self.last + 1:
            return self.stuck
        return self.questions.ask(" ".join(["event", "--at", str(position), *flags]))

    def item_of(self, line):
        """The place of an event."""
        block = self.source.given if "given" in line else self.source.schedule
        return block.items[line["number"] - 1]

    def command_of(self, line):
        """The place of the command that an event executes or ends, or none."""
        block, position = self.source.replicas.get(line["replica"]), self.position_of(line)
        ending = self.ending.get(line["replica"], [])
        number = ending.index(position) if position in ending else None
        return block.items[number] if number is not None and number < len(block.items) else None

    def position_at(self, offset):
        """The position of the event that is at an offset, or that ends the command there; none where there is none."""
        block = self.source.block_at(offset)
        number = block.number_at(offset) if block else None
        if number is None:
            return None
        if block.word == "replica":
            ending = self.ending.get(block.name, [])
            return ending[number] if number < len(ending) else None
        return number + 1 - (self.given if block.word == "given" else 0)

    def maker_of(self, line):
        """The line of the event that made the operation of an `apply` or a `take`, or none."""
        parts = parts_of(line["event"])
        return self.makers.get(f"{parts.counter}@{parts.maker}")
