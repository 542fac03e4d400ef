"""What an editor's debugger shows of where a scenario stands: threads, which are replicas, their frames, and places in
texts by the numbers that the editor counts from."""

import collections
import os

from debuggee import Place

# The frames of a thread have numbers of their own.
FRAMES_OF_THREAD = 1_000_000

Frame = collections.namedtuple("Frame", "name place hint", defaults=(None,))


class Frames:
    """Frames and places of a debuggee, for a client that counts lines and columns from `first`."""

    def __init__(self, debuggee, first):
        self.debuggee, self.first = debuggee, first

    # ---- places

    def reference_of(self, source):
        """The number of the document that a client speaks of; 0 for the file, none for another file."""
        if source.get("sourceReference"):
            return source["sourceReference"]
        return 0 if self.debuggee.is_file(source.get("path")) else None

    def from_client(self, line, column=None):
        return line - self.first[0], column - self.first[1] if column else 0

    def range(self, place):
        """The range of a place."""
        lines = self.debuggee.source_of(place.reference).lines
        (line, column), (end_line, end_column) = map(lines.position, (place.span.start, place.span.end))
        return {"line": line + self.first[0], "column": column + self.first[1],
                "endLine": end_line + self.first[0], "endColumn": end_column + self.first[1]}

    def source(self, reference):
        """What the client shows for a place: the file, or the document that it asks for."""
        name = os.path.basename(self.debuggee.file)
        if not reference:
            return {"name": name, "path": self.debuggee.file}
        return {"name": f"schedule {reference} of {name}", "sourceReference": reference, "origin": "made by act"}

    def targets_on(self, arguments):
        """What the events and commands stand for that begin on a line."""
        reference = self.reference_of(arguments.get("source", {}))
        line = self.from_client(arguments["line"])[0]
        return [] if reference is None else self.debuggee.targets_on(reference, line)

    # ---- threads and frames

    def threads(self):
        return [{"id": number, "name": name} for number, name in enumerate(self.debuggee.replicas, 1)]

    def focus(self):
        """The thread of the event that comes next, or of that which came last."""
        events = self.debuggee.events
        near = events[self.debuggee.position:][:1] or events[-1:]
        return 1 + (self.debuggee.replicas.index(near[0].split(".")[0]) if near else 0)

    def replica_of(self, frame):
        """The replica of a frame; without one that of the next event."""
        return self.debuggee.replicas[(frame // FRAMES_OF_THREAD if frame else self.focus()) - 1]

    def stack(self, thread, first, most):
        """Frames of a thread, from one on so many or all, and how many there are."""
        frames = list(self.frames_of(self.debuggee.replicas[thread - 1]))
        end = first + most if most else len(frames)
        shown = [self.shown(thread * FRAMES_OF_THREAD + number, frame)
                 for number, frame in enumerate(frames[:end]) if number >= first]
        return {"stackFrames": shown, "totalFrames": len(frames)}

    def shown(self, number, frame):
        found = {"id": number, "name": frame.name, "line": 0, "column": 0}
        if frame.place:
            found |= {"source": self.source(frame.place.reference), **self.range(frame.place)}
        return found | ({"presentationHint": frame.hint} if frame.hint else {})

    def frames_of(self, replica):
        """The replica's next event, its command, its last event, and the rules of that where it is the last of all."""
        debuggee, here = self.debuggee, self.debuggee.position
        own = [number for number, event in enumerate(debuggee.events, 1) if event.startswith(f"{replica}.")]
        after = next((number for number in own if number > here), None)
        last = next((number for number in reversed(own) if number <= here), None)
        if after:
            title = f"next: {debuggee.events[after - 1]} ({after} of {len(debuggee.events)})"
            yield Frame(title, debuggee.place_of(after))
        else:
            yield Frame("no event comes next", None)
        yield from self.next_command(replica)
        if last:
            event, what = debuggee.debugger.parts(last)
            yield Frame(f"last: {event} ({last}) {what}".rstrip(), debuggee.place_of(last))
        if last and last == here:
            place = debuggee.place_of(last)
            yield from (Frame(f"{'  ' * int(depth)}{rule}", place, "subtle") for depth, rule in debuggee.trace())

    def next_command(self, replica):
        """The frame of the command that is next at a replica, if one is."""
        script, number = self.debuggee.debugger.scenario.scripts[replica], self.debuggee.next_command(replica)
        if number < len(script):
            block = self.debuggee.source.replicas[replica]
            yield Frame(f"command {number + 1} of {len(script)}: {script[number]}", Place(0, block.items[number]))
