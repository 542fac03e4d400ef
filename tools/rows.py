"""What an event did, in words, as a line of the journal tells it."""


class Row:
    """An event: its number, whether it is given, its replica, its kind, the replica that it receives from, what it
    brought, the operation that it is about, and what it does, in words."""

    def __init__(self, line):
        self.number, self.is_given = line["number"], "given" in line
        self.replica, self.kind, self.sender = line["replica"], line["kind"], line.get("from")
        self.new, self.operation = line.get("new"), line.get("op", {}).get("id")
        self.is_stuck = "stuck" in line
        self.text = self.stuck(line) if self.is_stuck else getattr(self, self.kind)(line)

    def cell(self, name):
        """What stands in the lane of a replica: the text in its own."""
        return self.text if name == self.replica else ""

    def stuck(self, line):
        cause = ["stuck", str(line["stuck"]), line["cause"], *([line["key"]] if "key" in line else [])]
        return f"{line['event']}  {' '.join(cause)}"

    def exec(self, line):
        made = [self.operation] if self.operation else []
        return "  ".join([*made, line["command"]])

    def send(self, _line):
        return "offers " + self.brought()

    def recv(self, _line):
        return f"gets from {self.sender}: {self.brought()}"

    def take(self, _line):
        return f"takes from {self.sender}: {self.brought()}"

    def apply(self, _line):
        return f"applies {self.operation}"

    def done(self, _line):
        return "done"

    def brought(self):
        return " ".join(self.new) or "nothing new"
