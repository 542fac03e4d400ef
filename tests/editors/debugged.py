"""Drives tools/dap by the client that debugpy has for its own adapter. tests/servers.py runs it by Debian's Python,
with the program in JSONCRDT and paths of scenarios in SCENARIOS. The last line is `N passed, M failed`."""

import os
import queue
import subprocess
import sys
import tempfile

from debugpy.common import messaging

ROOT = os.path.dirname(os.path.dirname(os.path.dirname(os.path.abspath(__file__))))
PROGRAM = os.environ["JSONCRDT"]
SECONDS = 300
STEPS = 12
counts = {"passed": 0, "failed": 0}


def check(what, expected, seen):
    is_right = expected == seen
    counts["passed" if is_right else "failed"] += 1
    if not is_right:
        print(f"FAILED {what}\n  expected {expected!r}\n  seen     {seen!r}")


class Client:
    """A client with an adapter of its own, launched on a file."""

    def __init__(self, file, **more):
        self.events, self.outputs = queue.Queue(), []
        self.process = subprocess.Popen([f"{ROOT}/tools/dap"], stdin=subprocess.PIPE, stdout=subprocess.PIPE)
        self.channel = messaging.JsonMessageChannel(messaging.JsonIOStream.from_process(self.process), self)
        self.channel.start()
        self.file, self.capabilities = file, self.ask("initialize", adapterID="jsoncrdt")
        try:
            self.ask("launch", program=file, **more)
        except messaging.MessageHandlingError:
            self.end()
            raise
        self.wait("initialized")

    def event(self, event):
        if event.event == "output":
            self.outputs.append(event.body["output"])
        else:
            self.events.put((event.event, dict(event.body)))

    def disconnect(self):
        """The adapter has ended."""

    def ask(self, command, **arguments):
        return self.channel.request(command, arguments)

    def refused(self, command, **arguments):
        """Why a request is refused, or none."""
        try:
            self.ask(command, **arguments)
        except messaging.MessageHandlingError as error:
            return str(error)
        return None

    def wait(self, name):
        got, body = self.events.get(timeout=SECONDS)
        check(f"the event {name}", name, got)
        return body

    def moved(self, command, **arguments):
        """The reason and the description of where a move stopped, and the position."""
        self.ask(command, **{"threadId": 1, **arguments})
        body = self.wait("stopped")
        self.thread = body["threadId"]
        return body["reason"], body["description"], self.position()

    def console(self, line):
        return self.ask("evaluate", expression=line, context="repl")["result"]

    def watched(self, expression, thread=1):
        return self.ask("evaluate", expression=expression, context="watch", frameId=self.frame(thread))["result"]

    def position(self):
        return int(self.console("where").split()[1])

    def begin(self):
        self.ask("configurationDone")
        body = self.wait("stopped")
        self.thread = body["threadId"]
        return body

    def breaks(self, *lines):
        return self.ask("setBreakpoints", source={"path": self.file},
                        breakpoints=[{"line": line} for line in lines])["breakpoints"]

    def functions(self, *names):
        return self.ask("setFunctionBreakpoints", breakpoints=[{"name": name} for name in names])["breakpoints"]

    def frames(self, thread):
        return self.ask("stackTrace", threadId=thread)["stackFrames"]

    def frame(self, thread):
        return self.frames(thread)[0]["id"]

    def scope(self, thread, name):
        scopes = self.ask("scopes", frameId=self.frame(thread))["scopes"]
        return next(scope["variablesReference"] for scope in scopes if scope["name"] == name)

    def opened(self, reference):
        return {v["name"]: v for v in self.ask("variables", variablesReference=reference)["variables"]}

    def end(self):
        self.ask("disconnect")
        return self.process.wait(timeout=SECONDS)


def line_of(file, text, nth=1):
    """The number of the nth line that has a text, from 1."""
    with open(file, encoding="utf-8") as opened:
        lines = opened.read().split("\n")
    return [number for number, line in enumerate(lines, 1) if text in line][nth - 1]


def example(name):
    return f"{ROOT}/examples/{name}.jsoncrdt"


def steps():
    file = example("to-do")
    client = Client(file)
    check("steps back are supported", True, client.capabilities["supportsStepBack"])
    check("stops at the entry", "entry", client.begin()["reason"])
    check("a thread for each replica", ["p", "q"], [t["name"] for t in client.ask("threads")["threads"]])
    check("the first event's line", line_of(file, "schedule {") + 1, client.frames(client.thread)[0]["line"])
    check("one step", ("step", "at 1", 1), client.moved("next"))
    check("the next command", ('command 2 of 7: doc.get("todo").idx(0).insertAfter({})', line_of(file, "insertAfter")),
          tuple(client.frames(1)[1][member] for member in ("name", "line")))
    check("one step back", ("step", "at 0", 0), client.moved("stepBack"))
    check("no step before the start", ("step", "refused 50 AtStart", 0), client.moved("stepBack"))
    check("and it is said", "refused 50 AtStart: There are fewer events to take back: `where` shows the position, and "
          "`goto 0` goes to the start.\n", client.outputs[-1])
    check("on to the end", ("step", "at the end", 20), client.moved("continue"))
    check("back to the start", ("step", "at 0", 0), client.moved("reverseContinue"))
    check("ends well", 0, client.end())


def breakpoints():
    file = example("to-do")
    client = Client(file)
    schedule = line_of(file, "schedule {")
    made = client.breaks(schedule + 19, schedule, line_of(file, "delete"), line_of(file, "replica q"), schedule + 100)
    check("verified", [True] * 4 + [False], [b["verified"] for b in made])
    check("their lines", [schedule + 19, schedule + 1, line_of(file, "delete"), line_of(file, "replica q") + 1, None],
          [b.get("line") for b in made])
    client.breaks(schedule + 19, line_of(file, "delete"))
    rules = client.functions("clear-reg", "NO-RULE", "replica z")
    check("a rule, none, and no replica", [True, False, False], [b["verified"] for b in rules])
    check("why no rule", True, rules[1]["message"].startswith("NO-RULE is no predicate; there are shows"))
    check("why no replica", True, rules[2]["message"].startswith("refused 18 UnknownReplica: No replica"))
    client.begin()
    stops = [client.moved("continue") for _ in range(7)]
    check("all stops", [12, 13, 14, 18, 19, 20, 20], [position for _, _, position in stops])
    check("their reasons", ["breakpoint", "function breakpoint", "function breakpoint", "breakpoint"],
          [reason for reason, _, _ in stops[:4]])
    back = [client.moved("reverseContinue")[2] for _ in range(6)]
    check("the same stops backwards", [19, 18, 14, 13, 12, 0], back)
    client.moved("continue")
    client.breaks()
    check("on by the rule alone", [13, 14], [client.moved("continue")[2] for _ in range(2)])
    stop = client.moved("reverseContinue")
    check("backwards, where a smaller number is free", ("function breakpoint", "break rule CLEAR-REG", 13), stop)
    client.moved("reverseContinue")
    client.functions("q")
    stop = client.moved("continue")
    check("the first event of a replica", ("function breakpoint", "break replica q", 7), stop)
    check("the console lists it", "  1 replica q", client.console("breaks"))
    client.ask("restart")
    check("a restart", "entry", client.wait("stopped")["reason"])
    check("and breakpoints stay", "break replica q", client.moved("continue")[1])
    client.end()


def predicates():
    """Breakpoints that are looked for: places that change, and what else `until` knows."""
    client = Client(example("to-do"))
    client.begin()
    check("two predicates", [True, True],
          [b["verified"] for b in client.functions('q changes doc/"todo"/2@p', "p lacks title")])
    stops = [client.moved("continue") for _ in range(7)]
    check("where they hold", [1, 2, 9, 10, 11, 13, 14], [position for _, _, position in stops])
    check("how it is told", ("function breakpoint", 'q changes doc/"todo"/2@p'), stops[2][:2])
    check("backwards too", [13, 11, 10, 9, 2, 1, 0], [client.moved("reverseContinue")[2] for _ in range(7)])
    client.functions()
    client.console("goto 11")
    client.wait("stopped")
    todo = client.opened(client.opened(client.scope(2, "Document"))["doc"]["variablesReference"])["todo"]
    info = client.ask("dataBreakpointInfo", variablesReference=todo["variablesReference"], name="[1]")
    check("a place of a document", 'q changes doc/"todo"/2@p', info["dataId"])
    client.ask("setDataBreakpoints", breakpoints=[{"dataId": info["dataId"]}])
    check("where it changes", ("data breakpoint", 14), client.moved("continue")[::2])
    check("and changes again", ("data breakpoint", 20), client.moved("continue")[::2])
    check("a dump has no places", None, client.ask("dataBreakpointInfo", name="ops",
                                                   variablesReference=client.scope(1, "State"))["dataId"])
    client.end()


def values():
    client = Client(example("one-value"))
    client.begin()
    client.moved("continue")
    document = client.opened(client.scope(1, "Document"))["doc"]
    key = client.opened(document["variablesReference"])["key"]
    check("a conflict", ("conflict of 2 values", 'doc.get("key")'), (key["value"], key["evaluateName"]))
    of_conflict = client.opened(client.opened(key["variablesReference"])["values"]["variablesReference"])
    check("its values", {"2@p": '"B"', "2@q": '"C"'}, {name: v["value"] for name, v in of_conflict.items()})
    state = client.opened(client.scope(1, "State"))
    check("the state", ["acted", "left", "name", "ops", "queue", "recv", "send", "tree"], list(state))
    check("its lists", '["1@p", "2@p", "2@q"]', state["ops"]["value"])
    tree = client.opened(client.opened(state["tree"]["variablesReference"])["mapT(doc)"]["variablesReference"])
    check("the tree", '{"2@p": "B", "2@q": "C"}', tree['regT("key")']["value"])
    frames = [frame["name"] for frame in client.frames(2)]
    last = 'last: q.apply(2, p) (14) applies 2@p  doc.get("key") := "B"'
    check("frames at the end", ["no event comes next", "command 3 of 3: yield", last], frames[:3])
    check("rules by their depth", ["APPLY-REMOTE", "  DESCEND"], frames[3:5])
    client.end()


def expressions():
    client = Client(example("bindings"))
    client.begin()
    client.moved("continue")
    variables = client.opened(client.scope(1, "Variables"))
    check("variables", ['{"keys": ["name", "price"]}', '{"values": [["1@p", {"n": "1.50"}], ["1@q", {"n": "2"}]]}'],
          [variables["names"]["value"], variables["prices"]["value"]])
    check("a variable of names", '["name", "price"]', client.watched("names"))
    check("a variable of a place", "conflict of 2 values", client.watched("price"))
    check("an expression", '"tea"', client.watched('doc.get("name")'))
    check("at the other replica", "2", client.watched('doc.get("price")', 2))
    check("values with their operations", '[["1@q", {"n": "2"}]]',
          client.watched('doc.get("price").values', 2))
    check("a replica's document", '{"doc": {"price": 2}}', client.watched("q"))
    why = client.refused("evaluate", expression="nothing", context="hover", frameId=client.frame(1))
    check("what isn't bound", "nothing gives nothing at p: 22 UnboundVariable: No `let` has bound the variable before: "
          "bind it in an earlier command of the same replica.", why)
    why = client.refused("evaluate", expression="doc.", context="watch", frameId=client.frame(1))
    check("no expression", "doc. is no expression: 8 EndOfText at 4", why)
    client.end()


def restarts():
    """A file that was changed: breakpoints stay on their lines, and one that is refused now ends the debugger."""
    with tempfile.NamedTemporaryFile("w", suffix=".jsoncrdt") as file:
        file.write("jsoncrdt 1\nreplica a { doc := 1; doc := 2 }\nschedule {\n  a.exec;\n\n  a.exec;\n}\n")
        file.flush()
        client = Client(file.name)
        client.breaks(6)
        client.begin()
        check("the second event", ("breakpoint", 1), client.moved("continue")[::2])
        with open(file.name, "w", encoding="utf-8") as changed:
            changed.write("jsoncrdt 1\nreplica a { doc := 1; doc := 2; doc := 3 }\n"
                          "schedule {\n  a.exec;\n  a.exec;\n  a.exec;\n}\n")
        client.ask("restart")
        client.wait("stopped")
        check("the third one on this line", ("breakpoint", 2), client.moved("continue")[::2])
        with open(file.name, "w", encoding="utf-8") as changed:
            changed.write("jsoncrdt 1\n")
        check("a file that is refused", True, "16 NoReplica" in client.refused("restart"))
        client.wait("terminated")
        check("ends well", 0, client.end())


def lines():
    """Lines of the console, and events that they make."""
    file = example("to-do")
    client = Client(file)
    client.begin()
    target = client.ask("gotoTargets", source={"path": file}, line=line_of(file, "schedule {") + 12)["targets"]
    check("a target", "before 12 q.done", target[0]["label"])
    check("goes there", ("goto", "at 11", 11), client.moved("goto", targetId=target[0]["id"]))
    answer = client.console("act p.exec")
    check("another event", 'at 12\n  12 p.exec  5@p  doc.get("todo").idx(1).delete', answer)
    check("is told", "goto", client.wait("stopped")["reason"])
    check("the schedule is cut", "at 12 of 12", client.console("where"))
    check("its document", 'p  {"todo": []}', client.console("view p"))
    check("compares", "different operations", client.console("compare p q"))
    check("short names", "at 12 of 12", client.console("w"))
    for line in ("act p.send", "act q.recv(p)", "act q.apply(5, p)", "act q.done"):
        client.console(line)
        client.wait("stopped")
    client.console("act q.exec")
    body = client.wait("stopped")
    check("a stuck event", ("exception", "stuck 26 PastEnd q.exec"), (body["reason"], body["description"]))
    info = client.ask("exceptionInfo", threadId=1)
    check("why", ("26 PastEnd", True), (info["exceptionId"], info["description"].startswith("The list has fewer")))
    names = [t["label"] for t in client.ask("completions", text="act p.", column=7)["targets"]]
    check("completes events", True, "p.recv(q)" in names)
    names = [t["label"] for t in client.ask("completions", text="break rule IDX", column=15)["targets"]]
    check("completes rules", ["IDX1", "IDX2", "IDX3", "IDX4", "IDX5"], names)
    of_schedule(client, file)
    client.end()


def of_schedule(client, file):
    """The document that has the events which aren't in the file."""
    client.console("goto 11")
    client.wait("stopped")
    top = client.frames(1)[0]
    text = client.ask("source", sourceReference=top["source"]["sourceReference"])["content"].split("\n")
    check("an event that isn't in the file", ("next: p.exec (12 of 16)", "  p.exec;"),
          (top["name"], text[top["line"] - 1]))
    check("one that is", line_of(file, "q.apply(4, p)"), client.frames(2)[2]["line"])
    made = client.ask("setBreakpoints", source=top["source"], breakpoints=[{"line": top["line"] + 3}])["breakpoints"]
    check("a breakpoint there", (True, top["line"] + 3), (made[0]["verified"], made[0]["line"]))
    check("stops there", ("breakpoint", "break at 14", 14), client.moved("continue"))
    made = client.breaks(line_of(file, "schedule {") + 15)
    check("a line that was cut off", (False, "`act` has cut this event off"), (made[0]["verified"], made[0]["message"]))
    check("can't be gone to", "refused 52 PastSchedule", client.moved("goto", targetId=18)[1])


def stuck():
    client = Client(example("out-of-order"))
    client.begin()
    check("stops before it", ("exception", "stuck 36 DepsMissing r.apply(2, q)", 13), client.moved("continue"))
    said = client.ask("exceptionInfo", threadId=1)["description"]
    check("what is missing", True, said.endswith("apply these before. missing: 1@p"))
    client.end()


def endings():
    client = Client(example("first"))
    check("no such request", "there is no request nothing", client.refused("nothing"))
    check("malformed arguments", True, client.refused("stackTrace") is not None)
    client.begin()
    client.console("quit")
    client.wait("terminated")
    check("then there is none", "no scenario is being debugged", client.refused("next", threadId=1))
    check("ends well behind quit", 0, client.end())


def refusals():
    """Texts that aren't launched, and a part of what is said of each."""
    for text, why in (
            (b"jsoncrdt 1\nreplica a {\n  doc.get(1) := 2;\n}",
             ":3:11: 7 Unexpected: A token doesn't fit where it is: put one that could be there, or take it out.\n"
             "found `1`, expected a string"),
            (b"jsoncrdt 2 replica a {} given {a.exec}",
             "refused 44 GivenStuck at 1: 44 GivenStuck: A given event is stuck, so the scenario has no start: mend "
             "it, "
             "or leave it and those behind it out.\nstuck 30 NoCommand a.exec: 30 NoCommand: The script has ended"),
            (b"jsoncrdt 1 replica a { doc := \"\xff\" }", "13 NotUtf8: The bytes aren't UTF-8"),
            (b"", "14 NoHeader: A scenario begins with")):
        with tempfile.NamedTemporaryFile(suffix=".jsoncrdt") as file:
            file.write(text)
            file.flush()
            seen = why_not(file.name)
            check(text[:40], why, why if why in (seen or "") else seen)
    check("no such file", "read failed: /no/such: No such file or directory", why_not("/no/such"))


def why_not(file):
    """Why a file isn't launched."""
    try:
        Client(file).end()
    except messaging.MessageHandlingError as error:
        return str(error)
    return None


def every(file):
    """Goes through a scenario forwards and backwards: positions, documents at the end, stuck events."""
    views = subprocess.run([PROGRAM, "view", file], capture_output=True, text=True, check=False)
    told = views.stdout.split("\n")[:-1]
    if told[0].startswith("refused "):
        check(f"{file} isn't launched", True, (why_not(file) or "").startswith(told[0]))
        return
    stuck_line = told.pop() if views.returncode == 3 else None
    client = Client(file)
    client.begin()
    reason, description, position = client.moved("continue")
    ending = (reason, description) if description != "refused 51 AtEnd" else ("step", "at the end")
    check(f"{file} ends", ("exception", stuck_line) if stuck_line else ("step", "at the end"), ending)
    check(f"{file} has its documents", told, client.console("view --raw").split("\n"))
    for thread in client.ask("threads")["threads"]:
        client.opened(client.scope(thread["id"], "State"))
    client.moved("reverseContinue")
    for number in range(min(position, STEPS)):
        check(f"{file} step {number}", number + 1, client.moved("next")[2])
    check(f"{file} ends well", 0, client.end())


def main():
    for test in (steps, breakpoints, predicates, values, expressions, restarts, lines, stuck, endings, refusals):
        try:
            test()
        except Exception as fault:  # of one test; the others are tried all the same
            check(f"{test.__name__} goes to its end", None, fault)
    for file in os.environ["SCENARIOS"].split("\n"):
        every(file)
    print(f"{counts['passed']} passed, {counts['failed']} failed")
    return 1 if counts["failed"] else 0


if __name__ == "__main__":
    status = main()
    sys.stdout.flush()
    os._exit(status)  # the library's threads wait for adapters that have ended
