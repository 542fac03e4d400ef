"""Pages of runs: what tools/page puts into a page is unpacked again, and its events lead from state to state as `run`
and `debug` tell. What the page's script makes of it is tried in a browser, by tests/in_browser, where one is
installed."""

import base64
import functools
import glob
import hashlib
import html
import json
import os
import pty
import re
import shutil
import subprocess
import tempfile

import sections
from asking import Scenario
from cases import IN_PYTHON, NotTried, expect, expect_same, folder_of, run, stored, told_errors
from changes import Journal
from fates import fates
from kit import NAMES, dump_of
from jsoncrdt.oracle.lines import RULES
from layout import read_json
from page_data import MOST_RULES
from runs import one_schedule
from jsoncrdt.oracle.sentences import SENTENCES

DEBIAN_PYTHON = "/usr/bin/python3"
MOST_POSITIONS = 40
NEEDED = "chromium, chromium-driver and python3-selenium of Debian"
# The refusals that a stuck event can have.
OF_EVENTS = {20, *range(22, 37)}
# Names, keys and values that could break a page, and file names too.
ODD = """jsoncrdt 2
replica __proto__ {
  let __proto__ = doc.get("__proto__"); __proto__ := "</script><!--<b id=\\"x\\">&amp;"; doc.get("10") := 1.50;
  doc.get("2") := -0; doc.get("!conflict") := 1e400; doc.get("constructor") := "\\u0000\\ud83d\\ude00\\u2028"; yield
}
replica %(long)s {
  yield; doc.get("\\ud83d\\ude00") := null; doc.get("\\uffff") := true; let __proto__ = doc.keys; yield
}
given { __proto__.exec; __proto__.exec; __proto__.exec }
schedule {
  __proto__.exec; __proto__.exec; __proto__.exec; __proto__.send; %(long)s.take(__proto__, 1, __proto__);
  %(long)s.apply(1, __proto__); %(long)s.done; %(long)s.exec; %(long)s.exec; %(long)s.exec
}
""" % {"long": "n" * 255}
ODD_FILE = "</title><b>&\"'\udcff.jsoncrdt"


PARTS = {"map": "mapT", "list": "listT", "register": "regT"}


def enter(context, effects):
    """Makes in a dumped context what the effects tell. Presence sets that are empty are left out."""
    for effect in effects:
        key = effect["key"]
        for word in effect.get("made", ()):
            context[f"{PARTS[word]}({key})"] = {"next(head)": "tail"} if word == "list" else {}
        present = {*context.pop(f"pres({key})", ()), *effect.get("gained", ())} - {*effect.get("lost", ())}
        if present:
            context[f"pres({key})"] = sorted(present, key=order)
        for identifier, _ in effect.get("taken", ()):
            del context[f"regT({key})"][identifier]
        for identifier, value in effect.get("written", ()):
            context[f"regT({key})"][identifier] = value
        if "next" in effect:
            context[f"next({key})"] = effect["next"][1]
        for word in ("map", "list"):
            enter(context.get(f"{PARTS[word]}({key})"), effect.get(word, ()))


def without_empty(context):
    """A dumped context without presence sets that are empty, which effects don't tell from those that aren't there."""
    return {name: without_empty(content) if name.startswith(("mapT(", "listT(")) else content
            for name, content in context.items() if content != [] or not name.startswith("pres(")}


class State:
    """The state of a replica, from that with which a page begins on, by the page's events."""

    def __init__(self, first, name):
        self.first, self.name, self.tree = first, name, {}
        self.sets = {word: [*first[word]] for word in ("ops", "recv", "send")}
        self.left, self.acted, self.vars = first["left"], first["acted"], {**first["vars"]}
        enter(self.tree, first["effects"])

    def add(self, event):
        kind, new = event["k"], event.get("n", [])
        self.sets["send" if kind == "send" else "recv"] += new
        self.sets["ops"] += [event["o"]] if "o" in event else []
        self.left -= kind in ("exec", "done")
        self.acted = self.acted if kind == "exec" else kind != "done"
        self.vars |= event.get("v", {})
        enter(self.tree, event.get("x", ()))

    def dump(self):
        """A dump, and its text, which no later event changes."""
        sets = {word: sorted(ids, key=order) for word, ids in self.sets.items()}
        queue = [made for made in sets["ops"] if made.endswith(f"@{self.name}")]
        state = {**sets, "queue": queue, "acted": self.acted, "left": self.left, "name": self.name, "vars": self.vars,
                 "tree": self.tree}
        return json.dumps(state, sort_keys=True)


def order(identifier):
    counter, name = identifier.split("@")
    return int(counter), name


class Page:
    """A page as text, and the data in it."""

    def __init__(self, programs, words, text="", program=None, status=(0,)):
        ended = run(["tools/page", *words], program or programs.program, text)
        expect(ended.returncode in status, f"tools/page {words}: {ended.returncode} {ended.stderr.decode()}")
        self.text, self.told = ended.stdout.decode(), told_errors(ended)
        block = re.search(r'<script type="application/json" id="data">(.*?)</script>', self.text, re.DOTALL)[1]
        self.data = json.loads(block)

    @property
    def one(self):
        return self.data["runs"][0]

    def positions(self):
        """The states of all replicas at each position, as texts."""
        states = [State(first, name) for first, name in zip(self.one["states"], self.data["names"])]
        dumps = [state.dump() for state in states]
        yield dumps
        for event in self.one["events"]:
            states[event["r"]].add(event)
            dumps = [*dumps]
            dumps[event["r"]] = states[event["r"]].dump()
            yield dumps

    def lines(self):
        """The lines of the journal, without the events' numbers."""
        names = self.data["names"]
        operations = {made["id"]: {name: made[name] for name in made if name not in ("command", "number")}
                      for made in self.one["operations"]}
        for event in self.one["events"]:
            line = {"event": event["e"], "kind": event["k"], "replica": names[event["r"]]}
            line["rules"] = self.rules(event["t"])
            if "c" in event:
                line["command"] = self.data["scripts"][event["r"]]["commands"][event["c"]]
            if "f" in event:
                line["from"] = names[event["f"]]
            if "n" in event:
                line["new"] = event["n"]
            if "o" in event:
                line |= {"op": operations[event["o"]], "effects": event["x"]}
            yield line
        if self.one["stuck"]:
            yield {name: member for name, member in self.one["stuck"].items() if name not in ("r", "number")}

    def rules(self, number):
        packed, depth, rules = self.data["traces"][number], 0, []
        for rule, step, times in zip(packed[::3], packed[1::3], packed[2::3]):
            for _ in range(times):
                depth += step
                rules.append([depth, self.data["rules"][rule]])
        return rules


def lines_of(text):
    """The lines of JSON in what the program told."""
    return [line for line in text.split("\n") if line.startswith("{")]


def same_states(states, dumps, where):
    told = [json.loads(line) for line in lines_of(dumps)]
    wanted = [{**state, "tree": without_empty(state["tree"])} for state in told]
    wrong = [pair for pair in zip(map(json.loads, states), wanted) if pair[0] != pair[1]]
    expect(len(states) == len(wanted) and not wrong, f"{where}: the page has another state: {str(wrong)[:900]}")


def same_journal(page, journal, file):
    """The events are those of the journal, with their operations, rules and effects; so is the one that is stuck."""
    told = [json.loads(line) for line in lines_of(journal)]
    for line in told:
        del line["number"]
        line.pop("given", None)
        if "rules" in line:
            del line["rules"][MOST_RULES:]
    made = list(page.lines())
    wrong = next((pair for pair in zip(made, told) if pair[0] != pair[1]), None)
    is_same = len(made) == len(told) and not wrong
    expect(is_same, f"{file}: {len(made)} lines, journal has {len(told)}: {str(wrong)[:500]}")


def page_case(file, dumps, has_journal):
    """The page's data at the end are what `run` tells, and in the middle what a session does. `dumps` gives the last
    states."""

    def tried(programs):
        page = Page(programs, [file], status=(0, 3))
        positions, given = list(page.positions()), page.one["given"]
        if has_journal:
            words = [IN_PYTHON, "journal", "--trace", "--effects", file]
            same_journal(page, run(words, IN_PYTHON).stdout.decode(), file)
        if dumps().startswith("refused 44 "):
            expect(page.one["stuck"] and len(positions) <= given, f"{file}: no given event is stuck in the page")
            return
        same_states(positions[-1], dumps(), file)
        middle = (len(positions) + given) // 2
        told = run([programs.program, "debug", file], programs.program, f"goto {middle - given}\nstate\n")
        same_states(positions[middle], told.stdout.decode(), f"{file} at {middle - given}")

    return f"tools/page: {file}", tried


def pages_of_all():
    for file in sorted(glob.glob("examples/**/*.jsoncrdt", recursive=True)):
        yield page_case(file, functools.partial(stored, f"{file.removesuffix('.jsoncrdt')}.run"), True)
    for number, name in enumerate(NAMES):
        yield page_case(f"kit/{name}/scenario.jsoncrdt", functools.partial(dump_of, name), number % 4 == 0)
    yield from map(script_case, sorted(glob.glob("examples/**/*.jsoncrdt", recursive=True)))
    yield from (script_case(f"kit/{name}/scenario.jsoncrdt") for name in NAMES)


def documents_there(program, text, positions):
    """What `view` shows at positions of a scenario without given events: a list of lines for each, as JSON."""
    requests = "".join(f"view --at {position}\n" for position in positions)
    told = run([program, "serve"], program, f"scenario {len(text.encode())}\n{text}{requests}")
    expect(not told.returncode, f"{told}")
    return [read_json(line) for line in told.stdout.decode().splitlines()[1:]]


def some_of(end):
    """All positions where they are few, else some all along; the end is one of them."""
    return [*range(end + 1)] if end <= MOST_POSITIONS else sorted({end * n // MOST_POSITIONS for n in
                                                                    range(MOST_POSITIONS + 1)})


def script_case(file):
    """The page's script makes of the data the documents that `view` shows, from the last position back to the first,
    and on; and at the end it tells of each operation what tools/fate does."""

    def tried(programs):
        if not shutil.which("node"):
            raise NotTried("node")
        data, scenario = Page(programs, [file], status=(0, 3)).data, Scenario(stored(file))
        end = len(data["runs"][0]["events"])
        positions = some_of(end)
        told = run(["node", "tests/page_script.js"], programs.program,
                   json.dumps({"data": data, "positions": [*reversed(positions), *positions]}))
        expect(not told.returncode, told.stderr.decode())
        found, count = json.loads(told.stdout), len(positions)
        back, on = found["documents"][:count], found["documents"][count:]
        expect(on == [*reversed(back)], f"{file}: the documents on the way back are others")
        wanted = documents_there(programs.program, one_schedule(scenario, None), positions)
        for at, lines, texts in zip(positions, wanted, on, strict=True):
            shown = [{"name": name} | ({"doc": read_json(text)} if text else {})
                     for name, text in zip(data["names"], texts, strict=True)]
            expect(shown == lines, f"{file} at {at}: {shown}, and not {lines}"[:900])
        same_fates(file, found["fates"], fates(Journal(one_schedule(scenario, end))))

    return f"tools/page: its script on {file}", tried


def same_fates(file, made, told):
    wanted = [[made, [at_number(fate) | {"replica": name} for name, fate in there.items()]]
              for made, _, there in told]
    wrong = next((pair for pair in zip(made, wanted) if pair[0] != pair[1]), None)
    expect(len(made) == len(wanted) and not wrong, f"{file}: {len(made)} operations of {len(wanted)}: {wrong}")


def at_number(fate):
    """A fate as the page has it, which tells of an event its number alone."""
    found = {name: member for name, member in fate.items() if name not in ("number", "event")}
    return found | ({"at": fate["number"]} if "number" in fate else {})


def is_odd(programs):
    """Names, keys and values stay what they are, and nothing of them is part of the page's own text."""
    page = Page(programs, ["-"], ODD)
    states = [json.loads(text) for text in list(page.positions())[-1]]
    expect([state["name"] for state in states] == ["__proto__", "n" * 255], "the names of the replicas")
    one, other = (state["tree"]["mapT(doc)"] for state in states)
    values = {json.loads(name[5:-1]): [*value.values()] for name, value in one.items() if name.startswith("regT(")}
    wanted = {"!conflict": [{"n": "1e400"}], "10": [{"n": "1.50"}], "2": [{"n": "-0"}],
              "__proto__": ['</script><!--<b id="x">&amp;'], "constructor": ["\0\U0001f600\u2028"]}
    expect(values == wanted, f"{values}")
    expect({'regT("\U0001f600")', 'regT("\uffff")'} < {*other}, f"{other}")
    expect(states[1]["vars"] == {"__proto__": {"keys": ["__proto__", "\uffff", "\U0001f600"]}}, states[1]["vars"])
    expect(page.text.count("</script>") == 2 and page.text.count("<!--") == 0, "a text ends the script")


def has_strict_policy(programs):
    """The page says which script and which style may run, and that nothing is fetched. Its file's name is a text."""
    with tempfile.TemporaryDirectory() as folder:
        path = os.path.join(folder, ODD_FILE.replace("/", ":"))
        shutil.copy("examples/first.jsoncrdt", path)
        page = Page(programs, [path])
    policy = html.unescape(re.search(r'http-equiv="Content-Security-Policy" content="(.*?)"', page.text)[1])
    for tag in ("script", "style"):
        text = re.search(rf"<{tag}>(.*?)</{tag}>", page.text, re.DOTALL)[1]
        digest = base64.b64encode(hashlib.sha256(text.encode()).digest()).decode()
        expect(f"{tag}-src 'sha256-{digest}'" in policy, f"no {tag}-src of its own in {policy}")
    for part in ("default-src 'none'", "base-uri 'none'", "form-action 'none'", "require-trusted-types-for 'script'"):
        expect(part in policy, f"no {part} in {policy}")
    title = html.escape(page.data["title"])
    expect(f"<title>{title} - jsoncrdt</title>" in page.text and "?.jsoncrdt" in title, page.text[:900])
    addresses = set(re.findall(r"\w+://[^\"\s]*", page.text))
    expect(addresses == {"http://www.w3.org/2000/svg"}, f"the page has the addresses {addresses}")


# A program that has serve, and one that hasn't yet.
ASKING = f'exec "{os.path.abspath(IN_PYTHON)}" "$@"\n'
PROGRAMS = {"served": f"#!/bin/sh\n{ASKING}", "older": f'#!/bin/sh\n[ "$1" = serve ] && exit 2\n{ASKING}'}
GIVEN_STUCK = "jsoncrdt 2 replica a {doc := 1; yield} given {a.exec; a.send; a.exec} schedule {a.done}"


def is_one_page(_):
    """Whoever is asked, through serve or by other commands, the page is the same, but for who that is."""
    with folder_of(PROGRAMS) as folder:
        for words, text in ((["examples/insert-behind-deleted.jsoncrdt"], ""), (["--from", "-3", "-"], GIVEN_STUCK),
                            (["examples/bindings.jsoncrdt", "--from", "2", "--most", "5"], ""), (["-"], GIVEN_STUCK)):
            pages = [Page(None, words, text, program, (0, 3)) for program in
                     (IN_PYTHON, *(os.path.join(folder, name) for name in PROGRAMS))]
            by = [page.data.pop("by") for page in pages]
            in_python = "the rules in Python, of which nothing is proved"
            expect(by == [in_python, "served", "older"], f"{by}")
            expect(pages[0].data == pages[1].data == pages[2].data, f"{words}: the pages differ")


def has_words(_):
    """Each rule has a line of words in docs/RULES.md and then its question, and each refusal of an event a sentence."""
    words = sections.rules()
    lacking = [rule for rule in RULES if rule not in words]
    expect(not lacking and set(words) == set(RULES), f"docs/RULES.md has no line of words for {lacking}")
    for rule, text in words.items():
        is_short = re.fullmatch(r"[A-Z`].{10,120}\.", text["words"])
        is_line = f"In words: {text['words']}\n" in stored("docs/RULES.md")
        expect(is_short and is_line, f"{rule} hasn't one line of words")
        expect(text["form"][0].startswith("Question: "), f"behind the words of {rule} there is no question")
    lacking = sorted(number for number in OF_EVENTS if number not in SENTENCES)
    expect(not lacking, f"docs/ERRORS.md has no sentence for {lacking}")


def asks_once(programs):
    """A page needs one process of the program's serve, behind the one that finds out whether it has it, or else each
    command once, whatever its events are. It says which program that was."""
    serves = '[ "$1" = serve ] && exit 2\n'
    asked = f'#!/bin/sh\necho "$1" >>"${{0%%/*}}/asked.txt"\n%sexec "{os.path.abspath(IN_PYTHON)}" "$@"\n'
    for file in ("examples/to-do.jsoncrdt", "examples/stuck.jsoncrdt", "kit/names-without-deleted/scenario.jsoncrdt"):
        for before, words in ((serves, "serve\ncheck\nprint\njournal\ndebug\n"), ("", "serve\nserve\n")):
            with folder_of({"program": asked % before}) as folder:
                page = Page(programs, [file], program=os.path.join(folder, "program"), status=(0, 3))
                expect_same(stored(os.path.join(folder, "asked.txt")), words)
            expect(page.data["by"].startswith("program"), page.data["by"])


def has_title(programs):
    """A page is named as its file is, and a scenario of the kit by its folder, too."""
    for file, title in (("examples/first.jsoncrdt", "first.jsoncrdt"),
                        ("kit/first-assignment/scenario.jsoncrdt", "first-assignment/scenario.jsoncrdt")):
        page = Page(programs, [file])
        expect_same(page.data["title"], title)
        expect(f"<title>{title} - jsoncrdt</title>" in page.text, page.text[:900])


def has_window(programs):
    """A page from a position on begins with what there is then, and tells where it ends."""
    file, size = "examples/insert-behind-deleted.jsoncrdt", 5
    whole = list(Page(programs, [file]).positions())
    given = 8
    for start in (-4, 0, 3):
        page = Page(programs, [file, "--from", str(start), "--most", str(size)])
        begin = given + start
        expect(list(page.positions()) == whole[begin:begin + size + 1], f"--from {start}: the positions differ")
        told = f"page: the page ends at position {start + size} of 10: --from {start + size} makes one from there on\n"
        expect_same(page.told, told)
    expect(not Page(programs, [file, "--from", "6"]).told, "the end of the schedule is told as left out")


def has_both(programs):
    """Two schedules are side by side, and the page has the event at which they part."""
    file = "examples/one-value.jsoncrdt"
    with tempfile.TemporaryDirectory() as folder:
        paths = [os.path.join(folder, f"{seed}.jsoncrdt") for seed in (1, 2)]
        for seed, path in enumerate(paths, 1):
            with open(path, "wb") as out:
                out.write(run([programs.program, "weave", "--seed", str(seed), file], programs.program).stdout)
        page = Page(programs, ["--diff", *paths])
        ones = [Page(programs, [path]).data["runs"][0] for path in paths]
    events, parting = [[event["e"] for event in told["events"]] for told in page.data["runs"]], page.data["parting"]
    expect(events == [[event["e"] for event in told["events"]] for told in ones], "the events differ")
    one, other = events
    expect(one[:parting] == other[:parting] and one[parting] != other[parting], f"{parting}: {events}")
    expect([told["label"] for told in page.data["runs"]] == ["1.jsoncrdt", "2.jsoncrdt"], "labels")


def is_seen(programs):
    """The page's script, in a browser: tests/in_browser says what is looked at. It takes a minute of an idle machine,
    so it is tried where it is asked for."""
    if "JSONCRDT_BROWSER" not in os.environ:
        raise NotTried("the variable JSONCRDT_BROWSER")
    is_there = os.access(DEBIAN_PYTHON, os.X_OK) and run([DEBIAN_PYTHON, "-c", "import selenium"], "").returncode == 0
    if not (is_there and shutil.which("chromium") and shutil.which("chromedriver")):
        raise NotTried(NEEDED)
    told = run([DEBIAN_PYTHON, "tests/in_browser"], programs.program)
    expect(told.returncode == 0, (told.stdout + told.stderr).decode())


def is_for_a_file(programs):
    """A page isn't written to a terminal."""
    ours, theirs = pty.openpty()
    ended = subprocess.run(["tools/page", "examples/first.jsoncrdt"], stdout=theirs, stderr=subprocess.PIPE,
                           env={**os.environ, "JSONCRDT": programs.program}, check=False)
    os.close(theirs)
    os.close(ours)
    told = ended.stderr.decode()
    expect(ended.returncode == 2 and told.count("\n") == 1 and "> page.html" in told, f"{ended}")


def run_pages():
    yield from pages_of_all()
    yield "tools/page: odd names and values", is_odd
    yield "tools/page: the policy in the file", has_strict_policy
    yield "tools/page: a sentence for each rule and refusal", has_words
    yield "tools/page: which commands it asks", asks_once
    yield "tools/page: the same, whoever is asked", is_one_page
    yield "tools/page: its title", has_title
    yield "tools/page: --from and --most", has_window
    yield "tools/page: --diff", has_both
    yield "tools/page: a terminal", is_for_a_file
    yield "tools/page: tests/in_browser", is_seen
