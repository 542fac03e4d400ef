"""What an editor may do with a scenario: symbols and definitions to go to, the canonical text, and edits of the
schedule."""

import re

from places import Span
from jsoncrdt.serving import line_of_refusal, line_of_stuck

CLASS, VARIABLE, EVENT = 5, 13, 24
REWRITE = "refactor.rewrite"
# The commands that an editor can ask the server for.
WEAVE, FILL, GIVE, SYNC = "jsoncrdt.weave", "jsoncrdt.fill", "jsoncrdt.give", "jsoncrdt.sync"
VERSION = re.compile(rb"\s*jsoncrdt\s+(\w+)")
SEMICOLON = re.compile(rb"\s*;")
MOST_PARTNERS, MOST_WOVEN = 8, 10_000


# ---- symbols and definitions

def symbols(document):
    return [symbol(document.source, block) for block in document.source.blocks]


def symbol(source, block):
    chosen = block.name_span or Span(block.start, block.inside)
    detail = f"{len(block.items)} {'commands' if block.word == 'replica' else 'events'}"
    lets = [let_symbol(source, span) for span in block.lets()]
    return {"name": block.name or block.word, "kind": CLASS if block.name else EVENT, "detail": detail,
            "range": source.range(block.start, block.end), "selectionRange": source.range(chosen.start, chosen.end),
            "children": lets}


def let_symbol(source, span):
    place = source.range(span.start, span.end)
    return {"name": source.text[span.start:span.end].decode(errors="replace"), "kind": VARIABLE, "range": place,
            "selectionRange": place}


def definition(document, offset):
    """Where that is which a word at an offset names: of a variable the last `let` before, of an event the command that
    made its operation or that it executes, of a name the replica."""
    source = document.source
    block = source.block_at(offset)
    number = block.number_at(offset) if block else None
    token = source.token_at(block.items[number].start, offset) if number is not None else None
    if not token:
        return None
    word = source.text[token.start:token.end]
    if block.word == "replica":
        lets = [let for let in block.lets() if source.text[let.start:let.end] == word and let.start <= offset]
        return document.location(lets[-1]) if lets else None
    replica = source.replicas.get(word.decode(errors="replace"))
    if replica:
        return document.location(replica.name_span)
    if document.refusal:
        return None
    line = document.placed.line(document.placed.position_at(offset))
    made = document.placed.maker_of(line) if line and line["kind"] in ("apply", "take") else line
    command = document.placed.command_of(made) if made else None
    return document.location(command) if command else None


# ---- edits

def formatting(document):
    """The canonical text in place of one that isn't refused."""
    text = None if document.refusal else document.questions.ask("print")
    if text is None or text.encode() == document.text:
        return []
    return [{"range": document.source.range(0, len(document.text)), "newText": text}]


def block_text(word, events):
    return f"{word} {{\n" + "".join(f"  {event};\n" for event in events) + "}"


def replaced(document, block, text):
    """The edit that puts a text in a block's place, or behind all where there is none."""
    end = len(document.text)
    gap = "" if block or document.text.endswith(b"\n") else "\n"
    where = document.source.range(*((block.start, block.end) if block else (end, end)))
    return {"range": where, "newText": gap + text + ("" if block else "\n")}


def workspace_edit(document, edits):
    return {"changes": {document.uri: edits}}


def woven(document, seed):
    """The events that the program weaves of the text, or none where it can't."""
    return document.questions.ask(f"weave {seed} {MOST_WOVEN}").get("events")


def weave_edit(document, seed):
    """A woven schedule in place of the one that is there."""
    events = woven(document, seed)
    return None if events is None else workspace_edit(
        document, [replaced(document, document.source.schedule, block_text("schedule", events))])


def fill_given(document, seed):
    """A woven schedule as the given events, where there are none yet, and none behind them."""
    given, schedule = document.source.given, document.source.schedule
    events = woven(document, seed) if given and not given.items else None
    if not events:
        return None
    edits = [replaced(document, given, block_text("given", events))]
    edits += [replaced(document, schedule, block_text("schedule", []))] if schedule else []
    return workspace_edit(document, edits)


def count_before(schedule, offset):
    """How many events of the schedule end before an offset in it."""
    is_inside = schedule and schedule.inside <= offset <= schedule.end
    return sum(item.end <= offset for item in schedule.items) if is_inside else 0


def give_before(document, offset):
    """The events of the schedule that end before an offset become given. That needs version 2."""
    source, given, schedule = document.source, document.source.given, document.source.schedule
    count, version = count_before(schedule, offset), VERSION.match(document.text)
    if not (count and version):
        return None
    past = (given.texts() if given else []) + schedule.texts()[:count]
    rest = block_text("schedule", schedule.texts()[count:])
    edits = [{"range": source.range(*version.span(1)), "newText": "2"}]
    if given:
        edits += [replaced(document, given, block_text("given", past)), replaced(document, schedule, rest)]
    else:
        edits += [replaced(document, schedule, f"{block_text('given', past)}\n{rest}")]
    return workspace_edit(document, edits)


# ---- two replicas brought to the same operations

def in_words(answer):
    """Why an event can't be made, or how two replicas compare, as a line of a session."""
    if "operations" in answer:
        return " ".join(f"{answer[part]} {part}" for part in ("operations", "tree") if part in answer)
    return line_of_stuck(answer["stuck"]) if "stuck" in answer else line_of_refusal(answer["refused"])


def exchanged(ask, one, other):
    """The events that bring to two replicas what the other one made, those that can be made, and the last thing that is
    said: of both behind them, or why there are none. `ask` gives the answer to a request."""
    tried = [f"{one}.send", f"{other}.send", f"{one}.recv({other})", f"{other}.recv({one})"]
    answers = {event: ask(f"act {event}") for event in tried}
    refusals = [answer for answer in answers.values() if answer.keys() & {"stuck", "refused"}]
    made = [event for event, answer in answers.items() if answer not in refusals]
    while applies := [event for event in ask("enabled") if event.startswith((f"{one}.apply(", f"{other}.apply("))]:
        made.append(applies[0])
        ask(f"act {applies[0]}")
    return made, in_words(ask(f"compare {one} {other}") if made else refusals[0])


def sync(document, offset, one, other):
    """What brings two replicas together behind the events before an offset of the schedule, written out; none where
    nothing does. And what the program says."""
    with document.questions.asked() as asked, asked.changing():
        moved = asked.told(document.text, f"goto {count_before(document.source.schedule, offset)}")
        if moved.keys() & {"stuck", "refused"}:
            return None, in_words(moved)
        made, said = exchanged(lambda request: asked.told(document.text, request), one, other)
    return insert_edit(document, offset, made) if made else None, said


def insert_edit(document, offset, events):
    """Events behind those that end before an offset in the schedule."""
    schedule, count = document.source.schedule, count_before(document.source.schedule, offset)
    place = schedule.items[count - 1].end if count else schedule.inside
    semicolon = SEMICOLON.match(document.text, place)
    end = semicolon.end() if semicolon else place
    text = ";" * bool(count and not semicolon) + "".join(f"\n  {event};" for event in events)
    return workspace_edit(document, [{"range": document.source.range(end, end), "newText": text}])


def partners(document, offset):
    """The pairs of replicas that may exchange at an offset of the schedule: that of its event with each other one."""
    schedule, names = document.source.schedule, sorted(document.source.replicas)
    if not schedule or not schedule.inside <= offset <= schedule.inside_end:
        return []
    number = schedule.number_at(offset)
    own = None if number is None else schedule.text_of(schedule.items[number]).split(".")[0]
    pairs = [(one, other) for place, one in enumerate(names) for other in names[place + 1:]]
    return [pair for pair in pairs if own is None or own in pair][:MOST_PARTNERS]


# ---- what is offered

def command(title, name, document, *arguments):
    """A command and no edit: editors ask for actions at each move of the cursor, and a long schedule takes a while."""
    return {"title": title, "command": name, "arguments": [document.uri, *arguments]}


def weave_command(document, seed):
    return command(f"weave a schedule (seed {seed})", WEAVE, document, seed)


def code_actions(document, offset, seed):
    """What can be done at an offset of a text that isn't refused."""
    if document.refusal:
        return []
    found = [command(f"Replace the schedule by a woven one (seed {seed})", WEAVE, document, seed)]
    if count_before(document.source.schedule, offset):
        found.append(command("Let the events before this one be given", GIVE, document, offset))
    if document.source.given and not document.source.given.items:
        found.append(command(f"Fill given by a woven schedule (seed {seed})", FILL, document, seed))
    found += [command(f"Write out a sync of {one} and {other}", SYNC, document, offset, one, other)
              for one, other in partners(document, offset)]
    return [{"title": action["title"], "kind": REWRITE, "command": action} for action in found]


def lenses(document, seed):
    block = document.source.schedule or next(iter(document.source.blocks), None)
    if document.refusal or not block:
        return []
    return [{"range": document.source.range(block.start, block.inside), "command": weave_command(document, seed)}]
