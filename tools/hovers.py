"""What an editor shows of the place under its pointer, in Markdown: what an event did, changed and used, a replica's
document, a variable's value. What comes from the text itself stands in fences."""

import asking  # which says where the modules below are
import functools

import sections
from changes import Change, sentences
from layout import laid_out, read_json, shortened, traced
from jsoncrdt.oracle.refusal import sentence_of
from rows import Row

MOST_ROWS = 40


def hover(document, offset):
    """What is shown at an offset, with its range, or none."""
    source = document.source
    header, block = source.named_at(offset), source.block_at(offset)
    if document.refusal or not (header or block):
        return None
    if header:
        span, parts = header.name_span, [f"**{header.name}** at the end", *document_of(document, header.name)]
    else:
        number = block.number_at(offset)
        if number is None:
            return None
        span = source.token_at(block.items[number].start, offset) or block.items[number]
        parts = of_item(document, block, number, source.text[span.start:span.end].decode(errors="replace"))
    return {"contents": {"kind": "markdown", "value": "\n\n".join(parts)}, "range": source.range(span.start, span.end)}


def of_item(document, block, number, word):
    """What is shown of a word in a command or an event."""
    position = document.placed.position_at(block.items[number].start)
    line = document.placed.line(position, "--trace", "--effects")
    if block.word == "replica" and word in block.bound():
        return of_variable(document, block, word, line)
    if not line:
        return ["no event executes this" if block.word == "replica" else "the schedule doesn't come to this event"]
    parts = of_event(document, line)
    if block.word != "replica" and word in document.source.replicas and "stuck" not in line:
        parts += [f"document of {word} behind it", *document_of(document, word, position)]
    return parts


def fenced(rows):
    rows = list(rows)
    shown = [*rows[:MOST_ROWS], *[f".. and {len(rows) - MOST_ROWS} more"] * (len(rows) > MOST_ROWS)]
    return "```\n" + "\n".join(shown) + "\n```"


# ---- events

def of_event(document, line):
    """What an event is, what it changed, and which rules it used."""
    title = f"**{line['event']}**, {'given ' if 'given' in line else ''}event {line['number']}"
    parts = [title, fenced([shortened(words_of(document, line))])]
    if "stuck" in line:
        return [*parts, sentence_of(line["stuck"])]
    changed = [said for effect in line.get("effects", ()) for said in sentences(Change(line, (effect["key"],), effect))]
    if "op" in line:
        parts += ["changes", fenced(changed)] if changed else ["changes nothing"]
    names, words = dict.fromkeys(name for _, name in line["rules"]), words_of_rules()
    rules = fenced(traced(f"{depth} {name}" for depth, name in line["rules"]))
    return [*parts, "rules", rules, "\n".join(f"- {name}: {words[name]}" for name in names)]


def words_of(document, line):
    """What an event did, in words; of an `apply` the command that made the operation, too."""
    maker = document.placed.maker_of(line) if line["kind"] == "apply" else None
    return Row(line).text + (f"  {maker['command']}" if maker else "")


@functools.lru_cache
def words_of_rules():
    """For each rule what it does, in a sentence."""
    return {name: rule["words"] for name, rule in sections.rules().items()}


# ---- documents and variables

def document_of(document, name, position=None):
    """A replica's document at a position, or at the end."""
    at = document.placed.last if position is None else position
    view = read_json(document.questions.line(f"view --at {at} {name}"))
    return [fenced(laid_out(view["doc"])) if "doc" in view else "no document"]


def of_variable(document, block, name, line):
    """What a variable is bound to behind a command, where that was executed."""
    if not line or "stuck" in line:
        return [f"**{name}**: no event executes this"]
    found = document.questions.ask(f"eval --at {document.placed.position_of(line)} {block.name} {name}")
    bound = laid_out("not bound" if "refused" in found else found)
    return [f"**{name}** behind {'given ' if 'given' in line else ''}event {line['number']}", fenced(bound)]
