"""What can go on at a place of a text, which needn't be finished: in a schedule and among given events what the program
says is enabled there, in a script what the grammar asks for."""

import asking  # which says where the modules below are
import bisect

from jsoncrdt.oracle.refusal import DIGITS, STRING, VARIABLE, Asking, wanted_behind

FUNCTION, VARIABLE_KIND, CLASS, VALUE, KEYWORD, EVENT = 3, 6, 7, 12, 14, 23
# How a reader may begin what is no word.
BEGUN = {b"{": b"{}", b"[": b"[]", STRING: b'""', DIGITS: b"1"}
BRACKETS = (b"(", b")", STRING, DIGITS)
# Up to how many bytes the grammar is asked what goes on between blocks: a longer text would keep the editor waiting.
MOST_ASKED = 262_144
LETTERS = b"abcdefghijklmnopqrstuvwxyzABCDEFGHIJKLMNOPQRSTUVWXYZ0123456789_"


def completions(document, offset):
    source = document.source
    block = source.block_at(offset)
    if not block:
        return outside(source, offset)
    start = begin_of(block, offset)
    word = offset - len(source.text[start:offset]) + len(source.text[start:offset].rstrip(LETTERS))
    if block.word == "replica":
        return in_script(source, block, start, word, offset)
    return in_schedule(document, start, offset)


def begin_of(block, offset):
    """Where the command or event begins that an offset is in, or that may go on there behind blanks; or the offset."""
    number = bisect.bisect_right(block.starts, offset) - 1
    if number < 0 or block.text[block.items[number].end:offset].strip():
        return offset
    return block.items[number].start


def item(source, label, kind, start, offset):
    """An item that comes in place of what is between two offsets."""
    # Without a text to filter by, which is the label then: Neovim looks at the range of such items alone.
    return {"label": label, "kind": kind, "textEdit": {"range": source.range(start, offset), "newText": label}}


def outside(source, offset):
    """What can come between blocks, as far as nothing before is wrong."""
    before = source.text[:offset].rstrip(LETTERS)
    if not before.strip():
        return [item(source, "jsoncrdt 2", KEYWORD, len(before), offset)]
    wanted = wanted_behind(before, Asking.scenario) if len(before) <= MOST_ASKED else []
    return [item(source, spelt.decode(), KEYWORD, len(before), offset) for spelt in wanted if is_word(spelt)]


def is_word(wanted):
    return isinstance(wanted, bytes) and wanted[:1].isalnum()


def in_script(source, block, start, word, offset):
    """The words, values and variables that the grammar asks for behind the beginning of a command."""
    before = source.text[start:word]
    found = []
    for wanted in wanted_behind(before, Asking.command):
        if wanted == VARIABLE:
            names = {block.text_of(name) for name in block.lets() if name.end < start}
            found += [item(source, name, VARIABLE_KIND, word, offset) for name in sorted(names)]
        elif is_word(wanted):
            text = continued(before, wanted)
            kind = FUNCTION if before.endswith(b".") else KEYWORD
            found.append(item(source, text.decode(), kind, word, offset))
        elif wanted in BEGUN:
            found.append(item(source, BEGUN[wanted].decode(), VALUE, word, offset))
    return found


def continued(before, word):
    """The word with the brackets that must follow it, as `get("")`."""
    text = word
    while len(wanted := wanted_behind(before + text, Asking.command)) == 1 and wanted[0] in BRACKETS:
        text += BEGUN.get(wanted[0], wanted[0])
    return text


def in_schedule(document, start, offset):
    """The events that are enabled behind those before this one, where all of these can be made, and the replicas."""
    source = document.source
    moved, enabled = document.questions.ask_all(source.text[:start] + b"}", "goto end", "enabled")
    events = [] if "refused" in moved or "stuck" in moved else enabled
    return [item(source, name, kind, start, offset)
            for names, kind in ((events, EVENT), (source.replicas, CLASS)) for name in names]
