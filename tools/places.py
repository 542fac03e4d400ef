"""Where the parts of a scenario's text are, for the servers of editors.

Tokens alone tell it: strings, braces and semicolons. Whether they make a scenario the program says; of a text that it
refuses this finds what it can. Offsets count bytes from 0, as the program's do. Positions are those of editors: a line
from 0, and in it units of UTF-16.
"""

import asking  # which says where the modules below are
import bisect
import re

from jsoncrdt.oracle.refusal import spelling_at

# What parts a text. A string that isn't closed ends with its line.
SIGN = re.compile(rb'"(?:[^"\\\r\n]|\\[^\r\n])*"?|[{};]')
HEADER = re.compile(rb"\b(?P<word>replica|given|schedule)(?:\s+(?P<name>[A-Za-z_][0-9A-Za-z_]*))?\s*\Z")
LINE_END = re.compile(rb"\r\n|\r|\n")
BLANK = re.compile(rb"[ \t\r\n]*")
LET = re.compile(rb"let\s+([A-Za-z_][0-9A-Za-z_]*)")


def in_bytes(text):
    """The bytes of a text of an editor. Half a surrogate pair becomes bytes that the program refuses as no UTF-8."""
    return text.encode("utf-8", "surrogatepass")


def units(text):
    """How many units of UTF-16 the bytes are; a byte that isn't UTF-8 is one."""
    return len(text.decode("utf-8", "surrogateescape").encode("utf-16-le", "surrogatepass")) // 2


class Lines:
    """Bytes by lines, as editors count them: they end with CR, LF or both."""

    def __init__(self, text):
        self.text, self.starts = text, [0, *(end.end() for end in LINE_END.finditer(text))]

    def position(self, offset):
        offset = min(offset, len(self.text))
        line = bisect.bisect_right(self.starts, offset) - 1
        return line, units(self.text[self.starts[line]:offset])

    def offset(self, line, unit):
        """The offset of a position. Behind a line's end it is that end, behind the last line the text's end, and within
        a pair of units the character's begin."""
        if line >= len(self.starts):
            return len(self.text)
        after = self.starts[line + 1] if line + 1 < len(self.starts) else len(self.text)
        content = self.text[self.starts[line]:after].rstrip(b"\r\n").decode("utf-8", "surrogateescape")
        before = content.encode("utf-16-le", "surrogatepass")[:2 * unit]
        if before[-1:] and 0xD8 <= before[-1] < 0xDC:  # half a pair
            before = before[:-2]
        return self.starts[line] + len(before.decode("utf-16-le", "surrogatepass").encode("utf-8", "surrogateescape"))


class Span:
    """A part of the text, from an offset to another."""

    def __init__(self, start, end):
        self.start, self.end = start, end


class Block(Span):
    """A block in braces: its word, its name if it has one and where that is, and its items, which are commands or
    events. `inside` is behind its opening brace, `inside_end` before its closing one, or at the text's end."""

    def __init__(self, text, opening, header, begun):
        super().__init__(begun + header.start(), len(text))
        self.text, self.word, self.inside, self.inside_end = text, header["word"].decode(), opening + 1, len(text)
        self.name, self.name_span = None, None
        if header["name"]:
            self.name = header["name"].decode()
            self.name_span = Span(begun + header.start("name"), begun + header.end("name"))
        self.items, self.starts = [], []

    def add(self, start, end):
        """Takes what is between two offsets as an item, if something is there."""
        start = BLANK.match(self.text, start, end).end()
        end = start + len(self.text[start:end].rstrip(b" \t\r\n"))
        if start < end:
            self.items.append(Span(start, end))
            self.starts.append(start)

    def number_at(self, offset):
        """The number, from 0, of the item that an offset is in, or behind which it is at once; none between items."""
        number = bisect.bisect_right(self.starts, offset) - 1
        return number if number >= 0 and offset <= self.items[number].end else None

    def text_of(self, item):
        return self.text[item.start:item.end].decode(errors="replace")

    def texts(self):
        return [self.text_of(item) for item in self.items]

    def lets(self):
        """Where the names are that a script binds."""
        found = (LET.match(self.text, item.start, item.end) for item in self.items if self.word == "replica")
        return [Span(*let.span(1)) for let in found if let]

    def bound(self):
        """The names that a script binds."""
        return {self.text_of(name) for name in self.lets()}


class Source:
    """The places of a text."""

    def __init__(self, text):
        self.text, self.lines, self.blocks = text, Lines(text), []
        self.open, self.depth, self.begun = None, 0, 0
        for sign in SIGN.finditer(text):
            if sign[0] in (b"{", b"}", b";"):
                self.part(sign[0], sign.start())
        if self.open:
            self.open.add(self.begun, len(text))
        self.replicas = {block.name: block for block in self.blocks if block.word == "replica" and block.name}
        self.given, self.schedule = self.first("given"), self.first("schedule")

    def part(self, sign, offset):
        """Takes the next brace or semicolon. A header begins a block also where the one before it isn't closed yet."""
        if sign == b"{":
            header = HEADER.search(self.text[self.begun:offset])
            if header:
                self.close(self.begun + header.start(), self.begun + header.start())
                self.open = Block(self.text, offset, header, self.begun)
                self.blocks.append(self.open)
                self.begun, self.depth = offset + 1, 0
            else:
                self.depth += 1
        elif sign == b"}" and self.depth:
            self.depth -= 1
        elif sign == b"}":
            self.close(offset, offset + 1)
            self.begun = offset + 1
        else:
            self.close_item(offset)

    def close_item(self, offset):
        if self.open:
            self.open.add(self.begun, offset)
        self.begun, self.depth = offset + 1, 0

    def close(self, inside_end, end):
        if self.open:
            self.open.add(self.begun, inside_end)
            self.open.inside_end, self.open.end = inside_end, end
        self.open = None

    def first(self, word):
        return next((block for block in self.blocks if block.word == word), None)

    def block_at(self, offset):
        """The block in whose braces an offset is."""
        return next((block for block in self.blocks if block.inside <= offset <= block.inside_end), None)

    def named_at(self, offset):
        """The block in whose header's name an offset is."""
        return next((block for block in self.blocks
                     if block.name and block.name_span.start <= offset <= block.name_span.end), None)

    def token_at(self, start, offset):
        """The token that an offset is in, or behind which it is at once, of those from `start` on; or none."""
        at = BLANK.match(self.text, start).end()
        while at < min(offset + 1, len(self.text)):
            end = at + len(spelling_at(self.text, at))
            after = BLANK.match(self.text, end).end()
            # Between two tokens that touch it is in the first where that is a word, else in the second.
            if offset < end or offset == end and (after > end or self.text[at:end][-1:].isalnum()):
                return Span(at, end)
            at = after
        return None

    def position(self, offset):
        line, unit = self.lines.position(offset)
        return {"line": line, "character": unit}

    def range(self, start, end):
        return {"start": self.position(start), "end": self.position(end)}
