"""What an expression gives at a replica."""

from asking import served
from jsoncrdt.oracle.refusal import sentence_of
from layout import read_json


class NoValue(Exception):
    """Why a text gives nothing."""


def value_of(positions, text, name, position):
    """What an expression gives at a replica at a position of these: of a place what is in the document there, of names
    and of values a list."""
    found = read_json(served().line_told(positions.text, f"view --at {position} {name} {text}"))
    if "refused" in found:
        raise NoValue(why_none(text, name, found["refused"]))
    value = next((found[part] for part in ("doc", "keys", "values") if part in found), None)
    if value is None and "doc" not in found:
        raise NoValue("nothing is at this place")
    return value


def why_none(text, name, refusal):
    number = int(refusal["number"])
    if "offset" in refusal:
        return f"{text} is no expression: {number} {refusal['name']} at {refusal['offset']}"
    return f"{text} gives nothing at {name}: {sentence_of(number)}"
