"""The crates as docs/WORKING.md shows them: a table with each library, and a drawing of what stands on what."""

import re

from cases import expect_same, stored
from crates import TESTS, below, crates_of

DOCUMENT = "docs/WORKING.md"


def libraries():
    """The crates that aren't for tests."""
    return {name: crate for name, crate in crates_of(stored("crates.txt")).items() if crate.heading != TESTS}


def arrows(crates):
    """From each library to those that use it, without the arrows that follow from others."""
    return {(used, name) for name, crate in crates.items() for used in crate.uses
            if used in crates and not any(used in below(crates, other) for other in crate.uses if other in crates)}


def drawn():
    """The arrows of the drawing."""
    chains = re.findall(r"^ *(\w+(?: --> \w+)+)$", stored(DOCUMENT), re.MULTILINE)
    return {pair for chain in chains for pair in zip(chain.split(" --> "), chain.split(" --> ")[1:])}


def listed():
    """The libraries of the table."""
    return set(re.findall(r"^\| \w* ?\| `(jc_\w+)` \|", stored(DOCUMENT), re.MULTILINE))


def lines_of(pairs):
    return "".join(f"{one} --> {other}\n" for one, other in sorted(pairs))


def are_shown(_):
    crates = libraries()
    expect_same("\n".join(sorted(listed())), "\n".join(sorted(crates)))
    expect_same(lines_of(drawn()), lines_of(arrows(crates)))
