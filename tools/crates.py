"""The crates of the repository, as crates.txt lists them, and whether the built program is as new as they are."""

import collections
import os

from jsoncrdt.choosing import BUILT

# The crate of the program.
PROGRAM_CRATE = "jc_app"

# A crate: its name, the heading that its line stands under, what it may do, the libraries that it uses, of the
# repository and of the kit, and its line.
Crate = collections.namedtuple("Crate", "name heading may uses line")
# The heading of the crates that are for tests.
TESTS = "tests"


def crates_of(text):
    """The crates of a text as crates.txt, in its order, by their names."""
    found, heading = {}, ""
    for line in text.split("\n"):
        if line.startswith("#"):
            heading = line.lstrip("# ")
        head, colon, uses = line.partition("#")[0].partition(":")
        if colon:
            name, *may = head.split()
            found[name] = Crate(name, heading, may, uses.split(), " ".join(line.split()))
    return found


def below(crates, name):
    """The names of the repository's crates that this one stands on, in the order of crates.txt."""
    found, open_ones = set(), [name]
    while open_ones:
        uses = {used for used in crates[open_ones.pop()].uses if used in crates}
        open_ones += uses - found
        found |= uses
    return [each for each in crates if each in found]


def crates_at(root):
    """The crates of the copy of the repository in this folder."""
    with open(os.path.join(root, "crates.txt"), encoding="utf-8") as file:
        return crates_of(file.read())


def of_program(crates):
    """The names of those that the program is made of, each behind those that it uses."""
    return [*below(crates, PROGRAM_CRATE), PROGRAM_CRATE]


def made_of(root):
    """The files and folders that the built program is made and proved of. A file that was taken away, or put in place
    of another, makes its folder newer. Tests are no part of it."""
    yield "crates.txt"
    for name in of_program(crates_at(root)):
        for part in ("src", "specs", "proofs"):
            for at, _, files in os.walk(os.path.join(root, "crates", name, part)):
                at = os.path.relpath(at, root)
                yield from [at, *(os.path.join(at, file) for file in files if not file.startswith("tests"))]


def lack_of_built(root):
    """Why the built program can't be used for what is here, or nothing: it isn't there, or a file that it is made of is
    newer. The launcher looks at sources alone, since it answers at once."""
    built = os.path.join(root, BUILT)
    if not os.access(built, os.X_OK):
        return f"{BUILT} isn't there"
    newer = (path for path in made_of(root) if os.path.getmtime(os.path.join(root, path)) > os.path.getmtime(built))
    return next((f"{path} is newer than {BUILT}" for path in newer), "")
