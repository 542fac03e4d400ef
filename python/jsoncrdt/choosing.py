"""Which program is asked, by the package and by the tools of a checkout: the one that JSONCRDT in the environment
names; else the built one, where the package is in a checkout and no source is newer; else the rules in Python."""

import functools
import os

VARIABLE = "JSONCRDT"
# Where `rt ci` and `rt run` leave the program, from the top of a checkout.
BUILT = os.path.join("crates", "jc_app", "out", "jc_app")
ROOT = os.path.dirname(os.path.dirname(os.path.dirname(os.path.realpath(__file__))))
IN_PYTHON = os.path.join(ROOT, "oracle", "jsoncrdt")


def sources(root):
    """The files and folders that the program is built of. Tests are no part of it."""
    yield os.path.join(root, "crates.txt")
    for crate in os.scandir(os.path.join(root, "crates")):
        for at, folders, files in os.walk(os.path.join(crate.path, "src")) if "_tests" not in crate.name else ():
            folders[:] = [folder for folder in folders if not folder.startswith("tests")]
            yield from [at, *(os.path.join(at, file) for file in files if not file.startswith("tests"))]


@functools.cache
def lack():
    """Why the built program isn't asked, or nothing where it is."""
    built = os.path.join(ROOT, BUILT)
    if not os.path.exists(os.path.join(ROOT, "crates.txt")):
        return f"{VARIABLE} names no program"
    if not os.access(built, os.X_OK):
        return "the program isn't built"
    time = os.path.getmtime(built)
    is_old = any(os.path.getmtime(path) > time for path in sources(ROOT))
    return "sources are newer than the built program" if is_old else ""


def program():
    """The path of the program that is asked, or none where the rules in Python are."""
    named = os.environ.get(VARIABLE)
    if not named:
        return None if lack() else os.path.join(ROOT, BUILT)
    is_in_python = os.path.exists(named) and os.path.exists(IN_PYTHON) and os.path.samefile(named, IN_PYTHON)
    return None if is_in_python else named
