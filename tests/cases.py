"""What all tests have in common. A case is a name and what is called with the programs; it raises Wrong or NotTried."""

import contextlib
import os
import subprocess
import tempfile

from crates import BUILT, lack_of_built

IN_PYTHON = os.path.join("oracle", "jsoncrdt")
# What stands in the line by which the launcher or a tool says who answers in place of the program; how that of the
# launcher begins, and that of the rules in Python.
ANSWER = ": the rules in Python answer, unproved: "
UNPROVED = f"jsoncrdt{ANSWER}"
IN_PYTHON_SAYS = "oracle/jsoncrdt: these are the rules in Python"
# Stands in the environment of what a test runs. There ./test runs no tests, which else might go on without end.
IN_TEST = "JSONCRDT_IN_TEST"


class NotTried(Exception):
    """A case that can't be tried here, and what it needs."""


class Wrong(Exception):
    """A case that failed, and what was told."""


class Programs:
    """The program that is tried, and the rules in Python for a command that it hasn't."""

    def __init__(self):
        self.lack = lack_of_built(os.curdir)
        self.is_built = not self.lack
        self.program = BUILT if self.is_built else IN_PYTHON
        self.has_view = not self.is_built or run([BUILT, "view", "--help"], BUILT).returncode == 0

    def of(self, command):
        return self.program if self.has_view or "jsoncrdt view" not in command else IN_PYTHON


def run(words, program, text="", shell=False, path=None):
    """How the command ends that these words are, or this line of a shell; where a path is given, folders on it come
    first."""
    environment = {**os.environ, "JSONCRDT": os.path.abspath(program), IN_TEST: "yes"}
    if path:
        environment["PATH"] = f"{path}:{environment['PATH']}"
    return subprocess.run(words, input=text.encode(), capture_output=True, shell=shell, env=environment, check=False)


def told_errors(ended):
    """What a command told on standard error, but for the line that says that the rules in Python answer."""
    lines = ended.stderr.decode(errors="replace").splitlines(keepends=True)
    return "".join(line for line in lines if ANSWER not in line and not line.startswith(IN_PYTHON_SAYS))


def place(path, text):
    """Makes a command of this text.

    A process of its own writes it: what another thread starts meanwhile would have the file open for a moment, and what
    is open for writing can't be started.
    """
    subprocess.run(["sh", "-c", 'cat >"$1" && chmod 755 "$1"', "sh", path], input=text.encode(), check=True)


def copy_into(folder, *paths):
    """Copies files and folders, by their paths from here, into a folder; by processes of their own, for the same
    reason."""
    packed = subprocess.run(["tar", "cf", "-", "--exclude=__pycache__", *paths], stdout=subprocess.PIPE, check=True)
    subprocess.run(["tar", "xf", "-", "-C", folder], input=packed.stdout, check=True)


@contextlib.contextmanager
def folder_of(commands):
    """A folder with commands, each with the text of its script, for as long as it is used."""
    with tempfile.TemporaryDirectory() as folder:
        for name, text in commands.items():
            path = os.path.join(folder, name)
            os.makedirs(os.path.dirname(path), exist_ok=True)
            place(path, text)
        yield folder


def stored(path):
    with open(path, encoding="utf-8") as file:
        return file.read()


def expect(is_right, told):
    if not is_right:
        raise Wrong(told)


def expect_same(got, want):
    """Both texts are the same; else the first line is told in which they differ."""
    if got != want:
        pairs = enumerate(zip(got.split("\n") + ["(end)"], want.split("\n") + ["(end)"]), 1)
        number, (one, other) = next((n, pair) for n, pair in pairs if pair[0] != pair[1])
        raise Wrong(f"line {number} is\n{one}\nand not\n{other}")
