"""The scripts that call rt, tried with a command rt that is none: the launcher, and those of the gate."""

import os
import subprocess

from cases import expect, folder_of
from edits_together import edits_together
from gate import gate

# A command rt for the launcher, which only tells its arguments, the files of a folder of cases, and its input.
TELLING = """#!/bin/sh
if [ "$2" = --cases ]; then
    ls "$3"
    shift 3
    set -- try --cases FOLDER "$@"
fi
echo "$@"
cat
"""
# One that ends as a program does.
ENDING = """#!/bin/sh
echo shown
echo told >&2
exit %d
"""


def launcher_case(has_rt, words, status, output, sentence):
    """The launcher says a sentence by itself, and hands the rest to rt, where it is there."""

    def tried(_):
        with folder_of({"rt": TELLING}) as folder:
            path = f"{folder}:/usr/bin:/bin" if has_rt else "/usr/bin:/bin"
            told = subprocess.run(["./jsoncrdt", "--unproved", *words], input=b"step\n", capture_output=True,
                                  check=False,
                                  env={**os.environ, "PATH": path})
        is_right = told.returncode == status and told.stdout.decode() == output and sentence in told.stderr.decode()
        expect(is_right, f"{told}")

    return f"launcher: --unproved {' '.join(words)}" + ("" if has_rt else ", without rt"), tried


def status_case(status):
    """An unproved run ends with the status of the program, and each stream has its lines."""

    def tried(_):
        with folder_of({"rt": ENDING % status}) as folder:
            told = subprocess.run(["./jsoncrdt", "--unproved", "run", "examples/first.jsoncrdt"], capture_output=True,
                                  check=False, env={**os.environ, "PATH": f"{folder}:/usr/bin:/bin"})
        is_right = told.returncode == status and told.stdout == b"shown\n" and told.stderr.endswith(b"\ntold\n")
        expect(is_right, f"{told}")

    return f"launcher: --unproved ends with {status}", tried


def launcher():
    first, stuck = os.path.abspath("examples/first.jsoncrdt"), "examples/stuck.jsoncrdt"
    yield launcher_case(False, ["run", stuck], 127, "", "whose command rt isn't on the path")
    yield launcher_case(True, ["run", "no-such-file"], 4, "", "there is no file no-such-file")
    yield launcher_case(True, ["view", "--at", "3", "examples"], 4, "", "examples is a folder")
    yield launcher_case(True, ["run", first], 0, f"try --data scenario={first} -- run scenario\n", "nothing is proved")
    yield launcher_case(True, ["run", "--trace", first, stuck], 0,
                        "01-first.jsoncrdt\n02-stuck.jsoncrdt\ntry --cases FOLDER -- run --trace -\n",
                        "nothing is proved")
    yield launcher_case(True, ["debug", first], 0, f"try --data scenario={first} -- debug scenario\nstep\n",
                        "nothing is proved")
    for status in range(6):
        yield status_case(status)


def scripts():
    yield from launcher()
    yield from gate()
    yield from edits_together()
