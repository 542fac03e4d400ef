"""Campaigns of random scenarios: a planted fault is found and made smaller, whoever tries the cases, with a worker that
dies and after an interruption; and what a campaign is told wrongly."""

import contextlib
import json
import os
import re
import signal
import sqlite3
import subprocess
import sys
import tempfile
import time

from cases import IN_PYTHON, IN_TEST, NotTried, expect, expect_same, folder_of, place, run, stored, told_errors
from kit import FILES
from jsoncrdt.oracle.lines import RULES

ENGINE = ["--call", "oracle/adapter:answer"]
# Dask is Debian's, and so is the Python that has it.
DEBIAN_PYTHON = "/usr/bin/python3"
SECONDS = 240


def campaign(programs, folder, words, python=sys.executable):
    return run([python, "kit/campaign", "--folder", folder, *words], programs.program)


def tables(folder):
    """All that the results have, but for the adapter."""
    with contextlib.closing(sqlite3.connect(os.path.join(folder, "results.sqlite"))) as base:
        return {name: base.execute(f"SELECT * FROM {name} ORDER BY 1").fetchall() for name in ("cases", "met", "kept")}


def needs_dask():
    try:
        ended = subprocess.run([DEBIAN_PYTHON, "-c", "import distributed"], capture_output=True, check=False)
    except OSError as error:
        raise NotTried("Dask") from error
    if ended.returncode:
        raise NotTried("Dask")


def finds_fault(programs):
    """A planted fault is found; the first scenario of its class is made smaller, and is a folder as those of the
    kit."""
    with tempfile.TemporaryDirectory() as folder:
        ended = campaign(programs, folder, ["--workers", "1", "--cases", "60", *ENGINE, "unlinks"])
        output, found = ended.stdout.decode(), tables(folder)
        expect(ended.returncode == 1 and output.startswith("60 scenarios: 36 woven, 24 bent\n"), f"{ended}")
        differ = [row for row in found["cases"] if row[2] != "same"]
        expect([row[0] for row in found["cases"]] == list(range(60)) and differ, output)
        first = {}
        for number, _, kind, *_ in differ:
            first.setdefault(kind, number)
        expect({kind: number for kind, number, *_ in found["kept"]} == first, f"{found['kept']} {first}")
        for kind in first:
            is_small(programs, os.path.join(folder, kind), kind, found["kept"])
        page = stored(os.path.join(folder, "report.html"))
        links = re.findall(r'href="([^"]+)"', page)
        expect(links and all(os.path.getsize(os.path.join(folder, link)) for link in links), f"{links}")
        expect(all(f"<td>{rule}</td>" in page or f'"none">{rule}</td>' in page for rule in RULES), "a rule is lacking")


def is_small(programs, folder, kind, kept):
    """What is kept differs by this fault and not without it, and is smaller than the case that it was made of."""
    expect({*os.listdir(folder)} == FILES | {"page.html"}, f"{os.listdir(folder)}")
    text = stored(os.path.join(folder, "scenario.jsoncrdt"))
    for fault, status in ((["--fault", "unlinks"], 0), ([], 1)):
        ended = run(["kit/differs", "oracle/adapter", *fault], programs.program, text)
        expect(ended.returncode == status, f"{folder} {fault}: {ended}")
    number = {row[0]: row[1] for row in kept}[kind]
    whole = run(["kit/campaign", "--print", str(number)], programs.program).stdout.decode()
    expect(whole.count("\n") > text.count("\n"), f"{number}: {text}")
    told = run([programs.program, "view", "-"], programs.program, text).stdout.decode()
    expect_same(stored(os.path.join(folder, "view")), told)
    expect(stored(os.path.join(folder, "about")).startswith(f"Case {number}, "), stored(os.path.join(folder, "about")))


def has_no_fault(programs):
    """The engine without a fault passes, and the bent scenarios have stuck events of many kinds."""
    with tempfile.TemporaryDirectory() as folder:
        ended = campaign(programs, folder, ["--workers", "1", "--cases", "200", *ENGINE])
        output, met = ended.stdout.decode(), {row[0] for row in tables(folder)["met"]}
        expect(ended.returncode == 0 and "\n     200 same " in output, f"{ended}")
        refusals = {int(name.split()[0]) for name in met - {*RULES}}
        expect(refusals <= {20, *range(22, 37), 44} and len(refusals) >= 8, f"{refusals}")
        expect(len(met & {*RULES}) >= 45, f"{met}")
        expect(f"{len(met & {*RULES})} of {len(RULES)} rules met" in output, output)


# A program that has `serve`, and notes that it was asked so.
SERVED = '#!/bin/sh\n[ "$1" != serve ] || echo asked >>"$0.log"\nexec "{oracle}" "$@"\n'


def asks_served(_):
    """Where the program has `serve` it is asked for the rules, by one process for each worker, behind one that looks
    whether it has it; and all is the same."""
    some = ["kit/check", "--only", "figure-*", "--only", "refused-3[46]-*"]
    commands = ([*some, "--ops", "--jobs", "2", "oracle/adapter", "--ops"],
                [*some, "--effects", IN_PYTHON, "journal", "--effects", "-"],
                ["kit/campaign", "--workers", "1", "--cases", "100", *ENGINE])
    with folder_of({"served": SERVED.format(oracle=os.path.abspath(IN_PYTHON))}) as folder:
        path, log = (os.path.join(folder, name) for name in ("served", "served.log"))
        for words, most in zip(commands, (3, 2, 2)):
            told = []
            for program in (IN_PYTHON, path):
                at = os.path.join(folder, os.path.basename(program))
                of_campaign = words[0] == "kit/campaign"
                ended = run([words[0], *["--folder", at + ".d"] * of_campaign, *words[1:]], program)
                told.append((ended.returncode, ended.stdout, tables(at + ".d") if of_campaign else None))
            expect(told[0] == told[1], f"{words}: {told}")
            count = stored(log).count("\n")
            expect(1 < count <= most, f"{words}: it was started {count} times")
            os.remove(log)


def goes_on(programs):
    """A part, and then all: what was tried isn't tried again, and all is as if it was tried at once."""
    with tempfile.TemporaryDirectory() as folder:
        names = [os.path.join(folder, name) for name in "ab"]
        words = [*ENGINE, "shallow"]
        campaign(programs, names[0], ["--workers", "1", "--first", "30", "--cases", "20", *words])
        again = campaign(programs, names[0], ["--workers", "1", "--cases", "60", *words])
        expect("campaign: 40 tried now, " in told_errors(again), f"{again}")
        once = campaign(programs, names[1], ["--workers", "1", "--cases", "60", *words])
        expect(tables(names[0])["cases"] == tables(names[1])["cases"], "the cases differ")
        expect(tables(names[0])["met"] == tables(names[1])["met"], "the rules that were met differ")
        nothing = campaign(programs, names[1], ["--workers", "1", "--cases", "60", *words])
        expect("campaign: 0 tried now, " in told_errors(nothing) and nothing.stdout == once.stdout, f"{nothing}")


def is_interrupted(programs):
    """Ctrl-C loses nothing that was tried, and the same command goes on."""
    with tempfile.TemporaryDirectory() as folder:
        words = ["--workers", "1", *ENGINE, "--cases", "100000"]
        with begun([sys.executable, "kit/campaign", "--folder", folder, *words], stderr=subprocess.PIPE) as process:
            wait_for_cases(process, folder, 25)
            process.send_signal(signal.SIGINT)
            expect(process.wait(SECONDS) == 130 and not process.stderr.read(), f"{process.returncode}")
        before = len(tables(folder)["cases"])
        expect(before >= 25, f"{before}")
        ended = campaign(programs, folder, [*words[:-1], str(before + 5)])
        count = len(tables(folder)["cases"])
        expect("campaign: 5 tried now, " in told_errors(ended) and count == before + 5, f"{count} {ended}")


@contextlib.contextmanager
def begun(words, **streams):
    """A process with these words, which doesn't outlive the test."""
    with subprocess.Popen(words, env={**os.environ, IN_TEST: "yes"}, **streams) as process:
        try:
            yield process
        finally:
            process.kill()


def wait_for_cases(process, folder, least):
    """Waits until the campaign of this process has tried so many cases."""
    end, count = time.monotonic() + SECONDS, 0
    while count < least:
        expect(time.monotonic() < end, f"{count} cases were tried in {SECONDS} seconds")
        expect(process.poll() is None, f"it ended with {process.returncode} when {count} cases were tried")
        time.sleep(0.05)
        with contextlib.suppress(sqlite3.Error):
            count = len(tables(folder)["cases"])


def is_same_on_two(programs):
    """One worker in its own process and two of Dask give the same, and keep the same."""
    needs_dask()
    with tempfile.TemporaryDirectory() as folder:
        found = []
        for workers in ("1", "2"):
            path = os.path.join(folder, workers)
            words = ["--cases", "60", "--workers", workers, *ENGINE, "unlinks"]
            ended = campaign(programs, path, words, DEBIAN_PYTHON)
            expect(ended.returncode == 1, f"{ended}")
            names = [name for name, *_ in tables(path)["kept"]]
            texts = {name: stored(os.path.join(path, name, "scenario.jsoncrdt")) for name in names}
            found.append((tables(path), texts, ended.stdout.decode().replace(path, "DIR")))
        expect(found[0] == found[1], f"{found[0]}\n{found[1]}")


@contextlib.contextmanager
def cluster(count):
    """A scheduler of Dask with workers of their own on this machine: its address, and the workers."""
    with tempfile.TemporaryDirectory() as folder, contextlib.ExitStack() as stack:
        file = os.path.join(folder, "scheduler.json")
        quiet = {"stdout": subprocess.DEVNULL, "stderr": subprocess.DEVNULL}

        def begin(*words):
            process = stack.enter_context(subprocess.Popen([DEBIAN_PYTHON, "-m", *words], cwd=folder, **quiet))
            stack.callback(process.kill)
            return process

        begin("distributed.cli.dask_scheduler", "--dashboard-address", "127.0.0.1:0", "--host", "127.0.0.1",
              "--port", "0", "--no-dashboard", "--scheduler-file", file)
        workers = [begin("distributed.cli.dask_worker", "--scheduler-file", file, "--nthreads", "1", "--no-nanny",
                         "--no-dashboard", "--host", "127.0.0.1") for _ in range(count)]
        end = time.monotonic() + SECONDS
        while not os.path.exists(file):
            expect(time.monotonic() < end, "no scheduler has begun")
            time.sleep(0.1)
        time.sleep(0.5)
        with open(file, encoding="utf-8") as opened:
            yield json.load(opened)["address"], workers


def outlives_worker(programs):
    """A worker dies in the middle, and each case is counted once, as without a cluster."""
    needs_dask()
    cases = ["--cases", "600", *ENGINE, "one-type"]
    with tempfile.TemporaryDirectory() as folder, cluster(2) as (address, workers):
        here, there = (os.path.join(folder, name) for name in ("here", "there"))
        words = [DEBIAN_PYTHON, "kit/campaign", "--folder", there, "--scheduler", address, *cases]
        with begun(words, stdout=subprocess.PIPE, stderr=subprocess.PIPE) as process:
            wait_for_cases(process, there, 25)
            workers[0].kill()
            count = len(tables(there)["cases"])
            errors = process.communicate(timeout=SECONDS)[1].decode()
        expect(process.returncode == 1 and count < 600 and "campaign: 600 tried now, " in errors, errors)
        campaign(programs, here, ["--workers", "1", *cases])
        expect(tables(there) == tables(here), f"{tables(there)}\n{tables(here)}")


# Words behind --folder, the status, and what is told on standard error. FOLDER has results of the engine without a
# fault.
WRONG = [
    (["--cases", "5", *ENGINE, "rising"], 2, "campaign: FOLDER/results.sqlite has results of another adapter: "
     "oracle/adapter:answer\n"),
    (["--cases", "5", "oracle/adapter"], 2, "campaign: FOLDER/results.sqlite has results of another adapter: "),
    (["--cases", "5"], 2, "campaign: the following arguments are required: COMMAND"),
    (["--cases", "0", *ENGINE], 2, "campaign: argument --cases: 0 is no number from 1 on"),
    (["--accept", "nothing", *ENGINE], 2, "campaign: argument --accept: invalid choice: 'nothing'"),
    (["./no-such-command"], 2, "campaign: ./no-such-command: "),
    (["false"], 2, "campaign: false can't start: it ended with status 1\n"),
    (["--call", "no-such-file:answer"], 2, "campaign: no-such-file:answer can't start: "),
    (["--call", "oracle/adapter:nothing"], 2, "campaign: oracle/adapter:nothing can't start: "),
]


def is_wrong(programs):
    """What is told wrongly ends in one sentence, and changes no results."""
    with tempfile.TemporaryDirectory() as folder:
        campaign(programs, folder, ["--workers", "1", "--cases", "5", *ENGINE])
        before = tables(folder)
        for words, status, told in WRONG:
            ended = campaign(programs, folder, ["--workers", "1", *words])
            errors = told_errors(ended).replace(folder, "FOLDER")
            expect(ended.returncode == status and errors.startswith(told) and errors.count("\n") == 1,
                   f"{words} {ended}")
        expect(tables(folder) == before and len(before["cases"]) == 5, f"{before}")


def is_of_others(programs):
    """Results of another version or of other rules, and a file that has none, are refused."""
    with tempfile.TemporaryDirectory() as folder:
        path, words = os.path.join(folder, "results.sqlite"), ["--workers", "1", "--cases", "5", *ENGINE]
        campaign(programs, folder, words)
        for what, value, told in (("sources", "0", "has results of other rules, or of another kit"),
                                  ("form", "7", "has results of another version: 7, and not 1")):
            with contextlib.closing(sqlite3.connect(path)) as base, base:
                base.execute("UPDATE about SET value = ? WHERE what = ?", (value, what))
            ended = campaign(programs, folder, words)
            expect(ended.returncode == 2 and told in told_errors(ended), f"{ended}")
        for content in ("no results\n" * 100, None):
            os.remove(path)
            if content is None:
                with contextlib.closing(sqlite3.connect(path)) as base, base:
                    base.execute("CREATE TABLE other (x)")
            else:
                place(path, content)
            ended = campaign(programs, folder, words)
            errors = told_errors(ended)
            expect(ended.returncode == 4 and f"{path} has no results of a campaign: " in errors, f"{ended}")
            expect(errors.count("\n") == 1, errors)


def has_no_scheduler(programs):
    """A scheduler that isn't there, and an address that is none."""
    needs_dask()
    with tempfile.TemporaryDirectory() as folder:
        for address in ("tcp://127.0.0.1:9", "nowhere:x"):
            ended = campaign(programs, folder, ["--scheduler", address, *ENGINE], DEBIAN_PYTHON)
            errors = told_errors(ended)
            is_told = errors.startswith(f"campaign: no scheduler answers at {address}: ") and errors.count("\n") == 1
            expect(ended.returncode == 2 and is_told, f"{ended}")


def lacks_dask(programs):
    """Where the Python has no Dask, a sentence says which one would have it."""
    with folder_of({"dask.py": "raise ImportError\n"}) as folder:
        ended = run(["env", f"PYTHONPATH={folder}", sys.executable, "kit/campaign", "--folder", f"{folder}/results",
                     *ENGINE], programs.program)
        told = f"campaign: Dask isn't here: {sys.executable} has none. Debian's is python3-distributed, for "
        expect(ended.returncode == 2 and told_errors(ended).startswith(told), f"{ended}")


def campaigns():
    yield "kit: a campaign finds a fault", finds_fault
    yield "kit: a campaign without a fault", has_no_fault
    yield "kit: rules that are asked through serve", asks_served
    yield "kit: a campaign goes on", goes_on
    yield "kit: a campaign is interrupted", is_interrupted
    yield "kit: a campaign on two workers", is_same_on_two
    yield "kit: a campaign outlives a worker", outlives_worker
    yield "kit: a campaign is told wrongly", is_wrong
    yield "kit: a campaign with the results of others", is_of_others
    yield "kit: a campaign without a scheduler", has_no_scheduler
    yield "kit: a campaign without Dask", lacks_dask
