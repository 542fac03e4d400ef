"""The launcher on trees of its own: without the built program, with one, with one that is too old; and tools/prove with
a command rt that is none."""

import contextlib
import fcntl
import os
import pty
import re
import select
import signal
import subprocess
import tempfile
import time

from blocks import commands_of
from cases import UNPROVED, expect, expect_same, place, stored, told_errors
from proving import OLDEST_KIT

FIRST, STUCK = os.path.abspath("examples/first.jsoncrdt"), os.path.abspath("examples/stuck.jsoncrdt")
README = "README.md"
# How long an answer may take, and what is waited for; on a busy machine, how many times what it takes to do nothing.
MOST_SECONDS, PATIENCE, BUSY = 10, 120, 20
NOT_BUILT, STALE = "the program isn't built", "sources are newer than the built program"
CRATES = "jc_io:\njc_rules: jc_io  # two\njc_app: jc_io jc_rules\n"
# A program that does as the rules in Python do, and one that tells its own process.
BY_RULES = '#!/bin/sh\nJSONCRDT_SAYS=program exec "$(dirname "$0")/../../../oracle/jsoncrdt" "$@"\n'
TELLING = "#!/bin/sh\necho $$\n"
# A command rt, told by variables: its kit, a crate of which the check hangs, fails, or is killed once, and whether it
# takes what other copies built. It notes which crates it checked, and fails where a library below isn't there.
RT = r"""#!/bin/sh
name=$(basename "$PWD")
case $1 in
    version) echo "${KIT-rattle-kit-13f logic 0}" ;;
    lib)
        [ -f src/lib.rt ] && [ -f ../../crates.txt ] || { echo "no sources"; exit 1; }
        [ "$name" = jc_io ] || [ -f ../jc_io/out/rlib/stamp ] || { echo "no library below"; exit 1; }
        [ -f out/rlib/stamp ] && exit 0
        if [ -d ../jc_app ]; then
            mkdir out
            if [ "${SHARES-yes}" = yes ]; then cp -r ../jc_app/out/rooms/$name/crates/$name/out/* out; exit 0; fi
            echo "rt: chose --jobs 1 for $name"
            exec sleep 600
        fi
        echo "$name" >>"$NOTES"
        mkdir -p out/incremental
        if [ "$name" = "${HANGS-}" ]; then echo "so far: 1 of 9 functions checked"; sleep 600; fi
        if [ "$name" = "${FAILS-}" ]; then echo "fn $name::f: proved"; echo "fn $name::g: not proved"
            for i in 1 2 3 4 5 6 7; do for j in 1 2 3 4 5 6 7; do echo "library std: modules loaded=8 checked=0"; done; done
            exit 1
        fi
        if [ "$name" = "${KILLED-}" ] && [ ! -e "$NOTES.killed" ]; then : >"$NOTES.killed"; kill -9 $$; fi
        mkdir -p out/rlib
        echo "rt: another copy of the repository is building this library; waiting for it"
        echo "logic=proved functions=3 sum=0"
        : >out/rlib/stamp
        ;;
    run)
        [ -f ../jc_rules/out/rlib/stamp ] || { echo "no library below"; exit 1; }
        printf '#!/bin/sh\necho proved\n' >out/jc_app
        chmod +x out/jc_app
        echo "logic=proved functions=2 sum=0"
        echo "refused 14 NoHeader at 0"
        exit 1
        ;;
esac
"""


@contextlib.contextmanager
def tree(program=None, files=(), age=0):
    """A copy of the repository as far as the launcher uses it, with crates of its own, this text as the built program,
    and files besides; the program is so many seconds older than they are."""
    sources = {f"crates/{name}/src/lib.rt": "" for name in ("jc_io", "jc_rules", "jc_app")}
    built = {"crates/jc_app/out/jc_app": program} if program else {}
    with tempfile.TemporaryDirectory() as folder:
        subprocess.run(["cp", "-r", "jsoncrdt", "oracle", "python", "tools", "examples", folder], check=True)
        for name, text in {"crates.txt": CRATES, "rt": RT, **sources, **built, **dict(files)}.items():
            os.makedirs(os.path.dirname(os.path.join(folder, name)), exist_ok=True)
            place(os.path.join(folder, name), text)
        if program:
            then = time.time() - age + 1
            os.utime(os.path.join(folder, "crates/jc_app/out/jc_app"), (then, then))
        yield folder


def environment_of(folder, variables):
    return {**os.environ, "PATH": f"{folder}:{os.environ['PATH']}", "NOTES": f"{folder}/notes", **variables}


def called(folder, *words, text="", **variables):
    """How the launcher ends there."""
    return subprocess.run(["/bin/sh", f"{folder}/jsoncrdt", *words], input=text.encode(), capture_output=True,
                          check=False, env=environment_of(folder, variables))


def has(told, status, output=None, *said):
    got, shown = told.returncode, told.stderr.decode()
    lacking = [part for part in said if part not in shown]
    expect(got == status and not lacking, f"status {got}, without {lacking}:\n{shown}")
    if output is not None:
        expect_same(told.stdout.decode(), output)


# ---- who answers


def answers_by_rules(_):
    """Without the built program, or with an old one, the rules in Python answer, and one line says so."""
    for program, age, lack in ((None, 0, NOT_BUILT), (TELLING, 60, STALE)):
        with tree(program, age=age) as folder:
            told = called(folder, "view", FIRST)
            has(told, 0, '{"doc":{"a":1},"name":"a"}\n', f"{UNPROVED}{lack} ({folder}/jsoncrdt --prove builds it)\n")
            expect(told.stderr.count(b"\n") == 1, f"{told}")
            has(called(folder, "run", "no-such-file"), 4, "", "read failed: no-such-file: No such file")
            has(called(folder, "check", "-", text="x"), 1, "refused 14 NoHeader at 0\n")
            has(called(folder, "--explain", "check", "-", text="x"), 1, "refused 14 NoHeader at 0\n", "1:1: found `x`")
            has(called(folder, "threads", FIRST), 127, "", "threads needs the proved program", "--prove", "weave")
            has(called(folder, "threads", "--help"), 0)
            expect(not os.path.exists(f"{folder}/notes"), "rt was called")


def needs_python(_):
    with tree() as folder, tempfile.TemporaryDirectory() as nothing:
        for words in (["view", FIRST], ["--prove"]):
            has(called(folder, *words, PATH=nothing), 127, "", "python3, which isn't on the path")


def becomes_program(_):
    """The launcher becomes the built program: no process stands between."""
    with tree(TELLING) as folder:
        with subprocess.Popen([f"{folder}/jsoncrdt", "run", FIRST], stdout=subprocess.PIPE) as process:
            expect_same(process.stdout.read().decode(), f"{process.pid}\n")


def explains_program(_):
    """What the built program refuses is explained behind it, from a file and from standard input, with its status."""
    with tree(BY_RULES) as folder:
        has(called(folder, "check", "-", text="x"), 1, "refused 14 NoHeader at 0\n", "program\n")
        for words, text, status, said in (
                (["check", "-"], "x", 1, "standard input:1:1: found `x`"),
                (["view", STUCK], "", 3, f"{STUCK}:26:3: `q.exec` is stuck"),
                (["journal", STUCK], "", 3, f"{STUCK}:11:3: this is the next command"),
                (["debug", STUCK], "next\n", 0, "is it `step`?"),
                (["debug", "-"], "x", 1, "standard input:1:1: found `x`"),
                ([], "x", 1, "standard input:1:1: found `x`"),
                (["run", FIRST], "", 0, "program\n")):
            plain = called(folder, *words, text=text)
            told = called(folder, "--explain", *words, text=text)
            has(told, status, plain.stdout.decode(), said)
            expect(plain.returncode == status and (status == 0 or said not in plain.stderr.decode()), f"{plain}")


@contextlib.contextmanager
def in_terminal(words, folder, **variables):
    """A command of which both outputs are a terminal, and what reads what it shows, up to a text or to its end."""
    ours, theirs = pty.openpty()
    with subprocess.Popen(words, stdin=subprocess.DEVNULL, stdout=theirs, stderr=theirs,
                          env=environment_of(folder, variables)) as process:
        os.close(theirs)
        shown, deadline = b"", time.monotonic() + PATIENCE

        def up_to(text=None):
            nonlocal shown
            with contextlib.suppress(OSError):  # the end of a terminal's output
                while text is None or text not in shown:
                    waits = select.select([ours], [], [], max(0, deadline - time.monotonic()))[0]
                    expect(waits, f"it shows no more than {shown}")
                    shown += os.read(ours, 4096)
            return shown.decode().replace("\r\n", "\n")

        try:
            yield process, up_to
        finally:
            process.kill()
            os.close(ours)


def explains_in_terminal(_):
    """Where standard error is a terminal what is refused is explained unasked, behind its line."""
    for program in (None, BY_RULES):
        with tree(program) as folder, in_terminal([f"{folder}/jsoncrdt", "view", STUCK], folder) as (process, up_to):
            shown = up_to()
            is_told = f"stuck 26 PastEnd q.exec\n{STUCK}:26:3: `q.exec` is stuck\n" in shown
            expect(process.wait(PATIENCE) == 3 and is_told, shown)


def unproved_explains(_):
    """An unproved run says its three limits, is explained, and takes --explain on either side."""
    with tree(files={"rt": "#!/bin/sh\nexit 1\n"}) as folder:
        for words in (["--explain", "--unproved"], ["--unproved", "--explain"]):
            told = called(folder, *words, "check", "-", text="x")
            has(told, 1, "", "three limits:\njsoncrdt: - the program is built", "\njsoncrdt: - it runs a minute",
                "\njsoncrdt: - it reads no terminal\n", "standard input:1:1: found `x`")
        plain = called(folder, "--unproved", "check", "-", text="x")
        expect("found" not in plain.stderr.decode(), "it was explained unasked")


def unproved_ends(_):
    """An unproved run says that it is alive, and ends what it began at TERM."""
    with tree(files={"rt": "#!/bin/sh\nexec sleep 600\n"}) as folder:
        words = ["/bin/sh", f"{folder}/jsoncrdt", "--unproved", "check", FIRST]
        with in_terminal(words, folder, TMPDIR=folder) as (process, up_to):
            up_to(b"building, 1 s")
            process.send_signal(signal.SIGTERM)
            expect(process.wait(PATIENCE) == 143, f"status {process.returncode}")
        left = [name for name in os.listdir(folder) if name.startswith("tmp.")]
        expect(not left and not working_in(folder), f"{left} and {working_in(folder)} are left")


# ---- proving


def working_in(folder):
    """The processes that work in the folder or below it, when they have had a moment to end."""
    for _ in range(40):
        found = []
        for number in filter(str.isdigit, os.listdir("/proc")):
            with contextlib.suppress(OSError):
                if os.readlink(f"/proc/{number}/cwd").startswith(os.path.realpath(folder)):
                    found.append(number)
        if not found:
            break
        time.sleep(0.1)
    return found


def proves(_):
    """What isn't built is proved, in the order of crates.txt, and the path is printed; then the program answers."""
    with tree() as folder:
        program = f"{folder}/crates/jc_app/out/jc_app"
        told = called(folder, "--prove")
        has(told, 0, program + "\n", "jc_io: 3 functions proved in", "jc_rules: 3 functions proved in",
            "jc_io: rt: another copy of the repository is building this library; waiting for it",
            "proved and built: 3 crates, 8 functions, in ")
        expect_same(stored(f"{folder}/notes"), "jc_io\njc_rules\n")
        expect(os.listdir(f"{folder}/crates/jc_app/out") == ["jc_app"], "rooms are left")
        has(called(folder, "run", FIRST), 0, "proved\n")
        has(called(folder, "--prove"), 0, program + "\n", "nothing that it is made of is newer")
        has(called(folder, "--prove", "run"), 2, "", "--prove stands alone")
        has(called(folder, "--explain", "--prove"), 2, "", "--prove stands alone")


def moves_libraries(_):
    """Where rt doesn't take what other copies built, it isn't let prove a library a second time."""
    with tree() as folder:
        has(called(folder, "--prove", SHARES="no"), 0, None, "proved and built: 3 crates, 8 functions, in ")
        expect_same(stored(f"{folder}/notes"), "jc_io\njc_rules\n")


def shows_what_failed(_):
    """Where a crate isn't proved rt's lines are shown but for what it proved, and the next run goes on there."""
    with tree() as folder:
        told = called(folder, "--prove", FAILS="jc_rules")
        has(told, 127, "", "fn jc_rules::g: not proved", "the program wasn't built: jc_rules isn't proved")
        expect(not re.search("jc_rules::f|library std", told.stderr.decode()), f"{told}")
        has(called(folder, "--prove"), 0, None, "jc_io: proved before", "jc_rules: 3 functions proved")
        expect_same(stored(f"{folder}/notes"), "jc_io\njc_rules\njc_rules\n")


def tries_again(_):
    """A check that was killed is tried once more with nothing beside it."""
    with tree() as folder:
        has(called(folder, "--prove", KILLED="jc_io"), 0, None, "jc_io: its check was killed, most likely for memory")


def is_held(folder):
    """Whether others are kept out of the folder."""
    held = os.open(folder, os.O_RDONLY)
    try:
        fcntl.flock(held, fcntl.LOCK_SH | fcntl.LOCK_NB)
    except BlockingIOError:
        return True
    finally:
        os.close(held)
    return False


def interrupted(number):
    """A signal ends all that --prove began, and leaves what was proved and nothing else. Up to there others are kept
    out, and a line of the terminal says how far it is."""

    def tried(_):
        with tree() as folder:
            with in_terminal([f"{folder}/jsoncrdt", "--prove"], folder, HANGS="jc_rules") as (process, up_to):
                shown = re.split(r"[\r\n]", up_to(b"jc_rules (1 of 9)"))[-1]
                expect(re.search(r"1 of 3 crates, 3 functions, \d+ s; now jc_rules \(1 of 9\)", shown), shown)
                expect(is_held(f"{folder}/crates/jc_app"), "another build isn't kept out")
                process.send_signal(number)
                shown = up_to()
                expect(process.wait(PATIENCE) == 128 + number and "the next run goes on from there" in shown, shown)
            expect(not working_in(folder), f"{working_in(folder)} go on")
            names = ("jc_io/out/rlib/stamp", "jc_rules/out/incremental")
            lost = [name for name in names if not os.path.exists(f"{folder}/crates/{name}")]
            expect(not lost and not os.listdir(f"{folder}/crates/jc_app/out"), f"{lost}")
            has(called(folder, "--prove"), 0, None, "jc_io: proved before")

    return f"launcher: --prove and {signal.Signals(number).name}", tried


def is_locked(_):
    """Another build in the same copy is told at once."""
    with tree() as folder:
        held = os.open(f"{folder}/crates/jc_rules", os.O_RDONLY)
        fcntl.flock(held, fcntl.LOCK_EX)
        has(called(folder, "--prove"), 127, "", "another build works in this copy", "(crates/jc_rules is locked)")
        expect(not os.path.exists(f"{folder}/notes"), "a crate was checked")
        os.close(held)


LACKS = [
    ("", {"KIT": "rattle-kit-13a logic 0"}, "rt is of the Rattle kit 13a, and the proofs need 13b or later"),
    ("", {"KIT": "rt 5.0"}, "isn't that of the Rattle kit 13b or later"),
    ("proving.free_memory = lambda: 2 * 10 ** 9", {}, "2.0 GB of memory are free, and a check takes up to 3"),
    ("proving.free_disk = lambda: 10 ** 8", {}, "the disk has 0.1 GB free, and the proofs take up to 0.6"),
]


def lack_case(change, variables, said):
    """What is wanting is said before anything is proved."""

    def tried(_):
        with tree() as folder:
            if change:
                text = stored(f"{folder}/tools/prove")
                place(f"{folder}/tools/prove", text.replace("from proving", f"import proving\n{change}\nfrom proving"))
            has(called(folder, "--prove", **variables), 127, "", said)
            expect(not os.path.exists(f"{folder}/notes"), "a crate was checked")

    return f"launcher: --prove says {said[:40]}", tried


def needs_rt(_):
    with tree() as folder:
        os.remove(f"{folder}/rt")
        path = ":".join(part for part in os.environ["PATH"].split(":") if not os.access(f"{part}/rt", os.X_OK))
        has(called(folder, "--prove", PATH=path), 127, "", "the Rattle kit, whose command rt isn't on the path")


def readme_names_kit(_):
    """README.md names the kit that tools/proving.py asks for."""
    kit = "".join(map(str, OLDEST_KIT))
    expect(f"{kit} or later" in stored(README), f"{README} doesn't say {kit} or later")


# ---- the first minute


def seconds_of(line, folder, text=""):
    """How a line of a shell ends, and after how many seconds."""
    began = time.monotonic()
    told = subprocess.run(line, shell=True, cwd=folder, input=text.encode(), capture_output=True, check=False)
    return told, time.monotonic() - began


def quick_case(command):
    """Without the built program a command of README.md answers within ten seconds, or, on a busy machine, within twenty
    times what an empty Python takes."""

    def tried(_):
        with tree() as folder:
            told, seconds = seconds_of(command.text, folder, command.input)
            most = max(MOST_SECONDS, BUSY * seconds_of("python3 -c pass", folder)[1])
        expect(seconds < most, f"it took {seconds} seconds")
        expect(UNPROVED + NOT_BUILT in told.stderr.decode(), f"{told}")
        fault = command.fault(told.returncode, told.stdout.decode(), told_errors(told))
        expect(not fault, fault)

    return f"launcher: at once, {command.text}", tried


def launching():
    yield "launcher: the rules in Python answer", answers_by_rules
    yield "launcher: without python3", needs_python
    yield "launcher: becomes the program", becomes_program
    yield "launcher: --explain and the built program", explains_program
    yield "launcher: explains in a terminal", explains_in_terminal
    yield "launcher: --unproved and --explain", unproved_explains
    yield "launcher: --unproved at TERM", unproved_ends
    yield "launcher: --prove", proves
    yield "launcher: --prove by an rt that shares nothing", moves_libraries
    yield "launcher: --prove where a crate isn't proved", shows_what_failed
    yield "launcher: --prove where a check is killed", tries_again
    yield interrupted(signal.SIGTERM)
    yield interrupted(signal.SIGINT)
    yield "launcher: --prove beside another build", is_locked
    yield "launcher: --prove without rt", needs_rt
    for lack in LACKS:
        yield lack_case(*lack)
    yield "launcher: README.md and the kit", readme_names_kit
    for command in commands_of(README):
        if "./jsoncrdt" in command.text:
            yield quick_case(command)
