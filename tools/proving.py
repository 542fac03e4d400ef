"""Proves and builds the program, with every processor.

`rt` lets one command at a time work in a copy of the repository: each locks the crates below its own. So each library
is built in a room, a folder with the sources of its crate and of those below it, and with their libraries. When it is
done `rt lib` in its own place takes it from there, as from any other copy, and lets other copies know of it. As many
are built at once as there are processors and memory, those with the longest chain of crates above them first, and a
processor that nothing else needs goes to one of them. What is proved stays in out/, so a run that was interrupted goes
on where it was. At the end `rt run` proves and links the program itself.
"""

import collections
import fcntl
import os
import re
import shutil
import signal
import subprocess
import sys
import tempfile
import time

from asking import BUILT, ROOT
from crates import PROGRAM_CRATE, below, crates_at, of_program
from jsoncrdt.oracle.streams import say

PARTS = ("src", "specs", "proofs")
OLDEST_KIT = (13, "b")
NOT_BUILT = 127
GIGABYTE = 1_000_000_000
# What a check takes, each further job of it, the least with which one is begun, and what a crate takes on the disk.
MEMORY, MEMORY_OF_JOB, LEAST_MEMORY, DISK = 3 * GIGABYTE, 3 * GIGABYTE // 2, 5 * GIGABYTE // 2, GIGABYTE // 5
MOST_JOBS = 4
# What the program says of an empty text, on which `rt run` runs it.
REFUSED = "refused 14 NoHeader at 0"
KILLED = (-signal.SIGKILL, 128 + signal.SIGKILL, 256 - signal.SIGKILL)
SIGNALS = (signal.SIGINT, signal.SIGTERM, signal.SIGHUP)
TICK, QUIET = 0.5, 60  # seconds

Crate = collections.namedtuple("Crate", "name line below weight")


class NotBuilt(Exception):
    """Why the program wasn't built."""


class Interrupted(Exception):
    """A signal that ends the run."""


# ---- the repository


def folder_of(name, *parts):
    return os.path.join(ROOT, "crates", name, *parts)


ROOMS = folder_of(PROGRAM_CRATE, "out", "rooms")


def weight_of(name):
    """About how long the crate's proof takes, in lines."""
    count = 0
    for folder, _, files in os.walk(folder_of(name, "src")):
        for file in files:
            with open(os.path.join(folder, file), "rb") as source:
                count += source.read().count(b"\n")
    return count


def own_crates():
    """The crates that the program is made of, each behind those that it uses."""
    crates = crates_at(ROOT)
    return {name: Crate(name, crates[name].line, below(crates, name), weight_of(name)) for name in of_program(crates)}


def is_proved(name):
    """Whether a library of the crate is there. It may be one of older sources."""
    return os.path.exists(folder_of(name, "out", "rlib", "stamp"))


# ---- what has to be there


def free_memory():
    """The bytes of memory that can be had, also by the limit of a control group."""
    found = []
    with open("/proc/meminfo", encoding="ascii") as file:
        found.append(1024 * int(re.search(r"MemAvailable:\s+(\d+)", file.read())[1]))
    try:
        with open("/sys/fs/cgroup/memory.max") as most, open("/sys/fs/cgroup/memory.current") as held:
            found.append(int(most.read()) - int(held.read()))
    except (OSError, ValueError):
        pass  # no limit
    return min(found)


def free_disk():
    found = os.statvfs(os.path.join(ROOT, "crates"))
    return found.f_bavail * found.f_frsize


def needs_kit():
    if not shutil.which("rt"):
        raise NotBuilt("proving needs the Rattle kit, whose command rt isn't on the path")
    told = subprocess.run(["rt", "version"], stdin=subprocess.DEVNULL, capture_output=True, check=False)
    kit = re.match(r"rattle-kit-(\d+)([a-z]*)", told.stdout.decode(errors="replace"))
    oldest = "".join(map(str, OLDEST_KIT))
    if not kit:
        raise NotBuilt(f"the command rt on the path, {shutil.which('rt')}, isn't that of the Rattle kit {oldest} or "
                       "later")
    if (int(kit[1]), kit[2]) < OLDEST_KIT:
        raise NotBuilt(f"rt is of the Rattle kit {kit[1]}{kit[2]}, and the proofs need {oldest} or later")


def needs_room(crates):
    """Memory for one check at least, and the disk for what isn't proved yet."""
    memory, disk = free_memory(), free_disk()
    if memory < LEAST_MEMORY:
        raise NotBuilt(f"{memory / GIGABYTE:.1f} GB of memory are free, and a check takes up to "
                       f"{MEMORY / GIGABYTE:.0f}: end other programs before")
    needed = DISK * sum(not is_proved(name) for name in crates)
    if disk < needed:
        raise NotBuilt(f"the disk has {disk / GIGABYTE:.1f} GB free, and the proofs take up to "
                       f"{needed / GIGABYTE:.1f}: make room, as by rm -rf crates/*/out in copies of the repository "
                       f"that are done with")


def locked(name):
    """Keeps others out of the crate's folder, as each command of rt does, until what it gives is closed."""
    held = os.open(folder_of(name), os.O_RDONLY)
    try:
        fcntl.flock(held, fcntl.LOCK_EX | fcntl.LOCK_NB)
    except BlockingIOError:
        raise NotBuilt(f"another build works in this copy of the repository (crates/{name} is locked): wait for its "
                       "end, or end it") from None
    except OSError:
        pass  # a file system without locks
    return held


# ---- rooms


def link(source, target):
    try:
        os.link(source, target)
    except OSError:
        shutil.copy2(source, target)


def give_back(name):
    """Removes the room of the crate; what is in it becomes the crate's out/, where no library was taken from there."""
    lent, own = os.path.join(ROOMS, name, "crates", name, "out"), folder_of(name, "out")
    if os.path.isdir(lent) and not is_proved(name):
        shutil.rmtree(own, ignore_errors=True)
        shutil.move(lent, own)
    shutil.rmtree(os.path.join(ROOMS, name), ignore_errors=True)


def clear_rooms(crates):
    """Removes all rooms, also those of a run that was killed; what was proved in them stays."""
    for name in crates:
        give_back(name)
    shutil.rmtree(ROOMS, ignore_errors=True)


def copy_sources(crates):
    """Copies the sources as they are now, so that they can be edited meanwhile."""
    for name in crates:
        for part in PARTS:
            if os.path.isdir(folder_of(name, part)):
                shutil.copytree(folder_of(name, part), os.path.join(ROOMS, "sources", name, part))


def make_room(crate, crates):
    """The folder of the crate in a room of its own."""
    room = os.path.join(ROOMS, crate.name)
    for name in [*crate.below, crate.name]:
        shutil.copytree(os.path.join(ROOMS, "sources", name), os.path.join(room, "crates", name), copy_function=link)
    for name in crate.below:
        library = os.path.join(room, "crates", name, "out", "rlib")
        shutil.copytree(folder_of(name, "out", "rlib"), library, copy_function=link)
    with open(os.path.join(room, "crates.txt"), "w", encoding="utf-8") as file:
        file.writelines(f"{crates[name].line}\n" for name in [*crate.below, crate.name])
    there = os.path.join(room, "crates", crate.name)
    if os.path.isdir(folder_of(crate.name, "out")):
        shutil.move(folder_of(crate.name, "out"), os.path.join(there, "out"))
    return there


def end_all_in(folder):
    """Ends each process that works below the folder: what a command of rt started and left."""
    there = os.path.join(os.path.realpath(folder), "")
    for number in filter(str.isdigit, os.listdir("/proc")):
        try:
            if os.path.join(os.readlink(f"/proc/{number}/cwd"), "").startswith(there):
                os.kill(int(number), signal.SIGKILL)
        except OSError:
            pass  # it has ended, or is another's


# ---- commands of rt


class Command:
    """A command of rt that runs in a folder, and what it has told so far."""

    def __init__(self, name, words, folder, jobs):
        self.name, self.folder, self.jobs, self.began = name, folder, jobs, time.monotonic()
        self.lines, self.offset, self.functions, self.checked = [], 0, 0, ""
        self.log = tempfile.TemporaryFile()
        self.process = subprocess.Popen(["rt", *words], cwd=folder, stdin=subprocess.DEVNULL, stdout=self.log,
                                        stderr=subprocess.STDOUT)

    @property
    def memory(self):
        return MEMORY + MEMORY_OF_JOB * (self.jobs - 1)

    def new_lines(self):
        """The whole lines that it told since the last call."""
        text = os.pread(self.log.fileno(), os.fstat(self.log.fileno()).st_size - self.offset, self.offset)
        text = text[:text.rfind(b"\n") + 1]
        self.offset += len(text)
        lines = text.decode(errors="replace").splitlines()
        self.lines += lines
        for line in lines:
            if found := re.match(r"so far: (\d+ of \d+) functions", line):
                self.checked = found[1]
            elif found := re.match(r"logic=proved functions=(\d+)", line):
                self.functions += int(found[1])
        return lines

    def end(self):
        """Ends it, with all that it started."""
        self.process.terminate()
        try:
            self.process.wait(10)
        except subprocess.TimeoutExpired:
            self.process.kill()
            self.process.wait()
        if self.folder.startswith(ROOMS + os.sep):
            end_all_in(self.folder)


# ---- the run


def clock(seconds):
    minutes, seconds = divmod(int(seconds), 60)
    return f"{minutes} min {seconds} s" if minutes else f"{seconds} s"


class Screen:
    """Lines of standard error, and on a terminal one below them that is written again and again."""

    def __init__(self):
        self.is_terminal, self.last = os.isatty(2), time.monotonic()

    def say(self, line):
        self.close()
        say(line)
        self.last = time.monotonic()

    def show(self, line):
        """Shows how far it is: on a terminal at once, else where nothing was said for a minute."""
        if self.is_terminal:
            wide = os.get_terminal_size(2).columns or 80
            sys.stderr.write("\r\x1b[K" + line[:wide - 1])
        elif time.monotonic() - self.last >= QUIET:
            self.say(line)

    def close(self):
        if self.is_terminal:
            sys.stderr.write("\r\x1b[K")


class Run:
    def __init__(self, crates):
        self.crates, self.screen, self.began = crates, Screen(), time.monotonic()
        self.left = [name for name in crates if name != PROGRAM_CRATE]
        self.running, self.done, self.functions, self.alone, self.signal = {}, [], 0, set(), None
        self.processors, self.memory = len(os.sched_getaffinity(0)), 0.85 * free_memory()
        above = {name: [c for c in crates.values() if name in c.below] for name in crates}
        self.behind = {}
        for name in reversed(crates):
            self.behind[name] = crates[name].weight + max((self.behind[c.name] for c in above[name]), default=0)

    def how_far(self):
        now = ", ".join(f"{name} ({run.checked})" if run.checked else name for name, run in self.running.items())
        functions = self.functions + sum(run.functions for run in self.running.values())
        return (f"{len(self.done)} of {len(self.crates)} crates, {functions} functions, "
                f"{clock(time.monotonic() - self.began)}; now {now}")

    def ready(self):
        """The crates whose libraries below are there, those first that most waits for."""
        found = [name for name in self.left if not set(self.crates[name].below) - set(self.done)]
        return sorted(found, key=lambda name: -self.behind[name])

    def start(self):
        """Begins what there are processors and memory for. A crate whose check was killed is alone the next time."""
        ready = self.ready()
        for at, name in enumerate(ready):
            idle = self.processors - sum(run.jobs for run in self.running.values())
            room = self.memory - sum(run.memory for run in self.running.values())
            is_alone = name in self.alone or self.alone & set(self.running)
            if self.running and (idle < 1 or room < MEMORY or is_alone):
                return
            spare = 1 + max(0, int((room - MEMORY) / MEMORY_OF_JOB))
            jobs = 1 if name in self.alone else max(1, min(MOST_JOBS, idle // (len(ready) - at), spare))
            self.left.remove(name)
            there = make_room(self.crates[name], self.crates)
            self.running[name] = Command(name, ["lib", "--jobs", str(jobs)], there, jobs)

    def told_by(self, run):
        """The new lines of a command; that it waits, or what it lacks, is said."""
        lines = run.new_lines()
        for line in lines:
            if re.match(r"rt: .*(waiting|killed|disk)", line):
                self.screen.say(f"{run.name}: {line}")
        return lines

    def look(self):
        """Takes in the commands that have ended."""
        for name, run in list(self.running.items()):
            ended = run.process.poll()
            self.told_by(run)
            if ended is not None:
                self.end(name, run, ended)

    def take(self, name):
        """Has rt take the library from its room. Where it would prove it again instead, it is ended."""
        run = self.running[name] = Command(name, ["lib"], folder_of(name), 1)
        while run.process.poll() is None:
            self.wait()
            if any(line.startswith("rt: chose") for line in self.told_by(run)):
                run.end()
        del self.running[name]

    def end(self, name, run, status):
        del self.running[name]
        if status == 0:
            self.take(name)
        give_back(name)
        if status in KILLED and name not in self.alone:
            self.alone.add(name)
            self.left.append(name)
            self.screen.say(f"{name}: its check was killed, most likely for memory: once more with nothing beside it")
        elif status in KILLED:
            raise NotBuilt(f"memory was wanting for the check of {name}, with nothing beside it")
        elif status:
            self.fail(name, run)
        elif not is_proved(name):
            self.left.clear()
            self.screen.say("this kit keeps its libraries elsewhere: rt run goes on, with one crate after another")
        else:
            self.done.append(name)
            self.functions += run.functions
            took = clock(time.monotonic() - run.began)
            self.screen.say(f"{name}: {run.functions} functions proved in {took}" if run.functions
                            else f"{name}: proved before, here or in another copy")

    def fail(self, name, run):
        """Shows what rt said, but for what it proved and what it loaded."""
        self.screen.close()
        dull = ": proved$|^(?:library|statements) .*: modules loaded="
        shown = [line for line in run.lines if not re.search(dull, line)]
        sys.stderr.write("".join(f"{line}\n" for line in shown[-40:]))
        raise NotBuilt(f"{name} isn't proved; what rt said is above")

    def wait(self):
        self.screen.show(self.how_far())
        time.sleep(TICK)
        if self.signal:
            raise Interrupted(self.signal)

    def libraries(self):
        while self.left or self.running:
            self.start()
            self.wait()
            self.look()

    def program(self):
        """Proves and links the program, which rt then runs, on nothing."""
        run = self.running[PROGRAM_CRATE] = Command(PROGRAM_CRATE, ["run"], folder_of(PROGRAM_CRATE), self.processors)
        while run.process.poll() is None:
            self.wait()
            self.told_by(run)
        self.told_by(run)
        del self.running[PROGRAM_CRATE]
        if REFUSED not in run.lines or not os.access(BUILT, os.X_OK):
            self.fail(PROGRAM_CRATE, run)
        # Where only the times of sources are newer, nothing was built, and the program is as good as new.
        os.utime(BUILT)
        self.done.append(PROGRAM_CRATE)
        self.functions += run.functions

    def stop(self):
        for run in self.running.values():
            run.end()
        self.screen.close()


def prove():
    """Proves and builds, and gives the program's path."""
    crates = own_crates()
    needs_kit()
    for name in crates:
        os.close(locked(name))
    held = locked(PROGRAM_CRATE)
    clear_rooms(crates)
    needs_room(crates)
    run = Run(crates)
    for number in SIGNALS:
        signal.signal(number, lambda number, _: setattr(run, "signal", number))
    run.screen.say(f"proving {len(crates)} crates by {run.processors} processors; Ctrl-C ends it, and the next run "
                   "goes on from there")
    try:
        copy_sources(crates)
        run.libraries()
        clear_rooms(crates)
        os.close(held)  # rt locks it itself
        run.program()
    finally:
        run.stop()
        clear_rooms(crates)
    run.screen.say(f"proved and built: {len(run.done)} crates, {run.functions} functions, in "
                   f"{clock(time.monotonic() - run.began)}")
    return BUILT
