"""What the command lines here, in tools/ and in tests/ have in common: streams that may be closed or full, arguments
that may be wrong, and one line on standard error for each fault."""

import argparse
import os
import sys

WRONG_ARGUMENTS, READ_OR_WRITE_FAILED, INTERRUPTED = 2, 4, 130
MOST_FRAMES = 200_000


class Errors:
    """Standard error, which may be closed or full: that changes no status."""

    def __init__(self, stream):
        self.stream = stream or open(os.devnull, "w")

    def write(self, text):
        try:
            self.stream.write(text)
            self.stream.flush()
        except OSError:
            os.dup2(os.open(os.devnull, os.O_WRONLY), self.stream.fileno())

    def flush(self):
        """Each write is flushed."""


class Stop(SystemExit):
    """The end of a command, which was told in one line. What serves a client tells it there, and goes on."""

    def __init__(self, message, status):
        super().__init__(status)
        self.message = message


class Parser(argparse.ArgumentParser):
    """Wrong arguments are told in one line, and help that can't be written is a write that failed."""

    def error(self, message):
        stop(f"{message} (--help says more)")

    def print_help(self, file=None):
        (file or sys.stdout).write(self.format_help())


def number_from(least):
    """The type of arguments that are numbers, this one or greater."""

    def number(word):
        if not word.isascii() or not word.isdigit() or int(word) < least:
            raise argparse.ArgumentTypeError(f"{word} is no number from {least} on")
        return int(word)

    return number


def say(message):
    """Tells a line on standard error."""
    sys.stderr.write(f"{os.path.basename(sys.argv[0])}: {' '.join(str(message).split())}\n")


def stop(message, status=WRONG_ARGUMENTS):
    """Ends the command with one line on standard error."""
    say(message)
    raise Stop(message, status)


def reason_of(error):
    """Why a file or a stream can't be read or written."""
    return error.strerror or "it is closed"


def open_streams():
    """A stream that is closed fails where it is used, and no file that is opened takes its place. Output is UTF-8."""
    sys.stdin, sys.stdout = sys.stdin or open(os.devnull, "w"), sys.stdout or open(os.devnull)
    sys.stderr = Errors(sys.stderr)
    sys.stdout.reconfigure(encoding="utf-8")


def leave_output():
    """What is still to be written goes nowhere."""
    os.dup2(os.open(os.devnull, os.O_WRONLY), sys.stdout.fileno())


def flushed(main):
    """The status that main gives or ends with, when all that it wrote has gone out."""
    try:
        status = main()
    except SystemExit as end:
        status = end.code
    sys.stdout.flush()
    return status


def run(main):
    """Ends the process with the status that main gives."""
    open_streams()
    sys.setrecursionlimit(MOST_FRAMES)
    try:
        status = flushed(main)
    except OSError as error:
        leave_output()
        say(f"write failed: {error.filename + ': ' if error.filename else ''}{reason_of(error)}")
        status = READ_OR_WRITE_FAILED
    except KeyboardInterrupt:
        leave_output()
        status = INTERRUPTED
    sys.exit(status)
