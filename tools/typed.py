"""Lines that are typed in a terminal: a prompt, a history that is kept, Tab, and Ctrl-C; and lines of a pipe."""

import contextlib
import os
import signal
import sys

from asking import READ_OR_WRITE_FAILED, reason_of, stop

try:
    import readline
    NO_READLINE = ""
except ImportError:  # some Pythons are built without it
    readline, NO_READLINE = None, "there is no history and no Tab: this Python has no module readline\n"

MOST_KEPT = 1000


def is_at_terminal():
    return sys.stdin.isatty() and sys.stdout.isatty()


def history_file():
    """Where the history is kept: in the folder of the user's state."""
    folder = os.environ.get("XDG_STATE_HOME") or os.path.join(os.path.expanduser("~"), ".local", "state")
    return os.path.join(folder, "jsoncrdt", "debug_history")


class Interrupts:
    """Ctrl-C while a line is answered. The first press is kept for what looks for it; the second one ends the tool."""

    def __init__(self):
        self.pressed = False

    def press(self, _signal, _frame):
        if self.pressed:
            raise KeyboardInterrupt
        self.pressed = True
        sys.stderr.write("\n(Ctrl-C once more ends the session)\n")

    @contextlib.contextmanager
    def kept(self):
        self.pressed, before = False, signal.signal(signal.SIGINT, self.press)
        try:
            yield
        finally:
            signal.signal(signal.SIGINT, before)


class Typed:
    """Lines that are typed: `prompt` gives what stands before one, `offers` what Tab offers behind a line's words."""

    def __init__(self, prompt, offers):
        self.prompt, self.offers, self.offered, self.kept = prompt, offers, [], 0
        if readline:
            readline.set_completer_delims(" \t")
            readline.set_completer(self.complete)
            readline.parse_and_bind("bind ^I rl_complete" if "libedit" in (readline.__doc__ or "") else "tab: complete")
            self.read_history()

    def complete(self, beginning, number):
        """What readline asks for: the offer with this number for the word that is begun."""
        if number == 0:
            before = readline.get_line_buffer()[:readline.get_begidx()]
            self.offered = self.offers(before, beginning)
        return self.offered[number] if number < len(self.offered) else None

    def read_history(self):
        readline.set_history_length(MOST_KEPT)
        with contextlib.suppress(OSError):
            readline.read_history_file(history_file())
        self.kept = readline.get_current_history_length()

    def keep_line(self):
        """Keeps a line as soon as it is typed. Where the file can't be written, later sessions have no history."""
        if not readline or readline.get_current_history_length() == self.kept:
            return
        self.kept = readline.get_current_history_length()
        with contextlib.suppress(OSError):
            os.makedirs(os.path.dirname(history_file()), mode=0o700, exist_ok=True)
            with open(history_file(), "a", encoding="utf-8"):
                pass
            readline.append_history_file(1, history_file())

    def __iter__(self):
        while True:
            try:
                line = input(self.prompt())
            except EOFError:
                print()
                return
            except KeyboardInterrupt:
                print()
                continue
            self.keep_line()
            yield line


def piped():
    """The lines of standard input."""
    try:
        for line in sys.stdin.buffer:
            yield line.decode(errors="surrogateescape").removesuffix("\n")
    except OSError as error:
        stop(f"read failed: standard input: {reason_of(error)}", READ_OR_WRITE_FAILED)
