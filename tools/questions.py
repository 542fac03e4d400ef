"""What is asked of the program about a text, which its editor may change meanwhile.

All texts are asked about through one process of `serve`, one after the other. What it answers about a text that is left
is broken off."""

import contextlib
import threading

import asking

ASKING, LEAVING = threading.RLock(), threading.Lock()


class Left(Exception):
    """The text isn't what the editor has any more, so nothing is asked about it."""


class Questions:
    """Questions about one text, by any thread; another one leaves it. Where the program can't be asked Stop is
    raised."""

    current = None  # those that are being answered

    def __init__(self, text):
        self.text, self.is_left = text, False

    def leave(self):
        """Ends what is asked about the text."""
        with LEAVING:
            self.is_left = True
            if Questions.current is self:
                asking.served().break_off()

    @contextlib.contextmanager
    def asked(self):
        """What answers requests, and nothing else meanwhile."""
        with ASKING:
            asked = asking.served()
            with LEAVING:
                if self.is_left:
                    raise Left
                before, Questions.current = Questions.current, self
            try:
                yield asked
            except SystemExit:
                if self.is_left:
                    raise Left from None
                raise
            finally:
                with LEAVING:
                    Questions.current = before

    def counts(self):
        """How much there is of the scenario, and a given event that is stuck; or why the text is refused."""
        with self.asked() as asked:
            return asked.bring(self.text)

    def ask(self, request):
        """The answer to a request, be it a refusal."""
        with self.asked() as asked:
            return asked.told(self.text, request)

    def line(self, request):
        """The answer as it is written."""
        with self.asked() as asked:
            return asked.line_about(self.text, request)

    def ask_all(self, text, *requests):
        """The answers to requests about another text, one right behind the other."""
        with self.asked() as asked:
            return [asked.told(text, request) for request in requests]
