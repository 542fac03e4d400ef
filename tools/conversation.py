"""A session of the program's `debug`, to which lines are sent one by one."""

import os
import re
import subprocess
import tempfile

from asking import program, reason_of, stop

WHERE = "where"
AT = re.compile(r"at (\d+) of (\d+)\n")
SECONDS_TO_END = 1


class Ended(Exception):
    """The program ended: what it had written of an answer, and its status."""

    def __init__(self, answer, status):
        super().__init__(status)
        self.answer, self.status = answer, status

    def __str__(self):
        if self.status >= 0:
            return f"{program()} ended with {self.status}"
        return f"{program()} was killed by signal {-self.status}"


class Conversation:
    """The process of a session. Behind each line `where` is sent: its answer is the end of the line's own, and tells
    the position and how many events the schedule has. Ctrl-C in a terminal doesn't reach the process."""

    def __init__(self, file):
        self.position = self.length = 0
        try:
            self.process = subprocess.Popen([program(), "debug", file], stdin=subprocess.PIPE, stdout=subprocess.PIPE,
                                            start_new_session=True)
        except OSError as error:
            stop(f"{program()}: {reason_of(error)}")

    def ask(self, text):
        """The lines that answer a line. Where the program ends it raises Ended."""
        is_where = text.removesuffix("\r").strip(" \t") == WHERE
        sent = WHERE if is_where else f"{text}\n{WHERE}"
        try:
            self.process.stdin.write(f"{sent}\n".encode(errors="surrogateescape"))
            self.process.stdin.flush()
        except BrokenPipeError:
            pass  # what it wrote before it ended is read all the same
        answer = []
        for line in iter(self.process.stdout.readline, b""):
            line = line.decode(errors="surrogateescape")
            found = AT.fullmatch(line)
            if found:
                self.position, self.length = map(int, found.groups())
                return [line] if is_where else answer
            answer.append(line)
        raise Ended(answer, self.process.wait())

    def end(self):
        """Ends the process, which may be at work."""
        try:
            self.process.stdin.close()
        except BrokenPipeError:
            pass
        try:
            self.process.wait(SECONDS_TO_END)
        except subprocess.TimeoutExpired:
            self.process.kill()
            self.process.wait()
        self.process.stdout.close()


def begun(file, content):
    """A session on the scenario of a file, of which this is the content. Where there is none, Ended has what the
    program said. What can be read once alone, as a pipe, is read by the program from a copy."""
    with tempfile.NamedTemporaryFile() as copy:
        copy.write(content)
        copy.flush()
        named = os.path.join(os.curdir, file) if file.startswith("-") else file
        conversation = Conversation(named if os.path.isfile(file) else copy.name)
        conversation.ask(WHERE)
    return conversation
