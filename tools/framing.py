"""Messages between an editor and a server: JSON behind a header with its length, on standard streams. Both LSP and DAP
have this form. What goes wrong is one line on standard error, which editors keep as the server's log."""

import asking  # which says where the modules below are
import json
import logging
import os
import signal
import sys

import crates
from jsoncrdt.oracle.streams import READ_OR_WRITE_FAILED, say, stop

DEBIAN_PYTHON, PACKAGE, TRIED = "/usr/bin/python3", "python3-pylsp-jsonrpc", "JSONCRDT_DEBIAN_PYTHON"
MOST_OF_LINE, SIGNALLED = 200, 128
LENGTH = b"content-length"

try:
    from pylsp_jsonrpc.streams import JsonRpcStreamReader, JsonRpcStreamWriter
except ImportError:
    # Where this Python hasn't Debian's libraries, the tool goes on in the Python that has them.
    if os.access(DEBIAN_PYTHON, os.X_OK) and TRIED not in os.environ:
        os.execve(DEBIAN_PYTHON, [DEBIAN_PYTHON, *sys.argv], {**os.environ, TRIED: "yes"})
    stop(f"it needs the library pylsp_jsonrpc: install Debian's package {PACKAGE}")
os.environ.pop(TRIED, None)
asking.ask_apart()


def short(text):
    text = " ".join(str(text).split())
    return text if len(text) <= MOST_OF_LINE else text[:MOST_OF_LINE - 2] + ".."


class Log(logging.Handler):
    """What the library logs, in a line each, and without a traceback."""

    def emit(self, record):
        fault = record.exc_info and record.exc_info[1]
        say(short(record.getMessage() + (f": {type(fault).__name__} {fault}" if fault else "")))


def log_in_lines():
    logging.basicConfig(handlers=[Log()], level=logging.WARNING)


class BadHeader(Exception):
    """A header that has no length, so that nobody knows where the next message begins."""


class Reader(JsonRpcStreamReader):
    """Reads messages up to the end of the stream. The headers of one may come in any order."""

    def _read_message(self):
        length = None
        while (line := self._rfile.readline()).strip():
            name, _, value = line.partition(b":")
            if name.strip().lower() == LENGTH:
                length = value.strip()
        if not line:
            return None
        if not (length and length.isdigit()):
            raise BadHeader
        body = self._rfile.read(int(length))
        return body if len(body) == int(length) else None

    def listen(self, message_consumer):
        """Gives each message to the consumer, up to one behind which the consumer says that it was the last."""
        while (body := self._read_message()) is not None:
            message = object_of(body)
            if message is not None and message_consumer(message):
                return


def object_of(body):
    """The object of JSON that a message is. Of another message a line is told."""
    try:
        message = json.loads(body.decode())
    except (ValueError, RecursionError) as fault:
        return say(short(f"a message is no JSON: {fault}: {body[:MOST_OF_LINE]!r}"))
    return message if isinstance(message, dict) else say(short(f"a message is no object: {message!r}"))


def serve(consume):
    """Gives messages to the consumer until one is the last, or the client leaves. A header without a length ends the
    server."""
    try:
        Reader(sys.stdin.buffer).listen(consume)
    except BadHeader:
        stop("a message has no Content-Length, so nothing behind it can be read", READ_OR_WRITE_FAILED)


def end_when_told(leave):
    """A signal that tells the server to end does so at once, behind what has to be done before."""
    def ended(number, _frame):
        leave()
        os._exit(SIGNALLED + number)

    signal.signal(signal.SIGTERM, ended)


def writer():
    return JsonRpcStreamWriter(sys.stdout.buffer)


def lack_of_program():
    """Why the rules in Python answer in place of the proved program, in a sentence, or nothing where that does."""
    if not asking.is_in_python():
        lack = asking.lack_of_serve()
        return lack and f"the rules in Python answer in part, unproved: {lack}"
    if os.environ.get("JSONCRDT"):
        return "the rules in Python answer, as JSONCRDT says; nothing of that is proved"
    return f"the rules in Python answer, unproved: {crates.lack_of_built(asking.ROOT)}"
