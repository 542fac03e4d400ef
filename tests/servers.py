"""tools/lsp and tools/dap, the servers for editors, as processes: messages that are malformed, programs and clients
that end, and what real clients get of them, where these are installed."""

import contextlib
import glob
import json
import os
import re
import shutil
import subprocess
import tempfile
import time

from cases import NotTried, expect, expect_same, place, run, stored

ROOT = os.path.dirname(os.path.dirname(os.path.abspath(__file__)))
DEBIAN_PYTHON = "/usr/bin/python3"
SECONDS = 300
NEEDED = "Debian's package python3-pylsp-jsonrpc"
# With this variable the clients go through every scenario there is.
ALL = "JSONCRDT_EDITORS"


# ---- messages

def library(programs, module):
    """Debian's Python, where it has a module."""
    there = os.access(DEBIAN_PYTHON, os.X_OK) and run([DEBIAN_PYTHON, "-c", f"import {module}"], programs.program)
    return bool(there) and there.returncode == 0


def message(**members):
    body = json.dumps(members).encode()
    return b"Content-Length: %d\r\n\r\n%s" % (len(body), body)


def rpc(**members):
    return message(jsonrpc="2.0", **members)


OPEN = {"uri": "file:///a.jsoncrdt", "languageId": "jsoncrdt", "version": 1}
HELLO = rpc(id=1, method="initialize", params={"capabilities": {}})
BYE = rpc(id=9, method="shutdown") + rpc(method="exit")


def opened(text):
    return rpc(method="textDocument/didOpen", params={"textDocument": {**OPEN, "text": text}})


def asked_at(number, method, **params):
    params = {"textDocument": OPEN, "position": {"line": 0, "character": 0}, **params}
    return rpc(id=number, method=f"textDocument/{method}", params=params)


# What is sent to a server, its status, and what it writes at least, on its output and on standard error.
LSP_ROWS = {
    "a session": (HELLO + BYE, 0, '"hoverProvider"', ""),
    "a client that leaves": (HELLO, 1, '"hoverProvider"', ""),
    "nothing": (b"", 1, "", ""),
    "no length": (b"Content-Type: x\r\n\r\n{}", 4, "", "has no Content-Length"),
    "a length that is no number": (b"Content-Length: x\r\n\r\n{}", 4, "", "has no Content-Length"),
    "a message that is cut off": (HELLO + b"Content-Length: 99\r\n\r\n{", 1, '"hoverProvider"', ""),
    "headers in another order": (HELLO.replace(b"Content", b"content-type: x\r\nContent") + BYE, 0, '"hoverProvider"',
                                 ""),
    "no JSON": (b"Content-Length: 3\r\n\r\n{x}" + HELLO + BYE, 0, '"hoverProvider"', "a message is no JSON"),
    "no UTF-8": (b"Content-Length: 3\r\n\r\n\"\xff\"" + HELLO + BYE, 0, '"hoverProvider"', "a message is no JSON"),
    "no object": (b"Content-Length: 2\r\n\r\n[]" + HELLO + BYE, 0, '"hoverProvider"', "a message is no object"),
    "no method": (rpc(x=1) + HELLO + BYE, 0, '"hoverProvider"', "a message can't be read"),
    "no such method": (HELLO + rpc(id=2, method="no/such") + BYE, 0, "Method Not Found", ""),
    "parameters that are none": (HELLO + rpc(id=2, method="textDocument/hover", params=[1]) + BYE, 0, "TypeError", ""),
    "a text that isn't open": (HELLO + asked_at(2, "hover") + BYE, 0, "isn't open", ""),
    "a position that is none": (HELLO + opened("x") + asked_at(2, "hover", position={}) + BYE, 0, "KeyError", ""),
    "a request that is cancelled": (HELLO + rpc(method="$/cancelRequest", params={"id": 2}) + opened("jsoncrdt 1 x")
                                    + asked_at(2, "completion") + BYE, 0, "Cancelled", ""),
}


def dap(command, **arguments):
    return message(seq=1, type="request", command=command, arguments=arguments)


DAP_HELLO, DAP_BYE = dap("initialize", adapterID="x"), dap("disconnect")
DAP_ROWS = {
    "a session": (DAP_HELLO + DAP_BYE, 0, "supportsStepBack", ""),
    "a client that leaves": (DAP_HELLO, 0, "supportsStepBack", ""),
    "nothing": (b"", 0, "", ""),
    "no length": (b"\r\n{}", 4, "", "has no Content-Length"),
    "no JSON": (b"Content-Length: 3\r\n\r\n{x}" + DAP_HELLO + DAP_BYE, 0, "supportsStepBack", "a message is no JSON"),
    "no request": (message(x=1) + DAP_HELLO + DAP_BYE, 0, "supportsStepBack", "a message is no request"),
    "no such request": (DAP_HELLO + dap("nothing") + DAP_BYE, 0, "there is no request nothing", ""),
    "no scenario": (DAP_HELLO + dap("next") + DAP_BYE, 0, "no scenario is being debugged", ""),
    "no file": (DAP_HELLO + dap("launch", program="/no/such") + DAP_BYE, 0,
                "read failed: /no/such", "dap: read failed"),
    "a launch of nothing": (DAP_HELLO + dap("launch") + DAP_BYE, 0, '"success":false', ""),
}


def served(programs, tool, sent, **variables):
    """How a server ends that is sent this."""
    environment = {**os.environ, "JSONCRDT": os.path.abspath(programs.program), **variables}
    return subprocess.run([f"tools/{tool}"], input=sent, capture_output=True, env=environment, timeout=SECONDS,
                          check=False)


def message_case(tool, name, row):
    sent, status, output, errors = row

    def tried(programs):
        if not library(programs, "pylsp_jsonrpc"):
            raise NotTried(NEEDED)
        ended = served(programs, tool, sent)
        told, said = (stream.decode(errors="replace").replace("\\/", "/") for stream in (ended.stdout, ended.stderr))
        expect(ended.returncode == status, f"it ended with {ended.returncode}: {said}")
        expect(output.replace(" ", "") in told.replace(" ", "") and errors in said, f"{told}\n{said}")
        expect("Traceback" not in told + said and all(len(line) < 300 for line in said.split("\n")), said)

    return f"tools/{tool}: messages: {name}", tried


def is_long(programs):
    """A text of 8 MiB is looked at, and one that is longer refused; the server answers while that is done."""
    if not library(programs, "pylsp_jsonrpc"):
        raise NotTried(NEEDED)
    short = "jsoncrdt 1 replica a {}"
    for text, wanted in ((short.ljust(8 << 20), '"diagnostics": []'), (short.ljust((8 << 20) + 1), "6 TextTooLong"),
                         ("x" * (8 << 20), "6 TextTooLong"), (short + "\n" * (8 << 20), "6 TextTooLong")):
        sent = HELLO + opened(text) + asked_at(2, "documentSymbol") + asked_at(3, "completion")
        with talking(programs) as (process, read):
            process.stdin.write(sent)
            process.stdin.flush()
            expect(wanted in read(lambda told: told.get("method") == "textDocument/publishDiagnostics"), f"no {wanted}")
            process.stdin.write(BYE)
            process.stdin.flush()
            expect(process.wait(SECONDS) == 0, "it doesn't end with 0")


@contextlib.contextmanager
def talking(programs, tool="lsp", **variables):
    """A server that is talked to, and what reads its messages up to one that is looked for, which it gives as text."""
    environment = {**os.environ, "JSONCRDT": os.path.abspath(programs.program), **variables}
    process = subprocess.Popen([f"tools/{tool}"], stdin=subprocess.PIPE, stdout=subprocess.PIPE, stderr=subprocess.PIPE,
                               env=environment)

    def read(holds):
        while line := process.stdout.readline():
            length = int(line.split()[1]) if line.startswith(b"Content-Length") else None
            while length is not None and process.stdout.readline().strip():
                pass
            told = json.loads(process.stdout.read(length)) if length is not None else {}
            if holds(told):
                return json.dumps(told, ensure_ascii=False)
        return ""

    try:
        yield process, read
    finally:
        process.kill()
        process.wait()
        for stream in (process.stdout, process.stderr):
            stream.close()


# Programs that never end, and say which process they are: one in its answer about a scenario, one in a run of a
# session.
ENDLESS = {"lsp": """#!/bin/sh
[ "$1" = serve ] || exec "{oracle}" "$@"
read -r line
[ "$line" != quit ] || {{ echo '{{"quit":true}}'; exit; }}
echo $$ >"{folder}/pid"
exec sleep 1000
""", "dap": """#!/bin/sh
[ "$1" = debug ] || exec "{oracle}" "$@"
echo $$ >"{folder}/pid"
while read -r line; do
    case $line in
        where) echo "at 0 of 1" ;;
        run) : >"{folder}/runs"; exec sleep 1000 ;;
    esac
done
"""}
# What a server is sent before it asks without an end, what tells that it does, and what is sent then: nothing where the
# client leaves, none where the server is told to end by a signal.
LOOKED_AT = HELLO + opened("jsoncrdt 1 replica a {}")
CLOSED = rpc(method="textDocument/didClose", params={"textDocument": OPEN})
RUNNING = DAP_HELLO + dap("launch", program=os.path.join(ROOT, "examples", "first.jsoncrdt")) + dap("continue")
ENDINGS = (("lsp", LOOKED_AT, "pid", CLOSED), ("lsp", LOOKED_AT, "pid", b""), ("lsp", LOOKED_AT, "pid", None),
           ("dap", RUNNING, "runs", DAP_BYE), ("dap", RUNNING, "runs", b""), ("dap", RUNNING, "runs", None))


@contextlib.contextmanager
def asking_endlessly(programs, tool, sent):
    """A server that was sent this and whose program never ends: its process, how it is read, and the folder in which
    the program notes that it was asked."""
    with tempfile.TemporaryDirectory() as folder, contextlib.ExitStack() as stack:
        program = os.path.join(folder, "endless")
        place(program, ENDLESS[tool].format(oracle=os.path.abspath("oracle/jsoncrdt"), folder=folder))
        process, read = stack.enter_context(talking(programs, tool, JSONCRDT=program))
        process.stdin.write(sent)
        process.stdin.flush()
        yield process, read, folder


def ending_case(number, ending):
    """What the program is asked ends when the text is closed, when the debugger is told to end, when the client leaves,
    and when the server is told to end; so does the server then."""
    tool, sent, begun, end = ending

    def tried(programs):
        if not library(programs, "pylsp_jsonrpc"):
            raise NotTried(NEEDED)
        with asking_endlessly(programs, tool, sent) as (process, _, folder):
            pid = os.path.join(folder, "pid")
            begins = os.path.join(folder, begun)
            expect(until(lambda: os.path.exists(begins) and stored(pid).strip()), "it asks nothing")
            asked = int(stored(pid))
            finish(process, end)
            expect(until(lambda: not is_there(asked)), "what was asked goes on")
            expect(end == CLOSED or process.wait(SECONDS) in (0, 1, 143), "the server goes on")

    return f"tools/{tool}: no process is left behind, {number}", tried


def answers_meanwhile(programs):
    """What needs nothing of the program is answered while that is asked."""
    if not library(programs, "pylsp_jsonrpc"):
        raise NotTried(NEEDED)
    with asking_endlessly(programs, "lsp", LOOKED_AT) as (process, read, folder):
        expect(until(lambda: os.path.exists(os.path.join(folder, "pid"))), "nothing is asked")
        process.stdin.write(asked_at(2, "hover") + asked_at(3, "documentSymbol"))
        process.stdin.flush()
        expect('"detail": "0 commands"' in read(lambda each: each.get("id") == 3), "no symbols")


def finish(process, end):
    """Sends what ends what a server asks, or leaves, or tells the server to end."""
    if end is None:
        process.terminate()
    elif end:
        process.stdin.write(end)
        process.stdin.flush()
    else:
        process.stdin.close()


def until(holds):
    """Whether something holds soon."""
    end = time.monotonic() + SECONDS
    while not (found := holds()) and time.monotonic() < end:
        time.sleep(0.05)
    return found


def is_there(number):
    """Whether a process is there, and hasn't ended."""
    try:
        return stored(f"/proc/{number}/stat").rpartition(") ")[2][:1] not in "ZX"
    except OSError:
        return False


def has_no_program(programs):
    """Where the program can't be asked the client is told, and the server goes on."""
    if not library(programs, "pylsp_jsonrpc"):
        raise NotTried(NEEDED)
    with talking(programs, JSONCRDT="/no/such") as (process, read):
        process.stdin.write(HELLO + opened("jsoncrdt 1 replica a {}"))
        process.stdin.flush()
        told = read(lambda each: each.get("method") == "window/showMessage")
        expect("/no/such: No such file or directory" in told, told)
        process.stdin.write(asked_at(3, "formatting") + BYE)
        process.stdin.flush()
        told = read(lambda each: each.get("id") == 3)
        expect("/no/such: No such file or directory" in told, told)
        expect(process.wait(SECONDS) == 0, "it doesn't end with 0")


# A program whose session ends while a line is answered.
DYING = """#!/bin/sh
[ "$1" = debug ] || exec "{oracle}" "$@"
while read -r line; do
    case $line in
        where) echo "at 0 of 1" ;;
        step) exit 3 ;;
    esac
done
"""


def debuggee_ends(programs):
    if not library(programs, "pylsp_jsonrpc"):
        raise NotTried(NEEDED)
    with tempfile.TemporaryDirectory() as folder:
        path = os.path.join(folder, "dying")
        script = DYING.format(oracle=os.path.abspath("oracle/jsoncrdt"))
        place(path, script)
        file = os.path.abspath("examples/first.jsoncrdt")
        sent = DAP_HELLO + dap("launch", program=file) + dap("next") + dap("next") + DAP_BYE
        ended = served(programs, "dap", sent, JSONCRDT=path)
    told = ended.stdout.decode()
    expect(ended.returncode == 0 and "Traceback" not in ended.stderr.decode(), ended.stderr.decode())
    for part in ("dying ended with 3, and the session with it", '"exited"', '"terminated"',
                 "no scenario is being debugged"):
        expect(part in told, f"{part} isn't in {told}")


# A program that waits before each view, and says that it does.
SLOW = """#!/bin/sh
[ "$1" = serve ] && exit 2
[ "$1" != view ] || {{ : >"{folder}/begun"; sleep 0.5; }}
exec "{oracle}" "$@"
"""


def search_is_ended(programs):
    """A search of the console ends when the client asks for a pause."""
    if not library(programs, "pylsp_jsonrpc"):
        raise NotTried(NEEDED)
    with tempfile.TemporaryDirectory() as folder, contextlib.ExitStack() as stack:
        program, begun = os.path.join(folder, "slow"), os.path.join(folder, "begun")
        place(program, SLOW.format(oracle=os.path.abspath("oracle/jsoncrdt"), folder=folder))
        process, read = stack.enter_context(talking(programs, "dap", JSONCRDT=program))
        launch = dap("launch", program=os.path.abspath("examples/to-do.jsoncrdt"))
        process.stdin.write(DAP_HELLO + launch + dap("evaluate", expression="until shows nothing", context="repl"))
        process.stdin.flush()
        expect(until(lambda: os.path.exists(begun)), "no view is asked for")
        process.stdin.write(dap("pause") + DAP_BYE)
        process.stdin.flush()
        told = read(lambda each: each.get("command") == "evaluate")
        expect("stopped, still at 0" in told, told)
        expect(process.wait(SECONDS) == 0, "it doesn't end with 0")


def lacks_library(programs):
    """A Python without the library, where Debian's has been tried, says which package is missing."""
    python = shutil.which("python3")
    if run([python, "-c", "import pylsp_jsonrpc"], programs.program).returncode == 0:
        raise NotTried("a Python without pylsp_jsonrpc")
    for tool in ("lsp", "dap"):
        told = subprocess.run([python, f"tools/{tool}"], capture_output=True, stdin=subprocess.DEVNULL, check=False,
                              env={**os.environ, "JSONCRDT_DEBIAN_PYTHON": "tried"})
        wanted = f"{tool}: it needs the library pylsp_jsonrpc: install Debian's package python3-pylsp-jsonrpc\n"
        expect_same(told.stderr.decode(), wanted)
        expect(told.returncode == 2, f"it ended with {told.returncode}")


# ---- real clients

def scenarios(count):
    """Paths of scenarios: all where that is asked for, else so many of the examples."""
    files = glob.glob("examples/**/*.jsoncrdt", recursive=True)
    kit = glob.glob("kit/*/scenario.jsoncrdt")
    chosen = sorted(files + kit) if ALL in os.environ else sorted(files)[:count]
    return "\n".join(map(os.path.abspath, chosen))


def client_case(name, words, needs, count):
    """A client goes through its tests: the last line that it tells is `N passed, 0 failed`."""

    def tried(programs):
        lack = next((what for what, is_there in needs if not is_there(programs)), None)
        if lack:
            raise NotTried(lack)
        with tempfile.TemporaryDirectory() as home:
            environment = {**os.environ, "ROOT": ROOT, "JSONCRDT": os.path.abspath(programs.program), "HOME": home,
                           "XDG_CONFIG_HOME": home, "SCENARIOS": scenarios(count)}
            ended = subprocess.run(words, capture_output=True, env=environment, stdin=subprocess.DEVNULL, check=False)
        told = (ended.stdout + ended.stderr).decode(errors="replace")
        found = re.search(r"^(\d+) passed, (\d+) failed", told, re.MULTILINE)
        expect(found and int(found[1]) > 10 and found[2] == "0" and not ended.returncode, told[-3000:])

    return f"editors: {name}", tried


def is_command(name):
    return name, lambda _: shutil.which(name)


def has_elpa(package):
    return f"Debian's package elpa-{package}", lambda _: glob.glob(f"/usr/share/emacs/site-lisp/elpa/{package}-*")


OF_BOTH = (NEEDED, lambda programs: library(programs, "pylsp_jsonrpc"))
OF_DEBUGPY = ("Debian's package python3-debugpy", lambda programs: library(programs, "debugpy"))
CLIENTS = (
    ("Neovim's client and tools/lsp",
     ["nvim", "--headless", "-u", "NONE", "-i", "NONE", "-c", "luafile tests/editors/neovim.lua"],
     [is_command("nvim"), OF_BOTH], 6),
    ("debugpy's client and tools/dap", [DEBIAN_PYTHON, "tests/editors/debugged.py"], [OF_BOTH, OF_DEBUGPY], 6),
    ("Emacs with lsp-mode and dap-mode", ["emacs", "--batch", "-l", "tests/editors/emacs.el"],
     [is_command("emacs"), OF_BOTH, has_elpa("lsp-mode"), has_elpa("dap-mode")], 1),
)


def is_well_formed(_):
    """What Visual Studio Code reads is there, and names what is there."""
    folder = "editors/vscode"
    package = json.loads(stored(f"{folder}/package.json"))
    contributes = package["contributes"]
    paths = [package["main"], contributes["languages"][0]["configuration"], contributes["grammars"][0]["path"]]
    missing = [path for path in paths if not os.path.exists(os.path.join(folder, path))]
    expect(not missing, f"{missing}")
    debugger = contributes["debuggers"][0]["type"]
    expect(f"onDebugResolve:{debugger}" in package["activationEvents"], f"{package['activationEvents']}")
    json.loads(stored(f"{folder}/language-configuration.json"))
    scope = json.loads(stored(os.path.join(folder, paths[2])))["scopeName"]
    expect(scope == contributes["grammars"][0]["scopeName"], scope)


# What stands for Visual Studio Code and its library: what client.js starts, and what it says without the library.
STUBS = """
const module_ = require("module"), load = module_._load, said = [];
const editor = {
  window: { showInformationMessage: text => said.push(text) },
  debug: { registerDebugAdapterDescriptorFactory: (type, factory) =>
    said.push(`${type}: ${factory.createDebugAdapterDescriptor().command}`),
    registerDebugConfigurationProvider: (type, { resolveDebugConfiguration: resolve }) =>
      said.push(`${type}: ${resolve(undefined, {}).program} ${resolve(undefined, { type, program: "a" }).program}`) },
  DebugAdapterExecutable: class { constructor(command) { this.command = command; } },
};
module_._load = (name, ...rest) => name === "vscode" ? editor
  : name === "vscode-languageclient/node" && process.argv[1] === "there" ? { LanguageClient: class {
      constructor(id, name, server) { this.server = server; }
      start() { said.push(this.server.run.command); }
      stop() { said.push("stopped"); } } }
  : load(name, ...rest);
const client = require(process.argv[2]);
client.activate({ subscriptions: [] });
client.deactivate();
console.log(said.join("\\n"));
"""


def starts_server(programs):
    """The extension of Visual Studio Code starts both servers, one by the library, or says how to get that."""
    if not shutil.which("node"):
        raise NotTried("node")
    path = os.path.abspath("editors/vscode/client.js")
    there = run(["node", "-e", STUBS, "there", path], programs.program)
    tools = os.path.join(ROOT, "tools")
    debugger = f"jsoncrdt: {tools}/dap\njsoncrdt: ${{file}} a\n"
    expect_same(there.stdout.decode() or there.stderr.decode(), f"{debugger}{tools}/lsp\nstopped\n")
    if not os.path.exists("editors/vscode/node_modules"):
        said = run(["node", "-e", STUBS, "missing", path], programs.program).stdout.decode()
        expect(said.startswith(debugger) and "npm install" in said and said.count("\n") == 3, said)


WAITS = ["a page of", "what is wrong", "a hover on an event", "a hover on a replica", "a definition", "completion",
         "formatting", "symbols", "a woven schedule", "a launch", "on to a breakpoint", "a step", "a step back",
         "frames", "a document", "a state", "a watch", "back to the start"]


def tells_waits(programs):
    """dev/waits has a line for each thing that is waited for, but for campaigns, which need Dask."""
    needed, is_there = OF_BOTH
    if not is_there(programs):
        raise NotTried(needed)
    ended = run(["dev/waits", "--times", "1", "--events", "40", "serve", "package", "page", "lsp", "dap"],
                programs.program)
    expect(ended.returncode == 0, f"{ended}")
    *both, rest = ended.stdout.decode().split("\n", 2)
    rest = rest.splitlines()
    for what, line in zip(("serve", "the package"), both, strict=True):
        expect(re.match(rf"{what}: 100 scenarios of 40 events, \d+ a second ", line), line)
    wrong = [what for what, line in zip(WAITS, rest)
             if not re.fullmatch(rf"{what}\b.*?(?: +\d+)(?: +\d+\.\d){{2}}", line)]
    expect(not wrong and len(rest) == len(WAITS), f"{wrong} of {rest}")


def servers():
    yield "tools/lsp: a text of 8 MiB", is_long
    yield "tools/lsp: answers while the program is asked", answers_meanwhile
    for number, ending in enumerate(ENDINGS, 1):
        yield ending_case(number, ending)
    yield "tools/lsp: a program that isn't there", has_no_program
    yield "tools/dap: a program that ends", debuggee_ends
    yield "tools/dap: a search that is ended", search_is_ended
    yield "tools/lsp and tools/dap: without their library", lacks_library
    for tool, rows in (("lsp", LSP_ROWS), ("dap", DAP_ROWS)):
        for name, row in rows.items():
            yield message_case(tool, name, row)
    for row in CLIENTS:
        yield client_case(*row)
    yield "tools: dev/waits", tells_waits
    yield "editors: editors/vscode/package.json", is_well_formed
    yield "editors: editors/vscode/client.js", starts_server
