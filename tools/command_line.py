"""The command line of `jsoncrdt` as a table, from which tools/make-completions makes the completions and the man page.

./test compares it with the program's own definition, in crates/jc_cli. What a command does besides (`more`), the
command help, the words of the launcher and status 127 stand here alone.
"""

from collections import namedtuple

Option = namedtuple("Option", "name short value about default", defaults=(None, None, "", None))
# A command is of a file, unless it says otherwise.
Command = namedtuple("Command", "name options about more has_file", defaults=(True,))

ABOUT = ("A command machine and time-travelling debugger for the JSON CRDT of Kleppmann and Beresford (2017). It "
         "executes scenarios of concurrent edits by the published rules, forwards and backwards, and shows what they "
         "give, and why.")
HELP = Option("--help", "-h", about="Print help")
VERSION = Option("--version", "-V", about="Print version")
HELP_COMMAND = "help", "Print the help of the program, or of a command"
# Words of the launcher, before a command; --prove is alone.
EXPLAIN = Option("--explain", about="Tell besides, on standard error, why a text is refused or an event stuck, as is "
                 "told in a terminal")
UNPROVED = Option("--unproved", about="Build the program without its proofs, and run it, once")
PROVE = Option("--prove", about="Prove and build the program, and print its path")
COMMANDS = [
    Command("check", [],
            "Tell whether a text is a scenario, and how many replicas, commands and events it has",
            "Of a scenario of version 2 given events are counted too. No event is executed."),
    Command("print", [],
            "Print the scenario in its canonical text",
            "That has a line for each command and each event, and the replicas by their names."),
    Command("run",
            [Option("--trace", about="Print the rules that each event used, before the states (this may be long)")],
            "Execute the schedule, and print the state of each replica",
            "Prints a line of JSON for each replica, in the order of their names; then, where an event is stuck, its "
            "line."),
    Command("view",
            [Option("--at", value="N", about="Execute the first N events of the schedule only, from 0 to 100000",
                    default="100000")],
            "Execute the schedule, and print the document of each replica as an application sees it",
            "Prints a line of JSON for each replica. More than one alternative at a place is shown under the name "
            "!conflict."),
    Command("journal",
            [Option("--trace", about="Print the rules that each event used, in its line (this may be long)"),
             Option("--effects", about="Print what each event changed in the tree of its replica, in its line")],
            "Execute the schedule, and print a line of JSON for each event, with its operation in full",
            "Given events come first. The line of a stuck event is the last, and says what is missing where "
            "dependencies are."),
    Command("debug", [],
            "Debugger: step through the schedule, forwards and backwards, by lines of standard input",
            "Answers each line before it reads the next. debug --help lists the lines; act cuts off the rest of the "
            "schedule for good."),
    Command("serve", [],
            "Answer the requests of a program, each by a line of JSON, from standard input",
            "Answers each request before it reads the next. There is no file: a request brings the scenario.", False),
    Command("threads",
            [Option("--limit", value="N", about="Let each replica execute N events at most, from 0 to 100000",
                    default="10000")],
            "Run each replica in a thread of its own, and print the scenario with the schedule that they made",
            "The schedule in the file isn't looked at; given events are executed first, and kept. A line for each "
            "replica goes to standard error. A stuck event isn't in the schedule that is printed."),
    Command("weave",
            [Option("--seed", value="N", about="Draw the schedule from this number, from 0 to 18446744073709551615",
                    default="0"),
             Option("--limit", value="N", about="Let the schedule have N events at most, from 0 to 100000",
                    default="10000")],
            "Draw a schedule from a seed, in which each replica chooses its events, and print the scenario with it",
            "The same seed gives the same schedule. The schedule in the file isn't looked at; given events are "
            "executed first, and kept. A line for each replica goes to standard error. A stuck event isn't in the schedule."),
]
STATUSES = [
    (0, "done, also after help and the version"),
    (1, "the scenario's text was refused; the line printed says why and where"),
    (2, "the arguments are wrong: no such command or option, no file, a number out of its range, or an argument that "
        "isn't UTF-8"),
    (3, "an event was stuck, since no rule allows it; a line says why"),
    (4, "a read or a write failed, a session had too many lines, or the input of serve ended within a text or had too "
        "many requests"),
    (5, "there was no memory, or a thread could not be made"),
    (127, "the program could not be built, or is needed for threads and not built, or there is no python3 in its "
          "place"),
]
