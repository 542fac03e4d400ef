"""The command line as the program defines it: commands and options by crates/jc_cli/src/definition.rt, texts and
statuses by help.rt there, and the flags that its parser adds by the help that crates/jc_rows shows."""

import re

DEFINITION, HELP = "crates/jc_cli/src/definition.rt", "crates/jc_cli/src/help.rt"
SHOWN, ROW = "crates/jc_rows/stdout", "== words: the help of the program has its commands\n"
STRING = r'"((?:[^"\\]|\\.)*)"'
CONSTANT = re.compile(rf"const (\w+): &str =\s*{STRING};", re.DOTALL)
CALL = re.compile(rf"\.(\w+)\(\s*(?:{STRING}|([^()]*(?:\([^()]*\))?[^()]*)),?\s*\)")
PLAIN = re.compile(rf"plain\(\s*alloc,\s*{STRING},\s*{STRING},", re.DOTALL)
NEW = re.compile(rf"Command::new\(alloc, {STRING}\)")


def stored(path):
    with open(path, encoding="utf-8") as file:
        return file.read()


def plain_text(string):
    """The text that a string literal stands for."""
    return re.sub(r"\\n", "\n", re.sub(r"\\\n\s*", "", string)).replace('\\"', '"').replace("\\\\", "\\")


def constants():
    return {name: plain_text(text) for name, text in CONSTANT.findall(stored(HELP))}


def option_of(statement):
    """An option as (name, value, text, default), or none where the argument is no option."""
    calls = {name: string or other for name, string, other in CALL.findall(statement)}
    if "long" not in calls:
        return None
    return "--" + calls["long"], calls.get("value_name"), calls.get("help"), calls.get("default_value")


def commands():
    """The commands in their order, each as (name, text, options)."""
    found = {}
    parts = re.split(r"^(?:pub\(crate\) )?fn ", stored(DEFINITION), flags=re.MULTILINE)[1:]
    shared = {part.split("<")[0]: option_of(part) for part in parts if "-> Arg<" in part}
    for part in parts:
        name = NEW.search(part)
        found |= {plain: (plain, about, []) for plain, about in PLAIN.findall(part)}
        if name and name[1] != "jsoncrdt":
            options = [option_of(own) for own in re.findall(r"Arg::new\(.*?;", part, re.DOTALL)]
            options += [shared[name] for name in re.findall(r"\.arg\((\w+)\(alloc\)\)", part)]
            about = dict((call, string) for call, string, _ in CALL.findall(part[name.end():]))["about"]
            found[name[1]] = name[1], about, [option for option in options if option]
    return [found[name] for name in re.findall(r"top\.subcommand\((\w+)\)", parts[-1])]


def statuses():
    """The statuses of the program, each as (number, text)."""
    text = constants()["PROGRAM"].split("\nStatuses:\n")[1]
    lines = re.sub(r"\n {5}", " ", text).split("\n")
    return [(int(number), about) for number, about in (line.split(None, 1) for line in lines)]


def flags():
    """What the parser adds to each command, and to the program, as (short name, name, text)."""
    shown = stored(SHOWN).split(ROW)[1].split("\nOptions:\n")[1].split("\n\n")[0]
    return re.findall(r"^  (-\w), (--\w+) +(.*)$", shown, re.MULTILINE)


def differences(table):
    """What the module tools/command_line.py has otherwise than the program."""
    own = [(command.name, command.about, [(o.name, o.value, o.about, o.default) for o in command.options])
           for command in table.COMMANDS]
    pairs = [
        ("what it is", table.ABOUT, constants()["ABOUT"].replace("\n", " ")),
        ("commands", own, commands()),
        ("statuses", [row for row in table.STATUSES if row[0] != 127], statuses()),
        ("flags", [(flag.short, flag.name, flag.about) for flag in (table.HELP, table.VERSION)], flags()),
    ]
    for what, here, there in pairs:
        if here != there:
            yield f"{what} by tools/command_line.py\n{here}\nby the program\n{there}"
