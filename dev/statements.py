"""What the texts of a crate state, item by item, and which items each of them names. An item is what can be named: a
function's head with its contract, a type, a trait's head or one of its methods, the head of an impl, a constant, a
definition, the statement of a lemma. A text that isn't understood is an item that always counts."""

import collections
import hashlib
import re
import sys

# An item. It counts where one of `names` is named, and where it has owners one of these too; an impl has owners alone.
# Owners are the names in a type, and those in the trait for it, which are taken where none in the type is ours; if none
# of these is ours either, it needs no owner. `trait` is that of whose impl it is a method: if that isn't ours, it needs
# no name. `sum` is that of what is stated, `mentions` are the names there; `whole` and `all_mentions` are those of all
# the text. `body` is a function's body, and `place` tells where its proofs are: its type, its name, its cycle's name.
# `inside` is the name by which other crates have what is inside a type, and `outer` what they see of it otherwise.
Item = collections.namedtuple("Item", "names owners trait sum mentions whole all_mentions body place inside outer",
                              defaults=(None, None))
# A file: its items, the names that it has, and the attributes of all that is in it.
File = collections.namedtuple("File", "items scope head")

COMMENT = re.compile(r"^ *//[^\n]*\n", re.MULTILINE)
NOTE = re.compile(r"^ *--(?: [^\n]*)?\n", re.MULTILINE)
# A function: its head ends with the first brace behind which there are only lines that are farther in, up to one that
# closes it. So `rt fmt` leaves it.
FUNCTION = re.compile(r"^(?P<head>( *)(?:pub(?:\([a-z]+\))? )?fn [^\n]*?(?:\n(?:\2[ )][^\n]*?)?)*?(?: |\n\2)\{\n)"
                      r"(?:\2 [^\n]*\n|\n)*\2\}$", re.MULTILINE)
# What is inside an impl or a trait: nothing, or lines that are farther in.
INSIDE = re.compile(r"\}|\n(?: [^\n]*\n|\n)*\}")
# What the first line of an item of a source begins with.
BEGINS = re.compile(r"(?:#!?\[|(?:pub(?:\([a-z]+\))? )?(?:const |ghost )?"
                    r"(?:fn|struct|enum|trait|impl|const|static|type|use|mod)\b|"
                    r"(?:ghost|unsafe|extern|macro_rules|union|async|final|default)\b)")
KIND = re.compile(r"^(?:pub(?:\([a-z]+\))? )?(ghost use|use|mod|struct|enum|trait|impl|const|static|type|fn)\b\W*(\w*)",
                  re.MULTILINE)
# An import, which may stand inside an impl or a function, and whether others have it too.
IMPORT = re.compile(r"^ *(pub(?:\([a-z]+\))? )?(?:ghost )?use ([^;]*);", re.MULTILINE)
# The model of a type; what it has that other crates don't see, with its imports; the fields of a struct; a public one.
MODEL = re.compile(r"^impl(?:<.*?>)? Model for (\w+)", re.MULTILINE)
UNSEEN = re.compile(r"^    ghost (?:use [^;]*|(?:view|invariant) = .*?\});\n+", re.MULTILINE | re.DOTALL)
FIELDS = re.compile(r"\{\n.*\n\}", re.DOTALL)
PUBLIC_FIELD = re.compile(r"^    pub\b", re.MULTILINE)
# A name or a path, with the sign before it where it goes on from what isn't one, and that of a call behind it.
PATH = re.compile(r"(::|(?<!\.)\.)?((?:[^\W\d]|◌)[\w'◌]*(?:-[\w'◌]+)*"
                  r"(?:(?:\.|::)[\w'◌]+(?:-[\w'◌]+)*)*)(?=(\(|::<)?)")
# What a declaration of a definition, of a lemma or of another module begins with, and its name.
DECLARES = re.compile(r"((?:(?:pub|abbrev|unfoldable|data|record|ruleset|mutual|axiom|pattern|use|mod|module|"
                      r"infix[lr]?)(?: |$))*)([^\s(){}\[\],:]*)", re.MULTILINE)
# A signature, of one name or several.
SIGNATURE = re.compile(r"(?:pub )?[^\s,:(]+(?:, [^\s,:(]+)* :(?:\s|$)", re.MULTILINE)
# A name that is declared inside a declaration, of a constructor or of a definition among such as need one another.
INNER_NAME = re.compile(r"^ +(?:(?:pub|abbrev|unfoldable|data|record) )*([^\s:(]+)(?= [^\n]*:| :)", re.MULTILINE)
# A module that rt makes of a type, as of its being sent.
MADE_OF_TYPE = re.compile(r"\.The[A-Z]\w*(\.|$)")
# What is no name of an item in the path of a source.
FIXED = {"crate", "self", "super", "Self"}
# How many parts of a path of definitions or proofs lead to the file: Rattle, the crate, and the folder.
FILE_AT = 4


def sum_of(*parts):
    return hashlib.sha256("\n".join(parts).encode()).hexdigest()[:32]


def blocks_of(text, begins):
    """The parts of a text that begin with such a line, and what is before the first of these."""
    found = [[]]
    for line in text.splitlines(keepends=True):
        if begins(line, found[-1]):
            found.append([])
        found[-1].append(line)
    return ["".join(line for line in lines if line.strip()) for lines in found if "".join(lines).strip()]


def imports_of(text, path=""):
    """The names that a tree of imports brings in, each with the path that it has there."""
    text = text.strip()
    match = re.fullmatch(r"(.*?)\{(.*)\}", text, re.DOTALL)
    if not match:
        at, _, name = text.partition(" as ")
        at = (path + at.strip()).removesuffix("::self")
        return [(name.strip() or parts_of_path(at)[-1], at)]
    return [each for part in parts_of(match[2]) for each in imports_of(part, path + match[1].strip())]


def parts_of(text):
    """The parts between those commas of a text that stand in no braces."""
    depth, found = 0, [""]
    for sign in text:
        depth += (sign == "{") - (sign == "}")
        if sign == "," and not depth:
            found.append("")
        else:
            found[-1] += sign
    return [part for part in found if part.strip()]


def parts_of_path(path):
    return path.replace("::", ".").split(".")


def in_sources(found):
    """The names of items of sources in the parts of a path: those of types, and what it ends with."""
    return {*found[-1:], *(name for name in found if name[0].isupper())} - FIXED


def inside_of(crate, name):
    """The name by which other crates have what is inside a type of this one."""
    return f"inside.{crate}.{name}"


def named_by(path):
    """The names of items in a whole path of definitions and proofs: those of sources, where it leads to such, with what
    is inside their type, or else all on it from the file on."""
    found = path.split(".")
    for word in ("declared", "contracts"):
        if word in found:
            behind = found[found.index(word) + 1:]
            types = [name for name in behind if name[0].isupper()]
            return in_sources(behind) | {inside_of(found[1], name) for name in types[:1]}
    names = {".".join(found[:count]) for count in range(FILE_AT, len(found) + 1)}
    return names | in_sources(found[FILE_AT - 1:]) if MADE_OF_TYPE.search(path) else names


class Scope:
    """The names that a file has: of its own, each with the name by which others have it, and of its imports, each with
    its path there."""

    def __init__(self, crate, imports, declared):
        self.crate, self.declared = crate, declared
        self.imports = collections.defaultdict(list)
        for name, at in imports:
            self.imports[name].append(at)
        self.operators = [(name.split("◌"), at) for name, at in imports if "◌" in name]
        self.operators += [(name.split("◌"), at) for name, at in declared.items() if "◌" in name]
        self.is_open = "*" in self.imports

    def mentioned(self, text):
        """The names of items that a text mentions, and the imports by which it does, in a line each."""
        names, used = set(), set()
        for dot, path, call in PATH.findall(text):
            head, *rest = parts_of_path(path)
            if dot or not self.has(head, path):
                # A field, or a variable: of what is behind it only a method is an item.
                names.update([head, *rest] if dot == "::" else [head, *rest][-1:] if call and (dot or rest) else ())
                continue
            for at in self.imports.get(head) or [self.declared.get(head, head)]:
                used.add(f"{head} {at}")
                names.update(named_by(".".join([at, *rest])) if at.startswith("Rattle.") or head == "Rattle"
                             else self.in_source(at.split("::") + rest, head))
        for pieces, at in self.operators:
            if all(piece in text for piece in pieces):
                used.add(at)
                names.update(named_by(at))
        return frozenset(map(sys.intern, names)), "\n".join(sorted(used))

    def in_source(self, found, head):
        """The names of items that a path of a source mentions, which can lead to a proof."""
        is_theory = {"proofs", "specs"} & {*found}
        theory = named_by(".".join(["Rattle", self.crate, *found[1:]])) if is_theory else set()
        return in_sources(found) | {head} | theory

    def has(self, name, path):
        return (self.is_open or name in self.imports or name in self.declared or "::" in path or name == "Rattle")


def names_in(text):
    return frozenset(re.findall(r"[^\W\d]\w*", text))


class Reader:
    """Reads the items of a file."""

    def __init__(self, path):
        self.path, self.items, self.imports, self.declared, self.head = path, [], [], {}, []
        # By the number of an item: the type whose inside it has, and the text that other crates see of it.
        self.inside = {}

    def add(self, names, text, owners=None, trait=None, whole=None, body=None, place=None):
        if not owners:
            self.declared.update((name, name) for name in names or ())
        self.items.append((names, owners, trait, text, text if whole is None else whole, body, place))

    def add_inside(self, name, names, text, outer, owners=None):
        """Adds what is inside a type, of which other crates see less."""
        self.add(names, text, owners)
        self.inside[len(self.items) - 1] = name, outer

    def read(self):
        scope, items = Scope(self.path.split("/")[0], self.imports, self.declared), []
        for number, (names, owners, trait, text, whole, body, place) in enumerate(self.items):
            mentions, used = scope.mentioned(text)
            all_mentions, all_used = (mentions, used) if whole is text else scope.mentioned(whole)
            item = Item(names, owners, trait, sum_of(self.path, text, used), mentions,
                        sum_of(self.path, whole, all_used), all_mentions, body, place)
            if number in self.inside:
                name, outer = self.inside[number]
                mentions, used = scope.mentioned(outer)
                seen = item._replace(sum=sum_of(self.path, outer, used), mentions=mentions)
                item = item._replace(inside=inside_of(scope.crate, name), outer=seen)
            items.append(item)
        return File(items, scope, "".join(self.head))


class Source(Reader):
    """Reads a source, which is as `rt fmt` leaves it."""

    def __init__(self, path, text):
        super().__init__(path)
        text = COMMENT.sub("", text)
        for _, imports in IMPORT.findall(text):
            self.imports += imports_of(imports)
        blocks = self.blocks(text, "")
        self.hidden = {*self.hidden_in(text, blocks)}
        for block in blocks:
            self.take(block)

    @staticmethod
    def hidden_in(text, blocks):
        """The types of which other crates see the value alone: they have a model, and no public field."""
        models = {*MODEL.findall(text)}
        for block in blocks:
            found = KIND.search(block)
            if found and found[1] == "struct" and found[2] in models and not PUBLIC_FIELD.search(block):
                yield found[2]

    @staticmethod
    def blocks(text, margin):
        def begins(line, before):
            if not line.startswith(margin) or not BEGINS.match(line, len(margin)):
                return False
            attributes = [each for each in before if each.startswith(margin) and BEGINS.match(each, len(margin))]
            return not attributes or not all(each.startswith(f"{margin}#[") for each in attributes)

        return blocks_of(text, begins)

    def take(self, block):
        found = KIND.search(block)
        kind, name = found.groups() if found else ("", "")
        if block.startswith("#![") and not found:
            self.head.append(block)
        elif block.startswith(("#[cfg(test)]", "#[test]")):
            pass
        elif kind in ("use", "ghost use"):
            self.pass_on(block)
        elif kind == "mod" and "{" not in block:
            self.head += [block] if block.lstrip().startswith("#[") else []
        elif kind == "fn":
            self.take_function(block, name)
        elif kind == "impl":
            self.take_impl(block, block[found.start():])
        elif kind == "trait":
            self.take_trait(block, name)
        elif kind == "struct" and name in self.hidden:
            self.add_inside(name, {name}, block, FIELDS.sub("{ .. }", block))
        elif name and kind != "mod":
            self.add({name}, block)
        else:
            self.add(None, block)

    def pass_on(self, block):
        """What a source brings in for others is an item of its own."""
        for is_public, imports in IMPORT.findall(block):
            for name, at in imports_of(imports) if is_public else ():
                self.add({name} if name != "*" else None, f"pub use {at} as {name}")

    def take_function(self, block, name, **of):
        found = FUNCTION.search(block)
        cycle = re.search(r"^ *#\[cycle\((\w+)\)\]$", block, re.MULTILINE)
        if found and found.end() < len(block.rstrip()):
            found = None
        end = found.end("head") if found else len(block)
        place = (of.pop("type", None), name, cycle[1] if cycle else "")
        self.add({name}, block[:end], whole=block, body=block[end:] if found else None, place=place, **of)

    def members(self, block):
        """The functions inside a block, with their names, and the text of all else there."""
        first = re.search(r"\{\n", block)
        if not first:
            return [], block
        rest, functions = [block[:first.end()]], []
        for part in self.blocks(block[first.end():].rstrip().removesuffix("}"), "    "):
            found = re.search(r"^    (?:pub(?:\([a-z]+\))? )?(?:const )?fn (\w+)", part, re.MULTILINE)
            if found and part.startswith("    "):
                functions.append((found[1], part))
            else:
                rest.append(part)
        return functions, "".join(rest)

    def take_impl(self, block, text):
        head = re.match(r"impl(?:<(.*?)>(?= ))? ?(.*?)(?: where\b.*?|\nwhere\b.*?)?[ \n]\{", text, re.DOTALL)
        if not head or not INSIDE.fullmatch(text[head.end():].rstrip()):
            self.add(None, block)
            return
        functions, rest = self.members(block)
        parameters = names_in(re.sub(r":[^,]*", "", head[1] or ""))
        trait, _, of = head[2].rpartition(" for ")
        owners = (names_in(of) - parameters, names_in(trait) - parameters)
        name = re.split(r"[<(]", trait)[0].split("::")[-1].strip() if trait else None
        base = re.search(r"[A-Z]\w*", of)
        if name == "Model" and base and base[0] in self.hidden:
            self.add_inside(base[0], None, rest, UNSEEN.sub("", rest), owners)
        else:
            self.add(None, rest, owners=owners)
        for function, part in functions:
            self.take_function(part, function, owners=owners, trait=name, type=base[0] if base else "")

    def take_trait(self, block, name):
        head = re.search(r"\btrait\b[^{]*?\{(?=\n|\})", block)
        if not head or not INSIDE.fullmatch(block[head.end():].rstrip()):
            self.add(None, block)
            return
        functions, rest = self.members(block)
        self.add({name}, rest)
        for function, part in functions:
            self.add({function}, part, owners=(frozenset({name}), frozenset()))


class Theory(Reader):
    """Reads a file of definitions, or of proofs, where of a lemma only the statement counts. Names are whole paths."""

    def __init__(self, path, text, is_proof):
        super().__init__(path)
        self.is_proof, self.module = is_proof, ".".join(["Rattle", *path.removesuffix(".antt").split("/")])
        self.module = self.module.removesuffix(".Lib")
        self.take_all(NOTE.sub("", text), "", "")

    def define(self, names, text):
        names = {name: f"{self.module}.{name}" for name in names if name}
        self.declared.update(names)
        self.items.append((set(names.values()) or None, None, None, text, text, None, None))

    def take_all(self, text, margin, above):
        """Takes what is declared at this margin, each with what is behind it up to the next one."""
        at, current = len(margin), ""

        def begins(line, _):
            return line.startswith(margin) and line[at:at + 1].strip() and line[at] not in "})]"

        for block in blocks_of(text, begins):
            if DECLARES.match(block, at)[1] or SIGNATURE.match(block, at):
                self.take(current, at, above)
                current = ""
            current += block
        self.take(current, at, above)

    def take(self, text, at, above):
        words, name = DECLARES.match(text, at).groups() if text[at:] else ("", "")
        words = words.split()
        if "use" in words:
            self.take_imports(text, "pub" in words)
        elif "module" in words:
            self.take_module(text, name, above)
        elif "mutual" in words or "data" in words:
            self.define({name, *INNER_NAME.findall(text)}, above + text)
        elif name and SIGNATURE.match(text, at) and self.is_proof:
            self.define(self.signed(text), above + self.signature(text, at))
        elif name and SIGNATURE.match(text, at):
            self.define(self.signed(text), above + text)
        elif name and words and "mod" not in words:
            self.define({*text.split()[2:], name} if words[0].startswith("infix") else {name}, above + text)
        elif "mod" not in words and text.strip():
            self.define((), above + text)

    @staticmethod
    def signed(text):
        """The names of a signature."""
        return {*re.split(r",? ", text.strip().removeprefix("pub ").partition(" :")[0])}

    @staticmethod
    def signature(text, at):
        """The signature with which a text begins, up to the next line at its margin."""
        lines = text.splitlines(keepends=True)
        more = next((count for count, line in enumerate(lines) if count and line[at:at + 1].strip()), len(lines))
        return "".join(lines[:more])

    def take_imports(self, text, is_public):
        imports = imports_of(re.sub(r"^.*?use ", "", text.strip()))
        self.imports += imports
        for name, at in imports if is_public else ():
            self.define({name}, f"pub use {at} as {name}")

    def take_module(self, text, name, above):
        """Takes what is in a module inside a file: each with the module's head, or all as one where it has a name."""
        head = re.match(r".*?\bwhere\n", text, re.DOTALL)
        margin = re.match(r" +", text[head.end():]) if head else None
        if name != "_":
            self.define({name}, above + text)
        elif margin:
            self.take_all(text[head.end():], margin[0], above + head[0])
        else:
            self.define((), above + text)
