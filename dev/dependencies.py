"""What the verdict on a wrong body stands on, as sums. docs/WORKING.md, "Edits", says why that is enough."""

import collections
import contextlib
import functools
import os
import pickle

import statements
from crates import below, crates_at
from statements import Source, Theory, sum_of

# The parts of the sum of an edit, and what is told where one of them isn't what it was.
PARTS = {"edit": "the edit", "logic": "the kit's logic or the crate's line of crates.txt",
         "own": "the function that it changes, or a proof of that", "reached": "a statement that it can depend on"}
# How many signs there are of the sum of each part.
SIGNS = 12


def text_of(path):
    with open(path, encoding="utf-8") as file:
        return file.read()


def pairs_of(text):
    """The pairs of lines of an edit: the file, what is there, and what comes in its place."""
    path, old = "", ""
    for line in text.split("\n"):
        kind, _, rest = line.partition(" ")
        if kind == "file:":
            path = rest
        elif kind == "old:":
            old = rest
        elif kind == "new:":
            yield path, old, rest


class Kept:
    """What was worked out of texts before, by the sums of these. What another version of these scripts worked out, or a
    file that isn't whole, counts for nothing."""

    def __init__(self, path):
        self.path, self.found, self.asked = path, {}, {}
        self.scripts = sum_of(*(text_of(script) for script in (__file__, statements.__file__)))
        with contextlib.suppress(Exception), open(path, "rb") as file:
            scripts, found = pickle.load(file)
            self.found = found if scripts == self.scripts else {}

    def of(self, key, make):
        if key not in self.asked:
            self.asked[key] = self.found[key] if key in self.found else make()
        return self.asked[key]

    def save(self, is_whole):
        """Keeps what was asked for: all else goes, if that is all there is to ask for."""
        if not is_whole:
            self.asked = {**self.found, **self.asked}
        if self.asked.keys() == self.found.keys():
            return
        with contextlib.suppress(OSError):
            os.makedirs(os.path.dirname(self.path), exist_ok=True)
            with open(f"{self.path}.new", "wb") as file:
                pickle.dump((self.scripts, self.asked), file)
            os.replace(f"{self.path}.new", self.path)


def seen_elsewhere(items):
    """The items of a crate as others see them: of a type whose value alone is seen, what is inside needs another name."""
    for item in items:
        if item.outer:
            yield item.outer
            yield item._replace(names=frozenset({item.inside}), owners=None, trait=None)
        else:
            yield item


class Statements:
    """What a crate and those below it state, by the names that lead to it."""

    def __init__(self, items):
        self.items = items
        self.declared = frozenset().union(*(item.names for item in self.items if item.names))
        self.by_name, self.by_owner = collections.defaultdict(list), collections.defaultdict(list)
        self.owners, self.always = {}, []
        for number, item in enumerate(self.items):
            self.place(number, item)
        self.mentions = [item.mentions & self.declared for item in self.items]

    def place(self, number, item):
        """Notes what leads to an item: a name of it, where it needs one, and one of its owners, where any is ours."""
        needs_name = item.names and (not item.trait or item.trait in self.declared)
        owners = next((found for each in item.owners or () if (found := each & self.declared)), None)
        self.owners[number] = owners, item.names if needs_name else None
        for name in item.names if needs_name else ():
            self.by_name[name].append(number)
        for name in owners or ():
            self.by_owner[name].append(number)
        if not needs_name and not owners:
            self.always.append(number)

    def reached_from(self, names):
        """The sums of the items that these names lead to, directly or by what is named there."""
        reached, counted, open_ones = set(), set(), [*(names & self.declared)]
        for number in self.always:
            counted.add(number)
            open_ones += self.mentions[number]
        while open_ones:
            name = open_ones.pop()
            if name in reached:
                continue
            reached.add(name)
            for number in {*self.by_name[name], *self.by_owner[name]} - counted:
                owners, needed = self.owners[number]
                if (owners is None or owners & reached) and (needed is None or needed & reached):
                    counted.add(number)
                    open_ones += self.mentions[number]
        return sorted(self.items[number].sum for number in counted)


class Tree:
    """The crates of this checkout or of a copy, and the logic of the kit that tries their edits."""

    def __init__(self, root, logic, kept):
        self.root, self.logic, self.kept = root, logic, kept
        self.crates = crates_at(root)

    def folder(self, name, part=""):
        return os.path.join(self.root, "crates", name, part)

    def edits(self, name):
        """The names of the crate's edits."""
        folder = self.folder(name, "more-edits")
        files = sorted(os.listdir(folder)) if os.path.isdir(folder) else []
        return [file.removesuffix(".edit") for file in files if file.endswith(".edit")]

    def with_edits(self):
        """The names of the crates that have edits."""
        return [name for name in sorted(os.listdir(self.folder(""))) if self.edits(name)]

    @functools.cache
    def texts(self, name):
        """The texts of what a crate is made of, by their paths in it, without those of its tests."""
        found = {}
        for part in ("src", "specs", "proofs"):
            for at, _, files in os.walk(self.folder(name, part)):
                paths = [os.path.join(at, file) for file in files if part != "src" or not file.startswith("tests")]
                found.update((os.path.relpath(path, self.folder(name)), text_of(path)) for path in paths)
        return dict(sorted(found.items()))

    @functools.cache
    def sum_of_texts(self, name):
        return sum_of(*(f"{path} {sum_of(text)}" for path, text in self.texts(name).items()))

    @functools.cache
    def files(self, name):
        """What the crate's files state, by their paths in it."""
        texts = self.texts(name)
        folders = {os.path.dirname(path) for path in texts}
        found = {}
        for path, text in texts.items():
            if path.endswith((".rt", ".antt")):
                # A definition can be opened by what is below its module.
                is_closed = path.startswith("proofs/") and not (
                    path.endswith("/Lib.antt") or path.removesuffix(".antt") in folders)
                key = sum_of(name, path, text, str(is_closed))
                read = functools.partial(self.read, f"{name}/{path}", text, is_closed)
                found[path] = self.kept.of(key, read)
        return found

    @staticmethod
    def read(path, text, is_closed):
        return (Source(path, text) if path.endswith(".rt") else Theory(path, text, is_closed)).read()

    @functools.cache
    def stated(self, name):
        own, *others = [[item for file in self.files(each).values() for item in file.items]
                        for each in [name, *below(self.crates, name)]]
        return Statements(own + [item for each in others for item in seen_elsewhere(each)])

    @functools.cache
    def sum_of_statements(self, name):
        key = sum_of("statements", self.sum_of_all(name))
        return self.kept.of(key, lambda: sum_of(*sorted(item.sum for item in self.stated(name).items)))

    @functools.cache
    def sum_of_all(self, name):
        """The sum of the crate and of all crates below. They are asked for, so what was read of them stays kept."""
        under = [name, *below(self.crates, name)]
        return sum_of(*(self.sum_of_texts(each) for each in under if self.files(each) is not None))

    def mentioned_in(self, name, path):
        """The names that all of a file mentions."""
        text = self.texts(name)[path]
        return self.kept.of(sum_of("mentioned", name, path, text),
                            lambda: self.files(name)[path].scope.mentioned(text)[0])

    def functions(self, name, pairs):
        """The functions whose bodies these pairs change, each with its file, or none where they change aught else."""
        found = []
        for path, old, _ in pairs:
            file = self.files(name).get(path)
            inside = [item for item in file.items if item.body and old in item.body] if file else []
            if len(inside) != 1 or self.texts(name)[path].count(old) != 1:
                return []
            found.append((path, inside[0]))
        return found

    @functools.cache
    def folders(self, name):
        """The files of the crate's proofs by the names of their folders, each with where that folder is."""
        found = collections.defaultdict(list)
        for path in self.texts(name):
            at, folder = os.path.split(os.path.dirname(path))
            if at.startswith("proofs"):
                found[folder].append((at, path))
        return found

    def proofs(self, name, path, item):
        """The files of the proofs of a function, and of those that are proved with it: in the folder of its module, or
        in one of its type or an impl of that, which is where the type is."""
        of, function, cycle = item.place
        module = os.path.join("proofs", path.removeprefix("src/").removesuffix(".rt").removesuffix("lib")).rstrip("/")
        for at, proof in [each for folder in {function, f"+{function}", f"+{cycle}"}
                          for each in self.folders(name)[folder]]:
            if at == module or of is not None and os.path.basename(at).startswith(of):
                yield proof

    def parts(self, name, edit):
        """The sums of what the verdict on an edit stands on."""
        text = text_of(os.path.join(self.folder(name, "more-edits"), f"{edit}.edit"))
        return {"edit": sum_of(text), "logic": sum_of(self.logic, self.crates[name].line),
                **self.parts_of(name, [*pairs_of(text)])}

    def parts_of(self, name, pairs):
        functions = self.functions(name, pairs)
        if not functions:
            return {"own": self.sum_of_texts(name), "reached": self.sum_of_statements(name)}
        heads = [(path, file) for path, file in self.files(name).items() if file.head]
        sums = {sum_of(path, file.head) for path, file in heads}
        names = frozenset().union(*(file.scope.mentioned(file.head)[0] for _, file in heads))
        for (path, item), (_, _, new) in zip(functions, pairs):
            names |= self.files(name)[path].scope.mentioned(new)[0]
            for at, each in self.proved_together(name, path, item):
                sums.add(each.whole)
                names |= each.all_mentions.union(each.names, *each.owners or ())
                for proof in self.proofs(name, at, each):
                    sums.add(sum_of(proof, self.texts(name)[proof]))
                    names |= self.mentioned_in(name, proof)
        key = sum_of("reached", self.sum_of_all(name), *sorted(names))
        return {"own": sum_of(*sorted(sums)),
                "reached": self.kept.of(key, lambda: sum_of(*self.stated(name).reached_from(names)))}

    def proved_together(self, name, path, item):
        """The function and those that have its cycle's name, each with its file."""
        yield path, item
        if cycle := item.place[2]:
            yield from ((at, each) for at, file in self.files(name).items() for each in file.items
                        if each is not item and each.place and each.place[2] == cycle)

    def sum_of_edit(self, name, edit):
        parts = self.parts(name, edit)
        return "-".join(parts[part][:SIGNS] for part in PARTS)
