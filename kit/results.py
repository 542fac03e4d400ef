"""The results of a campaign: a file of SQLite, to which one process adds what workers give. What is in it follows from
the case numbers alone, whoever tried them and in whatever order; a case counts once."""

import json
import os
import sqlite3

from jsoncrdt.oracle.streams import READ_OR_WRITE_FAILED, stop
from trying import sources

FILE, FORM = "results.sqlite", "1"
TABLES = """
CREATE TABLE about (what TEXT PRIMARY KEY, value TEXT NOT NULL);
CREATE TABLE cases (number INTEGER PRIMARY KEY, kind TEXT, class TEXT, fault TEXT, events INTEGER);
CREATE TABLE met (what TEXT PRIMARY KEY, cases INTEGER, uses INTEGER);
CREATE TABLE kept (class TEXT PRIMARY KEY, number INTEGER, tries INTEGER, fault TEXT);
"""
COUNTED = """
INSERT INTO met VALUES (?, 1, ?) ON CONFLICT (what) DO UPDATE SET cases = cases + 1, uses = uses + excluded.uses
"""


class Results:
    """What a campaign in this folder has tried and kept, which is of one adapter."""

    def __init__(self, folder, adapter):
        self.folder, path = folder, os.path.join(folder, FILE)
        os.makedirs(folder, exist_ok=True)
        try:
            self.base = sqlite3.connect(path)
            if not self.base.execute("SELECT count(*) FROM sqlite_master").fetchone()[0]:
                self.begin(adapter)
            self.check(path, adapter)
        except sqlite3.Error as error:
            stop(f"{path} has no results of a campaign: {error}", READ_OR_WRITE_FAILED)

    def begin(self, adapter):
        self.base.executescript(TABLES)
        with self.base:
            about = {"form": FORM, "sources": sources(), "adapter": json.dumps(adapter)}
            self.base.executemany("INSERT INTO about VALUES (?, ?)", about.items())

    def check(self, path, adapter):
        """It ends where the results there are of another version or adapter, which can't be mixed with these."""
        there = dict(self.base.execute("SELECT what, value FROM about"))
        if there.get("form") != FORM:
            stop(f"{path} has results of another version: {there.get('form')}, and not {FORM}")
        if there["sources"] != sources():
            stop(f"{path} has results of other rules, or of another kit; another --folder is needed")
        if there["adapter"] != json.dumps(adapter):
            words, function, _ = json.loads(there["adapter"])
            stop(f"{path} has results of another adapter: {' '.join([*filter(None, [function]), *words])}")

    def tried(self):
        return {number for number, in self.base.execute("SELECT number FROM cases")}

    def add(self, rows):
        """Adds rows, at once. Of a case that is there already nothing is added."""
        with self.base:
            for row in rows:
                words = (row.number, row.kind, row.difference, row.fault, row.events)
                if self.base.execute("INSERT OR IGNORE INTO cases VALUES (?, ?, ?, ?, ?)", words).rowcount:
                    self.base.executemany(COUNTED, row.met.items())

    def counts(self):
        """How many cases there are of each class, the most first."""
        return self.base.execute("SELECT class, count(*) FROM cases GROUP BY class ORDER BY 2 DESC, 1").fetchall()

    def kinds(self):
        return self.base.execute("SELECT kind, count(*) FROM cases GROUP BY kind ORDER BY 2 DESC, 1").fetchall()

    def to_keep(self):
        """The first case of each class that isn't kept yet: the least number, whichever was tried first."""
        return self.base.execute("SELECT class, min(number) FROM cases WHERE class != 'same' GROUP BY class "
                                 "EXCEPT SELECT class, number FROM kept ORDER BY 2").fetchall()

    def keep(self, kind, number, tries, fault):
        with self.base:
            self.base.execute("INSERT OR REPLACE INTO kept VALUES (?, ?, ?, ?)", (kind, number, tries, fault))

    def kept(self):
        """Of each class the case, how many scenarios were tried to make it smaller, and what is wrong."""
        rows = self.base.execute("SELECT class, number, tries, fault FROM kept ORDER BY number")
        return {kind: rest for kind, *rest in rows}

    def met(self):
        """In how many cases each rule was used and each refusal met, and how often."""
        return {what: (cases, uses) for what, cases, uses in self.base.execute("SELECT what, cases, uses FROM met")}
