"""The language of scenarios as one value: it is the rules in Python on random texts, wrong values aren't, and it is
what docs/FORMATS.md and docs/LANGUAGE.md say."""

import os
import re
import tempfile

from cases import expect, expect_same, run, stored
from grammar_value import LIMITS, LISTS, VALUE, Value, limits_of, plain_tokens, read
from jsoncrdt.oracle import grammar

SCRIPT, COUNT = "tests/compare_grammar", 500
LANGUAGE, FORMATS = "docs/LANGUAGE.md", "docs/FORMATS.md"
REFUSALS = {0, 7, 8, 9, 10, 11, 12, 14, 15, 16, 17, 19}
# Productions, texts, and the fault that docs/FORMATS.md says, as (offset, number).
TOLD = (
    ("script", "", None),
    ("script", "let x = yield", (8, 10)),
    ("script", "true := 1", (0, 10)),
    ("script", "let := 1", (4, 7)),
    ("script", "yield;", None),
    ("script", "yield;;", (6, 7)),
    ("script", "doc" + ".keys" * 256 + ".delete", None),
    ("script", "doc" + ".keys" * 256 + ".insertAfter(1)", None),
    ("script", "doc" + ".keys" * 257, (3 + 5 * 256, 12)),
    ("expression", "doc.idx(4294967296)", (8, 9)),
    ("expression", "doc.idx(4294967295)", None),
    ("expression", "doc.idx(1e0)", (8, 7)),
    ("expression", "doc" + ".keys" * 256 + ".", (4 + 5 * 256, 8)),
    ("expression", "doc" + ".keys" * 256 + ".get", (3 + 5 * 256, 12)),
    ("expression", "doc" + ".keys" * 256 + ".delete", (4 + 5 * 256, 7)),
    ("scenario", "", (0, 14)),
    ("scenario", "jsoncrdt 3", (9, 14)),
    ("scenario", "jsoncrdt 2.0", (9, 14)),
    ("scenario", "jsoncrdt 1", (10, 16)),
    ("scenario", "jsoncrdt 2", (10, 16)),
    ("scenario", "jsoncrdt 1 replica a {yield", (27, 8)),
    ("scenario", "jsoncrdt 1 replica a {} replica a {}", (32, 15)),
    ("scenario", "jsoncrdt 1 replica let {}", (19, 10)),
    ("scenario", "jsoncrdt 1 replica given {} replica take {}", None),
    ("scenario", "jsoncrdt 1 replica a {} given {}", (24, 7)),
    ("scenario", "jsoncrdt 2 replica a {} given {}", None),
    ("scenario", "jsoncrdt 1 replica a {} schedule {a.take(a, 1, a)}", (36, 7)),
    ("scenario", "jsoncrdt 2 replica a {} schedule {a.take(a, 1, a)}", None),
    ("scenario", "jsoncrdt 2 replica a {} schedule {} given {}", (36, 7)),
    ("scenario", "jsoncrdt 2 replica a {} given {} given {}", (33, 7)),
    # The name is looked up later.
    ("scenario", "jsoncrdt 1 replica a {} schedule {b.exec}", None),
)
# Lines of the value, and what is wrong in their place.
WRONG = (
    ("index = guarded small_index (symbol digits)", "index = symbol digits"),
    ('root_but words = guarded free_root (keyword (codes "doc") or symbol (other_word words))',
     'root_but words = keyword (codes "doc") or symbol (other_word words)'),
    ('    or keyword (codes "keys")\n', ""),
    ("script = listed MAX_COMMANDS no_command", "script = listed MAX_EVENTS no_event"),
    ("action One = common_action", "action One = action Two"),
    ("blocks One = schedule One or nothing", "blocks One = blocks Two"),
    ("then repeated MAX_SELECTORS no_selector", "then repeated MAX_COMMANDS no_selector"),
    ('or keyword (codes "send")', 'or keyword (codes "sent")'),
)
# What is put in place of what in the value, so that it is none, and what stands in the one line that is told.
UNREAD = (
    ("MAX_COMMANDS", "MOST", "isn't understood: MOST"),
    ("(symbol digits)", "(symbol digits", "isn't understood: a term ends too early"),
    ("token Comma then token Name", "token Comma token Name", "isn't understood: token of"),
)


def compared(programs, *words):
    told = run([SCRIPT, *words], programs.program)
    return told.returncode, told.stdout.decode(), told.stderr.decode()


def agrees(programs):
    """The value and the rules have the same trees and faults, and each fault is met."""
    status, text, errors = compared(programs, str(COUNT))
    expect((status, errors) == (0, "") and text.endswith(f"{COUNT} texts, 0 differ\n"), text + errors)
    expect(REFUSALS <= {int(kind) for kind in re.findall(r" (\d+) \d+", text.split("\n")[0])}, text)


def with_value(programs, text, *words):
    """What comes of a comparison with this value; none is a file that isn't there."""
    with tempfile.TemporaryDirectory() as folder:
        path = os.path.join(folder, "value")
        if text is not None:
            with open(path, "w", encoding="utf-8") as file:
                file.write(text)
        return compared(programs, "--value", path, *words)


def wrong_case(right, wrong):
    def tried(programs):
        text = stored(VALUE)
        expect(text.count(right) == 1, f"the value doesn't have this once: {right}")
        status, told, errors = with_value(programs, text.replace(right, wrong), str(COUNT))
        expect(status == 1 and not errors and not told.endswith(" 0 differ\n"), told + errors)

    return f"grammar: a value with {wrong.strip() or 'nothing'}", tried


def unread_case(right, wrong, told):
    def tried(programs):
        status, _, errors = with_value(programs, stored(VALUE).replace(right, wrong), "99")
        expect(status == 2 and told in errors and errors.count("\n") == 1, f"{status}: {errors}")

    return f"grammar: {wrong} isn't understood", tried


def no_file(programs):
    status, _, errors = with_value(programs, None)
    expect_same(errors, "compare_grammar: read failed: No such file or directory\n")
    expect(status == 4, f"{status}")


def are_told(_):
    """Texts have the faults that FORMATS.md says, by the value with its own limits."""
    value = Value([stored(LISTS), stored(VALUE)], limits_of(stored(LIMITS)))
    for name, text, fault in TOLD:
        tree, found = read(value.production(name), grammar.tokens(text.encode()), name == "scenario")
        expect(found == fault, f"{name} {text[:60]} has {found} and not {fault}")
        spelled = [] if tree is None else [token[1] for token in plain_tokens(tree)]
        expect(fault or spelled == [token[1] for token in grammar.tokens(text.encode())[:-1]], f"{text}: {spelled}")


def are_cited(_):
    """The value names each production of FORMATS.md, the sections that it cites are there, and each page cites it."""
    value, headings = stored(VALUE), {}
    for path in (LANGUAGE, FORMATS):
        headings[os.path.basename(path)] = set(re.findall(r"^## (.*)$", stored(path), re.MULTILINE))
        expect(VALUE in stored(path), f"{path} doesn't cite {VALUE}")
    cited = re.findall(r'(LANGUAGE|FORMATS)\.md, "([^"]+)"', value)
    expect({page for page, _ in cited} == {"LANGUAGE", "FORMATS"}, f"it cites {cited}")
    lacking = [(page, section) for page, section in cited if section not in headings[f"{page}.md"]]
    expect(not lacking, f"it cites {lacking}")
    block = stored(FORMATS).split("\n## Grammar\n")[1].split("```")[1]
    productions = re.findall(r"^(\w+) +=", block, re.MULTILINE)
    named = set(re.findall(r"^-- \[? ?(\w+)", value, re.MULTILINE))
    expect_same(" ".join(name for name in productions if name not in named), "")


def are_listed(_):
    """LANGUAGE.md has the productions of the value in its order, each with a section that is there."""
    section = stored(LANGUAGE).split("\n## The language as one value\n")[1]
    rows = re.findall(r"^\| (`.*?) \| .* \| (.*) \|$", section, re.MULTILINE)
    listed = [name for names, _ in rows for name in re.findall(r"`(\w+)`", names)]
    defined = re.findall(r"^abbrev pub (\w+) :.*\bGrammar$", stored(VALUE), re.MULTILINE)
    expect_same("\n".join(listed), "\n".join(defined))
    headings = re.findall(r"^## (.*)$", stored(LANGUAGE), re.MULTILINE)
    told = [part for _, parts in rows if not parts.startswith("FORMATS.md") for part in parts.split(", ")]
    lacking = [part for part in told if part not in headings]
    expect(told and not lacking, f"it names {lacking}")


def grammars():
    yield f"grammar: {COUNT} random texts", agrees
    yield "grammar: texts of docs/FORMATS.md", are_told
    yield "grammar: the value and the documents", are_cited
    yield "grammar: productions in their order", are_listed
    for right, wrong in WRONG:
        yield wrong_case(right, wrong)
    for row in UNREAD:
        yield unread_case(*row)
    yield "grammar: a value that isn't there", no_file
