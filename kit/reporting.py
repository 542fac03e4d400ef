"""What a campaign tells: its classes, the scenarios that it kept, and the rules and refusals that it met, as text and
as a page; and the folders of what it kept, in the form of those of the kit."""

import html
import os
import subprocess
import sys
import textwrap

from classes import CLASSES
from judging import HERE, by_rules, refusals_of_events, rules
from jsoncrdt import choosing
from jsoncrdt.oracle.lines import RULES
from jsoncrdt.oracle.streams import say
from jsoncrdt.oracle.texts import REFUSALS
from jsoncrdt.serving import Here
from trying import kind_of

PAGE = os.path.join(os.path.dirname(HERE), "tools", "page")
STYLE = """:root { color-scheme: light dark }
body { font: 16px/1.5 sans-serif; margin: 2em auto; max-width: 60em; padding: 0 1em; color: light-dark(#222, #e7e9ee);
background: light-dark(#fff, #14161a) }
a { color: light-dark(#2557c9, #8db1ff) }
table { border-collapse: collapse; margin: 1em 0 } th, td { padding: .2em .8em; text-align: left; vertical-align: top }
th { border-bottom: 2px solid #888 } td { border-bottom: 1px solid light-dark(#ddd, #343a43) } td.n { text-align: right }
td.wide { width: 60% }
pre { background: light-dark(#f4f4f4, #1c1f24); padding: .6em; white-space: pre-wrap; overflow-wrap: anywhere }
.none { color: light-dark(#a00, #ff8b80); font-weight: bold }
@media (max-width: 600px) { th, td { padding: .2em .4em } pre { font-size: 12px } }"""


def write(path, content):
    with open(path, "wb") as file:
        file.write(content)


def keep(folder, difference, number, text, fault):
    """Writes the folder of a scenario that is kept, with a page of its run."""
    os.makedirs(folder, exist_ok=True)
    view, status = by_rules(["view"], text)
    about = f"Case {number}, {kind_of(number)}, made smaller as long as the adapter differs in the class " \
            f"{difference}: {CLASSES[difference]}. {fault.splitlines()[0]}."
    files = {"scenario.jsoncrdt": text, "about": textwrap.fill(about, 120).encode() + b"\n", "view": view,
             "status": b"%d\n" % status}
    for name, content in files.items():
        write(os.path.join(folder, name), content)
    ended = subprocess.run([sys.executable, PAGE, os.path.join(folder, "scenario.jsoncrdt")], capture_output=True,
                           check=False)
    write(os.path.join(folder, "page.html"), ended.stdout)
    if ended.returncode not in (0, 3):
        say(f"{folder}/page.html couldn't be made: {ended.stderr.decode(errors='replace').strip()}")


def told_by():
    """Who tells what the rules give, in words. Where the program is isn't said, since a report may be sent away."""
    return "the rules in Python, of which nothing is proved" if isinstance(rules(), Here) else \
        os.path.basename(choosing.program())


def coverage(results):
    """The rules and the refusals of events with how often each was met: rows of a name, cases and uses."""
    met = results.met()
    return ([(rule, *met.get(rule, (0, 0))) for rule in RULES],
            [(name, *met.get(name, (0, 0))) for name in (f"{n} {REFUSALS[n]}" for n in refusals_of_events())])


def lacking(rows):
    found = [name for name, cases, _ in rows if not cases]
    return f"; not {', '.join(found)}" if found else ""


def lines_of(results, accepted):
    """The report as lines of text."""
    kept = results.kept()
    yield f"{sum(count for _, count in results.counts())} scenarios: " + \
        ", ".join(f"{count} {kind}" for kind, count in results.kinds())
    for kind, count in results.counts():
        yield f"{count:>8} {kind:<20} {CLASSES[kind]}{' (accepted)' if kind in accepted else ''}"
        if kind in kept:
            yield f"{'':>29} case {kept[kind][0]}, made smaller: {os.path.join(results.folder, kind)}"
    for what, rows in zip(("rules", "refusals of events"), coverage(results)):
        met = sum(bool(cases) for _, cases, _ in rows)
        yield f"{met} of {len(rows)} {what} met{lacking(rows)}"


def rows_in_html(rows):
    for name, *numbers in rows:
        sign = ' class="none"' if not numbers[0] else ""
        cells = "".join(f'<td class="n">{number}</td>' for number in numbers)
        yield f"<tr><td{sign}>{html.escape(name)}</td>{cells}</tr>"


def classes_in_html(results, accepted):
    kept = results.kept()
    for kind, count in results.counts():
        note = " (accepted)" if kind in accepted else ""
        shown = ""
        if kind in kept:
            number, tries, fault = kept[kind]
            shown = f'<a href="{kind}/page.html">case {number}</a>, made smaller in {tries} tries ' \
                    f'(<a href="{kind}/scenario.jsoncrdt">scenario</a>)<pre>{html.escape(fault)}</pre>'
        yield f'<tr><td><b>{kind}</b>{note}<br>{html.escape(CLASSES[kind])}</td><td class="n">{count}</td>' \
              f'<td class="wide">{shown}</td></tr>'


def page_of(results, accepted, adapter):
    """The report as a page, which links each scenario that is kept to the page of its run."""
    first, *_ = lines_of(results, accepted)
    of_rules, of_refusals = ("".join(rows_in_html(rows)) for rows in coverage(results))
    return f"""<!DOCTYPE html>
<html lang="en"><meta charset="utf-8"><meta name="viewport" content="width=device-width, initial-scale=1">
<title>Campaign</title><style>{STYLE}</style>
<h1>Campaign</h1>
<p>Adapter: <code>{html.escape(' '.join([*filter(None, [adapter.function]), *adapter.words]))}</code>. {first}. What the
rules give was told by {html.escape(told_by())}.</p>
<table><tr><th>class<th>cases<th>the first of it</tr>
{''.join(classes_in_html(results, accepted))}</table>
<h2>Rules</h2><table><tr><th>rule<th>cases<th>uses</tr>{of_rules}</table>
<h2>Refusals of events</h2><table><tr><th>refusal<th>cases<th>times</tr>{of_refusals}</table>
</html>
"""
