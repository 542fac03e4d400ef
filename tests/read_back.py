"""The stored pictures are read back: a graph in DOT gives the document that `view` prints, or with what is deleted the
tree that `run` prints, and lanes in SVG have each event of the journal at its replica."""

import glob
import json
import os
import re
import xml.etree.ElementTree as ElementTree

from cases import Wrong, expect, run, stored

EXPECTED = os.path.join("tests", "expected")
TEXT = "{http://www.w3.org/2000/svg}text"
NODE, EDGE = re.compile(r"  (n\d+) \[(.*)\];"), re.compile(r"  (n\d+) -> (n\d+) \[(.*)\];")
ATTRIBUTE = re.compile(r'(\w+)=(?:"((?:[^"\\]|\\.)*)"|([^,"]+))(?:, |$)')


def number(text):
    """A number, as the text of its literal."""
    return {"n": text}


def read(text):
    return json.loads(text, parse_int=number, parse_float=number)


def unescaped(text):
    return re.sub(r"\\(.)", lambda escape: "\n" if escape[1] == "n" else escape[1], text)


def attributes_of(text):
    """The attributes of a node or an edge, of which the text has nothing else."""
    found = list(ATTRIBUTE.finditer(text))
    expect("".join(part[0] for part in found) == text, f"{text} isn't made of attributes")
    return {part[1]: part[3] or unescaped(part[2]) for part in found}


class Graph:
    """The nodes of a graph in DOT with their attributes, and below each its edges: attributes, and the node there."""

    def __init__(self, text):
        lines = text.split("\n")
        expect(lines[0] == "digraph document {" and lines[-2:] == ["}", ""], "it is no graph")
        self.title = attributes_of(lines[1].strip().rstrip(";"))["label"]
        self.nodes, self.below = {}, {}
        for line in lines[4:-2]:
            node, edge = NODE.fullmatch(line), EDGE.fullmatch(line)
            expect(node or edge, f"{line} is no node and no edge")
            if node:
                self.nodes[node[1]] = attributes_of(node[2])
            else:
                self.below.setdefault(edge[1], []).append((attributes_of(edge[3]), edge[2]))
        ends = [end for edges in self.below.values() for _, end in edges]
        [self.root] = {*self.nodes} - {*ends}
        expect(len(ends) == len(set(ends)) == len(self.nodes) - 1, "it is no tree")

    def label(self, node):
        return self.nodes[node]["label"]

    def children(self, node):
        """The nodes below, by the labels of the edges to them."""
        found = {}
        for edge, end in self.below.get(node, []):
            found.setdefault(edge.get("label", ""), []).append(end)
        return found


def name_of(label):
    """The name that `view` has for a name of a map."""
    name = json.loads(label)
    return "!" + name if name.startswith("!") else name


def shown_by(graph, nodes):
    """What `view` prints of what is at a key, of which these nodes are the parts."""
    parts = {}
    for node in nodes:
        label, below = graph.label(node), graph.children(node)
        if graph.nodes[node].get("shape") == "note":
            parts["values"] = [line.split("  ", 1) for line in label.split("\n")]
        elif label == "map":
            parts["map"] = {name_of(name): shown_by(graph, each) for name, each in below.items()}
        else:
            numbered = [f"idx({n})" for n in range(1, len(below) + 1)]
            expect(label == "list" and list(below) == numbered, f"{label}: {list(below)}")
            parts["list"] = [shown_by(graph, each) for each in below.values()]
    expect(len(parts) == len(nodes), f"{nodes} are no parts")
    [*values] = parts.get("values", [])
    if len(parts) == 1 and len(values) == 1 and len(values[0]) == 1:
        return read(values[0][0])
    if len(parts) == 1 and not values:
        return next(iter(parts.values()))
    if values:
        parts["values"] = [[made, read(value)] for made, value in values]
    return {"!conflict": parts}


def document_of(graph):
    """What `view` prints of the replica whose graph this is."""
    below = graph.children(graph.root)
    expect(list(below) in ([], ["doc"]), f"{list(below)} are below the root")
    return {**{name: shown_by(graph, nodes) for name, nodes in below.items()}, "name": graph.label(graph.root)}


def is_grey(attributes):
    return "color" in attributes


def content_of(graph, edges):
    """The members that a tree has for what is at one key, to which these edges lead, by their kinds."""
    found = {}
    for _, node in edges:
        label = graph.label(node)
        if graph.nodes[node].get("shape") == "note":
            rows = [] if label == "no value" else [row.split("  ", 1) for row in label.split("\n")]
            found["regT"] = {made: read(value) for made, value in rows}
        else:
            expect(label in ("map", "list"), f"{label} is no part")
            found["mapT" if label == "map" else "listT"] = (entries_of if label == "map" else elements_of)(graph, node)
    expect(len(found) == len(edges), f"{edges} are no parts")
    greys = {is_grey(part) for edge, node in edges for part in (edge, graph.nodes[node])}
    expect(len(greys) == 1, f"{edges} are grey and aren't")
    return found, not greys.pop()


def put(context, key, content, present):
    """Puts what is at a key into a context."""
    for kind, inside in content.items():
        context[f"{kind}({key})"] = inside
    if present:
        context[f"pres({key})"] = present


def entries_of(graph, node):
    """The context of a map: each entry by its name and the operations that hold it there."""
    context, groups = {}, {}
    for edge, end in graph.below.get(node, []):
        groups.setdefault(edge["label"], []).append((edge, end))
    for label, edges in groups.items():
        key, *present = label.split("\n")
        content, is_present = content_of(graph, edges)
        expect(is_present == bool(present), f"{key} has another colour")
        put(context, key, content, present)
    return context


def elements_of(graph, node):
    """The context of a list: what is at its head, and the elements behind it, each linked from the one before."""
    context, key, present = {}, "head", None
    while node:
        inside = [(edge, end) for edge, end in graph.below.get(node, []) if edge.get("style") != "bold"]
        label = "head" if key == "head" else "\n".join(present)
        expect({edge.get("label", "") for edge, _ in inside} <= {label}, f"{key}: {inside}")
        content, is_present = content_of(graph, inside) if inside else ({}, bool(present))
        expect(key == "head" or is_present == bool(present), f"{key} has another colour")
        put(context, key, content, is_present if key == "head" else present)
        linked = [(edge, end) for edge, end in graph.below.get(node, []) if edge.get("style") == "bold"]
        label = "" if key == "head" else "next"
        expect([edge.get("label", "") for edge, _ in linked] in ([], [label]), f"behind {key} are {linked}")
        node = linked[0][1] if linked else None
        context[f"next({key})"] = key = graph.label(node) if node else "tail"
        present = node and present_of(graph, node)
    return context


def present_of(graph, node):
    """The operations that hold an element, as the edges to what is in it have them. One that is grey has none."""
    if is_grey(graph.nodes[node]):
        return []
    return next(edge["label"].split("\n") for edge, _ in graph.below[node] if edge.get("style") != "bold")


def tree_of(graph):
    """The tree that `run` prints of the replica whose graph this is, as `normal` has it."""
    edges = graph.below.get(graph.root, [])
    expect({edge["label"] for edge, _ in edges} <= {"doc"}, f"{edges} are below the root")
    context = {}
    if edges:
        put(context, "doc", *content_of(graph, edges))
    return context


def normal(context):
    """A context without empty presence sets, and of those of `doc` and of a head only that they aren't empty."""
    found = {}
    for name, inside in context.items():
        if name in ("pres(doc)", "pres(head)"):
            inside = bool(inside)
        elif name[:5] in ("mapT(", "listT"):
            inside = normal(inside)
        if inside or not name.startswith("pres("):
            found[name] = inside
    return found


def expect_made(graph, journal):
    """What shows an operation has its event and its command as tooltip, and the title has the position."""
    made = {line["op"]["id"]: line for line in journal if line["kind"] == "exec" and "op" in line}
    count = sum("given" not in line and "stuck" not in line for line in journal)
    expect(graph.title == f"{graph.label(graph.root)} at {count}", f"its title is {graph.title}")
    for attributes in graph.nodes.values():
        shown = re.findall(r"^\d+@\w+(?=  |$)", attributes["label"], re.MULTILINE)
        told = attributes.get("tooltip", "").split("\n") if shown else []
        expect(len(told) == len(shown), f"{shown} have the tooltip {told}")
        for each, line in zip(shown, told):
            is_right = line.startswith(each + "  ") and line.endswith(f"{made[each]['event']}  {made[each]['command']}")
            expect(is_right and str(made[each]["number"]) in line, f"{each} has the tooltip {line}")


def expect_graph(text, line, journal):
    """The graph shows what the line of `view` or of `run` has."""
    graph, wanted = Graph(text), read(line)
    if "tree" in wanted:
        found = {"name": graph.label(graph.root), "tree": tree_of(graph)}
        wanted = {"name": wanted["name"], "tree": normal(wanted["tree"])}
    else:
        found = document_of(graph)
    expect(found == wanted, f"it shows\n{found}\nand not\n{wanted}")
    expect_made(graph, journal)


def words_of(line):
    """What the label of an event must have, in this order, and all operations that it names, where these are known."""
    number = f"{line['number']} "
    if "stuck" in line:
        return [number, line["event"], str(line["stuck"]), line["cause"], line.get("key", "")], None
    if line["kind"] == "exec":
        return [number, line.get("op", {}).get("id", ""), line["command"]], None
    if line["kind"] == "apply":
        return [number, line["op"]["id"]], [line["op"]["id"]]
    return [number, line.get("from", ""), *line.get("new", [])], line.get("new", [])


def expect_lanes(text, names, journal):
    """The picture has the names, from the left, and below them in order each event of the journal: a label in the lane
    of its replica, which is that of the last name that isn't right of it."""
    shown = ElementTree.fromstring(text).iter(TEXT)
    texts = [(float(each.get("y")), float(each.get("x")), each.text) for each in shown]
    top = min(y for y, _, _ in texts)
    lanes = [(x, label) for y, x, label in texts if y == top]
    expect(lanes == sorted(lanes) and [label for _, label in lanes] == names, f"the lanes are {lanes}")
    rows = sorted((y, x, label) for y, x, label in texts if y > top)
    expect(len(rows) == len({y for y, _, _ in rows}) == len(journal), f"{len(rows)} labels for {len(journal)} events")
    for (_, x, label), line in zip(rows, journal):
        lane = max((at, name) for at, name in lanes if at <= x)[1]
        expect(lane == line["replica"], f"{label} is in the lane of {lane}")
        words, named = words_of(line)
        in_order = "".join(re.escape(word) + ".*" for word in words)
        expect(re.fullmatch(in_order, label, re.DOTALL), f"{label} hasn't {words}")
        expect(named is None or re.findall(r"\d+@\w+", label) == named, f"{label} doesn't name {named}")


def journal_of(file, programs):
    told = run([programs.program, "journal", file], programs.program).stdout.decode()
    return [json.loads(line) for line in told.splitlines()]


def lines_of(path):
    """The lines of replicas that `view` or `run` printed, by their names."""
    return {json.loads(line)["name"]: line for line in stored(path).splitlines() if line.startswith("{")}


def read_back(file, programs):
    """What reads the pictures of an example back, by their names."""
    base, name = file.removesuffix(".jsoncrdt"), os.path.basename(file).removesuffix(".jsoncrdt")
    journal, views, dumps = journal_of(file, programs), lines_of(f"{EXPECTED}/{name}.view"), lines_of(base + ".run")
    yield f"{name}.svg", lambda text: expect_lanes(text, list(views), journal)
    for replica, line in views.items():
        yield f"{name}.{replica}.dot", lambda text, line=line: expect_graph(text, line, journal)
        yield f"{name}.{replica}.deleted.dot", lambda text, line=dumps[replica]: expect_graph(text, line, journal)


def example_case(file):
    def tried(programs):
        for picture, expect_picture in read_back(file, programs):
            try:
                expect_picture(stored(os.path.join(EXPECTED, picture)))
            except Wrong as wrong:
                raise Wrong(f"{picture}: {wrong}") from wrong

    return f"pictures: of {file}", tried


def moved(root):
    """a label is in the lane beside"""
    texts = list(root.iter(TEXT))
    texts[2].set("x", max((text.get("x") for text in texts), key=float))


def lacking(root):
    """a label is taken away"""
    above, text = next((above, text) for above in root.iter() for text in above if (text.text or "").startswith("7 "))
    above.remove(text)


def swapped(root):
    """two labels are the other way round"""
    one, other = [text for text in root.iter(TEXT) if re.match("[78] ", text.text)]
    one.text, other.text = "8" + other.text[1:], "7" + one.text[1:]


# Pictures of which something is changed, so that they show something else: the example, the picture, and a function on
# its elements, or a text in it with what is put in its place.
BROKEN = (
    ("one-value", "one-value.p.dot", r'\"B\"', r'\"C\"'),
    ("one-value", "one-value.p.dot", r"2@p  \"B\"\n", ""),
    ("one-value", "one-value.p.dot", r'[label="\"key\""]', r'[label="\"keys\""]'),
    ("one-value", "one-value.p.dot", 'label="p at 14"', 'label="p at 13"'),
    ("one-value", "one-value.p.dot", 'n2 [label="map"]', 'n2 [label="list"]'),
    ("one-value", "one-value.p.dot", "7 p.exec", "8 p.exec"),
    ("one-value", "one-value.p.dot", '[label="p", shape', '[label="q", shape'),
    ("two-lists", "two-lists.p.dot", "idx(1)", "idx(2)"),
    ("two-types", "two-types.p.dot", "  n1 -> n2", "  n2 -> n1"),
    ("to-do", "to-do.p.deleted.dot", r"4@p\n5@q", "5@q"),
    ("to-do", "to-do.p.deleted.dot", r'\"title\"", color="#bbbbbb", fontcolor="#999999"]', r'\"title\""]'),
    ("to-do", "to-do.p.deleted.dot", "n3 -> n4 [", 'n3 -> n4 [label="head", '),
    ("to-do", "to-do.p.deleted.dot", '  n7 [label="no value"', '  n7 [label="5@q  true"'),
    ("one-value", "one-value.svg", ">1 1@p", ">2 1@p"),
    ("one-value", "one-value.svg", ">13 applies 2@q", ">13 applies 2@p"),
    ("one-value", "one-value.svg", ">13 applies 2@q", ">13 applies 2@q 1@p"),
    ("one-value", "one-value.svg", "key&quot;) := &quot;C&quot;", "key&quot;) := &quot;B&quot;"),
    ("one-value", "one-value.svg", moved),
    ("one-value", "one-value.svg", lacking),
    ("one-value", "one-value.svg", swapped),
)


def broken(text, old, new=None):
    """The text of a picture of which something is changed."""
    if new is None:
        root = ElementTree.fromstring(text)
        old(root)
        return ElementTree.tostring(root, encoding="unicode")
    expect(old in text, f"it hasn't {old}")
    return text.replace(old, new, 1)


def broken_case(name, picture, *change):
    """A picture that shows something else is told."""

    def tried(programs):
        text = broken(stored(os.path.join(EXPECTED, picture)), *change)
        found = dict(read_back(f"examples/{name}.jsoncrdt", programs))
        try:
            found[picture](text)
        except Wrong:
            return
        raise Wrong("nothing is told of it")

    what = f"{change[1]} for {change[0]}" if change[1:] else change[0].__doc__
    return f"pictures: {picture} with a fault, {what}", tried


def pictures_read_back():
    yield from map(example_case, sorted(glob.glob("examples/**/*.jsoncrdt", recursive=True)))
    for row in BROKEN:
        yield broken_case(*row)
