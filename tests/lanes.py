"""Pictures: those of the documents are what docs/pictures/make makes, and in those of tools/lanes texts can be read."""

import glob
import os
import re
import subprocess
import tempfile
import xml.etree.ElementTree as ET

from cases import expect, expect_same, run, stored

SVG = "{http://www.w3.org/2000/svg}"
PICTURES = os.path.join("docs", "pictures")
MOST_BYTES = 200_000
# The room of a text beside its place, in the font that is asked for: a letter's width, and what is above and below it.
LETTER, ABOVE, BELOW = 7.25, 10, 3


def boxes(picture):
    """The boxes in which the texts are, as left, top, right and bottom."""
    for text in picture.iter(SVG + "text"):
        x, y = float(text.get("x")), float(text.get("y"))
        shown = " ".join(text.text.split())
        yield x, y - ABOVE, x + LETTER * len(shown), y + BELOW


def segments(picture):
    """The parts of the lines between lanes, as their two ends."""
    for line in picture.iter(SVG + "polyline"):
        points = [tuple(map(float, point.split(","))) for point in line.get("points").split()]
        yield from zip(points, points[1:])


def meets(segment, box):
    """Whether a part of a line comes into the box, by the points on it at each unit of its length."""
    (x, y), (to_x, to_y) = segment
    left, top, right, bottom = box
    steps = int(abs(to_x - x) + abs(to_y - y)) + 1
    points = ((x + (to_x - x) * n / steps, y + (to_y - y) * n / steps) for n in range(steps + 1))
    return any(left < x < right and top < y < bottom for x, y in points)


def legible_case(words):
    """The picture has a background as large as itself, all texts are within it, and no line goes through one."""

    def tried(programs):
        picture = ET.fromstring(run(["tools/lanes", "--svg", *words], programs.program).stdout.decode())
        ground, wide, high = picture[0], float(picture.get("width")), float(picture.get("height"))
        sizes = ground.get("width"), ground.get("height")
        expect(ground.tag == SVG + "rect" and sizes == ("100%", "100%"), "it has no background")
        texts, lines = list(boxes(picture)), list(segments(picture))
        received = sum(bool(re.match(r"\d+ (gets|takes) from ", text.text)) for text in picture.iter(SVG + "text"))
        count = len(list(picture.iter(SVG + "polyline")))
        expect(texts and received == count, f"{len(texts)} texts, {count} lines for {received} that receive")
        outside = [box for box in texts if box[0] < 0 or box[1] < 0 or box[2] > wide or box[3] > high]
        expect(not outside, f"outside of the picture: {outside}")
        met = [(line, box) for line in lines for box in texts if meets(line, box)]
        expect(not met, f"a line goes through a text: {met[:3]}")

    return f"tools: legible tools/lanes --svg {' '.join(words)}", tried


def meets_what_it_should(_):
    """The check itself: a line through a box, past it, and along its edge."""
    box, lines = (10, 10, 50, 20), (((0, 15), (60, 15)), ((0, 0), (60, 30)), ((0, 25), (60, 25)), ((0, 0), (9, 60)))
    found = [meets(line, box) for line in lines]
    expect(found == [True, True, False, False], f"{found}")


def are_made(_):
    """Each picture is what its script makes, and small."""
    with tempfile.TemporaryDirectory() as folder:
        subprocess.run([os.path.join(PICTURES, "make"), folder], check=True, stderr=subprocess.DEVNULL)
        there = {os.path.basename(path) for path in glob.glob(os.path.join(PICTURES, "*.svg"))}
        expect(there and there == set(os.listdir(folder)), f"made are {os.listdir(folder)}, and there are {there}")
        for name in there:
            expect_same(stored(os.path.join(folder, name)), stored(os.path.join(PICTURES, name)))
            size = os.path.getsize(os.path.join(folder, name))
            expect(size <= MOST_BYTES, f"{name} has {size} bytes")


# A past of seven operations, of which q has one; exchanges that bring nothing; a take of what is there already.
BRIEF = """jsoncrdt 2
replica p { """ + "".join(f"doc.get(\"{name}\") := 1; " for name in "abcdefg") + """yield; doc.get("a") := 2; yield }
replica q { yield; yield }
given { """ + "p.exec; " * 7 + """p.send; q.take(p, 1, p); q.apply(1, p); p.done }
schedule { q.send; q.take(p, 1, p); p.exec; p.send; p.send; q.recv(q); q.recv(p); q.done; p.exec }
"""
BRIEF_TOLD = """\
      p                          | q
      given: 7 operations        | given: 1@p
      ---------------------------+------------------------------------------------
   3  8@p  doc.get("a") := 2     |
   4  offers 8@p                 |
   7                             | gets from p: 2@p 3@p 4@p 5@p 6@p 7@p 8@p
   9  p.exec  stuck 31 AtYield   |
      ---------------------------+------------------------------------------------
      {"a":2,"b":1,"c":1,"d":1,"e":1,"f":1,"g":1}  | {"a":1}
"""
MERMAID_TOLD = """\
sequenceDiagram
  participant r0 as p
  participant r1 as q
  Note over r0: given: 7 operations
  Note over r1: given: 1@p
  Note over r0,r1: the schedule begins
  Note over r0: 3  8@p  doc.get("a") := 2
  Note over r0: 4  offers 8@p
  r0-->>r1: 7  gets from p: 2@p 3@p 4@p 5@p 6@p 7@p 8@p
  Note over r0: 9  p.exec  stuck 31 AtYield
"""


def is_brief(programs):
    """What brings nothing is left out, and what is given is one row; the last row has the documents."""
    told = run(["tools/lanes", "--brief", "--view", "-"], programs.program, BRIEF)
    expect(told.returncode == 3, f"{told}")
    for got, want in zip(told.stdout.decode().splitlines(), BRIEF_TOLD.splitlines(), strict=True):
        # How wide the columns are is the widest cell's affair.
        expect_same(re.sub(r"--+", "--", re.sub(r" +\|", " |", got)), re.sub(r"--+", "--", re.sub(r" +\|", " |", want)))
    diagram = run(["tools/lanes", "--brief", "--mermaid", "-"], programs.program, BRIEF)
    expect_same(diagram.stdout.decode(), MERMAID_TOLD)


def lanes():
    yield "tools: lanes --brief", is_brief
    yield "pages: docs/pictures", are_made
    yield "tools: what a line of a picture meets", meets_what_it_should
    for file in sorted(glob.glob("examples/**/*.jsoncrdt", recursive=True)):
        yield legible_case([file])
        yield legible_case(["--brief", "--view", file])
