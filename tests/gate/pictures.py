#!/usr/bin/env python3
"""Draws runs by the proved program, and reads them back: the worked examples, the lessons, and files that are made up.

pictures.py [--made-up N] [--first K]: so many files that lib/random_scenarios.py makes up, 10 if not said, from the one of
number K on, 1 if not said. The picture that README.md shows is the one that the program draws.

A parser of HTML reads the pages, and one of XML the pictures; both know nothing of this repository. The titles of the marks
are the lines of the run, in their order, and a page lists the lines of its file, as they are. Each word of a picture stands
within it, and on no other one. Right of each mark the bar of each process is the stage that the marks so far give it, and all
lanes are shaded from each `enter` to its `leave`; no two bars stand side by side as `inside`. The places in the history are
numbered from 0 on, and each is filled where a command changed the store.

With `--reads` both show beside all this the reads that a write overlapped, which are looked up in what `record` prints: of those
that end between two lines of the run the first three, each with a bracket that ends at its column.
"""

import argparse
import collections
import html.parser
import itertools
import pathlib
import re
import subprocess
import sys
import xml.etree.ElementTree as tree
from typing import NamedTuple

sys.path.insert(0, str(pathlib.Path(__file__).resolve().parents[1]))

from lib.counting import Counter
from lib.places import PROGRAM, TOP, WORKED
from lib.random_scenarios import scenario
from second.programs import Setup

# the picture that README.md shows, and its run
SHOWN = TOP / "docs" / "run.svg"
SHOWN_RUN = TOP / "examples" / "torn-commit.bakery"
SVG = "{http://www.w3.org/2000/svg}"
TEXT = SVG + "text"
MOVED, IDLE, BRACKET = map(re.compile, [r"translate\(0,(\d+)\)", r"M(\d+) \d+L(\d+) \d+", r"M(\d+) \d+V\d+H(\d+)V\d+"])
# the size of a word by its class, in pixels
SIZES = {
    **dict.fromkeys(["verb", "rest", "store", "saw", "of-what", "move", "cell"], 11),
    **dict.fromkeys(["event", "gap", "name", "stage", "white", "in", "in-w", "thin", "key", "because"], 10),
    "sentence": 13,
    "lane": 14,
}
# the stage that a mark gives its process
STAGES = {
    **{"call": "doorway", "wait": "waiting", "enter": "inside", "leave": "leaving", "withdraw": "leaving"},
    **{"answer": "idle", "fail": "settling", "down": "down", "restart": "idle"},
}
LEFT = 52
# the height of a row, in which words are compared
ROW = 16
# of the reads that end between two lines of the run, so many are shown
MOST_SHOWN = 3
# an entry of a record with an access: process, owner, field, bit, reader, move, value
ENTRY = re.compile(r"(\d+) (\d+)\.(\w+)\.(\d+)\.(\d+) (write|end|settle|read|value)(?: ([01]))?( :.*)?")


class Group(NamedTuple):
    """A group of a picture: `m` of a mark, `r` of a read; its title, and its words."""

    style: str
    title: list
    words: list


class Groups(html.parser.HTMLParser):
    """The groups of a page, and the lines that it lists."""

    def __init__(self):
        super().__init__()
        self.groups, self.listed, self.is_open, self.part = [], [], False, None

    def handle_starttag(self, tag, attributes):
        if tag == "g":
            self.groups.append(Group(dict(attributes).get("class"), [], []))
            self.is_open = True
        if tag in ("title", "text") and self.is_open:
            self.part = self.groups[-1].title if tag == "title" else self.groups[-1].words
            self.part.append("")
        if tag == "li":
            self.part = self.listed
            self.part.append("")

    def handle_endtag(self, tag):
        if tag in ("title", "text", "li"):
            self.part = None
        if tag == "g":
            self.is_open = False

    def handle_data(self, data):
        if self.part is not None:
            self.part[-1] += data


class Read(NamedTuple):
    """A read that a write overlapped: who read whose bit, from when to when, what it gave, and whether there are other bits."""

    reader: str
    owner: str
    field: str
    bit: str
    begin: int
    end: int
    value: str
    is_wide: bool

    def title(self):
        bit = f"bit {self.bit} of {self.field}[{self.owner}]"
        return f"process {self.reader} read {bit} from event {self.begin} to {self.end} while it was written: {self.value}"

    def words(self, left_out):
        bit = f".{self.bit}" if self.is_wide else ""
        return [f"saw {self.value}", f"{self.field}[{self.owner}]{bit}" + (f" +{left_out}" if left_out else "")]


class Run(NamedTuple):
    """A run: the lines of its file, its own lines, and the reads that a picture of it shows (None: they are compared elsewhere)."""

    file: list
    lines: list
    reads: list


def printed(file, command, *options):
    ran = subprocess.run([PROGRAM, command, *options, "-"], input=file, capture_output=True, check=True)
    return ran.stdout.decode()


def overlapped_in(record):
    """The reads of a record that a write of their bit overlapped: one was open as they began, or has begun since. A bad record may end
    a read that was not the last one begun by its reader, or that has no bit; it is not among them."""
    entries = [line for line in record if line[0].isdigit()]
    setup = Setup([line for line in record if not line[0].isdigit()])
    writing, begun, touched = set(), {}, set()
    for number, entry in enumerate(entries):
        parts = ENTRY.fullmatch(entry)
        if not parts:
            continue
        _, *place, move, value, _ = parts.groups()
        place = tuple(place)
        if move == "write":
            writing.add(place)
            touched.add(place)
        elif move in ("end", "settle"):
            writing.discard(place)
        elif move == "read":
            begun[place[3]] = number, place
            (touched.add if place in writing else touched.discard)(place)
        elif place in touched and begun.get(place[3], (None, None))[1] == place:
            owner, field, bit, reader = place
            if max(int(owner), int(reader)) < setup.processes and int(bit) < setup.width(field):
                yield Read(reader, owner, field, bit, begun[reader][0], number, value, setup.width(field) > 1)


def read_faults(groups, reads):
    """What is wrong with the reads that stand between the marks."""
    to_come, shown = collections.deque(reads), 0
    for style, title, words in groups:
        if style == "m":
            shown, event = 0, re.match(r"\d+", title[0])
            if event and to_come and to_come[0].end <= int(event.group()):
                yield f"{to_come[0].title()} is not shown before {title[0]}"
        elif style == "r":
            shown += 1
            left_out = int((re.findall(r" \+(\d+)$", words[-1]) or [0])[0])
            wanted = to_come.popleft() if to_come else None
            if not wanted or (title, words) != ([wanted.title()], wanted.words(left_out)):
                yield f"{title} {words} is shown, not {wanted}"
            if shown > MOST_SHOWN or left_out and shown < MOST_SHOWN:
                yield f"read {shown} between two lines is {title} {words}"
            for _ in range(min(left_out, len(to_come))):
                to_come.popleft()
    if to_come:
        yield f"{len(to_come)} reads are not shown"


def page_faults(page, run):
    """What is wrong with the page of a run."""
    parser = Groups()
    parser.feed(page)
    if [group.title[0] for group in parser.groups if group.style == "m"] != run.lines:
        yield "other lines than replay's"
    if parser.listed != [*run.file, "(end)"]:
        yield "other lines than the file's"
    title, heading = (html.unescape(re.search(f"<{tag}>(.*?)</{tag}>", page, re.S)[1]) for tag in ("title", "h1"))
    comment = next((line.removeprefix("# ") for line in run.file if line.startswith("# ")), heading)
    if title != comment:
        yield f"the title is {title}, not {comment}"
    yield from read_faults(parser.groups, run.reads)
    if "<script src" in page or "http" in page.replace("http://www.w3.org/2000/svg", ""):
        yield "something that is not in the file"


def words_of(element, down):
    """The words of a picture: the box of each, and what it says."""
    moved = element.get("transform")
    moved = moved and MOVED.fullmatch(moved)
    down += int(moved[1]) if moved else 0
    if element.tag == TEXT:
        style = element.get("class").split()[0]
        size = SIZES[style]
        width = len(element.text) * size * 0.603
        left = int(element.get("x")) - (width / 2 if style in ("gap", "in", "in-w") else 0)
        base = int(element.get("y")) + down
        yield left, base - size * 0.75, left + width, base + size * 0.2, element.text
    for child in element:
        yield from words_of(child, down)


def word_faults(root):
    """Words that stand outside of a picture, or on another one."""
    # of each row of a picture the words before a word that may reach up to it, from the left
    rows, width, height = collections.defaultdict(list), int(root.get("width")), int(root.get("height"))
    for word in sorted(words_of(root, 0)):
        left, top, right, bottom, text = word
        if left < 0 or right > width or bottom > height:
            yield f"{text} stands outside"
        before = {}
        for row in range(int(top // ROW), int(bottom // ROW) + 1):
            rows[row] = [other for other in rows[row] if other[2] > left]
            before |= dict.fromkeys(rows[row])
            rows[row].append(word)
        for other in before:
            if other[1] < bottom - 0.5 and top < other[3] - 0.5:
                yield f"{other[4]} stands on {text}"


def title(mark):
    """The line of a mark."""
    return mark.find(SVG + "title").text


def width_of(box):
    """Where a box begins, and where it ends."""
    return int(box.get("x")), int(box.get("x")) + int(box.get("width"))


def bars_of(band):
    """The bars of each lane of a band: where each begins, where it ends, and its stage."""
    lanes = []
    for shape in band:
        style = shape.get("class", "")
        if shape.tag == TEXT and style in ("lane", "thin"):
            lanes.append([])
        elif style == "idle":
            ends = IDLE.fullmatch(shape.get("d")).groups()
            lanes[-1].append((*map(int, ends), style))
        elif style in STAGES.values():
            lanes[-1].append((*width_of(shape), style))
    return lanes


class State(NamedTuple):
    """The stages of all processes, and whether the critical section is taken."""

    stages: list
    is_taken: bool

    def after(self, line):
        """The state after a line of the run."""
        process, verb = (line.split() + [""])[1:3]
        if line.startswith("-") or verb not in STAGES:
            return self
        is_taken = verb == "enter" or (self.is_taken and verb != "leave")
        stages = list(self.stages)
        if verb != "leave" or stages[int(process)] != "settling":
            stages[int(process)] = STAGES[verb]
        return State(stages, is_taken)


def band_faults(band, state, marks, is_good):
    """What is wrong with the bars and shades of a band, where this was the state before it. In a good run one process is inside."""
    shades = [width_of(box) for box in band.iter(SVG + "rect") if box.get("class") == "shade"]
    lanes, states = bars_of(band), {LEFT: state}
    for mark in marks:
        states[int(mark.get("data-x"))] = state = state.after(title(mark))
    for x, wanted in states.items():
        drawn = [[stage for start, end, stage in lane if start <= x < end] for lane in lanes]
        if drawn != [[stage] for stage in wanted.stages] or is_good and drawn.count(["inside"]) > 1:
            yield f"bars {drawn} at {x}, not {wanted.stages}"
        if sum(start <= x < end for start, end in shades) != wanted.is_taken:
            yield f"shades {shades}, though at {x} somebody is inside: {wanted.is_taken}"


def place_faults(marks):
    """What is wrong with the places in the history that the marks tell."""
    taken = [mark for mark in marks if re.match(r"\d+ \d+ taken ", title(mark))]
    for place, mark in enumerate(taken):
        style = "pill" if mark.get("data-s") is not None else "pill-o"
        knots = [word.text for word in mark.iter(SVG + "text") if word.get("class") in ("in", "in-w")]
        pills = [box.get("class") for box in mark.iter(SVG + "rect")]
        if (knots, pills) != ([str(place)] * 2, [style] * 2):
            yield f"place {place} is drawn as {knots}, {pills}"


def bracket_faults(bands):
    """What is wrong with the brackets of reads: each ends at the column of its read, and begins before it."""
    for band in bands:
        brackets = [shape.get("d") for shape in band if shape.get("class") == "open"]
        ends = [BRACKET.fullmatch(bracket).groups() for bracket in brackets]
        columns = [int(word.get("x")) - 3 for word in band.iter(SVG + "text") if word.get("class") == "saw"]
        if [int(end) for _, end in ends] != columns or any(int(begin) > int(end) for begin, end in ends):
            yield f"brackets {brackets} of reads at {columns}"


def is_in_box(mark, band):
    """Whether a mark is a line in the box of a verdict, and not in a column."""
    boxes = [int(box.get("y")) for box in band.iter(SVG + "rect") if box.get("class") in ("ruling", "ruling kept")]
    return any(int(word.get("y")) > top for top in boxes for word in mark.iter(SVG + "text"))


def picture_faults(picture, run, is_good=True):
    """What is wrong with the picture of a run, in which two processes may be inside if it is not good."""
    root = tree.fromstring(picture.encode())
    # the last group is the legend
    bands = [group for group in root if group.get("transform")][:-1]
    marks_of = [[group for group in band if group.get("class") == "m"] for band in bands]
    marks = list(itertools.chain(*marks_of))
    if [title(mark) for mark in marks] != run.lines:
        yield "other lines than replay's"
        return
    groups = [group for band in bands for group in band if group.get("class") in ("m", "r")]
    words = [[word.text for word in group.iter(SVG + "text")] for group in groups]
    if run.reads is not None:
        yield from read_faults([Group(each.get("class"), [title(each)], said) for each, said in zip(groups, words)], run.reads)
        yield from bracket_faults(bands)
    yield from word_faults(root)
    yield from place_faults(marks)
    state = State(["idle"] * len(bars_of(bands[0])), False)
    for band, marks in zip(bands, marks_of):
        columns = [mark for mark in marks if not is_in_box(mark, band)]
        yield from band_faults(band, state, columns, is_good)
        for mark in columns:
            state = state.after(title(mark))


def lines_in(file):
    """The lines of a file, without their ends."""
    *ended, rest = file.decode().split("\n")
    return [line.removesuffix("\r") for line in ended] + [rest] * bool(rest)


def files(made_up, first):
    """The worked examples that are drawn, the lessons, and the files that are made up, by name."""
    for folder in sorted(WORKED.iterdir()):
        if (folder / "draw").exists():
            yield folder.name, (folder / "scenario").read_bytes()
    for lesson in sorted((TOP / "lessons").glob("*.bakery")):
        yield lesson.name, lesson.read_bytes()
    for number in range(first, first + made_up):
        yield f"file {number}", scenario(number).encode()


def main():
    parser = argparse.ArgumentParser(description=__doc__, formatter_class=argparse.RawDescriptionHelpFormatter)
    parser.add_argument("--made-up", type=int, default=10)
    parser.add_argument("--first", type=int, default=1)
    words = parser.parse_args()
    counter = Counter()
    drawn = printed(SHOWN_RUN.read_bytes(), "draw-svg")
    counter.count(drawn == SHOWN.read_text(), f"{SHOWN.relative_to(TOP)} is not what draw-svg draws")
    for name, file in files(words.made_up, words.first):
        lines = printed(file, "replay").splitlines()
        overlapped = list(overlapped_in(printed(file, "record").splitlines()))
        for options, reads in [([], []), (["--reads"], overlapped)]:
            for command, faults_of in [("draw", page_faults), ("draw-svg", picture_faults)]:
                faults = list(faults_of(printed(file, command, *options), Run(lines_in(file), lines, reads)))
                counter.count(not faults, "\n".join(f"{command} {options} {name}: {fault}" for fault in faults[:5]))
    counter.end()


if __name__ == "__main__":
    main()
