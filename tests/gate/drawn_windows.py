#!/usr/bin/env python3
"""Draws parts of runs, records and traces by the proved program, with `--from` and `--to`, and reads them back.

The files are the records of examples/other-locks/, the traces of examples/traces/, the short scenarios of examples/worked/, and random
records and traces. Each is drawn with random windows; the same number gives the same windows. second/drawn_windows.py computes from the
entries what a window must show: the lines, the columns and the numbers between them, the stages and the shades, the accesses, those that
are open at the left edge and the waves there, the overlapped reads, the words of the store, the knots, and the verdict.

A mark of a window is that of the whole picture at another place, and each window ends with the status that the whole picture has. With
`--from 0`, with the number of the last entry after `--to`, and with both, the page and the picture have the bytes that they have without.

tests/gate/drawn_windows.py [--all] [--first NUMBER]: three windows of each file, instead of one of each in a sample; and the first number
of the random files, by default 1.
"""

import argparse
import itertools
import pathlib
import random
import sys
from typing import Callable, NamedTuple

sys.path.insert(0, str(pathlib.Path(__file__).resolve().parents[1]))

from drawn_records import run
from drawn_traces import is_trace, long_trace
from lib.counting import Counter
from lib.places import OTHER_LOCKS, TOP, WORKED
from lib.random_records import record
from lib.random_traces import trace
from second.drawn_windows import GREATEST, Window, story_of_record, story_of_run, story_of_trace
from second.record_files import read_record
from second.runs import Run, texts_of
from second.scenario_files import Fault, read_scenario
from second.trace_files import read_trace
from window_faults import content_faults, drawn, frame_faults, mark_faults, page_faults, store_faults

TRACES = TOP / "examples" / "traces"
# a scenario of more events is not drawn here
MOST_EVENTS = 2_000
# the entries of a trace that shows accesses in its parts alone
LONG = 600
# how many random files of each kind are drawn, and of which other files one is, unless all are
MANY, SAMPLE, STEP = 100, 10, 3
# the words before FILE for a verdict, and those for `judge` alone
JUDGES = {"--judge": ["--why"], "--any-lock": ["--any-lock", "--why"]}


class File(NamedTuple):
    """A file: its name, its kind, its bytes, what is read of it, and how its story is made of that and a judge's lines."""

    name: str
    kind: str
    text: bytes
    read: object
    story: Callable


def run_of(text):
    return Run(read_scenario(text))


def of_run(read, told):
    return story_of_run(read)


# how each kind of file is read, and its story
KINDS = {"run": (run_of, of_run), "record": (read_record, story_of_record), "trace": (read_trace, story_of_trace)}


def file_of(name, kind, text):
    """The file, or None if it has a fault."""
    reading, story = KINDS[kind]
    try:
        return File(name, kind, text, reading(text), story)
    except Fault:
        return None


def kept_files():
    """The name, the kind and the bytes of each example; a run's record is one more."""
    for path in [*sorted(OTHER_LOCKS.glob("*/record")), TOP / "examples" / "failed-read.record"]:
        yield path.parent.name, "record", path.read_bytes()
    for path in sorted(TRACES.glob("*/trace")):
        yield path.parent.name, "trace", path.read_bytes()
    for folder in sorted(WORKED.iterdir()):
        if (folder / "draw").exists() and int((folder / "replay").read_text().split()[-5]) <= MOST_EVENTS:
            scenario = (folder / "scenario").read_bytes()
            yield folder.name, "run", scenario
            yield f"record of {folder.name}", "record", texts_of(read_scenario(scenario))[1]


def random_files(first, many):
    yield f"a trace of {LONG} entries", "trace", long_trace(LONG)
    for number in range(first, first + many):
        yield f"record {number}", "record", record(number)
        yield f"trace {number}", "trace", trace(number)


def files(named):
    """The files that have no fault, of these."""
    for name, kind, text in named:
        found = file_of(name, kind, text) if kind != "trace" or is_trace(text) else None
        if found:
            yield found


def random_window(draws, count):
    """A window of a file of so many entries: now and then without an end, of one entry, or after the last."""
    first = draws.choice([0, draws.randrange(count + 1), draws.randrange(count + 3)])
    last = draws.choice([first, first + draws.randint(0, count), first + draws.randint(0, 30), GREATEST])
    return Window(first, last)


def choices_of(file):
    """The options beside a window with which a file may be drawn."""
    reads = [] if file.kind == "trace" else [["--reads"]]
    judges = [] if file.kind == "run" else [["--judge"], ["--any-lock"]]
    return [[], ["--accesses"], *reads, *judges]


class Drawing:
    """A file that is drawn with some options: its story, and the whole picture with its status."""

    def __init__(self, file, options):
        self.file, self.options, asked = file, options, [JUDGES[option] for option in options if option in JUDGES]
        self.status, printed, _ = run(file.text, "judge", *asked[0]) if asked else (0, b"", b"")
        self.story = file.story(file.read, printed.decode().splitlines())
        self.picture = run(file.text, "draw-svg", *options)[1]
        self.whole = drawn(self.picture)

    def faults(self, window):
        """What is wrong with a window."""
        page, picture = (run(self.file.text, command, *self.options, *window.options()) for command in ("draw", "draw-svg"))
        if (page[0], page[2], picture[0], picture[2]) != (self.status, b"", self.status, b""):
            yield f"draw ends with {page[0]}, {page[2]!r}, draw-svg with {picture[0]}, {picture[2]!r}, not {self.status}"
            return
        found = drawn(picture[1])
        yield from content_faults(self.story, window, self.options, found)
        yield from mark_faults(found, self.whole)
        if self.story.shows_accesses(window, self.options) == self.story.shows_accesses(Window(), self.options):
            yield from frame_faults(found, self.whole)
        yield from page_faults(page[1].decode(), picture[1].decode())
        yield from store_faults(page[1].decode(), self.story, window)

    def whole_faults(self, words):
        """What is wrong with the page and the picture that these words leave whole."""
        for command in ("draw", "draw-svg"):
            if run(self.file.text, command, *self.options, *words) != run(self.file.text, command, *self.options):
                yield f"{command} writes other bytes"


def whole_words(draws, count):
    """The words for a window of all entries, of so many."""
    begin, end = ["--from", "0"], ["--to", str(max(count - 1, 0))]
    return draws.choice([begin, end, begin + end])


def main():
    parser = argparse.ArgumentParser(description=__doc__, formatter_class=argparse.RawDescriptionHelpFormatter)
    parser.add_argument("--all", action="store_true")
    parser.add_argument("--first", type=int, default=1)
    words = parser.parse_args()
    counter = Counter()
    many, step, windows = (MANY, 1, 3) if words.all else (SAMPLE, STEP, 1)
    kept = itertools.islice(kept_files(), 0, None, step)
    for file in files(itertools.chain(kept, random_files(words.first, many))):
        draws = random.Random(file.name)
        drawing = Drawing(file, draws.choice(choices_of(file)))
        whole = whole_words(draws, drawing.story.count)
        tries = [(whole, drawing.whole_faults(whole))]
        for window in (random_window(draws, drawing.story.count) for _ in range(windows)):
            tries.append((window.options(), drawing.faults(window)))
        for options, faults in tries:
            found = list(faults)
            counter.count(not found, f"{file.name} {' '.join([*drawing.options, *options])}: {found[:4]}")
    counter.end()


if __name__ == "__main__":
    main()
