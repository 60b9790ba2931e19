#!/usr/bin/env python3
"""The constant parts of a picture: the files of picture/, as the crate `picture` has them in src/constants.rt and src/legends.rt.

The script of a trace's page is that of any page without the lines that tell of the store and of the line of processes.
Compares the two; with `--write` it writes the files into the crate.
"""

import pathlib
import sys

sys.path.insert(0, str(pathlib.Path(__file__).resolve().parents[1]))

from lib.counting import Counter
from lib.places import TOP

FOLDER = TOP / "crates" / "picture" / "src"
PARTS = [
    ("style.css", "STYLE", "The style of all pictures."),
    ("page.css", "PAGE_STYLE", "The style of a page, in addition to that of pictures."),
    ("script.js", "SCRIPT", "The script of a page."),
    ("script.js", "TRACE_SCRIPT", "The script of the page of a trace, which has no store and no line of processes."),
    ("defs.svg", "PATTERNS", "The patterns of the bars."),
]
LEGENDS = [
    ("legend.svg", "LEGEND", "The legend of a run or record."),
    ("legend-trace.svg", "TRACE_LEGEND", "The legend of a trace."),
    ("legend-reads.svg", "READS_LEGEND", "The legend of a run or record whose overlapped reads are shown."),
    ("legend-accesses.svg", "ACCESS_LEGEND", "The legend of a run or record whose accesses are shown."),
    ("legend-trace-accesses.svg", "TRACE_ACCESS_LEGEND", "The legend of a trace whose accesses are shown."),
]
# each source with its first line and its constants
SOURCES = [
    ("constants.rt", "The constant parts of a picture, as the files of picture/ have them", PARTS),
    ("legends.rt", "The legends of pictures, as the files of picture/ have them", LEGENDS),
]
# what is left out of the files for some constants
LEFT_OUT = {"TRACE_SCRIPT": "line('store',stores[n]);\nline('in line',queues[n]||'none');"}
# a line of the source that would be longer goes on below
WIDTH = 100


def literal(text):
    """The text as a string of the language, in which a line ends where the text's does."""
    text = text.replace("\\", "\\\\").replace('"', '\\"').replace("\n", "\\n\\\n")
    return f'"{text}"'


def constant(file, name, meaning):
    """The constant of a file, laid out as the language's own tool does."""
    text, part = (TOP / "picture" / file).read_text().rstrip("\n"), LEFT_OUT.get(name, "")
    assert not part or text.count(part) == 1, f"{file} does not have once what {name} leaves out"
    value = literal(text.replace(part, "") if part else text)
    before, first = f"pub(crate) const {name}: &str =", value.split("\n")[0]
    space = " " if len(before) + 1 + len(first) <= WIDTH else "\n    "
    return f"/// {meaning}\n{before}{space}{value};\n"


def main():
    counter = Counter()
    for file, front, parts in SOURCES:
        source = FOLDER / file
        head = f"//! {front}: tests/gate/picture_parts.py writes this.\n"
        made = "\n".join([head, *(constant(*part) for part in parts)])
        if sys.argv[1:] == ["--write"]:
            source.write_text(made)
        told = f"{source.relative_to(TOP)} is not what picture/ has: python3 tests/gate/picture_parts.py --write"
        counter.count(source.read_text() == made, told)
    counter.end()


main()
