#!/usr/bin/env python3
"""Hostile use: the proved programs with spoiled files, failing streams, failed allocations, long runs, and races under load.

run.py [short] [PART..] [--examples FOLDER]: runs all parts, or those named: files, streams, memory, long, races. The whole run
takes 6.5 minutes on 4 idle cores, and writes its tables between two comments of docs/TESTING.md. Then `gate/claims.py --write`
writes the totals of that page. `short` tries a part of each, drawn by fixed numbers, in half a minute, and writes nothing. The
script needs `cc`, and what `rt ci` leaves: the proved programs, and the tests of the crates. The last line counts what was tried:
`N passed, M failed`.

The docstring of a part is its section of the page: the heading before the first colon, then the paragraphs above its table.
"""

import argparse
import pathlib
import re
import subprocess
import sys
import tempfile
import time

sys.path.insert(0, str(pathlib.Path(__file__).resolve().parents[1]))

from hostile import failing_streams, loaded_races, long_runs, refused_memory, spoiled_files
from lib.counting import Counter
from lib.places import TOP
from lib.running import CORES

PARTS = {"files": spoiled_files, "streams": failing_streams, "memory": refused_memory, "long": long_runs, "races": loaded_races}
PAGE = TOP / "docs" / "TESTING.md"
# the part of the page that this script writes, between two comments
MADE = re.compile(r"(?P<begin><!-- made by tests/hostile/run.py -->\n).*?(?P<end><!-- end -->)", re.S)
HEAD = """
`python3 tests/hostile/run.py` made this part. It last ran whole on the program of {state}, and took {minutes:.1f} minutes on {cores} cores. **The figures do not cover later changes.** CI runs a part of each test on the present program (`tests/hostile/run.py short`).

In the tables, a *case* is a combination of a command with a file, a stream, a test or a kind of change. A *try* is one run. A *failure* is a run that ended otherwise than it must.
"""
# rows of one kind share a line of a table
ALIKE = {
    r"a fault, run by `[\w -]+`$": "a fault, run by the other commands",
    r"^each byte replaced by (0x\w\w|its neighbour)": "each byte replaced",
    r"^each line (doubled|dropped|exchanged with the next)": "each line doubled, dropped or swapped with the next",
    r" in turn (takes one byte|takes no byte|fails)$": " in turn",
    r"^standard \w+ is closed$": "a standard stream is closed",
}
TABLE = "| Test | {column} | Tries | Failures |\n|---|---|---|---|\n"


def told(rows, part):
    """The rows of a part, each shown where something is wrong, and one line at the end."""
    begun, found = time.time(), []
    for row in rows:
        found.append(row)
        if row.wrong:
            print(row.line(), flush=True)
    tried, wrong = sum(row.tried for row in found), sum(len(row.wrong) for row in found)
    print(f"{part}: {tried} tries, {wrong} failures, {time.time() - begun:.0f} s", flush=True)
    return found


def line_of(what, rows):
    """A line of a table: the rows of one thing that was tried."""
    on = rows[0].name if len(rows) == 1 else f"{len(rows)}"
    return f"| {what} | {on} | {sum(row.tried for row in rows):,} | {sum(len(row.wrong) for row in rows)} |\n"


def thing(row):
    """What was tried, as a line of a table names it."""
    what = row.what
    for shape, name in ALIKE.items():
        what = re.sub(shape, name, what)
    return what


def table_of(column, rows):
    things = dict.fromkeys(map(thing, rows))
    return TABLE.format(column=column) + "".join(line_of(what, [row for row in rows if thing(row) == what]) for what in things)


def section_of(module, rows, seconds):
    """The section of a part: its heading and paragraphs, which are the docstring of its module, and its table."""
    heading, _, about = module.__doc__.strip().partition(": ")
    text = "\n\n".join(" ".join(paragraph.split()) for paragraph in about.split("\n\n"))
    table = table_of(getattr(module, "COLUMN", "Cases"), rows)
    return f"\n### {heading}\n\n{text[0].upper()}{text[1:]}\n\nThis part took {seconds / 60:.1f} minutes.\n\n{table}"


def write(page, sections, seconds):
    """Writes the sections, and how long all of them took, between the two comments of the page."""
    made = HEAD.format(state=state(), minutes=seconds / 60, cores=CORES) + sections
    text, times = MADE.subn(lambda found: found["begin"] + made + "\n" + found["end"], page.read_text())
    if times != 1:
        raise ValueError(f"{page} has {times} parts that are made here")
    page.write_text(text)


def state():
    """The state of the sources: the day and the commit."""
    words = ["git", "log", "-1", "--date=short", "--format=%cd (commit %h)"]
    return subprocess.run(words, cwd=TOP, capture_output=True, text=True, check=True).stdout.strip()


def read_words():
    parser = argparse.ArgumentParser(description=__doc__, formatter_class=argparse.RawDescriptionHelpFormatter)
    parser.add_argument("words", nargs="*", metavar="PART")
    parser.add_argument("--examples", type=pathlib.Path, default=TOP / "examples")
    asked = parser.parse_args()
    others = [word for word in asked.words if word not in ("short", *PARTS)]
    if others:
        parser.error(f"no part is named {others[0]}")
    return asked


def main():
    asked = read_words()
    is_short = "short" in asked.words
    parts = [part for part in PARTS if part in asked.words] or list(PARTS)
    counter, sections, seconds = Counter(), "", 0
    for part in parts:
        begun = time.time()
        with tempfile.TemporaryDirectory() as name:
            rows = told(PARTS[part].rows(asked.examples.resolve(), pathlib.Path(name), is_short), part)
        wrong = sum(len(row.wrong) for row in rows)
        counter.add(sum(row.tried for row in rows) - wrong, wrong)
        took = time.time() - begun
        sections, seconds = sections + section_of(PARTS[part], rows, took), seconds + took
    if not is_short and parts == list(PARTS):
        write(PAGE, sections, seconds)
    counter.end()


if __name__ == "__main__":
    main()
