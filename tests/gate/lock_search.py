#!/usr/bin/env python3
"""Searches the locks on bits of examples/other-locks/ again and compares the results with docs/LOCKS.md. (lock_atlas.py does so for the
locks on registers by their own names.)

The table of the page shows what is found of each lock. The second reading of records finds that each run found breaks that law at its
last entry, and that each record that the table links to has the verdict that the link states. A link states the number of ticket
bits if its record has another number than the search. The second reading and the search agree on runs that are drawn at random, with
failures and withdrawals too. The page has the code of each lock, and a reason below it. The second reading of traces gives the
verdict of each example of a trace. No program.
"""

import pathlib
import random
import re
import sys

sys.path.insert(0, str(pathlib.Path(__file__).resolve().parents[1]))

from lib import own_locks
from lib.counting import Counter
from lib.places import OTHER_LOCKS, TOP
from second.any_lock import any_lock
from second.traces import judge_trace

sys.path.append(str(OTHER_LOCKS))
from bit_search import LAWS, MEMORIES, Search, head_of, lines_of, record, row
from cell_locks import atlas
from locks import locks

PAGE = TOP / "docs" / "LOCKS.md"
TRACES = TOP / "examples" / "traces"
LINK = re.compile(r"\[(?P<verdict>[^]]+)\]\((?P<path>[^)]+)\)(?P<note> \(one ticket bit\))?")
TICKETS = re.compile(rb"^tickets (\d+)$", re.M)
# a section of a lock: its code, and a paragraph below it
SECTION = re.compile(r"^### (?P<name>[\w-]+)\n\n```text\n(?:.+\n)+?```\n\n\w", re.M)
# how many runs are drawn of a lock, and of how many entries
RUNS, ENTRIES = 40, 150
FAILING = ["raise-then-look", "one-bit", "bakery"]
# the cells of a row, of which the last one has the links
CELLS = 12


def rows(cells):
    """The rows of the page's table with so many cells, each by the name of its lock."""
    lines = [line for line in PAGE.read_text().splitlines() if line.startswith("| ") and line.count(" | ") == cells - 1]
    return {line.split(" | ")[0].removeprefix("| "): line for line in lines}


def verdict(text):
    return any_lock(text)[1].decode().strip()


def entries_in(text):
    return len([line for line in text.splitlines() if line[0].isdigit()])


def check_stuck(counter, what, found, count):
    """Whether a verdict on a run to a stuck state is none on its form: such a run may break the other laws."""
    counter.count(found == f"good {count}" or found.split()[-1] in LAWS, f"{what}, stuck: {found}")


def found_records(counter, name, lock):
    """The records that a search finds of a lock."""
    for law in [*LAWS, "stuck"]:
        for memory in MEMORIES:
            text = record(lock, law, memory)
            if text.startswith("#"):
                continue
            count, found = entries_in(text), verdict(text.encode())
            if law == "stuck":
                check_stuck(counter, f"{name}, {memory}", found, count)
            else:
                counter.compare(f"{name}, {law}, {memory}", found, f"bad {count - 1} {law}")


def drawn_runs(counter, name, lock):
    """Runs of a lock on safe bits, with a failure and a withdrawal if it says what is cleared then."""
    search, draws = Search(lock, "safe", bool(lock.clears)), random.Random(name)
    for _ in range(RUNS):
        state, law, entries = search.first(), None, []
        while len(entries) < ENTRIES and law is None and (steps := [*search.steps(state)]):
            me, step, law, state = draws.choice(steps)
            entries.append((me, step))
        text = "".join(f"{line}\n" for line in [*head_of(search), *lines_of(entries)]).encode()
        said = f"bad {len(entries) - 1} {law}" if law else f"good {len(entries)}"
        counter.compare(f"{name}, drawn", verdict(text), said)


def check_links(counter, lock, links):
    """Whether each linked record has the verdict that its link states, and as many ticket bits as the search, or a note."""
    for link in LINK.finditer(links):
        file = PAGE.parent / link["path"]
        text = file.read_bytes() if file.exists() else b""
        counter.compare(f"docs/LOCKS.md, {link['path']}", verdict(text) if text else "no such file", link["verdict"])
        tickets = [int(number) for number in TICKETS.findall(text)]
        counter.compare(f"docs/LOCKS.md, ticket bits of {link['path']}", tickets, [1 if link["note"] else lock.tickets])


def try_bits(counter):
    """The locks on bits."""
    shown = rows(CELLS)
    for name, lock in locks().items():
        figures, _, links = shown.get(name, "").rpartition(" | ")
        counter.compare(f"docs/LOCKS.md, {name}", f"{figures} |", row(name, lock))
        found_records(counter, name, lock)
        drawn_runs(counter, name, lock)
        check_links(counter, lock, links)
    for name in FAILING:
        failing = row(name, locks()[name]._replace(calls=1), with_failures=True)
        counter.count(f"\n{failing}\n" in PAGE.read_text(), f"docs/LOCKS.md has not the row {failing}")


def try_examples(counter):
    """The examples of traces by their second reading."""
    content = lambda path, default: path.read_bytes() if path.exists() else default
    folders = sorted(path.parent for path in TRACES.glob("*/trace"))
    counter.count(folders, "there are no examples of traces")
    for folder in folders:
        for name, why in [("judge", False), ("judge-why", True)]:
            wanted = int(content(folder / "status", b"0")), content(folder / name, b""), content(folder / "err", b"")
            counter.compare(f"{name} {folder.name}", judge_trace((folder / "trace").read_bytes(), why), wanted)


def main():
    counter = Counter()
    try_bits(counter)
    try_examples(counter)
    own_locks.try_all(counter)
    sections = [found["name"] for found in SECTION.finditer(PAGE.read_text())]
    names = [*locks(), *(name for name in atlas() if name not in locks())]
    counter.compare("docs/LOCKS.md, the locks with code and a reason", sections, names)
    counter.end()


if __name__ == "__main__":
    main()
