#!/usr/bin/env python3
"""Looks into runs a second time, and compares.

Each folder of examples/inspect/ has the words behind `bakerystore` (`args`), a `scenario`, and what is written for it: `stdout`,
`stderr` (not where only the status is fixed) and `status`. `second/calls.py` finds the table of a run's calls by looking back over
the record that `record` writes. What it says must be what `bakerystore calls` writes: for these scenarios and those of the worked
examples, and for 2,000 that `lib/random_scenarios.py` makes up, each of which has 10,000 events at most. Its reads, writes and
overlapped reads must sum up to those of the record, without those of memory units. Each column must be filled in some line, and
each must be empty that can be. Some call must fail before its first access.

`second/states.py` finds the state after an event in the same way. It must be what `bakerystore state` writes after an event picked
at random, for as many scenarios, of 2,500 events at most; the entry that comes next, if it is a Step's, must be among the lines
`next`; and each kind of line must be there in some state.

tests/gate/inspected.py [NUMBER]: the first of the scenarios that are made up, by default 1. The program is the one that `rt ci` or
`rt run` leaves in crates/bakerystore.
"""

import collections
import csv
import pathlib
import random
import re
import subprocess
import sys

sys.path.insert(0, str(pathlib.Path(__file__).resolve().parents[1]))

from lib.counting import Counter
from lib.places import PROGRAM, TOP, WORKED
from lib.random_scenarios import scenario
from lib.running import runner, workers
from second.calls import HEADER, Entries, calls_text, sums_of
from second.runs import Run
from second.scenario_files import Fault, read_scenario, told_lines
from second.states import state_text

INSPECTED = TOP / "examples" / "inspect"
MANY, CHUNK, MOST_EVENTS, MOST_OF_STATE = 2_000, 25, 10_000, 2_500
KINDS = {kind: re.compile(kind) for kind in [
    r"last ", r"line ", r"process \d+ idle$", r"process \d+ idle calls", r"process \d+ down", r"process \d+ doorway$",
    r"process \d+ waiting", r"process \d+ inside$", r"process \d+ leaving", r"process \d+ settling", r"process \d+ call ",
    r"process \d+ doorway from \d+$", r"process \d+ doorway from \d+ to", r"process \d+ inside from \d+$",
    r"process \d+ inside from \d+ to", r"process \d+ taken", r"process \d+ withdrew", r"process \d+ failed",
    r"process \d+ ticket above", r"process \d+ ticket \d", r"process \d+ waits for \d+ choosing",
    r"process \d+ waits for \d+ ticket", r"process \d+ writes",
    r"process \d+ reads", r"process \d+ reads .* so far", r"process \d+ settles \S+ \d+ of \d+$",
    r"process \d+ settles .* value", r"process \d+ torn", r"process \d+ open .* write", r"process \d+ open .* read$",
    r"process \d+ open .* read overlapped", r"process \d+ next", r"register \S+ \d+$", r"register \S+ readers",
    r"register .* flickers", r"register .* no-image", r"register .* numbers", r"store .* numbers",
]}
UNIT_ALONE = "failed before its first access"
ALWAYS = {"process", "call", "command", "called", "reads", "writes", "overlapped"}


def by_program(text):
    """What `calls` and `record` write for a scenario; nothing of the second where it is none."""
    table, record = (runner().run([command, "-"], text) for command in ("calls", "record"))
    return tuple(table), record.output.decode().splitlines() if record.status == 0 else None


def compare(name, text):
    """What is wrong with a scenario's table, or None, and how many of its lines have each column."""
    told, record = by_program(text)
    if record is None:
        return (None if told[0] == 1 else f"{name}: {told}"), collections.Counter()
    wanted = (0, calls_text(record), b"")
    rows = list(csv.DictReader(wanted[1].decode().splitlines()))
    filled = collections.Counter((column, row[column] != "") for row in rows for column in HEADER)
    filled[UNIT_ALONE] = sum(row["failed"] != "" and row["doorway"] == "" for row in rows)
    sums = {column: sum(int(row[column]) for row in rows) for column in ("reads", "writes", "overlapped")}
    if sums != sums_of(Entries(record)):
        return f"{name}: {sums}, and the record has {sums_of(Entries(record))}", filled
    return (None if told == wanted else f"{name}: {told}, and the second reading has {wanted}"), filled


def events_of(text):
    """How many events the run of a scenario has, by the last line of its replay; none where it is at fault."""
    words = runner().run(["replay", "-"], text).output.rpartition(b"end events ")[2].split()
    return int(words[0]) if words else None


def compare_state(name, text, at):
    """What is wrong with a scenario's state after so many events, and the kinds of its lines."""
    told, replayed = (tuple(runner().run(words, text)) for words in (["state", "--at", str(at), "-"], ["replay", "-"]))
    try:
        said = read_scenario(text)
    except Fault:
        wanted = (replayed[0], b"", replayed[2])
        return (None if told == wanted else f"{name} at {at}: {told}, and replay has {wanted}"), collections.Counter()
    numbers = [number for number, words in told_lines(text) if words][-len(said.lines) :] if said.lines else []
    wanted = (0, state_text(Run(said), numbers, at), b"")
    if told != wanted:
        return f"{name} at {at}: {told}, and the second reading has {wanted}", collections.Counter()
    lines = told[1].decode().splitlines()
    kinds = collections.Counter(kind for kind in KINDS if any(KINDS[kind].match(line) for line in lines))
    entries = [line for line in runner().run(["record", "-"], text).output.decode().splitlines() if line[0].isdigit()]
    if at < len(entries):
        process, _, words = entries[at].partition(" ")
        if not words.startswith(":") and f"process {process} next {words}" not in lines:
            return f"{name} at {at}: {entries[at]} comes next, and is not among {lines}", kinds
    return None, kinds


def compare_numbers(numbers):
    """How many scenarios of these numbers are short enough for each comparison; what is wrong with those; and how many lines have
    each column, and how many states each kind of line."""
    tried, wrong, filled = collections.Counter(), [], collections.Counter()
    for number in numbers:
        text = scenario(number).encode()
        events = events_of(text) or 0
        found = [compare(f"scenario {number}", text)] if events <= MOST_EVENTS else []
        if events <= MOST_OF_STATE:
            found.append(compare_state(f"scenario {number}", text, random.Random(number).randint(0, events + 1)))
            tried["state"] += 1
        tried["calls"] += events <= MOST_EVENTS
        wrong += [why for why, _ in found if why]
        filled += sum((more for _, more in found), collections.Counter())
    return tried, wrong, filled


def examples(counter):
    for folder in sorted(INSPECTED.iterdir()):
        if not folder.is_dir():
            continue
        ran = subprocess.run([PROGRAM, *(folder / "args").read_text().split()], cwd=folder, capture_output=True)
        # where no text stands for standard error, `clap` or the program says in its own words what is wrong
        told = folder / "stderr"
        wanted = (int((folder / "status").read_text()), (folder / "stdout").read_bytes(), told.read_bytes() if told.exists() else ran.stderr)
        counter.compare(f"inspect/{folder.name}", (ran.returncode, ran.stdout, ran.stderr), wanted)


def main():
    first = int(sys.argv[1]) if len(sys.argv) > 1 else 1
    counter = Counter()
    examples(counter)
    for file in sorted([*INSPECTED.glob("*/scenario"), *WORKED.glob("*/scenario")]):
        why, _ = compare(file.parent.name, file.read_bytes())
        counter.count(why is None, why)
    filled, tried = collections.Counter(), collections.Counter()
    with workers() as pool:
        for number, wrong, more in pool.imap(compare_numbers, (range(at, at + CHUNK) for at in range(first, first + 3 * MANY, CHUNK))):
            filled, tried = filled + more, tried + number
            counter.add(number.total() - len(wrong), 0)
            for why in wrong:
                counter.count(False, why)
            if min(tried["calls"], tried["state"]) >= MANY:
                break
    counter.count(min(tried["calls"], tried["state"]) >= MANY, f"too few scenarios are short enough: {tried}")
    for kind in KINDS:
        counter.count(filled[kind] > 0, f"no state that is made up has this line: {kind}")
    for column in HEADER:
        counter.count(filled[column, True], f"no line that is made up has this column: {column}")
        counter.count(filled[column, False] or column in ALWAYS, f"no line that is made up lacks this column: {column}")
    counter.count(filled[UNIT_ALONE] > 0, f"no call that is made up has {UNIT_ALONE}")
    counter.end()


if __name__ == "__main__":
    main()
