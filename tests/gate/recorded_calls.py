#!/usr/bin/env python3
"""Lists the calls of records a second time, and compares.

`second/recorded_calls.py` finds the table of a record's calls by looking back over its entries. What it says must be what
`bakerystore calls` writes: for the records of the worked and the inspected scenarios, for those of examples/records/ and
examples/other-locks/, and for 5,000 that `lib/random_records.py` makes up, most of which break a law. A record with a fault has the
fault that `judge` has, and nothing is written. The record of a scenario's run has the table of the run, except that `waited_for` is
empty.

Each column but that one must be filled in some line. Among the records that are made up there must be a call in whose place its process
calls again, an answer without a call, an entry of a process that does not exist, and the end of a read that has not begun.

tests/gate/recorded_calls.py [NUMBER]: the first of the records that are made up, by default 1. The program is the one that `rt ci` or
`rt run` leaves in crates/bakerystore.
"""

import collections
import csv
import io
import pathlib
import sys

sys.path.insert(0, str(pathlib.Path(__file__).resolve().parents[1]))

from lib.counting import Counter
from lib.places import OTHER_LOCKS, TOP, WORKED
from lib.random_records import record
from lib.running import runner, workers
from second.calls import HEADER
from second.recorded_calls import Record, recorded_calls, word_of
from second.scenario_files import Fault, is_skipped, lines_of, words_of

MANY, CHUNK = 5_000, 50
INSPECTED, RECORDS = TOP / "examples" / "inspect", TOP / "examples" / "records"
# what spoils a record: where a line is put, and that line
SPOILS = [(0, b"bakery 3"), (1, b"slots 9999"), (-1, b"0 0.ticket.0"), (-1, b"x"), (-1, b"#" * 129), (-1, b"slots 2")]
ODD = ["calls again", "answer without a call", "process that does not exist", "end of a read that has not begun"]


def rows_of(table):
    return list(csv.DictReader(table.decode().splitlines()))


def without_waits(table):
    """The table without the processes that calls waited for."""
    told = io.StringIO()
    writer = csv.DictWriter(told, HEADER, lineterminator="\n")
    writer.writeheader()
    writer.writerows({**row, "waited_for": ""} for row in rows_of(table))
    return told.getvalue().encode()


def is_record(text):
    """Whether the first line that is not skipped begins with `record`."""
    said = (words for line in lines_of(text) if not is_skipped(words := words_of(line)))
    return next(said, [b""])[0] == b"record"


def compare(name, text):
    """What is wrong with the table of a record, or None, and how many of its lines have each column."""
    told, wanted = tuple(runner().run(["calls", "-"], text)), recorded_calls(text)
    filled = collections.Counter((column, row[column] != "") for row in rows_of(wanted[1]) for column in HEADER)
    return (None if told == wanted else f"{name}: {told}, and the second reading has {wanted}"), filled


def compare_run(name, text):
    """What is wrong with the table of the record of a scenario's run, or None."""
    of_run, written = (runner().run([command, "-"], text) for command in ("calls", "record"))
    if written.status != 0:
        return None if tuple(of_run) == tuple(written) else f"{name}: {of_run}, and record has {written}"
    of_record = runner().run(["calls", "-"], written.output)
    if of_record.output != without_waits(of_run.output):
        return f"{name}: the run has {of_run}, and its record {of_record}"
    return compare(name, written.output)[0]


def odd_in(text):
    """What a record has that no run has."""
    try:
        said = Record(text)
    except Fault:
        return
    calling, last = set(), {}
    for process, access, marks in said.all:
        words = [word_of(mark) for mark in marks]
        if process >= said.setup.processes:
            yield ODD[2]
            continue
        if "call" in words:
            if process in calling:
                yield ODD[0]
            calling.add(process)
        elif {"answer", "down"} & set(words):
            if "answer" in words and process not in calling:
                yield ODD[1]
            calling.discard(process)
        if access:
            if access[4].startswith("value") and last.get(process) != (*access[:4], "read"):
                yield ODD[3]
            last[process] = access


def compare_numbers(numbers):
    """What is wrong with the tables of the records of these numbers; how many lines have each column; and what is odd."""
    wrong, filled, odd = [], collections.Counter(), collections.Counter()
    for number in numbers:
        text = record(number)
        why, more = compare(f"record {number}", text)
        wrong += [why] if why else []
        filled += more
        odd.update(odd_in(text))
    return wrong, filled, odd


def spoiled(text):
    """A record with a line that has a fault, for each of these lines."""
    lines = text.splitlines(keepends=True)
    for at, line in SPOILS:
        yield b"".join([*lines[:at], line + b"\n", *lines[at:]])


def faults(counter, text):
    """The faults of a record, as `judge` tells them."""
    for file in spoiled(text):
        found, wanted = (tuple(runner().run([command, "-"], file)) for command in ("calls", "judge"))
        counter.compare("a faulty record", found, wanted)
        counter.count(found[0] == 1 and found[1] == b"", f"a faulty record: {found}")
        counter.count(compare("a faulty record", file)[0] is None, "a faulty record, by the second reading")


def main():
    first = int(sys.argv[1]) if len(sys.argv) > 1 else 1
    counter, filled, odd = Counter(), collections.Counter(), collections.Counter()
    for file in sorted([*INSPECTED.glob("*/scenario"), *WORKED.glob("*/scenario")]):
        why = compare_run(file.parent.name, file.read_bytes())
        counter.count(why is None, why)
    for file in sorted([*RECORDS.glob("*/record*"), *OTHER_LOCKS.glob("*/record"), *INSPECTED.glob("*/record")]):
        if is_record(file.read_bytes()):
            why, more = compare(file.parent.name, file.read_bytes())
            counter.count(why is None, why)
            filled += more
    faults(counter, (TOP / "examples" / "failed-read.record").read_bytes())
    with workers() as pool:
        for wrong, more, found in pool.imap(compare_numbers, (range(at, at + CHUNK) for at in range(first, first + MANY, CHUNK))):
            counter.add(CHUNK - len(wrong), 0)
            for why in wrong:
                counter.count(False, why)
            filled, odd = filled + more, odd + found
    for column in HEADER:
        counter.count(filled[column, True] > 0 or column == "waited_for", f"no line has this column: {column}")
    counter.count(filled["waited_for", True] == 0, "a line has a process that was waited for")
    for what in ODD:
        counter.count(odd[what] > 0, f"no record that is made up has this: {what}")
    counter.end()


if __name__ == "__main__":
    main()
