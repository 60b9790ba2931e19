#!/usr/bin/env python3
"""Lists the calls of traces a second time, and compares.

`second/trace_calls.py` finds the table of a trace's calls by looking back over its entries. What it says must be what `bakerystore calls`
writes: for the traces of examples/traces/ and examples/inspect/, and for 1,000 that `lib/random_traces.py` makes up. A trace with a fault
has the fault that `judge` has, and nothing is written. The first line is that of the table of a scenario's run.

Each column that a trace has must be filled in some line, and no other. Among the traces that are made up there must be a call in whose
place its process calls again, an answer without a call, and an entry of a process that does not exist.

tests/gate/trace_calls.py [NUMBER]: the first of the traces that are made up, by default 1. The program is the one that `rt ci` or
`rt run` leaves in crates/bakerystore.
"""

import collections
import csv
import pathlib
import sys

sys.path.insert(0, str(pathlib.Path(__file__).resolve().parents[1]))

from lib.counting import Counter
from lib.places import TOP
from lib.random_traces import trace
from lib.running import runner, workers
from second.calls import HEADER
from second.scenario_files import Fault, is_skipped, lines_of, words_of
from second.trace_calls import trace_calls
from second.trace_files import read_trace

MANY, CHUNK = 1_000, 50
INSPECTED, TRACES = TOP / "examples" / "inspect", TOP / "examples" / "traces"
EMPTY = {"command", "taken", "place", "failed", "withdrew", "waited_for", "answer"}
ODD = ["calls again", "answer without a call", "process that does not exist"]


def is_trace(text):
    """Whether the first line that is not skipped begins with `trace`."""
    said = (words for line in lines_of(text) if not is_skipped(words := words_of(line)))
    return next(said, [b""])[0] == b"trace"


def compare(name, text):
    """What is wrong with the table of a trace, or None, and how many of its lines have each column."""
    told, wanted = tuple(runner().run(["calls", "-"], text)), trace_calls(text)
    filled = collections.Counter(column for row in csv.DictReader(wanted[1].decode().splitlines()) for column in HEADER if row[column] != "")
    return (None if told == wanted else f"{name}: {told}, and the second reading has {wanted}"), filled


def odd_in(text):
    """What a trace has that no run of a lock has."""
    try:
        said = read_trace(text)
    except Fault:
        return
    calling = set()
    for entry in said.entries:
        if entry.process >= said.processes:
            yield ODD[2]
        elif "call" in entry.marks:
            if entry.process in calling:
                yield ODD[0]
            calling.add(entry.process)
        elif "answer" in entry.marks:
            if entry.process not in calling:
                yield ODD[1]
            calling.discard(entry.process)


def compare_numbers(numbers):
    """What is wrong with the tables of the traces of these numbers; how many lines have each column; and what is odd."""
    wrong, filled, odd = [], collections.Counter(), collections.Counter()
    for number in numbers:
        text = trace(number)
        if not is_trace(text):
            continue
        why, more = compare(f"trace {number}", text)
        wrong += [why] if why else []
        filled += more
        odd.update(odd_in(text))
    return wrong, filled, odd


def main():
    first = int(sys.argv[1]) if len(sys.argv) > 1 else 1
    counter, filled, odd = Counter(), collections.Counter(), collections.Counter()
    header = runner().run(["calls", "-"], b"bakery 1\n").output
    counter.compare("the first line", runner().run(["calls", "-"], b"trace 1\n").output, header)
    for file in sorted([*TRACES.glob("*/trace"), *INSPECTED.glob("*/trace")]):
        if is_trace(text := file.read_bytes()):
            why, more = compare(file.parent.name, text)
            counter.count(why is None, why)
            filled += more
            odd.update(odd_in(text))
            found, judged = (tuple(runner().run([command, "-"], text)) for command in ("calls", "judge"))
            counter.count(found[0] == 0 or found == judged, f"{file.parent.name}: {found}, and judge has {judged}")
    with workers() as pool:
        for wrong, more, found in pool.imap(compare_numbers, (range(at, at + CHUNK) for at in range(first, first + MANY, CHUNK))):
            counter.add(CHUNK - len(wrong), 0)
            for why in wrong:
                counter.count(False, why)
            filled, odd = filled + more, odd + found
    for column in HEADER:
        counter.count((filled[column] > 0) != (column in EMPTY), f"{filled[column]} lines have this column: {column}")
    for what in ODD:
        counter.count(odd[what] > 0, f"no trace has this: {what}")
    counter.end()


if __name__ == "__main__":
    main()
