#!/usr/bin/env python3
"""Finds the states of records a second time, and compares.

`second/recorded_states.py` finds the state of a record by looking back over its entries, and its first bad entry by a second judge. What
it says must be what `bakerystore state` writes, after a number of entries that is picked at random: for the records of the worked and
the inspected scenarios, and of 500 that `lib/random_scenarios.py` makes up, of 2,500 events at most; for as many of these records with
some entries changed; and for those of examples/records/ and examples/other-locks/. A record with a fault has the fault that `judge` has,
and nothing is written.

After the same number of events the state of the scenario must be that of its record, except for the line `line`. Among the records
that are changed or given each law that can be broken first must be broken in some, and some must have a bad entry that is not among the
first ones.

tests/gate/recorded_states.py [NUMBER]: the first of the scenarios that are made up, by default 1. The program is the one that `rt ci` or
`rt run` leaves in crates/bakerystore.
"""

import collections
import pathlib
import random
import sys

sys.path.insert(0, str(pathlib.Path(__file__).resolve().parents[1]))

from lib.counting import Counter
from lib.places import OTHER_LOCKS, TOP, WORKED
from lib.random_records import changed
from lib.random_scenarios import scenario
from lib.running import runner, workers
from second.record_files import read_record
from second.recorded_states import first_bad, recorded_state
from second.scenario_files import Fault, is_skipped, lines_of, words_of

MANY, CHUNK, MOST_EVENTS = 500, 10, 2_500
INSPECTED, RECORDS = TOP / "examples" / "inspect", TOP / "examples" / "records"
# what spoils a record: where a line is put, and that line
SPOILS = [(0, b"bakery 3"), (1, b"slots 9999"), (-1, b"0 0.ticket.0"), (-1, b"x"), (-1, b"#" * 129), (-1, b"slots 2")]
# `together` and `overtaken` are broken only by an entry that breaks `program` first
LAWS = ["safe", "program", "unit", "history"]
GOOD, LATER = "a good record", "a bad entry after those that count"


def is_record(text):
    """Whether the first line that is not skipped begins with `record`."""
    said = (words for line in lines_of(text) if not is_skipped(words := words_of(line)))
    return next(said, [b""])[0] == b"record"


def many_of(text):
    """The number of a record's entries, which is 0 if the record is at fault."""
    try:
        return len(read_record(text)[1])
    except Fault:
        return 0


def compare(name, text, at):
    """What is wrong with the state of a record after so many entries, or None."""
    found = tuple(runner().run(["state", "--at", "end" if at is None else str(at), "-"], text))
    wanted = recorded_state(text, at)
    return None if found == wanted else f"{name} at {at}: {found}, and the second reading has {wanted}"


def without_line(told):
    """The state without the line of the newest event."""
    return [line for line in told.splitlines() if not line.startswith(b"line ")]


def compare_run(name, text, draws):
    """What is wrong with the state of the record of a scenario's run, or None; and that record, unless it is too long."""
    written = runner().run(["record", "-"], text)
    many = many_of(written.output) if written.status == 0 else 0
    if written.status != 0 or many > MOST_EVENTS:
        return None, None
    at = draws.randint(0, many + 1)
    of_run = runner().run(["state", "--at", str(at), "-"], text)
    of_record = runner().run(["state", "--at", str(at), "-"], written.output)
    if of_record.status != 0 or without_line(of_record.output) != without_line(of_run.output):
        return f"{name} at {at}: the run has {of_run}, and its record {of_record}", written.output
    return compare(name, written.output, at), written.output


def sort_of(text, at):
    """What a record has: its first bad entry among those that count breaks this law; or one follows; or none is bad."""
    try:
        head, entries = read_record(text)
    except Fault:
        return "a fault"
    bad, law = first_bad(head, entries)
    return GOOD if law is None else law if at is None or bad < at else LATER


def compare_numbers(numbers):
    """How many of these scenarios are short enough, what is wrong with them, and the sorts of the changed records."""
    tried, wrong, sorts = 0, [], collections.Counter()
    for number in numbers:
        draws = random.Random(number)
        why, text = compare_run(f"scenario {number}", scenario(number).encode(), draws)
        if text is None:
            continue
        tried += 1
        lines = changed(draws, text.decode().splitlines())
        bad = "".join(f"{line}\n" for line in lines).encode()
        at = draws.choice([None, draws.randint(0, len(lines))])
        sorts[sort_of(bad, at)] += 1
        wrong += [each for each in (why, compare(f"record {number}", bad, at)) if each]
    return tried, wrong, sorts


def faults(counter, text):
    """The faults of a record, as `judge` tells them."""
    lines = text.splitlines(keepends=True)
    for at, line in SPOILS:
        file = b"".join([*lines[:at], line + b"\n", *lines[at:]])
        found, wanted = (tuple(runner().run([*command, "-"], file)) for command in (["state", "--at", "1"], ["judge"]))
        counter.compare("a faulty record", found, wanted)
        counter.count(found[0] == 1 and found[1] == b"", f"a faulty record: {found}")
        counter.count(compare("a faulty record", file, 1) is None, "a faulty record, by the second reading")


def main():
    first = int(sys.argv[1]) if len(sys.argv) > 1 else 1
    counter, sorts, tried = Counter(), collections.Counter(), 0
    for file in sorted([*INSPECTED.glob("*/scenario"), *WORKED.glob("*/scenario")]):
        why, _ = compare_run(file.parent.name, file.read_bytes(), random.Random(file.parent.name))
        counter.count(why is None, why)
    for file in sorted([*RECORDS.glob("*/record*"), *OTHER_LOCKS.glob("*/record"), *INSPECTED.glob("*/record")]):
        if is_record(file.read_bytes()) and many_of(file.read_bytes()) <= MOST_EVENTS:
            draws = random.Random(file.parent.name)
            for at in (None, draws.randint(0, many_of(file.read_bytes()))):
                why = compare(file.parent.name, file.read_bytes(), at)
                counter.count(why is None, why)
                sorts[sort_of(file.read_bytes(), at)] += many_of(file.read_bytes()) > 0
    faults(counter, b"record 1\nprocesses 2\n0 : call read a\n0 0.choosing.0.0 write 1\n")
    with workers() as pool:
        for number, wrong, more in pool.imap(compare_numbers, (range(at, at + CHUNK) for at in range(first, first + 4 * MANY, CHUNK))):
            sorts, tried = sorts + more, tried + number
            counter.add(2 * number - len(wrong), 0)
            for why in wrong:
                counter.count(False, why)
            if tried >= MANY:
                break
    counter.count(tried >= MANY, f"too few scenarios are short enough: {tried}")
    for sort in [*LAWS, GOOD, LATER]:
        counter.count(sorts[sort] > 0, f"no record has {sort}")
    counter.end()


if __name__ == "__main__":
    main()
