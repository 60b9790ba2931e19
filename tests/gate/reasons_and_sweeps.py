#!/usr/bin/env python3
"""Judges records with `judge --why`, and sweeps short scenarios, a second time, and compares.

`second/reasons.py` judges a record by the laws of this project's lock, and finds the reasons of a bad verdict. What it says must be what
`bakerystore judge` prints, with `--why` and without: of records of runs of `lib/random_scenarios.py`, in which entries are changed, an
event is added, or a command has another place; and of 1,000 records by `lib/random_records.py`. Each law that can be broken first and
each refusal must be found among them, except `calls-full`, which takes 65,535 calls. `second/sweeps.py` sweeps 60 short scenarios, of
which the output of `bakerystore sweep` must be the same.

tests/gate/reasons_and_sweeps.py [NUMBER]: the first of the files that are made up, by default 1. The program is the one that `rt ci` or
`rt run` leaves in crates/bakerystore.
"""

import collections
import pathlib
import random
import re
import sys

TESTS = pathlib.Path(__file__).resolve().parents[1]
sys.path[:0] = [str(TESTS), str(TESTS / "gate")]

from lib.counting import Counter
from lib.drawn_files import own_record
from lib.random_records import record
from lib.random_scenarios import short_scenario
from lib.running import runner, workers
from lib.wanted import wanted

MANY, SWEPT, CHUNK = 1_000, 60, 20
# a record of a run that has more lines is left out
MOST_LINES = 1_500
EVENTS = [b"call ask", b"fail", b"withdraw", b"restart"]
WORDS = [("judge",), ("judge", "--why")]
# `together` and `overtaken` are broken only by an entry that breaks `program` first
VERDICTS = ["good", "safe", "program", "unit", "history"]
REFUSALS = ["no-process", "not-running", "not-alone", "busy", "is-down", "already-failed", "not-waiting", "not-down"]


def with_event(number):
    """The record of a run with changed entries, and with an event somewhere."""
    draws, text = random.Random(number), own_record(number)
    if text is None:
        return None
    lines = text.splitlines()
    head = sum(not line[:1].isdigit() for line in lines)
    lines.insert(draws.randint(min(head, len(lines)), len(lines)), b"%d : %b" % (draws.randrange(2), draws.choice(EVENTS)))
    return b"".join(line + b"\n" for line in lines)


def misplaced(number):
    """The record of a run with changed entries, of which a command is taken at the next place."""
    text = own_record(number)
    return text and re.sub(rb"taken (\d+)", lambda found: b"taken %d" % (int(found[1]) + 1), text, count=1)


def records(first):
    """The numbers of the records, each with what makes it."""
    for make, many in [(own_record, MANY), (with_event, MANY), (misplaced, MANY // 2), (record, MANY)]:
        yield from ((make, number) for number in range(first, first + many))


def differing(words, text):
    """What the program and the second reading write of a file, if it is not the same."""
    told, again = runner().run([*words, "-"], text), wanted(words, text)
    return None if told == again else f"{' '.join(words)}: {told}, and the second reading has {again}"


def compare_records(jobs):
    """How many records were judged, what is wrong with these, and the verdicts and refusals that are found."""
    tried, wrong, found = 0, [], collections.Counter()
    for make, number in jobs:
        text = make(number)
        if text is None or text.count(b"\n") > MOST_LINES:
            continue
        tried += 1
        wrong += [f"{make.__name__} {number}, {why}" for words in WORDS if (why := differing(words, text))]
        told = wanted(WORDS[1], text).output.decode()
        found.update([told.split()[2] if told.startswith("bad") else told.split()[0], *re.findall(r"^refused (\S+)$", told, re.M)])
    return tried, wrong, found


def compare_sweep(number):
    why = differing(("sweep",), short_scenario(number).encode())
    return why and f"short scenario {number}, {why}"


def main():
    first = int(sys.argv[1]) if len(sys.argv) > 1 else 1
    counter, found, jobs = Counter(), collections.Counter(), list(records(first))
    with workers() as pool:
        for tried, wrong, more in pool.imap(compare_records, (jobs[at : at + CHUNK] for at in range(0, len(jobs), CHUNK))):
            found += more
            counter.add(len(WORDS) * tried - len(wrong), 0)
            for why in wrong:
                counter.count(False, why)
        for why in pool.imap(compare_sweep, range(first, first + SWEPT)):
            counter.count(why is None, why)
    for what in [*VERDICTS, *REFUSALS]:
        counter.count(found[what], f"no record that is made up has this: {what}")
    counter.end()


if __name__ == "__main__":
    main()
