#!/usr/bin/env python3
"""Judges records by the laws that name no algorithm a second time, and compares.

`second/any_lock.py` looks back over the entries of a record. What it says must be what `bakerystore judge --any-lock` prints, with
`--why` and without: of 5,000 records that `lib/random_records.py` makes up, of the examples of examples/other-locks/, whose outputs
stand there too, and of the records of its file `refusals`, each of which is told there with its law and its refusal. Each law and
each refusal must be found among the records that are made up. One record more is told here: it has as many calls as a process makes
in version 2, and one more.

tests/gate/any_lock_second.py [NUMBER]: the first of the records that are made up, by default 1. The program is the one that `rt ci`
or `rt run` leaves in crates/bakerystore.
"""

import collections
import pathlib
import re
import sys

sys.path.insert(0, str(pathlib.Path(__file__).resolve().parents[1]))

from lib.counting import Counter
from lib.places import OTHER_LOCKS
from lib.random_records import record
from lib.running import runner, workers
from second.any_lock import any_lock

MANY, CHUNK = 5_000, 50
# the words of each file of an example; the options stand in any place
WORDS = {"any-lock": ["judge", "--any-lock", "-"], "any-lock-why": ["judge", "--why", "-", "--any-lock"]}
HEAD = ["record 1", "processes 2", "tickets 1", "stamps 1", "slots 1"]
VERDICTS = ["good", "safe", "access", "marks", "together", "overtaken", "history"]
REFUSALS = ["no-process", "no-bit", "not-owner", "not-reader", "not-settling", "not-running", "not-open", "access-open", "not-torn"]
REFUSALS += ["torn", "nothing", "not-alone", "busy", "is-down", "already-failed", "not-waiting", "not-down", "not-in-doorway"]
REFUSALS += ["not-inside", "taken-before", "not-leaving", "was-withdrawn", "other-reply", "not-taken", "not-withdrawn", "still-inside"]
# a call of a lone process, which fails before its first access, and starts again
CUT_CALL = ["0 : call ask", "0 : fail", "0 0.ticket.0.0 write 0", "0 0.ticket.0.0 end", "0 0.choosing.0.0 write 0"]
CUT_CALL += ["0 0.choosing.0.0 end : down", "0 : restart"]
MOST_CALLS = 65_535
TOO_MANY = ["bad 458745 marks", "line 458750", "is 0 : call ask", "refused calls-full", "stage idle"]


def text_of(lines):
    return "".join(f"{line}\n" for line in lines).encode()


def by_second(text):
    """What the second reading says, by the files of an example; the reasons stand behind the verdict."""
    status, told, errors = any_lock(text, why=True)
    return {"any-lock": (status, told[: told.find(b"\n") + 1], errors), "any-lock-why": (status, told, errors)}


def by_program(text):
    return {name: tuple(runner().run(words, text)) for name, words in WORDS.items()}


def found_in(reasons):
    """The verdict and the refusal that reasons tell."""
    words, refused = reasons.decode().split(), re.findall(r"^refused (\S+)$", reasons.decode(), re.M)
    return [("verdict", words[2] if words[0] == "bad" else words[0]), *(("refusal", name) for name in refused)]


def compare_numbers(numbers):
    """What is found in the records of these numbers, and where the program says otherwise than the second reading."""
    found, wrong = collections.Counter(), []
    for number in numbers:
        text = record(number)
        again, told = by_second(text), by_program(text)
        found.update(found_in(again["any-lock-why"][1]))
        if told != again:
            wrong.append(f"record {number}: {told}, and the second reading has {again}")
    return found, wrong


def made_up_records(counter, pool, first):
    parts = [range(at, at + CHUNK) for at in range(first, first + MANY, CHUNK)]
    found = collections.Counter()
    for more, wrong in pool.imap_unordered(compare_numbers, parts):
        found += more
        counter.add(CHUNK - len(wrong), 0)
        for why in wrong:
            counter.count(False, why)
    print(", ".join(f"{what} {count:,}" for (_, what), count in sorted(found.items())), flush=True)
    for what in [*(("verdict", name) for name in VERDICTS), *(("refusal", name) for name in REFUSALS)]:
        counter.count(found[what], f"no record that is made up has this {what[0]}: {what[1]}")


def kept(folder, name):
    """The status, the output and the errors that an example tells."""
    content = lambda end, default: path.read_bytes() if (path := folder / f"{name}{end}").exists() else default
    return int(content(".status", b"0")), content("", None), content(".err", b"")


def kept_records(counter):
    """The examples, by the second reading and by the program."""
    folders = sorted(path.parent for path in OTHER_LOCKS.glob("*/record"))
    counter.count(folders, "no examples stand in examples/other-locks")
    for folder in folders:
        text, wanted = (folder / "record").read_bytes(), {name: kept(folder, name) for name in WORDS}
        counter.compare(f"{folder.name}, by the second reading", by_second(text), wanted)
        counter.compare(f"{folder.name}, by the program", by_program(text), wanted)


def told_refusals(counter):
    """The records of the file `refusals`: a block is a law, a refusal and entries, of which the last is the bad one."""
    blocks = re.sub(r"^#.*\n", "", (OTHER_LOCKS / "refusals").read_text(), flags=re.M).strip().split("\n\n")
    for block in blocks:
        told, *lines = block.split("\n")
        law, refusal = told.split(" ")
        text = text_of(HEAD + lines)
        again, by_it = by_second(text), by_program(text)
        reasons = again["any-lock-why"][1].decode().splitlines()
        counter.compare(f"{told} of {lines[-1]}", (reasons[0], f"refused {refusal}" in reasons), (f"bad {len(lines) - 1} {law}", True))
        counter.compare(f"{told} of {lines[-1]}, by the program", by_it, again)


def too_many_calls(counter):
    lines = ["record 2", "processes 1", "tickets 1", "stamps 1", *CUT_CALL * MOST_CALLS, CUT_CALL[0]]
    told = tuple(runner().run(WORDS["any-lock-why"], text_of(lines)))
    counter.compare("a call too many", told, (3, text_of(TOO_MANY), b""))


def main():
    counter, first = Counter(), int(sys.argv[1]) if len(sys.argv) > 1 else 1
    with workers() as pool:
        made_up_records(counter, pool, first)
    for part in [kept_records, told_refusals, too_many_calls]:
        part(counter)
    counter.end()


if __name__ == "__main__":
    main()
