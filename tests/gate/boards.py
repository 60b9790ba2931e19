#!/usr/bin/env python3
"""Ports of boards, by turns on one thread and on threads of their own.

Each line of examples/boards/turns is `TEXT -> WRITTEN`, as those of examples/short/ are: what the part `rounds` of the program
`workloads` writes where all lines of this scenario are carried out by turns, or `open`, where it leaves a call open. WRITTEN has
what each call of `drive` returned. A second reading, `second/finished_calls.py`, has to find it good.

On threads sixteen ports add to one counter. Which lists they leave the threads decide, so that sums are counted, and the second
reading judges. The program is the one that `rt ci` or `rt run` leaves in crates/workloads.
"""

import pathlib
import sys

sys.path.insert(0, str(pathlib.Path(__file__).resolve().parents[1]))

from gate.short_files import bytes_of
from lib.counting import Counter
from lib.places import TOP
from lib.rounds import OPEN, play, read_round
from second.finished_calls import are_returned, verdict
from second.store import Store

TURNS = TOP / "examples" / "boards" / "turns"
PORTS = 16
# what port 0 does alone, by turns
ALONE = "call 0 write a c:0\ngo 0 idle\n"
ADDS = "".join(f"call {process} add a 1\ngo {process} idle\n" for process in range(PORTS))
# there are 17 changes, and overlapped bits are read as 0: 6 bits hold the stamps and the tickets
SIXTEEN = f"bakery 2\nprocesses {PORTS}\ntickets 6\nstamps 6\n{ALONE}{ADDS}"
# the first pair of the image, in which `a` counts the additions
COUNTED = f"0101610000000000000008{PORTS:016x}00000000"


def turns():
    """The scenarios that are told, each with what it leaves; None, where that is an open call."""
    for line in TURNS.read_text().splitlines():
        if line and not line.startswith("#"):
            text, _, written = line.rpartition(" -> ")
            yield bytes_of(text).decode(), None if written == "open" else bytes_of(written).decode()


def read_again(left):
    """Whether a second reading finds a text good that ports leave by turns, `drive` having returned the answers of their lists."""
    told, weighed = read_round(left.splitlines())
    return verdict(told, Store.image) == "good" and weighed in (None, "good") and are_returned(told)


def compare_turns(counter):
    for text, left in turns():
        ran = play(text, text.count("\n"))
        if left is None:
            counter.count((ran.returncode, ran.stdout) == (1, "") and OPEN in ran.stderr, f"{text}: {ran}")
        else:
            counter.compare(text, (ran.returncode, ran.stdout), (0, left))
            counter.count(read_again(left), f"{text}: a second reading finds it bad: {left}")


def has_all_sums(told):
    """Whether port 0 was answered by turns, and each port's addition has a sum, which the counter has."""
    adds = [call for calls in told.lists for call in calls if call.command[0] == "add"]
    sums = sum((call.answer or "").startswith("sum ") for call in adds)
    return told.drives[0] == ["answered done"] and len(adds) == sums == PORTS and told.end.startswith(COUNTED)


def add_on_threads(counter):
    ran = play(SIXTEEN, ALONE.count("\n"))
    if ran.returncode != 0:
        return counter.count(False, f"sixteen threads: no round: {ran}")
    told, _ = read_round(ran.stdout.splitlines())
    found = verdict(told, Store.image)
    counter.count(found == "good" and has_all_sums(told), f"sixteen threads: {found}: {ran.stdout}")


def main():
    counter = Counter()
    compare_turns(counter)
    add_on_threads(counter)
    counter.end()


if __name__ == "__main__":
    main()
