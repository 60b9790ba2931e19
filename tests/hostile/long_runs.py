"""Long runs: `replay` and `audit` make hundreds of millions of events, and `judge` reads a record of millions of entries from a
pipe.

The script computes the number of events, and the first and last lines of the output, independently of the program. At most 16 MiB
may be resident, in addition to the size of the file and 128 bytes for each command that was taken.
"""

import os
import subprocess
import tempfile
from typing import NamedTuple

from lib.places import PROGRAM
from lib.refusing import Refuser, met_in
from lib.running import Row

# the heading of the second column of the table
COLUMN = "Resident at most"
# the bound, in KiB, and the most bytes of the history that a command taken may have
ROOM, BYTES_OF_TAKEN = 16 * 1024, 128
# the Steps of one line
STEPS = 100_000


class Long(NamedTuple):
    """A file, and of its run: the lines that its text begins and ends with, the number of events, and of commands taken."""

    name: str
    text: str
    begins: str
    ends: str
    events: int
    taken: int


def waiting(lines):
    """One process stays inside, for which another one waits in all its steps. With 2 processes and 4 ticket bits the doorway has
    4 + 8 + 16 + 4 accesses, and the look at the other process 10."""
    text = "bakery 1\ncall 0 read a\ngo 0 inside\ncall 1 read a\n" + f"step 1 {STEPS}\n" * lines
    events = 43 + 1 + STEPS * lines
    begins = "0 0 call read a\n32 0 wait 1\n42 0 enter\n43 1 call read a\n75 1 wait 2\n"
    return Long("one process that waits", text, begins, f"end events {events} taken 0 refused 0\n", events, 0)


def adding(calls):
    """One of sixteen processes adds 1 to a counter again and again: each add is one event for the call and 64,926 Steps, the most
    that a call has which waits for nobody."""
    heads = "bakery 2\nprocesses 16\ntickets 32\nstamps 32\nslots 8\nopen a c:0\n"
    events = 64_927 * calls
    begins = "0 0 call add a 1\n2048 0 wait 1\n3038 0 enter\n"
    ends = f"{events - 1} 0 answer sum {calls}\nend events {events} taken {calls} refused 0\n"
    return Long("one process that adds", heads + "call 0 add a 1\ngo 0 idle\n" * calls, begins, ends, events, calls)


def is_whole(long, command, text):
    """Whether a command has printed what it must."""
    if command != "replay":
        return text == f"good {long.events}\n"
    # an add has six lines: its call, its ticket, in, taken, out, its answer
    counted = text.count("\n") == len(long.begins.splitlines()) + 1 if long.taken == 0 else text.count("\n") == 6 * long.taken + 1
    return text.startswith(long.begins) and text.endswith(long.ends) and counted


def bound(long, size):
    """The most KiB that may be resident."""
    return ROOM + (size + long.taken * BYTES_OF_TAKEN) // 1024


def long_run(refuser, folder, long, command):
    """A run, whose output and memory are as they must be."""
    file = folder / "long"
    file.write_text(long.text)
    ran, met = refuser.run([PROGRAM, command, file])
    wrong = []
    if (ran.returncode, ran.stderr) != (0, "") or not is_whole(long, command, ran.stdout):
        wrong.append(f"{ran.returncode}, {ran.stderr}, {ran.stdout[:400]} .. {ran.stdout[-400:]}")
    if not 0 < met.peak <= bound(long, len(long.text)):
        wrong.append(f"{met.peak} KiB are resident")
    return Row(f"`{command}` of {long.name}, {long.events:,} events", f"{met.peak:,} KiB", 1, wrong)


def long_record(refuser, folder, long):
    """A record that `judge` reads as `record` writes it."""
    file = folder / "long"
    file.write_text(long.text)
    with tempfile.NamedTemporaryFile(dir=folder) as written, tempfile.NamedTemporaryFile(dir=folder) as read:
        ours, end = os.pipe()
        with subprocess.Popen([PROGRAM, "record", file], stdout=end, env=refuser.under(written)) as record:
            os.close(end)
            judge = subprocess.run([PROGRAM, "judge", "-"], stdin=ours, capture_output=True, text=True, env=refuser.under(read))
            os.close(ours)
        peaks = met_in(written).peak, met_in(read).peak
    wrong = []
    if (record.returncode, judge.returncode, judge.stdout, judge.stderr) != (0, 0, f"good {long.events}\n", ""):
        wrong.append(f"{record.returncode}, {judge}")
    if not all(0 < peak <= bound(long, 0) for peak in peaks):
        wrong.append(f"{peaks} KiB are resident")
    what = f"`record` of {long.name}, piped to `judge`, {long.events:,} events"
    return Row(what, f"{peaks[0]:,} and {peaks[1]:,} KiB", 2, wrong)


def rows(_examples, folder, is_short):
    """In short a hundredth of the events."""
    refuser, part = Refuser(folder, 3600), 100 if is_short else 1
    for long in [waiting(2000 // part), adding(1990 // part)]:
        for command in ["replay", "audit"]:
            yield long_run(refuser, folder, long, command)
    yield long_record(refuser, folder, waiting(100 // part))
