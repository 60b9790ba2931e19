#!/usr/bin/env python3
"""Cuts a file after each of its bytes, and replays what is left, by the proved program that `rt ci` or `rt run` leaves.

The file is that of the worked example in which a process fails while its commit bit is torn, its memory unit settles it,
and another process reads what it wrote. A cut gives a fault of its last line, or a front of the marks of the whole file
and the numbers of a run up to there.
"""

import pathlib
import subprocess
import sys

sys.path.insert(0, str(pathlib.Path(__file__).resolve().parents[1]))

from lib.counting import Counter
from lib.places import PROGRAM, WORKED

WHOLE = WORKED / "failure-commit-settled-new"

# (the last of some cuts, by the bytes that are left; the fault of these, or: the bytes of the whole text that are
# printed, the events that are accepted, the commands that are taken)
CUTS = [
    (7, "1: not-first"),
    (9, 0, 0, 0),
    (15, "2: unknown"),
    (17, "2: words"),
    (19, 0, 0, 0),
    (24, "3: unknown"),
    (26, "3: words"),
    (28, 0, 0, 0),
    (31, "4: unknown"),
    (35, "4: words"),
    (39, "4: unknown"),
    (43, "4: words"),
    (45, "4: bad-value"),
    (47, 21, 1, 0),
    (50, "5: unknown"),
    (54, "5: words"),
    (55, 21, 2, 0),
    (56, 21, 12, 0),
    (57, 44, 116, 0),
    (59, 44, 1153, 0),
    (62, "6: unknown"),
    (64, "6: words"),
    (66, 56, 1154, 0),
    (70, "7: unknown"),
    (72, "7: words"),
    (74, 56, 1154, 0),
    (75, "8: unknown"),
    (79, "8: words"),
    (82, "8: unknown"),
    (84, 118, 1170, 1),
    (87, "9: unknown"),
    (91, "9: words"),
    (94, "9: unknown"),
    (96, "9: words"),
    (98, 137, 1171, 1),
    (99, "10: unknown"),
    (103, "10: words"),
    (106, "10: unknown"),
    (108, 226, 1585, 2),
]


def main():
    file, text = (WHOLE / "scenario").read_bytes(), (WHOLE / "replay").read_text()
    assert CUTS[-1][0] == len(file)
    counter, cut = Counter(), 0
    for last, *gives in CUTS:
        for left in range(cut, last + 1):
            ran = subprocess.run([PROGRAM, "replay", "-"], input=file[:left], capture_output=True)
            if len(gives) == 1:
                expected = (1, "", f"line {gives[0]}\n")
            else:
                front, events, taken = gives
                expected = (0, f"{text[:front]}end events {events} taken {taken} refused 0\n", "")
            counter.compare(f"cut after {left} bytes", (ran.returncode, ran.stdout.decode(), ran.stderr.decode()), expected)
        cut = last + 1
    counter.end()


main()
