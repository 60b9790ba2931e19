#!/usr/bin/env python3
"""How `./run` runs the proved program: with the same words, on several files one after the other, and with nothing of its own
beside what the program writes. Without `rt` it says what is missing.

It needs the program that `tests/all.py` or `rt run` leaves: one that `./run` knows to be proved.
"""

import os
import pathlib
import subprocess
import sys
import tempfile

sys.path.insert(0, str(pathlib.Path(__file__).resolve().parents[1]))

from lib.counting import Counter
from lib.places import PROGRAM, TOP

EXAMPLES = TOP / "examples"
FILES = ["torn-commit.bakery", "typing-error.bakery", "counters.bakery", "is-not-there"]
SCENARIO = b"bakery 1\ncall 0 add a 1\n"
# words, and how they are cut into runs of the program
RUNS = [
    (["replay", *FILES], [["replay", file] for file in FILES]),
    (["--quiet", "audit", *FILES[2:0:-1]], [["--quiet", "audit", file] for file in FILES[2:0:-1]]),
    (["plain", "-", FILES[0]], [["plain", "-"], ["plain", FILES[0]]]),
    (["state", "--at", "9", *FILES[:2]], [["state", "--at", "9", file] for file in FILES[:2]]),
    (["plain", "--", FILES[0], "-"], [["plain", "--", FILES[0]], ["plain", "--", "-"]]),
    *((words, [words]) for words in ([], ["--version"], ["help", "replay"], ["replay"], ["rplay", "-"], ["record", FILES[0]])),
]


def ended(words, text=SCENARIO, **named):
    ran = subprocess.run(words, input=text, cwd=EXAMPLES, capture_output=True, **named)
    return ran.returncode, ran.stdout, ran.stderr


def wanted(runs):
    """What the program writes in all these runs, and the first status that is not 0."""
    each = [ended([PROGRAM, *words]) for words in runs]
    status = next((status for status, _, _ in each if status), 0)
    return status, b"".join(output for _, output, _ in each), b"".join(errors for _, _, errors in each)


def main():
    counter = Counter()
    for words, runs in RUNS:
        counter.compare(words, ended([TOP / "run", *words]), wanted(runs))
    with tempfile.TemporaryDirectory() as folder:
        status, output, errors = ended([sys.executable, TOP / "run", "replay", FILES[0]], env={**os.environ, "PATH": folder})
    counter.compare("without rt", (status, output, errors.count(b"\n"), b"`rt`" in errors), (125, b"", 1, True))
    counter.end()


main()
