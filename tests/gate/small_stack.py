#!/usr/bin/env python3
"""Runs each command with the smallest stack for which INSTALL.md states that it suffices, on the examples and on a scenario with the
largest setup.

Each run must end and write as it does without this limit. For a race only the status is compared, because its output is not a function
of its file. No run may end by a signal, which is how the system ends a program whose stack is exhausted.

small_stack.py --least prints for each command the smallest stack, in steps of 4 KiB, with which all its runs do so. The largest of
these, with some room, is the number for INSTALL.md. The environment of a process lies on its stack too, so each run has a small one.
"""

import concurrent.futures
import functools
import pathlib
import re
import subprocess
import sys
import tempfile
from typing import NamedTuple

sys.path.insert(0, str(pathlib.Path(__file__).resolve().parents[1]))

from lib.counting import Counter
from lib.places import OTHER_LOCKS, PROGRAM, TOP
from lib.running import COMMANDS, CORES, Ran, files_of

LIMIT = re.compile(r"`ulimit -s (\d+)`")
SECONDS = 120
# in KiB: the steps of `--least`, and a stack with which each run ends
STEP, MOST = 4, 1024
ENVIRONMENT = {"PATH": "/usr/bin:/bin"}
# the words of `sh` before a limit, the program and its words
LIMITED = ["sh", "-c", 'ulimit -s "$0" && exec "$@"']
WIDEST = """bakery 2
processes 16
tickets 32
stamps 32
slots 8
open abcdefgh t:0123456789ab
call 15 write abcdefgh t:0123456789ab
step 15 40
call 3 add zyxwvuts 1
step 3 40
fail 3
go 3 down
restart 3
"""
# a sweep of the largest setup takes long
NOT_WIDEST = ("sweep", "bits", "judge")
# the examples that are read by other words than those of `COMMANDS`: a name, the words and the files
OPTIONS = [
    ("judge --any-lock --why", ["judge", "--any-lock", "--why"], OTHER_LOCKS, "*/record"),
    ("draw-svg --any-lock", ["draw-svg", "--any-lock"], OTHER_LOCKS, "*/record"),
    ("judge --why of a trace", ["judge", "--why"], TOP / "examples" / "traces", "*/trace"),
    ("calls of a trace", ["calls"], TOP / "examples" / "traces", "*/trace"),
    ("draw-svg of a trace", ["draw-svg"], TOP / "examples" / "traces", "*/trace"),
]


class Call(NamedTuple):
    """A call of the program: the command for which it is counted, and its words."""

    command: str
    words: tuple

    def shown(self, ran):
        """What is compared of a run: all of it, or the status of a race."""
        return ran.status if self.command == "race" else ran


def calls(widest):
    """The calls of each command on its files, among them one with the largest setup."""
    for command in COMMANDS:
        words = command.split()
        files = [*files_of(command, TOP / "examples"), *([] if command in NOT_WIDEST else [widest])]
        yield from (Call(command, (*words, file)) for file in files)
        if command in ("draw", "draw-svg"):
            yield from (Call(f"{command} --accesses", (*words, "--accesses", file)) for file in files)
    for name, words, folder, files in OPTIONS:
        yield from (Call(name, (*words, file)) for file in sorted(folder.glob(files)))


def run(words):
    """How a run of some words ends, and what it writes."""
    ran = subprocess.run(words, stdin=subprocess.DEVNULL, capture_output=True, timeout=SECONDS, env=ENVIRONMENT)
    return Ran(ran.returncode, ran.stdout, ran.stderr)


@functools.cache
def usual(call):
    """What is compared of a run without the limit."""
    return call.shown(run([PROGRAM, *call.words]))


def fault(call, kib):
    """What is wrong with a run with this stack, or None."""
    ran = run([*LIMITED, str(kib), PROGRAM, *call.words])
    if ran.status < 0:
        return f"it ends by signal {-ran.status}"
    return None if call.shown(ran) == usual(call) else f"it ends with {str(ran)[:300]}"


def least(called):
    """The smallest stack with which all these calls end as usual, or None if `MOST` does not suffice."""
    if any(fault(call, MOST) for call in called):
        return None
    low, high = 0, MOST
    while high - low > STEP:
        middle = (low + high) // 2 // STEP * STEP
        low, high = (middle, high) if any(fault(call, middle) for call in called) else (low, middle)
    return high


def print_least(pool, found):
    """Prints the smallest stack of each command, and the largest of these."""
    commands = list(dict.fromkeys(call.command for call in found))
    stacks = pool.map(least, [[call for call in found if call.command == command] for command in commands])
    largest = 0
    for command, kib in zip(commands, stacks):
        largest = max(largest, kib or MOST)
        print(f"{command}: {f'{kib} KiB' if kib else f'more than {MOST} KiB'}", flush=True)
    print(f"the largest: {largest} KiB")


def main():
    limit, counter = LIMIT.search((TOP / "INSTALL.md").read_text()), Counter()
    with tempfile.TemporaryDirectory() as folder, concurrent.futures.ThreadPoolExecutor(CORES) as pool:
        widest = pathlib.Path(folder) / "widest.bakery"
        widest.write_text(WIDEST)
        found = list(calls(widest))
        if sys.argv[1:] == ["--least"]:
            print_least(pool, found)
            return
        counter.count(limit, "INSTALL.md does not state which stack suffices")
        if limit:
            for call, why in zip(found, pool.map(lambda call: fault(call, int(limit[1])), found)):
                counter.count(not why, f"{call.command} {call.words[-1]} with `ulimit -s {limit[1]}`: {why}")
    counter.end()


main()
