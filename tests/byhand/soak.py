#!/usr/bin/env python3
"""Draws files of every kind for the commands of the program, and compares what it writes with the independent implementations.

soak.py --hours H [--first N] [--jobs J] [--dir FOLDER] [--program PATH] [--kinds KIND,..]
soak.py --only KIND:NUMBER [--program PATH]

Each file is a function of its kind and its number. The kinds have fixed shares of the time:

  scenario       runs of scenarios: plain, replay, record, audit, calls, state
  long-scenario  scenarios of 2,500 to 100,000 events: replay, record, audit
  sweep          short scenarios: sweep
  bits           bits files: bits
  own-record     records of this lock, most of them with changed entries: judge with each option, calls, state
  record         records of any lock, good and bad: the same
  trace          traces, good, bad and faulty: judge with each option and with --explain, calls
  spoiled        all of these with changed bytes, words and lines: the commands that read them, and three others
  drawn-run, drawn-record, drawn-trace
                 pictures of runs, records and traces with all options of draw and draw-svg, read back
  race, board    races, and rounds of boards by the program `workloads`, as soak_races.py and soak_boards.py play them
  long           runs of up to 50 million events, with the memory that they take
  refused        runs in which allocations fail, of all these files
  streams        runs in which reads and writes fail, of all these files

`--hours H` plays for so many hours, by as many workers as there are cores or `--jobs`. It can be stopped at any time, by Ctrl-C
or by kill, and continues where it was: FOLDER, by default tests/byhand/soak/, has the next number of each kind and the totals.
`--first N` begins each kind at this number. With another program the totals begin anew, and the numbers continue. A file for
which the program differs is made shorter line by line, and kept in FOLDER/differences with both outputs. `--only` plays one
number and prints what differs; how threads meet is not drawn, so a race may go otherwise.

With `cc` and a proved program, each worker has one process that loads the program and starts each run in a copy of itself
(tests/preload/start.c). Runs with failures, long runs and races are new processes.

The totals are printed at the end and every ten minutes. The exit status is 1 if something has differed. The kinds `long`,
`refused` and `streams` need `cc`. With a program that is built without proof, `long` and `refused` are left out.
"""

import argparse
import os
import pathlib
import sys
import tempfile

TESTS = pathlib.Path(__file__).resolve().parents[1]
sys.path[:0] = [str(TESTS), str(TESTS / "gate")]

from lib import places


def words_of():
    parser = argparse.ArgumentParser(description=__doc__, formatter_class=argparse.RawDescriptionHelpFormatter)
    what = parser.add_mutually_exclusive_group(required=True)
    what.add_argument("--hours", type=float)
    what.add_argument("--only", metavar="KIND:NUMBER")
    parser.add_argument("--first", type=int)
    parser.add_argument("--jobs", type=int, default=len(os.sched_getaffinity(0)))
    parser.add_argument("--dir", type=pathlib.Path, default=TESTS / "byhand" / "soak")
    parser.add_argument("--program", type=pathlib.Path, default=places.PROGRAM)
    parser.add_argument("--kinds", type=lambda told: told.split(","), default=[])
    words = parser.parse_args()
    words.program = words.program.resolve()
    if not words.program.is_file():
        parser.error(f"{words.program} does not exist; `python3 tests/prove.py` proves the program, or name one by --program")
    return words


def play_one(plays, text_of, kind, number):
    """Plays one number of a kind, and prints what differs; whether nothing does."""
    total, found = plays.number(kind, number)
    for each in found:
        sys.stdout.write(f"{text_of(each)}\n== the shorter file ==\n{each.shorter.decode(errors='backslashreplace')}")
    print(f"{kind}:{number}: {total.tries} comparisons, {total.differ} differ")
    return not found


def begun(state, first, kinds):
    """The state in which each of these kinds begins at this number."""
    state.next |= dict.fromkeys(kinds, first)
    state.begun = [part for part in state.begun if part.kind not in kinds]


def main():
    words = words_of()
    # (the modules below take the program's path from `places` when they are loaded)
    places.PROGRAM = words.program
    from lib import running, soak_state, soaking
    from lib.drawn_plays import starting_library

    with tempfile.TemporaryDirectory() as folder:
        plays = soaking.Plays(pathlib.Path(folder), words.kinds)
        known = [*plays.shares, *plays.left_out]
        if words.only:
            kind, _, number = words.only.partition(":")
            if kind not in plays.shares or not number.isdigit():
                sys.exit(f"--only takes KIND:NUMBER with one of the kinds {', '.join(plays.shares)}")
            sys.exit(not play_one(plays, soak_state.text_of, kind, int(number)))
        if not plays.shares or any(kind not in known for kind in words.kinds):
            sys.exit(f"the kinds are {', '.join(known)}")
        for kind, why in plays.left_out.items():
            print(f"{kind} is left out: {why}", flush=True)
        running.LIBRARY, why = starting_library(pathlib.Path(folder))
        if why:
            print(f"each run starts the program anew: {why}", flush=True)
        words.dir.mkdir(parents=True, exist_ok=True)
        state = soak_state.read_state(words.dir, words.program)
        if words.first is not None:
            begun(state, words.first, plays.shares)
        sys.exit(not soaking.soak(plays, state, words.dir, words.jobs, words.hours))


if __name__ == "__main__":
    main()
