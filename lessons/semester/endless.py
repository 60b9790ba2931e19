#!/usr/bin/env python3
"""Searches a lock for a starvation cycle: a process tries to enter and makes steps again and again, and never enters, while another one
enters in each round.

endless.py NAME [PROCESS] prints a run that leads to such a cycle, and the cycle twice, as a trace. NAME is a lock of
examples/other-locks/cell_locks.py, or FILE.py:NAME. The process that starves is 1 if none is named. If there is no cycle, the exit
status is 1. The memory is atomic, and calls are not counted: each process calls for ever. The marks `wait` are left out, so that
the judge has no order to check.

This is a search of two processes, and not a theorem.
"""

import argparse
import pathlib
import sys
from collections import deque

sys.path.append(str(pathlib.Path(__file__).resolve().parents[2] / "examples" / "other-locks"))

from alone import Alone
from cell_locks import atlas
from cell_search import CellSearch, head_of
from driver import Mistake
from search import lock_of


class Endless(Alone):
    """A process alone that calls for ever, so its calls are not counted."""

    def number(self, generator, item, sent, node):
        return super().number(generator, item, sent, node._replace(calls=0))


def endless(lock):
    """Returns a search of a lock whose processes call for ever, in atomic memory."""
    search = CellSearch(lock, "atomic", has_wait=False)
    search.processes = [Endless(lock, me, False) for me in range(lock.processes)]
    return search


def reached(first, steps):
    """Returns each state that runs lead to, with the state and the entry before it; those of the shortest runs first."""
    came, states = {first: None}, deque([first])
    while states:
        state = states.popleft()
        for entry, after in steps(state):
            if after not in came:
                came[after] = (state, entry)
                states.append(after)
    return came


def path_to(came, state):
    """Returns the entries of the shortest run to a state."""
    found = []
    while came[state]:
        state, entry = came[state]
        found.append(entry)
    return found[::-1]


def cycles(search, came, starving):
    """Yields the shortest cycle through each entry with which another process enters, if the starving one tries all the time and makes
    a step: the state with which it begins, and its entries."""
    tries = lambda state: search.stages(state)[starving] in ("doorway", "waiting")

    def steps(state_and_moved):
        state, has_moved = state_and_moved
        for entry, _, after in search.steps(state):
            if tries(after):
                yield entry, (after, has_moved or entry.me == starving)

    for state in filter(tries, came):
        for entry, _, after in search.steps(state):
            if "enter" in entry.marks and entry.me != starving:
                back = reached((after, False), steps)
                if (state, True) in back:
                    yield state, [entry, *path_to(back, (state, True))]


def trace_of(search, before, cycle):
    """Returns the trace of a run with a cycle, twice."""
    lines = [entry.line for entry in before]
    for turn in ("once", "again"):
        lines += [f"# The cycle, {turn}.", *(entry.line for entry in cycle)]
    return "".join(f"{line}\n" for line in [*head_of(search.lock, "atomic", search.registers()), *lines])


def main():
    parser = argparse.ArgumentParser(description=__doc__, formatter_class=argparse.RawDescriptionHelpFormatter)
    parser.add_argument("name", metavar="NAME")
    parser.add_argument("process", metavar="PROCESS", type=int, nargs="?", default=1)
    said = parser.parse_args()
    try:
        search = endless(lock_of(said.name, atlas())._replace(processes=2))
        if said.process not in (0, 1):
            raise Mistake("the processes are 0 and 1")
        came = reached(search.first(), lambda state: ((entry, after) for entry, _, after in search.steps(state)))
        found = min(cycles(search, came, said.process), key=lambda it: (len(it[1]), len(path_to(came, it[0]))), default=None)
    except Mistake as mistake:
        sys.exit(f"endless.py: {said.name}: {mistake}")
    if found is None:
        sys.exit(f"endless.py: {said.name}: process {said.process} starves in no cycle of {len(came):,} states")
    print(trace_of(search, path_to(came, found[0]), found[1]), end="")


if __name__ == "__main__":
    main()
