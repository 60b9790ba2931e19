#!/usr/bin/env python3
"""Searches a lock on a machine with store buffers, as TSO has them (x86), for a run in which two processes are inside together.

store_buffers.py NAME .. prints a line for each lock: the number of entries of a shortest such run, or `none` and the number of states.
store_buffers.py --trace NAME prints the run as a trace, which `bakerystore judge` reads. NAME is a lock of
examples/other-locks/cell_locks.py, or FILE.py:NAME.

The machine: a write goes into the buffer of its process, which is first in, first out. At any time the oldest write of a buffer may
reach memory. A read takes the newest value of its cell in the own buffer, or else the value in memory. A read-modify-write waits
until the own buffer is empty, and takes effect in memory at once; so it is a fence, too. In the trace a write is at the position at
which it reaches memory, and a comment is where the program made it. Each process makes one call, or as many as --calls states.

This is a model of one machine that reorders. The program bakerystore has no store buffers, and nothing of this is proved.
"""

import argparse
import pathlib
import sys
from collections import deque
from typing import NamedTuple

sys.path.append(str(pathlib.Path(__file__).resolve().parents[2] / "examples" / "other-locks"))

from cell_locks import atlas
from cell_search import CellSearch, Entry, head_of, replaced
from driver import Mistake
from search import lock_of


class State(NamedTuple):
    """A state of each process, the cells in one number, and the writes in each buffer, the oldest first."""

    at: tuple
    cells: int
    buffers: tuple


class Buffered:
    """All runs of a lock on the machine."""

    def __init__(self, lock):
        self.memory = CellSearch(lock, "atomic", has_wait=False)
        self.processes = self.memory.processes
        self.first = State((0,) * lock.processes, 0, ((),) * lock.processes)

    def steps(self, state):
        """Yields what may happen next: its lines in a trace, whether two processes are inside then, and the state after it."""
        for me in range(len(self.processes)):
            if state.buffers[me]:
                yield self.flushed(state, me)
            if not self.processes[me].is_over(state.at[me]):
                yield from self.moves(state, me)

    def flushed(self, state, me):
        """Returns how the oldest write of a buffer reaches memory."""
        (cell, value), *others = state.buffers[me]
        after = State(state.at, self.memory.with_stored(state.cells, cell, value), replaced(state.buffers, me, tuple(others)))
        return [Entry(me, f"{cell} set {value}", ()).line], False, after

    def moves(self, state, me):
        """Yields each step of the program of a process, which may have to wait for its buffer."""
        access, buffer, cells = self.processes[me].nodes[state.at[me]].access, state.buffers[me], state.cells
        if access is None:
            yield self.stepped(state, me, "", None, cells, buffer)
        elif access.is_write:
            self.memory.place(access.cell)
            comment = f"# {me} {access.text}, into the buffer"
            yield self.stepped(state, me, "", None, cells, (*buffer, (access.cell, access.numbers[0])), [comment])
        elif access.is_read:
            own = [value for cell, value in buffer if cell == access.cell]
            value = own[-1] if own else self.memory.stored(cells, access.cell)
            words = f"{access.cell} get {value}"
            yield self.stepped(state, me, words, value, cells, buffer, [f"# {me} {words}, from the buffer"] if own else [])
        elif not buffer:
            cells, old = self.memory.changed(cells, access)
            words = " ".join(map(str, [access.cell, access.move, *access.numbers, "gives", old]))
            yield self.stepped(state, me, words, old, cells, buffer)

    def stepped(self, state, me, words, value, cells, buffer, comments=()):
        """Returns a step of the program, and whether two processes are inside after it. What a buffer keeps to itself is a comment."""
        step = self.processes[me].step(state.at[me], value)
        entry = Entry(me, "" if comments else words, step.marks)
        lines = [*comments, entry.line] if entry.access or entry.marks else [*comments]
        after = State(replaced(state.at, me, step.to), cells, replaced(state.buffers, me, buffer))
        inside = [it for it, process in enumerate(self.processes) if process.nodes[after.at[it]].stage == "inside"]
        return lines, len(inside) > 1, after


def shortest(lock):
    """Returns the lines of a shortest run in which two processes are inside, or None, the registers, and the number of states."""
    machine = Buffered(lock)
    came, states = {machine.first: None}, deque([machine.first])
    while states:
        state = states.popleft()
        for lines, is_bad, after in machine.steps(state):
            if is_bad:
                return [*lines_to(came, state), *lines], machine.memory.registers(), len(came)
            if after not in came:
                came[after] = (state, lines)
                states.append(after)
    return None, machine.memory.registers(), len(came)


def lines_to(came, state):
    """Returns the lines of the run that led to a state."""
    found = []
    while came[state]:
        state, lines = came[state]
        found = [*lines, *found]
    return found


def main():
    parser = argparse.ArgumentParser(description=__doc__, formatter_class=argparse.RawDescriptionHelpFormatter)
    parser.add_argument("--trace", action="store_true", help="prints a shortest run")
    parser.add_argument("--calls", type=int, default=1, help="calls of each process; 1 if not stated")
    parser.add_argument("names", metavar="NAME", nargs="+")
    said = parser.parse_args()
    for name in said.names:
        try:
            lock = lock_of(name, atlas())._replace(calls=said.calls)
            lines, registers, states = shortest(lock)
        except Mistake as mistake:
            sys.exit(f"store_buffers.py: {name}: {mistake}")
        if said.trace and lines:
            print(*head_of(lock, "atomic", registers), *lines, sep="\n")
            continue
        entries = [line for line in lines or [] if line[0].isdigit()]
        print(f"{name.rpartition(':')[2]}: {f'together after {len(entries)} entries' if lines else f'none in {states:,} states'}")


if __name__ == "__main__":
    main()
