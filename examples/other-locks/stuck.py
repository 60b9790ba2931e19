"""Counts the states of a search from which not all calls can end, and shows how far a search is."""

import sys
import time
from typing import NamedTuple

# a search shows at a terminal how far it is after so many seconds, and looks at the clock after so many states
PATIENCE, STEP = 2, 4096


class Stuck(NamedTuple):
    """The number of stuck states, the number of all states, and the entries of a shortest run to a stuck one, or None."""

    count: int
    states: int
    entries: list | None


def explored(states):
    """Yields the position of each state of a list that grows, and the state. A long search shows at a terminal how far it is."""
    begun, is_shown = time.monotonic(), False
    try:
        for at, state in enumerate(states):
            if at % STEP == STEP - 1 and sys.stderr.isatty() and time.monotonic() - begun > PATIENCE:
                print(f"\r{at + 1:,} of {len(states):,} states explored", end="", file=sys.stderr, flush=True)
                is_shown = True
            yield at, state
    finally:
        if is_shown:
            print("\r\033[K", end="", file=sys.stderr, flush=True)


def states_stuck(first, steps, has_ended):
    """Returns the states from which no run leads to the end of all calls. `steps` yields the entries that may follow a state, each
    with the state after it."""
    number, states, came, before = {first: 0}, [first], [None], [[]]
    for at, state in explored(states):
        for entry, after in steps(state):
            if after not in number:
                number[after] = len(states)
                states.append(after)
                came.append((at, entry))
                before.append([])
            before[number[after]].append(at)
    can_end = [has_ended(state) for state in states]
    reached = [at for at, ends in enumerate(can_end) if ends]
    for at in reached:
        for earlier in before[at]:
            if not can_end[earlier]:
                can_end[earlier] = True
                reached.append(earlier)
    # the states come by the length of the shortest run to each
    shortest = next((at for at, ends in enumerate(can_end) if not ends), None)
    return Stuck(can_end.count(False), len(states), None if shortest is None else entries_to(came, shortest))


def entries_to(came, at):
    """Returns the entries of the run that led to a state."""
    found = []
    while came[at]:
        at, entry = came[at]
        found.append(entry)
    return found[::-1]
