#!/usr/bin/env python3
"""Searches the locks of the atlas again, which have registers by their own names, and compares the results with docs/LOCKS.md.

The table of the page shows what is found of each lock in each memory. The second reading of traces and the program `bakerystore` find
that each run behind a number of the table breaks that law at its last entry, and `search.py --trace` prints such a run. The second
reading and the search agree on runs that are drawn at random, and on the values that a read may give at their end.
"""

import pathlib
import random
import re
import subprocess
import sys

sys.path.insert(0, str(pathlib.Path(__file__).resolve().parents[1]))

from lib.counting import Counter
from lib.places import OTHER_LOCKS
from lib.running import runner
from lock_search import check_stuck, entries_in, rows
from second.traces import judge_trace

sys.path.append(str(OTHER_LOCKS))
import cell_search
from cell_locks import atlas
from cell_search import LAWS, MEMORIES, CellSearch, NeedsAtomic

# an entry that ends a read: all but its value
READ = re.compile(r"(\d+ \S+ (?:get|value|swap \d+ gives|add \d+ gives|cas \d+ \d+ gives)) \d+$")
# how many runs are drawn of a lock, and of how many entries: the second reading takes the square of these
RUNS, ENTRIES = 12, 80
# the cells of a row
CELLS = 11
# a run that `search.py` prints
PRINTED = ("peterson-turn-first", "together", "atomic")


def by_second(text):
    return judge_trace(text.encode())[1].decode().strip()


def by_program(text):
    return runner().run(["judge", "-"], text.encode()).output.decode().strip()


def check_run(counter, what, law, text):
    """Whether the program and the second reading find a run bad at its last entry, by that law. A run to a stuck state may have
    another verdict."""
    found, count = by_program(text), entries_in(text)
    counter.compare(f"{what}, by the second reading", by_second(text), found)
    if law == "stuck":
        check_stuck(counter, what, found, count)
    else:
        counter.compare(what, found, f"bad {count - 1} {law}")


def found_traces(counter, name, lock, memory, results):
    """The shortest runs of a lock in a memory. Returns how many there are."""
    laws = [law for law in [*LAWS, "stuck"] if results.entries(law) is not None]
    for law in laws:
        text = cell_search.trace_of(lock, memory, results.registers, results.entries(law))
        check_run(counter, f"{name}, {law}, {memory}", law, text)
    return len(laws)


def drawn_traces(counter, name, lock):
    """Runs of a lock in each memory that it has."""
    for memory in MEMORIES:
        draws = random.Random(f"{name} {memory}")
        for _ in range(RUNS):
            search = CellSearch(lock, memory, has_wait=True)
            try:
                entries, steps, law = drawn(search, draws)
            except NeedsAtomic:
                break
            head = cell_search.head_of(lock, memory, search.registers())
            text = "".join(f"{line}\n" for line in [*head, *(entry.line for entry in entries)])
            said = f"bad {len(entries) - 1} {law}" if law else f"good {len(entries)}"
            counter.compare(f"{name}, {memory}, drawn", by_second(text), said)
            before = "".join(f"{line}\n" for line in [*head, *(entry.line for entry in entries[:-1])])
            counter.compare(f"{name}, {memory}, values", offered(steps), allowed(before, steps))


def drawn(search, draws):
    """The entries of a run, the entries that could be its last, and the law that the last one breaks, or None."""
    state, law, entries, steps = search.first(), None, [], []
    while len(entries) < ENTRIES and law is None and (found := [*search.steps(state)]):
        steps = [entry for entry, *_ in found]
        entry, law, state = draws.choice(found)
        entries.append(entry)
    return entries, steps, law


def offered(steps):
    """The reads among the entries that the search offers, without their marks."""
    return sorted(line for step in steps if READ.match(line := step.line.split(" : ")[0]))


def allowed(before, steps):
    """The reads that the second reading allows, of the values of up to three bits, where the search offers one of a cell."""
    places = {READ.match(line)[1] for line in offered(steps)}
    lines = [f"{place} {value}" for place in places for value in range(8)]
    refused = ("access", "memory")
    return sorted(line for line in lines if by_second(f"{before}{line}\n").split()[-1] not in refused)


def printed(name, law, memory):
    """Returns the trace that `search.py` prints."""
    words = [sys.executable, OTHER_LOCKS / "search.py", "--trace", law, "--memory", memory, name]
    return subprocess.run(words, capture_output=True, text=True).stdout


def main():
    counter, shown, runs = Counter(), rows(CELLS), 0
    counter.compare("docs/LOCKS.md, the locks of the atlas", [name for name in shown if name in atlas()], [*atlas()])
    for name, lock in atlas().items():
        found = [cell_search.results(lock, memory) for memory in MEMORIES]
        counter.compare(f"docs/LOCKS.md, {name} of the atlas", shown.get(name, ""), cell_search.row(name, lock, found))
        runs += sum(found_traces(counter, name, lock, memory, it) for memory, it in zip(MEMORIES, found) if it)
        drawn_traces(counter, name, lock)
    counter.count(runs, "the atlas has no run")
    name, law, memory = PRINTED
    check_run(counter, f"search.py --trace {law} {name}", law, printed(name, law, memory))
    print(f"the atlas: {runs} shortest runs", flush=True)
    counter.end()


if __name__ == "__main__":
    main()
