"""A second reading of races: the texts of all orders of the calls of a file, over the one-thread store of `store.py`. And the texts
that a page shows beside one another.
"""

import itertools
import re

from second.store import Call, Store


def text_of(slots, opening, order):
    """What a race prints that takes these calls, each a process and a command, in this order, and none gives up."""
    numbers = [0] * (1 + max(process for process, _ in order))
    store, changes, lines = Store(slots, opening, numbers), 0, []
    for process, command in order:
        call = Call(process, 1 + sum(owner == process for owner, _ in lines), changes, command.split(), None)
        after, reply = store.after(call)
        lines.append((process, f"{process} {changes} {reply}"))
        changes += store.is_changed_by(call)
        store = after
    answers = [line for _, line in sorted(lines, key=lambda line: line[0])]
    return "".join(f"{line}\n" for line in [*answers, store.shown(), "good"])


def texts_of_orders(file):
    """Those of all orders of the calls of a file, in which each process's keep theirs."""
    slots = int((re.search(r"^slots (\d+)$", file, re.M) or [0, 1])[1])
    opening = re.findall(r"^open (\S+) (\S+)$", file, re.M)
    calls = [(int(process), command) for process, command in re.findall(r"^call (\d+) (.+)$", file, re.M)]
    plans = [[call for call in calls if call[0] == process] for process in range(1 + max(process for process, _ in calls))]
    texts = set()
    for owners in set(itertools.permutations([process for process, _ in calls])):
        turns = [iter(plan) for plan in plans]
        texts.add(text_of(slots, opening, [next(turns[process]) for process in owners]))
    return texts


def texts_beside(block):
    """The texts that stand beside one another in a block."""
    columns = zip(*(re.split(r" {2,}", line) for line in block.splitlines()), strict=True)
    return {"".join(f"{line}\n" for line in column) for column in columns}
