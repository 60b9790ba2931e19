"""A second reading of what ports leave: what lists of finished calls and a store at the end are to be.

The scripts that drive ports on threads read what is left into a `Left`, and ask for its verdict. Nothing here is shared with
the programs that they run.
"""

import copy
from dataclasses import dataclass, field

from second.store import Call, Store


@dataclass
class Left:
    """What the ports of one board have left: their lists of calls, and the store at the end as it was told; and what `drive` returned
    to each, where that was told."""

    version: int
    processes: int
    slots: int
    opening: list = field(default_factory=list)
    lists: list = field(default_factory=list)
    drives: list = field(default_factory=list)
    end: str = ""

    def add(self, process, place, command, answer):
        """One call more of a process."""
        own = self.lists[process]
        own.append(Call(process, len(own) + 1 if self.version == 2 else 0, place, command, answer))


def follow(left):
    """The stores, one after each change, and whether several calls would change the last one."""
    stores = [Store(left.slots, left.opening, [0] * left.processes if left.version == 2 else [])]
    while True:
        here = [call for calls in left.lists for call in calls if call.place == len(stores) - 1]
        changes = [call for call in here if stores[-1].is_changed_by(call)]
        if len(changes) != 1:
            return stores, len(changes) > 1
        stores.append(stores[-1].after(changes[0])[0])


def is_bad(call, earlier, stores, several):
    """Whether a call is bad, which has these calls before it in its list."""
    if not call.is_taken():
        return call.has_reply()
    last = len(stores) - 1
    if call.place > last or (call.answer is not None and not call.has_reply()):
        return True
    if several and call.place == last and stores[last].is_changed_by(call):
        return True
    for other in filter(Call.is_taken, earlier):
        is_change = other.place <= last and stores[other.place].is_changed_by(other)
        if call.place < other.place or (is_change and call.place == other.place):
            return True
    return call.has_reply() and call.answer != stores[call.place].after(call)[1]


def verdict(left, told):
    """`good`, or the first call that is bad, or `bad end`; `told` gives the store at the end as `left` has it."""
    stores, several = follow(left)
    for process, calls in enumerate(left.lists):
        for index, call in enumerate(calls):
            if is_bad(call, calls[:index], stores, several):
                return f"bad {process} {index}"
    return "good" if left.end == told(stores[-1]) else "bad end"


def are_returned(left):
    """Whether `drive` returned to each port just the answers in its list, in their order."""
    returned = [[driven for driven in drives if driven.startswith("answered ")] for drives in left.drives]
    return returned == [[f"answered {call.answer}" for call in calls if call.answer is not None] for calls in left.lists]


def changed(left):
    """Copies of what is good with one thing changed, each with its verdict: another reply, or another store at the end."""
    for process, calls in enumerate(left.lists):
        for index in (index for index, call in enumerate(calls) if call.has_reply()):
            other = copy.deepcopy(left)
            other.lists[process][index].answer = "another"
            yield other, f"bad {process} {index}"
    other = copy.deepcopy(left)
    other.end += "00"
    yield other, "bad end"
