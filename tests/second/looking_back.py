"""What is found by looking back over the entries of a record, for the laws that name no algorithm.

The past keeps lists of the entries: those of a process and of a bit, and the marks, the calls and the failures of a process. Each thing
is looked up in these lists from the newest entry back, as the page on records states it. It shares nothing with the programs that it is
held against.
"""

import collections
from typing import NamedTuple

from second.store import Call

RUNNING = ("doorway", "waiting", "inside", "leaving")
# the stage that a mark makes; the mark `leave` of a process that is settling makes none
STAGES = {"call": "doorway", "wait": "waiting", "enter": "inside", "leave": "leaving", "answer": "idle", "fail": "settling"}
STAGES |= {"down": "down", "withdraw": "leaving", "restart": "idle"}


class Part(NamedTuple):
    """A part of an entry: its access, or one of its marks. The access comes before the marks, and these one after the other."""

    entry: int
    process: int
    bit: tuple | None
    words: tuple

    def is_mark(self, word):
        return self.bit is None and self.words[0] == word

    def is_move(self, *words):
        return self.bit is not None and self.words[0] in words


class Past:
    """The parts of the entries before, and what is found by looking back over them."""

    def __init__(self, setup):
        self.setup = setup
        self.of_process, self.marks, self.of_bit = (collections.defaultdict(list) for _ in range(3))
        # where the calls and the failures of a process are among its parts
        self.calls, self.failures, self.taken = collections.defaultdict(list), collections.defaultdict(list), []

    def add(self, part):
        own = self.of_process[part.process]
        if part.bit:
            self.of_bit[part.bit].append(part)
        else:
            self.marks[part.process].append(part)
            if part.is_mark("call"):
                self.calls[part.process].append(len(own))
            elif part.is_mark("fail"):
                self.failures[part.process].append(len(own))
            elif part.is_mark("taken"):
                self.taken.append((self.call_made(part.process), " ".join(part.words[2:])))
        own.append(part)

    def drop(self, part):
        """Takes the newest part away."""
        self.of_process[part.process].pop()
        if part.bit:
            self.of_bit[part.bit].pop()
        else:
            self.marks[part.process].pop()
            lists = {"call": self.calls[part.process], "fail": self.failures[part.process], "taken": self.taken}
            lists.get(part.words[0], [part]).pop()

    # Of a process.

    def stage(self, process):
        has_left = False
        for part in reversed(self.marks[process]):
            word = part.words[0]
            if word == "leave":
                has_left = True
            elif word in STAGES:
                stage = STAGES[word]
                return "leaving" if has_left and stage != "settling" else stage
        return "idle"

    def inside(self, process):
        """The entry with which it has entered, if it has not left since."""
        for part in reversed(self.marks[process]):
            if part.words[0] == "leave":
                return None
            if part.words[0] == "enter":
                return part.entry
        return None

    def in_call(self, process, mark):
        """The first such mark behind its last `call`, if there is one."""
        found = None
        for part in reversed(self.marks[process]):
            if part.words[0] == "call":
                return found
            if part.words[0] == mark:
                found = part
        return None

    def open(self, process):
        return open_in(reversed(self.of_process[process]))

    def torn(self, process):
        """The write that was open as it last failed, if it has settled nothing since."""
        own, failures = self.of_process[process], self.failures[process]
        if not failures or any(part.is_move("settle") for part in own[failures[-1] :]):
            return None
        cut = open_in(reversed(own[: failures[-1]]))
        return cut if cut and cut.is_move("write") else None

    def doorway(self, process):
        """The entry of the first access of its call."""
        own, calls = self.of_process[process], self.calls[process]
        behind = range(calls[-1] + 1, len(own)) if calls else []
        return next((own[at].entry for at in behind if own[at].bit), None)

    def waits(self, process):
        """The entry of its `wait`, while it waits."""
        return self.in_call(process, "wait").entry if self.stage(process) == "waiting" else None

    # Of several.

    def others(self, process):
        return (other for other in range(self.setup.processes) if other != process)

    def inside_beside(self, process):
        found = [(other, self.inside(other)) for other in self.others(process)]
        return [(other, entry) for other, entry in found if entry is not None]

    def ahead(self, process, began):
        """Who is ahead of a process whose doorway began with this entry, or has not begun."""
        found = [(other, self.waits(other)) for other in self.others(process)]
        return [(other, entry) for other, entry in found if entry is not None and (began is None or entry < began)]

    def call_made(self, process):
        """The last call of a process, with its number and its command."""
        call = self.of_process[process][self.calls[process][-1]]
        number = len(self.calls[process]) if self.setup.version == 2 else 0
        return Call(process, number, None, list(call.words[1:]), None)

    def next_taken(self, process):
        """The place and the reply with which a process takes its command now."""
        store = self.setup.opening
        for call, _ in self.taken:
            store, _ = store.after(call)
        return len(self.taken), store.after(self.call_made(process))[1]

    # The safe rule.

    def read_value(self, bit):
        """The value with which the read of a bit that has begun last must end; none, if it may end with either or none has begun."""
        moves = self.of_bit[bit]
        begin = next((at for at in range(len(moves) - 1, -1, -1) if moves[at].is_move("read")), None)
        if begin is None or any(move.is_move("write") for move in moves[begin:]):
            return None
        writes = [move for move in moves[:begin] if move.is_move("write", "end", "settle")]
        if writes and writes[-1].is_move("write"):
            return None
        # a write has ended last, or was settled
        return int(next((move.words[1] for move in reversed(writes) if len(move.words) == 2), self.setup.opens(*bit[:3])))


def open_in(back):
    """The begin that is open behind these parts of a process, of which the newest comes first."""
    withdrawn = False
    for part in back:
        if part.is_mark("fail"):
            return None
        withdrawn = withdrawn or part.is_mark("withdraw")
        if part.bit:
            is_open = part.is_move("write") or part.is_move("read") and not withdrawn
            return part if is_open else None
    return None
