"""A second reading of the accesses that the picture of a record shows: for each entry, what its column says of an access.

docs/PICTURE.md explains what it computes. It shares no code with the program that it is held against. The entries may break any law. An
access is open from the entry that begins it up to the next access of its process. A read ends too if its process fails or withdraws.
"""

from second.any_lock import entry_from
from second.drawn_accesses import MOST_WAVES, Change, Shown
from second.programs import Setup

STEPS = {"write": "begin", "end": "end", "read": "begin", "value": "end"}
ENDING_MARKS = ("fail", "withdraw")


class Bits:
    """Of each bit the value that was begun last, the value that was written last, and the process whose write is open; and the rows of
    the bits that were written."""

    def __init__(self, setup, limit):
        self.setup, self.limit = setup, limit
        self.begun, self.written, self.writer, self.rows = {}, {}, {}, {}

    def opens_at(self, bit):
        return self.setup.opens(*bit[:3])

    def value(self, bit):
        return self.written[bit] if bit in self.written else self.opens_at(bit)

    def take(self, bit, process, words):
        """Makes a move, and returns the change of a wave, if it makes one."""
        move, old = words[0], self.value(bit)
        if move in ("read", "value"):
            return None
        if move == "write":
            self.begun[bit], self.writer[bit] = int(words[1]), process
        else:
            self.written[bit] = int(words[1]) if move == "settle" else self.begun.get(bit, self.opens_at(bit))
            self.writer[bit] = None
        if bit not in self.rows:
            if move == "end":
                return None
            self.rows[bit] = len(self.rows)
        row = self.rows[bit]
        if self.limit is not None and row >= self.limit:
            return None
        return Change(row, old, self.value(bit), self.writer[bit] is not None)


def is_possible(setup, entry):
    """Whether the bit of an access exists. Other accesses are not shown."""
    owner, field, at, reader = entry.access.bit
    return owner < setup.processes and reader < setup.processes and at < setup.width(field)


def bit_text(bit):
    return ".".join(map(str, bit))


def words_of(words, written):
    """The words of a move, where this value was written last before it."""
    if words[0] == "value":
        other = [] if int(words[1]) == written else ["≠", str(written)]
        return " ".join(["→", words[1], *other])
    return "" if words[0] == "end" else " ".join(words)


def overlapped_by(access, bits, opened):
    """The processes whose open accesses an access overlaps as it begins."""
    writer = bits.writer.get(access.bit)
    writers = [] if writer is None else [writer]
    readers = [process for process, (_, bit, move) in opened.items() if (bit, move) == (access.bit, "read")]
    return frozenset({"write": [*writers, *readers], "read": writers}.get(access.words[0], []))


def step_of(access, current):
    """The step of an access, where its process has this one open."""
    if access.words[0] == "settle":
        return "end" if current and current[1:] == (access.bit, "write") else "whole"
    return STEPS[access.words[0]]


def shown_accesses(head, lines, limit=MOST_WAVES):
    """What each entry of a record shows of an access that does, in their order."""
    setup = Setup(head)
    bits, opened = Bits(setup, limit), {}
    for number, line in enumerate(lines):
        entry = entry_from(number, line)
        process, access = entry.process, entry.access
        if process >= setup.processes:
            continue
        is_dropped = any(entry.has(mark) for mark in ENDING_MARKS)
        current = opened.get(process)
        if access and is_possible(setup, entry):
            kind = "read" if access.words[0] in ("read", "value") else "write"
            step = step_of(access, current)
            begin = current[0] if step == "end" and current else number
            words = words_of(access.words, bits.value(access.bit))
            overlaps = overlapped_by(access, bits, opened)
            change = bits.take(access.bit, process, access.words)
            yield Shown(number, process, kind, step, begin, words, bit_text(access.bit), overlaps, change)
            opened.pop(process, None)
            if step == "begin":
                opened[process] = (number, access.bit, access.words[0])
        elif is_dropped and current and current[2] == "read":
            yield Shown(number, process, "read", "end", current[0], "", bit_text(current[1]), frozenset(), None)
        if is_dropped and process in opened and opened[process][2] == "read":
            opened.pop(process)
