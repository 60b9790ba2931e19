"""A second reading of `calls`: the table of a record's calls, each number found by looking back over the record's entries.

It is written from what examples/inspect/README.md says, and shares nothing with the program that it is held against. The entries are those that
`record` writes.
"""

import collections
import csv
import io
from bisect import bisect_left

from second.judge import entry_of
from second.programs import Setup

EVENTS = ("called", "doorway", "door_end", "entered", "taken", "place", "left", "answered", "failed", "withdrew")
HEADER = ["process", "call", "command", *EVENTS, "reads", "writes", "overlapped", "waited", "waited_for", "answer"]
# the marks of the columns that are events
MARKS = {"door_end": "wait", "entered": "enter", "taken": "taken", "left": "leave", "answered": "answer"}
MARKS |= {"failed": "fail", "withdrew": "withdraw"}


def last_write(moves):
    """The last word among these moves of a bit that is of a write, if there is one."""
    if not moves:
        return None
    _, word, before = moves[-1]
    return word if word in ("write", "end", "settle") else before


class Entries:
    """The entries of a record, and the moves of each bit, with the numbers of their entries and the last word of a write before them."""

    def __init__(self, record):
        head = [line for line in record if not line[0].isdigit()]
        self.setup = Setup(head)
        self.all = [entry_of(line) for line in record[len(head) :]]
        self.of_bit = collections.defaultdict(list)
        for number, (_, access, _) in enumerate(self.all):
            if access:
                moves, word = self.of_bit[access[:4]], access[4].split(" ")[0]
                moves.append((number, word, last_write(moves)))

    def is_overlapped(self, number, bit):
        """Whether a write overlapped the read of a bit that ends with this entry."""
        moves = self.of_bit[bit]
        at = bisect_left(moves, (number, "")) - 1
        while moves[at][1] != "read":
            if moves[at][1] == "write":
                return True
            at -= 1
        return moves[at][2] == "write"


def first_with(own, word):
    """The number and the words of the first mark of this word."""
    return next(((number, mark.split(" ")) for number, _, marks in own for mark in marks if mark.split(" ")[0] == word), None)


def number_of(found):
    return None if found is None else found[0]


def first_access(own):
    """The number of the first access that the process makes itself in its call: after a failure its memory unit makes them."""
    failed = number_of(first_with(own, "fail"))
    return next((number for number, access, _ in own if access and (failed is None or number < failed)), None)


def waits_for(entries, process, own):
    """For whom the process waited last: the owner of the last number whose read held it up."""
    wait = first_with(own, "wait")
    if wait is None:
        return None
    goes = [first_with(own, word) for word in ("enter", "withdraw", "fail")]
    until = min((found[0] for found in goes if found), default=len(entries.all))
    ends = [(number, access) for number, access, _ in own if access and access[4].startswith("value")]
    for at in range(len(ends) - 1, -1, -1):
        number, (owner, field, bit, _, _) = ends[at]
        width = entries.setup.width(field)
        if not wait[0] < number < until or bit != width - 1:
            continue
        value = sum(int(access[4][-1]) << k for k, (_, access) in enumerate(ends[at + 1 - width : at + 1]))
        ticket = int(wait[1][1])
        if value == 1 if field == "choosing" else 0 < value and (value, owner) < (ticket, process):
            return owner
    return None


def row_of(entries, process, call, called, own):
    """The line of a call that began with this entry, by its later entries."""
    events = {"called": called, "doorway": first_access(own)}
    events |= {column: number_of(first_with(own, word)) for column, word in MARKS.items()}
    taken, answered = first_with(own, "taken"), first_with(own, "answer")
    events["place"] = int(taken[1][1]) if taken else None
    until = len(entries.all) if events["failed"] is None else events["failed"]
    moves = [(number, access[:4], access[4].split(" ")[0]) for number, access, _ in own if access and number < until]
    words = collections.Counter(word for _, _, word in moves)
    overlapped = sum(word == "value" and entries.is_overlapped(number, bit) for number, bit, word in moves)
    waited = None
    if events["door_end"] is not None:
        ends = [events[column] for column in ("entered", "withdrew", "failed") if events[column] is not None]
        waited = min(ends, default=len(entries.all) - 1) - events["door_end"]
    command = entries.all[called][2][0].removeprefix("call ")
    answer = " ".join(answered[1][1:]) if answered else None
    counts = [words["read"], words["write"], overlapped, waited, waits_for(entries, process, own), answer]
    return [process, call, command, *(events[column] for column in EVENTS), *counts]


def rows_of(entries):
    """The lines of the calls: those that have ended, as they end, and then the others, by process."""
    own = collections.defaultdict(list)
    for number, (process, access, marks) in enumerate(entries.all):
        own[process].append((number, access, marks))
    ended, others = [], []
    for process in sorted(own):
        calls = [at for at, (_, _, marks) in enumerate(own[process]) if marks and marks[0].startswith("call")]
        for k, at in enumerate(calls):
            its = own[process][at + 1 : calls[k + 1] if k + 1 < len(calls) else None]
            end = next((i for i, (_, _, marks) in enumerate(its) if first_with([(0, None, marks)], "answer") or "down" in marks), None)
            row = row_of(entries, process, k + 1, own[process][at][0], its if end is None else its[: end + 1])
            if end is None:
                others.append(row)
            else:
                ended.append((its[end][0], row))
    return [row for _, row in sorted(ended)] + others


def sums_of(entries):
    """How many reads and writes of bits the processes have begun themselves, and how many reads have ended that a write overlapped."""
    sums, settling = collections.Counter(reads=0, writes=0, overlapped=0), set()
    for number, (process, access, marks) in enumerate(entries.all):
        word = access[4].split(" ")[0] if access else None
        sums["reads"] += word == "read"
        sums["writes"] += word == "write" and process not in settling
        sums["overlapped"] += word == "value" and entries.is_overlapped(number, access[:4])
        if "fail" in marks:
            settling.add(process)
        if "down" in marks:
            settling.discard(process)
    return dict(sums)


def calls_text(record):
    """What `calls` writes of the scenario whose record this is, as its lines."""
    text = io.StringIO()
    csv.writer(text, lineterminator="\n").writerows([HEADER, *rows_of(Entries(record))])
    return text.getvalue().encode()
