"""A second reading of `calls` for records: the table of any record's calls, each number found by looking back over the entries.

It is written from what examples/inspect/README.md says, and shares nothing with the program that it is held against. A record may be of
any lock, and its entries may break any law.
"""

import collections
import csv
import io

from second.calls import EVENTS, HEADER, MARKS, Entries, first_with, number_of
from second.record_files import read_record
from second.scenario_files import Fault


class Record(Entries):
    """The entries of a record, and which of them end an overlapped read that the process began with its access before."""

    def __init__(self, text):
        head, entries = read_record(text)
        super().__init__([*head, *entries])
        self.overlapped, last = set(), {}
        for number, (process, access, _) in enumerate(self.all):
            if access is None:
                continue
            is_end = access[4].startswith("value") and last.get(process) == (*access[:4], "read")
            if is_end and self.exists(access) and self.is_overlapped(number, access[:4]):
                self.overlapped.add(number)
            last[process] = access

    def exists(self, access):
        owner, field, bit, reader = access[:4]
        return max(owner, reader) < self.setup.processes and bit < self.setup.width(field)


def word_of(mark):
    return mark.split(" ")[0]


def row_of(record, process, call, called, own, newest):
    """The line of a call that began with this entry, by its later entries, when this entry is the newest."""
    events = {"called": called} | {column: number_of(first_with(own, word)) for column, word in MARKS.items()}
    until = newest if events["failed"] is None else events["failed"]
    itself = [(number, access[4].split(" ")[0]) for number, access, _ in own if access and number <= until]
    events["doorway"] = itself[0][0] if itself else None
    taken, answered = first_with(own, "taken"), first_with(own, "answer")
    events["place"] = int(taken[1][1]) if taken else None
    words = collections.Counter(word for _, word in itself)
    overlapped = sum(number in record.overlapped for number, _, _ in own)
    waited = None
    if events["door_end"] is not None:
        ends = [events[column] for column in ("entered", "withdrew", "failed") if events[column] is not None]
        waited = max(0, min(ends, default=newest) - events["door_end"])
    command = next(mark for mark in record.all[called][2] if word_of(mark) == "call").removeprefix("call ")
    answer = " ".join(answered[1][1:]) if answered else None
    counts = [words["read"], words["write"], overlapped, waited, None, answer]
    return [process, call, command, *(events[column] for column in EVENTS), *counts]


def rows_of(record):
    """The lines of the calls of processes that exist: those that have ended, as they end, and then the others, by process."""
    own, ended, others = collections.defaultdict(list), [], []
    for number, (process, access, marks) in enumerate(record.all):
        if process < record.setup.processes:
            own[process].append((number, access, marks))
    for process in sorted(own):
        calls = [at for at, (_, _, marks) in enumerate(own[process]) if any(word_of(mark) == "call" for mark in marks)]
        for k, at in enumerate(calls):
            called = own[process][at][0]
            its = own[process][at + 1 : calls[k + 1] if k + 1 < len(calls) else None]
            end = next((i for i, (_, _, marks) in enumerate(its) if any(word_of(mark) in ("answer", "down") for mark in marks)), None)
            if end is not None:
                newest = its[end][0]
                ended.append((newest, row_of(record, process, k + 1, called, its[: end + 1], newest)))
            elif k + 1 < len(calls):
                newest = own[process][calls[k + 1]][0]
                ended.append((newest, row_of(record, process, k + 1, called, its, newest)))
            else:
                others.append(row_of(record, process, k + 1, called, its, len(record.all) - 1))
    return [row for _, row in sorted(ended, key=lambda pair: pair[0])] + others


def recorded_calls(text):
    """The status, the output and the errors of `calls` on a record file."""
    try:
        record = Record(text)
    except Fault as fault:
        return 1, b"", f"line {fault.line}: {fault.kind}\n".encode()
    told = io.StringIO()
    csv.writer(told, lineterminator="\n").writerows([HEADER, *rows_of(record)])
    return 0, told.getvalue().encode(), b""
