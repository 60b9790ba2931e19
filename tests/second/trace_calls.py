"""A second reading of `calls` for traces: the table of any trace's calls, each number found by looking back over the entries.

It is written from what examples/inspect/README.md says, and shares nothing with the program that it is held against. A trace may be of
any lock, and its entries may break any law.
"""

import csv
import io

from second.calls import HEADER
from second.scenario_files import Fault
from second.trace_files import read_trace

BEGINS_READ, BEGINS_WRITE = ("read", "get"), ("write", "set")
CHANGES = ("swap", "add", "cas")


class Trace:
    """The entries of processes that exist, and the number of all entries."""

    def __init__(self, text):
        said = read_trace(text)
        self.processes, self.count = said.processes, len(said.entries)
        self.entries = [entry for entry in said.entries if entry.process < said.processes]

    def accesses(self, process, before):
        """The entries with an access that a process made before an entry."""
        return [it for it in self.entries if it.process == process and it.number < before and it.access]

    def open_at(self, process, before):
        """The entry with which the access begins that a process has open before an entry, or None."""
        own = self.accesses(process, before)
        return own[-1] if own and own[-1].access.move in ("read", "write") else None

    def is_written(self, cell, before):
        """Whether a write of a cell is open before an entry."""
        opened = [self.open_at(process, before) for process in range(self.processes)]
        return any(it and it.access.move == "write" and it.access[:2] == cell for it in opened)

    def begins_write(self, cell, after, before):
        """Whether a write of a cell begins between two entries."""
        return any(it.access and it.access[:2] == cell and it.access.move in BEGINS_WRITE and after < it.number < before for it in self.entries)

    def ends_overlapped(self, entry):
        """Whether an entry ends a read that a write overlapped."""
        access = entry.access
        if access is None:
            return False
        cell = access[:2]
        if access.move != "value":
            return access.move in ("get", *CHANGES) and self.is_written(cell, entry.number)
        begun = self.open_at(entry.process, entry.number)
        if not begun or begun.access.move != "read" or begun.access[:2] != cell:
            return False
        return self.is_written(cell, begun.number) or self.begins_write(cell, begun.number, entry.number)


def first_with(own, mark):
    return next((entry.number for entry in own if mark in entry.marks), None)


def row_of(trace, process, call, called, own, newest):
    """The line of a call that began with this entry, by its later entries, when this entry is the newest."""
    columns = dict.fromkeys(HEADER)
    columns.update(process=process, call=call, called=called)
    for column, mark in {"door_end": "wait", "entered": "enter", "left": "leave", "answered": "answer"}.items():
        columns[column] = first_with(own, mark)
    moves = [entry.access.move for entry in own if entry.access]
    columns["doorway"] = next((entry.number for entry in own if entry.access), None)
    columns["reads"] = sum(move in (*BEGINS_READ, *CHANGES) for move in moves)
    columns["writes"] = sum(move in (*BEGINS_WRITE, *CHANGES) for move in moves)
    columns["overlapped"] = sum(map(trace.ends_overlapped, own))
    if columns["door_end"] is not None:
        end = newest if columns["entered"] is None else columns["entered"]
        columns["waited"] = max(0, end - columns["door_end"])
    return [columns[name] for name in HEADER]


def rows_of(trace):
    """The lines of the calls that have ended, as they end, and then of the others, by process."""
    ended, others = [], []
    for process in range(trace.processes):
        own = [entry for entry in trace.entries if entry.process == process]
        calls = [at for at, entry in enumerate(own) if "call" in entry.marks]
        for k, at in enumerate(calls):
            next_call = calls[k + 1] if k + 1 < len(calls) else None
            its = own[at + 1 : next_call]
            end = next((i for i, entry in enumerate(its) if "answer" in entry.marks), None)
            line = lambda its, newest: row_of(trace, process, k + 1, own[at].number, its, newest)
            if end is not None:
                ended.append((its[end].number, line(its[: end + 1], its[end].number)))
            elif next_call is not None:
                ended.append((own[next_call].number, line(its, own[next_call].number)))
            else:
                others.append(line(its, trace.count - 1))
    return [row for _, row in sorted(ended, key=lambda pair: pair[0])] + others


def trace_calls(text):
    """The status, the output and the errors of `calls` on a trace file."""
    try:
        trace = Trace(text)
    except Fault as fault:
        return 1, b"", f"{fault}\n".encode()
    told = io.StringIO()
    csv.writer(told, lineterminator="\n").writerows([HEADER, *rows_of(trace)])
    return 0, told.getvalue().encode(), b""
