"""A second reading of the laws of traces: of a trace the verdict, and its reasons.

Each law is asked of an entry and the entries before it. It shares nothing with the search that finds traces.
"""

from second.scenario_files import Fault
from second.trace_files import read_trace

WRITES, ENDS = ("write", "set"), ("end", "value")
CHANGES = ("swap", "add", "cas")
STAGES = {"call": "doorway", "wait": "waiting", "enter": "inside", "leave": "leaving", "answer": "idle"}


class Past:
    """The entries before one."""

    def __init__(self, trace):
        self.trace, self.entries = trace, []

    def of(self, process):
        return [entry for entry in self.entries if entry.process == process]

    def stage(self, process):
        marks = [mark for entry in self.of(process) for mark in entry.marks]
        return STAGES[marks[-1]] if marks else "idle"

    def since(self, process, mark):
        """The number of the latest entry of a process with this mark."""
        return max(entry.number for entry in self.of(process) if mark in entry.marks)

    def open(self, process):
        """The entry with which the open access of a process began, or None."""
        accesses = [entry for entry in self.of(process) if entry.access]
        return accesses[-1] if accesses and accesses[-1].access.move in ("write", "read") else None

    def doorway(self, process):
        """The number of the first access of a process in its call, or None."""
        if self.stage(process) == "idle":
            return None
        call = self.since(process, "call")
        return next((entry.number for entry in self.of(process) if entry.number > call and entry.access), None)

    def others(self, process, stage):
        return [it for it in range(self.trace.processes) if it != process and self.stage(it) == stage]

    def ahead(self, process):
        """The processes that are ahead of one, each with the entry since which it waits."""
        begun = self.doorway(process)
        waits = [(other, self.since(other, "wait")) for other in self.others(process, "waiting")]
        return [(other, at) for other, at in waits if begun is None or at < begun]

    def inside(self, process):
        return [(other, self.since(other, "enter")) for other in self.others(process, "inside")]

    def on_cell(self, access):
        return [it for it in self.entries if it.access and it.access[:2] == access[:2]]

    def stored(self, access, before=None):
        """What a cell holds; or held before the entry of this number."""
        register = self.trace.registers[access.register]
        value, written = register.opens, {}
        for entry in self.on_cell(access):
            if before is not None and entry.number >= before:
                break
            move, values = entry.access.move, entry.access.values
            if move == "write":
                written[entry.process] = values[0]
            elif move == "end":
                value = written[entry.process]
            elif move in ("set", "swap"):
                value = values[0]
            elif move == "add":
                value = (values[0] + values[1]) % 2**register.width
            elif move == "cas" and values[0] == values[2]:
                value = values[1]
        return value

    def overlapping(self, access, begun):
        """The values of the writes that overlap a read that began with the entry of this number."""
        for entry in self.on_cell(access):
            if entry.access.move not in WRITES:
                continue
            ended = [it.number for it in self.of(entry.process) if it.number > entry.number and it.access]
            end = entry.number if entry.access.move == "set" else min(ended, default=None)
            if entry.number > begun or end is None or end > begun:
                yield entry.access.values[0]

    def allowed(self, process, access):
        """The values that a read may give, or None if it may give any."""
        opened = self.open(process)
        begun = opened.number if access.move == "value" else len(self.entries)
        overlapping = {*self.overlapping(access, begun)}
        if self.trace.memory == "safe":
            return None if overlapping else {self.stored(access)}
        if self.trace.memory == "regular":
            return {self.stored(access, begun)} | overlapping
        return {self.stored(access)}


def first_of(refusals):
    return next((name for name, is_refused in refusals.items() if is_refused), None)


def refused_access(past, entry):
    """The first refusal of *access* of an entry, or None."""
    trace, process, access = past.trace, entry.process, entry.access
    if process >= trace.processes:
        return "no-process"
    if access is None:
        return None
    register, opened = trace.registers[access.register], past.open(process)
    of_this = opened and opened.access[:2] == access[:2] and opened.access.move
    is_own = register.is_shared or access.index == process
    return first_of(
        {
            "no-cell": not register.is_shared and access.index >= trace.processes,
            "not-owner": access.move in ("write", "end", "set") and not is_own,
            "not-shared": access.move in CHANGES and not register.is_shared,
            "too-wide": any(value >= 2**register.width for value in access.values),
            "not-whole": trace.memory == "atomic" and access.move in ("write", "end", "read", "value"),
            "not-running": past.stage(process) == "idle",
            "not-open": access.move in ENDS and of_this != {"end": "write", "value": "read"}.get(access.move),
            "access-open": access.move not in ENDS and opened,
        }
    )


def refused_marks(past, entry):
    """The first refusal of *marks* of an entry, or None."""
    if "call" in entry.marks and (entry.access or len(entry.marks) > 1):
        return "not-alone"
    stage, is_open = past.stage(entry.process), past.open(entry.process) is not None
    if entry.access:
        is_open = entry.access.move in ("write", "read")
    for mark in entry.marks:
        refusal = {
            "call": {"busy": stage != "idle"},
            "wait": {"not-in-doorway": stage != "doorway"},
            "enter": {"not-trying": stage not in ("doorway", "waiting")},
            "leave": {"not-inside": stage != "inside"},
            "answer": {"not-leaving": stage not in ("doorway", "leaving"), "access-open": is_open},
        }[mark]
        if found := first_of(refusal):
            return found
        stage = STAGES[mark]
    return None


def is_reading(access):
    return access is not None and access.move in ("value", "get", *CHANGES)


def broken_law(past, entry):
    """The first law that an entry breaks, or None."""
    if refused_access(past, entry):
        return "access"
    if is_reading(entry.access):
        allowed = past.allowed(entry.process, entry.access)
        if allowed is not None and entry.access.values[-1] not in allowed:
            return "memory"
    if refused_marks(past, entry):
        return "marks"
    if "enter" in entry.marks and past.inside(entry.process):
        return "together"
    if "enter" in entry.marks and past.ahead(entry.process):
        return "overtaken"
    return None


def text_of(trace, entry):
    """An entry with single spaces."""
    words = [str(entry.process)]
    if access := entry.access:
        cell = access.register if access.index is None else f"{access.register}[{access.index}]"
        values = [*map(str, access.values)]
        if access.move in CHANGES:
            values.insert(-1, "gives")
        words += [cell, access.move, *values]
    return " : ".join([" ".join(words), *entry.marks])


def others_of(past, entry):
    """The entry with each value that memory allows, if those are two at most."""
    allowed = past.allowed(entry.process, entry.access)
    for value in sorted(allowed) if len(allowed) <= 2 else []:
        yield entry._replace(access=entry.access._replace(values=(*entry.access.values[:-1], value)))


def reasons(past, entry, law):
    """The lines behind a verdict."""
    process = entry.process
    yield f"line {entry.line}"
    yield f"is {text_of(past.trace, entry)}"
    if law == "memory":
        yield from (f"may {text_of(past.trace, it)}" for it in others_of(past, entry) if broken_law(past, it) is None)
    if refusal := refused_access(past, entry) or refused_marks(past, entry):
        yield f"refused {refusal}"
    if process >= past.trace.processes:
        return
    yield f"stage {past.stage(process)}"
    if opened := past.open(process):
        yield f"open {opened.number}"
    if law == "together":
        yield from (f"inside {other} {at}" for other, at in past.inside(process))
    if law == "overtaken":
        yield from (f"waits {other} {at}" for other, at in past.ahead(process))
        begun = past.doorway(process)
        if begun is None and entry.access:
            begun = entry.number
        if begun is not None:
            yield f"doorway {begun}"


def judge_trace(text, why=False):
    """The status, the output and the errors of `judge` on a trace with this text, with `--why` or without."""
    try:
        trace = read_trace(text)
    except Fault as fault:
        return 1, b"", f"{fault}\n".encode()
    past = Past(trace)
    for entry in trace.entries:
        if law := broken_law(past, entry):
            told = [f"bad {entry.number} {law}", *(reasons(past, entry, law) if why else [])]
            return 3, "".join(f"{line}\n" for line in told).encode(), b""
        past.entries.append(entry)
    return 0, f"good {len(trace.entries)}\n".encode(), b""
