"""A second reading of the laws that name no algorithm: of a record the verdict that `judge --any-lock` prints, and its reasons.

Each law is asked of an entry and the entries before it, in which things are looked up by `looking_back.py`. It shares nothing with
the programs that it is held against. An entry is read as `judge.py` reads it.
"""

import re
from typing import NamedTuple

from second.judge import entry_of
from second.looking_back import RUNNING, Part, Past
from second.programs import Setup
from second.record_files import read_record
from second.scenario_files import Fault, is_skipped, lines_of, words_of
from second.store import OTHER_ANSWERS

# the marks of events that are no steps
ALONE = ("call", "fail", "withdraw", "restart")
MOST_CALLS = 65_535


class Entry(NamedTuple):
    """An entry: its number, its process, its access if it has one, and the words of its marks."""

    number: int
    process: int
    access: Part | None
    marks: list

    def parts(self):
        return [self.access, *self.marks] if self.access else self.marks

    def has(self, word):
        return any(mark.words[0] == word for mark in self.marks)


def entry_from(number, line):
    process, access, marks = entry_of(line)
    place = Part(number, process, access[:4], tuple(access[4].split(" "))) if access else None
    return Entry(number, process, place, [Part(number, process, None, tuple(mark.split(" "))) for mark in marks])


def line_of(entry):
    place = [".".join(map(str, entry.access.bit)), *entry.access.words] if entry.access else []
    return " : ".join([" ".join([str(entry.process), *place]), *(" ".join(mark.words) for mark in entry.marks)])


# The refusals.


def refused_access(past, entry):
    """The first refusal of *access* of an entry, or None."""
    process, setup = entry.process, past.setup
    if process >= setup.processes:
        return "no-process"
    if entry.access is None:
        return None
    (owner, field, at, reader), move = entry.access.bit, entry.access.words[0]
    stage, open_now, torn = past.stage(process), past.open(process), past.torn(process)
    reads, is_torn = move in ("read", "value"), torn is not None and torn.bit == entry.access.bit
    is_same = open_now is not None and open_now.bit == entry.access.bit
    may_move = stage in RUNNING or stage == "settling" and move in ("write", "end")
    refusals = {
        "no-bit": owner >= setup.processes or reader >= setup.processes or at >= setup.width(field),
        "not-owner": not reads and owner != process,
        "not-reader": reads and reader != process,
        "not-settling": move == "settle" and stage != "settling",
        "not-running": move != "settle" and not may_move,
        "not-open": move in ("end", "value") and not (is_same and open_now.is_move({"end": "write", "value": "read"}[move])),
        "access-open": move in ("write", "read", "settle") and open_now is not None,
        "not-torn": move == "settle" and not is_torn,
        "torn": move == "write" and is_torn,
    }
    return next((name for name, is_refused in refusals.items() if is_refused), None)


def refused_marks(past, entry):
    """The first refusal of *marks* of an entry, or None; the past gets its access and each mark in turn, and is as before
    afterwards."""
    if not entry.access and not entry.marks:
        return "nothing"
    if any(entry.has(word) for word in ALONE) and (entry.access or len(entry.marks) > 1):
        return "not-alone"
    added = []
    try:
        for part in entry.parts():
            refusal = None if part.bit else refused_mark(past, part)
            if refusal:
                return refusal
            past.add(part)
            added.append(part)
    finally:
        for part in reversed(added):
            past.drop(part)
    return None


def refused_mark(past, mark):
    process, word = mark.process, mark.words[0]
    if word == "answer":
        return refused_answer(past, process, " ".join(mark.words[1:]))
    stage = past.stage(process)
    torn, is_inside = past.torn(process) is not None, past.inside(process) is not None
    refusals = {
        "call": {
            "busy": stage in RUNNING,
            "is-down": stage in ("settling", "down"),
            "calls-full": past.setup.version == 2 and len(past.calls[process]) == MOST_CALLS,
        },
        "fail": {"already-failed": stage in ("settling", "down")},
        "withdraw": {"not-waiting": stage != "waiting"},
        "enter": {"not-waiting": stage != "waiting"},
        "restart": {"not-down": stage != "down"},
        "wait": {"not-in-doorway": stage != "doorway"},
        "leave": {"not-inside": not is_inside},
        "taken": {"not-inside": not is_inside, "taken-before": past.in_call(process, "taken")},
        "settled": {"not-settling": stage != "settling", "torn": torn},
        "down": {
            "not-settling": stage != "settling",
            "still-inside": is_inside,
            "access-open": past.open(process),
            "torn": torn,
        },
    }[word]
    return next((name for name, is_refused in refusals.items() if is_refused), None)


def refused_answer(past, process, answer):
    taken, is_reply = past.in_call(process, "taken"), answer.split(" ")[0] not in OTHER_ANSWERS
    withdrawn = past.in_call(process, "withdraw")
    refusals = {
        "not-leaving": past.stage(process) not in ("doorway", "leaving"),
        "was-withdrawn": withdrawn and answer != "withdrawn",
        "other-reply": taken and answer != " ".join(taken.words[2:]),
        "not-taken": not taken and is_reply,
        "not-withdrawn": not withdrawn and answer == "withdrawn",
        "access-open": past.open(process),
    }
    return next((name for name, is_refused in refusals.items() if is_refused), None)


# The laws.


def is_unsafe(past, access):
    if access is None or not access.is_move("value"):
        return False
    return past.read_value(access.bit) not in (None, int(access.words[1]))


def began(past, entry):
    """The entry with which the doorway began of its process's call, in the past or with its own access."""
    before = past.doorway(entry.process)
    return entry.number if before is None and entry.access else before


def broken_law(past, entry):
    """The first law that an entry breaks as the next one, or None."""
    if is_unsafe(past, entry.access):
        return "safe"
    if refused_access(past, entry):
        return "access"
    if refused_marks(past, entry):
        return "marks"
    if entry.has("enter") and past.inside_beside(entry.process):
        return "together"
    if entry.has("enter") and past.ahead(entry.process, past.doorway(entry.process)):
        return "overtaken"
    return "history" if entry != replied(past, entry) else None


def replied(past, entry):
    """The entry with the right place and reply in its `taken`, and that reply in its `answer` if it takes its command."""
    if not entry.has("taken"):
        return entry
    place, reply = past.next_taken(entry.process)
    heads = {"taken": ("taken", str(place)), "answer": ("answer",)}
    right = lambda mark: mark._replace(words=(*heads[mark.words[0]], *reply.split(" "))) if mark.words[0] in heads else mark
    return entry._replace(marks=[*map(right, entry.marks)])


def flipped(entry):
    """The entry with the other value in its access."""
    other = str(1 - int(entry.access.words[1]))
    return entry._replace(access=entry.access._replace(words=("value", other)))


# The texts.


def reasons(past, entry, law, line):
    """The lines behind a verdict."""
    process = entry.process
    yield f"line {line}"
    yield f"is {line_of(entry)}"
    other = {"safe": flipped, "history": lambda it: replied(past, it)}.get(law, lambda _: None)(entry)
    if other and broken_law(past, other) is None:
        yield f"may {line_of(other)}"
    refusal = refused_access(past, entry) or refused_marks(past, entry)
    if refusal:
        yield f"refused {refusal}"
    if process >= past.setup.processes:
        return
    yield f"stage {past.stage(process)}"
    for name, begin in [("open", past.open(process)), ("torn", past.torn(process))]:
        if begin:
            yield f"{name} {begin.entry}"
    if law == "together":
        yield from (f"inside {other} {at}" for other, at in past.inside_beside(process))
    if law == "overtaken":
        yield from (f"waits {other} {at}" for other, at in past.ahead(process, past.doorway(process)))
        if began(past, entry) is not None:
            yield f"doorway {began(past, entry)}"


def numbers_of_entries(text):
    """The numbers of the lines that are entries."""
    words = [words_of(line) for line in lines_of(text)]
    return [number for number, line in enumerate(words, 1) if not is_skipped(line) and re.match(rb"[0-9]", line[0])]


def first_bad(head, lines):
    """The first entry that breaks a law, with that law and the past that it has; or None."""
    past = Past(Setup(head))
    for number, line in enumerate(lines):
        entry = entry_from(number, line)
        law = broken_law(past, entry)
        if law:
            return past, entry, law
        for part in entry.parts():
            past.add(part)
    return None


def any_lock(text, why=False):
    """The status, the output and the errors of `judge --any-lock` on a file with this text, with `--why` or without."""
    try:
        head, lines = read_record(text)
    except Fault as fault:
        return 1, b"", f"{fault}\n".encode()
    bad = first_bad(head, lines)
    if bad is None:
        return 0, f"good {len(lines)}\n".encode(), b""
    past, entry, law = bad
    told = [f"bad {entry.number} {law}"]
    if why:
        told += reasons(past, entry, law, numbers_of_entries(text)[entry.number])
    return 3, "".join(f"{line}\n" for line in told).encode(), b""
