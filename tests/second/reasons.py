"""A second reading of `judge` and `judge --why` for records of this project's lock: the verdict, and the reasons of a bad one.

It is written from docs/RECORDS.md and docs/JUDGE_YOUR_LOCK.md, and shares nothing with the program that it is held against. The
judge is that of `judge.py`. What the process may do in place of a bad entry is the next entry of its program, with either
flick.
"""

from second.any_lock import numbers_of_entries
from second.judge import EVENTS, Judge, entry_of
from second.programs import Setup
from second.record_files import read_record
from second.scenario_files import Fault

BAD = 3
# the events that are refused, each with the stages in which it is accepted and the refusal in the others
WANTED = {"withdraw": ("waiting", "not-waiting"), "restart": ("down", "not-down")}


def heard(head, entries):
    """A judge that has heard these entries, which are good."""
    judge = Judge(Setup(head))
    for number, line in enumerate(entries):
        judge.hear(number, *entry_of(line))
    return judge


def next_entries(judge, process, again):
    """The entries that the next step of a process may add, with either flick. A program is told one value of its access only, so
    `again` gives the same judge once more if the flick decides the value."""
    seat = judge.seats[process]
    if seat.stage not in ("idle", "down"):
        has_flick = judge.has_flick(seat.steps.wanted())
        yield next_entry(judge, process, 0)
        if has_flick:
            yield next_entry(again(), process, 1)


def next_entry(judge, process, flick):
    """The entry that the next step of a process adds."""
    seat = judge.seats[process]
    *place, move = seat.steps.wanted()
    value = None
    if move.endswith("None"):
        known = judge.bit((*place, move)).read_now() if move.startswith("value") else None
        value = flick if known is None else known
        move = move.replace("None", str(value))
    marks = [mark.replace("?", str(judge.taken)) for mark in seat.steps.marks(value)]
    return " : ".join([f"{process} {'.'.join(map(str, place))} {move}", *marks])


def refusal(judge, process, access, marks):
    """Why an entry is refused, or None."""
    if process >= judge.setup.processes:
        return "no-process"
    seat, events = judge.seats[process], [mark.split()[0] for mark in marks if mark.split()[0] in EVENTS]
    if not events:
        return "not-running" if seat.stage in ("idle", "down") else None
    if access or len(marks) > 1:
        return "not-alone"
    if events[0] == "call":
        is_full = judge.setup.version == 2 and seat.calls == 65_535
        why = "is-down" if seat.stage in ("settling", "down") else "busy" if seat.stage != "idle" else None
        return why or ("calls-full" if is_full else None)
    if events[0] == "fail":
        return "already-failed" if seat.stage in ("settling", "down") else None
    stage, why = WANTED[events[0]]
    return None if seat.stage == stage else why


def reasons(head, entries, bad, line):
    """The lines after a verdict that names this entry, which is in this line of the file."""
    process, access, marks = entry_of(entries[bad])
    yield f"line {line}"
    yield f"is {entries[bad]}"
    judge = heard(head, entries[:bad])
    exists = process < judge.setup.processes
    others = next_entries(judge, process, lambda: heard(head, entries[:bad])) if exists else []
    yield from (f"may {other}" for other in dict.fromkeys(others))
    why = refusal(judge, process, access, marks)
    if why:
        yield f"refused {why}"
    if exists:
        yield f"stage {judge.seats[process].stage}"


def judge_record(text, why=False):
    """The status, the output and the errors of `judge` on a file with this text, with `--why` or without."""
    try:
        head, entries = read_record(text)
    except Fault as fault:
        return 1, b"", f"{fault}\n".encode()
    judge = Judge(Setup(head))
    for number, line in enumerate(entries):
        law = judge.hear(number, *entry_of(line))
        if law:
            told = [f"bad {number} {law}", *(reasons(head, entries, number, numbers_of_entries(text)[number]) if why else [])]
            return BAD, "".join(f"{each}\n" for each in told).encode(), b""
    return 0, f"good {len(entries)}\n".encode(), b""
