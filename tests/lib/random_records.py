"""Records that are made up from numbers: the same number gives the same record.

There are three sorts, in turn. The first is drawn entry by entry: entries that keep the laws which name no algorithm, with calls
of all commands, failures, withdrawals and restarts, and then one that does not. The second is a run of one of the locks of
examples/other-locks/, the third a record that stands in examples/; in both some entries are left out, doubled, exchanged or
otherwise changed.
"""

import random
import sys

from lib.places import OTHER_LOCKS, TOP
from second.any_lock import broken_law, entry_from
from second.looking_back import RUNNING, Past
from second.programs import Setup
from second.record_files import read_record
from second.scenario_files import Fault

sys.path.append(str(OTHER_LOCKS))
from locks import locks
from writer import run

MOVES = ["write 0", "write 1", "end", "read", "value 0", "value 1", "settle 0", "settle 1"]
FIELDS = ["choosing", "ticket", "commit", "stamp0", "stamp1", "image0", "image1"]
USUAL = ["choosing", "choosing", "ticket", "commit"]
VALUES = ["c:0", "c:1", "c:-9223372036854775808", "c:9223372036854775807", "t:", "t:x"]
EVENTS = ["call read a", "fail", "withdraw", "restart"]
REPLIES = ["value c:1", "done", "sum 2", "swapped", "kept c:1", "no-name", "not-counter", "overflow", "store-full"]
REPLIES += ["last 0", "last 1"]
ANSWERS = [*REPLIES, "tickets-full 0", "stamps-full", "withdrawn"]
MARKS = [*EVENTS, "wait 0", "wait 1", "enter", "leave", "down", "settled 0", "settled 1"]
MARKS += [*(f"taken {place} {reply}" for place in (0, 1) for reply in REPLIES), *(f"answer {answer}" for answer in ANSWERS)]
# laws that an entry breaks often, and those that it breaks seldom
OFTEN, SELDOM = ["safe", "access", "marks"], ["together", "overtaken", "history"]
MOST_MARKS = 3
# a record of more lines is seldom the one that is changed
LONG = 200
SETUPS = [*locks(1).values(), *locks(2).values()]


def kept_records():
    """The lines of the records that stand in examples/ and have no fault."""
    for file in sorted([*TOP.glob("examples/*.record"), *TOP.glob("examples/records/*/record-file"), *OTHER_LOCKS.glob("*/record")]):
        try:
            head, entries = read_record(file.read_bytes())
        except Fault:
            continue
        yield head + entries


KEPT = [*kept_records()]
SHORT = [lines for lines in KEPT if len(lines) < LONG]


def any_bit(draws, processes):
    """A bit, mostly one that is there."""
    is_odd = draws.random() < 0.05
    owner, reader = draws.randrange(processes + is_odd), draws.randrange(processes + is_odd)
    field = draws.choice(FIELDS if draws.random() < 0.2 else USUAL)
    return f"{owner}.{field}.{draws.choice([1, 7, 65_535]) if is_odd else 0}.{reader}"


def any_entry(draws, processes):
    """An entry that may be anything."""
    place = f" {any_bit(draws, processes)} {draws.choice(MOVES)}" if draws.random() < 0.6 else ""
    marks = draws.choices(MARKS, k=draws.choices(range(MOST_MARKS + 1), [6, 6, 2, 1])[0])
    return " : ".join([f"{draws.randrange(processes + (draws.random() < 0.05))}{place}", *marks])


def any_command(draws, version):
    name, value, other = draws.choice("aab"), draws.choice(VALUES), draws.choice(VALUES)
    commands = [f"read {name}", f"write {name} {value}", f"add {name} {draws.randint(-1, 2)}", f"cas {name} {value} {other}"]
    return draws.choice(commands if version == 1 else [*commands, "ask"])


def likely_access(draws, past, process):
    """An access that a process may well make, if it makes one."""
    stage, now, torn = past.stage(process), past.open(process), past.torn(process)
    if now:
        return f" {bit_of(now)} {'end' if now.is_move('write') else f'value {draws.randint(0, 1)}'}"
    if torn and draws.random() < 0.6:
        return f" {bit_of(torn)} settle {draws.randint(0, 1)}"
    if stage not in (*RUNNING, "settling"):
        return ""
    owner, field, bit, reader = any_bit(draws, past.setup.processes).split(".")
    cut = [bit_of(torn) for other in past.others(process) if (torn := past.torn(other)) and torn.bit[3] == process]
    if cut and stage != "settling":
        return f" {cut[0]} read"
    if stage == "settling" or draws.random() < 0.5:
        return f" {process}.{field}.{bit}.{reader} write {draws.randint(0, 1)}"
    return f" {owner}.{field}.{bit}.{process} read"


def bit_of(part):
    return ".".join(map(str, part.bit))


def likely_mark(draws, past, process):
    """A mark that a process may well have."""
    taken = past.in_call(process, "taken")
    place, reply = past.next_taken(process) if past.calls[process] else (0, "done")
    reply = draws.choice(REPLIES) if draws.random() < 0.2 else reply
    answer = " ".join(taken.words[2:]) if taken else draws.choice(["withdrawn", "stamps-full", "tickets-full 0"])
    return draws.choice(
        {
            "idle": [*[f"call {any_command(draws, past.setup.version)}"] * 8, "restart"],
            "doorway": ["wait 0", "wait 1", "answer stamps-full"],
            "waiting": ["enter", "enter", "enter", "withdraw"],
            "inside": [f"taken {place} {reply}", "leave"],
            "leaving": [f"answer {answer}", f"answer {answer}", f"answer {draws.choice(REPLIES)}"],
            "settling": ["settled 0", "settled 1", "leave", f"taken {place} {reply}", "down", "down", "call ask"],
            "down": ["restart", "restart", "call read a"],
        }[past.stage(process)]
    )


def likely_entry(draws, past):
    """An entry that a process may well make. Who fails does so mostly within a write, or inside."""
    process = draws.randrange(past.setup.processes)
    now, is_inside = past.open(process), past.inside(process) is not None
    if draws.random() < (0.08 if is_inside or now and now.is_move("write") else 0.01):
        return f"{process} : fail"
    mark, is_alone = likely_mark(draws, past, process), draws.random() < 0.4
    access = "" if is_alone or mark.startswith(tuple(EVENTS)) else likely_access(draws, past, process)
    return f"{process}{access}" + f" : {mark}" * (not access or draws.random() < 0.4)


def drawn_record(draws):
    """A record that keeps the laws, and behind it an entry that may break one."""
    version, processes, slots = draws.randint(1, 2), draws.choice([1, 2, 2, 2, 3]), draws.randint(1, 2)
    opening = [f"open a {draws.choice(VALUES)}"] if version == 2 and draws.random() < 0.5 else []
    head = [f"record {version}", f"processes {processes}", "tickets 1", "stamps 1", f"slots {slots}", *opening]
    past, lines = Past(Setup(head)), []
    wanted, least = draws.choice([*OFTEN, *SELDOM]), draws.randint(5, 100)
    for tries in range(160):
        line, law = candidate(draws, past, len(lines))
        if law is None:
            lines.append(line)
            for part in entry_from(len(lines) - 1, line).parts():
                past.add(part)
        elif law == wanted and (tries > least or law in SELDOM):
            return [*head, *lines, line]
    return [*head, *lines]


def candidate(draws, past, number):
    """An entry, and the law that it breaks as the next one, or None."""
    line = any_entry(draws, past.setup.processes) if draws.random() < 0.05 else likely_entry(draws, past)
    return line, broken_law(past, entry_from(number, line))


def record_of_a_lock(draws):
    """A run of a lock."""
    lock = draws.choice(SETUPS)
    choices = [(draws.randrange(lock.processes), draws.randint(0, 1)) for _ in range(draws.randint(10, 120))]
    head = ["record 1", f"processes {lock.processes}", f"tickets {lock.tickets}", "stamps 1", "slots 1"]
    return head + run(lock.lock, choices, lock.processes, lock.calls)


def changed_entry(draws, line, processes):
    """An entry with one thing changed."""
    place, *marks = line.split(" : ")
    words = place.split(" ")
    what = draws.randrange(6)
    if what == 0 and len(words) > 1 and words[-1] in "01":
        words[-1] = str(1 - int(words[-1]))
    elif what == 1 and len(words) > 1:
        words[2:] = [draws.choice(MOVES)]
    elif what == 2 and len(words) > 1:
        words[1] = any_bit(draws, processes)
    elif what == 3:
        words[0] = str(draws.randrange(processes + 1))
    elif what == 4 and marks:
        marks[draws.randrange(len(marks))] = draws.choice(MARKS)
    elif marks and draws.random() < 0.5:
        marks.pop(draws.randrange(len(marks)))
    else:
        marks.append(draws.choice(MARKS))
    return " : ".join([" ".join(words), *marks[:MOST_MARKS]])


def changed(draws, lines):
    """A record with some entries changed, and now and then a line that is skipped."""
    head = [line for line in lines if not line[:1].isdigit()]
    entries, processes = lines[len(head) :], int(dict(line.split()[:2] for line in head if " " in line).get("processes", 2))
    for _ in range(draws.choice([1, 1, 1, 2, 3]) if entries else 0):
        at = draws.randrange(len(entries))
        entries[at : at + 2] = draws.choice(
            [
                entries[at + 1 : at + 2],
                [entries[at], *entries[at : at + 2]],
                entries[at : at + 2][::-1],
                [changed_entry(draws, entries[at], processes), *entries[at + 1 : at + 2]],
                [changed_entry(draws, entries[at], processes), *entries[at + 1 : at + 2]],
                [any_entry(draws, processes), *entries[at : at + 2]],
            ]
        )
        entries = entries or [any_entry(draws, processes)]
    if entries and draws.random() < 0.2:
        entries.insert(draws.randrange(len(entries)), draws.choice(["", "# a comment", "  \t "]))
    return head + entries


def record(number):
    """The text of the record of this number."""
    draws = random.Random(number)
    if number % 3 == 0:
        lines = drawn_record(draws)
    elif number % 3 == 1:
        lines = changed(draws, record_of_a_lock(draws))
    else:
        lines = changed(draws, draws.choice(KEPT if draws.random() < 0.05 else SHORT))
    return "".join(f"{line}\n" for line in lines).encode()
