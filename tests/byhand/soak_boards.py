#!/usr/bin/env python3
"""Drives ports on threads, cuts their calls by failures at random turns, and judges what each round leaves.

soak_boards.py [--rounds N] [--first K] [--keep FOLDER]: so many rounds, 2,000 if not said, from the one of number K on, 1 if
not said. A round is drawn from its number; how its threads meet is not. The rounds are played by the part `rounds` of the
program `workloads`, which `rt ci` or `rt run` leaves, each in a run of its own; the judge is `second/finished_calls.py`, a
second reading of what lists of finished calls and an image are to be, which shares nothing with it; in version 1 the program's
own verdict has to be the same. Of each good round it judges copies too in which a reply or the image is another one, and has to find these bad. The output of a round that is not
good is kept in the folder, `soak` if none is named. By hand: the rounds take some minutes, on all cores.
"""

import pathlib
import random
import sys
from dataclasses import dataclass

sys.path.insert(0, str(pathlib.Path(__file__).resolve().parents[1]))

from lib.rounds import play as played
from lib.rounds import read_round
from lib.soaks import CHANGED_COPIES, finds_changes, soak
from second.finished_calls import verdict
from second.store import OTHER_ANSWERS, Call, Store

FIGURES = ["calls", "replies", "failures", "cut and taken", "cut and not taken", *OTHER_ANSWERS, CHANGED_COPIES]

# mostly `a`, so that most calls meet others at it, and small stores get full
NAMES = "aaaaaabc"
VALUES = ["c:9223372036854775807", "t:text", "c:0", "c:1", "c:2", "c:3"]


def draw_command(draws, version):
    name, value, other = draws.choice(NAMES), draws.choice(VALUES), draws.choice(VALUES)
    write, add = f"write {name} {value}", f"add {name} {draws.randint(0, 3)}"
    commands = [f"read {name}", f"cas {name} {value} {other}", write, write, add, add, add]
    return draws.choice(commands if version == 1 else [*commands, "ask"])


@dataclass
class Turns:
    """How many turns the parts of a call have, each a word step: a read of a bit has one, and a write two for each process."""

    doorway: int
    # inside, before the write of the commit bit: stamps and an image are read, and the other image and its stamp are written
    before_commit: int
    commit: int

    @classmethod
    def of(cls, version, processes, tickets, stamps, slots):
        image = 184 * slots + (16 * processes if version == 2 else 0)
        return cls(processes * (4 + 3 * tickets), processes * (1 + 3 * stamps + 2 * image) + image, 2 * processes)


def draw_end(draws, turns):
    """What becomes of a call: it is given all its turns; or is cut in its doorway, inside before the write of its commit bit, or in
    that write, if it has one, and up to its end; or is given up where it waits after some turns."""
    kind = draws.randrange(8)
    if kind < 2:
        return ["go @ idle"]
    if kind == 7:
        return [f"step @ {turns.doorway + draws.randint(0, 100)}", "withdraw @", "go @ idle"]
    if kind == 2:
        steps = [f"step @ {draws.randint(0, turns.doorway)}"]
    elif kind < 5:
        steps = ["go @ inside", f"step @ {draws.randint(0, turns.before_commit)}"]
    else:
        steps = ["go @ inside", f"step @ {turns.before_commit + draws.randint(0, turns.commit)}"]
    return [*steps, "fail @", "go @ down", "restart @"]


def draw_plan(draws, version, turns):
    """One to five calls of a process, of which a failure of the last may leave it down."""
    lines = [draws.choice(["flick 0", "flick 1", *[f"flick pcg {draws.randrange(1_000_000)}"] * 2])]
    for _ in range(draws.randint(1, 5)):
        lines += [f"call @ {draw_command(draws, version)}", *draw_end(draws, turns)]
    return lines[:-1] if lines[-1] == "restart @" and draws.random() < 0.5 else lines


def draw(number):
    """The scenario of the round of this number, and how many calls each process makes."""
    draws = random.Random(number)
    version = draws.randint(1, 2)
    most_processes, most_bits = (8, 16) if version == 1 else (16, 32)
    processes, slots = draws.randint(2, most_processes), draws.randint(1, 8)
    tickets, stamps = (draws.randint(1, most_bits) for _ in range(2))
    lines = [f"bakery {version}", f"processes {processes}", f"tickets {tickets}", f"stamps {stamps}", f"slots {slots}"]
    if version == 2 and draws.random() < 0.5:
        lines.append(f"open {draws.choice(NAMES)} {draws.choice(VALUES)}")
    turns = Turns.of(version, processes, tickets, stamps, slots)
    plans = [draw_plan(draws, version, turns) for _ in range(processes)]
    lines += [line.replace("@", str(process)) for process, plan in enumerate(plans) for line in plan]
    return "\n".join(lines) + "\n", [sum(line.startswith("call") for line in plan) for plan in plans]


def count(told, figures):
    """What was tried."""
    calls = [call for calls in told.lists for call in calls]
    cut = [call for call in calls if call.answer is None]
    figures["calls"] += len(calls)
    figures["replies"] += sum(map(Call.has_reply, calls))
    figures["failures"] += len(cut)
    figures["cut and taken"] += sum(map(Call.is_taken, cut))
    figures["cut and not taken"] += sum(not call.is_taken() for call in cut)
    for answer in OTHER_ANSWERS:
        figures[answer] += sum((call.answer or "-").split()[0] == answer for call in calls)


def run(number):
    """The scenario and the lines of a round; what it leaves, if it came to its end and each call has its entry; and in version 1
    what weighing says of that."""
    scenario, calls = draw(number)
    ran = played(scenario)
    lines, kept = ran.stdout.splitlines(), f"{scenario}\n{ran.stdout}{ran.stderr}"
    if ran.returncode != 0 or not lines:
        return kept, None, None
    told, weighed = read_round(lines)
    is_whole = told.end != "" and [len(entries) for entries in told.lists] == calls
    return kept, told if is_whole else None, weighed


def play(number, figures):
    """Plays the round of this number: what to keep of it, and `good`, or what is wrong."""
    text, told, weighed = run(number)
    if told is None:
        return text, "no round"
    count(told, figures)
    found = verdict(told, Store.image)
    if weighed not in (None, found):
        found = f"{found}, and weighed {weighed}"
    if found == "good" and not finds_changes(told, Store.image, figures):
        found = "good, and so is a changed copy"
    return text, found


if __name__ == "__main__":
    soak(__doc__, "round", play, FIGURES)
