#!/usr/bin/env python3
"""Races files that it draws, and judges what each race leaves.

soak_races.py [--races N] [--first K] [--keep FOLDER]: so many races, 2,000 if not said, from the one of number K on, 1 if not
said. A file is drawn from its number: a setup of either version, of 2 to 16 processes and 1 to 32 ticket bits, and the calls
of each process, among lines that `race` passes over. How the threads meet is not drawn. The proved program races the file,
which `rt ci` or `rt run` leaves; the judge is `second/finished_calls.py`, a second reading of what the answers and the store
at the end are to be, which shares nothing with it. Of each good race it judges copies too in which a reply or the store is
another one, and has to find these bad. A file whose race is not good is kept in the folder, `soak` if none is named, with what
was printed. By hand: the races take some minutes, on all cores.
"""

import pathlib
import random
import re
import subprocess
import sys
from dataclasses import dataclass

sys.path.insert(0, str(pathlib.Path(__file__).resolve().parents[1]))

from lib.places import PROGRAM
from lib.soaks import CHANGED_COPIES, finds_changes, soak
from second.finished_calls import Left, follow, verdict
from second.store import Store

ANSWER = re.compile(r"(\d+) (\d+|-) (.+)")
NAMES = "aaaabc"
VALUES = ["c:0", "c:1", "c:2", "c:3", "c:9223372036854775807", "t:text", "t:"]
PASSED_OVER = ["show", "flick 1", "flick pcg 3", "wander 100", "go 0 idle", "step 1 50", "fail 1", "restart 1", "# others", ""]
FULL = ("tickets-full", "stamps-full")
FIGURES = ["calls", "refused", "changes", "races in which processes took turns", *FULL, CHANGED_COPIES]
SECONDS = 300


@dataclass
class Race:
    """A file, and what it says: its setup, the plan of each process, and the calls of processes that are not there."""

    text: str
    left: Left
    stamps: int
    plans: list
    strangers: list


def draw_command(draws, version):
    name, value, other = draws.choice(NAMES), draws.choice(VALUES), draws.choice(VALUES)
    add = f"add {name} {draws.randint(-1, 3)}"
    write = f"write {name} {value}"
    commands = [f"read {name}", write, write, f"cas {name} {value} {other}", add, add, add]
    return draws.choice(commands if version == 1 else [*commands, "ask"])


def draw_lines(draws, plans, strangers):
    """The calls in an order that keeps each plan's, among other lines."""
    turns = [(process, f"call {process} {command}") for process, plan in enumerate(plans) for command in plan]
    order = [process for process, _ in turns]
    draws.shuffle(order)
    calls = {process: iter([line for owner, line in turns if owner == process]) for process in set(order)}
    lines = [next(calls[process]) for process in order]
    at = sorted(draws.randint(0, len(lines)) for _ in strangers)
    for place, process in reversed(list(zip(at, strangers))):
        lines.insert(place, f"call {process} write a c:7")
    for _ in range(draws.randint(0, 4)):
        lines.insert(draws.randint(0, len(lines)), draws.choice(PASSED_OVER))
    return lines


def draw(number):
    """The race of this number."""
    draws = random.Random(number)
    version = draws.randint(1, 2)
    most_processes, most_bits = (8, 16) if version == 1 else (16, 32)
    processes, slots = draws.randint(2, most_processes), draws.randint(1, 8)
    tickets, stamps = (draws.choice([1, 2, 3, draws.randint(1, most_bits), draws.randint(1, most_bits)]) for _ in range(2))
    names = draws.sample(sorted(set(NAMES)), min(slots, draws.randint(0, 2))) if version == 2 else []
    opening = [(name, draws.choice(VALUES)) for name in names]
    plans = [[draw_command(draws, version) for _ in range(draws.randint(0, 4))] for _ in range(processes)]
    strangers = [draws.randint(processes, 255) for _ in range(draws.choice([0, 0, 1, 2]))]
    heads = [f"bakery {version}", f"processes {processes}", f"tickets {tickets}", f"stamps {stamps}", f"slots {slots}"]
    lines = [*heads, *(f"open {name} {value}" for name, value in opening), *draw_lines(draws, plans, strangers)]
    left = Left(version, processes, slots, opening, [[] for _ in range(processes)])
    return Race("".join(f"{line}\n" for line in lines), left, stamps, plans, strangers)


def read(race, text):
    """Reads what was printed into what the race has left; its verdict, or what is wrong with the lines."""
    lines, refused = text.splitlines(), [f"- {process} refused no-process" for process in race.strangers]
    if lines[: len(refused)] != refused:
        return "refusals"
    calls = [(process, command) for process, plan in enumerate(race.plans) for command in plan]
    answers = lines[len(refused) : -2]
    if len(answers) != len(calls) or not text.endswith("\n"):
        return "lines"
    for (process, command), line in zip(calls, answers):
        found = ANSWER.fullmatch(line)
        if found is None or found[1] != str(process):
            return f"line {line}"
        race.left.add(process, None if found[2] == "-" else int(found[2]), command.split(), found[3])
    race.left.end = lines[-2]
    return lines[-1]


def limits(race, changes):
    """`good`, if the stamps suffice for the changes, and calls ended for want of them only where they did not."""
    answers = {call.answer for calls in race.left.lists for call in calls if not call.has_reply()}
    full = {f"tickets-full {process}" for process in range(race.left.processes)}
    if changes > 2**race.stamps - 1 or ("stamps-full" in answers and changes < 2**race.stamps - 1):
        return "stamps"
    return "good" if answers <= {*full, "stamps-full"} else "answers"


def took_turns(race, stores):
    """Whether a process changed the store, then another one, and then the first again."""
    calls = [call for calls in race.left.lists for call in calls if call.is_taken()]
    changes = sorted((call.place, call.process) for call in calls if stores[call.place].is_changed_by(call))
    blocks = [process for at, (_, process) in enumerate(changes) if at == 0 or changes[at - 1][1] != process]
    return len(blocks) > len(set(blocks))


def judge(race, ran, figures):
    """`good`, or what is wrong with a race."""
    told = read(race, ran.stdout)
    stores, _ = follow(race.left)
    found = [told, verdict(race.left, Store.shown), limits(race, len(stores) - 1)]
    if (found, ran.returncode, ran.stderr) != (["good"] * 3, 0, ""):
        return f"status {ran.returncode}, {', '.join(found)}"
    calls = [call for calls in race.left.lists for call in calls]
    figures["calls"] += len(calls)
    figures["refused"] += len(race.strangers)
    figures["changes"] += len(stores) - 1
    figures["races in which processes took turns"] += took_turns(race, stores)
    for answer in FULL:
        figures[answer] += sum(call.answer.split()[0] == answer for call in calls)
    return "good" if finds_changes(race.left, Store.shown, figures) else "good, and so is a changed copy"


def run(race):
    """The program on the file, as far as it came."""
    try:
        return subprocess.run([PROGRAM, "race", "-"], input=race.text, capture_output=True, text=True, timeout=SECONDS)
    except subprocess.TimeoutExpired as late:
        return subprocess.CompletedProcess(late.cmd, 1, "", f"no end within {SECONDS} seconds\n")


def play(number, figures):
    """Races the file of this number: what to keep of it, and `good`, or what is wrong."""
    race = draw(number)
    ran = run(race)
    return f"{race.text}{ran.stdout}{ran.stderr}", judge(race, ran, figures)


if __name__ == "__main__":
    soak(__doc__, "race", play, FIGURES)
