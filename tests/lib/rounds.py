"""Rounds of boards, as the part `rounds` of the program `workloads` plays them, which `rt ci` or `rt run` leaves."""

import re
import subprocess

from lib.places import WORKLOADS
from second.finished_calls import Left

SETUP = re.compile(r"version (\d+) processes (\d+) tickets (\d+) stamps (\d+) slots (\d+)")
DRIVE = re.compile(r"drive (\d+): (answered .+|turns|down|idle)")
CALL = re.compile(r"(\d+) (\d+|-) (.*) = (.*)")
# the end of a round in which a call is left open
OPEN = "a process is at work"


def play(scenario, by_turns=0):
    """The run in which the ports of a board carry out the lines of a scenario, so many by turns, and those behind on threads."""
    return subprocess.run([WORKLOADS, "rounds", scenario, str(by_turns)], capture_output=True, text=True)


def add_line(told, line):
    """Adds what a line between the setup and the verdict has: an opening pair, a drive, a finished call, or the image."""
    if line.startswith("open "):
        told.opening.append(tuple(line.split()[1:]))
    elif line.startswith("image "):
        told.end = line.split()[1]
    elif line.startswith("drive "):
        process, driven = DRIVE.fullmatch(line).groups()
        told.drives[int(process)].append(driven)
    else:
        process, place, command, answer = CALL.fullmatch(line).groups()
        place, answer = None if place == "-" else int(place), None if answer == "-" else answer
        told.add(int(process), place, command.split(), answer)


def read_round(lines):
    """What a round has left, from its lines, and in version 1 what weighing says of it, else None."""
    version, processes, _, _, slots = map(int, SETUP.fullmatch(lines[0]).groups())
    told = Left(version, processes, slots)
    told.lists, told.drives = ([[] for _ in range(processes)] for _ in range(2))
    weighed = lines[-1] if version == 1 else None
    for line in lines[1:-1] if version == 1 else lines[1:]:
        add_line(told, line)
    return told, weighed
