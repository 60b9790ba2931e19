#!/usr/bin/env python3
"""Writes records of a lock on safe bits until `judge --any-lock` calls one bad, and shortens that one.

A lock is a function of a process and of their number that says for ever what the process does: accesses, by `read` and `write`,
and marks, which are texts. A mark stands with the access before it, `leave` with the one behind it, `call` and `taken` alone; and
`taken` gets its place. Whose turn it is, and what a read gives that a write overlaps, is drawn from a seed. This file runs the
one-bit lock; a lock of your own is run by a file from `from writer import main, read, write` to `main(your_lock)`.
"""

import argparse
import pathlib
import random
import shutil
import subprocess
import sys

from driver import Mistake, Unmade, end_with_reader, resume, started, whole, wrong_yield

TOP = pathlib.Path(__file__).resolve().parent.parent.parent
# the programs that judge, where the second judge of the repository is missing
PROGRAMS = [TOP / "bin" / "bakerystore", TOP / "crates" / "bakerystore" / "out" / "bakerystore", "bakerystore"]
# more marks than an entry may have
MANY_MARKS = 4
# the registers of a record, and the most bits that each may have
FIELDS = {"choosing": 1, "commit": 1, "ticket": 32, "stamp0": 32, "stamp1": 32, "image0": 1472, "image1": 1472}


def one_bit(me, processes):
    """The one-bit lock (Burns and Lynch 1993; Lamport 1986b): whoever has the higher number gives way."""
    while True:
        yield "call read a"
        waits = is_through = False
        while not is_through:
            yield from write(me, "choosing", 1, processes)
            if not waits:
                yield "wait 0"
            waits = is_through = True
            for lower in range(me):
                if (yield from read(lower, "choosing", me)):
                    yield from write(me, "choosing", 0, processes)
                    while (yield from read(lower, "choosing", me)):
                        pass
                    is_through = False
                    break
        for higher in range(me + 1, processes):
            while (yield from read(higher, "choosing", me)):
                pass
        yield "enter"
        yield "taken no-name"
        yield "leave"
        yield from write(me, "choosing", 0, processes)
        yield "answer no-name"


def write(me, field, value, processes, width=1):
    """Writes an own register: of each bit the copy of each other process."""
    check(field, width)
    if whole(value, "the value of write({}, \"{}\", ..)", me, field) >= 2**width:
        raise Mistake(f"write({me}, \"{field}\", {value}, ..) writes {width} of the bits of {value}; its last argument is the number of bits")
    return Unmade(f"write({me}, \"{field}\", {value}, ..)", writing(me, field, value, processes, width))


def read(owner, field, me, width=1):
    """Reads the own copies of another's register."""
    check(field, width)
    return Unmade(f"read({owner}, \"{field}\", ..)", reading(owner, field, me, width))


def check(field, width):
    if field not in FIELDS:
        raise Mistake(f"a record has no field `{field}`; the fields are {', '.join(FIELDS)}")
    if width > FIELDS[field]:
        raise Mistake(f"the field `{field}` has at most {FIELDS[field]} bits")


def writing(me, field, value, processes, width):
    for bit in range(width):
        for reader in range(processes):
            if reader != me:
                yield f"{me}.{field}.{bit}.{reader}", f"write {value >> bit & 1}"
                yield f"{me}.{field}.{bit}.{reader}", "end"


def reading(owner, field, me, width):
    value = 0
    for bit in range(width):
        yield f"{owner}.{field}.{bit}.{me}", "read"
        value |= (yield f"{owner}.{field}.{bit}.{me}", "value") << bit
    return value


class Process:
    """A process of a lock: `next` is the access or the mark that it makes next."""

    def __init__(self, lock, me, processes):
        self.lock = started(lock, me, processes)
        self.next = self.pull()

    def begins(self, *words):
        return isinstance(self.next, str) and self.next.startswith(words)

    def take(self, value=None):
        taken, self.next = self.next, self.pull(value)
        return taken

    def pull(self, value=None):
        """What the lock yields next."""
        found = resume(self.lock, value)
        if isinstance(found, str) or isinstance(found, tuple) and len(found) == 2:
            return found
        raise wrong_yield(self.lock, found, "marks, which are texts, and accesses by `yield from`")

    def step(self, value):
        """Makes its next entry, in which a read ends, or a cut write is settled, with this value: its bit, move and marks."""
        bit, move, is_call = "", "", self.begins("call")
        marks = [self.take()] if self.begins("") else []
        if marks in ([], ["leave"]) and not self.begins(""):
            is_value = self.next[1] in ("value", "settle")
            bit, move = self.take(value if is_value else None)
            move += f" {value}" * is_value
        while not is_call and self.begins("wait", "enter", "answer", "down") and len(marks) < MANY_MARKS:
            marks.append(self.take())
        return bit, move, marks


def run(lock, choices, processes, calls):
    """The lines of a run in which these processes go on in turn, each with what a read gives that a write overlaps."""
    those, left, lines, taken = [Process(lock, me, processes) for me in range(processes)], [calls] * processes, [], 0
    values, writes, overlapped = {}, set(), {}
    for me, flick in choices:
        left[me] -= those[me].begins("call")
        if left[me] < 0:
            continue
        bit = those[me].next[0]
        bit, move, marks = those[me].step(flick if overlapped.get(bit) else values.get(bit, 0))
        if move == "read":
            overlapped[bit] = bit in writes
        elif move == "end":
            writes.discard(bit)
        elif move.startswith("write"):
            values[bit], overlapped[bit] = int(move[-1]), True
            writes.add(bit)
        if marks and marks[0].startswith("taken"):
            marks[0], taken = f"taken {taken}{marks[0][5:]}", taken + 1
        lines.append(" : ".join([f"{me} {bit} {move}".strip(), *marks]))
    return lines


def shortened(choices, is_wanted):
    """The choices without some of one process that follow one another, as often as that leaves what is wanted."""
    for many in [200, 50, 12, 8, 6, 4, 3, 2, 1] * 2:
        at = 0
        while at < len(choices):
            own = [place for place in range(at, len(choices)) if choices[place][0] == choices[at][0]][:many]
            fewer = [choice for place, choice in enumerate(choices) if place not in own]
            choices, at = (fewer, at) if is_wanted(fewer) else (choices, at + 1)
    return choices


def verdict(text):
    """The verdict of `judge --any-lock` on a record, or its fault. The second judge of the repository finds it; without the
    repository the program does."""
    try:
        sys.path.append(str(TOP / "tests"))
        from second.any_lock import any_lock
    except ModuleNotFoundError:
        program = next(filter(None, (shutil.which(program) for program in PROGRAMS)), None)
        if program is None:
            sys.exit("writer.py: put the program bakerystore on the path; it judges the records")
        run = subprocess.run([program, "judge", "--any-lock", "-"], input=text, capture_output=True)
        return run.stdout.decode(), run.stderr.decode()
    _, told, fault = any_lock(text)
    return told.decode(), fault.decode()


def main(lock, tickets=1):
    try:
        draw(lock, tickets)
    except Mistake as mistake:
        sys.exit(f"writer.py: {mistake}")


def draw(lock, tickets):
    parser = argparse.ArgumentParser(description=__doc__, formatter_class=argparse.RawDescriptionHelpFormatter)
    for name, default in [("processes", 2), ("calls", 2), ("entries", 200), ("seed", 1), ("seeds", 1000)]:
        parser.add_argument(f"--{name}", type=int, default=default)
    parser.add_argument("--law", help="the law to be broken, as `together`; or `good`: none, and nothing is shortened")
    said = parser.parse_args()
    head = ["record 1", f"processes {said.processes}", f"tickets {tickets}", "stamps 1", "slots 1"]
    record = lambda choices: "".join(f"{line}\n" for line in head + run(lock, choices, said.processes, said.calls))

    def law(choices):
        told, fault = verdict(record(choices).encode())
        if fault:
            sys.exit(f"{record(choices)}{fault}")
        return told.split()[-1] if told.startswith("bad") else "good"

    for seed in range(said.seed, said.seed + said.seeds):
        draws = random.Random(seed)
        choices = [(int(draws.random() * said.processes), int(draws.random() * 2)) for _ in range(said.entries)]
        if (found := law(choices)) == said.law or said.law is None and found != "good":
            few = choices if found == "good" else shortened(choices, lambda fewer: law(fewer) == found)
            # (not before: the program that judges may end before it has read its input)
            end_with_reader()
            return print(record(few), end="", flush=True)
    sys.exit(f"no such record from {said.seeds} seeds")


if __name__ == "__main__":
    main(one_bit)
