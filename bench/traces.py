#!/usr/bin/env python3
"""Writes traces for timing into a folder, each with about the given number of entries (15 million if none is given).

`tickets-N`: a ticket lock of N processes in atomic memory. In each round all of them call and draw a ticket by `add`, and while
one is inside, each process behind it reads `serving` once.

`flags-safe` and `flags-regular`: a lock of two processes with a flag each, in safe and in regular memory. Each write and each
read has a begin and an end, and process 1 reads the flag of process 0 while that flag is being written.
"""

import argparse
import itertools
import pathlib

MEGA = 1_000_000


def tickets(processes):
    """The entries of the ticket lock, one after the other."""
    for round_number in itertools.count():
        first = round_number * processes
        yield from (f"{p} : call" for p in range(processes))
        yield from (f"{p} next add 1 gives {first + p} : wait" for p in range(processes))
        for p in range(processes):
            yield f"{p} serving get {first + p} : enter"
            yield from (f"{q} serving get {first + p}" for q in range(p + 1, processes))
            yield f"{p} serving set {first + p + 1} : leave : answer"


def flags():
    """The entries of the lock with flags, one after the other."""
    write = lambda p, value, marks="": (f"{p} flag[{p}] write {value}", f"{p} flag[{p}] end{marks}")
    read = lambda p, value, marks="": (f"{p} flag[{1 - p}] read", f"{p} flag[{1 - p}] value {value}{marks}")
    while True:
        yield "0 : call"
        yield "1 : call"
        yield from write(1, 1)
        begin, end = write(0, 1, " : wait")
        look, seen = read(1, 0, " : wait : enter")
        yield from (begin, look, seen, end)
        yield from read(0, 1)
        yield from read(0, 1)
        yield from write(1, 0, " : leave : answer")
        yield from read(0, 0, " : enter")
        yield from write(0, 0, " : leave : answer")


def traces():
    """The heading lines and the entries of each trace, by its name."""
    shared = "memory atomic\nshared next 32\nshared serving 32"
    for processes in (2, 16):
        yield f"tickets-{processes}", f"trace 1\nprocesses {processes}\n{shared}", tickets(processes)
    for memory in ("safe", "regular"):
        yield f"flags-{memory}", f"trace 1\nmemory {memory}\nregister flag 1", flags()


def main():
    words = argparse.ArgumentParser(description=__doc__, formatter_class=argparse.RawDescriptionHelpFormatter)
    words.add_argument("folder", type=pathlib.Path)
    words.add_argument("entries", type=int, nargs="?", default=15 * MEGA)
    asked = words.parse_args()
    for name, head, entries in traces():
        with open(asked.folder / name, "w", encoding="ascii") as file:
            file.write(f"{head}\n")
            file.writelines(f"{entry}\n" for entry in itertools.islice(entries, asked.entries))


if __name__ == "__main__":
    main()
