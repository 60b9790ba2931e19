#!/usr/bin/env python3
"""Locks on bits that one process writes and another reads, right ones and broken ones, as writer.py runs them and search.py
searches them. locks.py NAME writes a bad record of one; behind the name stand the options of the writer.
"""

import sys
from typing import NamedTuple

from writer import main, one_bit, read, write


class Lock(NamedTuple):
    """A lock with what it is searched by: so many processes, calls of each, and bits of a ticket; and the registers that the memory
    unit of a failed process clears, or who withdraws, if that is told: their fields and bits."""

    lock: object
    processes: int = 2
    calls: int = 2
    tickets: int = 1
    clears: tuple = ()


def until(values, owner, field, me, width=1):
    """Reads a register until it has one of these values."""
    while (yield from read(owner, field, me, width)) not in values:
        pass


def section(me, processes, field="choosing", value=0, width=1):
    """Inside, and out of it by a write of this register."""
    yield "enter"
    yield "taken no-name"
    yield "leave"
    yield from write(me, field, value, processes, width)
    yield "answer no-name"


def others(me, processes):
    return tuple(other for other in range(processes) if other != me)


def no_lock(me, processes):
    """Goes in."""
    while True:
        yield "call read a"
        yield from write(me, "choosing", 1, processes)
        yield "wait 0"
        yield from section(me, processes)


def look_then_raise(me, processes):
    """Looks until the others' flags are down, and then raises its own."""
    while True:
        yield "call read a"
        for other in others(me, processes):
            yield from until((0,), other, "choosing", me)
        yield from write(me, "choosing", 1, processes)
        yield "wait 0"
        yield from section(me, processes)


def flags(whom):
    """A lock that raises its flag, and waits until the flags of these are down."""

    def lock(me, processes):
        while True:
            yield "call read a"
            yield from write(me, "choosing", 1, processes)
            yield "wait 0"
            for other in whom(me, processes):
                yield from until((0,), other, "choosing", me)
            yield from section(me, processes)

    return lock


def one_bit_raised_again(me, processes):
    """The one-bit lock, that raises its flag once more before it goes in."""
    lock = one_bit(me, processes)
    step = next(lock)
    while True:
        if step == "enter":
            yield from write(me, "choosing", 1, processes)
        step = lock.send((yield step))


def by_turns(me, processes):
    """Strict turns of two: each has a bit, and it is the turn of 0 while the bits are alike."""
    own = 0
    while True:
        yield "call read a"
        is_mine = (yield from read(1 - me, "commit", me)) ^ own == me
        yield "wait 0"
        while not is_mine:
            is_mine = (yield from read(1 - me, "commit", me)) ^ own == me
        own = 1 - own
        yield from section(me, processes, "commit", own)


def two_turns(is_saving):
    """The lock of Kessels (1982) for two: Peterson's, whose turn has a bit of each. A saving one writes its bit only where that
    changes it."""

    def lock(me, processes):
        own = 0
        while True:
            yield "call read a"
            yield from write(me, "choosing", 1, processes)
            turn = (yield from read(1 - me, "commit", me)) ^ me
            if turn != own or not is_saving:
                own = turn
                yield from write(me, "commit", own, processes)
            yield "wait 0"
            while (yield from read(1 - me, "choosing", me)):
                if (yield from read(1 - me, "commit", me)) ^ own != me:
                    break
            yield from section(me, processes)

    return lock


def flags_of_five(me, processes):
    """The lock of Szymanski (1988): a flag of five values, each in three bits."""
    while True:
        yield "call read a"
        yield from write(me, "ticket", 1, processes, 3)
        yield "wait 1"
        for other in others(me, processes):
            yield from until((0, 1, 2), other, "ticket", me, 3)
        yield from write(me, "ticket", 3, processes, 3)
        sees = []
        for other in others(me, processes):
            sees.append((yield from read(other, "ticket", me, 3)))
        if 1 in sees:
            yield from write(me, "ticket", 2, processes, 3)
            while 4 not in sees:
                sees = []
                for other in others(me, processes):
                    sees.append((yield from read(other, "ticket", me, 3)))
        yield from write(me, "ticket", 4, processes, 3)
        for other in range(me):
            yield from until((0, 1), other, "ticket", me, 3)
        yield "enter"
        yield "taken no-name"
        for other in range(me + 1, processes):
            yield from until((0, 1, 4), other, "ticket", me, 3)
        yield "leave"
        yield from write(me, "ticket", 0, processes, 3)
        yield "answer no-name"


def bakery(width, doorway="crtC", looks="ct", has_ties=True):
    """The bakery lock (Lamport 1974) with tickets of so many bits. The steps of its doorway: `c` it is choosing, `r` it reads the
    tickets, `t` it writes its own, `C` it has chosen. It looks, of each other, at `c` until that is not choosing, and at `t`
    until that has no ticket before its own."""

    def lock(me, processes):
        while True:
            yield "call read a"
            greatest, is_choosing = 0, False
            for step in doorway:
                is_full = greatest + 1 == 2**width
                if step == "r":
                    for other in others(me, processes):
                        ticket = yield from read(other, "ticket", me, width)
                        greatest, lowest = (ticket, other) if ticket > greatest else (greatest, 0)
                elif step == "t" and not is_full:
                    yield from write(me, "ticket", greatest + 1, processes, width)
                elif step == "C" and is_choosing or step == "c" and not is_full:
                    is_choosing = step == "c"
                    yield from write(me, "choosing", int(is_choosing), processes)
            if greatest + 1 == 2**width:
                yield f"answer tickets-full {lowest}"
                continue
            yield f"wait {greatest + 1}"
            for other in others(me, processes):
                behind = tuple(it for it in range(1, 2**width) if (it, other * has_ties) >= (greatest + 1, me * has_ties))
                for look in looks:
                    if look == "c":
                        yield from until((0,), other, "choosing", me)
                    else:
                        yield from until((0, *behind), other, "ticket", me, width)
            yield from section(me, processes, "ticket", 0, width)

    return lock


def locks(tickets=2):
    """All locks by their names; the bakeries have tickets of so many bits."""
    bakeries = {
        "bakery": bakery(tickets),
        "bakery-without-choosing": bakery(tickets, "rt", "t"),
        "bakery-without-ties": bakery(tickets, has_ties=False),
        "bakery-choosing-late": bakery(tickets, "rtcC"),
        "bakery-choosing-ends-early": bakery(tickets, "crCt"),
        "bakery-ticket-first": bakery(tickets, looks="tc"),
    }
    flag = (("choosing", 1),)
    return {
        "no-lock": Lock(no_lock),
        "look-then-raise": Lock(look_then_raise),
        "raise-then-look": Lock(flags(others), clears=flag),
        "lower-numbers-only": Lock(flags(lambda me, processes: range(me))),
        "next-only": Lock(flags(lambda me, processes: [(me + 1) % processes]), processes=3, calls=1),
        "one-bit": Lock(one_bit, clears=flag),
        "one-bit-raised-again": Lock(one_bit_raised_again),
        "by-turns": Lock(by_turns),
        "kessels": Lock(two_turns(is_saving=False)),
        "kessels-saving": Lock(two_turns(is_saving=True)),
        "flags-of-five": Lock(flags_of_five, calls=1, tickets=3),
        **{name: Lock(lock, calls=1, tickets=tickets, clears=(("ticket", tickets), *flag)) for name, lock in bakeries.items()},
    }


if __name__ == "__main__":
    chosen = locks().get(sys.argv.pop(1)) if len(sys.argv) > 1 else None
    if chosen is None:
        sys.exit(f"usage: locks.py NAME [OPTIONS], where NAME is one of: {', '.join(locks())}")
    # (options that are given stand behind these, and count)
    sys.argv[1:1] = ["--processes", str(chosen.processes), "--calls", str(chosen.calls)]
    main(chosen.lock, chosen.tickets)
