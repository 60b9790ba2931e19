"""Locks with registers of several bits whose cells have one writer each, correct ones and broken ones; and the atlas, which also has
the locks of shared_locks.py. `search.py --atlas` searches them, and docs/LOCKS.md explains each.
"""

import shared_locks
from cells import leaving, register, until
from locks import Lock, others

flag = register("flag")


def no_lock(me, processes):
    while True:
        yield "call"
        yield flag[me].set(1)
        yield "wait"
        yield from leaving(flag[me])


def look_then_raise(me, processes):
    while True:
        yield "call"
        for other in others(me, processes):
            yield from until((0,), flag[other])
        yield flag[me].set(1)
        yield "wait"
        yield from leaving(flag[me])


def raise_then_look(me, processes):
    while True:
        yield "call"
        yield flag[me].set(1)
        yield "wait"
        for other in others(me, processes):
            yield from until((0,), flag[other])
        yield from leaving(flag[me])


def one_bit(is_raised_again):
    """The one-bit lock; one that raises its flag again does so before it enters."""

    def lock(me, processes):
        while True:
            yield "call"
            waits = is_through = False
            while not is_through:
                yield flag[me].set(1)
                if not waits:
                    yield "wait"
                waits = is_through = True
                for lower in range(me):
                    if (yield flag[lower].get()):
                        yield flag[me].set(0)
                        yield from until((0,), flag[lower])
                        is_through = False
                        break
            for higher in range(me + 1, processes):
                yield from until((0,), flag[higher])
            if is_raised_again:
                yield flag[me].set(1)
            yield from leaving(flag[me])

    return lock


def by_turns(me, processes):
    """Strict turns of two: each has a bit, and it is the turn of 0 while the bits are alike."""
    turns, own = register("turn"), 0
    while True:
        yield "call"
        is_mine = (yield turns[1 - me].get()) ^ own == me
        yield "wait"
        while not is_mine:
            is_mine = (yield turns[1 - me].get()) ^ own == me
        own = 1 - own
        yield from leaving(turns[me], own)


def kessels(is_saving):
    """The lock of Kessels (1982) for two. A saving one writes its bit of the turn only where that changes it."""
    turns = register("turn")

    def lock(me, processes):
        own = 0
        while True:
            yield "call"
            yield flag[me].set(1)
            seen = (yield turns[1 - me].get()) ^ me
            if seen != own or not is_saving:
                own = seen
                yield turns[me].set(own)
            yield "wait"
            while (yield flag[1 - me].get()):
                if (yield turns[1 - me].get()) ^ own != me:
                    break
            yield from leaving(flag[me])

    return lock


def flags_of_five(me, processes):
    """The lock of Szymanski (1988): a flag of five values."""
    flag = register("flag", 3)
    while True:
        yield "call"
        yield flag[me].set(1)
        yield "wait"
        for other in others(me, processes):
            yield from until((0, 1, 2), flag[other])
        yield flag[me].set(3)
        sees = []
        for other in others(me, processes):
            sees.append((yield flag[other].get()))
        if 1 in sees:
            yield flag[me].set(2)
            while 4 not in sees:
                sees = []
                for other in others(me, processes):
                    sees.append((yield flag[other].get()))
        sees = []
        yield flag[me].set(4)
        for other in range(me):
            yield from until((0, 1), flag[other])
        yield "enter"
        for other in range(me + 1, processes):
            yield from until((0, 1, 4), flag[other])
        yield "leave"
        yield flag[me].set(0)
        yield "answer"


def bakery(width=2, has_choosing=True, has_ties=True, ticket_first=False):
    """The bakery (Lamport 1974). A process that would need a ticket of more bits gives up."""
    choosing, tickets = register("choosing"), register("ticket", width)

    def before(own, me, other):
        """The tickets of another process that come before this one's."""
        return tuple(it for it in range(1, 2**width) if (it, other * has_ties) < (own, me * has_ties))

    def lock(me, processes):
        while True:
            yield "call"
            if has_choosing:
                yield choosing[me].set(1)
            own = 1
            for other in others(me, processes):
                own = max(own, 1 + (yield tickets[other].get()))
            if own < 2**width:
                yield tickets[me].set(own)
            if has_choosing:
                yield choosing[me].set(0)
            if own == 2**width:
                own = None
                yield "answer"
                continue
            yield "wait"
            for other in others(me, processes):
                if has_choosing and not ticket_first:
                    yield from until((0,), choosing[other])
                while (yield tickets[other].get()) in before(own, me, other):
                    pass
                if ticket_first:
                    yield from until((0,), choosing[other])
            own = None
            yield from leaving(tickets[me])

    return lock


def atlas():
    """Returns all locks by their names."""
    return {
        "no-lock": Lock(no_lock),
        "look-then-raise": Lock(look_then_raise),
        "raise-then-look": Lock(raise_then_look),
        "one-bit": Lock(one_bit(is_raised_again=False)),
        "one-bit-raised-again": Lock(one_bit(is_raised_again=True)),
        "by-turns": Lock(by_turns),
        "kessels": Lock(kessels(is_saving=False)),
        "kessels-saving": Lock(kessels(is_saving=True)),
        "flags-of-five": Lock(flags_of_five),
        "bakery": Lock(bakery()),
        "bakery-without-choosing": Lock(bakery(has_choosing=False)),
        "bakery-without-ties": Lock(bakery(has_ties=False)),
        "bakery-ticket-first": Lock(bakery(ticket_first=True)),
        "peterson": Lock(shared_locks.peterson(is_turn_first=False)),
        "peterson-turn-first": Lock(shared_locks.peterson(is_turn_first=True)),
        "dekker": Lock(shared_locks.dekker),
        "dijkstra": Lock(shared_locks.dijkstra),
        "knuth": Lock(shared_locks.knuth),
        "hyman": Lock(shared_locks.hyman),
        "look-then-set": Lock(shared_locks.look_then_set),
        "test-and-set": Lock(shared_locks.test_and_set(is_waiting=False)),
        "test-and-set-waiting": Lock(shared_locks.test_and_set(is_waiting=True)),
        "ticket": Lock(shared_locks.ticket(2), processes=3),
        "ticket-of-one-bit": Lock(shared_locks.ticket(1), processes=3, calls=1),
        "ticket-without-add": Lock(shared_locks.ticket(2, has_add=False)),
        "mcs": Lock(shared_locks.mcs(has_cas=True), processes=3),
        "mcs-without-cas": Lock(shared_locks.mcs(has_cas=False)),
        "clh": Lock(shared_locks.clh, processes=3),
    }
