"""Locks with registers that several processes write, and with read-modify-write, correct ones and broken ones. They need atomic memory.
docs/LOCKS.md explains each.
"""

from cells import leaving, register, shared, until
from locks import others

flag, turn = register("flag"), shared("turn")


def peterson(is_turn_first):
    """The lock of Peterson (1981) for two; one writes the turn before its flag."""

    def lock(me, processes):
        while True:
            yield "call"
            yield turn.set(1 - me) if is_turn_first else flag[me].set(1)
            yield flag[me].set(1) if is_turn_first else turn.set(1 - me)
            yield "wait"
            while (yield flag[1 - me].get()):
                if (yield turn.get()) == me:
                    break
            yield from leaving(flag[me])

    return lock


def dekker(me, processes):
    while True:
        yield "call"
        yield flag[me].set(1)
        yield "wait"
        while (yield flag[1 - me].get()):
            if (yield turn.get()) != me:
                yield flag[me].set(0)
                yield from until((me,), turn)
                yield flag[me].set(1)
        yield "enter"
        yield "leave"
        yield turn.set(1 - me)
        yield flag[me].set(0)
        yield "answer"


def dijkstra(me, processes):
    """The lock of Dijkstra (1965), with `false` as 0 and `true` as 1."""
    b, c, k = register("b", opens=1), register("c", opens=1), shared("k", 2)
    while True:
        yield "call"
        yield b[me].set(0)
        yield "wait"
        is_alone = False
        while not is_alone:
            whose = yield k.get()
            if whose != me:
                yield c[me].set(1)
                if (yield b[whose].get()):
                    whose = None
                    yield k.set(me)
                whose = None
                continue
            yield c[me].set(0)
            is_alone = True
            for other in others(me, processes):
                if is_alone and not (yield c[other].get()):
                    is_alone = False
        yield "enter"
        yield "leave"
        yield c[me].set(1)
        yield b[me].set(1)
        yield "answer"


def knuth(me, processes):
    """The lock of Knuth (1966)."""
    control, k = register("control", 2), shared("k", 2)
    while True:
        yield "call"
        waits = is_through = False
        while not is_through:
            yield control[me].set(1)
            if not waits:
                yield "wait"
            waits, at = True, None
            # from process k downwards, round to this one
            while at != me:
                at = yield k.get()
                while at != me and not (yield control[at].get()):
                    at = (at - 1) % processes
            yield control[me].set(2)
            is_through = True
            for other in others(me, processes):
                if is_through and (yield control[other].get()) == 2:
                    is_through = False
        yield k.set(me)
        yield "enter"
        yield "leave"
        yield k.set((me - 1) % processes)
        yield control[me].set(0)
        yield "answer"


def hyman(me, processes):
    """The lock of Hyman (1966) for two, which Knuth refuted."""
    while True:
        yield "call"
        yield flag[me].set(1)
        yield "wait"
        while (yield turn.get()) != me:
            yield from until((0,), flag[1 - me])
            yield turn.set(me)
        yield from leaving(flag[me])


# Locks with read-modify-write.


def test_and_set(is_waiting):
    """Test and set; one says that it waits after its first look."""
    lock_bit = shared("lock")

    def lock(me, processes):
        while True:
            yield "call"
            was_set = yield lock_bit.swap(1)
            if is_waiting:
                yield "wait"
            while was_set:
                was_set = yield lock_bit.swap(1)
            yield from leaving(lock_bit)

    return lock


def look_then_set(me, processes):
    """A read and a write in place of test and set."""
    lock_bit = shared("lock")
    while True:
        yield "call"
        yield from until((0,), lock_bit)
        yield lock_bit.set(1)
        yield "wait"
        yield from leaving(lock_bit)


def ticket(width, has_add=True):
    """A ticket lock; without `add` it draws by a read and a write."""
    drawn, serving = shared("next", width), shared("serving", width)

    def lock(me, processes):
        while True:
            yield "call"
            if has_add:
                own = yield drawn.add(1)
            else:
                own = yield drawn.get()
                yield drawn.set((own + 1) % 2**width)
            yield "wait"
            yield from until((own,), serving)
            yield "enter"
            yield "leave"
            yield serving.set((own + 1) % 2**width)
            own = None
            yield "answer"

    return lock


def mcs(has_cas):
    """The queue lock of Mellor-Crummey and Scott (1991). A pointer is 0, or a process plus 1. Without `cas` the last process sets
    the tail to 0 after a look at its own node."""
    tail = shared("tail", 2)
    after = [shared(f"next{p}", 2) for p in range(3)]
    locked = [shared(f"locked{p}") for p in range(3)]

    def lock(me, processes):
        while True:
            yield "call"
            yield after[me].set(0)
            before = yield tail.swap(me + 1)
            yield "wait"
            if before:
                yield locked[me].set(1)
                yield after[before - 1].set(me + 1)
                before = None
                yield from until((0,), locked[me])
            yield "enter"
            yield "leave"
            successor = yield after[me].get()
            if not successor and has_cas:
                if (yield tail.cas(me + 1, 0)) != me + 1:
                    while not successor:
                        successor = yield after[me].get()
            elif not successor:
                yield tail.set(0)
            if successor:
                yield locked[successor - 1].set(0)
            successor = None
            yield "answer"

    return lock


def clh(me, processes):
    """The queue lock of Craig (1993) and of Magnusson, Landin and Hagersten (1994): a process takes over its predecessor's node."""
    tail = shared("tail", 2, opens=processes)
    node = [shared(f"node{p}") for p in range(processes + 1)]
    own = me
    while True:
        yield "call"
        yield node[own].set(1)
        before = yield tail.swap(own)
        yield "wait"
        yield from until((0,), node[before])
        yield from leaving(node[own])
        own, before = before, None
