"""Locks with a fence after each write that a later read must not pass. The fence is a read-modify-write of a cell that nothing reads."""

from cells import leaving, register, shared, until
from locks import others

flag, turn, fence = register("flag"), shared("turn"), shared("fence")
choosing, ticket = register("choosing"), register("ticket", 2)


def raise_then_look(me, processes):
    while True:
        yield "call"
        yield flag[me].set(1)
        yield fence.swap(0)
        yield "wait"
        for other in others(me, processes):
            yield from until((0,), flag[other])
        yield from leaving(flag[me])


def peterson(me, processes):
    while True:
        yield "call"
        yield flag[me].set(1)
        yield turn.set(1 - me)
        yield fence.swap(0)
        yield "wait"
        while (yield flag[1 - me].get()):
            if (yield turn.get()) == me:
                break
        yield from leaving(flag[me])


def bakery(has_second):
    """The bakery with a fence after `choosing` is raised, and a second one at the end of the doorway."""

    def lock(me, processes):
        while True:
            yield "call"
            yield choosing[me].set(1)
            yield fence.swap(0)
            own = 1
            for other in others(me, processes):
                own = max(own, 1 + (yield ticket[other].get()))
            yield ticket[me].set(own)
            yield choosing[me].set(0)
            if has_second:
                yield fence.swap(0)
            yield "wait"
            for other in others(me, processes):
                yield from until((0,), choosing[other])
                before = tuple(it for it in range(1, 4) if (it, other) < (own, me))
                while (yield ticket[other].get()) in before:
                    pass
            yield from leaving(ticket[me])

    return lock


bakery_with_one, bakery_with_two = bakery(False), bakery(True)
