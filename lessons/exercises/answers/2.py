"""Peterson's lock (1981), in which each process gives the turn to the other."""

from cells import register, shared

flag, turn = register("flag"), shared("turn")


def lock(me, processes):
    while True:
        yield "call"
        yield flag[me].set(1)
        yield turn.set(1 - me)
        yield "wait"
        while (yield flag[1 - me].get()):
            if (yield turn.get()) == me:
                break
        yield "enter"
        yield "leave"
        yield flag[me].set(0)
        yield "answer"
