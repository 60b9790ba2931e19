"""The lock of Peterson (1981), for two processes."""

from cells import register, shared

flag, turn = register("flag"), shared("turn")


def peterson(me, processes):
    while True:
        yield "call"
        yield flag[me].set(1)
        yield turn.set(1 - me)
        yield "wait"
        while (yield flag[1 - me].get()):
            if (yield turn.get()) == me:
                break
        yield "enter"
        yield "leave"
        yield flag[me].set(0)
        yield "answer"
