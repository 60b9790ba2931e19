"""The lock of Hyman (1966), as a submission for exercise 1."""

from cells import register, shared

flag, turn = register("flag"), shared("turn")


def lock(me, processes):
    while True:
        yield "call"
        yield flag[me].set(1)
        while (yield turn.get()) != me:
            while (yield flag[1 - me].get()):
                pass
            yield turn.set(me)
        yield "enter"
        yield "leave"
        yield flag[me].set(0)
        yield "answer"
