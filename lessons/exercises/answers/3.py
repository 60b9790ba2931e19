"""The bakery (Lamport 1974), on whole registers."""

from cells import register

choosing, ticket = register("choosing"), register("ticket", 8)


def lock(me, processes):
    others = [other for other in range(processes) if other != me]
    while True:
        yield "call"
        yield choosing[me].set(1)
        own = 0
        for other in others:
            own = max(own, (yield ticket[other].get()))
        own += 1
        yield ticket[me].set(own)
        yield choosing[me].set(0)
        yield "wait"
        for other in others:
            while (yield choosing[other].get()):
                pass
            while 0 < (seen := (yield ticket[other].get())) and (seen, other) < (own, me):
                pass
        own = seen = 0
        yield "enter"
        yield "leave"
        yield ticket[me].set(0)
        yield "answer"
