from cells import register

flag = register("flag")


def lock(me, processes):
    while True:
        yield "call"
        is_through = False
        while not is_through:
            yield flag[me].set(1)
            is_through = True
            for lower in range(me):
                if (yield flag[lower].get()):
                    yield flag[me].set(0)
                    while (yield flag[lower].get()):
                        pass
                    is_through = False
                    break
        for higher in range(me + 1, processes):
            while (yield flag[higher].get()):
                pass
        yield "enter"
        yield "leave"
        yield flag[me].set(0)
        yield "answer"
