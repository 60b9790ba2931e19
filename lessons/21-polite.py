"""After you: it raises its flag, and as long as the other's flag is up it lowers its own and raises it again."""

from writer import main, read, write


def polite(me, processes):
    while True:
        yield "call read a"
        yield from write(me, "choosing", 1, processes)
        yield "wait 0"
        while (yield from read(1 - me, "choosing", me)):
            yield from write(me, "choosing", 0, processes)
            yield from write(me, "choosing", 1, processes)
        yield "enter"
        yield "taken no-name"
        yield "leave"
        yield from write(me, "choosing", 0, processes)
        yield "answer no-name"


if __name__ == "__main__":
    main(polite)
