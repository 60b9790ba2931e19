"""A second reading of what a process does: the setup of a record, the local program of a call, and what a memory unit does.

It is written from what docs/MODEL.md, docs/FORMATS.md and docs/RECORDS.md say, and shares nothing with the programs that it is held
against. The one-thread store is that of `store.py`.
"""

import functools

from second.store import SLOT, Call, Store


class Setup:
    """The headings and the opening pairs of a record."""

    def __init__(self, lines):
        said = {"processes": 2, "tickets": 4, "stamps": 4, "slots": 1}
        self.version = int(lines[0].split()[1])
        pairs = []
        for line in lines[1:]:
            words = line.split()
            if words[0] == "open":
                pairs.append((words[1], words[2]))
            else:
                said[words[0]] = int(words[1])
        self.processes, self.tickets, self.stamps, self.slots = said.values()
        self.callers = self.processes if self.version == 2 else 0
        self.image_bits = 8 * (SLOT * self.slots + 2 * self.callers)
        self.widths = {"choosing": 1, "commit": 1, "ticket": self.tickets, "stamp0": self.stamps, "stamp1": self.stamps}
        self.opening = self.store_of(pairs)

    def store_of(self, pairs):
        """The store of these pairs, before any call."""
        return Store(self.slots, pairs, [0] * self.callers)

    def empty(self):
        return self.store_of([])

    @functools.cached_property
    def opening_image(self):
        return image_of(self.opening)

    def width(self, field):
        return self.widths.get(field, self.image_bits)

    def opens(self, owner, field, bit):
        """What a bit of a register opens at."""
        return self.opening_image >> bit & 1 if owner == 0 and field == "image0" else 0


def image_of(store):
    """The number that is read as the image of a store."""
    return int.from_bytes(bytes.fromhex(store.image()), "little")


def pairs_in(slots):
    """The pairs that the slots of an image hold, if they are slots of pairs."""
    for slot in slots:
        if slot[0] == 0:
            continue
        name, length = slot[2 : 2 + slot[1]].decode("latin1"), slot[10]
        content = slot[11 : 11 + length]
        yield name, f"c:{int.from_bytes(content, 'big', signed=True)}" if slot[0] == 1 else f"t:{content.decode('latin1')}"


def store_in(setup, number):
    """The store whose image this is; the empty store, if it is no image."""
    image, end = number.to_bytes(setup.image_bits // 8, "little"), SLOT * setup.slots
    pairs = list(pairs_in(image[at : at + SLOT] for at in range(0, end, SLOT)))
    numbers = [int.from_bytes(image[at : at + 2], "big") for at in range(end, len(image), 2)]
    store = Store(setup.slots, pairs, numbers)
    try:
        return store if image_of(store) == number and len(store.pairs) == len(pairs) else setup.empty()
    except (ValueError, OverflowError):
        return setup.empty()


# A program is a generator. It yields an access (owner, field, bit, reader, move), in which the value that a read ends with
# is None, is sent the value with which it ended, and yields the marks of that entry.


def written(setup, process, field, value, first=(), last=lambda: ()):
    """A whole write of an own register: of each bit each reader's copy, begun and ended."""
    width, readers = setup.width(field), setup.processes
    for bit in range(width):
        move = f"write {value >> bit & 1}"
        for reader in range(readers):
            yield (process, field, bit, reader, move)
            yield tuple(first) if bit == reader == 0 else ()
            yield (process, field, bit, reader, "end")
            yield tuple(last()) if (bit, reader) == (width - 1, readers - 1) else ()


def read(setup, process, owner, field, last=lambda value: ()):
    """A whole read of the own copies of a register."""
    value, width = 0, setup.width(field)
    for bit in range(width):
        yield (owner, field, bit, process, "read")
        yield ()
        value |= (yield (owner, field, bit, process, "value None")) << bit
        yield tuple(last(value)) if bit == width - 1 else ()
    return value


def leaving(setup, process, answer, marks=("leave",)):
    """The ticket is cleared, and the call is answered."""
    yield from written(setup, process, "ticket", 0, marks, lambda: (f"answer {answer}",))


def doorway(setup, process, others):
    """Says that the process chooses, reads the tickets and takes the next one; gives its ticket, or None if there is none."""
    greatest = 2**setup.tickets - 1
    yield from written(setup, process, "choosing", 1)
    tickets = {}
    for j in others:
        tickets[j] = yield from read(setup, process, j, "ticket")
    top = max(tickets.values(), default=0)
    if top == greatest:
        full = next(j for j in others if tickets[j] == greatest)
        yield from written(setup, process, "choosing", 0, last=lambda: (f"answer tickets-full {full}",))
        return None
    yield from written(setup, process, "ticket", top + 1)
    yield from written(setup, process, "choosing", 0, last=lambda: (f"wait {top + 1}",) + (() if others else ("enter",)))
    return top + 1


def wait(setup, process, own, others):
    """Waits until each other one chooses no more, and has no ticket before its own."""
    for j in others:
        while (yield from read(setup, process, j, "choosing")) != 0:
            pass
        passes = lambda t: t == 0 or (t, j) > (own, process)
        entered = lambda t: ("enter",) if j == others[-1] and passes(t) else ()
        while not passes((yield from read(setup, process, j, "ticket", entered))):
            pass


def section(setup, process, call):
    """Reads the newest version and takes the command, after the new version is written if there is one; gives the answer."""
    chosen, stamps = {}, {}
    for k in range(setup.processes):
        chosen[k] = yield from read(setup, process, k, "commit")
        stamps[k] = yield from read(setup, process, k, f"stamp{chosen[k]}")
    newest = max(range(setup.processes), key=lambda k: (stamps[k], -k))

    def looked(value):
        store = store_in(setup, value)
        call.after, call.reply = store.after(call.made)
        call.changes = store.is_changed_by(call.made)
        return () if call.changes else (f"taken ? {call.reply}",)

    yield from read(setup, process, newest, f"image{chosen[newest]}", looked)
    if not call.changes:
        return call.reply
    if stamps[newest] == 2**setup.stamps - 1:
        return "stamps-full"
    other = 1 - chosen[process]
    yield from written(setup, process, f"image{other}", image_of(call.after))
    yield from written(setup, process, f"stamp{other}", stamps[newest] + 1)
    yield from written(setup, process, "commit", other, last=lambda: (f"taken ? {call.reply}",))
    return call.reply


def program(setup, process, call):
    """The local program of a call."""
    others = [j for j in range(setup.processes) if j != process]
    own = yield from doorway(setup, process, others)
    if own is not None:
        yield from wait(setup, process, own, others)
        answer = yield from section(setup, process, call)
        yield from leaving(setup, process, answer)


def unit(setup, process, torn, call, inside):
    """What a memory unit does: it settles the unfinished bit, and clears the lock's variables. The settling value is the
    one that its first access has."""
    if torn:
        field, bit, opened, writing = torn
        value = None
        for reader in range(setup.processes):
            moves = ["settle"] if reader == opened else ["write", "end"]
            for move in moves:
                sent = yield (process, field, bit, reader, move if move == "end" else f"{move} {value}")
                value = sent if value is None else value
                marks = ()
                if reader == setup.processes - 1 and move == moves[-1]:
                    marks = (f"settled {value}",)
                    if field == "commit" and value == writing:
                        marks += (f"taken ? {call.reply}",)
                yield marks
    yield from written(setup, process, "ticket", 0, ("leave",) if inside else ())
    yield from written(setup, process, "choosing", 0, last=lambda: ("down",))


class Spent(Exception):
    """A program was told one value of its access, and is to be told another."""


class Steps:
    """A program, an entry at a time: it tells what is wanted of an entry again until the entry is made."""

    def __init__(self, program):
        self.program = program
        self.access = self.told = None

    def wanted(self):
        """The access that comes next."""
        if self.access is None:
            self.access = next(self.program)
        return self.access

    def marks(self, value):
        """The marks of its entry, if the access has this value."""
        if self.told is None:
            self.told = value, list(self.program.send(value))
        if self.told[0] != value:
            raise Spent
        return self.told[1]

    def go_on(self):
        """The entry is made."""
        self.access = self.told = None


class OpenCall:
    """A call that goes on: what is called, and what comes of it."""

    def __init__(self, process, number, command):
        self.made = Call(process, number, None, command, None)
        self.after = self.reply = None
        self.changes = False
