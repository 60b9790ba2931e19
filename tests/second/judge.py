"""A second judge of records: of a setup and entries the verdict, as `judge` prints it.

It is written from what docs/MODEL.md and docs/RECORDS.md say, and shares nothing with the programs that it is held against.
"""

import functools
import re

from second.programs import OpenCall, Setup, Steps, leaving, program, unit

EVENTS = ("call", "fail", "withdraw", "restart")
# the word and the value of each move
MOVES = {f"{word} {value}": (word, value) for word in ("write", "settle", "value") for value in (0, 1)}
MOVES |= {"end": ("end", None), "read": ("read", None)}
PLACE = re.compile(r"^taken \d+ ")
# many records have the same entries, so the entries of this many lines are kept
MOST_LINES = 2**16


class Bit:
    """What the moves of a bit have left: its value, the value that is being written, and whether the last read that has begun
    met a write, if any has begun."""

    def __init__(self, value):
        self.value, self.writing, self.met = value, None, None

    def read_now(self):
        """The value with which a read that has begun ends, if no write overlapped it."""
        return self.value if self.met is False else None

    def note(self, move):
        word, value = MOVES[move]
        if word == "write":
            self.writing, self.met = value, None if self.met is None else True
        elif word in ("end", "settle"):
            self.value, self.writing = self.writing if word == "end" else value, None
        elif word == "read":
            self.met = self.writing is not None


class Seat:
    """What is known of a process by its entries so far."""

    def __init__(self):
        self.stage, self.inside, self.calls = "idle", False, 0
        self.call = self.steps = self.torn = None
        self.began = self.ended = None  # the doorway


class Judge:
    """Judges one record, entry by entry."""

    def __init__(self, setup):
        self.setup = setup
        self.bits = {}
        self.seats = [Seat() for _ in range(setup.processes)]
        self.taken, self.store = 0, setup.opening

    def hear(self, number, process, access, marks):
        """The law that an entry breaks, if it breaks one; else it is the next entry."""
        law = self.law_of(process, access, marks)
        if law is None:
            self.note(number, process, access, marks)
        return law

    def law_of(self, process, access, marks):
        """The law that an entry would break as the next one."""
        if self.is_unsafe(access):
            return "safe"
        law = self.wrong(process, access, marks)
        if law:
            return law
        if "enter" in marks:
            others, began = [seat for j, seat in enumerate(self.seats) if j != process], self.seats[process].began
            if any(seat.inside for seat in others):
                return "together"
            if any(seat.ended < began for seat in others if seat.stage == "waiting"):
                return "overtaken"
        return None if self.takes_its_place(process, marks) else "history"

    # The safe rule.

    def bit(self, access):
        """The bit of an access, as its moves have left it."""
        place = access[:4]
        found = self.bits.get(place)
        if found is None:
            found = self.bits[place] = Bit(self.setup.opens(*access[:3]))
        return found

    def is_unsafe(self, access):
        if access is None or not access[4].startswith("value") or access[:4] not in self.bits:
            return False
        return self.bit(access).read_now() not in (None, int(access[4][-1]))

    def has_flick(self, access):
        """Whether the flick decides the value of an access of a program, which is then None in its move."""
        move = access[4]
        return move.endswith("None") and not (move.startswith("value") and self.bit(access).read_now() is not None)

    # The program and the failure rule.

    def wrong(self, process, access, marks):
        events = [mark for mark in marks if mark.split()[0] in EVENTS]
        if process >= self.setup.processes:
            return "program"
        seat = self.seats[process]
        if events:
            alone = access is None and len(marks) == 1
            return None if alone and not self.refused(seat, events[0].split()[0]) else "program"
        if seat.stage in ("idle", "down"):
            return "program"
        law = "unit" if seat.stage == "settling" else "program"
        return None if self.is_next(seat, access, marks) else law

    def refused(self, seat, event):
        if event == "call":
            return seat.stage != "idle" or self.setup.version == 2 and seat.calls == 65535
        if event == "fail":
            return seat.stage in ("settling", "down")
        return seat.stage != {"withdraw": "waiting", "restart": "down"}[event]

    def is_next(self, seat, access, marks):
        """Whether this is the next entry of a process's program, but for the place of what is taken."""
        wanted = seat.steps.wanted()
        if access is None or access[:4] != wanted[:4]:
            return False
        move, told = wanted[4].split(" ")[0], wanted[4].split(" ")[-1]
        words = access[4].split(" ")
        if words[0] != move or told not in ("None", words[-1]):
            return False
        made = seat.steps.marks(int(words[-1]) if told == "None" else None)
        return made == [PLACE.sub("taken ? ", mark) for mark in marks]

    def takes_its_place(self, process, marks):
        for mark in marks:
            if mark.startswith("taken"):
                _, place, reply = mark.split(" ", 2)
                _, wanted = self.store.after(self.seats[process].call.made)
                if int(place) != self.taken or reply != wanted:
                    return False
        return True

    # What an entry leaves.

    def note(self, number, process, access, marks):
        seat = self.seats[process]
        if access:
            seat.steps.go_on()
            self.bit(access).note(access[4])
            if access[0] == process and seat.stage != "settling":
                self.note_write(seat, access)
            if seat.began is None:
                seat.began = number
        for mark in marks:
            self.note_mark(seat, process, mark.split(), number)

    def note_write(self, seat, access):
        """Notes the write of an own bit that is open, or was begun on some copies and not on all."""
        _, field, bit, reader, move = access
        if move.startswith("write"):
            seat.torn = (field, bit, reader, int(move[-1]))
        elif move == "end":
            seat.torn = None if reader == self.setup.processes - 1 else (field, bit, None, seat.torn[3])

    def note_mark(self, seat, process, mark, number):
        if mark[0] == "call":
            seat.calls += 1
            seat.stage, seat.began = "doorway", None
            seat.call = OpenCall(process, seat.calls if self.setup.version == 2 else 0, mark[1:])
            seat.steps = Steps(program(self.setup, process, seat.call))
        elif mark[0] == "withdraw":
            seat.stage = "leaving"
            seat.steps = Steps(leaving(self.setup, process, "withdrawn", ()))
        elif mark[0] == "fail":
            seat.stage = "settling"
            seat.steps = Steps(unit(self.setup, process, seat.torn, seat.call, seat.inside))
            seat.torn = None
        elif mark[0] == "wait":
            seat.stage, seat.ended = "waiting", number
        elif mark[0] == "enter":
            seat.stage, seat.inside = "inside", True
        elif mark[0] == "taken":
            self.taken, self.store = self.taken + 1, self.store.after(seat.call.made)[0]
        elif mark[0] == "leave":
            seat.inside = False
            seat.stage = "leaving" if seat.stage == "inside" else seat.stage
        elif mark[0] in ("answer", "restart"):
            seat.stage = "idle"
        elif mark[0] == "down":
            seat.stage = "down"


@functools.lru_cache(maxsize=MOST_LINES)
def entry_of(line):
    """An entry by its line, whose words have single spaces."""
    place, *marks = line.split(" : ")
    words = place.split(" ")
    if len(words) == 1:
        return int(words[0]), None, tuple(marks)
    owner, field, bit, reader = words[1].split(".")
    return int(words[0]), (int(owner), field, int(bit), int(reader), " ".join(words[2:])), tuple(marks)


def judged(setup, lines):
    """The verdict on a record, as it is printed."""
    judge = Judge(setup)
    for number, line in enumerate(lines):
        law = judge.hear(number, *entry_of(line))
        if law:
            return f"bad {number} {law}\n"
    return f"good {len(lines)}\n"
