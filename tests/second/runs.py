"""A second reading of runs: of a scenario what `replay` prints, and its record as `record` writes it.

It is written from what docs/MODEL.md, docs/FORMATS.md and docs/RECORDS.md say. The local program and the failure rule are those of
`programs.py`, the safe rule is that of `judge.py`, the one-thread store that of `store.py`; nothing is shared with the programs that
it is held against.
"""

from second.engines import head_of
from second.judge import Judge
from second.programs import Setup

MOST_STEPS = 65_536
WORD, LONG = 2**32 - 1, 2**64 - 1
FACTOR = 6364136223846793005
# the stages in which `go` makes no further step
GOALS = {
    "wait": ("idle", "waiting", "inside", "leaving", "down"),
    "inside": ("idle", "inside", "leaving", "down"),
    "idle": ("idle", "down"),
    "down": ("down",),
}


def word_in(state):
    """The word that a state of the generator gives."""
    word, turns = ((state >> 18 ^ state) >> 27) & WORD, state >> 59
    return (word >> turns | word << (-turns & 31)) & WORD


class Generator:
    """The words of a seed."""

    def __init__(self, seed):
        words = []
        for _ in range(4):
            seed = (seed * FACTOR + 0xA17654E46FBE17F3) & LONG
            words.append(word_in(seed))
        self.step = (words[3] << 32 | words[2]) | 1
        self.state = ((words[1] << 32 | words[0]) + self.step) & LONG
        self.word()

    def word(self):
        word = word_in(self.state)
        self.state = (self.state * FACTOR + self.step) & LONG
        return word


class TooLong(Exception):
    """A run has more events than it may have. `run` has made those that it may have, if it was made just now."""

    def __init__(self, run=None):
        super().__init__()
        self.run = run


class Run:
    """The run of a scenario: the lines of its text, and those of its record. A run of more than `most` events raises `TooLong`.

    It notes of each event the index of the line that made it, and of each line of its text that is not a mark after how many events
    it comes.
    """

    def __init__(self, scenario, most=None):
        self.scenario, self.most, self.made_by, self.after = scenario, most, [], {}
        self.text, self.record = [], head_of(scenario).decode().splitlines()
        self.judge = Judge(Setup(self.record))
        self.generator, self.constant = Generator(0), 0
        self.events = self.refused = 0
        for self.index, words in enumerate(scenario.lines):
            getattr(self, words[0])(*words[1:])
        self.text.append(f"end events {self.events} taken {self.judge.taken} refused {self.refused}")

    def seat(self, process):
        return self.judge.seats[process] if process < len(self.judge.seats) else None

    def stage(self, process):
        return self.seat(process).stage

    # Events.

    def add(self, process, access, marks):
        """One entry more."""
        if self.events == self.most:
            raise TooLong(self)
        line = str(process)
        if access:
            owner, field, bit, reader, move = access
            line = f"{process} {owner}.{field}.{bit}.{reader} {move}"
        if marks:
            place = str(self.judge.taken)
            marks = [mark.replace("?", place) for mark in marks]
            self.text += [f"{self.events} {process} {mark}" for mark in marks]
            line = " : ".join([line, *marks])
        self.judge.note(self.events, process, access, marks)
        self.record.append(line)
        self.made_by.append(self.index)
        self.events += 1

    def say(self, line):
        """One line more of the text, which is not a mark."""
        self.after[len(self.text)] = self.events
        self.text.append(line)

    def refuse(self, process, why):
        self.say(f"- {process} refused {why}")
        self.refused += 1

    def happens(self, process, event, mark):
        """An event that is no step."""
        seat = self.seat(process)
        why = "no-process" if seat is None else self.refusal(seat, event)
        if why:
            self.refuse(process, why)
        else:
            self.add(process, None, [mark])

    def refusal(self, seat, event):
        if event == "call":
            busy = "is-down" if seat.stage in ("settling", "down") else "busy"
            full = self.judge.setup.version == 2 and seat.calls == 65_535
            return busy if seat.stage != "idle" else "calls-full" if full else None
        if event == "fail":
            return "already-failed" if seat.stage in ("settling", "down") else None
        stage, why = {"withdraw": ("waiting", "not-waiting"), "restart": ("down", "not-down")}[event]
        return None if seat.stage == stage else why

    def makes_step(self, process):
        """One step of a process: whether it is accepted."""
        flick = self.constant if self.constant is not None else self.generator.word() & 1
        seat = self.seat(process)
        if seat is None or seat.stage in ("idle", "down"):
            self.refuse(process, "not-running" if seat else "no-process")
            return False
        steps = seat.steps
        access, value = steps.wanted(), None
        move = access[4]
        if move.endswith("None"):
            known = self.judge.bit(access).read_now() if move == "value None" else None
            value = flick if known is None else known
            access = (*access[:4], f"{move[:-4]}{value}")
        self.add(process, access, steps.marks(value))
        return True

    # Lines.

    def call(self, process, *command):
        self.happens(int(process), "call", " ".join(["call", *command]))

    def fail(self, process):
        self.happens(int(process), "fail", "fail")

    def withdraw(self, process):
        self.happens(int(process), "withdraw", "withdraw")

    def restart(self, process):
        self.happens(int(process), "restart", "restart")

    def step(self, process, times):
        for _ in range(int(times)):
            if not self.makes_step(int(process)):
                return

    def go(self, process, goal):
        process = int(process)
        if self.seat(process) is None:
            self.refuse(process, "no-process")
            return
        made = 0
        while self.stage(process) not in GOALS[goal]:
            if made == MOST_STEPS:
                self.say(f"- {process} turns")
                return
            if not self.makes_step(process):
                return
            made += 1

    def wander(self, times):
        for _ in range(int(times)):
            there = [p for p, seat in enumerate(self.judge.seats) if seat.stage not in ("idle", "down")]
            if not there:
                return
            self.makes_step(there[self.generator.word() % len(there)])

    def flick(self, how, seed=None):
        if how == "pcg":
            self.generator = Generator(int(seed))
        self.constant = None if how == "pcg" else int(how)

    def show(self):
        is_busy = any(seat.inside for seat in self.judge.seats)
        self.say("show busy" if is_busy else self.judge.store.shown())


def whole(lines):
    return "".join(f"{line}\n" for line in lines).encode()


def texts_of(scenario):
    """What `replay` prints of a scenario, and what `record` writes."""
    run = Run(scenario)
    return whole(run.text), whole(run.record)
