"""A second reading of `sweep`: of a scenario how many runs fail after one of its events, and how many of these are stuck.

It is written from what docs/MODEL_OF_THE_PROGRAM.md and docs/FORMATS.md say. The runs are those of `runs.py`, and each begins
with the first event anew, so only scenarios of few events are swept here. No run of a lock that keeps its laws is bad.
"""

from second.runs import MOST_STEPS, Run
from second.scenario_files import Fault, read_scenario

OVER = ("idle", "down")


class Cut(Exception):
    """A run has made the events up to its cut."""


class Noted(Run):
    """A run that notes the process of each event, unless this process has failed or is down after it."""

    def __init__(self, scenario):
        self.cuts = []
        super().__init__(scenario)

    def add(self, process, access, marks):
        super().add(process, access, marks)
        if self.stage(process) not in ("settling", "down"):
            self.cuts.append((self.events, process))


class Swept(Run):
    """A run whose process fails after so many events, and what follows with one flick; `is_stuck` tells how it ends."""

    def __init__(self, scenario, events, process, flick):
        self.cut = events
        try:
            super().__init__(scenario)
        except Cut:
            self.cut = None
        self.constant, self.is_stuck = flick, False
        self.fail(process)
        self.makes_steps(process)
        self.restart(process)
        self.makes_rounds()
        for words in scenario.lines:
            if words[0] == "call":
                self.calls_again(int(words[1]), words[2:])

    def add(self, process, access, marks):
        """One entry more, of which no line is written, because a sweep only counts."""
        self.judge.note(self.events, process, access, marks)
        self.events += 1
        if self.events == self.cut:
            raise Cut

    def is_over(self, process):
        return self.judge.seats[process].stage in OVER

    def makes_steps(self, process):
        """The steps of a process, up to the limit."""
        made = 0
        while not self.is_over(process) and made < MOST_STEPS:
            self.makes_step(process)
            made += 1
        self.is_stuck = self.is_stuck or not self.is_over(process)

    def makes_rounds(self):
        """Rounds of one step of each process that has one, up to the limit."""
        processes, made = range(len(self.judge.seats)), 0
        while not all(map(self.is_over, processes)) and made < MOST_STEPS:
            for process in processes:
                if not self.is_over(process):
                    self.makes_step(process)
            made += 1
        self.is_stuck = self.is_stuck or not all(map(self.is_over, processes))

    def calls_again(self, process, command):
        """A call of the file, made once more, with the steps of its process."""
        self.call(process, *command)
        if self.seat(process) is not None:
            self.makes_steps(process)


def sweep(text):
    """The status, the output and the errors of `sweep` on a file with this text."""
    try:
        scenario = read_scenario(text)
    except Fault as fault:
        return 1, b"", f"{fault}\n".encode()
    cuts = Noted(scenario).cuts
    stuck = sum(Swept(scenario, events, process, flick).is_stuck for events, process in cuts for flick in (0, 1))
    return 0, f"sweep runs {2 * len(cuts)} good {2 * len(cuts)} stuck {stuck}\n".encode(), b""
