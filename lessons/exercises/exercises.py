"""The five exercises in which students write a lock: what each demands, and by what it is graded."""

import pathlib
from typing import NamedTuple

HERE = pathlib.Path(__file__).resolve().parent
# the parts of a grade in their order, each with its points
PARTS = {"runs": 2, "laws": 4, "progress": 2, "hidden": 2}
# the points of a single good run that is handed in instead of a lock
TRACE_POINTS = 4


class Exercise(NamedTuple):
    """An exercise: the memory; the sizes that are searched, each a number of processes and of calls; the fewest and the most processes
    of a hidden run; whether the lock is first come, first served; whether registers may be shared and read-modify-write is allowed;
    the most bits of a register; and the value that a call must have read to give up, or None if no call may."""

    number: int
    stem: str
    memory: str
    sizes: tuple
    processes: tuple
    is_ordered: bool
    may_share: bool
    may_update: bool
    most_bits: int
    full: int | None = None

    @property
    def runs(self):
        """Returns the text of the runs that students know."""
        return (HERE / f"{self.stem}.runs").read_text()


EXERCISES = {
    it.number: it
    for it in (
        Exercise(1, "1-two-processes", "atomic", ((2, 2),), (2, 2), False, True, True, 32),
        Exercise(2, "2-in-order", "atomic", ((2, 2),), (2, 2), True, True, False, 32),
        Exercise(3, "3-many-processes", "atomic", ((2, 2), (3, 1)), (3, 5), True, True, False, 32),
        Exercise(4, "4-safe-bits", "safe", ((2, 2), (3, 1)), (2, 5), False, False, False, 1),
        Exercise(5, "5-bounded-tickets", "safe", ((2, 2),), (2, 4), True, False, False, 2, full=3),
    )
}
