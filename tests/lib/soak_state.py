"""The state of a soak in its folder: the next number of each kind, the numbers that were begun and not finished, the totals,
and what differed.
"""

import hashlib
import json
import os
import re
from dataclasses import dataclass, field
from typing import NamedTuple

from lib.checks import Difference

# so many differences of a kind are kept
MOST_KEPT = 50


@dataclass
class Total:
    """What was tried of a kind: numbers, those that have a file, comparisons, those that differ, and seconds of a worker."""

    numbers: int = 0
    files: int = 0
    tries: int = 0
    differ: int = 0
    seconds: float = 0

    def add(self, other):
        for name, number in vars(other).items():
            setattr(self, name, getattr(self, name) + number)


class Found(NamedTuple):
    """A difference: the kind and the number of the file, the call, the file, that file made shorter, and the difference of each."""

    kind: str
    number: int
    label: str
    text: bytes
    shorter: bytes
    whole: Difference
    short: Difference


class Part(NamedTuple):
    """Some numbers of a kind: the first, and how many there are."""

    kind: str
    first: int
    count: int


@dataclass
class State:
    """The next number of each kind, the parts that were begun and not finished, and the totals by kind."""

    program: str
    next: dict = field(default_factory=dict)
    begun: list = field(default_factory=list)
    totals: dict = field(default_factory=dict)

    def __post_init__(self):
        self.running = []

    def part(self, kind, count):
        """Begins a part: the rest of one that was begun, or the next numbers."""
        old = min((part for part in self.begun if part.kind == kind and part not in self.running), default=None)
        part = old or Part(kind, self.next.get(kind, 1), count)
        if old is None:
            self.next[kind] = part.first + count
            self.begun.append(part)
        self.running.append(part)
        return part

    def finish(self, part, total):
        """Takes a part of which the first numbers were played; the others remain begun."""
        self.begun.remove(part)
        self.running.remove(part)
        if total.numbers < part.count:
            self.begun.append(Part(part.kind, part.first + total.numbers, part.count - total.numbers))
        self.totals.setdefault(part.kind, Total()).add(total)


def sum_of(program):
    return hashlib.sha256(program.read_bytes()).hexdigest()


def read_state(folder, program):
    """The state of a folder. The totals are those of this program; the numbers continue with another one too."""
    file, state = folder / "state.json", State(sum_of(program))
    if file.exists():
        told = json.loads(file.read_text())
        state.next, state.begun = told["next"], [Part(*part) for part in told["begun"]]
        if told["program"] == state.program:
            state.totals = {kind: Total(**total) for kind, total in told["totals"].items()}
    return state


def write_state(folder, state):
    """Writes the state at once, so that a soak that is killed leaves the state before or after."""
    told = {"program": state.program, "next": state.next, "begun": state.begun}
    told["totals"] = {kind: vars(total) for kind, total in sorted(state.totals.items())}
    new = folder / "state.json.new"
    new.write_text(json.dumps(told, indent=1) + "\n")
    os.replace(new, folder / "state.json")


def keep(folder, found):
    """Keeps a difference as three files: the drawn file, the shorter one, and what was compared. Returns the name of the last."""
    kept = folder / "differences"
    kept.mkdir(exist_ok=True)
    stem = f"{found.kind}-{found.number}-{re.sub('[^a-z0-9]+', '-', found.label).strip('-')[:60]}"
    if len([*kept.glob(f"{found.kind}-*.txt")]) < MOST_KEPT:
        (kept / f"{stem}.file").write_bytes(found.text)
        (kept / f"{stem}.shorter").write_bytes(found.shorter)
        (kept / f"{stem}.txt").write_text(text_of(found))
    return f"{stem}.txt"


def text_of(found):
    """What was compared: the call, and of the shorter file and of the drawn file what the program wrote and what was wanted."""
    parts = [f"{found.kind}:{found.number}, {found.label}\n"]
    for name, (told, wanted) in [("the shorter file", found.short), ("the drawn file", found.whole)]:
        parts += [f"\n== {name}: the program ==\n{told}\n", f"\n== {name}: wanted ==\n{wanted}\n"]
    return "".join(parts)


def table(totals):
    """The totals by kind, as lines."""
    rows = [(kind, total) for kind, total in sorted(totals.items())]
    whole = Total()
    for _, total in rows:
        whole.add(total)
    yield f"{'kind':14}{'numbers':>12}{'files':>12}{'comparisons':>13}{'differ':>9}{'seconds':>11}{'a second':>10}"
    for kind, total in [*rows, ("all", whole)]:
        rate = total.tries / total.seconds if total.seconds else 0
        yield f"{kind:14}{total.numbers:12,}{total.files:12,}{total.tries:13,}{total.differ:9,}{total.seconds:11,.0f}{rate:10,.1f}"
