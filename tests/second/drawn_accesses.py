"""A second reading of the accesses that a picture shows: for each entry of a trace, what its column says of an access.

docs/PICTURE.md explains what it computes. It shares no code with the program that it is held against. The entries may break any law. An
access is open from the entry that begins it up to the next access of its process.
"""

from typing import NamedTuple

# of which kind an access is, by its move
KINDS = {
    **dict.fromkeys(["write", "end", "set"], "write"),
    **dict.fromkeys(["read", "value", "get"], "read"),
    **dict.fromkeys(["swap", "add", "cas"], "update"),
}
STEPS = {"write": "begin", "read": "begin", "end": "end", "value": "end"}
# how many registers are drawn, unless all are asked for
MOST_WAVES = 16


class Change(NamedTuple):
    """The change of a wave: its row, its value before and after the entry, and whether a write is open after it and was open before it."""

    row: int
    old: int
    value: int
    is_open: bool
    was_open: bool = False


class Shown(NamedTuple):
    """What a column shows of an access."""

    event: int
    process: int
    kind: str
    step: str
    begin: int
    words: str
    cell: str
    overlaps: frozenset
    change: Change | None

    def title(self):
        since = f" from {self.begin}" if self.step == "end" else ""
        return f"{self.event} {self.process} {self.cell}{since}" + (f" {self.words}" if self.words else "")


class Cells:
    """The stored value and the open write of each cell, and the rows of those that were written."""

    def __init__(self, read, limit):
        self.read, self.limit = read, limit
        self.stored, self.writing, self.rows = {}, {}, []

    def value(self, cell):
        return self.stored.get(cell, self.read.registers[cell[0]].opens)

    def after(self, cell, move, values):
        """The value that is stored after a move, and that of the write that is open then."""
        stored, writing = self.value(cell), self.writing.get(cell)
        match move:
            case "write":
                return stored, values[0]
            case "end":
                return stored if writing is None else writing, None
            case "set":
                return values[0], None
            case "swap":
                return values[0], writing
            case "add":
                return (values[0] + values[1]) % 2 ** self.read.registers[cell[0]].width, writing
            case "cas":
                return values[1] if values[0] == values[2] else stored, writing
        return stored, writing

    def take(self, cell, move, values):
        """Makes a move, and returns the change of a wave, if it makes one."""
        old = self.value(cell)
        self.stored[cell], self.writing[cell] = self.after(cell, move, values)
        if KINDS[move] == "read" or move == "end" and cell not in self.rows:
            return None
        if cell not in self.rows:
            self.rows.append(cell)
        row = self.rows.index(cell)
        if self.limit is not None and row >= self.limit:
            return None
        return Change(row, old, self.stored[cell], self.writing[cell] is not None)


def is_possible(read, entry):
    """Whether the process and the cell of an access exist. Other accesses are not shown."""
    register = read.registers.get(entry.access.register)
    if register is None or entry.process >= read.processes:
        return False
    index = entry.access.index
    return index is None if register.is_shared else index is not None and index < read.processes


def cell_text(cell):
    return cell[0] if cell[1] is None else f"{cell[0]}[{cell[1]}]"


def words_of(move, values, stored):
    """The words of a move, where this value was stored before it."""
    if move in ("end", "read"):
        return "" if move == "end" else "read"
    if move in ("write", "set"):
        return f"{move} {values[0]}"
    *given, gave = values
    words = [*([] if move == "value" else [move]), *map(str, given), "→", str(gave)]
    return " ".join([*words, *(["≠", str(stored)] if gave != stored else [])])


def shown_accesses(read, limit=MOST_WAVES):
    """What each entry shows of an access that does, in their order."""
    cells, opened = Cells(read, limit), {}
    for entry in read.entries:
        if entry.access is None or not is_possible(read, entry):
            continue
        process, move, values = entry.process, entry.access.move, entry.access.values
        cell = (entry.access.register, entry.access.index)
        step = STEPS.get(move, "whole")
        others = [q for q, (_, it, how) in opened.items() if q != process and it == cell and (KINDS[move] != "read" or how == "write")]
        before = opened.pop(process, None)
        begin = before[0] if step == "end" and before else entry.number
        words = words_of(move, values, cells.value(cell))
        change = cells.take(cell, move, values)
        overlaps = frozenset(others if step != "end" else [])
        yield Shown(entry.number, process, KINDS[move], step, begin, words, cell_text(cell), overlaps, change)
        if step == "begin":
            opened[process] = (entry.number, cell, move)


def whole_style(access):
    """The style of the box of a whole access: a read that overlaps an open write has its own."""
    return f"{'overlapped' if access.kind == 'read' and access.overlaps else access.kind} whole"


def overlapped_reads(shown):
    """The entries that begin a read that a write overlaps: a write is open as it begins, or an access begins later that writes.

    A bad entry may write the bit that its own process reads. The box of the read ends there, so the write does not overlap it.
    """
    opened, found = {}, set()
    for access in shown:
        for process in access.overlaps - {access.process}:
            if process in opened and opened[process].kind == "read":
                found.add(opened[process].begin)
        opened.pop(access.process, None)
        if access.step == "begin":
            opened[access.process] = access
            if access.kind == "read" and access.overlaps:
                found.add(access.begin)
    return found
