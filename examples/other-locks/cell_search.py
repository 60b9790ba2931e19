"""Searches all runs of a lock on cells, one entry more at a time: every schedule, and all that reads may give. search.py prints what
it finds.

In atomic memory each access is one entry. In safe and regular memory it is one entry or two, a begin and an end. A read that a write
of its cell overlaps may give any value in safe memory; in regular memory it may give the value that was stored when the read began,
and those of the writes that overlap it.
"""

from typing import NamedTuple

from alone import Alone, refused_mark
from driver import Mistake, form_mistake
from stuck import Stuck, entries_to, explored, states_stuck

MEMORIES = ["safe", "regular", "atomic"]
# by which an entry is refused, and by which it does harm
FORMS, LAWS = ["access", "marks"], ["together", "overtaken"]
# the most bits of a register in safe and regular memory
MOST_BITS = 8
MOST_REGISTERS = 64
# what a process may have open: nothing, or a write; any other number is the set of the values that its read may give
NOTHING, WRITE = 0, -1


class NeedsAtomic(Exception):
    """The lock has shared registers, which are in atomic memory alone."""


class Entry(NamedTuple):
    """An entry: its process, the words of its access, its marks, and why it is refused, if it is."""

    me: int
    access: str
    marks: tuple
    refusal: tuple | None = None

    @property
    def line(self):
        """Returns its line in a trace."""
        return " : ".join([f"{self.me} {self.access}".strip(), *self.marks])


class State(NamedTuple):
    """A state of each process, what it has open, the cells in one number, and of each process who is ahead of it."""

    at: tuple
    opened: tuple
    cells: int
    ahead: tuple


class CellSearch:
    """All runs of a lock in a memory."""

    def __init__(self, lock, memory, has_wait):
        self.lock, self.memory, self.has_wait = lock, memory, has_wait
        self.processes = [Alone(lock, me, has_wait) for me in range(lock.processes)]
        # of each cell that was accessed, the place of its value in the number of a state
        self.places, self.bits = {}, 0
        self.has_waited = False

    def first(self):
        """Returns the state in which every run begins."""
        none = (0,) * self.lock.processes
        return State(none, none, 0, none)

    # Cells.

    def place(self, cell):
        """Returns the position of a cell's value. The value is stored as its difference from the opening value."""
        if cell not in self.places:
            self.places[cell] = self.bits
            self.bits += cell.register.width
            self.check(cell)
        return self.places[cell]

    def check(self, cell):
        """Raises a mistake if a register is declared twice, or does not exist in this memory."""
        register = cell.register
        if len(self.registers()) > MOST_REGISTERS:
            raise Mistake(f"a trace has at most {MOST_REGISTERS} registers")
        others = [other for other in self.registers() if other.name == register.name and other != register]
        if others:
            raise Mistake(f"the lock declares two registers {register.name}: {others[0].line}, and {register.line}")
        if self.memory == "atomic":
            return
        if register.is_shared:
            raise NeedsAtomic
        if register.width > MOST_BITS:
            raise Mistake(f"{register.name}: in {self.memory} memory a search takes registers of at most {MOST_BITS} bits")

    def registers(self):
        """Returns the registers that were accessed, the shared ones last."""
        return sorted({cell.register for cell in self.places}, key=lambda it: (it.is_shared, it.name))

    def stored(self, cells, cell):
        """Returns the value of a cell."""
        mask = (1 << cell.register.width) - 1
        return (cells >> self.place(cell) & mask) ^ cell.register.opens

    def with_stored(self, cells, cell, value):
        """Returns the cells after a write."""
        place, mask = self.place(cell), (1 << cell.register.width) - 1
        return cells & ~(mask << place) | (value ^ cell.register.opens) << place

    # Accesses.

    def refused_access(self, me, node):
        """Returns the first refusal of an access, or None."""
        cell, access = node.access.cell, node.access
        limit = 1 << cell.register.width
        is_shared = cell.register.is_shared
        refusals = {
            "no-cell": not is_shared and cell.owner >= self.lock.processes,
            "not-owner": not is_shared and access.is_write and cell.owner != me,
            "not-shared": not is_shared and access.move in ("swap", "add", "cas"),
            "too-wide": any(number >= limit for number in access.numbers),
            "not-running": node.stage == "idle",
        }
        return next((name for name, is_refused in refusals.items() if is_refused), None)

    def begins(self, state, access):
        """Returns the set of values that a read that begins now may give."""
        cell = access.cell
        written = [self.node(state, me).access for me, opened in enumerate(state.opened) if opened == WRITE]
        pending = [write.numbers[0] for write in written if write.cell == cell]
        if pending and self.memory == "safe":
            return (1 << (1 << cell.register.width)) - 1
        values = 1 << self.stored(state.cells, cell)
        for value in pending:
            values |= 1 << value
        return values

    def overlapped(self, state, access):
        """Returns what is open after a write begins, which overlaps the open reads of its cell."""
        if self.memory == "atomic":
            return state.opened
        cell, value = access.cell, access.numbers[0]
        added = (1 << (1 << cell.register.width)) - 1 if self.memory == "safe" else 1 << value
        is_read = lambda me, opened: opened > 0 and self.node(state, me).access.cell == cell
        return tuple(opened | added if is_read(me, opened) else opened for me, opened in enumerate(state.opened))

    def node(self, state, me):
        """Returns what a process does next."""
        return self.processes[me].nodes[state.at[me]]

    def changed(self, cells, access):
        """Returns the cells after a read-modify-write, and the value before."""
        cell, numbers = access.cell, access.numbers
        old = self.stored(cells, cell)
        new = {
            "swap": lambda: numbers[0],
            "add": lambda: (old + numbers[0]) % (1 << cell.register.width),
            "cas": lambda: numbers[1] if old == numbers[0] else old,
        }[access.move]()
        return self.with_stored(cells, cell, new), old

    def moves(self, state, me, access):
        """Yields each entry that a process may make of an access: its words, what the access returns, whether it ends here, what is
        open after it, and the cells."""
        opened, cells, cell = state.opened[me], state.cells, access.cell
        if opened == WRITE:
            yield "end", None, True, state.opened, self.with_stored(cells, cell, access.numbers[0])
        elif opened > 0:
            for value in values_in(opened):
                yield f"value {value}", value, True, state.opened, cells
        elif access.is_read and self.memory == "atomic":
            value = self.stored(cells, cell)
            yield f"get {value}", value, True, state.opened, cells
        elif access.is_read:
            values = self.begins(state, access)
            for value in values_in(values):
                yield f"get {value}", value, True, state.opened, cells
            yield "read", None, False, replaced(state.opened, me, values), cells
        elif access.is_write:
            others, value = self.overlapped(state, access), access.numbers[0]
            yield f"set {value}", None, True, others, self.with_stored(cells, cell, value)
            if self.memory != "atomic":
                yield f"write {value}", None, False, replaced(others, me, WRITE), cells
        else:
            after, old = self.changed(cells, access)
            words = " ".join(map(str, [access.move, *access.numbers, "gives", old]))
            yield words, old, True, state.opened, after

    # Steps.

    def stages(self, state):
        """Returns the stage of each process."""
        nodes = [self.node(state, me) for me in range(self.lock.processes)]
        return [node.stage_after if opened else node.stage for node, opened in zip(nodes, state.opened)]

    def steps(self, state):
        """Yields each next entry, the law that it breaks or None, and the state after it."""
        stages = self.stages(state)
        waiting = sum(1 << me for me, stage in enumerate(stages) if stage == "waiting")
        inside = sum(1 << me for me, stage in enumerate(stages) if stage == "inside")
        for me, process in enumerate(self.processes):
            if process.is_over(state.at[me]):
                continue
            others = ~(1 << me)
            node = process.nodes[state.at[me]]
            for entry, step, opened, cells in self.entries_of(state, me, process, node):
                ahead, law = self.judged(state, me, node, entry, step, waiting & others, inside & others)
                at = state.at if step is None else replaced(state.at, me, step.to)
                yield entry, law, State(at, opened, cells, ahead)

    def entries_of(self, state, me, process, node):
        """Yields each next entry of a process, the step with which it ends or None within an access, what is open after it, and
        the cells."""
        if node.access is None:
            step = process.step(state.at[me])
            yield Entry(me, "", step.marks, step.refusal and ("marks", step.refusal)), step, state.opened, state.cells
            return
        self.place(node.access.cell)
        if not state.opened[me] and (refusal := self.refused_access(me, node)):
            end = "" if node.access.is_write else " 0" if node.access.is_read else " gives 0"
            yield Entry(me, f"{node.access.text}{end}", (), ("access", refusal)), None, state.opened, state.cells
            return
        is_begun = state.opened[me] != NOTHING
        for words, value, is_whole, opened, cells in self.moves(state, me, node.access):
            words = f"{node.access.cell} {words}"
            if is_whole:
                step = process.step(state.at[me], value)
                marks = step.marks[len(node.pre) :] if is_begun else step.marks
                refusal = step.refusal and ("marks", step.refusal)
                yield Entry(me, words, marks, refusal), step, replaced(opened, me, NOTHING), cells
            else:
                refusal = refused_mark(node.stage, "leave") if node.pre else None
                yield Entry(me, words, node.pre, refusal and ("marks", refusal)), None, opened, cells

    def judged(self, state, me, node, entry, step, waiting, inside):
        """Returns who is ahead of each process after an entry, and the law that the entry breaks, or None."""
        law = entry.refusal and entry.refusal[0]
        if not self.has_wait:
            return state.ahead, law or ("together" if "enter" in entry.marks and inside else None)
        begun_before = node.has_begun or state.opened[me] != NOTHING
        ahead_of_me = state.ahead[me] if begun_before else waiting if node.access is not None or "enter" in entry.marks else 0
        self.has_waited = self.has_waited or "wait" in entry.marks
        if "enter" in entry.marks:
            law = law or ("together" if inside else "overtaken" if ahead_of_me else None)
            ahead_of_me = 0
        stage = self.processes[me].nodes[step.to].stage if step else node.stage_after
        ahead = replaced(state.ahead, me, ahead_of_me if stage in ("doorway", "waiting") else 0)
        return ahead if stage == "waiting" else tuple(those & ~(1 << me) for those in ahead), law

    def has_ended(self, state):
        """Returns whether all calls have ended."""
        return all(process.is_over(at) for process, at in zip(self.processes, state.at))


def values_in(values):
    """Yields the values of a set, ascending."""
    value = 0
    while values:
        if values & 1:
            yield value
        values, value = values >> 1, value + 1


def replaced(items, at, item):
    """Returns a tuple with another item at a position."""
    return (*items[:at], item, *items[at + 1 :])


class Found(NamedTuple):
    """What a search of a lock in a memory finds: of each law that is broken the entries of a shortest run, how many states there
    are, whether a process enters or waits in any of the runs, and the registers."""

    records: dict
    states: int
    enters: bool
    waits: bool
    registers: list


def searched(lock, memory, has_wait, wanted=None):
    """Searches all runs, each until it breaks a law, or up to a shortest one that breaks the law that is wanted."""
    search = CellSearch(lock, memory, has_wait)
    first = search.first()
    number, states, came, records, enters, waits = {first: 0}, [first], [None], {}, False, False
    for at, state in explored(states):
        if wanted in records:
            break
        for entry, law, after in search.steps(state):
            enters, waits = enters or "enter" in entry.marks, waits or "wait" in entry.marks
            if law is not None and law not in records:
                records[law] = [*entries_to(came, at), entry]
            if law is None and after not in number:
                number[after] = len(states)
                states.append(after)
                came.append((at, entry))
    return Found(records, len(states), enters, waits, search.registers())


def stuck(lock, memory):
    """Returns the states from which not all calls can end, and the registers."""
    search = CellSearch(lock, memory, has_wait=False)

    def steps(state):
        return ((entry, after) for entry, law, after in search.steps(state) if law not in FORMS)

    return states_stuck(search.first(), steps, search.has_ended), search.registers()


def check_form(found, memory):
    """Raises a mistake if a run has a refused entry."""
    broken = min((law for law in FORMS if law in found.records), key=lambda law: len(found.records[law]), default=None)
    if broken:
        entries = found.records[broken]
        entry = entries[-1]
        raise form_mistake(len(entries) - 1, broken, entry.refusal[1], entry.line, f"--memory {memory} --trace")


class Results(NamedTuple):
    """What the three searches of a lock in a memory find: for `together`, for `overtaken` and for stuck states; and the registers."""

    together: Found
    overtaken: Found
    stuck: Stuck
    registers: list

    def entries(self, law):
        """Returns the entries of a shortest run that breaks a law, or None."""
        return self.stuck.entries if law == "stuck" else getattr(self, law).records.get(law)

    def cell(self, law):
        """Returns the cell of a law in the atlas."""
        if law == "stuck":
            return f"{self.stuck.count:,}"
        found = getattr(self, law)
        none = "never enters" if not found.enters else "never waits" if law == "overtaken" and not found.waits else "none"
        return str(len(found.records[law])) if law in found.records else f"{none} ({found.states:,})"


def results(lock, memory):
    """Returns what the searches of a lock in a memory find, or None if the lock needs atomic memory."""
    try:
        together, overtaken = (searched(lock, memory, has_wait) for has_wait in (False, True))
    except NeedsAtomic:
        return None
    for found in overtaken, together:
        check_form(found, memory)
    return Results(together, overtaken, *stuck(lock, memory))


def row(name, lock, found=None):
    """Returns a row of the atlas. `found` has the results in each memory, if they are known."""
    found = found or [results(lock, memory) for memory in MEMORIES]
    cells = [it.cell(law) if it else "-" for law in [*LAWS, "stuck"] for it in found]
    return f"| {name} | {lock.processes}, {lock.calls} | {' | '.join(cells)} |"


def first_memory(lock):
    """Returns the weakest memory that has the registers of a lock."""
    try:
        searched(lock, "safe", has_wait=True, wanted="marks")
    except NeedsAtomic:
        return "atomic"
    return "safe"


def head_of(lock, memory, registers):
    """Returns the lines with which a trace of a lock begins."""
    return ["trace 1", f"processes {lock.processes}", f"memory {memory}", *(register.line for register in registers)]


def trace_of(lock, memory, registers, entries):
    """Returns the trace of a run."""
    return "".join(f"{line}\n" for line in [*head_of(lock, memory, registers), *(entry.line for entry in entries)])


def shortest(lock, law, memory):
    """Returns the entries of a shortest run that breaks a law, or None, the registers, and the number of states explored."""
    if law == "stuck":
        found, registers = stuck(lock, memory)
        return found.entries, registers, found.states
    # without its marks `wait` a run breaks no law earlier than `together`
    found = searched(lock, memory, law != "together", law)
    return found.records.get(law), found.registers, found.states


def trace(lock, law, memory=None):
    """Returns the trace of a shortest run that breaks a law, or a comment with the number of states explored."""
    memory = memory or first_memory(lock)
    try:
        entries, registers, states = shortest(lock, law, memory)
    except NeedsAtomic:
        raise Mistake(f"the lock has shared registers, and {memory} memory has none; add `--memory atomic`") from None
    if entries is None:
        return f"# none, {states} states\n"
    return trace_of(lock, memory, registers, entries)
