"""Searches all runs of a lock on bits, one entry more at a time: every schedule, and all that reads may give that a write overlaps.
search.py prints what it finds.

A process alone is a machine with few states (machine.py). A state of the search has a state of each process, the bits, and who is
ahead of whom. Where accesses never overlap, each is made whole. A run goes on as long as it breaks no law.
"""

from functools import lru_cache
from typing import NamedTuple

from driver import form_mistake
from machine import Machine
from stuck import explored, states_stuck

MEMORIES = ["safe", "bits", "registers"]
# by which an entry is refused, and by which it does harm
FORMS, LAWS = ["access", "marks"], ["together", "overtaken"]
# the bits of a name in a store
SLOT = 184


class Found(NamedTuple):
    """What a search finds: of each law that is broken the entries of a shortest record, how many states there are, and whether a
    process enters in any of the runs."""

    records: dict
    states: int
    enters: bool


@lru_cache(maxsize=32)
def machine_of(lock, me, with_failures):
    """The machine of a process, which is the same in each memory."""
    return Machine(lock, me, with_failures)


class Search:
    """All runs of a lock in a memory, one entry more at a time."""

    def __init__(self, lock, memory, with_failures=False):
        self.lock = lock
        self.machines = [machine_of(lock, me, with_failures) for me in range(lock.processes)]
        bits = sorted({step.bit for machine in self.machines for steps in machine.steps for step in steps.values() if step.bit})
        self.bits, self.memory = {bit: 1 << number for number, bit in enumerate(bits)}, memory

    def first(self):
        """A state of each process; the bits that are 1, those that are being written, those that are being read, and those whose
        read is overlapped; and of each process who is ahead of it."""
        return (0,) * len(self.machines), 0, 0, 0, 0, (0,) * len(self.machines)

    def seen(self, state):
        return [machine.states[at] for machine, at in zip(self.machines, state[0])]

    def may_go(self, seen):
        """The processes that may make the next entry."""
        busy = lambda it: self.memory == "bits" and it.within_bit or self.memory == "registers" and it.within_register
        return [me for me, it in enumerate(seen) if busy(it)] or range(len(seen))

    def steps(self, state):
        """Each next entry: its process, its step, the law that it breaks, if it does, and the state behind it."""
        seen = self.seen(state)
        waiting = sum(1 << me for me, it in enumerate(seen) if it.waits)
        inside = sum(1 << me for me, it in enumerate(seen) if it.inside)
        is_over = {"fail": any(it.has_failed for it in seen), "withdraw": any(it.has_withdrawn for it in seen)}
        for me in self.may_go(seen):
            for value, step in self.machines[me].steps[state[0][me]].items():
                if not is_over.get(value) and self.may_give(state, step, value):
                    yield me, step, *self.after(state, me, step, seen[me], waiting & ~(1 << me), inside & ~(1 << me))

    def may_give(self, state, step, value):
        """Whether a read may end with this value."""
        _, ones, _, _, overlapped, _ = state
        bit = self.bits.get(step.bit, 0)
        return not step.move.startswith("value") or overlapped & bit or (ones & bit != 0) == value

    def after(self, state, me, step, before, waiting, inside):
        """The law that a step breaks, and the state behind it."""
        those, *bits, ahead = state
        to = self.machines[me].states[step.to]
        those = (*those[:me], step.to, *those[me + 1 :])
        ahead = list(ahead)
        if not (to.has_begun and before.has_begun):
            ahead[me] = waiting if to.has_begun else 0
        law = step.refusal and step.refusal[0]
        if "enter" in step.marks and not law:
            is_overtaking = ahead[me] if to.has_begun else waiting
            law = "together" if inside else "overtaken" if is_overtaking else None
            ahead[me] = 0
        if not to.waits:
            ahead = [it & ~(1 << me) for it in ahead]
        return law, (those, *self.moved(step, *bits), tuple(ahead))

    def moved(self, step, ones, written, being_read, overlapped):
        """The bits behind a step."""
        bit = self.bits.get(step.bit, 0)
        if step.move.startswith("write"):
            ones = ones | bit if step.move == "write 1" else ones & ~bit
            return ones, written | bit, being_read, overlapped | being_read & bit
        if step.move == "read":
            return ones, written, being_read | bit, overlapped | written & bit
        if step.move.startswith("settle"):
            ones = ones | bit if step.move == "settle 1" else ones & ~bit
        if step.move.startswith(("end", "settle")):
            return ones, written & ~bit, being_read, overlapped
        return ones, written, being_read & ~bit, overlapped & ~bit

    def found(self, wanted=None):
        """What all runs show, or those up to a shortest record that breaks the law that is wanted."""
        first = self.first()
        came, states, records, enters = {first: None}, [first], {}, False
        for _, state in explored(states):
            for me, step, broken, after in self.steps(state):
                enters = enters or "enter" in step.marks
                if broken is None and after not in came:
                    came[after] = state, me, step
                    states.append(after)
                elif broken is not None and broken not in records:
                    records[broken] = [*self.entries(came, state), (me, step)]
                    if broken == wanted:
                        return Found(records, len(states), enters)
        return Found(records, len(states), enters)

    def run(self, law):
        """The entries of a shortest record that breaks this law, or None, and how many states were looked at. The law `stuck` is
        that all calls can end."""
        if law == "stuck":
            stuck = self.stuck()
            return stuck.entries, stuck.states
        found = self.found(law)
        return found.records.get(law), found.states

    def stuck(self):
        """The states from which not all calls can end."""

        def steps(state):
            for me, step, broken, after in self.steps(state):
                if broken not in FORMS:
                    yield (me, step), (*after[:-1], state[-1])

        return states_stuck(self.first(), steps, self.has_ended)

    def has_ended(self, state):
        """Whether all calls have ended."""
        return not any(machine.steps[at] for machine, at in zip(self.machines, state[0]))

    def entries(self, came, state):
        found = []
        while came[state]:
            state, me, step = came[state]
            found.append((me, step))
        return found[::-1]


def bits_of(search, *fields):
    """How many bits the lock accesses of the registers of these fields, or 1 if none."""
    spelled = [bit.split(".") for bit in search.bits]
    return max((1 + int(number) for _, field, number, _ in spelled if field in fields), default=1)


def head_of(search):
    """The lines with which a record of a lock begins: each register has the bits that the lock accesses, or that it states."""
    tickets = max(search.lock.tickets or 1, bits_of(search, "ticket"))
    stamps, slots = bits_of(search, "stamp0", "stamp1"), -(-bits_of(search, "image0", "image1") // SLOT)
    version = 2 if tickets > 16 or stamps > 16 or search.lock.processes > 8 else 1
    return [f"record {version}", f"processes {search.lock.processes}", f"tickets {tickets}", f"stamps {stamps}", f"slots {slots}"]


def line_of(me, step, taken=0):
    """The line of an entry, in which what is taken gets its place."""
    place = f" {step.bit} {step.move}" if step.bit and step.move != "drop" else ""
    marks = [mark.replace("taken", f"taken {taken}", 1) for mark in step.marks]
    return " : ".join([f"{me}{place}", *marks])


def lines_of(entries):
    """The lines of entries."""
    taken = 0
    for me, step in entries:
        yield line_of(me, step, taken)
        taken += "taken no-name" in step.marks


def check_form(found, memory):
    """Stops at a run whose last entry is refused: the judge of any lock reports it by another law than the two that are searched."""
    broken = min((law for law in FORMS if law in found.records), key=lambda law: len(found.records[law]), default=None)
    if broken:
        entries = found.records[broken]
        *_, line = lines_of(entries)
        refusal = entries[-1][1].refusal[1]
        raise form_mistake(len(entries) - 1, broken, refusal, line, f"--memory {memory} --record")


def cells(lock, memories, with_failures):
    """What the search finds of a lock: of each law in each memory; and how many states are stuck, except with failures."""
    searches = [Search(lock, memory, with_failures) for memory in memories]
    all_found = [search.found() for search in searches]
    for search, found in zip(searches, all_found):
        check_form(found, search.memory)
    for law in LAWS:
        for found in all_found:
            none = "none" if found.enters else "never enters"
            yield str(len(found.records[law])) if law in found.records else f"{none} ({found.states:,})"
    if not with_failures:
        yield from (f"{search.stuck().count:,}" for search in searches)


def row(name, lock, with_failures=False):
    """A row of the table; with failures that of safe bits alone."""
    found = cells(lock, MEMORIES[:1] if with_failures else MEMORIES, with_failures)
    return f"| {name} | {lock.processes}, {lock.calls} | {' | '.join(found)} |"


def record(lock, law, memory, with_failures=False):
    """The shortest record of a lock that breaks a law, or what was looked at."""
    search = Search(lock, memory, with_failures)
    entries, states = search.run(law)
    if entries is None:
        return f"# none, {states} states\n"
    return "".join(f"{line}\n" for line in [*head_of(search), *lines_of(entries)])
