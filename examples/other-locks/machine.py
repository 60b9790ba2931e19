"""Finds the machine of a process alone: its states, and the entries that lead from one to the other. search.py runs a machine for
each process.
"""

import gc
from collections.abc import Iterator
from types import CellType, FrameType, GeneratorType
from typing import NamedTuple

from driver import NoValue, check_length, resume
from forms import Form, formed
from writer import Process, reading, write, writing

# what makes an access of a register
ACCESSES = [reading.__code__, writing.__code__]


class Step(NamedTuple):
    """An entry of a process: the bit and the move of its access, its marks, the law and the refusal if it is refused, and the state
    after it."""

    bit: str
    move: str
    marks: tuple
    refusal: tuple | None
    to: int


class State(NamedTuple):
    """What is seen of a process: whether it waits, is inside, and has begun its doorway; whether it is within an access of a bit,
    and of a register; whether it has failed, is failed, and has withdrawn; how many calls it has made; and its stage, its open
    access and the reply that it took, by which accesses and marks are refused."""

    waits: bool
    inside: bool
    has_begun: bool
    within_bit: bool
    within_register: bool
    has_failed: bool
    is_down: bool
    has_withdrawn: bool
    calls: int
    form: Form


def frozen(value):
    """A value that two runs of a generator share only where they go on alike. It has where the generator stands and all that it
    holds: the loops that it is within, too, and values that are not used yet."""
    if isinstance(value, GeneratorType):
        held = [it for it in gc.get_referents(value) if not isinstance(it, FrameType)]
        return value.gi_code, value.gi_frame.f_lasti, tuple(map(frozen, held))
    if isinstance(value, CellType):
        return tuple(map(frozen, gc.get_referents(value)))
    if isinstance(value, Iterator):
        return tuple(map(frozen, value.__reduce__()))
    if isinstance(value, NoValue):
        return value.key
    if isinstance(value, (set, frozenset)):
        return frozenset(map(frozen, value))
    if isinstance(value, dict):
        return tuple(map(frozen, value.items()))
    return tuple(map(frozen, value)) if isinstance(value, (list, tuple)) else value


def innermost(lock):
    """The generator that goes on, of those that a lock runs."""
    held = (it for it in lock.gi_frame.f_locals.values() if isinstance(it, GeneratorType))
    inner = lock.gi_yieldfrom or next(held, None)
    return lock if inner is None else innermost(inner)


def after_failure(lock, me, processes, cut, is_inside):
    """What the memory unit of a failed process does, and then the process again. It settles the write that is cut, if one is."""
    if cut:
        yield cut, "settle"
    if is_inside:
        yield "leave"
    for field, width in lock.clears:
        yield from write(me, field, 0, processes, width)
    yield "down"
    yield "restart"
    yield from lock.lock(me, processes)


def after_withdrawal(lock, me, processes, cut):
    """What a process does that has withdrawn. It ends the write that is open, if one is."""
    if cut:
        yield cut, "end"
    for field, width in lock.clears:
        yield from write(me, field, 0, processes, width)
    yield "answer withdrawn"
    yield from lock.lock(me, processes)


class Machine:
    """A process alone: its states, and of each the steps, by the value that it reads, by None, or by `fail` and `withdraw`, if
    that is asked for; it does each of these once at most."""

    def __init__(self, lock, me, with_failures):
        self.lock, self.me, self.with_failures = lock, me, with_failures
        first = State(*[False] * 8, 0, Form())
        self.came, self.lengths, self.states, self.steps = [None], [0], [first], []
        self.found = {self.key(self.at(0), first): 0}
        while len(self.steps) < len(self.states):
            self.steps.append(self.steps_from(len(self.steps)))
        self.shrink()

    def key(self, process, state):
        return frozen(process.lock), process.next, state

    def at(self, at):
        """A process in a state, run up to it."""
        entries = []
        while self.came[at]:
            at, value = self.came[at]
            entries.append((at, value))
        process = Process(self.lock.lock, self.me, self.lock.processes)
        for before, value in reversed(entries):
            self.go(process, self.states[before], value)
        return process

    def go(self, process, state, value):
        """Makes the next entry of a process: its bit, its move and its marks."""
        if value not in ("fail", "withdraw"):
            return process.step(value)
        bit, move = process.next if state.within_bit else (None, None)
        cut, parts = bit if move == "end" else None, (self.lock, self.me, self.lock.processes)
        process.lock = after_failure(*parts, cut, state.inside) if value == "fail" else after_withdrawal(*parts, cut)
        process.next = resume(process.lock)
        return ("", "", [value]) if move != "value" else (bit, "drop", [value])

    def steps_from(self, at):
        process, state, values = self.at(at), self.states[at], []
        if not (process.begins("call") and state.calls == self.lock.calls):
            is_open = not process.begins("") and process.next[1] in ("value", "settle")
            values += (0, 1) if is_open else (None,)
        if self.with_failures:
            values += ["fail"] * (not state.is_down and not state.has_failed)
            values += ["withdraw"] * (state.waits and not state.has_withdrawn)
        return {value: self.step(at, value) for value in values}

    def step(self, at, value):
        process, state = self.at(at), self.states[at]
        register = innermost(process.lock)
        bit, move, marks = self.go(process, state, value)
        said = [mark.split()[0] for mark in marks]
        is_cut = value in ("fail", "withdraw")
        # a write goes on after a withdrawal
        goes_on = value == "withdraw" and state.form.opened is not None and state.form.opened[1] == "write"
        is_open = move.startswith(("write", "read")) or goes_on
        refusal, form = formed(state.form, self.me, self.lock, bit, move, marks)
        state = State(
            waits=not is_cut and "enter" not in said and (state.waits or "wait" in said),
            inside="leave" not in said and (state.inside or "enter" in said),
            has_begun=not is_cut and not state.is_down and "answer" not in said and (state.has_begun or bit != ""),
            within_bit=is_open,
            within_register=is_open or register.gi_code in ACCESSES and innermost(process.lock) is register,
            has_failed=state.has_failed or value == "fail",
            is_down=(state.is_down or value == "fail") and "restart" not in said,
            has_withdrawn=state.has_withdrawn or value == "withdraw",
            calls=state.calls + ("call" in said),
            form=form,
        )
        key = self.key(process, state)
        if key not in self.found:
            self.found[key] = len(self.states)
            self.came.append((at, value))
            self.lengths.append(self.lengths[at] + 1)
            check_length(self.lengths[-1])
            self.states.append(state)
        return Step(bit, move, tuple(marks), refusal, self.found[key])

    def shrink(self):
        """Makes one state of those that look alike and go on alike."""
        kinds = [0] * len(self.steps)
        while True:
            looks = [
                (kind, state, tuple((value, step._replace(to=kinds[step.to])) for value, step in steps.items()))
                for kind, state, steps in zip(kinds, self.states, self.steps)
            ]
            numbers = {look: number for number, look in enumerate(dict.fromkeys(looks))}
            if len(numbers) == len(set(kinds)):
                break
            kinds = [numbers[look] for look in looks]
        of_kind = [kinds.index(kind) for kind in range(len(set(kinds)))]
        self.steps = [{value: step._replace(to=kinds[step.to]) for value, step in self.steps[at].items()} for at in of_kind]
        self.states = [self.states[at] for at in of_kind]
