"""Finds the machine of a process alone, of a lock on cells, as far as a search asks for it."""

from typing import NamedTuple

from cells import Access
from driver import Mistake, check_length, resume, started, wrong_yield
from machine import frozen

MARKS = ("call", "wait", "enter", "leave", "answer")
# the marks that belong to the access before them
BEHIND = ("wait", "enter", "answer")
MOST_MARKS = 4


class Node(NamedTuple):
    """A state of a process between two entries: the access that it makes next, if it makes one, and the mark `leave` if that
    belongs to the access; its stage, its stage after that mark, whether it has begun its doorway, and how many calls it has made."""

    access: Access | None
    pre: tuple
    stage: str
    stage_after: str
    has_begun: bool
    calls: int


class Step(NamedTuple):
    """The end of an entry: its marks, the refusal of a mark if one is refused, and the number of the state after it."""

    marks: tuple
    refusal: str | None
    to: int


def refused_mark(stage, mark):
    """Returns the refusal of a mark, or None."""
    refusals = {
        "call": None if stage == "idle" else "busy",
        "wait": None if stage == "doorway" else "not-in-doorway",
        "enter": None if stage in ("doorway", "waiting") else "not-trying",
        "leave": None if stage == "inside" else "not-inside",
        "answer": None if stage in ("doorway", "leaving") else "not-leaving",
    }
    return refusals[mark]


def stage_after(mark):
    """Returns the stage to which a mark leads."""
    return {"call": "doorway", "wait": "waiting", "enter": "inside", "leave": "leaving", "answer": "idle"}[mark]


class Alone:
    """A process alone. Without its marks `wait`, no process is ever ahead of another."""

    def __init__(self, lock, me, has_wait):
        self.lock, self.me, self.has_wait = lock, me, has_wait
        # of each state: the node, and what the generator was sent, to be run up to it again
        self.nodes, self.sent, self.numbers, self.steps = [], [], {}, {}
        generator = started(lock.lock, me, lock.processes)
        self.number(generator, self.pull(generator, sent := []), sent, Node(None, (), "idle", "idle", False, 0))

    def pull(self, generator, sent, value=None):
        """Resumes the generator, and returns what it yields next: a mark or an access."""
        for _ in range(MOST_MARKS + 1):
            sent.append(value)
            found, value = resume(generator, value), None
            if isinstance(found, Access):
                found.is_made = True
                return found
            if not isinstance(found, str) or found not in MARKS:
                raise wrong_yield(generator, found, f"the marks {', '.join(MARKS)} and accesses of its registers")
            if self.has_wait or found != "wait":
                return found
        raise wrong_yield(generator, found, f"at most {MOST_MARKS} marks between two accesses")

    def number(self, generator, item, sent, node):
        """Returns the number of the state in which the process does this next."""
        pre = ()
        if isinstance(item, str) and item == "leave":
            after = self.pull(generator, sent)
            item, pre = (after, ("leave",)) if isinstance(after, Access) else (("leave", after), ())
        access = item if isinstance(item, Access) else None
        node = node._replace(access=access, pre=pre, stage_after=stage_after("leave") if pre else node.stage)
        key = frozen(generator), item if access is None else access.text, node._replace(access=None)
        if key not in self.numbers:
            check_length(len(sent))
            self.numbers[key] = len(self.nodes)
            self.nodes.append(node)
            self.sent.append((tuple(sent), item))
        return self.numbers[key]

    def is_over(self, number):
        """Returns whether a process in this state has made all its calls."""
        node = self.nodes[number]
        return node.calls == self.lock.calls and node.access is None and self.sent[number][1] == "call"

    def step(self, number, value=None):
        """Returns the end of the entry that a process makes in a state, in which a read gives this value."""
        if (number, value) not in self.steps:
            self.steps[number, value] = self.found_step(number, value)
        return self.steps[number, value]

    def run_to(self, number):
        """Returns a generator that was run up to a state."""
        generator = started(self.lock.lock, self.me, self.lock.processes)
        for value in self.sent[number][0]:
            found = resume(generator, value)
            if isinstance(found, Access):
                found.is_made = True
        return generator

    def found_step(self, number, value):
        """Finds a step by running the lock."""
        node, generator, sent = self.nodes[number], self.run_to(number), list(self.sent[number][0])
        item = self.sent[number][1]
        # after a mark `leave` without an access, the generator has yielded the next item already
        marks, item = [item] if isinstance(item, str) else [item[0]] if node.access is None else [*node.pre], item
        item = item[1] if isinstance(item, tuple) else self.pull(generator, sent, value)
        while marks != ["call"] and isinstance(item, str) and item in BEHIND and len(marks) <= MOST_MARKS:
            marks.append(item)
            item = self.pull(generator, sent)
        if len(marks) > MOST_MARKS:
            raise Mistake(f"an entry has at most {MOST_MARKS} marks, and this one has {', '.join(marks)}")
        return self.marked(node, marks, generator, item, sent)

    def marked(self, node, marks, generator, item, sent):
        """Returns the step with these marks."""
        stage, refusal = node.stage, None
        for mark in marks:
            refusal = refusal or refused_mark(stage, mark)
            stage = stage_after(mark)
        has_begun = self.has_wait and stage != "idle" and (node.has_begun or node.access is not None)
        after = Node(None, (), stage, stage, has_begun, node.calls + ("call" in marks))
        return Step(tuple(marks), refusal, self.number(generator, item, sent, after))
