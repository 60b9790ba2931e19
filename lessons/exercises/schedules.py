"""Makes runs of a lock by schedules: those of the files NAME.runs, which students know, and those that are drawn from a seed.

A file of runs has these lines; a comment begins with `#`:

    run NAME             a run begins
    processes N          it has N processes, 0 to N - 1; 2 if this line is missing
    call P               process P begins a call, unless it has one
    step P N             P makes N entries, or fewer if its call ends
    go P wait            P makes entries until its doorway has ended; likewise `inside`, and `idle`, until its call has ended
    rounds               the processes make an entry each in turn, until no call is left
    flick V              from here on a read that a write overlaps gives V, if it may

`go` and `rounds` give up after `MOST` entries of a process, or once a state is repeated, since the processes then make the same entries
for ever. The run has failed, and its trace ends there with a comment.
"""

import random
from typing import NamedTuple

from cell_search import CellSearch, State, replaced, trace_of
from driver import Mistake
from locks import Lock

MOST = 1000
# more calls than a run makes of any process
CALLS = 50
HIDDEN, HIDDEN_CALLS = 40, 3
# the rounds after which all calls of a hidden run have ended
ROUNDS = 3000
# the lengths of the stretches of choices that are left out of a failed run, to make it shorter
STRETCHES = (64, 16, 4, 1)
STAGES = {"wait": ("waiting", "inside"), "inside": ("inside",), "idle": ("idle",)}


class Failed(Exception):
    """A demand that a lock does not keep: its name, the reason, and a trace of a run, or None."""

    def __init__(self, law, reason, trace=None):
        super().__init__(law)
        self.law, self.reason, self.trace = law, reason, trace


class Run(NamedTuple):
    """A run of a file: its name, its number of processes, and its lines, each with its number in the file."""

    name: str
    processes: int
    lines: list


def runs_in(text):
    """Returns the runs of a file."""
    found = []
    for number, line in enumerate(text.splitlines(), 1):
        words = line.partition("#")[0].split()
        if words[:1] == ["run"]:
            found.append(Run(words[1], 2, []))
        elif words[:1] == ["processes"]:
            found[-1] = found[-1]._replace(processes=int(words[1]))
        elif words:
            found[-1].lines.append((number, words))
    return found


class Walk:
    """A run that is being made. `choose` picks one of the entries that a process may make next."""

    def __init__(self, exercise, lock, processes, calls, choose):
        self.exercise, self.lock, self.choose = exercise, Lock(lock, processes=processes, calls=calls), choose
        self.search = CellSearch(self.lock, exercise.memory, has_wait=exercise.is_ordered)
        self.state, self.entries = self.search.first(), []
        # of each state of a line, the number of entries before it
        self.seen = {}

    def stage(self, me):
        """Returns the stage of a process."""
        return self.search.stages(self.state)[me]

    def trace(self, comment=""):
        """Returns the trace of the run so far, which may end with a comment."""
        return trace_of(self.lock, self.exercise.memory, self.search.registers(), self.entries) + comment

    def is_repeated(self, position=None):
        """Notes the state, and returns whether the run was in it before, at the same position of its schedule."""
        return self.seen.setdefault((self.state, position), len(self.entries)) < len(self.entries)

    def repeated(self, position=None):
        """Returns which entries are repeated for ever, in words, or an empty text if no state was repeated."""
        first, last = self.seen.get((self.state, position), len(self.entries)), len(self.entries) - 1
        if first > last:
            return ""
        return f"entry {last} is repeated for ever" if first == last else f"entries {first} to {last} are repeated for ever"

    def options(self, me):
        """Yields what `CellSearch.steps` yields of one process."""
        search, state, process = self.search, self.state, self.search.processes[me]
        if process.is_over(state.at[me]):
            return
        stages, node = search.stages(state), process.nodes[state.at[me]]
        waiting, inside = (sum(1 << it for it, at in enumerate(stages) if at == stage and it != me) for stage in ("waiting", "inside"))
        for entry, step, opened, cells in search.entries_of(state, me, process, node):
            ahead, law = search.judged(state, me, node, entry, step, waiting, inside)
            yield entry, law, State(state.at if step is None else replaced(state.at, me, step.to), opened, cells, ahead)

    def step(self, me):
        """Makes the next entry of a process, and returns whether it has one."""
        options = [*self.options(me)]
        if not options:
            return False
        entry, law, self.state = self.choose(options)
        self.entries.append(entry)
        if law:
            raise Failed(law, "", self.trace())
        if "answer" in entry.marks or "enter" in entry.marks:
            self.check_call(entry)
        return True

    def check_call(self, last):
        """Checks the entries of a call that enters or gives up: it has the mark `wait`, and it gives up only if it may."""
        own = [it for it in self.entries if it.me == last.me]
        begin = max(at for at, it in enumerate(own) if "call" in it.marks)
        marks = [mark for it in own[begin:] for mark in it.marks]
        full = self.exercise.full
        has_read = full is not None and any(it.access.endswith((f"get {full}", f"value {full}")) for it in own[begin:])
        if "enter" not in marks and not has_read:
            what = "" if full is None else f" and has not read the ticket {full}"
            raise Failed("gives-up", f"process {last.me} gives up its call{what}", self.trace())
        if self.exercise.is_ordered and "enter" in marks and "wait" not in marks:
            raise Failed("doorway", f"process {last.me} enters without the mark `wait`", self.trace())

    # Lines.

    def made(self, words):
        """Makes a line, and returns whether the processes got where it says."""
        numbers = [int(word) for word in words if word.isdigit()]
        self.seen.clear()
        if words[0] == "rounds":
            any(self.has_ended() or self.is_repeated() or not self.round() for _ in range(MOST))
            return self.has_ended()
        me = numbers[0]
        if words[0] == "call":
            return self.stage(me) != "idle" or self.step(me)
        if words[0] == "step":
            return all(self.stage(me) == "idle" or self.step(me) for _ in range(numbers[1]))
        is_there = lambda: self.stage(me) in STAGES[words[2]]
        return any(is_there() or self.is_repeated() or not self.moves(me) for _ in range(MOST)) and is_there()

    def moves(self, me):
        """Makes an entry of a process that has a call, and returns whether it has one."""
        return self.stage(me) != "idle" and self.step(me)

    def round(self):
        """Lets each process that has a call make an entry, and returns whether one did."""
        return any([self.moves(me) for me in range(self.lock.processes)])

    def has_ended(self):
        """Returns whether no process has a call."""
        return set(self.search.stages(self.state)) == {"idle"}


def by_flick(flick):
    """Returns the choice of a run of a file: each access has a begin and an end, and an overlapped read gives the flick, if it may."""

    def chosen(options):
        begun = [it for it in options if it[0].access.endswith(" read") or " write " in it[0].access]
        given = [it for it in options if it[0].access.endswith(f"value {flick[0]}")]
        return (begun or given or options)[0]

    return chosen


def check_known(exercise, lock, check_kinds):
    """Raises the failure of the first run of the exercise's file that fails."""
    for run in runs_in(exercise.runs):
        flick = [0]
        walk = Walk(exercise, lock, run.processes, CALLS, by_flick(flick))
        for number, words in run.lines:
            line = f"run {run.name} ({exercise.stem}.runs, line {number}, `{' '.join(words)}`)"
            try:
                flick[0] = int(words[1]) if words[0] == "flick" else flick[0]
                is_made = words[0] == "flick" or walk.made(words)
            except Failed as failed:
                raise Failed(failed.law, f"{line}: {failed.reason}".rstrip(": "), failed.trace) from None
            if not is_made:
                why = walk.repeated() or f"not reached in {MOST} entries of a process"
                raise without_end(walk, f"{line}: {why}")
            check_kinds(walk.search)


# Hidden runs.


def drawn(exercise, seed, number):
    """Returns the number of processes of a hidden run, and the choices that begin it: of each entry its process, and a number that
    picks one of its alternatives. After them the processes make rounds."""
    draws = random.Random(f"{exercise.number} {seed} {number}")
    processes, stays = draws.randint(*exercise.processes), draws.choice((0, 0.5, 0.9))
    choices, me = [], 0
    for _ in range(draws.randrange(20, 300)):
        me = me if draws.random() < stays else draws.randrange(processes)
        choices.append((me, draws.randrange(840)))
    return processes, choices


def made_of(exercise, lock, processes, choices):
    """Makes a hidden run of these choices, and returns it, or raises its failure."""
    picks = [0]
    walk = Walk(exercise, lock, processes, HIDDEN_CALLS, lambda options: options[picks[0] % len(options)])
    for me, picks[0] in choices:
        walk.step(me)
    for number in range(ROUNDS):
        # (in atomic memory an entry has no alternatives)
        picks[0] = number * 7 % 840 if exercise.memory == "safe" else 0
        if walk.is_repeated(picks[0]):
            raise without_end(walk, f"not all calls end: {walk.repeated(picks[0])}")
        if not any([not walk.search.processes[me].is_over(walk.state.at[me]) and walk.step(me) for me in range(processes)]):
            return walk
    raise without_end(walk, f"not all calls have ended after {ROUNDS} rounds")


def without_end(walk, why):
    """Returns the failure of a run that does not get where it should. Its trace ends with the reason, as a comment."""
    return Failed("turns", why, walk.trace(f"# {why}\n"))


def failure_of(exercise, lock, processes, choices):
    """Returns the failure of a hidden run, or None."""
    try:
        made_of(exercise, lock, processes, choices)
    except Failed as failed:
        return failed
    return None


def check_hidden(exercise, lock, seed):
    """Raises the failure of the first hidden run of a seed that fails, with a shorter run that fails in the same way."""
    for number in range(HIDDEN):
        processes, choices = drawn(exercise, seed, number)
        failed = failure_of(exercise, lock, processes, choices)
        if failed:
            found = shortened(exercise, lock, processes, choices, failed)
            where = f"hidden run {number} of seed {seed}, with {processes} processes"
            raise Failed(found.law, f"{where}: {found.reason}" if found.reason else where, found.trace)


def shortened(exercise, lock, processes, choices, failed):
    """Returns the failure of a run that is left if stretches of its choices are left out, as long as it fails in the same way."""
    for many in STRETCHES:
        at = 0
        while at < len(choices):
            fewer = choices[:at] + choices[at + many :]
            again = failure_of(exercise, lock, processes, fewer)
            if again and again.law == failed.law:
                choices, failed = fewer, again
            else:
                at += many
    return failed


def checked_lock(found, name="lock"):
    """Returns the function of a file that is the lock."""
    if not callable(found.get(name)):
        raise Mistake(f"the file has no function `{name}(me, processes)`")
    return found[name]
