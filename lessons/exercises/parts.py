#!/usr/bin/env python3
"""Grades one lock, part by part: parts.py EXERCISE SEED FILE. grade.py runs this script within limits.

It prints a line of JSON for each part that the lock has passed, and one for the demand that it does not keep: the law, the reason, and
the trace of a run if there is one. The first failure ends the grading. If a file of the search is missing or at fault, no lock can be
graded, and the line has this fault.
"""

import json
import pathlib
import resource
import sys

sys.path.insert(0, str(pathlib.Path(__file__).resolve().parent))

try:
    import language
    from cell_search import FORMS, CellSearch, NeedsAtomic, searched, trace_of
    from driver import Mistake
    from exercises import EXERCISES
    from locks import Lock
    from schedules import Failed, check_hidden, check_known, checked_lock
    from search import names_in
    from stuck import states_stuck
except Exception as error:
    print(json.dumps({"fault": f"{type(error).__name__}: {error}"}))
    sys.exit(1)

MOST_REASON = 300


def check_kinds(exercise, search):
    """Raises a failure if the lock accesses a register that the exercise does not have, or by a move that it does not allow."""
    for process in search.processes:
        for access in (node.access for node in process.nodes if node.access is not None):
            register = access.cell.register
            if register.is_shared and not exercise.may_share:
                raise Failed("registers", f"{register.name} is shared, and each register of this exercise has one writer")
            if register.width > exercise.most_bits:
                raise Failed("registers", f"{register.name} has {register.width} bits, of at most {exercise.most_bits}")
            if access.move not in ("get", "set") and not exercise.may_update:
                raise Failed("registers", f"`{access.text}` is a read-modify-write, which this exercise does not allow")


def check_laws(exercise, lock):
    """Raises a failure with a shortest run that breaks a law, among all runs of the sizes of the exercise."""
    for processes, calls in exercise.sizes:
        own = Lock(lock, processes=processes, calls=calls)
        for law in ("together", "overtaken") if exercise.is_ordered else ("together",):
            found = searched(own, exercise.memory, law == "overtaken")
            for broken in (*FORMS, law):
                if broken in found.records:
                    raise Failed(broken, "", trace_of(own, exercise.memory, found.registers, found.records[broken]))
            if not found.enters:
                raise Failed("enters", "no process ever enters")


def check_progress(exercise, lock):
    """Raises a failure if a state is stuck, or if a doorway has no bound."""
    for processes, calls in exercise.sizes:
        own = Lock(lock, processes=processes, calls=calls)
        search = CellSearch(own, exercise.memory, exercise.is_ordered)

        def steps(state):
            return ((entry, after) for entry, _, after in search.steps(state))

        found = states_stuck(search.first(), steps, search.has_ended)
        if found.count:
            what = f"{found.count:,} of {found.states:,} states: not all calls can end after this run"
            run = trace_of(own, exercise.memory, search.registers(), found.entries)
            raise Failed("stuck", what, f"{run}# from here on not all calls can end\n")
        check_kinds(exercise, search)
        if exercise.is_ordered:
            check_doorways(search)


def check_doorways(search):
    """Raises a failure if a process may come back, within one doorway, to a state in which it has been."""
    for me, process in enumerate(search.processes):
        after = {at: set() for at, node in enumerate(process.nodes) if node.stage == "doorway"}
        for (at, _), step in process.steps.items():
            if at in after and step.to in after:
                after[at].add(step.to)
        # the states that lead to no other of the doorway, or to which no other leads, are left out as long as there is one
        while ends := [at for at in after if not after[at] & after.keys() or not any(at in those for those in after.values())]:
            for at in ends:
                del after[at]
        if after:
            access = process.nodes[min(after)].access
            raise Failed("doorway", f"process {me} may make the access `{access.text}` in its doorway again and again")


def check_file(path):
    """Returns the lock of a file, once the file is in the language."""
    source = path.read_bytes()
    try:
        language.check(source)
        return checked_lock(names_in(str(path)))
    except Mistake as mistake:
        raise Failed("file", str(mistake)) from None


def graded(exercise, seed, path):
    """Yields each part that a lock passes, and last the failure of the first part that it does not."""
    part = "file"
    try:
        lock = check_file(path)
        checks = {
            "runs": lambda: check_known(exercise, lock, lambda search: check_kinds(exercise, search)),
            "laws": lambda: check_laws(exercise, lock),
            "progress": lambda: check_progress(exercise, lock),
            "hidden": lambda: check_hidden(exercise, lock, seed),
        }
        for part, check in checks.items():
            check()
            yield {"passed": part}
    except Failed as failed:
        yield {"part": part, "law": failed.law, "reason": failed.reason[:MOST_REASON], "trace": failed.trace}
    except Mistake as mistake:
        yield {"part": part, "law": "file", "reason": str(mistake)[:MOST_REASON], "trace": None}
    except NeedsAtomic:
        yield {"part": part, "law": "registers", "reason": "a register is shared, which safe memory does not have", "trace": None}
    except Exception as error:
        yield {"part": part, "law": "file", "reason": f"{type(error).__name__}: {error}"[:MOST_REASON], "trace": None}


def main():
    # no process, no thread, from here on
    resource.setrlimit(resource.RLIMIT_NPROC, (0, 0))
    number, seed, file = sys.argv[1:]
    for line in graded(EXERCISES[int(number)], seed, pathlib.Path(file)):
        print(json.dumps(line), flush=True)


if __name__ == "__main__":
    main()
