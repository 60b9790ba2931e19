#!/usr/bin/env python3
"""Refuses each thread of a race in turn: the start of the k-th fails, for k = 1, 2 and so on until a race starts all of its
threads. And lets the system refuse the first one, by a limit of one process.

A race of which a thread was refused must start none after it, end with status 4, tell `no thread`, and print nothing. The
threads that run finish, and nobody waits for the process whose thread is not there: the calls here are so many that they
meet at the door. A race that has not ended within a minute is taken for one that hangs. It needs the proved program that
`rt ci` or `rt run` leaves, and `cc`. The limit binds no superuser, who therefore runs the program as a user that there is not;
where the system allows no such user, it says so and leaves this part out.
"""

import itertools
import os
import pathlib
import resource
import shutil
import subprocess
import sys
import tempfile

sys.path.insert(0, str(pathlib.Path(__file__).resolve().parents[1]))

from lib.counting import Counter
from lib.places import PROGRAM
from lib.refusing import Refuser

SECONDS = 60
NOBODY = 2_000_000_000
NO_THREAD = (4, "", "no thread\n")
# the processes of each race, and how often each of them adds
RACES = [(1, 2), (2, 100), (3, 100), (8, 10), (16, 4)]


def text_of(processes, calls):
    """A file of so many processes, whose calls come by turns; one more call is of a process that is not there."""
    heads = ["bakery 2", f"processes {processes}", "tickets 32", "stamps 16", "open a c:0"]
    turns = [f"call {process} add a 1" for _ in range(calls) for process in range(processes)]
    return "".join(f"{line}\n" for line in [*heads, f"call {processes} read a", *turns])


def is_whole(ran, processes, calls):
    """Whether a race of such a file has ended well: a line each for the refused call and the answers, the store, the verdict."""
    lines = ran.stdout.splitlines()
    counted = (len(lines), lines[-1:]) == (1 + processes * calls + 2, ["good"])
    return counted and (ran.returncode, ran.stderr) == (0, "")


def refused_in_turn(refuser, file, processes, calls):
    """How many threads were refused, and those whose race ended otherwise than it must; that of none too, as number 0."""
    wrong = []
    for thread in itertools.count(1):
        ran, met = refuser.run([PROGRAM, "race", file], thread=thread)
        if met.asked < thread:
            if met.started != processes or not is_whole(ran, processes, calls):
                wrong.append(0)
            return thread - 1, wrong
        if (ran.returncode, ran.stdout, ran.stderr) != NO_THREAD or met.asked != thread or met.started != thread - 1:
            wrong.append(thread)


def limited(folder, file):
    """The race of a file by a user of whom the system starts one process or thread, which is the program itself."""
    program = shutil.copy(PROGRAM, folder)
    folder.chmod(0o755)
    with open(file, "rb") as text:
        return subprocess.run(
            [program, "race", "-"],
            stdin=text,
            capture_output=True,
            text=True,
            timeout=SECONDS,
            preexec_fn=lambda: resource.setrlimit(resource.RLIMIT_NPROC, (1, 1)),
            user=NOBODY if os.geteuid() == 0 else None,
        )


def main():
    counter = Counter()
    with tempfile.TemporaryDirectory() as name:
        folder = pathlib.Path(name)
        refuser, file = Refuser(folder, SECONDS), folder / "race"
        for processes, calls in RACES:
            file.write_text(text_of(processes, calls))
            threads, wrong = refused_in_turn(refuser, file, processes, calls)
            counter.add(threads + 1 - len(wrong), len(wrong))
            if wrong:
                print(f"a race of {processes}: of {threads} threads refused in turn, wrong: {wrong}")
            try:
                ran = limited(folder, file)
            except (OSError, subprocess.SubprocessError) as error:
                print(f"a limit of one process was not tried: {error}")
                continue
            told = ran.returncode, ran.stdout, ran.stderr
            counter.compare(f"a race of {processes} under a limit of one process", told, NO_THREAD)
    counter.end()


main()
