"""Runs the proved program very often: on texts that it reads from memory, by as many workers as there are cores. And counts what
was tried."""

import collections
import contextlib
import fcntl
import functools
import multiprocessing
import os
import signal
import subprocess
import sys
from typing import NamedTuple

from lib.counting import counts_of
from lib.places import PROGRAM, TESTS

CORES = len(os.sched_getaffinity(0))
SECONDS = 300
# (as bytes, so that it is not encoded for each run)
ENVIRONMENT = dict(os.environb)
# the least number of an open file that is given to another process under a small number
LEAST_NUMBER = 10
CHUNK = 50
SCENARIO_COMMANDS = ["plain", "replay", "audit", "sweep", "race", "record", "state --at end", "calls", "draw", "draw-svg"]
COMMANDS = [*SCENARIO_COMMANDS, "bits", "judge"]
# the files of each command in examples/worked/ and beside it
FILES = {
    **dict.fromkeys(SCENARIO_COMMANDS, ("scenario", "bakery")),
    "bits": ("bits-file", "bits"),
    "judge": ("record-file", "record"),
}


class Ran(NamedTuple):
    """How a run ended, and what it wrote."""

    status: int
    output: bytes
    errors: bytes


class Row(NamedTuple):
    """What was tried, and on what; how often, and what went otherwise than it must."""

    what: str
    name: str
    tried: int
    wrong: list

    def line(self):
        told = f", wrong: {'; '.join(map(str, self.wrong[:20]))}" if self.wrong else ""
        return f"{self.what}, {self.name}: {self.tried}{told}"


class Late(Exception):
    """A run that has not ended in time."""


def late(*_):
    raise Late


def killed(process):
    """Kills a process of this one. Returns its status."""
    os.kill(process, signal.SIGKILL)
    os.waitpid(process, 0)
    return -signal.SIGKILL


def above(file):
    """The same open file under a greater number, so that a new process can have it under a small one."""
    other = fcntl.fcntl(file, fcntl.F_DUPFD_CLOEXEC, LEAST_NUMBER)
    os.close(file)
    return other


class Starter:
    """A process that has loaded the program once under `preload/start.c`, and runs each call in a copy of itself. Such a start takes
    less than half as long as another one."""

    def __init__(self, library, moves):
        requests, self.requests, self.statuses, statuses = map(above, (*os.pipe(), *os.pipe()))
        moves = [*moves, *((os.POSIX_SPAWN_DUP2, file, number) for file, number in ((requests, 3), (statuses, 4)))]
        environment = {**ENVIRONMENT, b"LD_PRELOAD": os.fsencode(library)}
        self.process = os.posix_spawn(PROGRAM, [PROGRAM], environment, file_actions=moves)
        os.close(requests)
        os.close(statuses)

    def run(self, words):
        """The status of a run of these words, as `waitpid` gives it."""
        request = b"".join(os.fsencode(word) + b"\0" for word in words)
        os.write(self.requests, len(request).to_bytes(4, sys.byteorder) + request)
        status = os.read(self.statuses, 4)
        if len(status) != 4:
            raise OSError("the process that starts the program has ended")
        return int.from_bytes(status, sys.byteorder)

    def end(self):
        """Ends the process, and with it a copy that still runs."""
        os.close(self.requests)
        os.close(self.statuses)
        return killed(self.process)


class Runner:
    """Runs the program with its three streams in memory. Where a run has not ended in time its status is -9. With a library, a
    `Starter` starts the runs that have the environment of this process."""

    def __init__(self, seconds=SECONDS, library=None):
        self.seconds, self.library, self.starter = seconds, library, None
        self.files = [os.memfd_create(name, os.MFD_CLOEXEC) for name in ("input", "output", "errors")]
        self.moves = [(os.POSIX_SPAWN_DUP2, file, number) for number, file in enumerate(self.files)]
        signal.signal(signal.SIGALRM, late)

    def run(self, words, text=b"", environment=None):
        for file in self.files:
            os.ftruncate(file, 0)
            os.lseek(file, 0, os.SEEK_SET)
        os.pwrite(self.files[0], text, 0)
        words = [os.fspath(PROGRAM), *map(os.fspath, words)]
        status = self.started(words) if self.library and environment is None else self.spawned(words, environment)
        output, errors = (os.pread(file, os.fstat(file).st_size, 0) for file in self.files[1:])
        return Ran(status, output, errors)

    def spawned(self, words, environment):
        """The status of a run in a new process."""
        environment = ENVIRONMENT if environment is None else environment
        process = os.posix_spawn(PROGRAM, words, environment, file_actions=self.moves)
        return self.in_time(lambda: os.waitpid(process, 0)[1], lambda: killed(process))

    def started(self, words):
        """The status of a run in a copy of a process that has loaded the program."""
        self.starter = self.starter or Starter(self.library, self.moves)
        try:
            return self.in_time(lambda: self.starter.run(words), self.end_starter)
        except OSError:
            self.end_starter()
            raise

    def end_starter(self):
        starter, self.starter = self.starter, None
        return starter.end()

    def in_time(self, wait, end):
        """The status for which `wait` waits, or that with which `end` ends what has not ended in time."""
        signal.alarm(self.seconds)
        try:
            return os.waitstatus_to_exitcode(wait())
        except Late:
            return end()
        finally:
            signal.alarm(0)


# the library that the runners of this process load, if one is set
LIBRARY = None


@functools.cache
def runner():
    """The runner of this worker."""
    return Runner(library=LIBRARY)


@contextlib.contextmanager
def workers():
    """A pool of a worker a core, each with a runner of its own."""
    with multiprocessing.get_context("fork").Pool(CORES, runner.cache_clear) as pool:
        yield pool


def counted(found):
    """The rows of many tries, each with what was tried and what was wrong, or None."""
    tried, wrong = collections.Counter(), collections.defaultdict(list)
    for what, name, why in found:
        tried[what, name] += 1
        if why is not None:
            wrong[what, name].append(why)
    for (what, name), number in tried.items():
        yield Row(what, name, number, wrong[what, name])


def script_row(what, name, script, *words, number=None):
    """The row of a script of tests/, by the counts in its last line; so many are wanted, if a number is given."""
    ran = subprocess.run([sys.executable, TESTS / script, *words], capture_output=True, text=True)
    passed, failed = counts_of(ran.stdout.rpartition("\n")[0].rpartition("\n")[2], ran.returncode)
    is_good = failed == 0 < passed and number in (None, passed)
    return Row(what, name, passed + failed, [] if is_good else [ran.stdout[-2000:] + ran.stderr[-2000:]])


def files_of(command, examples):
    """The files of a command: those that stand in the folder of the examples itself, and the worked ones."""
    name, suffix = FILES[command]
    return [*sorted(examples.glob(f"*.{suffix}")), *sorted(examples.glob(f"*/*/{name}"))]
