"""Failed allocations: the test makes each memory allocation fail, one at a time. It does so for every command on the scenarios,
bits files and record files of examples/ (without the records of other locks), for races, for boards, for a long replay, and for
the tests of the crates. It also makes the start of each thread of a race fail.

A run must end with status 4 and report `out of memory` or `line N: memory` after a prefix of its output. A race, or a run whose
arguments name no file, must print nothing before that report. The search for the command nearest to a misspelled one may do
without its allocation, so such a run may also end normally. A race may report `no thread` only if a thread did not start. A test
must pass, or fail and report the allocation failure; a test of races may report a missing thread or a held port instead.

The test `refused_allocations_are_returned` must fail for each allocation, because it returns each failure; it does so only after
the same call has succeeded.

The library `tests/preload/refuse.c` is loaded before the program, counts its allocations and makes one of them fail. If a program
starts no thread, the library copies the process at each allocation and lets the copy's allocation fail. Otherwise each allocation
takes a run of its own. A run with more than 50,000 allocations repeats the same work, so there an allocation fails only if fewer
than twenty similar ones have failed. Allocations are similar if they have the same size and stack depth, and so have the seven
allocations before them.
"""

import collections
import itertools
import random
import re
import signal
import subprocess
from concurrent.futures import ThreadPoolExecutor

from gate.boards import turns
from lib.places import PROGRAM, TOP, WORKLOADS
from lib.refusing import Refuser
from lib.running import COMMANDS, CORES, Row, script_row

# a run that has more growths than these, and how often it is refused growths that are alike
MANY, REPEATS = 50_000, 20
OF_MANY = f"runs with more than {MANY:,} allocations, similar ones at most {REPEATS} times each"
# a run of a command that takes longer with ample memory is not tried
SECONDS = 30
WANT_OF_MEMORY = re.compile(r"out of memory\n|line \d+: memory\n")
ENDED_WELL = (0, "")
# how a test ends that fails: by its own error, or by an assertion, which ends the program and tells where
FAILED, STOPPED, STOPPED_AT = 101, -signal.SIGABRT, "test stopped at "
WORDS = [["--help"], ["help", "faults"], ["--version"], ["rplay", "-"], ["plain"], ["plain", "-x"], ["plain", "a", "b"]]
# those for which the nearest command is looked for: the letters of both words are collected
COLLECTED = [["rplay", "-"]]
PROCESSES = re.compile(r"^processes (\d+)$", re.M)
# files of several processes: which answers a race of them gives the threads decide
RACES = {
    "two that add": "bakery 2\nopen a c:0\ncall 0 add a 1\ncall 1 add a 1\n",
    "two that find the tickets full": "bakery 1\ntickets 1\n" + "call 0 write a t:x\ncall 1 read a\n" * 8,
    "four, and calls of a fifth": "bakery 1\nprocesses 4\ntickets 8\nslots 4\ncall 4 read a\n"
    + "".join(f"call {p} write {name} c:{p}\ncall {p} add a 1\n" for p, name in enumerate("abcd"))
    + "call 4 read b\n",
    "sixteen": "bakery 2\nprocesses 16\ntickets 32\nslots 8\nopen a c:0\nopen b t:x\n"
    + "".join(f"call {p} add a {p}\ncall {p} ask\ncall {p} cas b t:x t:y\n" for p in range(16)),
}
# how a test tells it: as its own error, or as the one that it found in place of what it asserts; a race that could not start
# a thread tells that, and one of which a port waited at its gate for one that wanted memory tells that it was held
TEST_WANTS_MEMORY = re.compile(r"\b(AllocError|AllocFailed|Memory|Spawn|Held)\b")
# and how `workloads` does
WORKLOADS_WANTS_MEMORY = re.compile(r"Error: (out of memory|line \d+: memory|memory allocation failed)\n")
# the worked scenarios that are tried in short too, by these commands: a lone write, a commit bit settled at 1, a withdrawal, and
# one that is there to be printed
WORKED_IN_SHORT = ["one-process-write", "failure-commit-settled-new", "withdrawal", "comments-and-spaces"]
COMMANDS_IN_SHORT = ["plain", "replay", "record", "audit"]
# the programs of tests of which some are tried in short, and how many
QUICK, DRAWN = ["register_tests_tests", "store_tests_tests"], 20
# this test must fail wherever a growth is refused: it makes the refused call again, and then returns the refusal
RETURNS_REFUSALS = "refused_allocations_are_returned"
# and the tests that are tried there always: of calls that no command makes, or makes on threads
ALWAYS = {
    "store_tests_tests": ["prints_scenarios", "weighs_lists"],
    "scenario_tests_tests": ["calls_succeed_after_refused_growths", RETURNS_REFUSALS],
}


def is_lost(copy):
    """Whether a copy ended for want of memory after a front of what the whole run printed."""
    return copy.returncode == 4 and bool(WANT_OF_MEMORY.fullmatch(copy.stderr)) and copy.is_front


def refused(refuser, words, is_good):
    """A run with ample memory, and what it met; how often a growth of it was refused to a copy, and what was wrong with that."""
    ran, met = refuser.run(words)
    if met.started:
        return ran, met, 0, []
    is_many = met.growths > MANY
    _, met, copies = refuser.each(words, repeats=REPEATS if is_many else 0)
    wrong = [copy for copy in copies if not is_good(copy)]
    if len(copies) != (met.copied if is_many else met.growths):
        wrong.append(f"{len(copies)} of {met.growths} growths were refused")
    return ran, met, len(copies), wrong


def met_none(tried):
    """What is wrong with a run of the program that met no growth."""
    return [] if tried else ["no growth was refused"]


def named(what, name, met):
    """The row's words, by how many growths a run has met."""
    return (OF_MANY, f"{what} {name}, {met.growths:,} allocations") if met.growths > MANY else (what, name)


def file_row(refuser, examples, command, file):
    """Each growth of a command on a file."""
    name = str(file.relative_to(examples))
    try:
        subprocess.run([PROGRAM, *command.split(), file], capture_output=True, timeout=SECONDS)
    except subprocess.TimeoutExpired:
        return Row(f"`{command}`, left out because a run takes more than {SECONDS} s", name, 0, [])
    _, met, tried, wrong = refused(refuser, [PROGRAM, *command.split(), file], is_lost)
    return Row(*named(f"`{command}`", name, met), tried, wrong or met_none(tried))


def files_run(examples, is_short):
    """Each command with each file that it is tried on: all files that are input, and those that stand beside them."""
    commands = [command for command in COMMANDS if command != "race"]
    files = [path for path in sorted(examples.iterdir()) if path.is_file()]
    if is_short:
        worked = [examples / "worked" / name / "scenario" for name in WORKED_IN_SHORT]
        return [*itertools.product(commands, files), *itertools.product(COMMANDS_IN_SHORT, worked)]
    files += [path for name in ("scenario", "bits-file", "record-file") for path in sorted(examples.glob(f"*/*/{name}"))]
    return list(itertools.product(commands, files))


def words_row(refuser, words):
    """Each growth of a run whose words ask for no file, or for nothing that there is: nothing is written before the last one."""
    ran, _ = refuser.run([PROGRAM, *words])
    endings = collections.Counter()

    def is_good(copy):
        is_whole = (copy.returncode, copy.stdout, copy.stderr) == (ran.returncode, ran.stdout, ran.stderr)
        is_unwritten = is_lost(copy) and copy.stdout == ""
        endings.update(whole=is_whole, lost=is_unwritten)
        return copy.before == 0 and (is_unwritten or is_whole and words in COLLECTED)

    _, _, tried, wrong = refused(refuser, [PROGRAM, *words], is_good)
    if not endings["lost"] or (words in COLLECTED) != (endings["whole"] > 0):
        wrong.append(f"how the runs ended: {dict(endings)}")
    return Row("arguments that name no file", " ".join(words), tried, wrong or met_none(tried))


def is_lost_race(ran, met, processes):
    """Whether a race of so many processes ended for want of memory, of which nothing is written; and tells `no thread`
    exactly where it has started some threads and not all, or is to start the first."""
    if (ran.returncode, ran.stdout) != (4, "") or met.started > processes:
        return False
    if ran.stderr == "no thread\n":
        return met.started < processes
    return bool(WANT_OF_MEMORY.fullmatch(ran.stderr)) and met.started in (0, processes)


def race_row(refuser, name, file, end):
    """Each growth of races of a file, up to a race that meets fewer, which must end so."""
    told = PROCESSES.search(file.read_text())
    processes = int(told[1]) if told else 2
    wrong = []
    for growth in itertools.count(1):
        ran, met = refuser.run([PROGRAM, "race", file], growth)
        if met.growths < growth:
            if (ran.returncode, ran.stderr) != end or ran.stdout.endswith("\ngood\n") != (end == ENDED_WELL):
                wrong.append(f"the whole race: {ran}")
            return Row("`race`", name, growth - 1, wrong)
        if not is_lost_race(ran, met, processes):
            wrong.append(f"growth {growth}: {ran}")


def end_in(folder):
    """The status and the fault line with which `race` ends on a worked scenario."""
    status, told = folder / "race.status", folder / "race.err"
    return int(status.read_text()) if status.exists() else 0, told.read_text() if told.exists() else ""


def races(examples, folder, is_short):
    """The files that are raced, each with its name and the status and fault line of its end: the worked scenarios that have an
    output of `race`, and files of several processes."""
    worked = [] if is_short else sorted({path.parent for path in examples.glob("worked/*/race*")})
    yield from ((path.name, path / "scenario", end_in(path)) for path in worked)
    for number, (what, text) in enumerate(RACES.items()):
        if is_short and number:
            return
        file = folder / f"race_{number}"
        file.write_text(text)
        yield what, file, ENDED_WELL


def long_replay(refuser, folder):
    """A write and a hundred reads. The first answer is there before the last growth is met."""
    reads = "call 0 read a\ngo 0 idle\n" * 100
    file = folder / "hundred_reads"
    file.write_text(f"bakery 1\nprocesses 1\ntickets 2\nstamps 2\ncall 0 write a c:5\ngo 0 idle\n{reads}")
    copies = []
    whole, _, tried, wrong = refused(refuser, [PROGRAM, "replay", file], lambda copy: copies.append(copy) or is_lost(copy))
    if not any("answer" in whole.stdout[: copy.before + len(copy.stdout)] for copy in copies):
        wrong.append("no answer is written before the last growth")
    return Row("`replay` of a write and a hundred reads", "a file", tried, wrong)


def tells_want_of_memory(copy):
    """Whether a copy of the program `workloads` ended so: the memory was wanted for a line, or elsewhere."""
    return copy.returncode == 1 and copy.is_front and bool(WORKLOADS_WANTS_MEMORY.fullmatch(copy.stderr))


def board_row(refuser, text, left):
    """Each growth of a board whose ports take turns: what is refused there changes nothing, and is asked for again. So the run
    leaves the same, or tells want of memory where something else wants it."""
    words = [WORKLOADS, "rounds", text, str(text.count("\n"))]
    is_good = lambda copy: (copy.returncode, copy.stdout) == (0, left) or tells_want_of_memory(copy)
    _, _, tried, wrong = refused(refuser, words, is_good)
    return Row("boards whose ports take turns", "`examples/boards/turns`", tried, wrong or met_none(tried))


def is_want_of_memory(ran):
    """Whether a test passed, or failed for want of memory, and was ended by nothing else."""
    tells = bool(TEST_WANTS_MEMORY.search(ran.stdout + ran.stderr))
    has_failed = ran.returncode == FAILED or (ran.returncode == STOPPED and STOPPED_AT in ran.stdout)
    return ran.returncode == 0 or (has_failed and tells)


def is_returned_refusal(ran):
    """Whether a test failed by its own error, which is want of memory."""
    return ran.returncode == FAILED and is_want_of_memory(ran)


def threaded_test(refuser, words):
    """Each growth of a test that starts threads, in a run of its own, up to a run that meets fewer."""
    runs = []
    for growth in itertools.count(1):
        ran, met = refuser.run(words, growth)
        if met.growths < growth:
            return runs
        runs.append(ran)


def test_row(refuser, program, test):
    """Each growth of a test."""
    words, name = [program, test], f"{program.name} {test}"
    is_good = is_returned_refusal if test.rpartition("::")[2] == RETURNS_REFUSALS else is_want_of_memory
    ran, met, tried, wrong = refused(refuser, words, is_good)
    what, told = named("tests of the crates", name, met)
    if met.started:
        runs = threaded_test(refuser, words)
        what, told, tried = "tests that start threads", name, len(runs)
        wrong = [run for run in runs if not is_want_of_memory(run)] + met_none(tried)
    if ran.returncode != 0:
        wrong.insert(0, ran)
    return Row(what, told, tried, wrong)


def all_tests(is_short):
    """Each test of each crate; in short some, and others that are drawn from crates whose tests take no time."""
    tests = []
    for program in sorted(TOP.glob("crates/*/out/*_tests")):
        listed = subprocess.run([program, "--list"], capture_output=True, text=True, check=True).stdout
        tests += [(program, test) for test in re.findall(r"^(.*): test$", listed, re.M)]
    if not is_short:
        return tests
    always = [each for each in tests if each[1].rpartition("::")[2] in ALWAYS.get(each[0].name, [])]
    if len(always) != sum(map(len, ALWAYS.values())):
        raise LookupError(f"of the tests that are always tried these are there: {always}")
    others = [each for each in tests if each[0].name in QUICK and each not in always]
    return always + random.Random(1).sample(others, min(DRAWN, len(others)))


def rows(examples, folder, is_short):
    refuser = Refuser(folder, 1800)
    with ThreadPoolExecutor(CORES) as pool:
        running = [pool.submit(file_row, refuser, examples, *each) for each in files_run(examples, is_short)]
        running += [pool.submit(race_row, refuser, *race) for race in races(examples, folder, is_short)]
        running += [pool.submit(words_row, refuser, words) for words in WORDS]
        running.append(pool.submit(long_replay, refuser, folder))
        running += [pool.submit(board_row, refuser, *each) for each in turns() if each[1] is not None]
        yield from (row.result() for row in running)
        tests = list(pool.map(lambda test: test_row(refuser, *test), all_tests(is_short)))
        yield from tests
    if not any(row.tried for row in tests):
        yield Row("tests of the crates", "no growth of a test was refused", 1, ["none"])
    if not is_short:
        yield script_row("each thread of a race fails to start", "`tests/gate/refused_threads.py`", "gate/refused_threads.py")
