"""The kinds of a soak that are not a comparison of an output: races and boards on threads, long runs, allocations that fail,
and reads and writes that fail. Each is drawn from its number; how threads meet is not.
"""

import collections
import functools
import os
import random
import shutil
from typing import NamedTuple

from byhand import soak_boards, soak_races
from hostile import failing_streams, long_runs, refused_memory
from lib.drawn_files import JUDGES, KINDS
from lib.places import PROGRAM, TOP, WORKLOADS
from lib.preloading import built
from lib.refusing import Refuser
from lib.running import Ran, Runner
from lib.wanted import events_of, kind_of

# a scenario of more events, or a file of more bytes, is not run with failures
MOST_EVENTS, MOST_BYTES = 2_500, 20_000
# the allocations and the calls of a run that fail
MOST_REFUSED, MOST_CALLS = 60, 12
# the longest run has so many times the events of the shortest, as a power of 2
MOST_DOUBLED = 9
FILES = ["scenario", "bits", "own-record", "record", "trace", "spoiled"]


class Played(NamedTuple):
    """What was tried: how many runs, and of each that ended otherwise than it must the call, the file and what was wrong."""

    tries: int
    wrong: list


# Threads.


def play_race(number):
    text, found = soak_races.play(number, collections.Counter())
    return Played(1, [] if found == "good" else [("race", text.encode(), found)])


def play_round(number):
    text, found = soak_boards.play(number, collections.Counter())
    return Played(1, [] if found == "good" else [("workloads rounds", text.encode(), found)])


# Long runs.


def play_long(folder, number):
    """One process that waits or adds again and again, or a record that is judged as it is written."""
    draws, times, own = random.Random(f"long {number}"), 2 ** random.Random(number).randint(0, MOST_DOUBLED), own_folder(folder)
    refuser = refuser_in(folder)
    how = draws.randrange(5)
    if how == 4:
        row = long_runs.long_record(refuser, own, long_runs.waiting(max(1, times // 8)))
    else:
        row = long_runs.long_run(refuser, own, [long_runs.waiting, long_runs.adding][how % 2](times), ["replay", "audit"][how // 2])
    return Played(row.tried, [(f"{row.what} {row.name}", b"", str(why)) for why in row.wrong])


# Failures.


def drawn_file(draws):
    """A short file of some kind, and a command with options that reads it."""
    while True:
        text = KINDS[draws.choice(FILES)][0](draws.randrange(2**32))
        if text is not None and len(text) <= MOST_BYTES and (kind_of(text) != "bakery" or has_few_events(text)):
            return text, draws.choice(commands_of(draws, kind_of(text)))


def has_few_events(text):
    return events_of(text, MOST_EVENTS) is not None


def commands_of(draws, kind):
    """The commands that read a file of this kind, with options. (With `--explain` more follows a fault.)"""
    first = draws.randint(0, 30)
    options = [[], ["--accesses"], ["--from", str(first), "--to", str(first + draws.randint(0, 60))]]
    options += [["--judge"], ["--any-lock"]] if kind in ("record", "trace") else []
    options += [["--reads"]] if kind != "trace" else []
    drawing = [[command, *draws.choice(options)] for command in ("draw", "draw-svg")]
    state = [["state", "--at", str(draws.randint(0, 100))], ["state", "--at", "end"]]
    if kind == "bits":
        return [["bits"]]
    if kind in ("record", "trace"):
        return [*map(list, JUDGES), ["calls"], *drawing, *(state if kind == "record" else [])]
    return [["plain"], ["replay"], ["audit"], ["record"], ["calls"], *state, *drawing]


def own_folder(folder):
    """A folder of this process."""
    own = folder / str(os.getpid())
    own.mkdir(exist_ok=True)
    return own


@functools.cache
def refuser_in(folder):
    return Refuser(own_folder(folder))


@functools.cache
def spoiler_in(folder):
    return failing_streams.Spoiler(own_folder(folder))


def play_refused(folder, number):
    """A run of which some allocations fail, each in a copy."""
    draws = random.Random(f"refused {number}")
    text, words = drawn_file(draws)
    file = own_folder(folder) / "file"
    file.write_bytes(text)
    refuser, call = refuser_in(folder), [PROGRAM, *words, file]
    _, met = refuser.run(call)
    shares = max(1, met.growths // MOST_REFUSED)
    ended, _, copies = refuser.each(call, draws.randrange(shares), shares)
    wrong = [copy for copy in copies if not refused_memory.is_lost(copy)]
    told = "\n".join(map(str, wrong[:5])) if wrong else "" if copies else f"of {met.growths} allocations none failed: {ended}"
    return Played(len(copies), [(f"{' '.join(words)}, {shares} shares", text, told)] if told else [])


def play_streams(folder, number):
    """A run of which some reads and writes fail, take one byte or take none, each in a run of its own."""
    draws = random.Random(f"streams {number}")
    text, words = drawn_file(draws)
    spoiler, command = spoiler_in(folder), " ".join(words)
    whole = failing_streams.plainly(command, text)
    most = draws.choice([0, max(1, -(-max(len(whole.output), len(text)) // draws.choice([5, 40])))])
    jobs = list(failing_streams.spoiled_calls(spoiler, command, text, most))
    jobs = draws.sample(jobs, min(MOST_CALLS, len(jobs)))
    wrong = [told for job in jobs if (told := stream_fault(spoiler, whole, job))]
    return Played(len(jobs), [(command, text, "\n".join(wrong[:5]))] if wrong else [])


def stream_fault(spoiler, whole, job):
    """What is wrong with a run of which a call was spoiled, or None. A page of a record or a trace may begin before a read fails, or
    before a line is reached that has a fault. That fault is told even if a write fails then."""
    command, text, most, stream, call, how = job
    why = failing_streams.spoil(spoiler, job)[2]
    if why is None or not command.startswith("draw") or kind_of(text) not in ("record", "trace"):
        return f"{how} {why}" if why else None
    ran, _, writes, *_ = spoiler.run([*command.split(), "-"], text, MOST=most, STREAM=stream, CALL=call, HOW=how)
    is_begun = whole.output.startswith(ran.output) and b"</html>" not in ran.output
    is_read = (stream, how) == (failing_streams.READS, "fail") and ran == Ran(1, ran.output, b"read fault\n")
    is_last = stream == failing_streams.OUTPUT and how != "one" and writes == call and ran.output != whole.output
    is_told = is_last and whole.errors.startswith(b"line ") and ran._replace(output=whole.output) == whole
    return None if is_begun and (is_read or is_told) else f"{how} {why}"


def counts_allocations(folder):
    """Whether a run of the program meets allocations that can fail. One that is built without proof does not."""
    return refuser_in(folder).run([PROGRAM, "--version"])[1].growths > 0


def starting_library(folder):
    """The library under which one process starts the program again and again, built in a folder; or None, and why it is not used."""
    if not shutil.which("cc"):
        return None, "`cc` is not installed"
    if not counts_allocations(folder):
        return None, "the program is built without proof, so that copying it takes longer"
    library = built("start", folder)
    files = [sorted((TOP / "examples").glob(name))[0].read_bytes() for name in ("*.bakery", "*.record")]
    calls = [(["--version"], b""), *(([command, "-"], text) for command in ("plain", "judge") for text in files)]
    plain, fast = Runner(), Runner(library=library)
    is_good = all(plain.run(*call) == fast.run(*call) for call in calls)
    fast.end_starter()
    return (library, None) if is_good else (None, "the program ends otherwise under `tests/preload/start.c`")


def plays(folder):
    """Each kind with what plays a number and its share of the time; and the kinds that are left out, with the reason."""
    found = {"race": (play_race, 4)}
    out = {}
    if WORKLOADS.exists():
        found["board"] = (play_round, 4)
    else:
        out["board"] = "the program `workloads` is not built (`rt ci` or `rt run` builds it)"
    with_library = {"long": (play_long, 2), "refused": (play_refused, 3), "streams": (play_streams, 3)}
    if not shutil.which("cc"):
        return found, out | dict.fromkeys(with_library, "`cc` is not installed")
    if not counts_allocations(folder):
        out |= dict.fromkeys(["long", "refused"], "the library that makes allocations fail meets none in this program")
    found |= {kind: (functools.partial(play, folder), share) for kind, (play, share) in with_library.items() if kind not in out}
    return found, out
