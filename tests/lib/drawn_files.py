"""The kinds of files that are drawn from numbers, each with the checks of the program on such a file."""

import functools
import random

import drawn_windows
from lib.checks import fault_check, output_check, whole_check, window_check
from lib.places import TOP
from lib.random_bits import bits
from lib.random_records import changed, record
from lib.random_scenarios import scenario, short_scenario
from lib.random_traces import trace
from lib.running import COMMANDS
from lib.spoiling import spoiled
from lib.wanted import events_of, kind_of, record_of
from second.drawn_windows import Window
from second.record_files import read_record
from second.scenario_files import Fault, read_scenario
from second.trace_files import read_trace

# a scenario of more events is run by `plain` alone, and by the kind of long ones
MOST_EVENTS, MOST_OF_LONG = 2_500, 100_000
MOST_OF_A_PICTURE = 1_500
# the independent judge of any lock looks back from each entry, so it judges no record of more lines
MOST_OF_ANY_LOCK = 600
# one of so many records of this lock is longer
LONGER = 4
JUDGES = [("judge",), ("judge", "--why"), ("judge", "--any-lock"), ("judge", "--any-lock", "--why")]
QUIET = 0.05


def chosen(draws, words):
    """The check of some words, now and then with `--quiet`, which changes nothing here."""
    return output_check(*words, *["--quiet"] * (draws.random() < QUIET))


def random_place(draws, count):
    """A value of `--at` for so many events."""
    return draws.choice(["end", str(draws.randint(0, count + 1)), str(draws.randint(0, count + 1))])


# Scenarios and bits files.


def scenario_file(number):
    return scenario(number).encode()


def scenario_checks(number, text):
    draws, events = random.Random(f"scenario {number}"), events_of(text, MOST_EVENTS)
    words = [("plain",)]
    if events is not None:
        words += [("replay",), ("record",), ("audit",), ("calls",), ("state", "--at", random_place(draws, events))]
    return [chosen(draws, each) for each in words]


def long_file(number):
    """A scenario of many events, or None."""
    text = scenario_file(number)
    return text if events_of(text, MOST_EVENTS) is None and events_of(text, MOST_OF_LONG) is not None else None


def long_checks(_, text):
    return [output_check(command, most=MOST_OF_LONG) for command in ("replay", "record", "audit")]


def short_file(number):
    return short_scenario(number).encode()


def sweep_checks(*_):
    return [output_check("sweep")]


def bits_checks(number, text):
    return [chosen(random.Random(f"bits {number}"), ["bits"])]


# Records and traces.


def own_record(number):
    """The record of a scenario's run or of its first events, mostly with some entries changed."""
    draws, text = random.Random(f"own record {number}"), scenario_file(number)
    lines = record_of(text, MOST_EVENTS if number % LONGER == 0 else MOST_OF_ANY_LOCK)
    lines = changed(draws, lines) if draws.random() < 0.8 else lines
    return "".join(f"{line}\n" for line in lines).encode()


def record_checks(number, text):
    draws, many = random.Random(f"record {number}"), text.count(b"\n")
    words = [*(JUDGES if many <= MOST_OF_ANY_LOCK else JUDGES[:2]), ("calls",), ("state", "--at", random_place(draws, many))]
    return [chosen(draws, each) for each in words]


def trace_checks(number, text):
    draws = random.Random(f"trace {number}")
    words = [*JUDGES, ("calls",)]
    words += [("judge", "--explain"), ("calls", "--explain")] if kind_of(text) == "trace" else []
    return [chosen(draws, each) for each in words]


# Pictures.


def picture_checks(kind, number, text):
    """The checks of a whole picture, of one that is cut to a window, and now and then of all pictures of a file."""
    draws, count = random.Random(f"picture {number}"), count_of(kind, text)
    if count is None:
        return [fault_check("draw"), fault_check("draw-svg")]
    if draws.random() < 0.2:
        return [whole_check(kind)]
    options = draws.choice(drawn_windows.choices_of(drawn_windows.File("", kind, text, None, None)))
    windows = [Window(), drawn_windows.random_window(draws, count)]
    return [window_check(kind, options, window) for window in windows]


def count_of(kind, text):
    """The number of entries of a file, or None if it has a fault."""
    try:
        return {
            "run": lambda: (read_scenario(text), events_of(text, MOST_OF_A_PICTURE))[1],
            "record": lambda: len(read_record(text)[1]),
            "trace": lambda: len(read_trace(text).entries),
        }[kind]()
    except Fault:
        return None


def drawn_run(number):
    """A scenario that is short enough to be drawn, or None."""
    text = scenario_file(number)
    return None if events_of(text, MOST_OF_A_PICTURE) is None else text


def drawn_record(number):
    """A record of any lock, or now and then one of this lock."""
    return own_record(number) if number % 4 == 0 else record(number)


# Spoiled files.


@functools.cache
def kept_files():
    """The examples of a few lines."""
    names = ["*.bakery", "*.bits", "*.record", "*/*/scenario", "*/*/bits-file", "*/*/record-file", "*/*/record", "*/*/trace"]
    files = [file.read_bytes() for name in names for file in sorted((TOP / "examples").glob(name))]
    return [text for text in files if 0 < len(text) <= 4_000]


SOUND = [scenario_file, bits, record, trace, short_file]


def spoiled_file(number):
    draws = random.Random(f"spoiled {number}")
    text = draws.choice(kept_files()) if draws.random() < 0.3 else draws.choice(SOUND)(number)
    return spoiled(draws, text)


def is_scenario(text):
    try:
        return bool(read_scenario(text))
    except Fault:
        return False


def spoiled_checks(number, text):
    """The checks of the commands that read such a file, and of some others."""
    draws, kind = random.Random(f"spoiled checks {number}"), kind_of(text)
    words = {"record": [*JUDGES, ("calls",), ("state", "--at", "end")], "trace": [*JUDGES, ("calls",)]}.get(kind, [])
    if kind == "bits":
        words = [("bits",)]
    if not words:
        words = [("plain",), ("replay",), ("audit",), ("record",), ("calls",), ("state", "--at", random_place(draws, 100))]
        words = words if events_of(text, MOST_EVENTS) is not None else words[:1]
    checks = [chosen(draws, each) for each in [*words, (words[0][0], "--explain")]]
    for other in draws.sample(COMMANDS, 3):
        checks += other_check(other.split(), text)
    return checks


def other_check(words, text):
    """The check of a command that may read files of another kind, unless it takes long."""
    if words[0] in ("sweep", "race", "draw", "draw-svg"):
        return [fault_check(*words)]
    return [output_check(*words)] if not is_scenario(text) or events_of(text, MOST_EVENTS) is not None else []


# Each kind: the bytes of the file of a number, or None if it has none, and its checks; and its share of the time. A bits file is checked
# many times faster than any other, so a small share gives many of them.
KINDS = {
    "scenario": (scenario_file, scenario_checks, 18),
    "long-scenario": (long_file, long_checks, 3),
    "sweep": (short_file, sweep_checks, 4),
    "bits": (bits, bits_checks, 1),
    "own-record": (own_record, record_checks, 14),
    "record": (record, record_checks, 14),
    "trace": (trace, trace_checks, 10),
    "spoiled": (spoiled_file, spoiled_checks, 12),
    "drawn-run": (drawn_run, functools.partial(picture_checks, "run"), 4),
    "drawn-record": (drawn_record, functools.partial(picture_checks, "record"), 4),
    "drawn-trace": (trace, functools.partial(picture_checks, "trace"), 4),
}
