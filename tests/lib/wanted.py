"""What each command must write for a file, by the independent implementations of second/.

Some commands run whole scenarios. A scenario whose run has more than so many events raises `TooLong`, so that a caller chooses
how long it waits. Several commands read each file, so this module keeps what the last files contain, and their runs. Pictures are not
written a second time; `lib/checks.py` reads them back.
"""

import functools
from dataclasses import dataclass

from lib.running import Ran
from second.any_lock import any_lock
from second.calls import calls_text
from second.engines import bits_text, plain_text
from second.reasons import judge_record
from second.recorded_calls import recorded_calls
from second.recorded_states import recorded_state
from second.runs import Run, TooLong, whole
from second.scenario_files import Fault, is_skipped, lines_of, read_bits, read_scenario, told_lines, words_of
from second.states import state_text
from second.sweeps import sweep
from second.trace_calls import trace_calls
from second.trace_places import explained
from second.traces import judge_trace

# the most events of a scenario that is run
MOST_EVENTS = 10_000
# the number of files of which this module keeps what it has found
KEPT = 4


@dataclass
class Known:
    """What is known of the run of a file: the run, if it was made to its end, and the greatest number of events for which it is too
    long."""

    run: Run | None = None
    passed: int = -1


@functools.lru_cache(maxsize=KEPT)
def kind_of(text):
    """The first word of the first line that is not skipped, which decides what some commands read a file as."""
    said = (words for line in lines_of(text) if not is_skipped(words := words_of(line)))
    return next(said, [b""])[0].decode("latin1")


@functools.lru_cache(maxsize=KEPT)
def known_of(_):
    """What is known of the run of a file with this text. The caller adds what it finds out."""
    return Known()


def run_of(text, most=MOST_EVENTS):
    """The scenario of a file, and its run of at most so many events."""
    scenario, known = read_scenario(text), known_of(text)
    if known.run is None and known.passed < most:
        try:
            known.run = Run(scenario, most)
        except TooLong:
            known.passed = most
    if known.run is None or known.run.events > most:
        raise TooLong
    return scenario, known.run


def events_of(text, most=MOST_EVENTS):
    """The number of events of a scenario's run; None if it has more, and 0 if the file has a fault."""
    try:
        return run_of(text, most)[1].events
    except TooLong:
        return None
    except Fault:
        return 0


def record_of(text, most):
    """The lines of the record of a scenario's run, or of so many first events if it has more."""
    try:
        return Run(read_scenario(text), most).record
    except TooLong as stopped:
        return stopped.run.record


def state_of_run(text, at):
    """What `state` writes of a scenario."""
    scenario, run = run_of(text)
    numbers = [number for number, words in told_lines(text) if words]
    return state_text(run, numbers[len(numbers) - len(scenario.lines) :], at)


def of_scenario(command, options, text, most):
    """What a command writes of a scenario without a fault."""
    if command == "plain":
        return plain_text(read_scenario(text))
    if command == "state":
        return state_of_run(text, place(options))
    run = run_of(text, most)[1]
    writers = {
        "replay": lambda: whole(run.text),
        "record": lambda: whole(run.record),
        "audit": lambda: f"good {run.events}\n".encode(),
        "calls": lambda: calls_text(run.record),
    }
    return writers[command]()


def place(options):
    """The number after `--at`, or None for the end."""
    at = options[options.index("--at") + 1]
    return None if at == "end" else int(at)


@functools.lru_cache(maxsize=KEPT)
def judged_with_reasons(kind, text):
    """What a judge writes of a file with `--why`: that of traces, that of any lock, or that of this lock."""
    return {"trace": judge_trace, "any lock": any_lock, "this lock": judge_record}[kind](text, why=True)


def judged(options, text):
    """What `judge` writes of a record or a trace. Without `--why` the reasons after the first line are left out."""
    kind = "trace" if kind_of(text) == "trace" else "any lock" if "--any-lock" in options else "this lock"
    status, told, errors = judged_with_reasons(kind, text)
    errors = explained(text) if kind == "trace" and "--explain" in options and status == 1 else errors
    return status, told if "--why" in options else told[: told.find(b"\n") + 1], errors


def wanted(words, text, most=MOST_EVENTS):
    """How a command with these options must end on a file, and what it must write."""
    command, options, kind = words[0], list(words[1:]), kind_of(text)
    if command == "judge":
        return Ran(*judged(options, text))
    if command == "calls" and kind == "trace":
        ended = trace_calls(text)
        return Ran(*ended[:2], explained(text)) if "--explain" in options and ended[0] == 1 else Ran(*ended)
    if command == "calls" and kind == "record":
        return Ran(*recorded_calls(text))
    if command == "state" and kind == "record":
        return Ran(*recorded_state(text, place(options)))
    if command == "sweep":
        return Ran(*sweep(text))
    try:
        output = bits_text(read_bits(text)) if command == "bits" else of_scenario(command, options, text, most)
    except Fault as fault:
        return Ran(1, b"", f"{fault}\n".encode())
    return Ran(0, output, b"")
