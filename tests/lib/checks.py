"""Checks of the program's output on a file: by what must be written, or by reading a picture back. A check can be made of any
file, so a file that fails it can be shortened.
"""

import functools
import traceback
from typing import Callable, NamedTuple

import drawn_records
import drawn_traces
import drawn_windows
import pictures
from lib.running import runner
from lib.wanted import MOST_EVENTS, TooLong, events_of, kind_of, run_of, wanted
from second.drawn_windows import Window
from second.record_files import read_record
from second.scenario_files import Fault, read_scenario
from second.trace_files import read_trace

READERS = {"record": read_record, "trace": read_trace}
# a scenario of more events is not drawn
MOST_DRAWN = 3_000


class Difference(NamedTuple):
    """What the program wrote, and what it must have written; or what is wrong with a picture, and nothing."""

    found: str
    wanted: str


class Check(NamedTuple):
    """A check: the words of the program's call, how often the program is compared, and the difference that a file has, or None."""

    label: str
    tries: int
    differs: Callable


def shown(ran):
    """How a run ended, as a text."""
    parts = [f"{name}:\n{part.decode(errors='backslashreplace')}" for name, part in zip(("output", "errors"), ran[1:])]
    return "".join([f"status {ran[0]}\n", *parts])


def caught(differs):
    """A check that also reports an error of a Python program, as it may be one of the program's output."""

    def differs_or_fails(text):
        try:
            return differs(text)
        except TooLong:
            return None
        except Exception as error:
            where = traceback.format_exc().splitlines()[-7:]
            return Difference(f"{type(error).__name__}\n" + "\n".join(where), "no error")

    return differs_or_fails


def first_line(ran):
    return ran._replace(errors=ran.errors[: ran.errors.find(b"\n") + 1])


def output_check(*words, most=MOST_EVENTS):
    """The check of a command with its options, whose output is that of an independent implementation. With `--explain` the position
    of a fault is compared in a trace only, and otherwise the first line."""

    def differs(text):
        told = wanted(words, text, most)
        found = runner().run([*words, "-"], text)
        if "--explain" in words and kind_of(text) != "trace":
            found = first_line(found)
        return None if found == told else Difference(shown(found), shown(told))

    return Check(" ".join(words), 1, caught(differs))


def fault_of(text):
    """The fault of a file as a picture's command reports it, or None."""
    try:
        READERS.get(kind_of(text), read_scenario)(text)
        return None
    except Fault as fault:
        return f"{fault}\n".encode()


def fault_check(*words):
    """The check that a command which draws, sweeps or races reports the fault of a file. A page may have begun before it."""

    def differs(text):
        told = fault_of(text) if words[0].startswith("draw") else scenario_fault(text)
        if told is None:
            return None
        found = runner().run([*words, "-"], text)
        is_begun = words[0] == "draw" and kind_of(text) in READERS and b"</html>" not in found.output
        is_good = (found.status, found.errors) == (1, told) and (is_begun or found.output == b"")
        return None if is_good else Difference(shown(found), shown((1, b"", told)))

    return Check(" ".join(words), 1, caught(differs))


def scenario_fault(text):
    try:
        read_scenario(text)
        return None
    except Fault as fault:
        return f"{fault}\n".encode()


def faults_told(faults):
    told = "\n".join(map(str, faults))
    return Difference(told, "a picture without faults") if told else None


def file_of(kind, text):
    """The file to draw, or None if it is of another kind, has a fault or is too long."""
    if kind_of(text) != {"run": "bakery"}.get(kind, kind):
        return None
    if kind == "run":
        return drawn_windows.File("a run", kind, text, run_of(text)[1], drawn_windows.of_run) if events_of(text, MOST_DRAWN) else None
    return drawn_windows.file_of(f"a {kind}", kind, text)


@functools.lru_cache(maxsize=1)
def drawing_of(kind, text, options):
    """The drawing of a file with some options, or None if the file is not drawn. Several windows of it are checked."""
    file = file_of(kind, text)
    return drawn_windows.Drawing(file, list(options)) if file else None


def window_check(kind, options, window):
    """The check of a page and a picture of a part of a file, read back by parsers of HTML and of XML."""

    def differs(text):
        drawing = drawing_of(kind, text, tuple(options))
        return faults_told(drawing.faults(window)) if drawing else None

    return Check(" ".join(["draw, draw-svg", *options, *window.options()]), 2, caught(differs))


def run_faults(text):
    """What is wrong with the whole page and picture of a run, and with those that show overlapped reads."""
    _, run = run_of(text)
    for options, reads in [([], []), (["--reads"], list(pictures.overlapped_in(run.record)))]:
        told = pictures.Run(pictures.lines_in(text), run.text, reads)
        for command, faults_of in [("draw", pictures.page_faults), ("draw-svg", pictures.picture_faults)]:
            ended = runner().run([command, *options, "-"], text)
            yield from (f"{command} {options}: {fault}" for fault in faults_of(ended.output.decode(), told))


WHOLE = {
    "run": (run_faults, 4),
    "record": (lambda text: [*drawn_records.record_faults(text), *drawn_records.judged_faults(text)], 8),
    "trace": (lambda text: drawn_traces.trace_faults(text, True), 4),
}


def whole_check(kind):
    """The check of the whole pictures of a file, with some options."""
    faults_of, tries = WHOLE[kind]
    differs = lambda text: faults_told(faults_of(text)) if file_of(kind, text) else None
    return Check("draw, draw-svg: whole pictures", tries, caught(differs))


__all__ = ["Check", "Difference", "Window", "fault_check", "output_check", "whole_check", "window_check"]
