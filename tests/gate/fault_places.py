#!/usr/bin/env python3
"""Tries how the proved program tells the place of a fault, byte for byte.

Each folder examples/inspect/fault* has the words of a run (`args`, made in the folder), the file that they name, and what is
written: `stdout`, `stderr`, `status`. The file examples/inspect/faults has a block for each fault: the kind of file and its
text, and then what stands on standard error with `--explain`. Without it, and without a terminal, only the first line does.

The positions of faults in traces are found a second time, by `second/trace_places.py`: for each block with a trace, for the
faulty traces of examples/traces/, and for 1,000 of those that `lib/random_traces.py` spoils. Most of these have a fault, and each
kind of fault must occur among them.

tests/gate/fault_places.py [NUMBER]: the first of the traces that are made up, by default 1. The program is the one that `rt run`
leaves in crates/bakerystore.
"""

import ast
import collections
import contextlib
import os
import pathlib
import pty
import re
import subprocess
import sys
import tty

sys.path.insert(0, str(pathlib.Path(__file__).resolve().parents[1]))

from lib.counting import Counter
from lib.places import PROGRAM, TOP
from lib.random_traces import trace
from lib.running import runner, workers
from second.scenario_files import is_skipped, lines_of, words_of
from second.trace_places import explained

INSPECT, TRACES = TOP / "examples" / "inspect", TOP / "examples" / "traces"
MANY, CHUNK = 1_000, 50
TRACE_KINDS = ["too-long", "not-first", "unknown", "words", "number", "bad-name", "bad-setup"]
COMMANDS = {
    "scenario": ["plain", "replay", "audit", "sweep", "race", "record", "state --at end", "calls", "draw", "draw-svg"],
    "bits": ["bits"],
    "record": ["judge"],
    "trace": ["judge", "calls"],
}


def text_of(words):
    """The text that a block's first line spells: texts one behind the other, each perhaps so many times."""
    text = b""
    parts = ast.parse(f"[{words}]".replace('" "', '", "'), mode="eval").body.elts
    for part in parts:
        times = 1
        if isinstance(part, ast.BinOp):
            part, times = part.left, part.right.value
        text += part.value.encode("latin-1") * times
    return text


def blocks():
    """The kind of file, its text and what is told, of each block."""
    for block in (INSPECT / "faults").read_text().split("\n\n")[1:]:
        first, told = block.rstrip("\n").split("\n", 1)
        kind, words = first.split(" ", 1)
        yield kind, text_of(words), told.encode() + b"\n"


def ran(words, text=b"", **options):
    """Output, errors and status of a run."""
    done = subprocess.run([PROGRAM, *words], input=text, capture_output=True, **options)
    return done.stdout, done.stderr, done.returncode


def at_a_terminal(words, text):
    """What a terminal gets as standard error."""
    ours, end = pty.openpty()
    tty.setraw(end)
    done = subprocess.run([PROGRAM, *words], input=text, stdout=subprocess.PIPE, stderr=end)
    os.close(end)
    told = b""
    with contextlib.suppress(OSError):
        while part := os.read(ours, 65536):
            told += part
    os.close(ours)
    return done.stdout, told, done.returncode


def try_folder(counter, folder):
    words = (folder / "args").read_text().split()
    wanted = (folder / "stdout").read_bytes(), (folder / "stderr").read_bytes(), int((folder / "status").read_text())
    counter.compare(folder.name, ran(words, cwd=folder), wanted)


def try_block(counter, kind, text, told):
    first = told.partition(b"\n")[0] + b"\n"
    # of the commands that take scenarios, `state`, `calls`, `draw` and `draw-svg` take records too, and the last three traces
    others = ("state", "calls", "draw") if re.match(rb"record [12]\n", text) else ("calls", "draw") if is_trace(text) else ()
    for command in [it for it in COMMANDS[kind] if kind != "scenario" or not it.startswith(others)]:
        name = f"{command} {text[:60]}"
        counter.compare(f"{name}, explained", ran([*command.split(), "--explain", "-"], text), (b"", told, 1))
        counter.compare(f"{name}, not explained", ran([*command.split(), "-"], text), (b"", first, 1))
    counter.compare(f"{name}, at a terminal", at_a_terminal([*command.split(), "-"], text), (b"", told, 1))
    if kind == "trace":
        counter.compare(f"{text[:60]}, by the second reading", explained(text), told)


def is_trace(text):
    """Whether the first line that is not skipped begins with `trace`, so that `judge` reads the text as a trace."""
    said = (words for line in lines_of(text) if not is_skipped(words := words_of(line)))
    return next(said, [b""])[0] == b"trace"


def explained_by_program(text):
    return runner().run(["judge", "--explain", "-"], text).errors or None


def try_kept_traces(counter):
    """The faulty traces of examples/traces/."""
    for file in sorted(TRACES.glob("fault*/trace")):
        if is_trace(text := file.read_bytes()):
            counter.compare(f"{file.parent.name}, a second time", explained_by_program(text), explained(text))


def compare_numbers(numbers):
    """The kinds of faults of the spoiled traces of these numbers, and where the program tells another position than the second reading."""
    found, wrong = collections.Counter(), []
    for number in numbers:
        # (every third trace is spoiled)
        if is_trace(text := trace(3 * number + 2)):
            told, again = explained_by_program(text), explained(text)
            found.update([again.split()[2].decode()] if again else [])
            wrong += [] if told == again else [f"trace {number}: {told}, and the second reading has {again}"]
    return found, wrong


def try_made_up_traces(counter, first):
    found = collections.Counter()
    with workers() as pool:
        for more, wrong in pool.imap(compare_numbers, (range(at, at + CHUNK) for at in range(first, first + MANY, CHUNK))):
            found += more
            counter.add(CHUNK - len(wrong), 0)
            for why in wrong:
                counter.count(False, why)
    for kind in TRACE_KINDS:
        counter.count(found[kind], f"no trace that is made up has this fault: {kind}")


def without_words(counter):
    """Without words it is told at a terminal, once, what is read; not otherwise."""
    told = b"reading a scenario from this terminal until its end (for help: bakerystore --help)\n"
    for words, wanted in [([], told), (["plain", "-"], b""), (["--quiet"], b"")]:
        ours, end = pty.openpty()
        tty.setraw(end)
        with subprocess.Popen([PROGRAM, *words], stdin=end, stdout=subprocess.PIPE, stderr=end) as going:
            os.close(end)
            # a line that is no scenario ends the run once standard input ends, with the terminal
            os.write(ours, b"bakery 1\n")
            shown = os.read(ours, len(wanted)) if wanted else b""
            going.kill()
        os.close(ours)
        counter.compare(f"at a terminal {words}", shown, wanted)
    counter.compare("no words, in a pipe", ran([], b"bakery 1\n"), (b"", b"", 0))
    counter.compare("no words, a terminal for errors alone", at_a_terminal([], b"bakery 1\n"), (b"", b"", 0))


def main():
    counter, first = Counter(), int(sys.argv[1]) if len(sys.argv) > 1 else 1
    folders = sorted(path for path in INSPECT.glob("fault*") if path.is_dir())
    counter.count(folders, "there are folders")
    for folder in folders:
        try_folder(counter, folder)
    for kind, text, told in blocks():
        try_block(counter, kind, text, told)
    try_kept_traces(counter)
    try_made_up_traces(counter, first)
    without_words(counter)
    counter.end()


if __name__ == "__main__":
    main()
