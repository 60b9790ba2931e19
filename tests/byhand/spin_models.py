#!/usr/bin/env python3
"""Runs SPIN on the models of examples/other-locks/spin/ and compares what it finds with this list.

SPIN finds a run of the listed length, whose trail is a trace that breaks the listed law at its last entry, or it finds nothing. The
second reading judges the trace, and so does the proved program if crates/bakerystore/out has it. By hand: it needs `spin` (a package
of that name in Debian) and `cc`.
"""

import pathlib
import re
import shutil
import subprocess
import sys
import tempfile

sys.path.insert(0, str(pathlib.Path(__file__).resolve().parents[1]))

from lib.counting import Counter
from lib.places import OTHER_LOCKS, PROGRAM
from second.traces import judge_trace

MODELS = OTHER_LOCKS / "spin"
# a model, its options, and the entries of the shortest bad trace and the law that it breaks, or None
WANTED = [
    ("bakery", "-DNOCHOOSING -DCALLS=1", (14, "together")),
    ("bakery", "-DNOCHOOSING -DCALLS=1 -DT=2", (26, "together")),
    ("bakery", "-DCALLS=3", None),
    ("bakery", "-DCALLS=2 -DT=2", None),
    ("one_bit_raised_again", "-DLAW=together", (14, "together")),
    ("one_bit_raised_again", "-DLAW=overtaken", (13, "overtaken")),
    ("one_bit_raised_again", "-DONCE -DLAW=together", None),
    ("one_bit_raised_again", "-DONCE -DLAW=overtaken", (11, "overtaken")),
    ("kessels", "", (22, "together")),
    ("kessels", "-DLAW=overtaken", None),
    ("peterson", "-DTURNFIRST", (9, "together")),
    ("peterson", "", None),
]
STATES = re.compile(r"(\d+) states, stored")


def done(words, folder, text=None):
    return subprocess.run(words, cwd=folder, input=text, capture_output=True, text=True, check=True).stdout


def trail_of(model, options, folder):
    """Returns how many states SPIN stored, whether it explored all, and the trace of the run that it found, or None."""
    shutil.copytree(MODELS, folder, dirs_exist_ok=True)
    done(["spin", "-a", *options.split(), f"{model}.pml"], folder)
    done(["cc", "-O2", "-w", "-DSAFETY", "-DBFS", "-DNOREDUCE", "-o", "pan", "pan.c"], folder)
    searched = done(["./pan", "-E"], folder)
    trace = None
    if (folder / f"{model}.pml.trail").exists():
        trail = done(["spin", "-t", "-T", *options.split(), f"{model}.pml"], folder)
        trace = done([sys.executable, "to_trace.py"], folder, trail)
    return int(STATES.search(searched)[1]), "not completed" not in searched, trace


def verdicts(trace):
    """Yields the verdict of the second reading, and that of the program if it is built."""
    yield judge_trace(trace.encode())[1].decode()
    if PROGRAM.exists():
        yield subprocess.run([PROGRAM, "judge", "-"], input=trace, capture_output=True, text=True).stdout


def main():
    counter = Counter()
    for model, options, wanted in WANTED:
        with tempfile.TemporaryDirectory() as name:
            states, is_whole, trace = trail_of(model, options, pathlib.Path(name))
        what = f"{model} {options}".strip()
        if wanted is None:
            counter.compare(what, (is_whole, trace), (True, None))
        else:
            entries, law = wanted
            for verdict in verdicts(trace) if trace else ["no trail"]:
                counter.compare(what, verdict, f"bad {entries - 1} {law}\n")
        print(f"{what}: {states:,} states, {f'{wanted[0]} entries' if wanted else 'nothing'}", flush=True)
    counter.end()


main()
