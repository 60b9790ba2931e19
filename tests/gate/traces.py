#!/usr/bin/env python3
"""Judges traces with the proved program and by the second reading, and compares.

The 94 examples of examples/traces/ have their outputs next to them. 5,000 more traces are made up by `lib/random_traces.py`; each
verdict, each refusal and each kind of fault must occur among them. For each trace the output of `judge` is compared, with `--why`
and without; `--any-lock` changes nothing.

tests/gate/traces.py [NUMBER]: the first of the traces that are made up, by default 1. The program is the one that `rt ci` or `rt run`
leaves in crates/bakerystore.
"""

import collections
import pathlib
import re
import sys

sys.path.insert(0, str(pathlib.Path(__file__).resolve().parents[1]))

from lib.counting import Counter
from lib.places import TOP
from lib.random_traces import trace
from lib.running import runner, workers
from second.traces import judge_trace

TRACES = TOP / "examples" / "traces"
MANY, CHUNK = 5_000, 50
# the words for each file of an example
WORDS = {"judge": ["judge", "-"], "judge-why": ["judge", "--why", "-"]}
ANY_LOCK = ["judge", "--why", "--any-lock", "-"]
VERDICTS = ["good", "access", "memory", "marks", "together", "overtaken"]
REFUSALS = ["no-process", "no-cell", "not-owner", "not-shared", "too-wide", "not-whole", "not-running", "not-open", "access-open"]
REFUSALS += ["not-alone", "busy", "not-in-doorway", "not-trying", "not-inside", "not-leaving"]
KINDS = ["too-long", "not-first", "unknown", "words", "number", "bad-name", "bad-setup"]
# the pictures that drawn_traces.py compares
PICTURES = {"draw.html", "draw-svg.svg", "draw-svg-judge.svg"}
STRAYS = {"trace", "err", "status", *WORDS, *PICTURES}


def by_second(text):
    """Returns what the second reading states, for each file of an example."""
    status, told, errors = judge_trace(text, why=True)
    return {"judge": (status, told[: told.find(b"\n") + 1], errors), "judge-why": (status, told, errors)}


def by_program(text):
    return {name: tuple(runner().run(words, text)) for name, words in WORDS.items()}


def kept(folder):
    """Returns what the files of an example state."""
    content = lambda name, default=b"": path.read_bytes() if (path := folder / name).exists() else default
    return {name: (int(content("status", b"0")), content(name), content("err")) for name in WORDS}


def examples(counter):
    folders = sorted(path.parent for path in TRACES.glob("*/trace"))
    counter.compare("examples", len(folders), 94)
    for folder in folders:
        text, wanted = (folder / "trace").read_bytes(), kept(folder)
        counter.compare(f"{folder.name}, strays", {path.name for path in folder.iterdir()} - STRAYS, set())
        counter.count(wanted["judge"][1] or wanted["judge"][2], f"{folder.name}: no output is stated")
        counter.compare(f"{folder.name}, by the second reading", by_second(text), wanted)
        counter.compare(f"{folder.name}, by the program", by_program(text), wanted)
        counter.compare(f"{folder.name}, --any-lock", tuple(runner().run(ANY_LOCK, text)), wanted["judge-why"])


def found_in(status, told, errors):
    """Yields the verdict and the refusal, or the kind of the fault."""
    if status == 1:
        yield errors.split()[-1].decode()
        return
    words = told.decode().split()
    yield words[2] if words[0] == "bad" else words[0]
    yield from re.findall(r"^refused (\S+)$", told.decode(), re.M)


def compare_numbers(numbers):
    """Returns what occurs in the traces of these numbers, and where the program differs from the second reading."""
    found, wrong = collections.Counter(), []
    for number in numbers:
        text = trace(number)
        again, told = by_second(text), by_program(text)
        found.update(found_in(*again["judge-why"]))
        if told != again:
            wrong.append(f"trace {number}: {told}, and the second reading has {again}")
    return found, wrong


def made_up_traces(counter, pool, first):
    parts = [range(at, at + CHUNK) for at in range(first, first + MANY, CHUNK)]
    found = collections.Counter()
    for more, wrong in pool.imap_unordered(compare_numbers, parts):
        found += more
        counter.add(CHUNK - len(wrong), 0)
        for why in wrong:
            counter.count(False, why)
    print(", ".join(f"{what} {count:,}" for what, count in sorted(found.items())), flush=True)
    for what in [*VERDICTS, *REFUSALS, *KINDS]:
        counter.count(found[what], f"no trace that is made up has this: {what}")


def main():
    counter, first = Counter(), int(sys.argv[1]) if len(sys.argv) > 1 else 1
    with workers() as pool:
        made_up_traces(counter, pool, first)
    examples(counter)
    counter.end()


if __name__ == "__main__":
    main()
