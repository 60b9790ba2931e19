#!/usr/bin/env python3
"""The quick tests: what breaks first, in some minutes, with nothing proved.

Where a proved program of these sources stands, it runs all examples. Else the program is built without proof, and runs some
forty of them: `chosen` has the rules. The tests of each crate that starts no thread are built and run without proof too (`rt try
--test`). And the pages are followed as far as they need no program. The last line counts all: `N passed, M failed`.
"""

import os
import re
import subprocess
import sys
import time
from concurrent.futures import ThreadPoolExecutor
from typing import NamedTuple

from gate import lessons, worked
from lib.counting import Counter, shown_counts
from lib.crates import crates
from lib.places import TOP, WORKED
from lib.proved import is_proved
from lib.running import Ran
from lib.unproved import FILE, Case, NotRun, runs

PAGES = ["links", "layers", "api", "names", "claims", "quotes", "picture_parts", "lock_search", "kept_build"]
ALL_EXAMPLES = ["worked", "record_files", "lessons"]
RECORDS = TOP / "examples" / "records"
LESSONS = TOP / "lessons"
# lessons that make a million events and more, which take minutes in a build with checks; the one whose text threads decide; and the
# one that runs no program
LEFT_OUT = {"10-sixteen", "14-sweep", "15-race", "21-polite"}
# the crate whose tests make hundreds of thousands of events, which take minutes in such a build too
TOO_LONG = {"scenario_tests"}
SECONDS = 60
# how many builds go side by side: each has two processes
AT_ONCE = 2 if len(os.sched_getaffinity(0)) < 4 else 3
ENDED = re.compile(rb"end events (\d+) taken [1-9]")
FAULT = re.compile(rb"line \d+: ([a-z-]+)\n")
RESULT = re.compile(r"^test result: \w+\. (\d+) passed; (\d+) failed;", re.M)


class Example(NamedTuple):
    """What the program is to run, and how that is to end."""

    name: str
    case: Case
    wanted: Ran


def example(folder, command, file, wanted):
    word, options = worked.words_of(command)
    return Example(f"{command} {folder.name}", Case([word, *options, FILE], file.read_bytes()), wanted)


def worked_examples():
    """All outputs of the worked examples, those of the shortest run first in which a command is taken."""
    found = []
    for folder in sorted(WORKED.iterdir()):
        replay = folder / "replay"
        ended = ENDED.search(replay.read_bytes()) if replay.exists() else None
        for command, file in worked.COMMANDS.items():
            want = worked.wanted(folder, command)
            if want:
                output, told, status = want
                length = int(ended[1]) if ended else sys.maxsize
                found.append((length, example(folder, command, folder / file, Ran(status, output, told))))
    return [each for _, each in sorted(found, key=lambda pair: pair[0])]


def record_examples():
    """All record files and their verdicts, the shortest first; and the recorded ones."""
    content = lambda path, default: path.read_bytes() if path.exists() else default
    for folder in sorted(RECORDS.iterdir(), key=lambda folder: (folder / "record-file").stat().st_size):
        file = folder / "record-file"
        told = [content(folder / f"judge{end}", default) for end, default in [(".status", b"0"), ("", b""), (".err", b"")]]
        yield example(folder, "judge", file, Ran(int(told[0]), *told[1:]))
        if (folder / "scenario").exists():
            yield example(folder, "record", folder / "scenario", Ran(0, file.read_bytes(), b""))


def lesson_examples():
    """The file of each lesson."""
    for name, words in lessons.taught().items():
        file = LESSONS / name
        if file.stem not in LEFT_OUT:
            text = (LESSONS / "expected" / f"{file.stem}.txt").read_text()
            wanted = Ran(lessons.status_of(text), text.encode(), b"")
            yield Example(f"{words} lessons/{name}", Case([*words.split(), FILE], file.read_bytes()), wanted)


def first_of_each(examples, kind):
    """The first example of each kind, where it has one."""
    found = {}
    for each in examples:
        if kind(each) is not None:
            found.setdefault(kind(each), each)
    return list(found.values())


def verdict_given(each):
    """The command and its status, where the file has no fault."""
    return (each.name.split()[0], each.wanted.status) if each.wanted.errors == b"" else None


def fault_told(each):
    """The reader that finds a fault, and its kind. Of the commands that read scenarios `plain` stands for all."""
    fault = FAULT.fullmatch(each.wanted.errors)
    reader = each.name.split()[0]
    return (reader, fault[1]) if fault and reader in ("plain", "bits", "judge") else None


def chosen():
    """Of each command the shortest example with each status, of each reader one with each kind of fault, and the lessons."""
    examples = [*worked_examples(), *record_examples()]
    return [*first_of_each(examples, verdict_given), *first_of_each(examples, fault_told), *lesson_examples()]


def run_examples():
    """Runs the examples: all by the proved program, or those that are chosen by one without proof."""
    counter = Counter()
    if is_proved():
        for name in ALL_EXAMPLES:
            counter.add(*shown_counts([sys.executable, f"tests/gate/{name}.py"], TOP))
        return counter
    examples = chosen()
    try:
        for each, ran in zip(examples, runs([each.case for each in examples], SECONDS), strict=True):
            counter.compare(each.name, ran, each.wanted)
    except NotRun as error:
        counter.count(False, f"the program was not built\n{error}")
    return counter


def sources(crate):
    return "".join(path.read_text() for path in sorted((TOP / "crates" / crate / "src").rglob("*.rt")))


def crates_tried():
    """The crates whose tests are tried: none has a test that starts a thread, or takes minutes. The greatest first."""
    texts = {name: sources(name) for name in crates() if name not in TOO_LONG}
    named = [name for name, text in texts.items() if "#[test]" in text and "Threads" not in text]
    return sorted(named, key=lambda name: -len(texts[name]))


def try_tests(crate):
    """Builds and runs the tests of a crate."""
    folder, counter = TOP / "crates" / crate, Counter()
    ran = subprocess.run(["rt", "try", "--test"], cwd=folder, stdin=subprocess.DEVNULL, capture_output=True, text=True)
    told = RESULT.search(ran.stdout)
    passed, failed = map(int, told.groups()) if told else (0, 1)
    counter.add(passed, failed or int(ran.returncode != 0))
    if counter.failed:
        print(f"{ran.stdout}{ran.stderr}", flush=True)
    return counter


def timed(what, job, *given):
    """Does a job, and tells how long it took and what it counted."""
    begun = time.time()
    counter = job(*given)
    print(f"{what}: {counter.passed} passed, {counter.failed} failed, {time.time() - begun:.0f} s", flush=True)
    return counter


def main():
    counter = Counter()
    for name in PAGES:
        counter.add(*shown_counts([sys.executable, f"tests/gate/{name}.py"], TOP))
    with ThreadPoolExecutor(AT_ONCE) as pool:
        jobs = [pool.submit(timed, "examples", run_examples)]
        jobs += [pool.submit(timed, f"tests of {crate}", try_tests, crate) for crate in crates_tried()]
    for job in jobs:
        counter.add(job.result().passed, job.result().failed)
    counter.end()


if __name__ == "__main__":
    main()
