#!/usr/bin/env python3
"""Proves every crate and runs every test: `rt ci`, then the scripts that run the program which it leaves.

`rt ci` takes over what an earlier run on this machine has proved of the same files. The words given are for it: with `--anew` it takes
nothing. A kit whose `rt ci` always proves everything (13b) does not know this word, and gets none. The last line counts everything:
`N passed, M failed`.
"""

import os
import pathlib
import shutil
import sys

from lib import proved
from lib.counting import Counter, shown_counts
from lib.places import TOP

SCRIPTS = [
    *["api", "names", "claims", "quotes", "layers", "links", "worked", "picture_parts", "pictures", "drawn_records", "drawn_traces", "drawn_windows"],
    *["cut_file", "command_line", "small_stack", "terminal", "kept_build"],
    *["record_files", "changed_records", "short_files", "other_locks", "fault_places", "any_lock_second", "reasons_and_sweeps", "traces", "trace_tools", "lock_search", "lock_atlas", "run_script", "readme", "release"],
    *["lessons", "lesson_pages", "grading", "races", "boards", "refused_threads", "inspected", "recorded_calls", "trace_calls", "recorded_states"],
]
# bytes of memory: the program's check takes the most
MOST_OF_A_CHECK = 4_000_000_000
RUNS = [
    *([sys.executable, f"tests/gate/{name}.py"] for name in SCRIPTS),
    [sys.executable, "tests/hostile/run.py", "short"],
]


def words_of_ci(words):
    """The words that the kit's `rt ci` knows, of these."""
    rt = pathlib.Path(os.path.realpath(shutil.which("rt") or "rt"))
    return words if "--anew" in rt.read_text() else [word for word in words if word != "--anew"]


def share_no_check():
    """Has `rt ci` give each check one processor, where memory holds so many: a check that two share takes a third more of them."""
    try:
        rt = proved.kit()
        processors = rt.processors()
        is_enough = rt.free() >= processors * MOST_OF_A_CHECK
    except (AttributeError, OSError):
        return
    if is_enough:
        os.environ.setdefault("RT_JOBS", str(processors))


def main():
    counter = Counter()
    share_no_check()
    counter.add(*shown_counts(["rt", "ci", *words_of_ci(sys.argv[1:])], TOP))
    if counter.failed == 0:
        proved.note()
    for words in RUNS:
        counter.add(*shown_counts(words, TOP))
    counter.end()


main()
