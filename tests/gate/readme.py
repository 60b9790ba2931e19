#!/usr/bin/env python3
"""Follows the README, that of examples/, the page on logs, the pages of lessons/, and those of docs/ that show commands: runs each
command, and compares what it prints byte for byte. And the README is short enough to be read.

A command stands behind `$ ` in a block of `console`, and what it prints, on both streams, on the lines below it. `bakerystore`
is the proved program that `rt ci` or `rt run` leaves. A command by which rt or `./run` runs it, as `rt try -- WORDS`, is followed by
that program too, with these words: what it prints is the same.
"""

import os
import pathlib
import subprocess
import sys

sys.path.insert(0, str(pathlib.Path(__file__).resolve().parents[1]))

from lib.counting import Counter
from lib.pages import by_name, commands_in
from lib.places import PROGRAM, TOP

PAGES = [
    TOP / name
    for name in (
        *("README.md", "examples/README.md", "lessons/LECTURE.md", "lessons/SEMESTER.md", "lessons/ANSWERS.md"),
        *("docs/GUIDE.md", "docs/JUDGE_YOUR_LOCK.md", "docs/RECORDS.md", "docs/FORMATS.md", "docs/FAULTS.md", "docs/PICTURE.md"),
        "examples/traces/LOGS.md",
    )
] + sorted(TOP.glob("lessons/[0-9]*.md"))
# the most words of the README
MOST_WORDS = 1400


def printed_by(command):
    paths = f"{PROGRAM.parent}{os.pathsep}{os.environ['PATH']}"
    ran = subprocess.run(
        by_name(command),
        shell=True,
        cwd=TOP,
        stdout=subprocess.PIPE,
        stderr=subprocess.STDOUT,
        text=True,
        env=dict(os.environ, PATH=paths),
    )
    return ran.stdout


def main():
    counter, words = Counter(), len((TOP / "README.md").read_text().split())
    counter.count(words <= MOST_WORDS, f"README.md has {words} words, of at most {MOST_WORDS}")
    for page in PAGES:
        commands = [*commands_in(page.read_text())]
        if not commands:
            counter.count(False, f"{page.relative_to(TOP)} shows no command")
        for command, output in commands:
            printed = printed_by(command)
            counter.count(printed == output, f"{page.relative_to(TOP)}: {command}\n{printed}wanted:\n{output}")
    counter.end()


main()
