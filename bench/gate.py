#!/usr/bin/env python3
"""Runs a command, as `rt ci`, and tells the processor time of each check that it makes, by crate and kind, from samples of /proc.

`bench/gate.py [--rows FILE] WORDS..`: the rows go to FILE, one JSON object a line, as the processes end. Kinds: `proof` of a
crate, `tests` (their proof), `edits` (must-fail edits, with the check of the whole crate that they begin with), `program`
(the proof of the program, and what two compilers make of it) and `runs` (tests and programs that run). A process is looked at
five times a second, so its last fifth of a second may be missed.
"""

import collections
import json
import os
import pathlib
import subprocess
import sys
import time
from typing import NamedTuple

TICKS = os.sysconf("SC_CLK_TCK")
PAUSE = 0.2
PROGRAM = "bakerystore"
KINDS = ["proof", "tests", "edits", "program", "runs"]


class Looked(NamedTuple):
    """What /proc tells of a process: its parent, its start, and its processor seconds with those of the children that ended."""

    parent: int
    start: str
    seconds: float


def look(pid):
    """Looks at a process; None if it has ended."""
    try:
        text = pathlib.Path(f"/proc/{pid}/stat").read_text()
    except OSError:
        return None
    fields = text[text.rindex(")") + 2 :].split()
    return Looked(int(fields[1]), fields[19], sum(map(int, fields[11:15])) / TICKS)


def words_of(pid):
    """The words of a process and the folder that it runs in; None if it has ended."""
    try:
        words = pathlib.Path(f"/proc/{pid}/cmdline").read_bytes().decode(errors="replace").split("\0")
        return words, os.readlink(f"/proc/{pid}/cwd")
    except OSError:
        return None


def crate_and_kind(words, folder):
    """Which crate a process checks, builds or runs, and to what end; None of any other process."""
    name = pathlib.Path(words[0]).name
    if name == "rattle" and "--crate-name" in words:
        crate = words[words.index("--crate-name") + 1]
        if "rt-edit" in folder:
            return crate, "edits"
        return crate, "tests" if "--test" in words else "program" if crate == PROGRAM else "proof"
    if "/out/" in words[0]:
        return name.removesuffix(".by-rattle").removesuffix("_tests"), "runs"
    return None


def below(pid, looked):
    """Whether a process was started by the command, directly or not."""
    while pid in looked:
        pid = looked[pid].parent
        if pid == os.getpid():
            return True
    return False


def sample(found):
    """Looks at all processes once; what the command's checks have taken so far goes into `found`."""
    looked = {pid: told for pid in map(int, filter(str.isdigit, os.listdir("/proc"))) if (told := look(pid))}
    for pid, told in looked.items():
        key = pid, told.start
        if key not in found:
            words = words_of(pid) if below(pid, looked) else None
            kind = words and crate_and_kind(*words)
            # (what a check starts is counted with it, once it has ended)
            if not kind or (told.parent, looked.get(told.parent, told).start) in found:
                continue
            found[key] = {"crate": kind[0], "kind": kind[1], "begun": time.time()}
        found[key].update(seconds=told.seconds, ended=time.time())


def table(rows):
    """The minutes of each crate and kind, the dearest crate first."""
    minutes = collections.Counter()
    for row in rows:
        minutes[row["crate"], row["kind"]] += row["seconds"] / 60
    crates = sorted({crate for crate, _ in minutes}, key=lambda it: -sum(minutes[it, kind] for kind in KINDS))
    lines = ["| Crate | " + " | ".join(KINDS) + " | together |", "|---" * (len(KINDS) + 2) + "|"]
    for name in [*crates, "together"]:
        cells = [sum(minutes[it, kind] for it in (crates if name == "together" else [name])) for kind in KINDS]
        shown = [f"{cell:.1f}" if cell >= 0.05 else "" for cell in [*cells, sum(cells)]]
        lines.append(f"| {name} | " + " | ".join(shown) + " |")
    return "\n".join(lines)


def main():
    words, rows = sys.argv[1:], None
    if words[:1] == ["--rows"]:
        rows, words = words[1], words[2:]
    begun, found = time.time(), {}
    with subprocess.Popen(words) as run:
        while run.poll() is None:
            sample(found)
            time.sleep(PAUSE)
    if rows:
        pathlib.Path(rows).write_text("".join(f"{json.dumps(row)}\n" for row in found.values()))
    children = os.times()
    print(table(found.values()))
    print(f"wall {(time.time() - begun) / 60:.1f} min, processor {(children.children_user + children.children_system) / 60:.1f} min")
    sys.exit(run.returncode)


if __name__ == "__main__":
    main()
