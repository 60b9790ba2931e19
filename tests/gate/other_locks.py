#!/usr/bin/env python3
"""Judges the records of other locks with the proved program, and compares byte for byte.

Each folder of examples/other-locks/ has a file `record`, and under `any-lock`, `any-lock-why`, `why` and `judge` what `judge`
with `--any-lock`, with `--why` beside it, with `--why` alone and without options writes for it to standard output; beside it `any-lock.err` (no such file:
nothing) and `any-lock.status` (no such file: 0), and so on. The file `refusals` has a record for each refusal of an entry:
a block is the law, the refusal, and the entries, of which the last one is bad.
The program is the one that `rt run` leaves in crates/bakerystore.
"""

import pathlib
import subprocess
import sys

sys.path.insert(0, str(pathlib.Path(__file__).resolve().parents[1]))

from lib.counting import Counter
from lib.places import PROGRAM, TOP

OTHER_LOCKS = TOP / "examples" / "other-locks"

# what a folder has, and the options with which `judge` writes it
OPTIONS = {
    "any-lock": ["--any-lock"],
    "any-lock-why": ["--any-lock", "--why"],
    "why": ["--why"],
    "judge": [],
}

# what stands before the entries of a block of refusals
HEAD = "record 1\nprocesses 2\ntickets 1\nstamps 1\nslots 1\n"


def content(path, default):
    return path.read_bytes() if path.exists() else default


def judged(options, file, text=None):
    """Output, fault line and status of `judge` on a file, or on a text."""
    ran = subprocess.run([PROGRAM, "judge", *options, file], input=text, capture_output=True)
    return ran.stdout, ran.stderr, ran.returncode


def strays(folder):
    """The files of a folder that nothing here looks at."""
    known = {f"{name}{end}" for name in OPTIONS for end in ("", ".err", ".status")}
    return sorted({path.name for path in folder.iterdir()} - known - {"record"})


def try_folder(counter, folder):
    """Tries a folder's record with each of the options."""
    if strays(folder) or not (folder / "record").exists():
        counter.count(False, f"{folder.name} has no record, or files of none: {strays(folder)}")
    for name, options in OPTIONS.items():
        wanted = content(folder / name, b""), content(folder / f"{name}.err", b""), int(content(folder / f"{name}.status", b"0"))
        counter.count(wanted[0] or wanted[1], f"{name} {folder.name}: nothing is wanted")
        counter.compare(f"{name} {folder.name}", judged(options, folder / "record"), wanted)


def blocks(text):
    """The law, the refusal and the entries of each block."""
    for block in text.split("\n\n"):
        lines = [line for line in block.splitlines() if line and not line.startswith("#")]
        if lines:
            law, refusal = lines[0].split()
            yield law, refusal, lines[1:]


def try_refusals(counter):
    """Tries each block: its last entry is the bad one, with this law and this refusal."""
    for law, refusal, entries in blocks((OTHER_LOCKS / "refusals").read_text()):
        text = HEAD + "".join(f"{entry}\n" for entry in entries)
        found, fault, status = judged(OPTIONS["any-lock-why"], "-", text.encode())
        lines = found.decode().splitlines()
        is_good = lines[:1] == [f"bad {len(entries) - 1} {law}"] and f"refused {refusal}" in lines
        counter.count(is_good and not fault and status == 3, f"refusal {refusal}: {found!r}, {fault!r}, {status}")


def main():
    counter = Counter()
    # (the folder `spin` has models, and no record; Python may leave the other one)
    for folder in sorted(path for path in OTHER_LOCKS.iterdir() if path.is_dir() and path.name not in ("spin", "__pycache__")):
        try_folder(counter, folder)
    try_refusals(counter)
    counter.end()


if __name__ == "__main__":
    main()
