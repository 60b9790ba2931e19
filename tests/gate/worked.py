#!/usr/bin/env python3
"""Runs the proved program on every worked example and compares byte for byte.

Each folder of examples/worked/ has a `scenario` or a `bits-file`, and under the name of a command, as `plain`, what that
command writes for it to standard output (`record` has none, nor have some commands of some folders); beside it `plain.err`
(no such file: nothing) and `plain.status` (no such file: 0). What a command writes with `--reads` is in `draw-reads` and
`draw-svg-reads`.
The program is the one that `rt run` leaves in crates/bakerystore.
"""

import pathlib
import subprocess
import sys

sys.path.insert(0, str(pathlib.Path(__file__).resolve().parents[1]))

from lib.counting import Counter
from lib.places import PROGRAM, WORKED

# each command, with the option behind it, and the file that it runs
COMMANDS = {
    "plain": "scenario",
    "bits": "bits-file",
    "replay": "scenario",
    "audit": "scenario",
    "sweep": "scenario",
    "race": "scenario",
    "draw": "scenario",
    "draw-svg": "scenario",
    "draw-reads": "scenario",
    "draw-svg-reads": "scenario",
}


def words_of(command):
    """The program's word for a command, and its options."""
    return command.removesuffix("-reads"), ["--reads"] * command.endswith("-reads")


def content(path, default):
    return path.read_bytes() if path.exists() else default


def wanted(folder, command):
    """Output, fault line and status that are wanted, or None where the command can't run the file."""
    paths = [folder / command, folder / f"{command}.err", folder / f"{command}.status"]
    if not any(path.exists() for path in paths):
        return None
    output, told, status = (content(path, default) for path, default in zip(paths, [b"", b"", b"0"]))
    return output, told, int(status)


def strays(folder):
    """The files of a folder that nothing here looks at."""
    known = {f"{command}{end}" for command in COMMANDS for end in ("", ".err", ".status")}
    return sorted({path.name for path in folder.iterdir()} - known - set(COMMANDS.values()))


def main():
    counter = Counter()
    for folder in sorted(WORKED.iterdir()):
        if strays(folder) or not any(wanted(folder, command) for command in COMMANDS):
            counter.count(False, f"{folder.name} has no output of a command, or files of none: {strays(folder)}")
        for command, file in COMMANDS.items():
            want = wanted(folder, command)
            if want is None:
                continue
            word, options = words_of(command)
            ran = subprocess.run([PROGRAM, word, *options, folder / file], capture_output=True)
            counter.compare(f"{command} {folder.name}", (ran.stdout, ran.stderr, ran.returncode), want)
    counter.end()


if __name__ == "__main__":
    main()
