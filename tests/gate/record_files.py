#!/usr/bin/env python3
"""Runs the proved program on record files: those of examples/records/, records of the worked scenarios, and a record of a million
lines, whose judge takes no more memory than that of one of ten. (Faults and verdicts of short ones: `short_files.py`.)

Each folder of examples/records/ has a `record-file`, and as `judge` what `judge` writes for it; beside it `judge.err` (no such
file: nothing) and `judge.status` (no such file: 0). Where there is a `scenario`, `record` writes that record file for it. The
program is the one that `rt run` leaves in crates/bakerystore.
"""

import fcntl
import pathlib
import re
import struct
import subprocess
import sys
import termios
import time

sys.path.insert(0, str(pathlib.Path(__file__).resolve().parents[1]))

from lib.counting import Counter
from lib.places import PROGRAM, TOP, WORKED

# a process whose memory unit cleared the lock's variables, and which starts again: with this behind it a good record stays good
AGAIN = "".join(
    [
        "0 : fail\n",
        *(f"0 0.{field}.0.{reader} {move}\n" for field in ("ticket", "choosing") for reader in (0, 1) for move in ("write 0", "end")),
    ]
)[:-1] + " : down\n0 : restart\n"
# by how much the memory of two runs may differ, in KiB: less than a byte for each line of the long record
SLACK = 500


def content(path, default):
    return path.read_bytes() if path.exists() else default


def run(command, file, text=None):
    return subprocess.run([PROGRAM, command, file], input=text, capture_output=True)


def untaken(pipe):
    """How many bytes of a pipe nobody has read yet."""
    return struct.unpack("i", fcntl.ioctl(pipe, termios.FIONREAD, b"\0" * 4))[0]


def memory_and_end(times):
    """The most memory that `judge` has taken, in KiB, when it has read a record in which a process fails so many times, and
    what it then says at the end."""
    with subprocess.Popen([PROGRAM, "judge", "-"], stdin=subprocess.PIPE, stdout=subprocess.PIPE) as judge:
        judge.stdin.write(b"record 1\ntickets 1\n" + AGAIN.encode() * times)
        judge.stdin.flush()
        while untaken(judge.stdin):
            time.sleep(0.01)
        told = pathlib.Path(f"/proc/{judge.pid}/status").read_text()
        said, _ = judge.communicate()
    return int(re.search(r"^VmHWM:\s+(\d+) kB$", told, re.M)[1]), said.decode()


def ended(ran):
    return ran.returncode, ran.stdout, ran.stderr


def kept_records(counter):
    """The records that stand in examples/records/: what is told of each, and those that are recorded."""
    for folder in sorted((TOP / "examples" / "records").iterdir()):
        file = folder / "record-file"
        wanted = int(content(folder / "judge.status", b"0")), content(folder / "judge", b""), content(folder / "judge.err", b"")
        counter.compare(folder.name, ended(run("judge", file)), wanted)
        if (folder / "scenario").exists():
            counter.compare(f"{folder.name}, recorded", ended(run("record", folder / "scenario")), (0, file.read_bytes(), b""))


def worked_records(counter):
    """The records of the worked scenarios: each is judged as its run is audited, or has the fault that the audit tells."""
    for folder in sorted(WORKED.iterdir()):
        if (folder / "audit").exists():
            record, audit = run("record", folder / "scenario"), ended(run("audit", folder / "scenario"))
            told = run("judge", "-", record.stdout) if record.returncode == 0 else record
            counter.compare(folder.name, ended(told), audit)


def long_records(counter):
    """A record of ten entries, and one of a million."""
    few, said = memory_and_end(1)
    counter.compare("a failure and a restart", said, "good 10\n")
    many, said = memory_and_end(100_000)
    counter.compare("a hundred thousand of them", said, "good 1000000\n")
    counter.compare(f"{many} KiB for a record of a million lines, {few} for one of ten", many <= few + SLACK, True)


def main():
    counter = Counter()
    for part in [kept_records, worked_records, long_records]:
        part(counter)
    counter.end()


main()
