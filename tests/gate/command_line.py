#!/usr/bin/env python3
"""Runs the proved program with words that ask for something, and on streams that fail; compares the exit status and both
streams. (Words that ask for nothing: `terminal.py`.) The program is the one that `rt ci` or `rt run` leaves in
crates/bakerystore.
"""

import pathlib
import subprocess
import sys
import tempfile

sys.path.insert(0, str(pathlib.Path(__file__).resolve().parents[1]))

from lib.counting import Counter
from lib.places import PROGRAM

SCENARIO = "bakery 1\ncall 0 add a 1\n"
PLAIN = (0, "0 0 no-name\n", "")
REPLAY = (0, "0 0 call add a 1\nend events 1 taken 0 refused 0\n", "")
AUDIT = (0, "good 1\n", "")
SWEEP = (0, "sweep runs 2 good 2 stuck 0\n", "")
RACE = (0, "0 0 no-name\nshow empty\ngood\n", "")
RECORD = (0, "record 1\nprocesses 2\ntickets 4\nstamps 4\nslots 1\n0 : call add a 1\n", "")

NO_READS = "--reads is for runs and records; a trace of up to 400 entries shows all accesses, and a longer one with --accesses\n"

NO_NUMBER = "--from and --to need a number below 2^64, without a sign or leading zeros\n"
NO_ENTRIES = "--from must not be above --to: --from is the number of the first entry, --to that of the last\n"
# values that are not numbers below 2^64 in decimal
NO_NUMBERS = ["", "x", "end", "+1", "01", "1 ", "0x1", str(2**64), "9" * 30]

WHY = "bad 1 marks\nline 3\nis 0 : enter\nrefused not-waiting\nstage doorway\n"
OWN_WHY = "bad 1 program\nline 3\nis 0 : enter\nmay 0 0.choosing.0.0 write 1\nstage doorway\n"

# the words, standard input, and what is wanted: exit status, standard output, standard error
CASES = [
    ([], SCENARIO, PLAIN),
    (["plain", "-"], SCENARIO, PLAIN),
    (["plain", "a file"], "", PLAIN),
    (["replay", "-"], SCENARIO, REPLAY),
    (["audit", "-"], SCENARIO, AUDIT),
    (["audit", "a file"], "", AUDIT),
    (["sweep", "-"], SCENARIO, SWEEP),
    (["sweep", "a file"], "", SWEEP),
    (["race", "-"], SCENARIO, RACE),
    (["race", "a file"], "", RACE),
    (["record", "-"], SCENARIO, RECORD),
    (["record", "a file"], "", RECORD),
    (["judge", "-"], RECORD[1], (0, "good 1\n", "")),
    (["judge", "-"], RECORD[1] + "0 : fail\n0 : fail\n", (3, "bad 2 program\n", "")),
    *((words, "record 1\n0 : call read a\n0 : enter\n", (3, WHY, "")) for words in [["judge", "--why", "-", "--any-lock"], ["judge", "-", "--any-lock", "--why"]]),
    (["judge", "--why", "-"], "record 1\n", (0, "good 0\n", "")),
    (["judge", "--why", "-"], "record 1\n0 : call read a\n0 : enter\n", (3, OWN_WHY, "")),
    (["judge", "--any-lock", "-"], "record 1\n0 : call read a\n0 : enter\n", (3, "bad 1 marks\n", "")),
    (["judge", "a file"], "", (1, "", "line 1: not-first\n")),
    (["bits", "-"], "bits 1\nend\n", (0, "refused\n", "")),
    (["bits", "a file"], "", (1, "", "line 1: not-first\n")),
    (["plain", "no such file"], SCENARIO, (1, "", "read fault\n")),
    (["plain", ""], SCENARIO, (1, "", "read fault\n")),
    (["replay", "."], SCENARIO, (1, "", "read fault\n")),
    (["draw", "."], SCENARIO, (1, "", "read fault\n")),
    (["draw-svg", "."], SCENARIO, (1, "", "read fault\n")),
    (["audit", "."], SCENARIO, (1, "", "read fault\n")),
    (["sweep", "."], SCENARIO, (1, "", "read fault\n")),
    (["race", "."], SCENARIO, (1, "", "read fault\n")),
    (["record", "."], SCENARIO, (1, "", "read fault\n")),
    (["judge", "."], RECORD[1], (1, "", "read fault\n")),
    (["plain", "-"], "", (1, "", "line 1: not-first\n")),
    (["replay", "-"], "bakery 1\nprocesses 0\n", (1, "", "line 2: bad-setup\n")),
    (["audit", "-"], "bakery 1\nprocesses 0\n", (1, "", "line 2: bad-setup\n")),
    (["sweep", "-"], "bakery 1\nprocesses 0\n", (1, "", "line 2: bad-setup\n")),
    (["race", "-"], "bakery 1\nprocesses 0\n", (1, "", "line 2: bad-setup\n")),
    (["record", "-"], "bakery 1\nprocesses 0\n", (1, "", "line 2: bad-setup\n")),
    (["judge", "-"], "record 1\n0 : fail\n0 : frob\n", (1, "", "line 3: unknown\n")),
    (["draw", "-"], "bakery 1\nprocesses 0\n", (1, "", "line 2: bad-setup\n")),
    (["draw-svg", "-"], "bakery 1\nprocesses 0\n", (1, "", "line 2: bad-setup\n")),
    (["draw", "--reads", "-"], "bakery 1\nprocesses 0\n", (1, "", "line 2: bad-setup\n")),
    (["draw-svg", ".", "--reads"], SCENARIO, (1, "", "read fault\n")),
    (["draw", "-", "--any-lock"], SCENARIO, (1, "", "line 1: not-first\n")),
    (["draw-svg", "--judge", "-"], SCENARIO, (1, "", "line 1: not-first\n")),
    (["draw-svg", "--judge", "--any-lock", "-"], "record 1\n0 : enter\n0 : frob\n", (1, "", "line 3: unknown\n")),
    (["draw-svg", "-"], "trace 1\nprocesses 0\n", (1, "", "line 2: bad-setup\n")),
    (["draw", "--judge", "-"], "# no line\ntrace 2\n", (1, "", "line 2: not-first\n")),
    (["draw", "--reads", "-"], "trace 1\n0 : call\n", (2, "", NO_READS)),
    # words that mean no entries are refused before the file is read
    *((words, "", (2, "", NO_ENTRIES)) for words in [["draw", "--from", "9", "--to", "3", "-"], ["draw-svg", "no such file", "--to=0", "--from=1"]]),
    *((["draw", option, value, "-"], SCENARIO, (2, "", NO_NUMBER)) for option in ["--from", "--to"] for value in NO_NUMBERS),
    (["draw-svg", "-", "--from=1", "--to=-1"], SCENARIO, (2, "", NO_NUMBER)),
    (["draw-svg", "--from", "9", "--to", "x", "no such file"], "", (2, "", NO_NUMBER)),
    # the greatest number, two equal numbers, and one option alone are taken: the fault is that of the file
    *(
        (["draw", *options, "-"], "bakery 1\nprocesses 0\n", (1, "", "line 2: bad-setup\n"))
        for options in [["--from", str(2**64 - 1)], ["--to", str(2**64 - 1)], ["--from=7", "--to=7"], ["--to", "0", "--from", "0"]]
    ),
]


def main():
    counter = Counter()

    def compare(what, ran, want):
        counter.compare(what, (ran.returncode, ran.stdout or "", ran.stderr), want)

    with tempfile.TemporaryDirectory() as folder:
        (pathlib.Path(folder) / "a file").write_text(SCENARIO)
        for words, text, want in CASES:
            compare(words, subprocess.run([PROGRAM, *words], input=text, capture_output=True, text=True, cwd=folder), want)
        with open("/dev/full", "w") as full:
            for command, text in [*((each, SCENARIO) for each in ["plain", "replay", "audit", "sweep", "race", "record"]), ("judge", RECORD[1])]:
                ran = subprocess.run([PROGRAM, command, "-"], input=text, stdout=full, stderr=subprocess.PIPE, text=True)
                compare(f"{command} to a full device", ran, (1, "", "write fault\n"))
    counter.end()


main()
