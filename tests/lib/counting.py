"""Counts what a script tries. Its last line is `N passed, M failed`; its status is 1 if something failed or nothing was tried."""

import re
import subprocess
import sys
import time

COUNTS = re.compile(r"(\d+) passed, (\d+) failed")


class Counter:
    """How many tries were good, and how many were not."""

    def __init__(self):
        self.passed = self.failed = 0

    def count(self, is_good, told=""):
        """Counts a try; where it is not good, it is told."""
        self.passed += bool(is_good)
        self.failed += not is_good
        if not is_good:
            print(told, flush=True)

    def compare(self, what, found, wanted):
        self.count(found == wanted, f"{what}: {found!r}, wanted {wanted!r}")

    def add(self, passed, failed):
        """Counts what was counted elsewhere."""
        self.passed += passed
        self.failed += failed

    def end(self):
        """Prints the counts, and ends the script."""
        print(f"{self.passed} passed, {self.failed} failed")
        sys.exit(self.failed != 0 or self.passed == 0)


def counts_of(last, status):
    """The counts of a script that ended with this line and this status; one without counts has failed."""
    told = COUNTS.fullmatch(last.strip())
    passed, failed = map(int, told.groups()) if told else (0, 1)
    return passed, failed or int(status != 0)


def shown_counts(words, folder):
    """Runs a command in a folder, shows what it prints as it comes, and gives the counts of its last line."""
    print(f"== {' '.join(map(str, words))}", flush=True)
    last, begun = "", time.time()
    with subprocess.Popen(words, cwd=folder, stdin=subprocess.DEVNULL, stdout=subprocess.PIPE, text=True, errors="replace") as run:
        for last in run.stdout:
            print(last, end="", flush=True)
    print(f"in {time.time() - begun:.0f} s", flush=True)
    return counts_of(last, run.returncode)
