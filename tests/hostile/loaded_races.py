"""Races under load: the program runs random races, and a test program random rounds of boards, next to twice as many busy processes
as the machine has cores.

The script draws each race and each round from its number. The system decides how the threads meet. An independent implementation
checks what each race or round leaves.
"""

import contextlib
import subprocess
import sys

from lib.running import CORES, script_row

# each soak with the word for how many it plays, and how many that are: all in all, and in short
SOAKS = [("byhand/soak_races.py", "--races", 300, 10), ("byhand/soak_boards.py", "--rounds", 300, 10)]


@contextlib.contextmanager
def busy():
    """Twice as many processes as cores that do nothing but run."""
    processes = [subprocess.Popen([sys.executable, "-c", "while True: pass"]) for _ in range(2 * CORES)]
    try:
        yield
        idle = [process for process in processes if process.poll() is not None]
        if idle:
            raise RuntimeError("a busy process has ended")
    finally:
        for process in processes:
            process.kill()
            process.wait()


def soaked(folder, script, word, number):
    """A soak of so many, from the first on; each by its number."""
    what, name = f"`tests/{script}`", f"{word[2:]} 1 to {number}"
    with busy():
        return script_row(what, name, script, word, str(number), "--keep", folder / "soak", number=number)


def rows(_examples, folder, is_short):
    for script, word, whole, short in SOAKS:
        yield soaked(folder, script, word, short if is_short else whole)
