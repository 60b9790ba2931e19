#!/usr/bin/env python3
"""Checks lessons/grade.py: the grades of ten made-up submissions, cell by cell, and of the answers of lessons/exercises/answers/.

The ten are right, wrong, endless, malformed and hostile. Each counterexample has its picture. Further commands try to pass the limits of
lessons/exercises/limits.py. Where a file of the search is missing, or the program does not run, files have no points. The page of the
exercises quotes its example, and the commands of the pages print what is shown below them.
"""

import csv
import os
import pathlib
import shutil
import socket
import subprocess
import sys
import tempfile
import time

TOP = pathlib.Path(__file__).resolve().parents[2]
sys.path[:0] = [str(TOP / "tests"), str(TOP / "lessons" / "exercises"), str(TOP / "examples" / "other-locks")]

import language
import limits
from driver import Mistake
from exercises import PARTS
from lib.counting import Counter
from lib.pages import by_name, commands_in
from lib.places import PROGRAM

LESSONS = TOP / "lessons"
ANSWERS = LESSONS / "exercises" / "answers"
PAGES = [LESSONS / "exercises" / "README.md", LESSONS / "GRADING.md", LESSONS / "PROOF_LAB.md"]
PETERSON, IN_ORDER = (ANSWERS / "1.py").read_text(), (ANSWERS / "2.py").read_text()
RAISE, TURN, CALL = "        yield flag[me].set(1)\n", "        yield turn.set(1 - me)\n", '        yield "call"\n'
LOOK, ENTER, LOOP = "        while (yield flag[1 - me].get()):\n", '        yield "enter"\n', "    while True:\n"
NAME = "the name is not STUDENT-EXERCISE.py, .trace or .record, with an exercise of 1 to 5"
# the hidden run that one of the submissions does not pass
SEED, LATE = "7", "hidden run 5 of seed 7, with 2 processes"
# what no file may contain, each as a line of a lock
REFUSED = [
    *["import os", "from os import system", "from cells import sys", "from . import cells", "from cells import register as __name__"],
    *["open('x')", "print(1)", "eval('1')", "().__class__", "lock.gi_frame", "__builtins__", "getattr(lock, 'x')", "breakpoint()"],
    *["class A: pass", "lambda: 1", "try: pass\nexcept: pass", "with a: pass", "global flag", "import cells", "del lock", "1.5", "b''"],
    *["@lock\ndef g(): pass", "async def g(): pass", "flag.get = 1", "{}", "f(_x=1)", "\0", "\xff", "(" * 5000, "x = " + "-" * 60000 + "1"],
]


def changed(text, *pairs):
    """Returns a text in which each pair's first text, which occurs, is replaced by its second."""
    for old, new in pairs:
        assert old in text, old
        text = text.replace(old, new)
    return text


def submissions():
    """Returns the ten submissions: of each file name its text, and its row of the table without the names of the file and the student.
    A link has a path as its text."""
    late = changed(PETERSON, (LOOP, f"    calls = 0\n{LOOP}"), (CALL, f"{CALL}        calls = min(calls + 1, 3)\n"))
    late = changed(late, (LOOK, "        while calls < 3 and (yield flag[1 - me].get()):\n"))
    waits_late = changed(IN_ORDER, ('        yield "wait"\n', ""), (ENTER, f'        yield "wait"\n{ENTER}'))
    not_reached = "run comes-back (2-in-order.runs, line 72, `go 1 wait`): entries 8 to 9 are repeated for ever"
    overtakes = (TOP / "examples" / "other-locks" / "one-bit-overtakes" / "record").read_text()
    why = "bad 10 overtaken; line 16; is 0 1.choosing.0.0 value 0 : enter; stage waiting; open 6; waits 1 3; doorway 4"
    turn_first = changed(PETERSON, (RAISE + TURN, TURN + RAISE))
    together = "bad 8 together; line 14; is 0 turn get 0 : enter; stage doorway; inside 1 5"
    endless = changed(PETERSON, (CALL, f"        while True:\n            me = 1 - me\n{CALL}"))
    hostile = f"import os\n\nos.system('touch harmed')\n{PETERSON}"
    no_python = changed(PETERSON, (LOOP, "    while True print:\n"))
    runs = lambda name: [name + ".trace", name + ".svg"]
    return {
        "=1+1-1.py": ("/etc/passwd", ["", "", "file", "file", NAME, "", "", ""]),
        "ada-1.py": (PETERSON, ["1", "10", "", "", "", "", "", ""]),
        "bob-1.py": (turn_first, ["1", "2", "laws", "together", together, "", *runs("bob-1.py")]),
        "cem-2.py": (waits_late, ["2", "0", "runs", "turns", not_reached, "", *runs("cem-2.py")]),
        "dina-1.py": (endless, ["1", "0", "runs", "", "", "cpu", "", ""]),
        "eli-1.py": (changed(PETERSON, (ENTER, f"        me = [me] * 10**12\n{ENTER}")), ["1", "0", "runs", "", "", "memory", "", ""]),
        "fay-1.py": (no_python, ["1", "", "file", "file", "line 9: invalid syntax", "", "", ""]),
        "gus-1.py": (hostile, ["1", "", "file", "file", "line 1: `import os` is not in the language of the exercises", "", "", ""]),
        "hana-lea-1.py": (late, ["1", "8", "hidden", "together", LATE, "", *runs("hana-lea-1.py")]),
        "ivo-4.record": (overtakes, ["4", "0", "trace", "overtaken", why, "", "ivo-4.record", "ivo-4.record.svg"]),
    }


def graded(folder, *words):
    """Grades a folder, and returns the rows of the table, each as a list, and the folder of the table."""
    out = folder.with_name(f"{folder.name}.grades")
    command = [sys.executable, LESSONS / "grade.py", folder, "--program", PROGRAM, "--jobs", str(os.cpu_count()), *words]
    ran = subprocess.run(command, capture_output=True, text=True)
    table = out / "grades.csv"
    if ran.returncode or not table.exists():
        return [[ran.stdout + ran.stderr]], out
    with open(table, newline="") as file:
        return [*csv.reader(file)], out


def check_submissions(counter, folder):
    """Checks the rows of the ten submissions."""
    made = submissions()
    folder.mkdir()
    for name, (text, _) in made.items():
        os.symlink(text, folder / name) if name.startswith("=") else (folder / name).write_text(text)
    rows, out = graded(folder, "--cpu", "4", "--seed", SEED)
    counter.compare("the columns", rows[0], [*"file student exercise points part law reason limit trace picture".split()])
    counter.compare("the number of rows", len(rows), len(made) + 1)
    for row, (name, (_, wanted)) in zip(rows[1:], made.items()):
        # (how far a hidden run is shortened is not stated here)
        reason = row[6].partition(";")[0] if wanted[4] == LATE else row[6]
        student = "" if name.startswith("=") else name.rpartition("-")[0]
        counter.compare(name, [*row[:6], reason, *row[7:]], ["'" * name.startswith("=") + name, student, *wanted])
        for file in filter(None, row[8:]):
            counter.count((out / file).is_file() and (out / file).read_bytes(), f"{file} is missing or empty")
        if row[8]:
            words = ["judge", *["--any-lock"] * row[8].endswith(".record"), out / row[8]]
            told = subprocess.run([PROGRAM, *words], capture_output=True, text=True).stdout
            is_endless = wanted[3] == "turns"
            counter.count(told.startswith("good" if is_endless else "bad"), f"{row[8]}: {told}")
            counter.count(("<title>judge " in (out / row[9]).read_text()) != is_endless, f"{row[9]} has a verdict, or lacks one")
            last = (out / row[8]).read_text().splitlines()[-1]
            counter.count(last == f"# {row[6]}" if is_endless else not last.startswith("#"), f"{row[8]} ends with {last}")
    counter.count(not list(folder.rglob("harmed")) and not pathlib.Path("harmed").exists(), "a submission has run a command")


def check_answers(counter, folder):
    """Checks that each answer has all points."""
    folder.mkdir()
    for number in range(1, 6):
        (folder / f"answer-{number}.py").write_bytes((ANSWERS / f"{number}.py").read_bytes())
    rows, _ = graded(folder)
    for number, row in enumerate(rows[1:], 1):
        counter.compare(f"answer {number}", row, [f"answer-{number}.py", "answer", str(number), "10", *[""] * 6])
    counter.compare("the number of answers", len(rows), 6)


def check_faults(counter, folder):
    """Checks that a fault of the installation gives no points, and a status other than 0: a file of the search is missing, or the
    program does not judge."""
    folder.mkdir()
    (folder / "class").mkdir()
    (folder / "class" / "ada-1.py").write_text((LESSONS / "exercises" / "example" / "ada-1.py").read_text())
    for part in ("lessons/grade.py", "lessons/exercises", "examples/other-locks"):
        (folder / part).parent.mkdir(exist_ok=True)
        copy = shutil.copy if part.endswith(".py") else shutil.copytree
        copy(TOP / part, folder / part)
    broken = folder / "program"
    broken.write_text("#!/bin/sh\nexit 5\n")
    broken.chmod(0o755)
    missing = "the search does not start: ModuleNotFoundError: No module named 'cell_locks'"
    for program, reason in (broken, "bakerystore does not judge, and ends with status 5"), (PROGRAM, missing):
        out = folder / f"{program.name}.grades"
        command = [sys.executable, folder / "lessons" / "grade.py", folder / "class", "--program", program, "--out", out]
        ran = subprocess.run(command, capture_output=True, text=True)
        with open(out / "grades.csv", newline="") as file:
            row = [*csv.reader(file)][1]
        wanted = ["ada-1.py", "ada", "1", "", "not graded", "", reason, "", "", ""]
        counter.compare(f"a fault of {program.name}", (ran.returncode, row), (1, wanted))
        (folder / "examples" / "other-locks" / "cell_locks.py").unlink(missing_ok=True)


def check_language(counter):
    """Checks that the language refuses what it does not have, and takes the answers."""
    for line in REFUSED:
        text = line.encode("latin-1")
        counter.count(is_refused(PETERSON.encode() + text), f"the language has {line[:60]!r}")
    for answer in ANSWERS.glob("*.py"):
        counter.count(not is_refused(answer.read_bytes()), f"{answer.name} is not in the language")


def is_refused(source):
    """Returns whether the language refuses a file."""
    try:
        language.check(source)
    except Mistake:
        return True
    return False


def check_limits(counter, folder):
    """Checks that commands in Python, of which no language is asked, do not pass the limits."""
    folder.mkdir()
    os.chmod(folder.parent, 0o755)
    isolation, small = limits.isolation(folder), limits.Limits(cpu=2, seconds=60, file=1000, output=10_000)
    print(f"submissions have {isolation.text}")
    python = lambda text, most=small: limits.run([sys.executable, "-I", "-c", text], folder, most, isolation)
    sleeps = python("import signal, time; signal.signal(signal.SIGTERM, signal.SIG_IGN); time.sleep(999)", small._replace(seconds=2))
    counter.compare("a command that sleeps", sleeps.limit, "seconds")
    counter.compare("a command without end", python("while True: pass").limit, "cpu")
    flood = python("while True: print('x' * 1000)")
    counter.compare("a command that prints", (flood.limit, len(flood.output)), ("output", 10_000))
    counter.count(b"MemoryError" in python(tried("b'x' * (2 << 30)")).output, "2 GiB of memory are given")
    counter.count(b"OSError" in python(tried("[it.write(b'x' * 2000) for it in [open('large', 'wb', 0)] * 2]")).output, "a file may be large")
    counter.count(b"OSError" in python(tried("[open('/dev/null') for _ in range(100)]")).output, "100 files may be open")
    if "--net" in isolation.words:
        with socket.create_server(("127.0.0.1", 0)) as server:
            port = server.getsockname()[1]
            counter.count(b"OSError" in python(tried(f"__import__('socket').create_connection(('127.0.0.1', {port}))")).output, "a network")
    if "--pid" in isolation.words:
        marker = f"left-{os.getpid()}"
        python(f"import os, time\nif not os.fork():\n os.setsid()\n os.fork()\n os.execlp('sleep', '{marker}', '999')")
        counter.count(is_gone(marker), "a process is left")


def tried(expression):
    """Returns a program that prints the error which an expression raises."""
    return f"try:\n {expression}\nexcept (MemoryError, OSError) as error:\n print([it.__name__ for it in type(error).__mro__])"


def is_gone(marker):
    """Returns whether no process has a marker as the first word of its command, within some seconds."""
    for _ in range(100):
        commands = [it for it in pathlib.Path("/proc").glob("[0-9]*/cmdline") if marker.encode() in read(it)]
        if not commands:
            return True
        time.sleep(0.1)
    return False


def read(path):
    """Returns the bytes of a file, or none if it has gone."""
    try:
        return path.read_bytes()
    except OSError:
        return b""


def check_pages(counter):
    """Checks that the page of the exercises quotes its example and has the points of each part, and that each command of the pages
    prints what is shown."""
    page, example = PAGES[0].read_text(), (LESSONS / "exercises" / "example" / "ada-1.py").read_text()
    counter.count(f"```python\n{example}```\n" in page, "README.md does not quote ada-1.py")
    for part, points in PARTS.items():
        counter.count(f"\n| `{part}` | {points} | " in page, f"README.md has not {points} points for {part}")
    counter.compare("all points", sum(PARTS.values()), 10)
    environment = dict(os.environ, PATH=f"{PROGRAM.parent}{os.pathsep}{os.environ['PATH']}")
    for page in PAGES:
        for command, output in commands_in(page.read_text()):
            ran = subprocess.run(by_name(command), shell=True, cwd=TOP, env=environment, stdout=subprocess.PIPE, stderr=subprocess.STDOUT, text=True)
            counter.compare(f"{page.relative_to(TOP)}: {command}", ran.stdout, output)


def main():
    counter = Counter()
    check_language(counter)
    with tempfile.TemporaryDirectory(prefix="grading-") as name:
        folder = pathlib.Path(name)
        check_submissions(counter, folder / "class")
        check_answers(counter, folder / "answers")
        check_faults(counter, folder / "faults")
        check_limits(counter, folder / "limits")
    check_pages(counter)
    counter.end()


main()
