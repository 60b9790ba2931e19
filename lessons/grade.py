#!/usr/bin/env python3
"""Grades the locks that students hand in: grade.py FOLDER writes FOLDER.grades/grades.csv.

A file of FOLDER is named STUDENT-EXERCISE.py for a lock, or STUDENT-EXERCISE.trace or STUDENT-EXERCISE.record for one run of a lock
that is not written in Python. The exercises, 1 to 5, are in exercises/README.md. A row of the table has the points, of 10; the part
that failed; the law that is broken, the reason, and the limit that was reached; and the files of the counterexample: a trace and a
picture. A file that cannot be read as a lock or a run has no points. If a fault of the installation prevents the grading of a file,
it has no points either, and the exit status is 1.

Nothing in FOLDER is trusted: GRADING.md describes the limits, and what they do not protect from.
"""

import argparse
import contextlib
import csv
import errno
import io
import json
import os
import pathlib
import re
import shutil
import stat
import sys
import tempfile
from concurrent.futures import ThreadPoolExecutor
from typing import NamedTuple

HERE = pathlib.Path(__file__).resolve().parent
TOP = HERE.parent
EXERCISES_FOLDER, SEARCH = HERE / "exercises", TOP / "examples" / "other-locks"
sys.path[:0] = [str(EXERCISES_FOLDER), str(SEARCH)]

import limits
from exercises import EXERCISES, PARTS, TRACE_POINTS

PROGRAMS = [TOP / "bin" / "bakerystore", TOP / "crates" / "bakerystore" / "out" / "bakerystore"]
NAME = re.compile(r"(?P<student>\w[\w .'’-]{0,60})-(?P<exercise>[1-9])\.(?P<kind>py|trace|record)")
COLUMNS = ["file", "student", "exercise", "points", "part", "law", "reason", "limit", "trace", "picture"]
# the part of a file that is no lock and no run, and that of a file that could not be graded; neither has points
FILE, NOT_GRADED = "file", "not graded"
MOST_BYTES = {"py": 1 << 16, "trace": 1 << 20, "record": 1 << 20}
MOST_CELL = 400
# what a spreadsheet takes for the begin of a formula
FORMULA = ("=", "+", "-", "@")


class Fault(Exception):
    """A fault of the installation, because of which a file cannot be graded."""


class Grade(NamedTuple):
    """A row of the table. `run` is the counterexample as a trace, which is written to a file with its picture. The picture has the
    verdict unless the judge calls the run good, as one that waits for ever."""

    file: str
    student: str = ""
    exercise: str = ""
    points: int = 0
    part: str = ""
    law: str = ""
    reason: str = ""
    limit: str = ""
    run: str | None = None
    has_verdict: bool = True

    @property
    def row(self):
        """Returns the cells of the table up to the limit."""
        points = "" if self.part in (FILE, NOT_GRADED) else self.points
        return [self.file, self.student, self.exercise, points, self.part, self.law, self.reason, self.limit]


class Grader(NamedTuple):
    """What all submissions are graded by: the program that judges, the isolation, the limits and the seed."""

    program: str
    isolation: limits.Isolation
    limits: limits.Limits
    seed: str

    def judged(self, name, text, *words):
        """Returns how the program ends on a file of this name, in a folder of its own, within the limits."""
        with fresh_folder() as folder:
            put(folder / name, text)
            # (the program is proved; a build without proof reserves more memory than it uses)
            return limits.run([self.program, *words, name], folder, self.limits._replace(memory=0), self.isolation)


# Files.


@contextlib.contextmanager
def fresh_folder():
    """Makes a temporary folder, which all may read."""
    with tempfile.TemporaryDirectory(prefix="grade-", ignore_cleanup_errors=True) as name:
        os.chmod(name, 0o755)
        yield pathlib.Path(name)


def put(path, content):
    """Writes a new file, which all may read."""
    with open(path, "xb") as file:
        file.write(content)
    path.chmod(0o644)


def content_of(path, most):
    """Returns the bytes of a regular file, or raises an error with the reason why it is not read."""
    file = os.open(path, os.O_RDONLY | os.O_NOFOLLOW | os.O_NONBLOCK | os.O_CLOEXEC)
    try:
        if not stat.S_ISREG(os.fstat(file).st_mode):
            raise OSError("not a regular file")
        with open(file, "rb", closefd=False) as opened:
            found = opened.read(most + 1)
    finally:
        os.close(file)
    if len(found) > most:
        raise OSError(f"more than {most:,} bytes")
    return found


def harmless(text):
    """Returns a text for a cell of the table: without signs that are not printed, not too long, and not a formula."""
    text = "".join(sign if sign.isprintable() else "?" for sign in str(text))[:MOST_CELL]
    return f"'{text}" if text.startswith(FORMULA) else text


# Grades.


def graded(grader, path):
    """Returns the grade of a file."""
    grade = Grade(path.name)
    named = NAME.fullmatch(path.name)
    if not named or int(named["exercise"]) not in EXERCISES:
        return grade._replace(part=FILE, law="file", reason="the name is not STUDENT-EXERCISE.py, .trace or .record, with an exercise of 1 to 5")
    grade, kind = grade._replace(student=named["student"], exercise=named["exercise"]), named["kind"]
    try:
        content = content_of(path, MOST_BYTES[kind])
    except OSError as error:
        limit = "size" if str(error).startswith("more than") else ""
        reason = "a link, and not a file" if error.errno == errno.ELOOP else error.strerror or str(error)
        return grade._replace(part=FILE, law="file", reason=reason, limit=limit)
    return graded_lock(grader, grade, content) if kind == "py" else graded_run(grader, grade, content, kind)


def graded_lock(grader, grade, source):
    """Returns the grade of a lock in Python, which parts.py tries in a process with limits."""
    with fresh_folder() as folder:
        for file in (*SEARCH.glob("*.py"), *EXERCISES_FOLDER.glob("*.py"), *EXERCISES_FOLDER.glob("*.runs")):
            put(folder / file.name, file.read_bytes())
        put(folder / "submitted.py", source)
        words = [sys.executable, "-I", "-B", "parts.py", grade.exercise, grader.seed, "submitted.py"]
        ended = limits.run(words, folder, grader.limits, grader.isolation)
    return with_parts(grader, grade, ended)


def with_parts(grader, grade, ended):
    """Returns a grade with what parts.py has printed: each part that was passed, and the failure."""
    left = list(PARTS)
    for line in lines_of(ended.output):
        if "fault" in line:
            raise Fault(f"the search does not start: {line['fault']}")
        if left and line.get("passed") == left[0]:
            grade = grade._replace(points=grade.points + PARTS[left.pop(0)])
        elif "law" in line:
            grade = with_failure(grader, grade, line)
    if grade.part or not left:
        return grade
    return grade._replace(part=left[0], limit=ended.limit, reason="" if ended.limit else "the search has ended without a result")


def lines_of(output):
    """Yields the lines of an output that are objects of JSON."""
    for line in output.splitlines():
        try:
            found = json.loads(line)
        except (ValueError, RecursionError):
            continue
        if isinstance(found, dict):
            yield found


def with_failure(grader, grade, line):
    """Returns a grade with a failure. Its trace is judged by the program, whose verdict is the reason if the trace is bad."""
    part, law, reason, run = (line.get(key) for key in ("part", "law", "reason", "trace"))
    grade = grade._replace(part=str(part), law=str(law), reason=str(reason or ""), run=run if isinstance(run, str) else None)
    if "MemoryError" in grade.reason:
        return grade._replace(law="", reason="", limit="memory", run=None)
    if grade.run is None:
        return grade
    verdict = verdict_in(grader.judged("run.trace", grade.run.encode(), "judge", "--why"))
    is_bad = verdict[:1] and verdict[0].startswith("bad ")
    reasons = [grade.reason, *verdict] if is_bad else [grade.reason]
    return grade._replace(reason="; ".join(it for it in reasons if it), has_verdict=bool(is_bad))


def verdict_in(ended):
    """Returns the lines of a verdict, or none if the file does not follow its format or a limit was reached."""
    verdict = ended.output.decode(errors="replace").splitlines()
    if not verdict and not ended.limit and ended.status != 1:
        raise Fault(f"bakerystore does not judge, and ends with status {ended.status}")
    return verdict


def graded_run(grader, grade, content, kind):
    """Returns the grade of one run that was handed in: it must be good, and long enough."""
    name, options = f"run.{kind}", ["--any-lock"] if kind == "record" else []
    ended = grader.judged(name, content, "judge", *options, "--why")
    verdict, run = verdict_in(ended), content.decode(errors="replace")
    if ended.limit or not verdict:
        return grade._replace(part="trace", law="" if ended.limit else "file", reason="the file does not follow its format", limit=ended.limit)
    if verdict[0].startswith("bad "):
        return grade._replace(part="trace", law=verdict[0].split()[-1], reason="; ".join(verdict), run=run)
    missing = missing_in(grader, grade, name, content)
    return grade._replace(part="trace", law="short", reason=missing, run=run) if missing else grade._replace(points=TRACE_POINTS)


def missing_in(grader, grade, name, content):
    """Returns what a good run lacks, or an empty text: the memory of its exercise, and two calls of each process, of which some overlap."""
    exercise = EXERCISES[int(grade.exercise)]
    if exercise.memory == "safe" and re.search(rb"^\s*memory\s+(regular|atomic)", content, re.M):
        return "its memory is not safe"
    rows = [*csv.DictReader(io.StringIO(grader.judged(name, content, "calls").output.decode(errors="replace")))]
    calls = [(it["process"], int(it["called"]), int(it["answered"])) for it in rows if it["entered"] and it["answered"]]
    for me in map(str, range(max(size for size, _ in exercise.sizes))):
        if len([it for it in calls if it[0] == me]) < 2:
            return f"process {me} has not entered and ended its call twice"
    if not any(a[0] != b[0] and a[1] < b[2] and b[1] < a[2] for a in calls for b in calls):
        return "no two calls overlap"
    return ""


# The table.


def row_of(grader, grade, out):
    """Writes the counterexample of a grade, and returns its row."""
    trace = picture = ""
    if grade.run is not None:
        is_record = grade.file.endswith(".record")
        trace = grade.file if grade.file.endswith((".trace", ".record")) else f"{grade.file}.trace"
        put(out / trace, grade.run.encode())
        words = ["--any-lock", "--reads"] if is_record else ["--judge"] if grade.has_verdict else []
        ended = grader.judged(trace, grade.run.encode(), "draw-svg", *words)
        if ended.output.rstrip().endswith(b"</svg>"):
            picture = f"{grade.file}.svg"
            put(out / picture, ended.output)
    return [harmless(it) for it in (*grade.row, trace, picture)]


def options():
    """Returns the parser of the command line."""
    parser = argparse.ArgumentParser(description=__doc__, formatter_class=argparse.RawDescriptionHelpFormatter)
    parser.add_argument("folder", metavar="FOLDER", type=pathlib.Path)
    parser.add_argument("--out", type=pathlib.Path, help="the folder of the table, in place of FOLDER.grades; it must not exist")
    parser.add_argument("--seed", default="1", help="draws the hidden runs; students know the seed 1")
    parser.add_argument("--cpu", type=int, default=limits.Limits().cpu, help="processor seconds of a submission")
    parser.add_argument("--seconds", type=int, default=limits.Limits().seconds, help="seconds of a submission")
    parser.add_argument("--jobs", type=int, default=1, help="submissions that are graded at once")
    parser.add_argument("--program", help="the program bakerystore, if it is not on the path")
    return parser


def program_of(said):
    """Returns the path of the program that judges."""
    found = next(filter(None, map(shutil.which, [said.program] if said.program else [*PROGRAMS, "bakerystore"])), None)
    if found is None:
        sys.exit("grade.py: put the program bakerystore on the path; it judges the counterexamples")
    return str(pathlib.Path(found).resolve())


def rows_of(grader, said, out):
    """Returns the rows of all submissions, by the names of their files."""
    files = sorted(said.folder.iterdir(), key=lambda it: os.fsencode(it.name))
    with ThreadPoolExecutor(said.jobs) as pool:
        return [*pool.map(lambda it: row_or_error(grader, it, out), files)]


def row_or_error(grader, path, out):
    """Returns the row of a file. An error of the grader ends this row, and not the others."""
    try:
        return row_of(grader, graded(grader, path), out)
    except Exception as error:
        named = NAME.fullmatch(path.name)
        student, exercise = (named["student"], named["exercise"]) if named else ("", "")
        reason = str(error) if isinstance(error, Fault) else f"{type(error).__name__}: {error}"
        return row_of(grader, Grade(path.name, student, exercise, part=NOT_GRADED, reason=reason), out)


def main():
    said = options().parse_args()
    out = said.out or said.folder.with_name(f"{said.folder.resolve().name}.grades")
    if not said.folder.is_dir():
        sys.exit(f"grade.py: there is no folder {said.folder}")
    try:
        out.mkdir()
    except OSError as error:
        sys.exit(f"grade.py: {out}: {error.strerror}; remove it, or name another one by --out")
    program = program_of(said)
    with fresh_folder() as folder:
        isolation = limits.isolation(folder)
        print(f"grade.py: submissions have {isolation.text}", file=sys.stderr)
        # (a copy, which `nobody` may run)
        own = shutil.copy(program, folder / "bakerystore")
        os.chmod(own, 0o755)
        rows = rows_of(Grader(str(own), isolation, limits.Limits(said.cpu, said.seconds), said.seed), said, out)
    table = io.StringIO()
    csv.writer(table, lineterminator="\n").writerows([COLUMNS, *rows])
    put(out / "grades.csv", table.getvalue().encode())
    for row in rows:
        print(line_of(row))
    print(f"{out / 'grades.csv'}: {len(rows)} submissions")
    lost = [row for row in rows if row[4] == NOT_GRADED]
    if lost:
        sys.exit(f"grade.py: {len(lost)} of them could not be graded, and have no points: {lost[0][6]}")


def line_of(row):
    """Returns the line that is printed of a row."""
    points, why = f"{row[3]} points" if row[3] else "no points", ", ".join(filter(None, (row[4], row[5], row[7])))
    return f"{row[0]}: {points}{': ' * bool(why)}{why}"


if __name__ == "__main__":
    main()
