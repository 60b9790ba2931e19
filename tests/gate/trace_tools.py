#!/usr/bin/env python3
"""Runs the programs that make traces, and has the program `bakerystore` and the second reading judge these.

- `from_csv.py` turns each log of examples/traces/logs/ into the trace beside it, which has the verdict that LOGS.md states, and each
  short log of `lib/logs.py` into its trace. It reports the line of each mistake, notes what a log lacks, and leads from the entries that
  are named to their lines. It and `to_trace.py` end without a message if no process reads their output.
- `recorder.c` records 200 runs of each lock. Each run of a right lock is good. At least one run of a broken lock breaks the law that
  LOGS.md names first, and none breaks a law that it does not name.
- `to_trace.py` turns each trail of SPIN that is kept into the trace beside it.

Needs `cc`.
"""

import pathlib
import re
import shutil
import subprocess
import sys
import tempfile
from concurrent.futures import ThreadPoolExecutor

sys.path.insert(0, str(pathlib.Path(__file__).resolve().parents[1]))

from lib import logs
from lib.counting import Counter
from lib.own_locks import unread
from lib.places import OTHER_LOCKS, TOP
from lib.running import CORES, runner
from second.traces import judge_trace

TRACES, SPIN = TOP / "examples" / "traces", OTHER_LOCKS / "spin"
FROM_CSV, TO_TRACE = TRACES / "from_csv.py", SPIN / "to_trace.py"
# the options of a log that needs some
OPTIONS = {"sections.csv": f"@{TRACES / 'logs' / 'sections.options'}"}
# the files of the recorder, and how often each lock is recorded
SOURCES = [TRACES / "recorded" / name for name in ("recorder.c", "locks.c")]
RUNS = 200
# the most runs of a lock that the second reading judges, and the most lines of each: it takes the square of these
MOST_SECOND, MOST_LINES = 20, 150
# the entries at which a recorded run ends, as in recorder.c
MOST_ENTRIES = 2000
# a lock, its threads and the calls of each, and the laws that its bad runs may break: the first of them at least once
LOCKS = [
    ("ticket", 3, 2, ()),
    ("torn-ticket", 3, 2, ("together", "overtaken")),
    ("flag", 3, 2, ()),
    ("late-flag", 2, 3, ("together",)),
    ("spin", 3, 2, ()),
]
# the verdict on each trail: those of the shortest bad runs in docs/LOCKS.md, which have one entry more than the number of the last
TRAILS = {"bakery-without-choosing": "bad 13 together", "peterson-turn-first": "bad 8 together"}


def run(script, options, text):
    """Runs a script on a text."""
    return subprocess.run([sys.executable, script, *options.split()], input=text, capture_output=True, text=True)


def by_program(trace):
    return runner().run(["judge", "-"], trace.encode()).output.decode().strip()


def by_second(trace):
    return judge_trace(trace.encode())[1].decode().strip()


def check_verdict(counter, what, trace, wanted):
    """Compares the verdicts of the program and of the second reading with the one that is wanted."""
    counter.compare(f"{what}, by the program", by_program(trace), wanted)
    counter.compare(f"{what}, by the second reading", by_second(trace), wanted)


def check_logs(counter):
    """Each log of the page becomes the trace beside it, whose verdict the page states."""
    stated = dict(re.findall(r"^\| \[([\w.-]+\.csv)\]\(logs/[\w.-]+\) \| `(.*?)` \|", (TRACES / "LOGS.md").read_text(), re.M))
    files = sorted((TRACES / "logs").glob("*.csv"))
    counter.compare("the logs of LOGS.md", sorted(stated), [file.name for file in files])
    for file in files:
        made = run(FROM_CSV, f"{OPTIONS.get(file.name, '')} {file}", "")
        counter.compare(file.name, (made.returncode, made.stdout), (0, file.with_suffix(".trace").read_text()))
        check_verdict(counter, file.name, made.stdout, stated.get(file.name))


def reported(script, text):
    """Returns how a script ends that reports a text."""
    return 1, "", f"{script.name}: {text}\n"


def ended(made):
    return made.returncode, made.stdout, made.stderr


def check_short_logs(counter):
    """Each short log has its trace, which is no faulty file, or its message, or its entries, or its notes."""
    for log in logs.TRACES:
        made = run(FROM_CSV, f"{log.options} -", log.text)
        counter.compare(f"the log {log.text!r}", (made.returncode, made.stdout), (0, log.wanted))
        counter.count(by_program(log.wanted), f"the program reports a fault in {log.wanted!r}")
    for log in logs.MISTAKES:
        made = run(FROM_CSV, f"{log.options} -", log.text)
        counter.compare(f"the log {log.text!r} {log.options}", ended(made), reported(FROM_CSV, log.wanted))
    for log in logs.ENTRIES:
        made = run(FROM_CSV, f"{log.options} -", log.text)
        counter.compare(f"the log {log.text!r} {log.options}", ended(made), (0, log.wanted, ""))
    counter.compare("from_csv.py without a reader", unread(TRACES, [FROM_CSV, "--entry", "0", "-"], logs.ENTRIES[0].text), "")
    for log in logs.NOTES:
        noted = run(FROM_CSV, "-", log.text).stderr
        counter.compare(f"notes on {log.text!r}", noted, "".join(f"from_csv.py: note: {line}\n" for line in log.wanted.splitlines()))


def laws_of(page):
    """Returns the laws that the page names for the runs of each recorded lock."""
    rows = re.findall(r"^\| `([\w-]+)` \| ((?:all are good|some are).*) \|$", page, re.M)
    return [(name, tuple(re.findall(r"`bad … (\w+)`", told))) for name, told in rows]


def compiled(counter, folder):
    """Returns the compiled recorder, or None."""
    if shutil.which("cc") is None:
        counter.count(False, "no C compiler: `cc` is not on the path, and no run can be recorded without it")
        return None
    recorder = folder / "recorder"
    words = ["cc", "-O2", "-Wall", "-Werror", "-pthread", *SOURCES, "-o", recorder]
    made = subprocess.run(words, capture_output=True, text=True)
    counter.compare("the compiler", ended(made), (0, "", ""))
    return recorder if made.returncode == 0 else None


def recorded(recorder, *words):
    """Returns the traces of the runs of a lock."""
    one = lambda seed: subprocess.run([recorder, *map(str, words), str(seed)], capture_output=True, text=True, check=True).stdout
    with ThreadPoolExecutor(CORES) as pool:
        return [*pool.map(one, range(RUNS))]


def check_lock(counter, recorder, lock, threads, calls, laws):
    """Each recorded run has a verdict that its lock permits, and a whole run has all its calls."""
    found = []
    for number, trace in enumerate(recorded(recorder, lock, threads, calls)):
        verdict, lines = by_program(trace), trace.count("\n")
        found.append(verdict.split()[-1] if verdict.startswith("bad ") else "good")
        wanted = verdict.startswith("good ") or found[-1] in laws
        counter.count(wanted, f"{lock}: {verdict!r}\n{trace[:2000]}")
        counter.count(trace.count(": enter\n") == threads * calls or lines > MOST_ENTRIES, f"{lock}: a call is missing\n{trace[:2000]}")
        if number < MOST_SECOND and lines <= MOST_LINES:
            counter.compare(f"{lock}, by the second reading", by_second(trace), verdict)
    counter.count(not laws or laws[0] in found, f"{lock}: none of {RUNS} runs breaks the law `{laws[:1]}`")
    print(f"{lock}: {RUNS - found.count('good')} of {RUNS} recorded runs are bad", flush=True)


def check_locks(counter):
    wanted = [(lock, laws) for lock, _, _, laws in LOCKS]
    counter.compare("the recorded locks of LOGS.md", laws_of((TRACES / "LOGS.md").read_text()), wanted)
    with tempfile.TemporaryDirectory() as name:
        recorder = compiled(counter, pathlib.Path(name))
        for row in LOCKS if recorder else []:
            check_lock(counter, recorder, *row)


def check_trails(counter):
    """Each trail of SPIN becomes the trace beside it."""
    files = sorted((SPIN / "trails").glob("*.txt"))
    counter.compare("the trails", [file.stem for file in files], sorted(TRAILS))
    for file in files:
        made = run(TO_TRACE, "", file.read_text())
        counter.compare(file.name, ended(made), (0, file.with_suffix(".trace").read_text(), ""))
        check_verdict(counter, file.name, made.stdout, TRAILS[file.stem])
    text, wanted = logs.TRAIL
    counter.compare(f"the trail {text!r}", ended(run(TO_TRACE, "", text)), (0, wanted, ""))
    counter.compare("to_trace.py without a reader", unread(SPIN, [TO_TRACE], text), "")
    for text, wanted in logs.TRAIL_MISTAKES:
        counter.compare(f"the trail {text!r}", ended(run(TO_TRACE, "", text)), reported(TO_TRACE, wanted))


def main():
    counter = Counter()
    check_logs(counter)
    check_short_logs(counter)
    check_trails(counter)
    check_locks(counter)
    counter.end()


main()
