#!/usr/bin/env python3
"""Runs scenarios and judges records a second time, and compares.

`second/runs.py` runs each scenario of the worked examples, and what `bakerystore` prints for it by `replay` and by `record` must
be the same; so must what is found in its record by `bakerystore judge` and by the judge that `second/judge.py` has. Then both
judges hear records that differ from one of a run by one change. An access is given another value, move, owner, register, bit or
reader, or is taken away; an entry is given to another process, left out, doubled, or exchanged with the next one; a mark is left
out, doubled, exchanged with the next one, or made another; a mark is added; an event that is no step is put before an entry; a
word of a mark is another. The others are also ones that are never there. And some verdicts are told here: on records in which one
entry is changed, and on one of as many calls as a process makes in version 2, and one more.

tests/gate/changed_records.py [all]: all changes of the runs below, by hand; else so many of each kind, drawn by a fixed number. The
program is the one that `rt run` leaves in crates/bakerystore.
"""

import collections
import functools
import pathlib
import random
import sys

sys.path.insert(0, str(pathlib.Path(__file__).resolve().parents[1]))

from lib.counting import Counter
from lib.places import WORKED
from lib.running import runner, workers
from second.judge import Judge, entry_of, judged
from second.programs import Setup, Spent
from second.runs import texts_of
from second.scenario_files import Fault, read_scenario

# runs whose entries are changed, and how many lie between two that are: of those with marks none is passed over. An event is
# put before each entry, where none is passed over
RUNS = {
    "one-process-write": 1,
    "tickets-full": 1,
    "withdrawal": 1,
    "tie-of-tickets": 1,
    "flickering-ticket": 1,
    "one-process-wander": 1,
    "other-refusals": 1,
    "restart-of-failed-process": 1,
    "ask-after-taken-cut-call": 1,
    "ask-after-lost-cut-call": 1,
    "failure-commit-settled-new": 5,
    "failure-commit-settled-old": 5,
    "failure-within-image": 5,
    "greatest-stamp": 5,
    "one-process-write-and-read": 7,
    "slow-read-of-choosing": 3,
    "two-processes-wander": 61,
    "ask-in-turns": 101,
    "one-thread-store-with-go": 101,
    "sixteen-processes-read": 101,
}
# and scenarios of this page
SCENARIOS = {
    "a failure while the ticket is written": (
        "bakery 1\ntickets 1\nstamps 1\ncall 0 read a\nstep 0 7\nfail 0\ngo 0 down\nrestart 0\n",
        1,
    ),
    "a failure while the commit bit is written": (
        "bakery 2\nprocesses 2\ntickets 2\nstamps 1\nopen a c:5\ncall 0 add a 1\nstep 0 1335\ncall 1 read a\nstep 1 3\nfail 0\n"
        "flick 1\ngo 0 down\nrestart 0\ngo 1 idle\ncall 0 ask\ngo 0 idle\n",
        11,
    ),
    "a tie, a withdrawal and a full ticket": (
        "bakery 1\nprocesses 2\ntickets 1\nstamps 2\ncall 0 write a t:x\ncall 1 cas a t:x c:1\nflick pcg 7\nwander 60\n"
        "go 0 wait\nwithdraw 1\nwithdraw 0\ngo 1 idle\ncall 1 read b\ngo 0 idle\ngo 1 idle\n",
        13,
    ),
}
# a worked scenario, the number of an entry of its record, what stands there and what in its place, and the verdict
TAMPERED = [
    ("tickets-full", 21, "1 0.ticket.0.1 value 1", "1 0.ticket.0.1 value 0", "bad 21 safe"),
    ("one-process-write", 756, "0 0.commit.0.0 end : taken 0 done", "0 0.commit.0.0 end : taken 1 done", "bad 756 history"),
    ("one-process-write", 756, "0 0.commit.0.0 end : taken 0 done", "0 : taken 0 done", "bad 756 program"),
    ("one-process-write", 760, "0 0.ticket.1.0 end : answer done", "0 0.ticket.1.0 end : answer no-name", "bad 760 program"),
    ("tie-of-tickets", 30, "1 1.ticket.0.0 write 1", "1 1.ticket.0.0 write 1 : enter", "bad 30 program"),
    # (stamp 2 is written, from its least significant bit on)
    ("failure-within-image", 2005, "0 0.stamp0.0.0 write 0", "0 0.stamp0.0.0 write 1", "bad 2005 program"),
    ("failure-within-image", 2007, "0 0.stamp0.1.0 write 1", "0 0.stamp0.1.0 write 0", "bad 2007 program"),
]
# a call of a lone process with tickets of one bit, which fails before its first access, and starts again
CUT_CALL = ["0 : call ask", "0 : fail", "0 0.ticket.0.0 write 0", "0 0.ticket.0.0 end", "0 0.choosing.0.0 write 0"]
CUT_CALL += ["0 0.choosing.0.0 end : down", "0 : restart"]
# a version, how many such calls there are before one that goes on, and the verdict
CALLS = [(2, 65_534, "good 458739"), (2, 65_535, "bad 458745 program"), (1, 65_535, "good 458746")]
# of so many changes of each kind of each run the verdicts are compared, if not of all
DRAWN = 30
# what must be found somewhere; of runs it is proved that `together` and `overtaken` are never the first law broken
FOUND = {"good", "safe", "program", "unit", "history"}
# a change of each kind must be tried
KINDS = ["value", "move", "owner", "reader", "bit", "field", "no access", "process", "word", "mark left out", "mark doubled"]
KINDS += ["marks exchanged", "another mark", "one more mark", "event", "left out", "doubled", "exchanged"]

MOVES = ["write 0", "write 1", "end", "read", "value 0", "value 1", "settle 0", "settle 1"]
FIELDS = ["choosing", "ticket", "commit", "stamp0", "stamp1", "image0", "image1"]
REPLIES = ["done", "swapped", "no-name", "not-counter", "overflow", "store-full"]
EVENTS = ["call ask", "fail", "withdraw", "restart"]
MARKS = [
    *["call read a", "call add a 1", "call ask", "wait 0", "wait 1", "wait 2", "enter", "leave", "down", "settled 0"],
    "settled 1",
    *["taken 0 done", "taken 1 done", f"taken {2**64 - 1} done", "taken 0 no-name", "taken 1 no-name"],
    *["answer done", "answer no-name", "answer tickets-full 0", "answer stamps-full", "answer withdrawn"],
    *["fail", "withdraw", "restart"],
]
# a line has at most so many marks
MOST_MARKS = 3


def others(process):
    """A process that may be there, and two that never are."""
    return [process ^ 1, 16, 255]


def other_accesses(access):
    owner, field, bit, reader, move = access
    for other in MOVES:
        if other != move:
            yield "value" if other[:-1] == move[:-1] else "move", (owner, field, bit, reader, other)
    for other in others(owner):
        yield "owner", (other, field, bit, reader, move)
    for other in others(reader):
        yield "reader", (owner, field, bit, other, move)
    for other in (bit ^ 1, bit ^ 8, 65_535):
        yield "bit", (owner, field, other, reader, move)
    for other in FIELDS:
        if other != field:
            yield "field", (owner, other, bit, reader, move)
    yield "no access", None


def other_words(mark):
    """A mark in which one word is another, so that it is still a mark."""
    words = mark.split(" ")
    for at, word in enumerate(words[1:], 1):
        if word.isdigit():
            other = str(1 - int(word)) if words[0] == "settled" else str(int(word) + 1)
        elif word in REPLIES:
            other = REPLIES[(REPLIES.index(word) + 1) % len(REPLIES)]
        elif word.startswith("c:"):
            # (one that is in range too, at both ends)
            other = f"c:{int(word[2:]) ^ 1}"
        elif word.startswith("t:"):
            other = word + "y"
        elif words[at - 1] in ("read", "write", "add", "cas"):
            other = word + "x"
        else:
            continue
        yield " ".join([*words[:at], other, *words[at + 1 :]])


def other_marks(marks):
    for at, mark in enumerate(marks):
        before, behind = marks[:at], marks[at + 1 :]
        yield "mark left out", before + behind
        yield "mark doubled", [*before, mark, mark, *behind]
        if behind:
            yield "marks exchanged", [*before, behind[0], mark, *behind[1:]]
        for other in MARKS:
            if other != mark:
                yield "another mark", [*before, other, *behind]
        for other in other_words(mark):
            yield "word", [*before, other, *behind]
    for other in MARKS:
        yield "one more mark", [*marks, other]


def line_of(process, access, marks):
    place = [] if access is None else [".".join(map(str, access[:4])), access[4]]
    return " : ".join([" ".join([str(process), *place]), *marks])


def changed_lines(line):
    """Other lines that may stand in place of this one, each with what was done."""
    process, access, marks = entry_of(line)
    if access:
        for kind, other in other_accesses(access):
            yield kind, line_of(process, other, marks)
    for other in others(process):
        yield "process", line_of(other, access, marks)
    for kind, other in other_marks(marks):
        if len(other) <= MOST_MARKS:
            yield kind, line_of(process, access, other)


def changed_records(lines, at, with_events):
    """What stands at a line in place of it and of the next one, each with what was done."""
    line, behind = lines[at], lines[at + 1 : at + 2]
    for kind, other in changed_lines(line):
        yield kind, [other, *behind]
    yield "left out", behind
    yield "doubled", [line, line, *behind]
    if behind:
        yield "exchanged", [*behind, line]
    if with_events:
        for process in (0, 1, 16):
            for event in EVENTS:
                yield "event", [f"{process} : {event}", line, *behind]


class Record:
    """The record of a run: the lines of its setup, and those of its entries."""

    def __init__(self, text):
        lines = text.splitlines()
        self.head = [line for line in lines if not line[0].isdigit()]
        self.lines = lines[len(self.head) :]
        self.setup = Setup(self.head)

    def changed(self, at, others):
        """The lines in which others stand at one of them and the next one."""
        return self.lines[:at] + others + self.lines[at + 2 :]

    def told(self, lines):
        """What the program's judge says of these entries."""
        ran = runner().run(["judge", "-"], "".join(f"{line}\n" for line in self.head + lines).encode())
        return ran.status, ran.output.decode(), ran.errors.decode()


def wanted(verdict):
    return 0 if verdict.startswith("good") else 3, verdict, ""


class Hearing:
    """A second judge who hears a record, and is asked what is wrong with other lines in place of the next one."""

    def __init__(self, record):
        self.record = record
        self.judge, self.heard = Judge(record.setup), 0

    def law_at(self, at, line):
        """The law that a line breaks in place of an entry, if it breaks one; the entries are asked for in ascending order."""
        try:
            return self.law_behind(at, line)
        except Spent:
            self.judge, self.heard = Judge(self.record.setup), 0
            return self.law_behind(at, line)

    def law_behind(self, at, line):
        while self.heard < at:
            self.judge.hear(self.heard, *entry_of(self.record.lines[self.heard]))
            self.heard += 1
        return self.judge.law_of(*entry_of(line))


def compare_some(record, jobs):
    """What both judges say of some changes, in the order of their lines: how often each verdict was found, of which kinds the
    changes were, and where the judges differ."""
    hearing, wrong, found = Hearing(record), [], collections.Counter()
    for kind, at, others in jobs:
        lines = record.changed(at, others)
        law = hearing.law_at(at, lines[at]) if at < len(lines) else None
        verdict = f"bad {at} {law}\n" if law else judged(record.setup, lines)
        # what comes behind a bad entry is not heard
        bad = verdict.split() if verdict.startswith("bad") else None
        told = record.told(lines[: int(bad[1]) + 1] if bad else lines)
        found["kind", kind] += 1
        found["verdict", bad[2] if bad else "good"] += 1
        if told != wanted(verdict):
            wrong.append(f"{kind} at {at}, now {others}: {told}, and the second judge says {verdict}")
    return found, wrong


def drawn(jobs, most):
    """So many changes of each kind, in their order."""
    places = collections.defaultdict(list)
    for place, (kind, *_) in enumerate(jobs):
        places[kind].append(place)
    draws = random.Random(1)
    return [jobs[place] for place in sorted(sum((draws.sample(at, min(most, len(at))) for at in places.values()), []))]


def compare_changes(pool, name, record, every, most):
    """Compares the verdicts on the changes of a run's record."""
    at = [at for at, line in enumerate(record.lines) if at % every == 0 or ":" in line]
    jobs = [(kind, at, others) for at in at for kind, others in changed_records(record.lines, at, every == 1)]
    if most is not None:
        jobs = drawn(jobs, most)
    found, wrong = collections.Counter(), []
    parts = [jobs[at : at + 50] for at in range(0, len(jobs), 50)]
    for more, others in pool.imap_unordered(functools.partial(compare_some, record), parts):
        found += more
        wrong += others
    verdicts = {what: count for (of, what), count in sorted(found.items()) if of == "verdict"}
    told = ", ".join(f"{what} {count:,}" for what, count in verdicts.items())
    print(f"{name}: {len(record.lines):,} entries, {len(jobs):,} changes: {told}", flush=True)
    for why in wrong[:20]:
        print(f"{name}, {why}")
    return found, len(jobs), len(wrong)


def compare_run(folder):
    """Compares both runs of a worked scenario, and both verdicts on its record; what is wrong, if anything is."""
    file = (folder / "scenario").read_bytes()
    try:
        replay, text = texts_of(read_scenario(file))
    except Fault:
        return None
    record = Record(text.decode())
    good = f"good {len(record.lines)}\n"
    tries = {
        "replay": runner().run(["replay", "-"], file) == (0, replay, b""),
        "record": runner().run(["record", "-"], file) == (0, text, b""),
        "the second judge": judged(record.setup, record.lines) == good,
        "judge": record.told(record.lines) == wanted(good),
    }
    return folder.name, [what for what, is_alike in tries.items() if not is_alike]


def record_of(file):
    """The record that the program writes of a scenario."""
    return Record(runner().run(["record", "-"], file).output.decode())


def compare_tampered(told):
    """Compares both verdicts on a record in which one entry is changed with the one that is told; what is wrong."""
    name, at, old, new, verdict = told
    record = record_of((WORKED / name / "scenario").read_bytes())
    lines = record.changed(at, [new, *record.lines[at + 1 : at + 2]])
    is_alike = record.lines[at] == old and record.told(lines) == wanted(f"{verdict}\n") == wanted(judged(record.setup, lines))
    return None if is_alike else f"{name}, {new} at {at}"


def compare_calls(is_judged_twice, told):
    """The same of a record of many calls."""
    version, calls, verdict = told
    record = Record("\n".join([f"record {version}", "processes 1", "tickets 1", "stamps 1", *CUT_CALL * calls, CUT_CALL[0]]))
    is_alike = record.told(record.lines) == wanted(f"{verdict}\n")
    if is_judged_twice:
        is_alike = is_alike and judged(record.setup, record.lines) == f"{verdict}\n"
    return None if is_alike else f"{calls} calls in version {version}"


def main():
    most = None if sys.argv[1:] == ["all"] else DRAWN
    counter, found = Counter(), collections.Counter()
    with workers() as pool:
        compared = list(filter(None, pool.map(compare_run, sorted(path.parent for path in WORKED.glob("*/scenario")))))
        for name, others in compared:
            counter.add(4 - len(others), 0)
            for what in others:
                counter.count(False, f"{name}, otherwise by {what}")
        print(f"{len(compared)} scenarios run and judged a second time", flush=True)
        for what in [*pool.map(compare_tampered, TAMPERED), *pool.map(functools.partial(compare_calls, most is None), CALLS)]:
            counter.count(what is None, f"otherwise than it is told here: {what}")
        runs = [(name, (WORKED / name / "scenario").read_bytes(), every) for name, every in RUNS.items()]
        runs += [(name, text.encode(), every) for name, (text, every) in SCENARIOS.items()]
        for name, file, every in runs:
            more, tried, wrong = compare_changes(pool, name, record_of(file), every, most)
            counter.add(tried - wrong, wrong)
            found += more
    for of, what in [*(("verdict", what) for what in sorted(FOUND)), *(("kind", what) for what in KINDS)]:
        counter.count(found[of, what], f"no change has this {of}: {what}")
    counter.end()


if __name__ == "__main__":
    main()
