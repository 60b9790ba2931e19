"""Plays the kinds of a soak by workers, each for its share of the time, and keeps what differs."""

import contextlib
import gc
import multiprocessing
import queue
import signal
import time
import traceback
from typing import NamedTuple

from lib.checks import Difference
from lib.drawn_files import KINDS
from lib.drawn_plays import plays
from lib.running import runner
from lib.shrinking import shrunk
from lib.soak_state import Found, Total, keep, table, write_state

# a worker plays numbers of a part for so long and then returns the rest; and has so many parts to come, so that it never waits
PART_SECONDS, MOST_PARTS = 1.0, 2
NUMBERS = 200
SAVED_EACH, TOLD_EACH, WAITS = 5, 600, 0.5
# for so long the soak waits at its end for parts that are still played
MOST_WAITED = 900
# so many files that differ are made shorter by one part
MOST_SHRUNK = 3
# a worker looks for garbage after so many new objects
MOST_NEW_OBJECTS = 100_000


class Played(NamedTuple):
    """A part that was played: its total, and what differed."""

    part: object
    total: Total
    found: list


class Plays:
    """What a worker plays: the files, the other kinds in a folder, and which are left out."""

    def __init__(self, folder, kinds):
        others, out = plays(folder)
        self.others = {kind: play for kind, (play, _) in others.items()}
        shares = {kind: share for kind, (*_, share) in [*KINDS.items(), *others.items()]}
        self.shares = {kind: share for kind, share in shares.items() if not kinds or kind in kinds}
        self.left_out = {kind: why for kind, why in out.items() if not kinds or kind in kinds}

    def number(self, kind, number, is_shrunk=True):
        """Plays a number of a kind: its total without the time, and what differs."""
        if kind in self.others:
            played = self.others[kind](number)
            wrong = [Found(kind, number, label, text, text, *[Difference(str(why), "")] * 2) for label, text, why in played.wrong]
            return Total(1, 1, played.tries, len(wrong)), wrong
        file, checks, _ = KINDS[kind]
        text, total, found = file(number), Total(1), []
        if text is None:
            return total, found
        total.files = 1
        for check in checks(number, text):
            total.tries += check.tries
            difference = check.differs(text)
            if difference:
                total.differ += 1
                shorter = shrunk(text, check.differs) if is_shrunk else text
                found.append(Found(kind, number, check.label, text, shorter, difference, check.differs(shorter) or difference))
        return total, found

    def number_or_error(self, kind, number, is_shrunk):
        """The same; an error of a Python program counts as a difference, so that the others are still played."""
        try:
            return self.number(kind, number, is_shrunk)
        except Exception:
            told = Difference(traceback.format_exc(), "no error")
            return Total(1, differ=1), [Found(kind, number, "a Python program fails", b"", b"", told, told)]

    def part(self, part):
        """Plays a part as far as the time suffices."""
        total, found, begun = Total(), [], time.monotonic()
        for number in range(part.first, part.first + part.count):
            if time.monotonic() > begun + PART_SECONDS:
                break
            more, others = self.number_or_error(part.kind, number, len(found) < MOST_SHRUNK)
            total.add(more)
            found += others
        total.seconds = time.monotonic() - begun
        return Played(part, total, found)


PLAYS = None


def play_part(part):
    """Plays a part in a worker, which has the kinds of its parent."""
    return PLAYS.part(part)


def begin_worker():
    """A worker ends when the soak ends it, and not by the Ctrl-C that its terminal sends to all. It looks for garbage seldom, and not
    among what it has from its parent."""
    signal.signal(signal.SIGINT, signal.SIG_IGN)
    signal.signal(signal.SIGTERM, signal.SIG_DFL)
    runner.cache_clear()
    gc.freeze()
    gc.set_threshold(MOST_NEW_OBJECTS)


class Soak:
    """A soak: what is played, its state and its folder, and the totals of this run."""

    def __init__(self, plays, state, folder, jobs):
        self.plays, self.state, self.folder, self.jobs = plays, state, folder, jobs
        self.now, self.coming, self.ended = {kind: Total() for kind in plays.shares}, 0, queue.SimpleQueue()
        self.running, self.is_stopped = dict.fromkeys(plays.shares, 0), False

    def next_part(self):
        """A part of the kind that has had the least of its share, those that are running included."""
        spent = lambda kind: (self.now[kind].seconds + self.running[kind] * PART_SECONDS) / self.plays.shares[kind]
        kind = min(self.plays.shares, key=spent)
        self.running[kind] += 1
        return self.state.part(kind, NUMBERS)

    def take(self, played):
        """Takes what a worker has played; an error of the worker ends the soak."""
        if isinstance(played, BaseException):
            raise played
        self.coming -= 1
        self.running[played.part.kind] -= 1
        self.now[played.part.kind].add(played.total)
        self.state.finish(played.part, played.total)
        for found in played.found:
            print(f"{found.kind}:{found.number} differs, {found.label}: {keep(self.folder, found)}", flush=True)

    def tell(self):
        print("\n".join(table(self.state.totals)), flush=True)

    def stop(self, *_):
        self.is_stopped = True

    def begin_parts(self, pool):
        """Gives the workers parts, so that none waits."""
        while self.coming < MOST_PARTS * self.jobs:
            self.coming += 1
            pool.apply_async(play_part, [self.next_part()], callback=self.ended.put, error_callback=self.ended.put)

    def take_next(self):
        """Takes a part that has been played, if one is soon."""
        with contextlib.suppress(queue.Empty):
            self.take(self.ended.get(timeout=WAITS))

    def play(self, until):
        """Plays until this time, or until it is stopped. What was begun then is begun anew by the next soak."""
        with multiprocessing.get_context("fork").Pool(self.jobs, begin_worker) as pool:
            signal.signal(signal.SIGTERM, self.stop)
            signal.signal(signal.SIGINT, self.stop)
            saved = told = time.monotonic()
            while not self.is_stopped and time.monotonic() < until + (MOST_WAITED if self.coming else 0):
                if time.monotonic() < until:
                    self.begin_parts(pool)
                self.take_next()
                if time.monotonic() > saved + SAVED_EACH:
                    write_state(self.folder, self.state)
                    saved = time.monotonic()
                if time.monotonic() > told + TOLD_EACH:
                    self.tell()
                    told = time.monotonic()
            write_state(self.folder, self.state)
            pool.terminate()


def soak(plays, state, folder, jobs, hours):
    """Plays for so many hours; whether nothing differed in all that the folder has of this program."""
    global PLAYS
    PLAYS = plays
    whole = Soak(plays, state, folder, jobs)
    whole.play(time.monotonic() + 3600 * hours)
    whole.tell()
    return not any(total.differ for total in state.totals.values())
