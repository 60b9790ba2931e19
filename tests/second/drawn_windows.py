"""A second reading of the windows of pictures: of a file's entries, what a picture with `--from` and `--to` must show.

docs/PICTURE.md explains what it computes. It shares no code with the program that it is held against. The entries may break any law.
A story is what a file contains, whether it is a run, a record or a trace; it ends with the last entry that is drawn.
"""

import functools
from typing import Callable, NamedTuple

from second import drawn_accesses, drawn_record_accesses
from second.programs import Setup
from second.store import Call

GREATEST = 2**64 - 1
# the most entries of a file or of a window that shows accesses without being asked to
MOST_ENTRIES = 400
# the most characters of the words that begin a history, and the most processes that a bar names
MOST_OPENING, MOST_NAMED = 44, 3
# the most overlapped reads between two lines that have a column
MOST_READS = 3


class Window(NamedTuple):
    """The entries that a picture shows, from the first to the last, both included."""

    first: int = 0
    last: int = GREATEST

    def options(self):
        """The options that ask for it; what is left out shows all."""
        begin = ["--from", str(self.first)] if self.first else []
        return begin + (["--to", str(self.last)] if self.last != GREATEST else [])

    def shows_entry(self, number):
        return self.first <= number <= self.last

    def shows_end(self, count):
        """Whether what comes after all entries is shown, where there are this many."""
        return max(count - 1, 0) <= self.last

    def shows_after(self, count):
        """Whether a line between two entries is shown, which comes after this many entries."""
        return self.first <= count and self.shows_end(count)

    def is_short(self):
        return 0 <= self.last - self.first < MOST_ENTRIES


class Line(NamedTuple):
    """A line of a picture: the number of entries before it, or before the entry whose mark it is; and whether it is a mark."""

    at: int
    text: str
    is_mark: bool = True

    def is_shown(self, window):
        return window.shows_entry(self.at) if self.is_mark else window.shows_after(self.at)


class Story(NamedTuple):
    """What is drawn of a file: how many processes and entries, the lines, the verdict's lines, the last line, the accesses that its
    entries show, and the words of the store before an entry."""

    processes: int
    count: int
    lines: list
    told: list
    end: str
    accesses: Callable
    store_before: Callable
    # the record of a run or of a record, which has a store
    record: list | None
    # a run shows accesses only if it is asked to
    is_run: bool = False

    @property
    def has_store(self):
        return self.record is not None

    def shows_accesses(self, window, options):
        """Whether a picture with these options shows all accesses."""
        is_short = self.count <= MOST_ENTRIES or window.is_short()
        return "--accesses" in options or is_short and not self.is_run


def lines_shown(story, window):
    """The lines of a window. The verdict and the last line come after the last entry."""
    shown = [line.text for line in story.lines if line.is_shown(window)]
    last = [*(f"judge {line}" for line in story.told), story.end]
    return shown + (last if window.shows_end(story.count) else [])


def lines_before(story, window):
    """The lines before a window, which decide what is at its left edge."""
    return [line.text for line in story.lines if line.at < window.first and not line.is_shown(window)]


def opening_words(story, window):
    """The words that begin the history of a window: the store as it is before the first entry, or None if it is empty."""
    words = story.store_before(window.first)
    told = " ".join(["opens with", *words])
    if not words:
        return None
    return told if len(told) <= MOST_OPENING else f"{told[: MOST_OPENING - 1]}…"


def reads_shown(story, window, ends):
    """The overlapped reads that have a column, by the entries that end them: the first three of those between two lines of a window."""
    shown, between = [], {}
    for end in filter(window.shows_entry, ends):
        before = sum(line.is_shown(window) and line.at + line.is_mark <= end for line in story.lines)
        between[before] = between.get(before, 0) + 1
        shown += [end] if between[before] <= MOST_READS else []
    return shown


def columns_shown(story, window, entries):
    """What has a column in a window besides these entries, in order: the number before which it comes."""
    lines = [line.at for line in story.lines if line.is_shown(window)]
    own = [entry for entry in entries if window.shows_entry(entry)]
    return sorted({*lines, *own, *([story.count] if window.shows_end(story.count) and not story.told else [])})


def gaps_shown(window, columns):
    """The numbers on the axis: how many entries lie between two columns, unless they follow one another."""
    steps = [at - before for before, at in zip([window.first, *columns], columns)]
    return [str(step) for step in steps if step > 1]


def waiting_words(lines, process):
    """The words in the bar of a process that waits after these lines: which processes are served before it, or which are choosing since
    before it got in line. A ticket 0 is none, and its process comes after all that have one."""
    tickets, doorways, waits = {}, {}, {}
    for number, line in enumerate(lines):
        _, other, mark, *rest = line.split()
        if mark not in ("taken", "settled"):
            doorways.pop(other, None)
        if mark in ("wait", "leave", "answer", "down"):
            tickets.pop(other, None)
        if mark == "call":
            doorways[other] = number
        elif mark == "wait":
            waits[other] = number
            tickets |= {other: int(rest[0])} if rest and rest[0] != "0" else {}
    own = str(process)
    line = sorted((ticket, int(other)) for other, ticket in tickets.items())
    ahead = [other for ticket, other in line if own not in tickets or (ticket, other) < (tickets[own], process)]
    choosing = sorted(int(other) for other, began in doorways.items() if began < waits[own])
    if ahead:
        return f"behind {named(ahead)}"
    return f"{named(choosing)} choosing" if choosing else "waiting"


def named(processes):
    """Some processes by their numbers; of more than three only how many they are."""
    return ",".join(map(str, processes)) if len(processes) <= MOST_NAMED else f"{len(processes)} others"


def opened_before(accesses, window):
    """The accesses that are open at the left edge of a window, by their processes, of all accesses of a file."""
    opened = {}
    for access in accesses:
        if access.event >= window.first:
            break
        opened.pop(access.process, None)
        if access.step == "begin":
            opened[access.process] = access
    return opened


def with_waves(story, window, limit):
    """All accesses of a file, with the waves that a picture of a window has: of the cells that an entry from its first one on changes, in
    the order of these entries, the first so many, or all if `limit` is None. In a trace the end of a write that is not open changes none."""
    rows, written = {}, {}
    for access in story.accesses():
        change, cell = access.change, access.cell
        if change and access.event >= window.first and (story.has_store or access.step != "end" or written.get(cell)):
            rows.setdefault(cell, len(rows))
        if change:
            has_wave = cell in rows and (limit is None or rows[cell] < limit)
            shown = change._replace(row=rows[cell], was_open=written.get(cell, False)) if has_wave else None
            access, written[cell] = access._replace(change=shown), change.is_open
        yield access


# The stories.


def lines_of_run(run):
    """The lines of a run but the last one."""
    for place, text in enumerate(run.text[:-1]):
        is_mark = place not in run.after
        yield Line(int(text.split()[0]) if is_mark else run.after[place], text, is_mark)


def entry_parts(line):
    """The process of an entry of a record, and its marks."""
    place, *marks = line.split(" : ")
    return int(place.split()[0]), marks


def pairs_before(head, lines, first):
    """The pairs of the store before an entry: after the commands that were taken, each that of the last call of its process."""
    setup = Setup(head)
    store, calls = setup.opening, {}
    for line in lines[:first]:
        process, marks = entry_parts(line)
        for word, *words in map(str.split, marks):
            if word == "call":
                number = len(calls.get(process, [])) + 1 if setup.version == 2 else 0
                calls.setdefault(process, []).append(Call(process, number, None, words, None))
            elif word == "taken" and process < setup.processes and process in calls:
                store, _ = store.after(calls[process][-1])
    return [f"{name}={value}" for name, value in store.pairs.items()]


def marks_of(lines):
    for number, line in enumerate(lines):
        process, marks = entry_parts(line)
        yield from (Line(number, f"{number} {process} {mark}") for mark in marks)


def drawn_count(count, told):
    """The number of entries that are drawn of so many, if a judge tells these lines: a bad entry is the last one."""
    return int(told[0].split()[1]) + 1 if told and told[0].startswith("bad ") else count


def accesses_of_record(head, lines):
    return functools.cache(lambda: list(drawn_record_accesses.shown_accesses(head, lines, None)))


def story_of_record(read, told=()):
    """The story of a record: its headings and its lines are read."""
    head, lines = read[0], read[1][: drawn_count(len(read[1]), told)]
    marks = list(marks_of(lines))
    taken = sum(" taken " in line.text for line in marks)
    end = f"end events {len(lines)} taken {taken} refused 0"
    before = lambda first: pairs_before(head, lines, first)
    return Story(Setup(head).processes, len(lines), marks, list(told), end, accesses_of_record(head, lines), before, [*head, *lines])


def story_of_run(run):
    """The story of a run."""
    lines = [line for line in run.record if line[0].isdigit()]
    head = run.record[: len(run.record) - len(lines)]
    before = lambda first: pairs_before(head, lines, first)
    marks, end = list(lines_of_run(run)), run.text[-1]
    return Story(Setup(head).processes, run.events, marks, [], end, accesses_of_record(head, lines), before, run.record, True)


def story_of_trace(read, told=()):
    """The story of a trace, which is read. It has no store."""
    entries = read.entries[: drawn_count(len(read.entries), told)]
    marks = [Line(entry.number, f"{entry.number} {entry.process} {mark}") for entry in entries for mark in entry.marks]

    @functools.cache
    def accesses():
        return [access for access in drawn_accesses.shown_accesses(read, None) if access.event < len(entries)]

    return Story(read.processes, len(entries), marks, list(told), f"end entries {len(entries)}", accesses, lambda first: [], None)
