"""A second reading of record files: of each text its setup and its entries, or the one fault that is told of it.

It is written from the tables of docs/RECORDS.md and the order of faults of docs/FAULTS.md alone, and shares nothing with the
programs that it is held against.
"""

import functools

from second.scenario_files import HEADINGS, MOST_BYTES, RANGES, Fault, is_number, is_skipped, lines_of, operand_fault, remembered, words_of

ORDER = ["unknown", "not-first", "words", "number", "bad-name", "bad-value", "bad-setup"]
MOST_MARKS = 3
# many records have the same entries, so the entries of this many lines are kept
MOST_LINES = 2**16
# the greatest number of each sort; the others are those of scenario files
GREATEST = {"bit": 65_535, "ticket": 2**32 - 1, "place": 2**64 - 1, "small": 255, "last": 65_535, "flag": 1}
FIELDS = [b"choosing", b"ticket", b"commit", b"stamp0", b"stamp1", b"image0", b"image1"]
# the sorts of the words behind each key word; a `dict` says what the next key word may be
MOVES = {"write": ["flag"], "end": [], "read": [], "value": ["flag"], "settle": ["flag"]}
COMMANDS = {"read": ["name"], "write": ["name", "value"], "add": ["name", "count"], "cas": ["name", "value", "value"], "ask": []}
REPLIES = {
    "value": ["value"],
    "done": [],
    "sum": ["count"],
    "swapped": [],
    "kept": ["value"],
    "no-name": [],
    "not-counter": [],
    "overflow": [],
    "store-full": [],
    "last": ["last"],
}
ANSWERS = {**REPLIES, "tickets-full": ["small"], "stamps-full": [], "withdrawn": []}
MARKS = {
    "call": [COMMANDS],
    "wait": ["ticket"],
    "enter": [],
    "taken": ["place", REPLIES],
    "leave": [],
    "answer": [ANSWERS],
    "fail": [],
    "settled": ["flag"],
    "down": [],
    "withdraw": [],
    "restart": [],
}


def word_faults(words, sorts):
    """The kinds of fault of words that should be of these sorts, of which a table stands last."""
    for at, sort in enumerate(sorts):
        if at == len(words):
            return ["words"]
        if isinstance(sort, dict):
            return plain_faults(words[:at], sorts[:at]) + key_faults(words[at:], sort)
    if len(words) != len(sorts):
        return ["words", *plain_faults(words, sorts)]
    return plain_faults(words, sorts)


def plain_faults(words, sorts):
    kinds = []
    for word, sort in zip(words, sorts):
        if sort in GREATEST:
            kinds.append(None if is_number(word, GREATEST[sort]) else "number")
        else:
            kinds.append(operand_fault(word, sort))
    return [kind for kind in kinds if kind]


def key_faults(words, table):
    """The kinds of fault of words of which the first is a key word of this table."""
    if not words:
        return ["words"]
    key = words[0].decode("latin1")
    return word_faults(words[1:], table[key]) if key in table else ["unknown"]


def bit_faults(word):
    parts = word.split(b".")
    if len(parts) != 4 or parts[1] not in FIELDS:
        return ["unknown"]
    return plain_faults([parts[0], parts[2], parts[3]], ["small", "bit", "small"])


def parts_of(words):
    """The words between the words `:`."""
    parts = [[]]
    for word in words:
        if word == b":":
            parts.append([])
        else:
            parts[-1].append(word)
    return parts


def entry_faults(words):
    """The kinds of fault of a line that is an entry."""
    (process, *access), *marks = parts_of(words)
    kinds = plain_faults([process], ["small"])
    if access:
        kinds += bit_faults(access[0]) + key_faults(access[1:], MOVES)
    for mark in marks:
        kinds += key_faults(mark, MARKS)
    return kinds + ["words"] * (len(marks) > MOST_MARKS)


@functools.lru_cache(maxsize=MOST_LINES)
def entry_in(line):
    """The kind of fault of a line that is an entry, or None, and the entry with single spaces if it has no fault; None of another
    line."""
    words = words_of(line)
    if is_skipped(words) or not words[0][:1].isdigit():
        return None
    kinds = entry_faults(words)
    return (min(kinds, key=ORDER.index), None) if kinds else (None, b" ".join(words).decode())


class Reader:
    """What is said so far, behind the first line of a record file."""

    def __init__(self, version):
        self.version = version
        self.said = {}
        self.opening = []
        self.entries = []

    def faults(self, words):
        """The kinds of fault of a line that is not an entry, of which the first in the order is told."""
        first = words[0].decode("latin1")
        if first in HEADINGS:
            late = first in self.said or self.opening or self.entries
            return ["not-first"] * bool(late) + (word_faults(words[1:], ["small"]) or self.heading_faults(first, int(words[1])))
        if first == "open" and self.version == 2:
            kinds = word_faults(words[1:], ["name", "value"]) or self.opening_faults(words[1])
            return ["not-first"] * bool(self.entries) + kinds
        return ["not-first" if first == "record" else "unknown"]

    def heading_faults(self, name, number):
        return [] if 1 <= number <= RANGES[self.version][name] else ["bad-setup"]

    def opening_faults(self, name):
        opened = [pair[0] for pair in self.opening]
        return ["bad-setup"] if name in opened or len(opened) == self.headings()["slots"] else []

    def headings(self):
        return {**HEADINGS, **self.said}

    def take(self, words):
        """Takes a line that is not an entry; the kind of its fault, or None."""
        kinds = self.faults(words)
        if kinds:
            return min(kinds, key=ORDER.index)
        first = words[0].decode()
        if first in HEADINGS:
            self.said[first] = int(words[1])
        else:
            self.opening.append((words[1], words[2]))
        return None

    def take_line(self, line):
        """Takes a line, which may be an entry or one that is skipped; the kind of its fault, or None."""
        entry = entry_in(line)
        if entry is None:
            words = words_of(line)
            return None if is_skipped(words) else self.take(words)
        kind, text = entry
        if kind is None:
            self.entries.append(text)
        return kind


@remembered
def read_record(text):
    """The lines of the setup of a record file, the first among them, and those of its entries, with single spaces; a `Fault` is
    raised where it says nothing."""
    reader, lines = None, lines_of(text)
    for number, line in enumerate(lines, 1):
        if len(line) > MOST_BYTES:
            raise Fault(number, "too-long")
        if reader is None:
            words = words_of(line)
            if is_skipped(words):
                continue
            if words not in ([b"record", b"1"], [b"record", b"2"]):
                raise Fault(number, "not-first")
            reader = Reader(int(words[1]))
        elif kind := reader.take_line(line):
            raise Fault(number, kind)
    if reader is None:
        raise Fault(len(lines) + 1, "not-first")
    head = [f"record {reader.version}", *(f"{name} {number}" for name, number in reader.headings().items())]
    pairs = [f"open {name.decode()} {value.decode()}" for name, value in reader.opening]
    return [*head, *pairs], reader.entries
