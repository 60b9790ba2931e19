"""A second reading of scenario files and of bits files: of each text, what it says, or the one fault that is told of it.

It is written from the tables of docs/FORMATS.md and the order of faults of docs/FAULTS.md alone, and shares nothing with the
programs that it is held against. A text is bytes, and so is each word.
"""

import functools
import re
from typing import NamedTuple

MOST_BYTES, MOST_LINES, MOST_SAID = 128, 4096, 4000
HEADINGS = {"processes": 2, "tickets": 4, "stamps": 4, "slots": 1}
RANGES = {
    1: {"processes": 8, "tickets": 16, "stamps": 16, "slots": 8},
    2: {"processes": 16, "tickets": 32, "stamps": 32, "slots": 8},
}
TARGETS = ["wait", "inside", "idle", "down"]
# the operands of each line behind its key words
CALLS = {"read": ["name"], "write": ["name", "value"], "add": ["name", "count"], "cas": ["name", "value", "value"], "ask": []}
FLICKS = {"0": [], "1": [], "pcg": ["seed"]}
PROCESS_LINES = ["fail", "withdraw", "restart"]
GREATEST = {"small": 255, "turns": 100_000, "seed": 2**64 - 1}
KINDS = {"name": "bad-name", "value": "bad-value"}
NAME = re.compile(rb"[a-z0-9_]{1,8}")
NUMBER = re.compile(rb"0|[1-9][0-9]*")
TEXT = re.compile(rb"[\x21-\x7e]{0,12}")
WORD = re.compile(rb"[^ \t]+")
# a reading keeps the contents of this many texts
MOST_KEPT = 4


class Fault(Exception):
    """The fault of a line."""

    def __init__(self, line, kind):
        super().__init__(line, kind)
        self.line, self.kind = line, kind

    def __str__(self):
        return f"line {self.line}: {self.kind}"


def remembered(reading):
    """The same reading, which keeps the contents of the last texts, or their faults, because several commands read each text."""

    @functools.lru_cache(maxsize=MOST_KEPT)
    def outcome(text):
        try:
            return reading(text), None
        except Fault as fault:
            return None, (fault.line, fault.kind)

    @functools.wraps(reading)
    def read(text):
        said, fault = outcome(text)
        if fault:
            raise Fault(*fault)
        return said

    return read


class Scenario(NamedTuple):
    """What a scenario file says: its version, its headings, what it opens with, and the words of its other lines."""

    version: int
    headings: dict
    opening: list
    lines: list


def lines_of(text):
    """The lines of a text without their ends. The last one may lack its end."""
    *ended, last = text.replace(b"\r\n", b"\n").split(b"\n")
    return ended + ([last] if last else [])


def words_of(line):
    return WORD.findall(line)


def is_skipped(words):
    return not words or words[0].startswith(b"#")


def is_number(word, most):
    return bool(NUMBER.fullmatch(word)) and int(word) <= most


def is_count(word):
    digits = word.removeprefix(b"-")
    if not NUMBER.fullmatch(digits) or word == b"-0":
        return False
    return -(2**63) <= int(word) < 2**63


def is_value(word):
    if word.startswith(b"c:"):
        return is_count(word[2:])
    return word.startswith(b"t:") and bool(TEXT.fullmatch(word[2:]))


def operand_fault(word, sort):
    """The kind of fault of an operand of this sort, or None."""
    if sort == "name":
        good = NAME.fullmatch(word)
    elif sort == "value":
        good = is_value(word)
    elif sort == "count":
        good = is_count(word)
    else:
        good = is_number(word, GREATEST[sort])
    return None if good else KINDS.get(sort, "number")


def told_lines(text):
    """The lines that are not skipped, with their numbers and words; and then the number of the line behind the last."""
    lines = lines_of(text)
    for number, line in enumerate(lines, 1):
        if len(line) > MOST_BYTES or number > MOST_LINES:
            raise Fault(number, "too-long")
        words = words_of(line)
        if not is_skipped(words):
            yield number, words
    yield len(lines) + 1, None


class Reader:
    """What is said so far, behind the first line of a scenario file."""

    def __init__(self, version):
        self.version = version
        self.said = {}
        self.opening = []
        self.lines = []

    def sorts_of(self, words):
        """The sorts of the words that a line of these has, None for a key word; or the kind of fault of its key words."""
        first = words[0].decode("latin1")
        if first in HEADINGS:
            return [None, "small"]
        if first == "open" and self.version == 2:
            return [None, "name", "value"]
        if first in PROCESS_LINES:
            return [None, "small"]
        if first == "step":
            return [None, "small", "turns"]
        if first == "wander":
            return [None, "turns"]
        if first in ("show", "bakery"):
            return [None]
        return self.sorts_by_key(first, words)

    def sorts_by_key(self, first, words):
        """The same of the lines that have a second key word."""
        calls = {name: sorts for name, sorts in CALLS.items() if self.version == 2 or name != "ask"}
        targets = dict.fromkeys(TARGETS, [])
        tables = {"call": ([None, "small"], calls), "go": ([None, "small"], targets), "flick": ([None], FLICKS)}
        if first not in tables:
            return "unknown"
        before, table = tables[first]
        if len(words) <= len(before):
            return "words"
        key = words[len(before)].decode("latin1")
        return [*before, None, *table[key]] if key in table else "unknown"

    def place_fault(self, first):
        """Whether a line stands too late."""
        if first in HEADINGS:
            return first in self.said or bool(self.opening or self.lines)
        return first == "bakery" or (first == "open" and bool(self.lines))

    def take(self, words):
        """Takes a line; the kind of its fault, or None."""
        first, sorts = words[0].decode("latin1"), self.sorts_of(words)
        if sorts == "unknown":
            return "unknown"
        if self.place_fault(first):
            return "not-first"
        if sorts == "words" or len(sorts) != len(words):
            return "words"
        for word, sort in zip(words, sorts):
            kind = operand_fault(word, sort) if sort else None
            if kind:
                return kind
        return self.keep(first, words)

    def keep(self, first, words):
        """Keeps a line whose operands are good; the kind of fault that is left, or None."""
        if first in HEADINGS:
            self.said[first] = int(words[1])
            return None if 1 <= self.said[first] <= RANGES[self.version][first] else "bad-setup"
        if first == "open":
            is_twice = words[1] in [name for name, _ in self.opening]
            self.opening.append((words[1], words[2]))
            return "bad-setup" if is_twice or len(self.opening) > self.headings()["slots"] else None
        self.lines.append([word.decode() for word in words])
        return "too-long" if len(self.lines) > MOST_SAID else None

    def headings(self):
        return {**HEADINGS, **self.said}


@remembered
def read_scenario(text):
    """What a scenario file says; a `Fault` is raised where it says nothing."""
    reader = None
    for number, words in told_lines(text):
        if reader is None:
            if words not in ([b"bakery", b"1"], [b"bakery", b"2"]):
                raise Fault(number, "not-first")
            reader = Reader(int(words[1]))
        elif words is not None:
            kind = reader.take(words)
            if kind:
                raise Fault(number, kind)
    opening = [(name.decode(), value.decode()) for name, value in reader.opening]
    return Scenario(reader.version, reader.headings(), opening, reader.lines)


# the operands of each line of a bits file
BIT_LINES = {"write": 1, "end": 0, "settle": 1, "read": 0, "value": 1, "drop": 0, "bits": None}


def bit_fault(words, before):
    """The kind of fault of a line behind the first, with so many before it, or None."""
    first = words[0].decode("latin1")
    if first not in BIT_LINES:
        return "unknown"
    if first == "bits":
        return "not-first"
    if len(words) != 1 + BIT_LINES[first]:
        return "words"
    if any(word not in (b"0", b"1") for word in words[1:]):
        return "number"
    return "too-long" if before == MOST_SAID else None


@remembered
def read_bits(text):
    """The words of the lines of a bits file behind its first; a `Fault` is raised where it says nothing."""
    lines = None
    for number, words in told_lines(text):
        if lines is None:
            if words != [b"bits", b"1"]:
                raise Fault(number, "not-first")
            lines = []
        elif words is not None:
            kind = bit_fault(words, len(lines))
            if kind:
                raise Fault(number, kind)
            lines.append([word.decode() for word in words])
    return lines
