"""A second reading of trace files: of each text its setup and its entries, or the one fault that is told of it."""

import re
from typing import NamedTuple

from second.scenario_files import MOST_BYTES, Fault, is_number, is_skipped, lines_of, remembered, words_of

ORDER = ["unknown", "not-first", "words", "number", "bad-name", "bad-setup"]
HEADINGS = ("trace", "processes", "memory", "register", "shared")
MEMORIES = ("safe", "regular", "atomic")
MARKS = ("call", "wait", "enter", "leave", "answer")
# what stands behind each move: values, and key words
MOVES = {
    "write": "V",
    "end": "",
    "read": "",
    "value": "V",
    "set": "V",
    "get": "V",
    "swap": "V gives V",
    "add": "V gives V",
    "cas": "V V gives V",
}
NAME = re.compile(rb"[a-z_][a-z0-9_]{0,7}")
CELL = re.compile(rb"(?P<name>[^\[\]]*)\[(?P<index>.*)\]")
SMALL, VALUE = 255, 2**32 - 1
MOST_REGISTERS, MOST_MARKS = 64, 4


class Register(NamedTuple):
    """A register: its bits, its opening value, and whether it is shared."""

    width: int
    opens: int
    is_shared: bool


class Access(NamedTuple):
    """An access: its register and its index, None of a shared one; its move and the values of that."""

    register: str
    index: int | None
    move: str
    values: tuple


class Entry(NamedTuple):
    """An entry: its number, the number of its line, its process, its access if it has one, and its marks."""

    number: int
    line: int
    process: int
    access: Access | None
    marks: tuple


class Reader:
    """What is said so far, behind the first line of a trace."""

    def __init__(self):
        self.processes, self.memory, self.said = 2, "safe", set()
        self.registers, self.entries = {}, []

    def take(self, words, line):
        """Takes a line; the kind of its fault, or None."""
        first = words[0].decode("latin1")
        kinds = self.faults(first, words, line)
        return min(kinds, key=ORDER.index) if kinds else None

    def faults(self, first, words, line):
        if re.match("[0-9]", first):
            return self.entry(words, line)
        if first not in HEADINGS:
            return ["unknown"]
        if first == "trace":
            return ["not-first"]
        late = self.entries or first in ("processes", "memory") and (self.registers or first in self.said)
        kinds = ["not-first"] * bool(late)
        if first in ("register", "shared"):
            return kinds + self.register(words, first == "shared", kinds)
        return kinds + (self.memory_line if first == "memory" else self.processes_line)(words, kinds)

    def processes_line(self, words, kinds):
        if len(words) != 2:
            return ["words"]
        if not is_number(words[1], SMALL):
            return ["number"]
        if not 1 <= int(words[1]) <= 16:
            return ["bad-setup"]
        self.processes = int(words[1])
        self.said.add("processes")
        return []

    def memory_line(self, words, kinds):
        if len(words) > 1 and words[1].decode("latin1") not in MEMORIES:
            return ["unknown"]
        if len(words) != 2:
            return ["words"]
        self.memory = words[1].decode()
        self.said.add("memory")
        return []

    def register(self, words, is_shared, kinds):
        found = ["unknown"] * (len(words) > 3 and words[3] != b"opens") + ["words"] * (len(words) not in (3, 5))
        found += ["number"] * any(not is_number(word, most) for word, most in zip(words[2:5:2], (SMALL, VALUE)))
        found += ["bad-name"] * (len(words) > 1 and not NAME.fullmatch(words[1]))
        if found or kinds:
            return found
        name, width, opens = words[1].decode(), int(words[2]), int(words[4]) if len(words) == 5 else 0
        most = 8 if self.memory == "regular" else 32
        is_bad = not 1 <= width <= most or opens >= 2**width or name in self.registers
        if is_bad or len(self.registers) == MOST_REGISTERS or is_shared and self.memory != "atomic":
            return ["bad-setup"]
        self.registers[name] = Register(width, opens, is_shared)
        return []

    def entry(self, words, line):
        (process, *access), *marks = parts_of(words)
        kinds = ["number"] * (not is_number(process, SMALL))
        kinds += ["words"] * (not access and not marks or len(marks) > MOST_MARKS)
        found = None
        if access:
            found, faults = self.access(access)
            kinds += faults
        for mark in marks:
            kinds += ["words"] * (len(mark) != 1) + ["unknown"] * (bool(mark) and mark[0].decode("latin1") not in MARKS)
        if not kinds:
            marks = tuple(mark[0].decode() for mark in marks)
            self.entries.append(Entry(len(self.entries), line, int(process), found, marks))
        return kinds

    def access(self, words):
        """An access, and the kinds of its faults."""
        (name, index), kinds = self.cell(words[0])
        move = words[1].decode("latin1") if len(words) > 1 else None
        if move is None:
            return None, [*kinds, "words"]
        if move not in MOVES:
            return None, [*kinds, "unknown"]
        asked, rest = MOVES[move].split(), words[2:]
        kinds += ["words"] * (len(asked) != len(rest))
        pairs = list(zip(asked, rest))
        kinds += ["unknown"] * any(ask != "V" and word != ask.encode() for ask, word in pairs)
        kinds += ["number"] * any(ask == "V" and not is_number(word, VALUE) for ask, word in pairs)
        if kinds:
            return None, kinds
        return Access(name, index, move, tuple(int(word) for ask, word in pairs if ask == "V")), []

    def cell(self, word):
        """The register and the index that a cell names, and the kinds of its faults."""
        found = CELL.fullmatch(word)
        name = (found["name"] if found else word).decode("latin1")
        register = self.registers.get(name)
        if register is None or register.is_shared != (found is None):
            return (name, None), ["unknown"]
        if found is None:
            return (name, None), []
        if not is_number(found["index"], SMALL):
            return (name, None), ["number"]
        return (name, int(found["index"])), []


def parts_of(words):
    """The words between the words `:`."""
    parts = [[]]
    for word in words:
        if word == b":":
            parts.append([])
        else:
            parts[-1].append(word)
    return parts


@remembered
def read_trace(text):
    """What a trace file says; a `Fault` is raised where it says nothing."""
    reader, lines = None, lines_of(text)
    for number, line in enumerate(lines, 1):
        if len(line) > MOST_BYTES:
            raise Fault(number, "too-long")
        words = words_of(line)
        if is_skipped(words):
            continue
        if reader is None:
            if words != [b"trace", b"1"]:
                raise Fault(number, "not-first")
            reader = Reader()
        elif kind := reader.take(words, number):
            raise Fault(number, kind)
    if reader is None:
        raise Fault(len(lines) + 1, "not-first")
    return reader
