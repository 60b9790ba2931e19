"""A second reading of the positions of faults in traces: of a faulty trace what `--explain` tells of its fault.

It is written from docs/FAULTS.md, and shares nothing with the program that it is held against but the reader of traces that
`trace_files.py` is. A position is a pair of columns, from the first to the one behind the last, counted from 0.
"""

import re

from second.scenario_files import MOST_BYTES, Fault, is_number, is_skipped, lines_of, words_of
from second.trace_files import CELL, MARKS, MEMORIES, MOVES, NAME, SMALL, VALUE, Reader

MOST_SHOWN, SHOWN_BEFORE, MOST_SEEN = 64, 16, 129
LINES = ["processes", "memory", "register", "shared"]
LATE = {
    "processes": "processes once, and before registers and entries",
    "memory": "memory once, and before registers and entries",
    "register": "register before entries",
    "shared": "shared before entries",
    "trace": "trace 1 in the first line alone",
}
# the kinds of faults of a word, as a reading of it alone gives them
NUMBERS = {"process": SMALL, "n": SMALL, "width": SMALL, "v": VALUE}


def typing_errors(one, other):
    """How many letters were left out, added, exchanged for others or for their neighbours (Damerau 1964), each letter once."""
    rows = [[*range(len(other) + 1)]]
    for i, a in enumerate(one, 1):
        row = [i]
        for j, b in enumerate(other, 1):
            row.append(min(rows[-1][j] + 1, row[-1] + 1, rows[-1][j - 1] + (a != b)))
            if i > 1 and j > 1 and (a, one[i - 2]) == (other[j - 2], b):
                row[-1] = min(row[-1], rows[-2][j - 2] + 1)
        rows.append(row)
    return rows[-1][-1]


def nearest(word, keys):
    """What is added of the key words that a word may have been meant for."""
    small = "".join(chr(byte) for byte in word.lower())
    errors = {key: typing_errors(small, key) for key in keys}
    near = {key: found for key, found in errors.items() if found <= (0 if len(key) < 2 else 1 if len(key) < 4 else 2) and len(key) > 1}
    found = [key for key in keys if near.get(key) == min(near.values(), default=None) and key in near]
    return f"; did you mean {' or '.join(found)}?" if found else ""


def one_of(keys, other=""):
    return ("one of " if len(keys) > 1 else "") + ", ".join(keys) + other


def choice(word, keys, other=""):
    """A word in the place of one of these key words."""
    return one_of(keys, other) + (nearest(word, keys) if len(keys) > 1 else "")


def number(least, most):
    return f"a number from {least} to {most} without leading zeros"


class Line:
    """The words of a line, each with its columns, and what is read before the line."""

    def __init__(self, text, reader):
        self.text, self.reader = text, reader
        found = [*re.finditer(rb"[^ \t]+", text)]
        self.words, self.spans = [it[0] for it in found], [it.span() for it in found]

    def behind(self, at):
        """The column where the word behind this one is missing."""
        return self.spans[at][1] + 1, self.spans[at][1] + 2

    def parts(self):
        """Each part of an entry: the number of its first word, and that behind its last."""
        signs = [at for at, word in enumerate(self.words) if word == b":"]
        return [*zip([0, *(at + 1 for at in signs)], [*signs, len(self.words)])]

    def width(self):
        memory = self.reader.memory
        return f"{number(1, 8 if memory == 'regular' else 32)}, in {memory} memory"


def head_form(words):
    """The form of a heading or a register, as far as its key words are right; and the key words of the next place, if it is wrong."""
    first = words[0].decode("latin1")
    if first not in LINES:
        return [], LINES
    if first == "processes":
        return ["processes", "n"], None
    if first == "memory":
        second = words[1].decode("latin1") if len(words) > 1 else None
        return (["memory", second], None) if second in MEMORIES else (["memory"], [*MEMORIES])
    form = [first, "NAME", "width"]
    if len(words) <= 3:
        return form, None
    return ([*form, "opens", "v"], None) if words[3] == b"opens" else (form, ["opens"])


def access_form(words):
    """The same of the words of an entry before its marks."""
    if len(words) < 2:
        return ["process"], None
    move = words[2].decode("latin1") if len(words) > 2 else None
    if move not in MOVES:
        return ["process", "cell"], [*MOVES]
    return ["process", "cell", move, *MOVES[move].lower().split()], None


def mark_form(words):
    """The same of a mark."""
    first = words[0].decode("latin1") if words else None
    return ([first], None) if first in MARKS else ([], [*MARKS])


def forms_of(line):
    """The parts of a line: the number of the first word, the words, their form, and the key words of the next place, if it is wrong."""
    if not re.match(rb"[0-9]", line.words[0]):
        return [(0, line.words, *head_form(line.words))]
    return [(at, line.words[at:end], *(mark_form if at else access_form)(line.words[at:end])) for at, end in line.parts()]


def cell_at_fault(line, word, span):
    """The columns of what is wrong with a cell that no register has, and what is expected there."""
    name, bracket, _ = word.partition(b"[")
    registers = line.reader.registers
    register = registers.get(name.decode("latin1"))
    if register is None:
        names = [*registers]
        told = choice(name, names) if names else "a declared register, of which there is none"
        return (span[0], span[0] + max(1, len(name))), told
    name = name.decode()
    return span, f"a cell as {name}, which is shared" if register.is_shared else f"a cell as {name}[p]"


def is_known(line, word):
    """Whether a word is a cell of a register, whatever its index."""
    found = CELL.fullmatch(word)
    register = line.reader.registers.get((found["name"] if found else word).decode("latin1"))
    return register is not None and register.is_shared == (found is None)


def unknown(line):
    for at, words, form, keys in forms_of(line):
        if form[1:2] == ["cell"] and not is_known(line, words[1]):
            return cell_at_fault(line, words[1], line.spans[1])
        if keys and len(words) > len(form):
            word = words[len(form)]
            return line.spans[at + len(form)], choice(word, keys, ", or a process" if at + len(form) == 0 else "")
        for place, (item, word) in enumerate(zip(form, words)):
            if item == "gives" and word != b"gives":
                return line.spans[at + place], "gives"
    return None


def wrong_number(line):
    if len(line.words) == 1 and re.match(rb"[0-9]", line.words[0]):
        return line.behind(0), "an access or a mark after the process"
    for mark, (at, words, form, keys) in enumerate(forms_of(line)):
        asked = [*form, "|".join(keys)] if keys else form
        told = "the form " + " ".join(asked)
        if len(words) < len(asked):
            return line.behind(at + len(words) - 1), told
        if len(words) > len(asked):
            return (line.spans[at + len(asked)][0], line.spans[at + len(words) - 1][1]), told
        if mark > 4:
            return line.spans[at - 1], "at most four marks"
    return None


def operand(line, item):
    """What is expected in the place of an operand."""
    if item == "NAME":
        return "a name of 1 to 8 of a to z, 0 to 9, _, the first not a digit"
    if item == "width":
        return line.width()
    return number(*{"process": (0, SMALL), "n": (1, 16), "v": (0, VALUE)}[item])


def wrong_operand(line):
    """The first number that is none."""
    for at, words, form, _ in forms_of(line):
        for place, (item, word) in enumerate(zip(form, words)):
            span = line.spans[at + place]
            if item in NUMBERS and not is_number(word, NUMBERS[item]):
                return span, operand(line, item)
            found = CELL.fullmatch(word) if item == "cell" else None
            if found and not is_number(found["index"], SMALL):
                begin, end = (span[0] + place for place in found.span("index"))
                return (begin, max(end, begin + 1)), number(0, SMALL)
    return None


def wrong_name(line):
    at = line.words.index(next(word for word in line.words[1:2] if not NAME.fullmatch(word)))
    return line.spans[at], operand(line, "NAME")


def wrong_setup(line):
    first, registers = line.words[0], line.reader.registers
    if first == b"processes":
        return line.spans[1], number(1, 16)
    if first == b"shared" and line.reader.memory != "atomic":
        return line.spans[0], "register, or memory atomic before shared"
    if len(registers) == 64:
        return line.spans[0], "at most 64 registers"
    if line.words[1].decode() in registers:
        return line.spans[1], "each name declared once"
    width = int(line.words[2])
    if not 1 <= width <= (8 if line.reader.memory == "regular" else 32):
        return line.spans[2], line.width()
    return line.spans[4], number(0, 2**width - 1)


def too_late(line):
    return line.spans[0], LATE[line.words[0].decode()]


def not_first(line):
    told = "trace 1 as the first line"
    if len(line.words) == 1:
        return line.behind(0), told
    if line.words[1] != b"1":
        return line.spans[1], told
    return (line.spans[2][0], line.spans[-1][1]), told


FOUND = {
    "unknown": unknown,
    "not-first": too_late,
    "words": wrong_number,
    "number": wrong_operand,
    "bad-name": wrong_name,
    "bad-setup": wrong_setup,
}


def shown(text, span, told):
    """The three lines of a position."""
    begin = max(0, span[0] - SHOWN_BEFORE) if span[1] > MOST_SHOWN else 0
    end = begin + MOST_SHOWN
    line = "".join(" " if byte == 9 else chr(byte) if 32 <= byte < 127 else "?" for byte in text[begin : min(end, MOST_SEEN)])
    carets = "".join(" " if at < span[0] else "^" for at in range(begin, min(span[1], end)))
    return f"  {line}\n  {carets}\nexpected {told}\n"


def hints(line):
    """What is added for an entry: of a word with a colon and other bytes, of two marks in a row, and of a comment."""
    if not re.match(rb"[0-9]", line.words[0]):
        return ""
    marks = [word.decode("latin-1") in MARKS for word in line.words]
    shown = {
        "; a colon has blanks around it": any(b":" in word and word != b":" for word in line.words),
        "; each mark has a colon before it": any(one and next_one for one, next_one in zip(marks, marks[1:])),
        "; a comment has a line of its own": any(word.startswith(b"#") for word in line.words),
    }
    return "".join(hint for hint, is_shown in shown.items() if is_shown)


def explained(text):
    """What `judge --explain` tells of a trace that has a fault; None of one without. Its first line begins with `trace`."""
    reader, lines = None, lines_of(text)
    for at, each in enumerate(lines, 1):
        line = Line(each, reader)
        if len(each) > MOST_BYTES:
            kind, place = "too-long", ((MOST_BYTES, MOST_BYTES + 1), "at most 128 bytes in a line")
        elif is_skipped(line.words):
            continue
        elif reader is None:
            if words_of(each) == [b"trace", b"1"]:
                reader = Reader()
                continue
            kind, place = "not-first", not_first(line)
        else:
            kind = reader.take(line.words, at)
            if kind is None:
                continue
            span, told = FOUND[kind](line)
            place = span, told + hints(line)
        return f"{Fault(at, kind)}\n{shown(each, *place)}".encode()
    return None
