#!/usr/bin/env python3
"""Turns the log of a simulator into a trace: `from_csv.py LOG.csv > run.trace`. `from_csv.py --entry 10 LOG.csv` prints instead what
entry 10 of that trace was made from. Names of a trace have small letters, so a comment keeps each name that the log spells otherwise.

The log has comma-separated values. Its first line names the columns, in any order; columns of other names are ignored. Each further
line is an access or a mark. Empty lines and lines that begin with `#` are skipped. All numbers, times too, may be decimal or
hexadecimal: 31 or 0x1f. A time may have a fraction, as 12.5.

    time       when it happened; rows of the same time keep their order
    cpu        the process, from 0 to 15
    operation  an access: read, write, swap, add, cas; write-begin, write-end, read-begin, read-end
               a mark: call, wait, enter, leave, answer
    variable   the name of the variable; empty for a mark
    index      the process whose cell it is; empty if the variable is shared, or if the variable is given as `flag[1]`, `flag[0x1]`,
               `flag(1)` or `node[1].next`
    value      the value read or written; the number added; the new value of `swap` and `cas`
    old        the value before, of `swap`, `add` and `cas`
    expected   the expected value, of `cas`

A log may have the columns `begin` and `end` in place of `time`. Then a row `write` or `read` lasts from the one to the other and
becomes two entries, and a row `section` is a critical section: `enter` at its begin and `leave` at its end. A begin comes before an end
of the same time, so accesses that touch overlap; the rows of one process keep their order.

`--column value=NewVal --column value=RdVal` takes the value from the one of these columns that is not empty. `from_csv.py @FILE LOG.csv`
takes options from a file, with several in a line or one in each.
"""

import argparse
import csv
import re
import signal
import sys
from functools import cached_property

from csv_log import ACCESSES, CHANGES, MOST_PROCESSES, MOST_VALUE, Mistake, events_of, in_order, parts, rows_of, whole

# the words of a trace for each access
MOVES = {
    "write": "set",
    "read": "get",
    "write-begin": "write",
    "write-end": "end",
    "read-begin": "read",
    "read-end": "value",
    "swap": "swap",
    "add": "add",
    "cas": "cas",
}
WRITES = ("write", "write-begin")
NAME = re.compile(r"[a-z_][a-z0-9_]{0,7}")
MOST_REGISTERS, MOST_MARKS = 64, 4
MOST_BITS = {"safe": 32, "regular": 8, "atomic": 32}
# the register whose reads are the doorways of a log without accesses
DOOR = "door"
# the longest name of a variable that a comment repeats
LONGEST = 80


class Variable:
    """A register of a trace: its name, the variable of the log, whether it is shared, and its width and opening value."""

    def __init__(self, name, variable, is_shared):
        self.name, self.variable, self.is_shared = name, variable, is_shared
        self.most, self.opens, self.width = 0, 0, None

    @property
    def bits(self):
        """Returns the width: the stated one, or that of the greatest value."""
        return max(1, self.most.bit_length(), self.opens.bit_length()) if self.width is None else self.width

    def lines(self):
        """Yields its line of the trace, below a comment if the log has another name."""
        if self.name != re.sub(r"\[(\d+)\]$", r"\1", self.variable) and self.variable.isascii() and len(self.variable) <= LONGEST:
            yield f"# {self.name} is {self.variable} of the log"
        yield f"{'shared' if self.is_shared else 'register'} {self.name} {self.bits}" + f" opens {self.opens}" * (self.opens > 0)


def refuse_two_kinds(variable, rows):
    """Raises a mistake if a variable has an index in some of its rows only. It names the first of the rows that are fewer, and of as
    many the one that comes later."""
    with_index, without = [[row for row in rows if bool(row.word("index")) == has] for has in (True, False)]
    if with_index and without:
        few, many = sorted((with_index, without), key=lambda found: (len(found), -found[0].line))
        has, others = ("an", "no") if few is with_index else ("no", "an")
        at = f"line {many[0].line}" if len(many) == 1 else f"{len(many)} other rows, such as line {many[0].line}"
        raise few[0].mistake(f"`{variable}` has {has} index, and {others} index in {at}; give each row of it an index, or none")


class Variables:
    """The registers of a trace."""

    def __init__(self, events, options):
        self.options, self.found = options, {}
        accesses = [it for it in events if it.operation in ACCESSES]
        for variable in dict.fromkeys(it.variable for it in accesses):
            refuse_two_kinds(variable, {it.row.line: it.row for it in accesses if it.variable == variable}.values())
        self.arrays = {it.variable for it in accesses if it.index is not None}
        self.shared = {it.variable for it in accesses if it.index is None or it.operation in CHANGES} | {*options.shared}

    def of(self, event):
        """Returns the register of an access. An array that is shared has one for each element."""
        variable = event.variable
        is_shared = variable in self.shared
        element = event.index if is_shared else None
        if (variable, element) not in self.found:
            if len(self.found) == MOST_REGISTERS:
                raise event.row.mistake(f"`{variable}` is one register too many; a trace has at most {MOST_REGISTERS}")
            name = self.name(variable, "" if element is None else str(element))
            full_name = variable if element is None else f"{variable}[{element}]"
            self.found[variable, element] = Variable(name, full_name, is_shared)
        return self.found[variable, element]

    def name(self, variable, end):
        """Returns a name for a variable that no other register has, of at most eight bytes."""
        taken, given, number = {it.name for it in self.found.values()}, self.options.name.get(variable), 1
        if given is not None:
            if not NAME.fullmatch(given + end) or given + end in taken:
                what = "is taken" if given + end in taken else "is not a name of a trace: 1 to 8 of a-z, 0-9 and _, the first no digit"
                raise Mistake(f"--name {variable}={given}: {given}{end} {what}")
            return given + end
        begin = re.sub(r"[^a-z0-9_]", "_", variable.lower())
        begin = f"_{begin}" if begin[0].isdigit() else begin
        while (name := begin[: 8 - len(end)] + end) in taken:
            number += 1
            end = f"_{number}"
        return name

    def named(self, option, name):
        """Returns the registers that an option names, by a variable or an element of the log or by a name of the trace."""
        found = [it for (variable, element), it in self.found.items() if name in (variable, it.name) or parts(name) == (variable, element)]
        if not found:
            raise self.unknown(option, name)
        return found

    def unknown(self, option, name):
        """Returns the mistake of an option that names a variable which the log does not have."""
        known = ", ".join(dict.fromkeys(variable for variable, _ in self.found)) or "none"
        return Mistake(f"--{option} {name}: the log has no such variable; it has {known}")


class Entry:
    """An entry of a trace: its process, its access if it has one, its marks, and the rows that it was made from."""

    def __init__(self, process, access=""):
        self.process, self.access, self.marks, self.rows = process, access, [], []

    def __str__(self):
        return " : ".join([f"{self.process} {self.access}".strip(), *self.marks])


class Trace:
    """The trace of a log: its registers and its entries."""

    def __init__(self, events, options):
        self.events, self.options, self.entries = events, options, []
        self.operations = {it.operation for it in events}
        self.has_accesses = any(it in ACCESSES for it in self.operations)
        self.variables = Variables(events, options)
        # the row of the latest `leave` of each process that has not been answered, or None before it
        self.calls = {}
        for it in events:
            (self.access if it.operation in ACCESSES else self.mark)(it)
        self.memory = self.memory_of_it()
        self.set_registers()

    # Entries.

    def call(self, event):
        """Begins a call. If the log has no access, it reads a register of its own, so that its doorway has a begin."""
        self.calls[event.process] = None
        self.add(event, Entry(event.process)).marks.append("call")
        if not self.has_accesses:
            self.add(event, Entry(event.process, f"{DOOR}[{event.process}] get 0"))

    def add(self, event, entry):
        """Appends an entry that is made from the row of an event."""
        entry.rows.append(event.row)
        self.entries.append(entry)
        return entry

    def access(self, event):
        """Appends an access, after a call if its process has none."""
        if event.process not in self.calls:
            self.call(event)
        register = self.variables.of(event)
        move, numbers = MOVES[event.operation], event.numbers
        greatest = sum(numbers) if event.operation == "add" else max(numbers, default=0)
        register.most = max(register.most, min(greatest, MOST_VALUE))
        words = [*map(str, numbers)]
        if event.operation in CHANGES:
            words.insert(-1, "gives")
        cell = register.name if register.is_shared else f"{register.name}[{event.index}]"
        self.add(event, Entry(event.process, " ".join([cell, move, *words])))

    def mark(self, event):
        """Adds a mark, after the `answer` and the `call` that the log leaves out."""
        process, mark = event.process, event.operation
        left = self.calls.get(process)
        if left and mark in ("wait", "enter") and self.has_accesses:
            own = event.row.word("operation")
            what = f"cpu {process} has no `call` between its `{left.word('operation')}` of line {left.line} and this `{own}`"
            raise event.row.mistake(f"{what}; log a `call` before the first access of each attempt")
        is_next = mark == "call" or left and mark in ("wait", "enter")
        if is_next and process in self.calls:
            self.add_mark(event, "answer")
        if process not in self.calls:
            self.call(event)
        if mark == "leave":
            self.calls[process] = event.row
        if mark != "call":
            self.add_mark(event, mark)

    def add_mark(self, event, mark):
        """Adds a mark to the newest entry, if that is of its process and has room, and otherwise as an entry."""
        newest = self.entries[-1]
        if newest.process != event.process or "call" in newest.marks or len(newest.marks) == MOST_MARKS:
            newest = self.add(event, Entry(event.process))
        newest.marks.append(mark)
        newest.rows.append(event.row)
        if mark == "answer":
            del self.calls[event.process]

    # Registers.

    def memory_of_it(self):
        """Returns the memory: that of the option, or atomic if each access is one row, and otherwise safe."""
        half = next((it for it in self.events if it.operation.endswith(("-begin", "-end"))), None)
        memory = self.options.memory or ("safe" if half else "atomic")
        if half and memory == "atomic":
            raise half.row.mistake("in atomic memory an access is one row, and this one has a begin and an end")
        shared = next((it for it in self.events if it.operation in ACCESSES and it.variable in self.variables.shared), None)
        if shared and memory != "atomic":
            why = "has no index" if shared.index is None else "is shared"
            what = f"`{shared.variable}` {why}, so all processes may write it, and the memory is {memory}"
            remedy = self.remedy(shared.row, half)
            raise shared.row.mistake(f"{what}; such a variable needs atomic memory: {remedy}")
        return memory

    def remedy(self, row, half):
        """Returns how a log with a shared variable becomes one in atomic memory."""
        option = f"--memory {self.options.memory}"
        if not half:
            return f"leave out {option}, since the log has one row for each access"
        remedy = f"--column time={row.found('end')[0]} takes each row at its end" if row.lasts else "log one row for each access"
        return f"{remedy}, and leave out {option}" if self.options.memory else remedy

    def set_registers(self):
        """Sets the widths and opening values that options state, and checks all options that name a variable."""
        for option in ("shared", "name"):
            for name in getattr(self.options, option):
                if all(name != variable for variable, _ in self.variables.found):
                    raise self.variables.unknown(option, name)
        for option, values in (("opens", self.options.opens), ("width", self.options.width)):
            for name, value in values.items():
                for register in self.variables.named(option, name):
                    setattr(register, option, value)
        most = MOST_BITS[self.memory]
        for it in self.variables.found.values():
            if not 1 <= it.bits <= most or it.opens >= 2**it.bits:
                what = f"`{it.variable}` has width {it.bits}, its greatest value is {it.most}, and it opens with {it.opens}"
                raise Mistake(f"{what}; a width is 1 to {most} in {self.memory} memory, and the opening value fits it")

    @cached_property
    def processes(self):
        """Returns the number of processes."""
        least = max((it.process + 1 for it in self.events), default=1)
        processes = max(2, least) if self.options.processes is None else self.options.processes
        if not least <= processes <= MOST_PROCESSES:
            raise Mistake(f"--processes {processes}: the log has {least}, and a trace at most {MOST_PROCESSES}")
        return processes

    def text(self):
        """Returns the lines of the trace."""
        lines = ["trace 1", f"processes {self.processes}", f"memory {self.memory}"]
        lines += [line for it in self.variables.found.values() for line in it.lines()]
        lines += [] if self.has_accesses else [f"register {DOOR} 1"]
        return "\n".join([*lines, *map(str, self.entries), ""])

    def notes(self):
        """Yields what a reader of the verdict should know."""
        for mark, law in (("enter", "together"), ("wait", "overtaken")):
            if mark not in self.operations:
                yield f"no row has the operation `{mark}`, so no entry can break the law `{law}`"
        arrays = self.variables.arrays - self.variables.shared
        elsewhere = [it for it in self.events if it.index is not None and it.variable in arrays and self.is_elsewhere(it)]
        for variable, it in {it.variable: it for it in reversed(elsewhere)}.items():
            what = f"`{variable}` with index {it.index} is not a cell that cpu {it.process} may {it.operation.removesuffix('-begin')}"
            yield f"line {it.row.line}: {what}; if all processes write that array, add --shared {variable}"

    def is_elsewhere(self, event):
        """Returns whether an access with an index is refused, unless the array is shared."""
        return event.index >= self.processes or event.operation in WRITES and event.index != event.process

    def origin(self, number):
        """Returns the text of an entry, and the lines of the log that it was made from."""
        if not 0 <= number < len(self.entries):
            raise Mistake(f"--entry {number}: the trace has {len(self.entries)} entries, which count from 0")
        entry = self.entries[number]
        rows = {row.line: row.text for row in entry.rows}
        return "".join(f"{line}\n" for line in [f"entry {number}: {entry}", *(f"line {line}: {text}" for line, text in rows.items())])


# The command line.


def pair(kind):
    """Returns the reader of an option NAME=VALUE."""

    def read(text):
        name, _, value = text.partition("=")
        number = whole(value)
        if not name or not value or kind is int and (number is None or number < 0):
            raise argparse.ArgumentTypeError(f"`{text}` is not NAME={'NUMBER' if kind is int else 'NAME'}")
        return name, number if kind is int else value

    return read


def parser():
    """Returns the parser of the command line."""
    own = argparse.ArgumentParser(description=__doc__, formatter_class=argparse.RawDescriptionHelpFormatter, fromfile_prefix_chars="@")
    own.convert_arg_line_to_args = str.split
    several = lambda name, shown, told, kind: own.add_argument(name, action="append", default=[], type=kind, metavar=shown, help=told)
    own.add_argument("log", metavar="LOG", help="the log; `-` is standard input")
    own.add_argument("--memory", choices=[*MOST_BITS], help="by default safe if an access has a begin and an end, and otherwise atomic")
    own.add_argument("--processes", type=int, metavar="N", help="by default one more than the greatest cpu, and at least 2")
    told = "the log's name of a column, as time=cycle; of several for one column, the one that is not empty"
    several("--column", "COLUMN=NAME", told, pair(str))
    several("--operation", "OPERATION=NAME", "the log's name of an operation, as read=LD", pair(str))
    several("--skip", "OPERATION", "an operation whose rows are ignored", str)
    several("--shared", "VARIABLE", "an array whose elements all processes may write", str)
    several("--opens", "VARIABLE=NUMBER", "the opening value of a variable, by default 0", pair(int))
    several("--width", "VARIABLE=BITS", "the bits of a variable, by default those of its greatest value", pair(int))
    several("--name", "VARIABLE=NAME", "the name of a variable in the trace", pair(str))
    several("--entry", "K", "prints what entry K was made from, in place of the trace", int)
    return own


def trace_of(options):
    """Returns the trace of the log that the options name."""
    lines = sys.stdin if options.log == "-" else open(options.log, encoding="utf-8")
    with lines:
        rows = rows_of(lines, options.column, options.operation, options.skip)
        events = [it for row in rows for it in events_of(row)]
    if not events:
        raise Mistake("the log has no row below its first line")
    return Trace(in_order(events), options)


def main():
    if hasattr(signal, "SIGPIPE"):
        # a reader such as `head` may stop early
        signal.signal(signal.SIGPIPE, signal.SIG_DFL)
    options = parser().parse_args()
    for name in ("opens", "width", "name"):
        setattr(options, name, dict(getattr(options, name)))
    try:
        trace = trace_of(options)
        text = trace.text()
        sys.stdout.write("".join(map(trace.origin, options.entry)) or text)
    except UnicodeDecodeError:
        sys.exit("from_csv.py: the log is not a text in UTF-8")
    except OSError as error:
        sys.exit(f"from_csv.py: {options.log}: {error.strerror.lower()}")
    except (Mistake, csv.Error) as error:
        sys.exit(f"from_csv.py: {error}")
    for note in trace.notes() if not options.entry else []:
        print(f"from_csv.py: note: {note}", file=sys.stderr)


if __name__ == "__main__":
    main()
