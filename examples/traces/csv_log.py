"""The log of a simulator: its rows, and what happened in them, in the order of their times. from_csv.py describes the columns."""

import csv
import re
from collections import deque
from decimal import Decimal, InvalidOperation
from typing import NamedTuple

MARKS = ("call", "wait", "enter", "leave", "answer")
# the columns of the numbers of each access
ACCESSES = {
    "write": ["value"],
    "read": ["value"],
    "write-begin": ["value"],
    "write-end": [],
    "read-begin": [],
    "read-end": ["value"],
    "swap": ["value", "old"],
    "add": ["value", "old"],
    "cas": ["expected", "value", "old"],
}
CHANGES = ("swap", "add", "cas")
# what a row becomes that lasts some time
HALVES = {"write": ("write-begin", "write-end"), "read": ("read-begin", "read-end"), "section": ("enter", "leave")}
# what comes first at one time, if rows last some time
EARLY = ("call", "leave", "write-begin", "read-begin")
REQUIRED = ["time", "cpu", "operation"]
COLUMNS = [*REQUIRED, "begin", "end", "variable", "index", "value", "old", "expected"]
# a variable with its index, or several, in brackets, and a field of it; and the number in a pair of brackets
ELEMENT = re.compile(r"(?P<name>[^\[\]()]*[^\[\]() ])(?P<indices>( *(\[[^\[\]()]+\]|\([^\[\]()]+\)))+)(?P<field>((\.|->)\w+)*)")
BRACKETS = re.compile(r"[\[(] *([^\[\]()]+?) *[\])]")
# a cpu with letters before its number, and a time with a unit after it
NAMED_CPU, WITH_UNIT = re.compile(r"[A-Za-z_]+ ?(\d+)"), re.compile(r"([\d.]+) ?([afpnum]?s|cycles?|ticks?)")
MOST_VALUE, MOST_INDEX, MOST_PROCESSES = 2**32 - 1, 255, 16


class Mistake(Exception):
    """What is wrong with a log or an option, and what was expected."""


def whole(word):
    """Returns the whole number of a word, decimal or hexadecimal with `0x`, or None."""
    try:
        return int(word, 10 if word.isdecimal() else 0)
    except ValueError:
        return None


def parts(variable):
    """Returns the name of a variable and its index, such as 1 in `flag[1]`, `flag[0x1]`, `flag(1)` and `node[1].next`. The index is
    None without brackets, and -1 if something else is in brackets. Of several indices the last one is that of the cell."""
    if not {*variable} & {*"[]()"}:
        return variable, None
    found = ELEMENT.fullmatch(variable)
    *others, last = [whole(it) for it in BRACKETS.findall(found["indices"])] if found else [None]
    if any(it is None or not 0 <= it <= MOST_INDEX for it in (*others, last)):
        return variable, -1
    return found["name"] + "".join(f"[{it}]" for it in others) + found["field"], last


class Row(NamedTuple):
    """A line of a log: its number, its text, for each of our columns the columns of the log with their values, and its operation."""

    line: int
    text: str
    cells: dict
    operation: str

    def found(self, column):
        """Returns the column of the log that has a value, as the log spells it, and the value: of several the one that is not empty.
        A column that has the value before is not one of the new value."""
        cells = self.cells.get(column) or [(column, "")]
        if column == "value" and self.operation in CHANGES and len(cells) > 1:
            cells = [it for it in cells if it not in self.cells.get("old", [])] or cells
        filled = [it for it in cells if it[1]]
        if len(filled) > 1 and len({word if whole(word) is None else whole(word) for _, word in filled}) > 1:
            both = " and ".join(f"`{head}` has {word}" for head, word in filled)
            raise self.mistake(f"{both}, and both are the column `{column}`; one of them is expected to be empty")
        return filled[0] if filled else ("` or `".join(head for head, _ in cells), "")

    def word(self, column):
        return self.found(column)[1]

    def mistake(self, what):
        return Mistake(f"line {self.line}: {what}")

    def number(self, column, most=MOST_VALUE):
        """Returns the number in a column."""
        (head, word), wanted = self.found(column), f"a number from 0 to {most} is expected"
        if not word:
            raise self.mistake(f"column `{head}` is empty or missing; {wanted}")
        number = whole(word)
        if number is None:
            named = NAMED_CPU.fullmatch(word) if column == "cpu" else None
            remedy = f", as {named[1]} in place of `{word}`" if named else ""
            raise self.mistake(f"`{word}` in column `{head}` is not a number; {wanted}{remedy}")
        if not 0 <= number <= most:
            raise self.mistake(f"{word} in column `{head}` is out of range; {wanted}")
        return number

    def time(self, column):
        """Returns the time in a column, exactly."""
        head, word = self.found(column)
        try:
            time = Decimal(whole(word) if word[:2] in ("0x", "0X") and whole(word) is not None else word)
        except InvalidOperation:
            time = Decimal("nan")
        if not time.is_finite():
            what = f"`{word}` in column `{head}` is not a time" if word else f"column `{head}` is empty or missing"
            with_unit = WITH_UNIT.fullmatch(word)
            raise self.mistake(f"{what}; a number is expected" + (f", as {with_unit[1]} in place of `{word}`" if with_unit else ""))
        return time

    @property
    def lasts(self):
        """Returns whether the row has a begin and an end in place of one time."""
        return "begin" in self.cells and not self.word("time")


class Event(NamedTuple):
    """An access, half of an access, or a mark: its row, when it happened, and its parts."""

    row: Row
    time: Decimal
    operation: str
    process: int
    index: int | None
    numbers: tuple

    @property
    def variable(self):
        return self.row.word("variable")


def table(lines):
    """Yields the number, the text and the values of each line that is neither empty nor a comment."""
    separator = None
    for number, line in enumerate(lines, 1):
        text = line.strip("\ufeff\r\n ")
        if not text or text.startswith("#"):
            continue
        separator = separator or next((it for it in ",;\t" if it in text), ",")
        values = next(csv.reader([text], delimiter=separator, skipinitialspace=True))
        yield number, text, [value.strip() for value in values]


def spelled(word):
    """Returns the name of a column or an operation in small letters, with `-` between its words."""
    return word.lower().replace("_", "-")


def places_of(line, header, pairs):
    """Returns for each of our columns the positions of the columns of the log that it is taken from. The pairs are ours and the log's."""
    names, places = [*map(spelled, header)], {}
    for ours, theirs in pairs:
        if ours not in COLUMNS:
            raise Mistake(f"--column {ours}={theirs}: `{ours}` is not a column; one of {', '.join(COLUMNS)} is expected before `=`")
        if spelled(theirs) not in names:
            raise Mistake(f"--column {ours}={theirs}: no column is named {theirs}; line {line} has {', '.join(header) or 'none'}")
        places.setdefault(ours, {})[names.index(spelled(theirs))] = None
    renamed = {spelled(theirs) for _, theirs in pairs}
    for at, name in enumerate(names):
        if names.count(name) > 1 and name in {*COLUMNS, *renamed}:
            raise Mistake(f"line {line}: two columns are named `{header[at]}`")
        if name in places and name not in renamed:
            others = " and ".join(f"`{header[other]}`" for other in places[name])
            remedy = f"add --column {name}={header[at]} to take the one that is not empty"
            raise Mistake(f"line {line}: {others} and `{header[at]}` are both the column `{name}`; {remedy}")
        if name not in renamed:
            places[name] = {at: None}
    check_required(line, header, places)
    return places


def check_required(line, header, places):
    """Raises a mistake if a log lacks a column that each log needs."""
    has_both = {"begin", "end"} <= {*places}
    missing = [it for it in REQUIRED if it not in places and not (it == "time" and has_both)]
    if missing:
        what = f"no column is named {' or '.join(missing)}; this line names the columns, and has {', '.join(header) or 'none'}"
        raise Mistake(f"line {line}: {what}; --column {missing[0]}=NAME takes the column NAME")


def operations_of(pairs):
    """Returns our name of each operation of the log, from pairs of ours and the log's."""
    known = [*ACCESSES, *MARKS, "section"]
    for ours, theirs in pairs:
        if ours not in known:
            raise Mistake(f"--operation {ours}={theirs}: `{ours}` is not an operation; one of {', '.join(known)} is expected before `=`")
    return {spelled(theirs): ours for ours, theirs in pairs}


def set_index(row):
    """Takes the index of an access from the name of its variable, if that has one in brackets."""
    (head, variable), own = row.found("variable"), row.word("index")
    name, index = parts(variable)
    if index is None:
        return
    if index < 0:
        wanted = f"a name is expected, or a name with a number from 0 to {MOST_INDEX} in brackets, as flag[1], flag[0x1] or flag(1)"
        raise row.mistake(f"`{variable}` in column `{head}` is not a variable; {wanted}")
    if own and whole(own) != index:
        raise row.mistake(f"`{variable}` has an index, and column `{row.found('index')[0]}` has {own}; leave that empty")
    row.cells.update(variable=[(head, name)], index=[(head, str(index))])


def rows_of(lines, columns, operations, skipped):
    """Yields the rows of a log. Each of the pairs renames a column or an operation of the log."""
    operations, ignored = operations_of(operations), {*map(spelled, skipped)}
    below = table(lines)
    line, _, header = next(below, (1, "", []))
    places = places_of(line, header, columns)
    for number, text, values in below:
        if any(values[len(header) :]):
            raise Mistake(f"line {number}: {len(values)} values, and line {line} names {len(header)} columns")
        values += [""] * len(header)
        row = Row(number, text, {ours: [(header[at], values[at]) for at in those] for ours, those in places.items()}, "")
        operation = spelled(row.word("operation"))
        if operation not in ignored:
            row = row._replace(operation=operations.get(operation, operation))
            if row.operation in ACCESSES:
                set_index(row)
            yield row


def event(row, time, operation):
    """Returns what happened in a row at a time."""
    is_access = operation in ACCESSES
    if not is_access and operation not in MARKS:
        known, (head, own) = ", ".join([*ACCESSES, *MARKS]), row.found("operation")
        if not own:
            raise row.mistake(f"column `{head}` is empty or missing; an operation is expected, which are {known}")
        remedy = f"--operation NAME={own} if it is one of these, and --skip {own} to ignore such rows"
        raise row.mistake(f"`{own}` is not an operation, which are {known}; add {remedy}")
    if is_access and not row.word("variable"):
        what = f"column `{row.found('variable')[0]}` is empty or missing"
        raise row.mistake(f"{what}; `{row.word('operation')}` needs the name of a variable")
    process = row.number("cpu", MOST_PROCESSES - 1)
    index = row.number("index", MOST_INDEX) if is_access and row.word("index") else None
    numbers = tuple(row.number(column) for column in ACCESSES[operation]) if is_access else ()
    return Event(row, time, operation, process, index, numbers)


def events_of(row):
    """Returns what happened in a row: of a row that lasts some time its begin and its end."""
    if not row.lasts:
        return [event(row, row.time("time"), row.operation)]
    begin, end = row.time("begin"), row.time("end")
    if begin > end:
        raise row.mistake(f"it begins at {row.word('begin')} and ends at {row.word('end')}, which is earlier")
    if row.operation in CHANGES:
        what = f"`{row.word('operation')}` needs atomic memory, which has no begins"
        raise row.mistake(f"{what}: --column time={row.found('end')[0]} takes each row at its end")
    operations = HALVES.get(row.operation, (row.operation,))
    return [event(row, time, operation) for time, operation in zip((begin, end), operations)]


def refuse_two_at_a_time(events):
    """Raises a mistake if an access of a process begins before its last one has ended."""
    opened = None
    for it in events:
        if it.operation.endswith("-begin"):
            if opened is not None:
                time = it.row.word("begin") or it.row.word("time")
                what = f"cpu {it.process} begins an access at {time}, and that of line {opened.line} has not ended"
                raise it.row.mistake(f"{what}; a process makes one access at a time, without store buffers")
            opened = it.row
        elif it.operation.endswith("-end"):
            opened = None


def in_order(events):
    """Returns the events in the order of their times. If rows last some time, those of one time are ordered as EARLY states."""
    by_time = sorted(events, key=lambda it: it.time)
    if not any(it.row.lasts for it in events):
        return by_time
    queues = {process: deque() for process in range(MOST_PROCESSES)}
    for it in by_time:
        queues[it.process].append(it)
    for queue in queues.values():
        refuse_two_at_a_time(queue)
    merged = []
    while heads := [queue[0] for queue in queues.values() if queue]:
        first = min(heads, key=lambda it: (it.time, it.operation not in EARLY, it.row.line))
        merged.append(queues[first.process].popleft())
    return merged
