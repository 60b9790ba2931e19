"""A second reading of `state` for records: the state after the first entries of a record of this project's lock.

It is written from what examples/inspect/README.md says, and shares nothing with the program that it is held against.
"""

from second.judge import Judge, entry_of
from second.programs import Setup
from second.record_files import read_record
from second.scenario_files import Fault, is_skipped, lines_of, words_of
from second.states import State

BAD = 3


def lines_of_entries(text):
    """The numbers of the file's lines with entries."""
    for number, line in enumerate(lines_of(text), 1):
        words = words_of(line)
        if not is_skipped(words) and words[0][:1].isdigit():
            yield number


def first_bad(head, entries):
    """The number of the first bad entry, or that of all entries if none is bad; and the law that it breaks."""
    judge = Judge(Setup(head))
    for number, line in enumerate(entries):
        law = judge.hear(number, *entry_of(line))
        if law:
            return number, law
    return len(entries), None


def recorded_state(text, at):
    """The status, the output and the errors of `state --at` on a record file; `at` is a number, or None for the end."""
    try:
        head, entries = read_record(text)
    except Fault as fault:
        return 1, b"", f"line {fault.line}: {fault.kind}\n".encode()
    good, law = first_bad(head, entries[:at])
    state = State([*head, *entries], good)
    told = [f"events {good}"]
    if good:
        told += [f"last {entries[good - 1]}", f"line {[*lines_of_entries(text)][good - 1]}"]
    told += [*state.all_lines(), *([f"bad {good} {law}"] if law else [])]
    return BAD if law else 0, "".join(f"{line}\n" for line in told).encode(), b""
