#!/usr/bin/env python3
"""Turns what SPIN prints of a trail into a trace: `spin -t -T MODEL.pml | to_trace.py > run.trace`.

The model prints an entry in each step that makes an access, as `1 flag[1] set 1`, or a call, as `0 : call`. Further marks of an entry
are lines such as `: enter`. Other lines of SPIN are ignored. A variable without an index is shared. The width of a register is that of
its greatest value, and it opens with 0. The memory is safe if an access has a begin and an end, and otherwise atomic.
"""

import re
import signal
import sys

ACCESS = r" (?P<name>[a-z_]\w*)(\[(?P<index>\d+)\])? (?P<move>[a-z]+)(?P<values>( \w+)*)"
ENTRY = re.compile(rf"(?P<process>\d+)( : \w+|{ACCESS})( : \w+)*")
# what SPIN prints itself and begins with a number
OF_SPIN = re.compile(r"\d+ process(es)? created")
NAME = re.compile(r"[a-z_][a-z0-9_]{0,7}")
HALVES = ("write", "end", "read", "value")


def entries_of(trail):
    """Yields each entry of a trail and its marks."""
    marks, found = [], None
    for number, line in enumerate(trail, 1):
        text = line.strip()
        if text.startswith(": ") and found:
            marks.append(text)
        elif re.match(r"\d+ ", text) and not OF_SPIN.fullmatch(text):
            if found:
                yield found, marks
            marks, found = [], ENTRY.fullmatch(text)
            if not found:
                sys.exit(f"to_trace.py: line {number}: `{text}` is not an entry; `0 flag[1] get 0`, `0 turn set 1` or `0 : call` is one")
    if found:
        yield found, marks


def greatest(access):
    """Returns the greatest value that a cell needs for an access."""
    numbers = [int(word) for word in access["values"].split() if word.isdecimal()]
    return sum(numbers) if access["move"] == "add" else max(numbers, default=0)


def registers_of(accesses):
    """Yields the line of each register, in the order in which they are accessed."""
    for name in dict.fromkeys(access["name"] for access in accesses):
        own = [access for access in accesses if access["name"] == name]
        kinds = {access["index"] is None for access in own}
        if not NAME.fullmatch(name):
            sys.exit(f"to_trace.py: {name} is not a name of a trace, which has 1 to 8 small letters, digits and `_`; print another one")
        if len(kinds) > 1:
            sys.exit(f"to_trace.py: {name} has an index in some entries and none in others")
        width = max(1, max(map(greatest, own)).bit_length())
        yield f"{'shared' if kinds == {True} else 'register'} {name} {width}"


def main():
    if hasattr(signal, "SIGPIPE"):
        # a reader such as `head` may stop early
        signal.signal(signal.SIGPIPE, signal.SIG_DFL)
    entries = [*entries_of(sys.stdin)]
    if not entries:
        sys.exit("to_trace.py: no entries; check that the model has a trail and prints its accesses, and that `spin -t -T` replays it")
    accesses = [found for found, _ in entries if found["name"]]
    numbers = [found[part] for found, _ in entries for part in ("process", "index") if found[part]]
    memory = "safe" if any(access["move"] in HALVES for access in accesses) else "atomic"
    print("trace 1", f"processes {max(1, *map(int, numbers)) + 1}", f"memory {memory}", *registers_of(accesses), sep="\n")
    for found, marks in entries:
        print(found[0], *marks)


if __name__ == "__main__":
    main()
