#!/usr/bin/env python3
"""Draws a record or a trace as text: a lane for each process, a line for each entry, time downwards. lanes.py FILE, or - for standard
input.

An access is joined from its begin to its end, so that it is seen which overlap.
"""

import signal
import sys

ENDS = ("end", "value", "settle")


def entries_of(text):
    """The process of each entry, and its words."""
    lines = [line.split() for line in text.splitlines()]
    return [(int(words[0]), words[1:]) for words in lines if words and words[0].isdigit()]


def after(is_open, words):
    """The sign of an entry, and the access that is open behind it: `write`, `read` or none."""
    move = words[1] if words and words[0] != ":" else ""
    if move in ("write", "read"):
        return "┌", move
    if move in ENDS or is_open == "read" and words[-1] in ("fail", "withdraw"):
        return "└", None
    return "│" if is_open else " ", is_open


def lanes(entries):
    """The lines of the picture."""
    processes = 1 + max((process for process, _ in entries), default=0)
    texts = [" ".join(words).removeprefix(": ") for _, words in entries]
    width = 4 + max(map(len, texts), default=7)
    is_open = [None] * processes
    yield "entry  " + "".join(f"process {process}".ljust(width) for process in range(processes)).rstrip()
    for number, ((process, words), text) in enumerate(zip(entries, texts)):
        cells = ["│" if opened else "" for opened in is_open]
        sign, is_open[process] = after(is_open[process], words)
        cells[process] = f"{sign} {text}"
        yield f"{number:5}  {''.join(cell.ljust(width) for cell in cells)}".rstrip()


def main():
    if hasattr(signal, "SIGPIPE"):
        # a reader such as `head` may stop early
        signal.signal(signal.SIGPIPE, signal.SIG_DFL)
    if len(sys.argv) != 2:
        sys.exit("usage: lanes.py RECORD  (- is standard input)")
    with sys.stdin if sys.argv[1] == "-" else open(sys.argv[1]) as file:
        print(*lanes(entries_of(file.read())), sep="\n")


if __name__ == "__main__":
    main()
