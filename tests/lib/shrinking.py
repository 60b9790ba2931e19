"""Makes a file shorter in which the program differs from an independent implementation: leaves lines out while it still
differs.
"""

import time

# a file is made shorter for at most so many seconds
SECONDS = 60


def sizes_of(count):
    """The sizes of the parts that are left out of a file of so many lines: halves first, then smaller ones, and single lines."""
    size = count // 2
    while size > 1:
        yield size
        size //= 2
    yield 1


def without_parts(lines, size, differs, until):
    """The lines without each part of this size that is not needed, the last first; and whether any part was left out."""
    was_shorter = False
    for at in reversed(range(0, len(lines), size)):
        shorter = lines[:at] + lines[at + size :]
        if time.monotonic() < until and shorter != lines and differs(b"".join(shorter)):
            lines, was_shorter = shorter, True
    return lines, was_shorter


def shrunk(text, differs, seconds=SECONDS):
    """The shortest file found that still differs. `differs` is asked of each."""
    lines, until = text.splitlines(keepends=True), time.monotonic() + seconds
    for size in sizes_of(len(lines)):
        is_shorter = True
        while is_shorter:
            lines, is_shorter = without_parts(lines, size, differs, until)
            is_shorter = is_shorter and size == 1
    return b"".join(lines)
