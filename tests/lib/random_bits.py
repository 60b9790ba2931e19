"""Bits files that are made up from numbers: the same number gives the same file."""

import random

LINES = ["write 0", "write 1", "end", "end", "settle 0", "settle 1", "read", "read", "value 0", "value 1", "drop"]
# what may follow the line of the same access, so that most lines are not refused
NEXT = {"write": ["end", "end", "settle 0", "settle 1"], "read": ["value 0", "value 1", "value 1", "drop"]}
SKIPPED = ["", "# a comment", " \t"]
MOST_LINES = 60


def next_line(draws, opened):
    """A line: mostly one that ends an access that is open, or begins one of a kind that is not."""
    if draws.random() < 0.15:
        return draws.choice(LINES)
    kind = draws.choice([*NEXT])
    return draws.choice(NEXT[kind]) if kind in opened else {"write": f"write {draws.randint(0, 1)}", "read": "read"}[kind]


def bits(number):
    """The bytes of the bits file of this number."""
    draws, lines, opened = random.Random(number), ["bits 1"], set()
    for _ in range(draws.randint(0, MOST_LINES)):
        line = next_line(draws, opened)
        word = line.split()[0]
        opened = opened | {word} if word in NEXT else opened - {"write" if word in ("end", "settle") else "read"}
        lines += [draws.choice(SKIPPED)] * (draws.random() < 0.05) + [line]
    return "".join(f"{line}\n" for line in lines).encode()
