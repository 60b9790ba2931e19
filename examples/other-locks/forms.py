"""Checks the entries of a process as `judge --any-lock` checks them by its laws `access` and `marks`: which access and which marks
are refused, and why. docs/JUDGE_YOUR_LOCK.md lists the refusals.
"""

import re
from typing import NamedTuple

from driver import Mistake
from writer import FIELDS

RUNNING = ("doorway", "waiting", "inside", "leaving")
# the marks that a lock may make, each with its spelling
MARKS = {
    "call": r"call \S.*",
    "wait": r"wait \d+",
    "enter": r"enter",
    "taken": r"taken \S.*",
    "leave": r"leave",
    "answer": r"answer \S.*",
}
# the marks that the search itself makes
OF_THE_SEARCH = ("fail", "withdraw", "down", "restart")
NO_REPLIES = ("tickets-full", "stamps-full", "withdrawn")
BIT = re.compile(r"(\d+)\.(\w+)\.(\d+)\.(\d+)")
MOST_MARKS = 3


class Form(NamedTuple):
    """What decides which entries of a process are refused: its stage, its open access, the reply that it took, and whether it has
    withdrawn."""

    stage: str = "idle"
    opened: tuple | None = None
    reply: str | None = None
    has_withdrawn: bool = False


def width_of(field, lock):
    """Returns the number of bits that a field has in a record of a lock."""
    return lock.tickets or FIELDS[field] if field == "ticket" else FIELDS[field]


def refused_access(form, me, lock, bit, move):
    """Returns the first refusal of an access, or None."""
    spelled = BIT.fullmatch(bit)
    if not spelled or spelled[2] not in FIELDS:
        raise Mistake(f"`{bit}` is not a bit of a record; the fields are {', '.join(FIELDS)}")
    owner, number, reader = (int(spelled[at]) for at in (1, 3, 4))
    reads = move in ("read", "value")
    refusals = {
        "no-bit": max(owner, reader) >= lock.processes or number >= width_of(spelled[2], lock),
        "not-owner": not reads and owner != me,
        "not-reader": reads and reader != me,
        "not-running": move != "settle" and form.stage not in RUNNING and (form.stage != "settling" or reads),
        "not-open": move in ("end", "value") and form.opened != (bit, {"end": "write", "value": "read"}[move]),
        "access-open": move in ("write", "read") and form.opened is not None,
    }
    return next((name for name, is_refused in refusals.items() if is_refused), None)


def refused_mark(form, mark):
    """Returns the first refusal of a mark, or None."""
    word, reply = mark.split()[0], mark.partition(" ")[2]
    refusals = {
        "call": {"busy": form.stage in RUNNING},
        "wait": {"not-in-doorway": form.stage != "doorway"},
        "enter": {"not-waiting": form.stage != "waiting"},
        "taken": {"not-inside": form.stage != "inside", "taken-before": form.reply is not None},
        "leave": {"not-inside": form.stage != "inside"},
        "answer": {
            "not-leaving": form.stage not in ("doorway", "leaving"),
            "was-withdrawn": form.has_withdrawn and reply != "withdrawn",
            "other-reply": form.reply is not None and reply != form.reply,
            "not-taken": form.reply is None and reply.partition(" ")[0] not in NO_REPLIES,
            "not-withdrawn": not form.has_withdrawn and reply == "withdrawn",
            "access-open": form.opened is not None,
        },
    }
    return next((name for name, is_refused in refusals[word].items() if is_refused), None)


def after_mark(form, mark):
    """Returns the form after a mark."""
    word, reply = mark.split()[0], mark.partition(" ")[2]
    after = {
        "call": lambda: Form("doorway"),
        "wait": lambda: form._replace(stage="waiting"),
        "enter": lambda: form._replace(stage="inside"),
        "taken": lambda: form._replace(reply=reply),
        "leave": lambda: form._replace(stage="settling" if form.stage == "settling" else "leaving"),
        "answer": lambda: Form(),
        "fail": lambda: Form("settling", form.opened if form.opened and form.opened[1] == "write" else None),
        "withdraw": lambda: form._replace(stage="leaving", has_withdrawn=True),
        "down": lambda: Form("down"),
        "restart": lambda: Form(),
    }
    return after[word]()


def after_access(form, bit, move):
    """Returns the form after an access. A process that fails or withdraws drops its read by the move `drop`."""
    word = move.split()[0]
    return form._replace(opened=(bit, word) if word in ("write", "read") else None)


def formed(form, me, lock, bit, move, marks):
    """Returns the law and the refusal of an entry, or None, and the form after it."""
    access = move.split()[0] if move and move != "drop" else ""
    name = refused_access(form, me, lock, bit, access) if access else None
    refusal = ("access", name) if name else None
    if move:
        form = after_access(form, bit, move)
    if len(marks) > MOST_MARKS:
        raise Mistake(f"an entry has at most {MOST_MARKS} marks, and this one has {', '.join(marks)}")
    for mark in marks:
        word = mark.split()[0] if mark.split() else ""
        # the memory unit's own marks are in order, and so is its `leave`
        is_own = word not in OF_THE_SEARCH and form.stage != "settling"
        if is_own and not re.fullmatch(MARKS.get(word, "(?!)"), mark):
            raise Mistake(f"`{mark}` is not a mark; the marks are {', '.join(MARKS)} (docs/JUDGE_YOUR_LOCK.md)")
        name = refused_mark(form, mark) if is_own else None
        refusal = refusal or (("marks", name) if name else None)
        form = after_mark(form, mark)
    return refusal, form
