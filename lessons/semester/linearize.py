#!/usr/bin/env python3
"""Checks that the calls of a run are linearizable, with the history as witness, and searches for an order without it.

bakerystore calls FILE | linearize.py [NAME=NUMBER ..] reads the table of calls. The arguments are the counters of the opening store.

- With the history: the command of each finished call is taken once, between its call and its answer, and each reply is that of the
  store of one thread that makes the commands in the order of their places. This takes one pass.
- Without it: the script looks for any order of the calls that keeps the order of calls that do not overlap and in which all replies are
  those of one thread (Wing and Gong 1993). It counts the calls that it tries; in the worst case there are as many as orders.

The commands are `write NAME c:N`, `add NAME N`, `read NAME` and `ask`. A call without an answer may have taken effect or not.
"""

import csv
import sys
from typing import NamedTuple


class Call(NamedTuple):
    """A call: who makes it and which of its calls it is, its command, the events at which it began and ended, and its result. `place`
    and `taken` are its place in the history and the event at which it was taken, or None."""

    process: str
    number: int
    command: str
    called: int
    answered: float
    answer: str
    place: int | None
    taken: int | None

    @property
    def name(self):
        return f"{self.process}: {self.command}"


def call_of(row):
    """Returns the call of a row of the table."""
    number = lambda name: int(row[name]) if row[name] else None
    answered = number("answered")
    return Call(
        *(row["process"], number("call"), row["command"], number("called")),
        *(float("inf") if answered is None else answered, row["answer"], number("place"), number("taken")),
    )


def taken(store, call):
    """Returns the store after a command, and its reply: what one thread would get. The store has the last call of each process that
    changed it, too."""
    kind, *words = call.command.split()
    name = words[0] if words else None
    before = store.get(name)
    if kind == "ask":
        return store, f"last {store.get(('last', call.process), 0)}"
    if kind == "read":
        return store, "no-name" if before is None else f"value c:{before}"
    if kind == "write" and words[1].startswith("c:"):
        after, reply = int(words[1][2:]), "done"
    elif kind == "add" and before is not None:
        after = before + int(words[1])
        reply = f"sum {after}"
    else:
        sys.exit(f"linearize.py: {call.command}: this command is not one of those that the script knows")
    changed = {} if after == before else {("last", call.process): call.number}
    return {**store, name: after, **changed}, reply


def fault_by_history(calls, store):
    """Returns what is wrong with the history as a witness, or None."""
    done = sorted((call for call in calls if call.place is not None), key=lambda call: call.place)
    if [call.place for call in done] != [*range(len(done))]:
        return "the places are not 0, 1, 2 and so on"
    for call in done:
        if not call.called < call.taken < call.answered:
            return f"{call.name} is not taken between its call and its answer"
        store, reply = taken(store, call)
        if call.answer not in ("", reply):
            return f"{call.name} has {call.answer}, and one thread gets {reply}"
    missing = [call.name for call in calls if call.place is None and call.answer.split()[:1] not in ([], ["withdrawn"], ["tickets-full"])]
    return f"{missing[0]} is answered and not taken" if missing else None


def order_of(remaining, store, tried):
    """Returns an order of these calls in which each reply is that of one thread, or None. Each call that is tried is added to `tried`."""
    if all(call.answer == "" for call in remaining):
        return []
    first_end = min(call.answered for call in remaining)
    for call in remaining:
        if call.called > first_end:
            continue
        tried.append(call)
        after, reply = taken(store, call)
        if call.answer in ("", reply):
            rest = order_of([it for it in remaining if it != call], after, tried)
            if rest is not None:
                return [call, *rest]
    return None


def main():
    store = {name: int(number) for name, _, number in (word.partition("=") for word in sys.argv[1:])}
    calls = [call_of(row) for row in csv.DictReader(sys.stdin)]
    fault = fault_by_history(calls, store)
    print(f"with the history: {fault or 'it is a witness'}")
    # calls that gave up have no effect
    calls = [call for call in calls if call.answer.split()[:1] not in (["withdrawn"], ["tickets-full"])]
    tried = []
    order = order_of(calls, store, tried)
    found = "no order" if order is None else ", ".join(call.name for call in order)
    print(f"without it: {found} (calls tried: {len(tried)})")


if __name__ == "__main__":
    main()
