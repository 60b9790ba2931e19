"""A second reading of the one-thread store: what a command answers, and what stands in the store after it.

Written from docs/MODEL.md alone. Nothing here is shared with the programs that it is held against.
"""

from dataclasses import dataclass

OTHER_ANSWERS = ("tickets-full", "stamps-full", "withdrawn")
GREATEST = 2**63 - 1
# the bytes that a pair takes in an image
SLOT = 23


@dataclass
class Call:
    process: int
    number: int
    place: int | None
    command: list
    answer: str | None

    def has_reply(self):
        return self.answer is not None and self.answer.split()[0] not in OTHER_ANSWERS

    def is_taken(self):
        return self.place is not None


class Store:
    """The one-thread store: pairs in order of first write, and a number for each caller."""

    def __init__(self, slots, pairs, numbers):
        self.slots, self.pairs, self.numbers = slots, dict(pairs), list(numbers)

    def after(self, call):
        """The store after a command, and the reply."""
        pairs, reply = self.after_command(call)
        numbers = list(self.numbers)
        if numbers and list(pairs.items()) != list(self.pairs.items()):
            numbers[call.process] = call.number
        return Store(self.slots, pairs, numbers), reply

    def after_command(self, call):
        pairs = dict(self.pairs)
        kind, *words = call.command
        if kind == "ask":
            return pairs, f"last {self.numbers[call.process] if self.numbers else 0}"
        name, *values = words
        there = pairs.get(name)
        if kind == "write":
            if there is None and len(pairs) == self.slots:
                return pairs, "store-full"
            pairs[name] = values[0]
            return pairs, "done"
        if there is None:
            return pairs, "no-name"
        if kind == "read":
            return pairs, f"value {there}"
        if kind == "cas":
            if there != values[0]:
                return pairs, f"kept {there}"
            pairs[name] = values[1]
            return pairs, "swapped"
        if there.startswith("t:"):
            return pairs, "not-counter"
        total = int(there[2:]) + int(values[0])
        if not -GREATEST - 1 <= total <= GREATEST:
            return pairs, "overflow"
        pairs[name] = f"c:{total}"
        return pairs, f"sum {total}"

    def is_changed_by(self, call):
        return self.after(call)[0].pairs != self.pairs

    def shown(self):
        """The line of `show`."""
        pairs = [f"{name}={value}" for name, value in self.pairs.items()]
        return " ".join(["show", *(pairs or ["empty"])])

    def image(self):
        """The bytes of its image: a slot for each pair, then unused ones, then the numbers."""
        slots = [slot(name, value) for name, value in self.pairs.items()]
        unused = [bytes(SLOT)] * (self.slots - len(slots))
        return b"".join([*slots, *unused, *(number.to_bytes(2, "big") for number in self.numbers)]).hex()


def slot(name, value):
    kind, text = value[0], value[2:]
    held = int(text).to_bytes(8, "big", signed=True) if kind == "c" else text.encode()
    head = bytes([1 if kind == "c" else 2, len(name)]) + name.encode().ljust(8, b"\0")
    return head + bytes([len(held)]) + held.ljust(12, b"\0")
