"""What a picture shows of a verdict, by docs/PICTURE.md alone.

The input is what `judge --why` prints, line by line. A picture that is judged ends with its bad entry. Below its last band is a box with
a sentence, the lines of the judge, and the last line. Some lines name the stage or the access of a process since an entry.
"""

from typing import NamedTuple

# what a line names, by its first word: the words at the outline, and whether an arrow leads to the process of the bad entry
NAMED = {
    "waits": ("waits since", True),
    "inside": ("inside since", True),
    "doorway": ("doorway counts from", False),
    "open": ("open since", False),
    "torn": ("torn since", False),
}
# lines whose first number is a process
WITH_PROCESS = ("waits", "inside")
# outlines of accesses, and not of a stage
OF_ACCESSES = ("open", "torn")
DEEDS = {
    "safe": "reads a value that a safe bit may not give",
    "memory": "reads a value that its memory may not give",
    "access": "makes an access that the rules refuse",
    "marks": "has a mark that the rules refuse",
    "history": "takes its command at a wrong position or with a wrong reply",
}


class Pointer(NamedTuple):
    """What a line names: a process since an entry, with words at the outline."""

    word: str
    process: int
    since: int

    @property
    def words(self):
        return f"{NAMED[self.word][0]} {self.since}"

    @property
    def has_arrow(self):
        return NAMED[self.word][1]

    @property
    def is_of_accesses(self):
        return self.word in OF_ACCESSES


class Verdict(NamedTuple):
    """What a judge tells: the bad entry and its process, if there is one, and the lines."""

    entry: int | None
    law: str | None
    process: int | None
    lines: list

    @property
    def pointers(self):
        for line in self.lines:
            word, *numbers = line.split()
            if word in WITH_PROCESS:
                yield Pointer(word, int(numbers[0]), int(numbers[1]))
            elif word in NAMED and self.process is not None:
                yield Pointer(word, self.process, int(numbers[0]))

    @property
    def sentence(self):
        if self.entry is None:
            return "each entry keeps all laws"
        if self.process is None:
            return ""
        others = {pointer.word: pointer.process for pointer in reversed(list(self.pointers)) if pointer.word in WITH_PROCESS}
        if self.law == "together" and others:
            return f"process {self.process} enters while process {others.get('inside', others.get('waits'))} is inside"
        if self.law == "overtaken" and others:
            return f"process {self.process} enters although process {others.get('inside', others.get('waits'))} had finished its doorway first"
        return f"process {self.process} {DEEDS.get(self.law, f'breaks the law {self.law}')}"


def read_verdict(told):
    """The verdict of which these lines tell."""
    spelled = [line.split() for line in told]
    bad = next((words for words in spelled if words[0] == "bad"), None)
    process = next((int(words[1]) for words in spelled if words[0] == "is"), None)
    if bad is None:
        return Verdict(None, None, None, told)
    return Verdict(int(bad[1]), bad[2], process, told)
