"""The wrong bodies that the prover must refuse: the must-fail edits of the crates, which `rt ci` tries.

crates/CRATE/must-fail/NAME.edit has the lines `# refused: FUNCTION`, the name of the function that must be refused as a check prints
it, or the end of that; `file: PATH`, of a file of the crate; and pairs of `old: TEXT` and `new: TEXT`. Each old text stands once in
that file. `rt ci` skips the first line.
"""

from typing import NamedTuple

from lib.places import TOP

FOLDER = TOP / "crates"


class WrongBody(NamedTuple):
    """The crate and the name of a wrong body, the function that must be refused, and what changes: paths, old and new texts."""

    crate: str
    name: str
    refused: str
    changes: list

    def __str__(self):
        return f"{self.crate}/{self.name}"

    def changed(self, texts):
        """Texts of its crate by their paths, and those that this changes; None where an old text does not stand once in its file."""
        texts = dict(texts)
        for path, old, new in self.changes:
            text = texts.get(path) or (TOP / "crates" / self.crate / path).read_text()
            if text.count(old) != 1:
                return None
            texts[path] = text.replace(old, new)
        return texts


def read(file):
    """The wrong body that a file has."""
    refused, path, old, changes = "", "", "", []
    for line in file.read_text().splitlines():
        word, _, rest = line.partition(": ")
        if word == "# refused":
            refused = rest
        elif word == "file":
            path = rest
        elif word == "old":
            old = rest
        elif word.rstrip(":") == "new":
            changes.append((path, old, rest))
    return WrongBody(file.parent.parent.name, file.stem, refused, changes)


def wrong_bodies():
    """All of them, in the order of their names."""
    return [read(file) for file in sorted(FOLDER.glob("*/must-fail/*.edit"))]
