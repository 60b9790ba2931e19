#!/usr/bin/env python3
"""Holds the definitions that pages of docs/ quote against the sources.

A quote is a block of `antt`. The line above it names its definitions, each as [`Name`, in `crate/specs/File.antt`](..), in their
order; the block has just these, each with its comment, as the files have them. With `--write` the blocks are written anew. That
the links lead to their lines is for claims.py.
"""

import pathlib
import re
import sys

sys.path.insert(0, str(pathlib.Path(__file__).resolve().parents[1]))

from lib.counting import Counter
from lib.places import TOP
from lib.sources import FOLDER, definition_text

QUOTE = re.compile(r"^(?P<names>[^\n]*)\n+(?P<block>```antt\n(?P<text>.*?)```)$", re.M | re.S)
NAME = re.compile(r"\[`(?P<name>[^`\s]+)`, in `(?P<file>\w+/specs/[\w/]+\.antt)`\]")
# the page that quotes, at least
MODEL = TOP / "docs" / "MODEL.md"


def wanted(names):
    """What a block has to be below this line; none, if the line names no definition, or one that is not there."""
    texts = [definition_text(FOLDER / found["file"], found["name"]) for found in NAME.finditer(names)]
    return "\n\n".join(texts) + "\n" if texts and all(texts) else None


def written(text):
    """A page with its quotes written anew, as far as what they name is there."""
    for found in list(QUOTE.finditer(text)):
        quote = wanted(found["names"])
        if quote:
            text = text.replace(found.group(), found.group().replace(found["block"], f"```antt\n{quote}```"))
    return text


def main():
    counter = Counter()
    for page in sorted((TOP / "docs").glob("*.md")):
        text = page.read_text()
        if sys.argv[1:] == ["--write"]:
            text = written(text)
            page.write_text(text)
        quotes = list(QUOTE.finditer(text))
        counter.count(len(quotes) == text.count("```antt\n"), f"{page.name} has a block of `antt` that is no quote")
        counter.count(quotes or page != MODEL, f"{page.name} quotes nothing")
        for found in quotes:
            quote = wanted(found["names"])
            told = f"{page.name}: {found['names']} says otherwise: python3 tests/gate/quotes.py --write"
            counter.count(quote == found["text"], told)
    counter.end()


main()
