#!/usr/bin/env python3
"""Races the files of docs/RACES.md again and again, by the proved program that `rt ci` or `rt run` leaves: each text must be
one of those that stand beside one another below its file, and those are held against all orders of the file's calls.

The orders are made by `second/race_texts.py`. The texts in which no call gives up are those of the
orders, neither more nor fewer.
"""

import collections
import pathlib
import re
import subprocess
import sys

sys.path.insert(0, str(pathlib.Path(__file__).resolve().parents[1]))

from lib.counting import Counter
from lib.places import PROGRAM, TOP
from second.race_texts import texts_beside, texts_of_orders

PAGE = TOP / "docs" / "RACES.md"
RACES = 200


def files_of(page):
    """Each file of a page, with the texts of the block below it."""
    blocks = re.findall(r"^```text\n(.*?)^```$", page.read_text(), re.M | re.S)
    for file, block in zip(blocks[::2], blocks[1::2], strict=True):
        yield file, texts_beside(block)


def main():
    counter = Counter()
    for file, texts in files_of(PAGE):
        orders = {text for text in texts if " - " not in text} == texts_of_orders(file)
        counter.count(orders, f"the texts below\n{file}are not those of its orders:\n" + "\n".join(sorted(texts_of_orders(file))))
        printed = collections.Counter()
        for _ in range(RACES):
            ran = subprocess.run([PROGRAM, "race", "-"], input=file, capture_output=True, text=True, timeout=60)
            printed[ran.returncode, ran.stderr, ran.stdout] += 1
        for (status, told, text), times in printed.items():
            good = (status, told) == (0, "") and text in texts
            counter.count(good, f"{times} times status {status}\n{told}{text}of\n{file}")
            counter.add(*((times - 1, 0) if good else (0, times - 1)))
        print(f"{len(printed)} texts of {len(texts)} in {RACES} races")
    counter.end()


if __name__ == "__main__":
    main()
