"""Soaks: plays many things that are drawn from their numbers, and judges what each leaves. What is not good is kept in a folder."""

import argparse
import collections
import pathlib

from lib.counting import Counter
from second.finished_calls import changed, verdict

CHANGED_COPIES = "changed copies found bad"


def finds_changes(left, told, figures):
    """Whether each copy with one thing changed has the verdict that this change wants."""
    copies = [verdict(other, told) == wanted for other, wanted in changed(left)]
    figures[CHANGED_COPIES] += sum(copies)
    return all(copies)


def soak(about, thing, play, names):
    """Plays so many things as the script's words say, of these numbers: of a number `play` gives what to keep of it and `good`, or
    what is wrong with it, and counts what was tried in figures of these names. Then the figures are printed, and the counts."""
    parser = argparse.ArgumentParser(description=about, formatter_class=argparse.RawDescriptionHelpFormatter)
    parser.add_argument(f"--{thing}s", dest="many", type=int, default=2000)
    parser.add_argument("--first", type=int, default=1)
    parser.add_argument("--keep", type=pathlib.Path, default=pathlib.Path("soak"))
    words = parser.parse_args()
    counter, figures = Counter(), collections.Counter()
    for number in range(words.first, words.first + words.many):
        text, found = play(number, figures)
        counter.count(found == "good", f"{thing} {number}: {found}")
        if found != "good":
            words.keep.mkdir(parents=True, exist_ok=True)
            (words.keep / f"{thing}_{number}").write_text(f"{text}{found}\n")
    print(", ".join(f"{figures[what]} {what}" for what in names))
    counter.end()
