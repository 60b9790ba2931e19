"""Reads back the accesses of the picture of a trace, and compares them with a second reading (second/drawn_accesses.py).

Each entry that shows an access has a group with its title, and a line through its band. From these lines follow the places at which
boxes begin and end, where ties are, and where waves change.
"""

import re
from typing import NamedTuple

from pictures import LEFT, SVG, title, width_of
from second.drawn_accesses import overlapped_reads, whole_style

LINE = re.compile(r"M(\d+) (\d+)L(\d+) (\d+)")
PROCESS = re.compile(r"P\d+")
# the height of a box, and of a wave's line above its foot
HIGH, WAVE = 28, 30
# where a band has its names; and how far below the name of a process its boxes begin, by the style of the name
NAMES, BELOW = 8, {"lane": 21, "thin": 9}


class Box(NamedTuple):
    """A box: its style, where it begins, where it ends, and its top."""

    style: str
    begin: int
    end: int
    top: int


class Seen(NamedTuple):
    """What a band shows of accesses: the titles of their groups, the places of the columns, the boxes, the ties, the waves, and where
    the boxes of each process begin."""

    titles: list
    places: list
    boxes: list
    ties: list
    waves: list
    tops: dict


def lines_of(band, style):
    """The lines of a style, each by its two ends."""
    found = [shape.get("d") for shape in band.iter(SVG + "path") if shape.get("class") == style]
    return [tuple(map(int, LINE.fullmatch(line).groups())) for line in found]


def is_box(shape):
    """Whether a shape is the box of an access."""
    return shape.tag == SVG + "rect" and shape.get("class", "").split()[:1] in (["read"], ["write"], ["update"], ["overlapped"])


def waves_of(band):
    """The waves of a band: of each name the edges, the lines and the boxes below it."""
    names = [word for word in band if word.tag == SVG + "text" and word.get("class") == "cell" and word.get("x") == str(NAMES)]
    lines, boxes = lines_of(band, "wave"), [box for box in band if box.get("class") == "unsure"]
    for name in names:
        top = int(name.get("y")) - NAMES
        own = [line for line in lines if top <= line[1] < top + WAVE]
        edges = [x for x, _, to, _ in own if x == to]
        levels = [(x, to, top + WAVE - y) for x, y, to, _ in own if x != to]
        yield name.text, edges, levels, [width_of(box) for box in boxes if top <= int(box.get("y")) < top + WAVE]


def tops_of(band):
    """Where the boxes of each process begin."""
    names = [word for word in band if word.tag == SVG + "text" and word.get("class") in BELOW and word.get("x") == str(NAMES)]
    return {int(name.text[1:]): int(name.get("y")) + BELOW[name.get("class")] for name in names if PROCESS.fullmatch(name.text)}


def seen_in(band):
    """What a band shows of accesses."""
    groups = [group for group in band if group.get("class") == "r"]
    rects = [shape for shape in band.iter(SVG + "rect") if is_box(shape)]
    boxes = [Box(box.get("class"), *width_of(box), int(box.get("y"))) for box in rects]
    places = [line[0] for line in lines_of(band, "guide")]
    return Seen([title(group) for group in groups], places, boxes, lines_of(band, "tie"), [*waves_of(band)], tops_of(band))


def style_of(access, overlapped):
    """The style of the box of an access, by the entry with which it began."""
    return "overlapped" if access.kind == "read" and access.begin in overlapped else access.kind


class Band:
    """What a band is to show, with the places of its columns: of the accesses that these entries show, where some were open before."""

    def __init__(self, shown, places, opened, overlapped, end):
        self.places, self.opened, self.overlapped, self.end = dict(zip([it.event for it in shown], places)), opened, overlapped, end
        self.boxes, self.ties = [], []
        for access in shown:
            self.take(access)
        for process, access in self.opened.items():
            self.box(process, f"{self.style(access)} unended", access.begin, self.end)

    def style(self, access):
        """The style of a box, as far as it is known in this band."""
        return style_of(access, self.overlapped)

    def box(self, process, style, begin, to):
        self.boxes.append((process, style, self.places.get(begin, LEFT), to))

    def take(self, access):
        """Adds what an entry shows."""
        at, before = self.places[access.event], self.opened.pop(access.process, None)
        if before:
            never_ends = "" if access.step == "end" else " unended"
            self.box(access.process, self.style(before) + never_ends, before.begin, at)
        if access.step == "whole":
            self.box(access.process, whole_style(access), access.event, at + 4)
        if access.step == "begin":
            self.opened[access.process] = access
        self.ties += [(at, *sorted((access.process, other))) for other in access.overlaps]


def wave_faults(seen, shown, places, waves, end):
    """What is wrong with the waves of a band, where each had this name, value and write before it."""
    begun = [it.change for it in shown if it.change and it.change.row >= len(waves)]
    for it in shown:
        if it.change and it.change.row == len(waves):
            waves.append([it.cell, it.change.old, it.change.was_open])
    if [name for name, *_ in seen.waves] != [name for name, *_ in waves]:
        yield f"waves of {[name for name, *_ in seen.waves]}, not of {[name for name, *_ in waves]}; {len(begun)} begin"
        return
    for row, (_, edges, levels, boxes) in enumerate(seen.waves):
        changes = [(places[it.event], it.change) for it in shown if it.change and it.change.row == row]
        states = [(LEFT, *waves[row][1:]), *((x, change.value, change.is_open) for x, change in changes)]
        ends = [*(x for x, _ in changes), end]
        wanted = [(x, to, value, is_open) for (x, value, is_open), to in zip(states, ends)]
        open_parts = [(x, to) for x, to, _, is_open in wanted if is_open]
        still = [(x, to, 4 if value == 0 else 16) for x, to, value, is_open in wanted if not is_open]
        if (edges, boxes, levels) != ([x for x, _ in changes], open_parts, still):
            yield f"wave {row} is {edges}, {boxes}, {levels}, not {[x for x, _ in changes]}, {open_parts}, {still}"
        waves[row][1:] = states[-1][1:]


def band_faults(seen, wanted, shown):
    """What is wrong with the boxes and the ties of a band."""
    boxes = [Box(style, begin, end, seen.tops[process]) for process, style, begin, end in wanted.boxes]
    if sorted(boxes) != sorted(seen.boxes):
        yield f"boxes {sorted(seen.boxes)[:9]}, not {sorted(boxes)[:9]}"
    # (a tie may lead to a process that has no box here: a write that its failure interrupted has not ended, but its box has)
    ties = [(x, seen.tops[upper] + HIGH, x, seen.tops[lower]) for x, upper, lower in wanted.ties]
    if sorted(ties) != sorted(seen.ties):
        yield f"ties {sorted(seen.ties)}, not {sorted(ties)}"


def ends_of(band):
    """Where the lanes of a band end: where the last bar does."""
    bars = [width_of(shape)[1] for shape in band if shape.tag == SVG + "rect" and shape.get("class") in STAGES]
    return max([*bars, *(line[2] for line in lines_of(band, "idle"))])


STAGES = ("doorway", "waiting", "inside", "leaving", "settling", "down")


def access_faults(bands, shown):
    """What is wrong with the accesses of a picture, which has these bands and is to show these accesses."""
    seen = [seen_in(band) for band in bands]
    titles = [it for band in seen for it in band.titles]
    if sorted(titles) != sorted(access.title() for access in shown):
        yield f"the titles are {sorted(titles)[:5]}, not {sorted(access.title() for access in shown)[:5]}"
        return
    if sum(len(band.places) for band in seen) != len(shown):
        yield f"{sum(len(band.places) for band in seen)} columns show an access, not {len(shown)}"
        return
    to_come, opened, waves, done = [*shown], {}, [], []
    for band, it in zip(bands, seen):
        own, to_come = to_come[: len(it.places)], to_come[len(it.places) :]
        done += own
        wanted = Band(own, it.places, opened, overlapped_reads(done), ends_of(band))
        yield from band_faults(it, wanted, own)
        yield from wave_faults(it, own, wanted.places, waves, ends_of(band))
        opened = wanted.opened
