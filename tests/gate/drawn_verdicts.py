"""Reads back the verdict of a picture, and compares it with a second reading (second/drawn_verdicts.py).

The box below the last band has the sentence and the lines. In the band the column of the bad entry is shaded, and what the lines name is
outlined from the entry that they name to the bad one, with words; from who waits or is inside an arrow leads to the process of the
bad entry. The places of columns are those of their marks and of the numbers above them.
"""

import re

from pictures import SVG, title
from second.drawn_verdicts import read_verdict

LINE = re.compile(r"M(\d+) (\d+)L(\d+) (\d+)")
TIP = re.compile(r"M(\d+) (\d+)l-4 (-?7)h8z")
LEFT = 52
KEYS = ["the bad entry", "what the verdict names; an arrow leads to who breaks the law"]


def of_style(band, tag, *styles):
    """The shapes of a tag and of some styles, in their order."""
    return [shape for shape in band.iter(SVG + tag) if shape.get("class") in styles]


def number(shape, key):
    return int(shape.get(key))


def lanes_of(band):
    """The middle line of each lane, and whether it is a full one, by its process."""
    names = [name for name in of_style(band, "text", "lane", "thin") if re.fullmatch(r"P\d+", name.text or "")]
    return {int(name.text[1:]): (number(name, "y") - 4, name.get("class") == "lane") for name in names}


def places_of(band):
    """The place of each entry that has a column. In the lane of the history, a column has no number above it."""
    marks = [mark for mark in band.iter(SVG + "g") if mark.get("class") == "m" and title(mark)[0].isdigit()]
    marked = {int(title(mark).split()[0]): number(mark, "data-x") for mark in marks}
    return marked | {int(label.text): number(label, "x") - 3 for label in of_style(band, "text", "event")}


def place_of(places, entry):
    """Where an entry is in a band: in its column, between two columns, or at the left edge; None if only the program can tell."""
    if entry in places:
        return places[entry]
    before, after = [at for at in places if at < entry], [at for at in places if at > entry]
    if not before:
        return LEFT if not after else None
    if not after:
        return places[max(before)]
    left, right = max(before), min(after)
    return places[left] + (places[right] - places[left]) * (entry - left) // (right - left)


def outlines_of(band):
    """The outlines of a band, each with its words; the key below the band has one more."""
    boxes, words = of_style(band, "rect", "named"), of_style(band, "text", "because")
    return [(number(box, "x"), number(box, "x") + number(box, "width"), number(box, "y"), word.text) for box, word in zip(boxes, words)]


def box_faults(band, verdict, last):
    """What is wrong with the box below a band."""
    if [label.text for label in of_style(band, "text", "sentence")] != [verdict.sentence][: bool(verdict.sentence)]:
        yield "another sentence"
    rows = [mark for mark in band.iter(SVG + "g") if mark.get("class") == "m"][-len(verdict.lines) - 1 :]
    if [title(mark) for mark in rows] != [*(f"judge {line}" for line in verdict.lines), last]:
        yield "other titles in the box"
    if [[label.text for label in mark.iter(SVG + "text")] for mark in rows] != [[line] for line in [*verdict.lines, last]]:
        yield "other words in the box"
    box = of_style(band, "rect", "ruling" if verdict.process is not None else "ruling kept")
    if len(box) != 1:
        yield f"{len(box)} boxes"
    elif any(not inside(label, box[0]) for mark in rows for label in mark.iter(SVG + "text")):
        yield "words of a line are not in the box"
    keys = [label.text for label in of_style(band, "text", "key") if label.text in KEYS]
    if keys != (KEYS if verdict.process is not None else []):
        yield "another key"


def inside(label, box):
    return number(box, "y") < number(label, "y") < number(box, "y") + number(box, "height")


def column_faults(band, verdict, places):
    """What is wrong with the shade of the bad entry's column."""
    shades = [number(shade, "x") + 3 for shade in of_style(band, "rect", "bad") if number(shade, "y") == 20]
    wanted = [places[verdict.entry]] if verdict.process is not None and verdict.entry in places else []
    if shades != wanted:
        yield f"shades at {shades}, the bad entry at {wanted}"


def arrows_of(band):
    """The arrows of a band: the place, where each begins, and its tip."""
    lines = [tuple(map(int, LINE.fullmatch(path.get("d")).groups())) for path in of_style(band, "path", "blame")]
    tips = [tuple(map(int, TIP.fullmatch(path.get("d")).groups())) for path in of_style(band, "path", "blame-tip")]
    return [(line[0], line[1], tip[1]) for line, tip in zip(lines, tips)]


def pointer_faults(band, verdict, places, shows):
    """What is wrong with the outlines and arrows of a band, in which these processes show accesses."""
    lanes, seen, arrows = lanes_of(band), outlines_of(band), arrows_of(band)
    edge = places.get(verdict.entry)
    for pointer in verdict.pointers:
        start = place_of(places, pointer.since)
        if edge is None or start is None or pointer.process not in lanes or start >= edge:
            continue
        if pointer.is_of_accesses and pointer.process not in shows:
            if pointer.words in [outline[3] for outline in seen]:
                yield f"{pointer.words} is outlined without accesses"
            continue
        middle, is_full = lanes[pointer.process]
        top = (middle + 23 if is_full else middle + 11) if pointer.is_of_accesses else middle - (14 if is_full else 6)
        if (start, edge, top, pointer.words) not in seen:
            yield f"{pointer.words} of process {pointer.process} is not outlined from {start} to {edge} at {top}: {seen}"
        other = lanes.get(verdict.process)
        if pointer.has_arrow and other and pointer.process != verdict.process:
            away = (9 if other[1] else 5) * (1 if middle > other[0] else -1)
            if (edge - 4, middle, other[0] + away) not in arrows:
                yield f"no arrow from process {pointer.process} to {verdict.process}: {arrows}"


def verdict_faults(bands, told, last, shows):
    """What is wrong with the verdict of a picture whose judge tells these lines, and that has this last line. `shows` are the processes
    that show accesses in the last band."""
    if not told:
        if any(of_style(band, "rect", "ruling", "ruling kept", "named", "bad") for band in bands):
            yield "a verdict is shown, but none is told"
        return
    verdict, band = read_verdict(told), bands[-1]
    if any(of_style(other, "rect", "ruling", "ruling kept", "named", "bad") for other in bands[:-1]):
        yield "a verdict is shown above the last band"
    places = places_of(band)
    yield from box_faults(band, verdict, last)
    yield from column_faults(band, verdict, places)
    yield from pointer_faults(band, verdict, places, shows)
