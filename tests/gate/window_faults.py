"""Reads a part of a picture, and compares it with a second reading (second/drawn_windows.py).

A picture with `--from` and `--to` has the columns of some entries, and its left edge shows what lasts there: the stages, the words of those
that wait, the open accesses, the waves, the store, and what a verdict names. A mark of a part is the mark of the whole picture at another
place.
"""

import html
import re
import xml.etree.ElementTree as tree
from typing import NamedTuple

import drawn_verdicts
from drawn_accesses import Band, ends_of, lines_of, seen_in, wave_faults
from drawn_accesses import band_faults as box_faults
from drawn_records import bands_in, stray_words
from pictures import LEFT, SVG, Group, State, band_faults, bars_of, bracket_faults, is_in_box, overlapped_in, read_faults, title
from pictures import word_faults
from second import drawn_windows as second
from second.drawn_accesses import MOST_WAVES, overlapped_reads
from second.drawn_verdicts import read_verdict

# a bar that is free for so many pixels has its words there
ROOM = 130
BRACKET, TAKEN = re.compile(r"M(\d+) "), re.compile(r"\d+ \d+ taken (\d+)")
# the bands of a page, the parts of a picture, which are its bands and the legend, and the store of a slider
BAND, PARTS = re.compile(r'<svg class="band"[^>]*>\n(.*?)</svg>', re.DOTALL), re.compile("<g transform=")
SLIDER = re.compile(r'<input id="at"[^>]* data-s="([^"]*)"')


class Drawn(NamedTuple):
    """A picture that is read: its bands, and the groups of each that are marks in a column; and what the elements of its title and its
    legend say, each before its children."""

    root: tree.Element
    bands: list
    marks: list
    frame: list


def drawn(picture):
    root = tree.fromstring(picture)
    bands = bands_in(root)
    marks = [[mark for mark in groups_of(band, "m") if not is_in_box(mark, band)] for band in bands]
    frame = [part for part in root if part.tag in (SVG + "title", SVG + "desc", SVG + "text")]
    frame = [*frame, *[part for part in root if part.get("transform")][-1]]
    return Drawn(root, bands, marks, [(it.tag, it.attrib, it.text, it.tail, len(it)) for part in frame for it in part.iter()])


def groups_of(band, *styles):
    return [group for group in band if group.tag == SVG + "g" and group.get("class") in styles]


def texts_of(band, style):
    """The words of this style in a band, and not in its groups."""
    return [shape.text for shape in band if shape.tag == SVG + "text" and shape.get("class") == style]


# What is wrong with one window.


def line_faults(picture, story, window):
    wanted = second.lines_shown(story, window)
    found = [title(mark) for mark in picture.root.iter(SVG + "g") if mark.get("class") == "m"]
    if found != wanted:
        yield f"the picture has the lines {found[:3]} .. {found[-2:]}, not {wanted[:3]} .. {wanted[-2:]}"


def page_faults(page, picture):
    """What is wrong with the page of a window: it has the bands of the picture, in the same bytes."""
    bands, at = BAND.findall(page), 0
    if len(bands) != len(PARTS.findall(picture)) - 1:
        yield f"the page has {len(bands)} bands"
    for band in bands:
        at = picture.find(band, at)
        if at < 0:
            yield "the page has another band"
            return
        at += len(band)


def placed_state(story, lines):
    """The stages after some lines, of the processes that exist."""
    state = State(["idle"] * story.processes, False)
    for line in lines:
        state = state.after(line) if is_own(story, line) else state
    return state


def is_own(story, line):
    """Whether a line is a mark of a process that exists."""
    words = line.split()
    return words[0].isdigit() and int(words[1]) < story.processes


def stage_faults(picture, story, window):
    """What is wrong with the bars and the shades of each band, from the stages at the left edge on."""
    state = placed_state(story, second.lines_before(story, window))
    for band, marks in zip(picture.bands, picture.marks):
        own = [mark for mark in marks if is_own(story, title(mark))]
        yield from band_faults(band, state, own, False)
        for mark in own:
            state = state.after(title(mark))


def access_places(band):
    """The process and the place of each access that has a column in a band."""
    seen = seen_in(band)
    said = sorted(seen.titles, key=lambda said: int(said.split()[0])) if seen.places else []
    yield from ((int(words.split()[1]), x) for words, x in zip(said, seen.places))


def waiting_faults(picture, story, window):
    """What is wrong with the words of the bars of those that wait. Words have room up to the next column of their process."""
    before = [line for line in second.lines_before(story, window) if is_own(story, line)]
    for band, marks in zip(picture.bands, picture.marks):
        own = [(number_of(mark, "data-x"), title(mark)) for mark in marks if is_own(story, title(mark))]
        words = [word for word in band.iter(SVG + "text") if word.get("class") == "stage"]
        for process, (middle, is_full) in drawn_verdicts.lanes_of(band).items():
            shown = sorted((number_of(word, "x"), word.text) for word in words if number_of(word, "y") - 3 == middle)
            accesses = [(x, "") for its_process, x in access_places(band) if its_process == process]
            first = min(x for x, _ in [*own, *shown, *accesses, (second.GREATEST, "")])
            if is_full and waits_until(band, process) >= LEFT + ROOM <= first:
                yield f"the bar of process {process} has no words at the left edge"
            for x, text in shown:
                lines = [*before, *(line for at, line in own if at <= x)]
                if placed_state(story, lines).stages[process] == "waiting" and text != waiting_text(story, lines, process):
                    yield f"the bar of process {process} has {text}, not {waiting_text(story, lines, process)}, at {x}"
        before += [line for _, line in own]


def waits_until(band, process):
    """Where the bar at the left edge ends, if its process waits there."""
    begin, end, stage = bars_of(band)[process][0]
    return end if stage == "waiting" else begin


def waiting_text(story, lines, process):
    """The words in the bar of a process that waits. A trace has no line of processes."""
    return second.waiting_words(lines, process) if story.has_store else "waiting"


def number_of(shape, key):
    return int(shape.get(key))


def column_faults(picture, story, window, entries):
    """What is wrong with the numbers of the columns, of which these entries have one besides the lines, and with those between them."""
    columns = second.columns_shown(story, window, entries)
    numbers = [int(number) for band in picture.bands for number in texts_of(band, "event")]
    own = {*entries, *(line.at for line in story.lines if line.is_mark and is_own(story, line.text))}
    wanted = [at for at in columns if at in own and window.shows_entry(at)]
    if sorted(set(numbers)) != wanted or numbers != sorted(numbers):
        yield f"the columns are {numbers[:9]}, not {wanted[:9]}"
    gaps = [gap for band in picture.bands for gap in texts_of(band, "gap")]
    if gaps != second.gaps_shown(window, columns):
        yield f"the numbers between columns are {gaps[:9]}, not {second.gaps_shown(window, columns)[:9]}"


def history_faults(picture, story, window):
    """What is wrong with the words of the store, and with the knots: each has the place that its line states."""
    words = [[word for word in texts_of(band, "store") if word.startswith("opens with")] for band in picture.bands]
    wanted = second.opening_words(story, window)
    if [word for found in words for word in found] != [wanted][: wanted is not None] or any(words[1:]):
        yield f"the history begins with {words}, not {wanted}"
    if wanted:
        # the line through the knots begins at the first of them, and not at the left edge, where the words are
        places = [number_of(mark, "data-x") for mark in picture.marks[0] if TAKEN.match(title(mark))]
        chains = [line[0] for line in lines_of(picture.bands[0], "chain")]
        if chains and chains != places[:1]:
            yield f"the line of the history begins at {chains}, where words are, and not at {places[:1]}"
    for mark in (mark for marks in picture.marks for mark in marks):
        found = TAKEN.match(title(mark))
        knots = [word.text for word in mark.iter(SVG + "text") if word.get("class") in ("in", "in-w")]
        if found and is_own(story, title(mark)) and knots != [found[1]] * 2:
            yield f"{title(mark)} has the knots {knots}"


def access_faults(picture, story, window, accesses):
    """What is wrong with the accesses of a window, of these of the whole file."""
    seen, opened, waves = [seen_in(band) for band in picture.bands], second.opened_before(accesses, window), []
    done, to_come = [it for it in accesses if it.event < window.first], [it for it in accesses if window.shows_entry(it.event)]
    titles = sorted(text for band in seen for text in band.titles)
    if titles != sorted(access.title() for access in to_come):
        yield f"the accesses are {titles[:5]}, not {sorted(access.title() for access in to_come)[:5]}"
        return
    for band, found in zip(picture.bands, seen):
        own, to_come = to_come[: len(found.places)], to_come[len(found.places) :]
        done += own
        wanted = Band(own, found.places, opened, overlapped_reads(done), ends_of(band))
        yield from box_faults(found, wanted, own)
        yield from wave_faults(found, own, wanted.places, waves, ends_of(band))
        opened = wanted.opened
    if to_come:
        yield f"{len(to_come)} accesses have no column"


def no_access_faults(picture):
    seen = [seen_in(band) for band in picture.bands]
    yield from (f"accesses are shown: {band.titles[:3]}" for band in seen if band.places or band.boxes or band.waves)


def verdict_faults(picture, story, window, accesses):
    """What is wrong with the verdict of a window: it is shown if the last entry is not after the window."""
    shapes = [shape for band in picture.bands for shape in drawn_verdicts.of_style(band, "rect", "ruling", "ruling kept", "named", "bad")]
    if not story.told or not window.shows_end(story.count):
        yield from (f"a verdict is shown: {shape.attrib}" for shape in shapes[:1])
        return
    verdict, band = read_verdict(story.told), picture.bands[-1]
    yield from drawn_verdicts.box_faults(band, verdict, story.end)
    places = drawn_verdicts.places_of(band)
    yield from drawn_verdicts.column_faults(band, verdict, places)
    if len(picture.bands) == 1:
        # the axis begins at the first entry of the window, and what began before does at the left edge
        places = {window.first: LEFT, **{it.since: LEFT for it in verdict.pointers if it.since < window.first}} | places
    yield from drawn_verdicts.pointer_faults(band, verdict, places, {access.process for access in accesses})


def overlap_faults(picture, reads, window):
    """What is wrong with the overlapped reads of a window: those that end in it. A bracket that began before it begins at the left edge."""
    shown = [read for read in reads if window.shows_entry(read.end)]
    groups = [group for band in picture.bands for group in groups_of(band, "m", "r")]
    words = [[word.text for word in group.iter(SVG + "text")] for group in groups]
    yield from read_faults([Group(each.get("class"), [title(each)], said) for each, said in zip(groups, words)], shown)
    yield from bracket_faults(picture.bands)
    titles = {read.title() for read in shown if read.begin < window.first}
    for band in picture.bands:
        brackets = [BRACKET.match(shape.get("d"))[1] for shape in band if shape.get("class") == "open"]
        for group, begin in zip(groups_of(band, "r"), brackets):
            if title(group) in titles and begin != str(LEFT):
                yield f"the bracket of {title(group)} begins at {begin}"


# What is wrong with a window beside the whole picture.


def shape_of(mark):
    """What a mark shows, without its place."""
    keys = ["class", "data-l", "data-s", "data-q"]
    return [(it.tag, it.text, *map(it.get, keys)) for it in mark.iter() if it.tag != SVG + "path"]


def mark_faults(picture, whole):
    """What is wrong with the marks of a window: they follow one another in the whole picture, where they show the same."""
    own, all_own = ([shape_of(mark) for marks in it.marks for mark in marks] for it in (picture, whole))
    if not any(all_own[at : at + len(own)] == own for at in range(len(all_own) - len(own) + 1)):
        other = next((shape for shape in own if shape not in all_own), own)
        yield f"the marks are not those of the whole picture: {other}"


def frame_faults(picture, whole):
    """What is wrong with the title and the legend, which are those of the whole picture."""
    if picture.frame != whole.frame:
        yield "the title or the legend is not that of the whole picture"


def store_faults(page, story, window):
    """What is wrong with the store that the slider of a page begins with."""
    found = [html.unescape(store) for store in SLIDER.findall(page)]
    wanted = " ".join(story.store_before(window.first)) or "empty" if story.has_store else ""
    if found != [wanted]:
        yield f"the page begins with the store {found}, not {wanted}"


# All together.


def content_faults(story, window, options, picture):
    """What is wrong with what a window shows."""
    shows_all = story.shows_accesses(window, options)
    limit = None if "--accesses" in options else MOST_WAVES
    accesses = list(second.with_waves(story, window, limit)) if shows_all else []
    yield from line_faults(picture, story, window)
    yield from stage_faults(picture, story, window)
    yield from waiting_faults(picture, story, window)
    reads = list(overlapped_in(story.record)) if "--reads" in options and not shows_all else []
    ends = second.reads_shown(story, window, [read.end for read in reads])
    yield from column_faults(picture, story, window, [*(access.event for access in accesses), *ends])
    yield from history_faults(picture, story, window)
    yield from access_faults(picture, story, window, accesses) if shows_all else no_access_faults(picture)
    yield from verdict_faults(picture, story, window, accesses)
    if stray_words(picture.root):
        yield f"words stand outside: {stray_words(picture.root)[:3]}"
    # the words of an entry of a record with three marks may touch
    if story.is_run or not story.has_store:
        yield from word_faults(picture.root)
    if "--reads" in options and not shows_all:
        yield from overlap_faults(picture, reads, window)
