#!/usr/bin/env python3
"""Draws records by the proved program, and reads them back.

The record of each worked scenario is drawn beside the scenario itself. The two differ only in what a record doesn't say: the
list of the scenario's lines, with the number of the line that made a mark; and where the run has them, the lines of refusals,
of `turns` and of `show`, and how many events were refused. Where it has none of these, the bands are the same to the byte. The
record of at most 400 entries shows all accesses, and so does the run with `--accesses` alone. The accesses are compared with a second
reading (second/drawn_record_accesses.py).

Each record of examples/other-locks is drawn, good or bad. A parser of XML reads the picture, and one of HTML the page; the
titles of their marks are the marks of the record, which are read here once more from its words. With `--judge`, and with
`--any-lock`, they are those up to the first bad entry, and then the lines that `judge` prints with `--why`; the verdict is shown as
drawn_verdicts.py reads it; and the status is that of `judge`. A record with a fault has the same fault, told alike with its place, in
`draw`, `draw-svg` and `judge`, of which the page alone may have begun.
"""

import functools
import pathlib
import re
import sys
import xml.etree.ElementTree as tree

sys.path.insert(0, str(pathlib.Path(__file__).resolve().parents[1]))

from drawn_accesses import access_faults, seen_in
from drawn_verdicts import verdict_faults
from lib.counting import Counter
from lib.places import OTHER_LOCKS, TOP, WORKED
from lib.running import runner
from pictures import SVG, Groups, overlapped_in, read_faults, title, words_of
from second.drawn_accesses import MOST_WAVES
from second.drawn_record_accesses import shown_accesses
from second.programs import Setup
from second.record_files import read_record

# lines of a run that its record doesn't say
UNSAID = re.compile(r"- \d+ (refused|turns)|show ")
# what each picture has of the file that it was drawn from: the list of its lines, and which of these made a mark
LIST = re.compile(r"<details open>.*?</details>\n", re.DOTALL)
# the title of a page, which may be a comment of its file, and how the heading begins, which names the kind of the file
HEADING = re.compile(r"<title>[^<]*</title>(?=\n<style>)|(?:Run|Record) of \d+ process(?:es)? \((?:bakery|record) ")
BY_LINE = re.compile(r' data-l="\d+"')
END = re.compile(r"(end events \d+ taken \d+ refused )\d+")
# the most entries of a picture that shows accesses without being asked to, and of one that is drawn with all accesses here
MOST_ENTRIES, MOST_DRAWN = 400, 2_000
MOST_KEPT = 16
# what asks for a verdict in a picture, and alone
JUDGES = [(["--judge"], ["--why"]), (["--any-lock"], ["--any-lock", "--why"])]
# what spoils a record: where a line is put, and that line
SPOILS = [(0, b"bakery 3"), (1, b"slots 9999"), (-1, b"0 0.ticket.0"), (-1, b"x"), (-1, b"#" * 129), (-1, b"slots 2")]


@functools.lru_cache(maxsize=MOST_KEPT)
def run(file, command, *options):
    """How a run ended: its status, what it wrote, and what it told. Several things are read from each run, so the last ones are kept."""
    return tuple(runner().run([command, *options, "-"], file))


def written(file, command, *options):
    status, output, errors = run(file, command, *options)
    assert status == 0 and not errors, (command, status, errors)
    return output.decode()


def bands_of(picture):
    """What a picture shows, without its heading and what it has of its file."""
    return BY_LINE.sub("", LIST.sub("", HEADING.sub("", picture)))


def heard(picture):
    """The groups of a picture or a page, as a parser of HTML reads them."""
    parser = Groups()
    parser.feed(picture)
    return parser.groups


def said_lines(groups):
    """The titles of the marks that a record says too."""
    titles = [group.title[0] for group in groups if group.style == "m"]
    return [END.sub(r"\g<1>0", line) for line in titles if not UNSAID.match(line)]


def run_faults(scenario, record, command, *options):
    """What is otherwise in the picture of a record than in that of its run, beside what a record doesn't say."""
    of_run, of_record = written(scenario, command, *options), written(record, command, *options)
    lines = written(scenario, "replay").splitlines()
    if said_lines(heard(of_run)) != said_lines(heard(of_record)):
        yield "other marks"
    says_all = not any(UNSAID.match(line) for line in lines)
    if says_all and bands_of(of_run) != bands_of(of_record):
        yield "other bands"


def entries_of(record):
    """The words of each entry of a record."""
    said = [line.split() for line in record.decode().splitlines()]
    return [words for words in said if words and words[0][0].isdigit()]


def lines_of(record, told=()):
    """The lines that a picture of a record has, by the record's words: a line for each mark, and a last one. Before that stands what
    a judge tells; if it tells of a bad entry, that is the last one."""
    entries, taken = entries_of(record), 0
    if told and told[0].startswith("bad "):
        entries = entries[: int(told[0].split()[1]) + 1]
    for number, words in enumerate(entries):
        for mark in " ".join(words).split(" : ")[1:]:
            taken += mark.startswith("taken ")
            yield f"{number} {words[0]} {mark}"
    yield from (f"judge {line}" for line in told)
    yield f"end events {len(entries)} taken {taken} refused 0"


def stray_words(root):
    """Words that stand outside of a picture."""
    return [word for word in words_of(root, 0) if word[0] < 0 or word[2] > int(root.get("width")) or word[3] > int(root.get("height"))]


def count_in(wanted):
    """The number of entries that a picture shows, by its last line."""
    return int(wanted[-1].split()[2])


def bands_in(root):
    """The bands of a picture. The last group is the legend."""
    return [group for group in root if group.get("transform")][:-1]


def accesses_shown(record, count, limit=MOST_WAVES):
    """The accesses that a picture of the first entries shows, if it shows all."""
    head, lines = read_record(record)
    return list(shown_accesses(head, lines[:count], limit))


def shown_faults(root, record, count, shows_all=False):
    """What is wrong with the accesses of a picture of the first entries."""
    if count > MOST_ENTRIES and not shows_all:
        seen = [seen_in(band) for band in bands_in(root)]
        yield from (f"accesses are shown: {band.titles[:3]}" for band in seen if band.places or band.boxes or band.waves)
        return
    yield from access_faults(bands_in(root), accesses_shown(record, count, None if shows_all else MOST_WAVES))


def heading_of(record):
    """The heading of the picture of a record: what it is of, how many processes it has, and the numbers of its setup."""
    setup = Setup(read_record(record)[0])
    numbers = f"record {setup.version}, tickets {setup.tickets}, stamps {setup.stamps}, slots {setup.slots}"
    return f"Record of {setup.processes} process{'es' * (setup.processes != 1)} ({numbers})"


def heading_faults(record, root):
    """What is wrong with the headings of a picture and a page of a record: one as a title, and one that is shown."""
    shown = [root.find(SVG + "title").text, root.find(SVG + "text").text]
    parts = re.findall("<title>(.*?)</title>|<h1>(.*?)</h1>", written(record, "draw"))[:2]
    shown += [title or heading for title, heading in parts]
    if shown != [heading_of(record)] * 4:
        yield f"the headings are {shown}, not {heading_of(record)}"


def record_faults(record):
    """What is wrong with the pictures of a record, whatever lock it is of."""
    wanted = list(lines_of(record))
    root = tree.fromstring(written(record, "draw-svg"))
    yield from heading_faults(record, root)
    yield from shown_faults(root, record, count_in(wanted))
    if count_in(wanted) <= MOST_DRAWN:
        with_all = tree.fromstring(written(record, "draw-svg", "--accesses"))
        yield from (f"--accesses: {fault}" for fault in shown_faults(with_all, record, count_in(wanted), shows_all=True))
    if [title(mark) for mark in root.iter(SVG + "g") if mark.get("class") == "m"] != wanted:
        yield "draw-svg has other lines"
    if stray_words(root):
        yield f"words stand outside: {stray_words(root)[:3]}"
    if [group.title[0] for group in heard(written(record, "draw")) if group.style == "m"] != wanted:
        yield "draw has other lines"
    tree.fromstring(written(record, "draw-svg", "--reads"))
    if count_in(wanted) <= MOST_ENTRIES:
        if written(record, "draw", "--reads") != written(record, "draw"):
            yield "--reads changes the picture of a short record"
    elif run(record, "judge", "--any-lock")[0] == 0:
        reads = list(overlapped_in(record.decode().splitlines()))
        yield from read_faults(heard(written(record, "draw", "--reads")), reads)


def judged_faults(record):
    """What is wrong with the pictures of a record that show the verdict on it."""
    for options, judging in JUDGES:
        status, printed, _ = run(record, "judge", *judging)
        told = printed.decode().splitlines()
        wanted = list(lines_of(record, told))
        for command in ("draw", "draw-svg"):
            ended, picture, errors = run(record, command, *options)
            if (ended, errors) != (status, b""):
                yield f"{command} {options} ends with {ended}, {errors!r}, judge with {status}"
            elif [group.title[0] for group in heard(picture.decode()) if group.style == "m"] != wanted:
                yield f"{command} {options} has other lines"
        root = tree.fromstring(picture)
        count = count_in(wanted)
        lanes = {access.process for access in accesses_shown(record, count)} if count <= MOST_ENTRIES else []
        yield from (f"{options}: {fault}" for fault in verdict_faults(bands_in(root), told, wanted[-1], lanes))
        yield from (f"{options}: {fault}" for fault in shown_faults(root, record, count))
        if stray_words(root):
            yield f"{options}: words stand outside: {stray_words(root)[:3]}"


def spoiled(record):
    """The record with a line more at each of some places."""
    lines = record.splitlines()
    for place, line in SPOILS:
        at = place % (len(lines) + 1)
        yield b"\n".join([*lines[:at], line, *lines[at:]]) + b"\n"


def spoil_faults(file, *options):
    """What is wrong with the ends of drawing a file that is no record."""
    judged = run(file, "judge", *(option for option in options if option != "--judge"))
    for command in ("draw", "draw-svg"):
        status, output, errors = run(file, command, *options)
        if (status, errors) != (judged[0], judged[2]):
            yield f"{command} ends with {status}, {errors!r}, judge with {judged[0]}, {judged[2]!r}"
        if output and (command == "draw-svg" or b"</html>" in output):
            yield f"{command} has written {len(output)} bytes"


def main():
    counter = Counter()
    for folder in sorted(WORKED.iterdir()):
        if (folder / "draw").exists():
            scenario = (folder / "scenario").read_bytes()
            record = written(scenario, "record").encode()
            count = len(entries_of(record))
            choices = [[], ["--reads"]] if count > MOST_ENTRIES else []
            for command in ("draw", "draw-svg"):
                for options in [*choices, *([["--accesses"]] if count <= MOST_DRAWN else [])]:
                    faults = list(run_faults(scenario, record, command, *options))
                    counter.count(not faults, f"{command} {options} of {folder.name} and its record: {faults}")
    for file in [*sorted(OTHER_LOCKS.glob("*/record")), TOP / "examples" / "failed-read.record"]:
        record = file.read_bytes()
        if run(record, "judge", "--any-lock")[0] == 1:
            continue
        faults = [*record_faults(record), *judged_faults(record)]
        counter.count(not faults, f"{file.parent.name}: {faults[:5]}")
    record = (OTHER_LOCKS / "one-bit-good" / "record").read_bytes()
    for file in spoiled(record):
        # what begins as a scenario is explained as one
        explained = spoil_faults(file, "--explain") if file.startswith(b"record") else []
        judged = [fault for options, _ in JUDGES for fault in spoil_faults(file, *options)]
        faults = [*spoil_faults(file), *explained, *judged]
        counter.count(not faults, f"{file[-200:]!r}: {faults}")
    counter.end()


if __name__ == "__main__":
    main()
