#!/usr/bin/env python3
"""Draws traces by the proved program, and reads them back.

The traces are those of examples/traces/ and 100 that `lib/random_traces.py` makes up. The second reading of trace files says which
marks each has. A parser of XML reads the picture, and one of HTML the page; the titles of their marks are the marks of the trace in
their order, and a last line. With `--judge`, and with `--any-lock`, they are those up to the first bad entry, and then the lines that
`judge` prints with `--why`; the verdict is shown as drawn_verdicts.py reads it; the status is that of `judge`.

Right of each mark the bar of each process is the stage that the marks so far give it, and no word lies on another. The page is titled
as a trace, and lists its headings and registers; it has no history and no store. A trace with a fault has the same fault in `draw`,
`draw-svg` and `judge`, of which the page alone may have begun. `--reads` is refused. The pictures that examples/traces/ has are those
that the program draws.

The boxes, ties and waves of accesses are those of `second/drawn_accesses.py` (drawn_accesses.py compares them). A picture of 400 entries
has them, and one of 401 only with `--accesses`.

tests/gate/drawn_traces.py [NUMBER]: the first of the traces that are made up, by default 1.
"""

import pathlib
import re
import sys
import xml.etree.ElementTree as tree

sys.path.insert(0, str(pathlib.Path(__file__).resolve().parents[1]))

from drawn_accesses import access_faults, seen_in
from drawn_records import run, stray_words
from drawn_verdicts import verdict_faults
from lib.counting import Counter
from lib.places import TOP
from lib.random_traces import trace
from pictures import SVG, Groups, Run, picture_faults, title
from second.drawn_accesses import MOST_WAVES, shown_accesses
from second.scenario_files import Fault
from second.trace_files import read_trace

TRACES = TOP / "examples" / "traces"
MANY = 100
# the most entries of a picture that shows accesses without being asked to
MOST_ENTRIES = 400
# what asks for a verdict in a picture
JUDGES = ["--judge", "--any-lock"]
REFUSED = (2, b"", b"--reads is for runs and records; a trace of up to 400 entries shows all accesses, and a longer one with --accesses\n")
# the words for each picture next to an example
KEPT = {"draw.html": ["draw"], "draw-svg.svg": ["draw-svg"], "draw-svg-judge.svg": ["draw-svg", "--judge"]}
# what only a run or a record has
OF_A_RUN = [">history<", "line('store'", "scenario"]
# what a reader of the page of a trace must not see; its script looks for such a line in each list
UNSEEN = "bakery"
SCRIPT = re.compile(r"<script>.*?</script>", re.DOTALL)


def heard(page):
    """What a parser of HTML reads in a page."""
    parser = Groups()
    parser.feed(page)
    return parser


def lines_of(read, told=()):
    """The lines that a picture of a trace has; if a judge tells of a bad entry, that is the last one that is shown."""
    entries = read.entries
    if told and told[0].startswith("bad "):
        entries = entries[: int(told[0].split()[1]) + 1]
    for entry in entries:
        yield from (f"{entry.number} {entry.process} {mark}" for mark in entry.marks)
    yield from (f"judge {line}" for line in told)
    yield f"end entries {len(entries)}"


def listed_in(read):
    """The lines that a page lists, and its title."""
    yield from ["trace 1", f"processes {read.processes}", f"memory {read.memory}"]
    for name, register in read.registers.items():
        yield f"{'shared' if register.is_shared else 'register'} {name} {register.width} opens {register.opens}"
    yield from ["(entries)", "(end)"]


def title_of(read):
    many = "process" if read.processes == 1 else "processes"
    return f"Trace of {read.processes} {many} ({read.memory} memory)"


def page_faults(page, read, wanted):
    """What is wrong with the page of a trace."""
    parser = heard(page)
    if [group.title[0] for group in parser.groups if group.style == "m"] != wanted:
        yield "the page has other lines"
    if parser.listed != list(listed_in(read)):
        yield f"the page lists {parser.listed}"
    if re.findall("<title>([^<]*)</title>\n<style>", page) != [title_of(read)]:
        yield "the page has another title"
    yield from (f"the page has {words}" for words in OF_A_RUN if words in page)
    if UNSEEN in SCRIPT.sub("", page):
        yield f"the page shows {UNSEEN}"


def drawn_faults(file, read, options, status, told):
    """What is wrong with the pictures of a trace, of which a judge tells this."""
    wanted = list(lines_of(read, told))
    page, picture = run(file, "draw", *options), run(file, "draw-svg", *options)
    if (page[0], page[2], picture[0], picture[2]) != (status, b"", status, b""):
        yield f"draw ends with {page[0]}, {page[2]!r}, draw-svg with {picture[0]}, {picture[2]!r}"
        return
    yield from page_faults(page[1].decode(), read, wanted)
    root = tree.fromstring(picture[1])
    if [title(mark) for mark in root.iter(SVG + "g") if mark.get("class") == "m"] != wanted:
        yield "the picture has other lines"
    if stray_words(root):
        yield f"words stand outside: {stray_words(root)[:3]}"
    yield from verdict_faults(bands_of(root), told, wanted[-1], shown_lanes(read, count_in(wanted), "--accesses" in options))
    if all(entry.process < read.processes for entry in read.entries):
        yield from picture_faults(picture[1].decode(), Run([], wanted, None), is_good=False)
    yield from shown_faults(root, read, count_in(wanted), "--accesses" in options)


def count_in(wanted):
    """The number of entries that a picture shows, by its last line."""
    return int(wanted[-1].split()[-1])


def bands_of(root):
    """The bands of a picture. The last group is the legend."""
    return [group for group in root if group.get("transform")][:-1]


def shown_lanes(read, count, shows_all):
    """The processes of which a picture of so many entries shows accesses."""
    if count > MOST_ENTRIES and not shows_all:
        return []
    return {access.process for access in shown_accesses(read, None if shows_all else MOST_WAVES) if access.event < count}


def shown_faults(root, read, count, shows_all):
    """What is wrong with the accesses of a picture of so many entries."""
    if count > MOST_ENTRIES and not shows_all:
        seen = [seen_in(band) for band in bands_of(root)]
        yield from (f"accesses are shown: {band.titles[:3]}" for band in seen if band.titles or band.places or band.boxes or band.waves)
        return
    shown = shown_accesses(read, None if shows_all else MOST_WAVES)
    yield from access_faults(bands_of(root), [access for access in shown if access.event < count])


def trace_faults(file, is_made_up):
    """What is wrong with the pictures of a trace, or with how drawing it ends. One that is made up is drawn with fewer options."""
    judged = run(file, "judge", "--why")
    try:
        read = read_trace(file)
    except Fault:
        read = None
    if read is None:
        for options in [[], *([judge] for judge in JUDGES)]:
            for command in ("draw", "draw-svg"):
                status, output, errors = run(file, command, *options)
                if (status, errors) != (judged[0], judged[2]):
                    yield f"{command} {options} ends with {status}, {errors!r}, judge with {judged[0]}, {judged[2]!r}"
                if output and (command == "draw-svg" or b"</html>" in output):
                    yield f"{command} {options} has written {len(output)} bytes"
        return
    for options in [[]] if is_made_up else [[], ["--accesses"]]:
        yield from (f"{options}: {fault}" for fault in drawn_faults(file, read, options, 0, []))
    for judge in JUDGES[:1] if is_made_up else JUDGES:
        yield from (f"{judge}: {fault}" for fault in drawn_faults(file, read, [judge], judged[0], judged[1].decode().splitlines()))
    for command in ("draw", "draw-svg"):
        if run(file, command, "--reads") != REFUSED:
            yield f"{command} does not refuse --reads"


def is_trace(file):
    """Whether the first word of the first line that is not skipped is `trace`."""
    words = next((line.split() for line in file.splitlines() if line.split() and not line.split()[0].startswith(b"#")), [])
    return words[:1] == [b"trace"]


def files(first):
    """The examples, and the traces that are made up, by name."""
    for folder in sorted(path.parent for path in TRACES.glob("*/trace")):
        yield folder.name, (folder / "trace").read_bytes()
    for number in range(first, first + MANY):
        yield f"trace {number}", trace(number)
    for entries in MOST_ENTRIES, MOST_ENTRIES + 1:
        yield f"a trace of {entries} entries", long_trace(entries)


def long_trace(entries):
    """A trace of so many entries, in which process 0 makes calls of four."""
    call = ["0 : call", "0 flag[0] write 1", "0 flag[0] end", "0 : answer"]
    lines = ["trace 1", "register flag 1", *(call[number % len(call)] for number in range(entries))]
    return "".join(f"{line}\n" for line in lines).encode()


def kept_pictures(counter):
    """Compares the pictures next to the examples, of each kind at least one."""
    for name, words in KEPT.items():
        kept = sorted(TRACES.glob(f"*/{name}"))
        counter.count(kept, f"no example has {name}")
        for picture in kept:
            file = (picture.parent / "trace").read_bytes()
            counter.compare(f"{picture.parent.name}, {name}", run(file, *words)[1], picture.read_bytes())


def main():
    counter = Counter()
    kept_pictures(counter)
    for name, file in files(int(sys.argv[1]) if len(sys.argv) > 1 else 1):
        # what begins otherwise is no trace for the program, and draws as a scenario
        if not is_trace(file):
            continue
        faults = list(trace_faults(file, name.startswith("trace ")))
        counter.count(not faults, f"{name}: {faults[:4]}")
    counter.end()


if __name__ == "__main__":
    main()
