#!/usr/bin/env python3
"""Makes what docs/ARCHITECTURE.md, docs/HOW_IT_IS_PROVED.md and crates/README.md show of the crates, from crates.txt and the sources.

The first has a figure of the layers with their sizes, a picture in which each crate is a row above the highest one that it depends
on, and a table of all crates. The second counts the lines of each group up to that of the program, in hundreds, with comments. What
is made is between two comments of a page. With `--write` it is written; without it, it is compared. And crates.txt is held to its rules: each crate is
listed, says what it does, and stands on few crates, all of the lines before its own. So a crate uses no later layer. crates/README.md
describes each layer, of which there are at most ten.
"""

import pathlib
import re
import sys

sys.path.insert(0, str(pathlib.Path(__file__).resolve().parents[1]))

from lib.counting import Counter
from lib.crates import MOST_BELOW, PROGRAM, crates, groups
from lib.places import TOP

MADE = re.compile(r"(?P<begin><!-- made by tests/gate/layers.py: (?P<what>\w+) -->\n).*?(?P<end><!-- end -->)", re.S)
PAGES = [TOP / name for name in ("crates/README.md", "docs/ARCHITECTURE.md", "docs/HOW_IT_IS_PROVED.md")]
# the most layers
MOST_LAYERS = 10
FOLDERS = ["src", "specs", "proofs"]
# the signs of a bar, one for each folder
SIGNS = "=:."


def groups_of_program():
    """The groups up to that of the program: those behind it are tests, loads and the like."""
    for group in groups():
        yield group
        if PROGRAM in [crate.name for crate in group.crates]:
            return


def rows_of(listed):
    """The row of each crate: one more than the highest one that it stands on."""
    rows = {}
    for name, crate in listed.items():
        rows[name] = 1 + max((rows.get(below, 0) for below in crate.stands_on), default=0)
    return rows


def picture():
    """The crates of the program, the highest row first."""
    shown = [crate.name for group in groups_of_program() for crate in group.crates]
    rows = rows_of(crates())
    lines = [[name for name in shown if rows[name] == row] for row in range(1, 1 + max(rows[name] for name in shown))]
    told = [f"{row:>2}  {'   '.join(names)}\n" for row, names in enumerate(lines, 1)]
    return f"```text\n{''.join(reversed(told))}```\n"


def table():
    """All crates, group by group from the bottom up."""
    lines = ["| Crate | What it does | Depends on |", "|---|---|---|"]
    for group in groups():
        lines.append(f"| **{group.heading}** | | |")
        for crate in group.crates:
            below = ", ".join([*crate.stands_on, *(f"`{name}`" for name in crate.takes)])
            lines.append(f"| {crate.name} | {crate.does} | {below or 'std'} |")
    return "".join(f"{line}\n" for line in lines)


def layer_of(group):
    """The name of the layer that a group of crates.txt is."""
    return group.heading.partition(": ")[0]


def layers():
    """The layers in their order: what each is for, and its crates."""
    lines = ["| Layer | What it is for | Crates |", "|---|---|---|"]
    for group in groups():
        purpose = group.heading.partition(": ")[2]
        lines.append(f"| {layer_of(group)} | {purpose} | {', '.join(crate.name for crate in group.crates)} |")
    return "".join(f"{line}\n" for line in lines)


def count_in(group, folder):
    """The lines of the files in a folder of a group's crates, in hundreds."""
    paths = [path for crate in group.crates for path in (TOP / "crates" / crate.name / folder).rglob("*")]
    counted = [len(path.read_text().splitlines()) for path in paths if path.suffix in (".rt", ".antt")]
    return round(sum(counted), -2)


def lines_in(group, folder):
    """The same count, as text."""
    return f"{count_in(group, folder):,}"


def sizes():
    """Returns the figure of the layers up to that of the program, the highest first, each with a bar of its lines."""
    rows = [f"{'layer':<9}{'crates':>6}{'code':>9}{'definitions':>13}{'proofs':>9}   one sign for 1,000 lines"]
    for group in reversed([*groups_of_program()]):
        counts = [count_in(group, folder) for folder in FOLDERS]
        code, definitions, proofs = (f"{count:,}" for count in counts)
        bar = "".join(sign * round(count / 1000) for sign, count in zip(SIGNS, counts, strict=True))
        rows.append(f"{layer_of(group):<9}{len(group.crates):>6}{code:>9}{definitions:>13}{proofs:>9}   {bar}")
    return "".join(f"{row}\n" for row in ["```text", *rows, "```"])


def costs():
    """The lines of each group up to that of the program."""
    lines = ["| Layer | Crates | Code | Definitions | Proofs |", "|---|---|---|---|---|"]
    for group in groups_of_program():
        names = ", ".join(crate.name for crate in group.crates)
        lines.append(f"| {group.heading} | {names} | {' | '.join(lines_in(group, folder) for folder in FOLDERS)} |")
    return "".join(f"{line}\n" for line in lines)


def made(text):
    """A page with what is made of it anew, and the names of these parts."""
    parts = {"picture": picture, "table": table, "layers": layers, "costs": costs, "sizes": sizes}
    names = [found["what"] for found in MADE.finditer(text)]
    return MADE.sub(lambda found: found["begin"] + parts[found["what"]]() + found["end"], text), names


def faults_of(crate, known):
    """What is wrong with the line of a crate, behind these lines."""
    if not crate.does:
        yield "says not what it does: a comment above its line"
    if set(crate.stands_on) - known:
        yield f"stands on crates of later lines: {sorted(set(crate.stands_on) - known)}"
    if len(crate.stands_on) > MOST_BELOW:
        yield f"names {len(crate.stands_on)} crates, and {MOST_BELOW} at most"


def main():
    counter = Counter()
    for page in PAGES:
        text = page.read_text()
        wanted, parts = made(text)
        if sys.argv[1:] == ["--write"]:
            page.write_text(wanted)
            text = wanted
        counter.count(parts, f"{page.name} shows nothing that is made here")
        counter.count(text == wanted, f"{page.name} is not what is counted: python3 tests/gate/layers.py --write")
    counter.count(len(groups()) <= MOST_LAYERS, f"{len(groups())} layers, and {MOST_LAYERS} at most")
    described = re.findall(r"^## (\w+)$", PAGES[0].read_text(), re.M)
    counter.compare("the layers that crates/README.md describes", described, [layer_of(group) for group in groups()])
    known = set()
    for name, crate in crates().items():
        faults = list(faults_of(crate, known))
        counter.count(not faults, f"{name} {'; '.join(faults)}")
        known.add(name)
    there = {path.parent.name for path in (TOP / "crates").glob("*/src")}
    counter.count(known == there, f"crates.txt and the folder crates/ differ in {sorted(known ^ there)}")
    counter.end()


main()
