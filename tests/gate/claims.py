#!/usr/bin/env python3
"""Keeps what the pages of docs/ claim tied to the sources.

A page names a clause as [`crate::function`, `clause`](..) or [`crate::Type::function`, `one`, `another`](..), a clause without a
name as `its clause`, a test as `its test`, a fact of a type as [`crate::Type`, `fact`](..), and a definition as [`Name`, in
`crate/specs/File.antt`](..). Each must be there, once; and the link behind it must lead to its file and line. With `--write` the
links are written anew. CONTRIBUTING.md is checked like a page of docs/. What one of these pages or bench/README.md names otherwise,
as `Type::function`, is there too; so is each lemma that the pages on the two proofs name.

docs/CLAIMS.md has each promise of README.md, word for word and in its order. Each row of it and of docs/CLAIMS_IN_DETAIL.md has a
number of its own, and the numbers by which these pages cite claims exist. Each row with a promise states how strong it is, and
whether it is about the code that the program runs, other calls of the library, or the reference calls. A row that names a clause of
a reference crate is about these calls. A row that is proved names a clause, and a row that is tested names a script or a test that
exists. On docs/CLAIMS.md a row that is proved also names a definition, unless it states that no clause has the promise. The crates
of the kit that this page trusts are those that crates.txt names.

docs/TESTING.md names each must-fail edit, and no other, and what an edit changes is there. The numbers before the words of `counts`
on that page are counted again, and `--write` writes them anew.
"""

import os
import pathlib
import re
import sys

sys.path.insert(0, str(pathlib.Path(__file__).resolve().parents[1]))

from lib.counting import Counter
from lib.crates import crates
from lib.places import TOP
from lib.sources import FOLDER, definition_at, facts_of, functions_named, names, tests_named, words_in
from lib.wrong_bodies import wrong_bodies

CLAIMS, DETAILS, TESTING = (TOP / "docs" / name for name in ("CLAIMS.md", "CLAIMS_IN_DETAIL.md", "TESTING.md"))
# the heads of the tables with promises, on each of the two pages, and of the tables of what is not proved
HEADS = {
    CLAIMS: ["No.", "Promise", "Clause and definition", "Premises", "Strength", "Caveat"],
    DETAILS: ["No.", "Promise", "Clause", "Premises", "Strength"],
}
LIMITS, TRUSTED = ["No.", "Not promised", "What is known instead"], ["No.", "Trusted", "What it includes"]
CLAUSES = re.compile(r"\[`(?P<path>\w+(?:::\w+)+)`(?P<words>(?:, (?:`\w+`|its clause|its test))*)\]\((?P<link>[^()\s]*)\)")
DEFINITION = re.compile(r"\[`(?P<name>[^`\s]+)`, in `(?P<file>\w+/specs/[\w/]+\.antt)`\]\((?P<link>[^()\s]*)\)")
SCRIPT = re.compile(r"`(tests/[\w/]+\.\w+)`")
NAME = re.compile(r"(?<!\[)`(\w+(?:::\w+)+)`")
EDIT = re.compile(r"`(\w+)/([\w-]+)`")
# claims that a page of claims cites by their numbers
CITED = re.compile(r"\bclaims? (\d+)(?: and (\d+))?", re.I)
# the second half of a row of the hostile tests: how many runs, and how many failures
TRIES = re.compile(r" \| ([\d,]+) \| \d+ \|$", re.M)
LEMMA = re.compile(r"`([\w'-]+(?:\.antt)?)`")
# the crates whose lemmas a page on a proof names
PROOFS = {"PROOF_OF_THE_LOCK.md": ["laws", "model"], "PROOF_OF_THE_HISTORY.md": ["history_laws", "laws", "model", "plain_store"]}
STRENGTHS = {"proved", "tested", "measured"}
PATHS = {"program", "library", "reference"}
# the crates of the reference calls, as far as the program does not run them
REFERENCE = {"reader_copies", "safe_number"}


def clause_at(path, words):
    """The file and line of the first of these clauses of a function; none, if one is not there."""
    named = functions_named(path)
    if len(named) != 1:
        return None
    clauses = [it for it in named[0].clauses if it.kind == "ensures"]
    found = [[it.line for it in clauses if it.name == ("" if word == "its clause" else word)] for word in words]
    if any(len(lines) != 1 for lines in found):
        return None
    return named[0].path, found[0][0] if found else named[0].line


def fact_at(path, words):
    """The file and line of the first of these facts of a type; none, if one is not there."""
    crate, *owner = path.split("::")
    if crate not in crates() or len(owner) != 1 or not words:
        return None
    found = [list(facts_of(crate, owner[0], word)) for word in words]
    return found[0][0] if all(len(each) == 1 for each in found) else None


def place_of(path, words):
    """The file and line that a reference means; none, if it means nothing, or more than one thing."""
    if words == ["its test"]:
        tests = tests_named(path)
        return (tests[0].path, tests[0].line) if len(tests) == 1 else None
    return clause_at(path, words) or fact_at(path, words)


def link_to(page, place):
    """The link by which a page leads to a line of a file."""
    path, line = place
    return f"{os.path.relpath(path, page.parent)}#L{line}"


def references(text):
    """Each reference of a text: what was found, what it says, and the file and line that it means."""
    for found in CLAUSES.finditer(text):
        words = [word.strip("`") for word in found["words"].split(", ")[1:]]
        yield found, place_of(found["path"], words)
    for found in DEFINITION.finditer(text):
        path = FOLDER / found["file"]
        line = definition_at(path, found["name"]) if path.exists() else None
        yield found, (path, line) if line else None


def written(page, text):
    """A page with its links written anew, as far as what they mean is there."""
    for found, place in list(references(text)):
        if place:
            head, link = found.group().rpartition("](")[0], link_to(page, place)
            text = text.replace(found.group(), f"{head}]({link})")
    return text


def promises():
    """The promises of the README."""
    part = re.search(r"^## What is promised\n(.*?)^\*\*Not promised", (TOP / "README.md").read_text(), re.M | re.S)[1]
    return [line.rstrip(";.") for line in re.findall(r"^- (.*)$", part, re.M)]


def cells_of(line):
    """The cells of a row of a table."""
    return [cell.strip() for cell in line.strip().removeprefix("|").removesuffix("|").split(" | ")]


def tables(text):
    """The tables of a page: the cells of the head of each, and those of its rows."""
    found, within = [], False
    for line in text.splitlines():
        if line.startswith("|") and not within:
            found.append((cells_of(line), []))
        elif line.startswith("|") and line.strip("|-"):
            found[-1][1].append(cells_of(line))
        within = line.startswith("|")
    return found


def rows(text, *heads):
    """The rows of the tables with these heads."""
    return [cells for head, cells_of_rows in tables(text) if head in heads for cells in cells_of_rows]


def fault_of_row(page, cells):
    """What is wrong with a row of the claims of a page; none, if nothing is."""
    if len(cells) != len(HEADS[page]) or not all(cells):
        return f"has not {len(HEADS[page])} cells with words: {cells}"
    _, told, where, _, strengths, *_ = cells
    strength, *paths = strengths.split(", ")
    if not paths or not PATHS.issuperset(paths):
        return f"says not which code it is about: {told}"
    named = {found["path"].partition("::")[0] for found in CLAUSES.finditer(where)}
    if bool(named & REFERENCE) != ("reference" in paths):
        return f"is about {paths}, and names clauses of {sorted(named)}: {told}"
    if strength not in STRENGTHS:
        return f"says not how strong it is: {told}"
    if strength == "proved" and not CLAUSES.search(where):
        return f"is proved and names no clause: {told}"
    if strength == "tested" and not SCRIPT.search(where) and "its test" not in where:
        return f"is tested and names no test: {told}"
    if page == CLAIMS and strength == "proved" and not DEFINITION.search(where) and not where.startswith("No clause"):
        return f"is proved and names no definition: {told}"
    return None


def check_references(counter, page):
    """Whether each clause, test and definition that a page links to is there, and the link leads to it."""
    for found, place in references(page.read_text()):
        name = f"{page.name}: {found.group()}"
        counter.count(place, f"{name} is not there, or more than once")
        if place:
            leads = found["link"] == link_to(page, place)
            counter.count(leads, f"{name} leads elsewhere: python3 tests/gate/claims.py --write")


def check_names(counter, page):
    """Whether what a page names without a link is there."""
    lost = set(NAME.findall(page.read_text())) - names()
    if page.name in PROOFS:
        lost |= set(LEMMA.findall(page.read_text())) - set().union(*map(words_in, PROOFS[page.name]))
    counter.count(not lost, f"{page.name} names what is not there: {sorted(lost)}")


def check_rows(counter, page):
    """Whether the scripts that a page of claims names exist, its tables have known heads, and its rows of promises are claims."""
    text = page.read_text()
    for script in SCRIPT.findall(text):
        counter.count((TOP / script).exists(), f"{page.name}: {script} is not there")
    for head, _ in tables(text):
        counter.count(head in (HEADS[page], LIMITS, TRUSTED), f"{page.name}: a table has the head {head}")
    for cells in rows(text, HEADS[page]):
        fault = fault_of_row(page, cells)
        counter.count(fault is None, f"{page.name}: a row {fault}")
    for cells in rows(text, LIMITS, TRUSTED):
        counter.count(len(cells) == 3 and all(cells), f"{page.name}: a row has not 3 cells with words: {cells}")


def check_claims(counter):
    """Whether docs/CLAIMS.md has each promise of the README and trusts each crate of the kit, and no number has two rows."""
    for page in HEADS:
        check_rows(counter, page)
    text = CLAIMS.read_text()
    told = [cells[1].rstrip(".") for cells in rows(text, HEADS[CLAIMS])]
    counter.count(told[: len(promises())] == promises(), "CLAIMS.md does not begin with the promises of README.md, word for word")
    numbers = [cells[0] for page, head in HEADS.items() for cells in rows(page.read_text(), head, LIMITS, TRUSTED)]
    twice = sorted({number for number in numbers if numbers.count(number) > 1 or not number.isdecimal()})
    counter.count(not twice, f"rows of the claims have the numbers {twice}, which are those of other rows or no numbers")
    cited = {number for page in HEADS for found in CITED.findall(page.read_text()) for number in found if number}
    counter.count(cited <= set(numbers), f"the claims cite claims {sorted(cited - set(numbers))}, which are not there")
    named = [set(re.findall(r"`(\w+)`", cells[-1])) for cells in rows(text, TRUSTED) if "kit's crates" in cells[1]]
    wanted = {name for crate in crates().values() for name in crate.takes}
    counter.compare("the crates of the kit that CLAIMS.md trusts", named, [wanted])


def check_edits(counter):
    """Whether docs/TESTING.md names each must-fail edit, and no other; and whether what each changes is there."""
    named = set(EDIT.findall(TESTING.read_text()))
    there = {(body.crate, body.name) for body in wrong_bodies()}
    counter.count(named == there, f"TESTING.md and the must-fail edits differ in {sorted(named ^ there)}")
    for body in wrong_bodies():
        counter.count(body.refused and body.changed({}), f"{body}: an old text does not stand once in its file")


def lines_given(file):
    """The lines of a file of examples that are neither empty nor comments."""
    return [line for line in file.read_text().splitlines() if line and not line.startswith("#")]


def tries_of(text, heading):
    """How many runs the table of a part of the hostile tests has."""
    part = text.partition(f"\n### {heading}\n")[2].partition("\n#")[0].partition("<!-- end -->")[0]
    return sum(int(number.replace(",", "")) for number in TRIES.findall(part))


def counts(text):
    """What docs/TESTING.md counts: the words that follow a number, and the number."""
    files = lambda pattern: len([*TOP.glob(pattern)])
    return {
        "worked scenarios": files("examples/worked/*/scenario"),
        "worked bits files": files("examples/worked/*/bits-file"),
        "record files": files("examples/records/*/record-file"),
        "inspected runs": files("examples/inspect/*/args"),
        "records of other locks": files("examples/other-locks/*/record"),
        "short files": sum(len(lines_given(file)) for file in (TOP / "examples" / "short").iterdir()),
        "scenarios of boards": len(lines_given(TOP / "examples" / "boards" / "turns")),
        "lessons": files("lessons/[0-9]*.md"),
        "must-fail edits": len(wrong_bodies()),
        "tests in Rattle": sum(file.read_text().count("#[test]") for file in FOLDER.glob("*/src/**/*.rt")),
        "runs on spoiled files": tries_of(text, "Spoiled files"),
        "runs with failing streams": tries_of(text, "Failing streams"),
        "runs with a failed allocation or thread": tries_of(text, "Failed allocations"),
        "long runs": tries_of(text, "Long runs"),
        "races under load": tries_of(text, "Races under load"),
    }


def counted(text):
    """The page with the numbers that are counted, and the words that no number stands before."""
    missing = []
    for words, number in counts(text).items():
        text, times = re.subn(rf"\b\d[\d,]* {words}\b", f"{number:,} {words}", text)
        missing += [] if times else [words]
    return text, missing


def check_counts(counter):
    """Whether the numbers of docs/TESTING.md are those that are counted."""
    text = TESTING.read_text()
    wanted, missing = counted(text)
    counter.count(not missing, f"TESTING.md gives no number of {missing}")
    counter.count(text == wanted, "TESTING.md has other numbers than are counted: python3 tests/gate/claims.py --write")


def main():
    counter, pages = Counter(), [TOP / "CONTRIBUTING.md", *sorted((TOP / "docs").glob("*.md"))]
    if sys.argv[1:] == ["--write"]:
        for page in pages:
            page.write_text(written(page, page.read_text()))
        TESTING.write_text(counted(TESTING.read_text())[0])
    for page in pages:
        check_references(counter, page)
    for page in [*pages, TOP / "bench" / "README.md"]:
        check_names(counter, page)
    check_claims(counter)
    check_edits(counter)
    check_counts(counter)
    counter.end()


main()
