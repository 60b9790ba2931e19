#!/usr/bin/env python3
"""Checks that one name means one type, and that names state what they are about.

Each struct, enum, trait and type alias of the crates has a name that no other one has, private ones too. No file takes a type in
under another name (`use board::Store as Words`); specs may, since a definition often has the name of the type that it speaks of.

No crate, module, type, function or definition has one of the names in `OLD`, which had to be explained, or one of the words in
`WORDS`, for which the glossary has the field's term. A clause is named after what it fixes, so none has a name in `CLAUSES`. No line
that begins a clause is longer than 100 columns.

A page of docs/ names in backticks only what a source names outside of comments, or what `OUTSIDE` lists.
"""

import collections
import pathlib
import re
import sys

sys.path.insert(0, str(pathlib.Path(__file__).resolve().parents[1]))

from lib.counting import Counter
from lib.places import TOP

TYPE = re.compile(r"^ *(?:pub(?:\(\w+\))? )?(?:struct|enum|trait|type) (\w+)\b(?!.* = <Self)", re.M)
# an alias or a type within a block is one of a trait or its impl, which the trait names
WITHIN = re.compile(r"^ +type ", re.M)
RENAMED = re.compile(r"^ *(?:pub )?use [^;]*\b[A-Z]\w* as [A-Z]\w*[^;]*;", re.M)
OLD = set("""
AnswersStandInHistory Around BitSeen CallKept CallStanding CallsStandInTheChanges Causes Changers ColumnPlace Copier Course
CourseState Drive Effect EntryKnown Explaining FailsAreOfWhomStands Faulty Followed Group Hearer HistoryStandsWhileInside
Intake KeepsCourse KeptInput KeptState KnownProcess LendsLock LendsPart LendsRegister LinePlace Link Listener Lister Look
Newcomer Nobody Nowhere NumberRun Onlooker Overheard Printer ProcessKept ProcessPart ProcessWork ReadWatch RecordObserver
Report Return Runner Saying Sheet StandInSeen StandsAfter StandsBefore StandsInFirst StandsInLonger StandsInRecord
StandsInSeen StepTold Stepped StepsAreOfWhomMoves Tabler TicketKnown Until Wanted Watch Watcher Word calls_stand_in_one_list
course fails_are_of_whom_stands fault_place flicks read_law steps_are_of_whom_moves
""".split())
WORDS = set("""
hear heard hearer hearers hearing hears lend lends lent listener listeners listening onlooker onlookers overhear overheard
overhearing overhears stand standing stands stood tell telling tellings tells told unheard untold watch watched watches watching
""".split())
CLAUSES = set("""
few goes ok some there
""".split())

# the first line of a clause, with its name
CLAUSE = re.compile(r"^ +(?:requires|ensures)(?: (\w+))? \{.*", re.M)
# what a source declares, and what a file of definitions does
DECLARED = {
    ".rt": re.compile(r"^ *(?:pub(?:\(\w+\))? )?(?:const |unsafe |ghost )*(?:struct|enum|trait|type|fn|mod) (\w+)", re.M),
    ".antt": re.compile(r"^(?:pub )?(?:abbrev|unfoldable|record|data)(?: pub)? (\w+)", re.M),
}
WIDTH = 100

# what is between backticks on a page and has the form of a name
IN_PAGE = re.compile(r"`([A-Za-z_]\w*)`")
FENCED = re.compile(r"^```.*?^```", re.M | re.S)
# comments, by the ending of a file
COMMENTS = {
    ".rt": re.compile(r"//.*"),
    ".antt": re.compile(r"(?:^|\s)--\s.*", re.M),
    ".py": re.compile(r'"""(?:.|\n)*?"""|#.*'),
}
# names of the toolchain, of pseudocode, and of an earlier version
OUTSIDE = {"LockedStdin", "await", "clang", "my_lock", "replayer"}


def words_of(name):
    """The words of a name, in small letters."""
    return {word.lower() for word in re.findall(r"[A-Z]+(?![a-z])|[A-Z]?[a-z]+", name)}


def declared():
    """Each name that is declared, with its file: of crates, modules, types, functions and definitions."""
    for path in sorted((TOP / "crates").glob("*/*/**/*")):
        place = path.relative_to(TOP / "crates")
        if path.suffix in DECLARED and place.parts[1] in ("src", "specs"):
            names = [place.parts[0], path.stem, *DECLARED[path.suffix].findall(path.read_text())]
            yield from ((name, place) for name in names)


def check_names(counter):
    """Whether no name is an old one, or has a word for which there is a term."""
    for name, place in declared():
        words = words_of(name) & WORDS
        counter.count(name not in OLD, f"{place}: {name} had to be explained, and has another name now")
        counter.count(not words, f"{place}: {name} has {', '.join(sorted(words))}, for which the glossary has a term")


def check_clauses(counter):
    """Whether each clause has a name that states something, and begins on a line of at most 100 columns."""
    for path in sorted((TOP / "crates").glob("*/src/**/*.rt")):
        place = path.relative_to(TOP / "crates")
        for found in CLAUSE.finditer(path.read_text()):
            counter.count(found[1] not in CLAUSES, f"{place}: a clause `{found[1]}` states nothing: {found[0].strip()[:60]}")
            counter.count(len(found[0]) <= WIDTH, f"{place}: a clause of {len(found[0])} columns: {found[0].strip()[:60]}")


def sources():
    """The files that are no page: sources, proofs, tests, and what the examples, lessons and figures consist of."""
    for folder in ("crates", "tests", "examples", "lessons", "bench"):
        for path in sorted((TOP / folder).rglob("*")):
            made = {"out", "__pycache__"} & set(path.relative_to(TOP).parts)
            # this file lists names that are gone
            if path.suffix != ".md" and not made and path.is_file() and path != pathlib.Path(__file__).resolve():
                yield path


def words_of_sources():
    """Each word of the sources, without comments."""
    words = set()
    for path in sources():
        text = path.read_text(errors="replace")
        if path.suffix in COMMENTS:
            text = COMMENTS[path.suffix].sub("", text)
        words.update(re.findall(r"[A-Za-z_]\w*", f"{path.relative_to(TOP)}\n{text}"))
    return words


def check_pages(counter):
    """Whether what a page of docs/ names in backticks is named so in a source."""
    known = words_of_sources() | OUTSIDE
    for path in sorted((TOP / "docs").glob("*.md")):
        lost = sorted(set(IN_PAGE.findall(FENCED.sub("", path.read_text()))) - known)
        counter.count(not lost, f"docs/{path.name} names what no source has: {', '.join(lost)}")


def main():
    counter = Counter()
    places = collections.defaultdict(set)
    for path in sorted((TOP / "crates").glob("*/src/**/*.rt")):
        text, place = path.read_text(), path.relative_to(TOP / "crates")
        for found in TYPE.finditer(text):
            if not WITHIN.match(found[0]):
                places[found[1]].add(str(place))
        for found in RENAMED.finditer(text):
            counter.count(False, f"{place} takes a type in under another name: {found[0].strip()}")
    for name, where in sorted(places.items()):
        counter.count(len(where) == 1, f"several types are called {name}: {', '.join(sorted(where))}")
    check_names(counter)
    check_clauses(counter)
    check_pages(counter)
    counter.end()


main()
