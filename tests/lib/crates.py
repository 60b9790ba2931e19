"""The crates of the repository, as crates.txt lists them: in groups from the bottom up, each behind a line `## HEADING`. The line
above that of a crate says what the crate does.
"""

from typing import NamedTuple

from lib.places import TOP

PROGRAM = "bakerystore"
# the most crates of the repository that one of them names on its line
MOST_BELOW = 6


class Crate(NamedTuple):
    """A crate: what it does, its line, and the names on it: of crates of the repository, and of libraries of the kit."""

    name: str
    does: str
    line: str
    stands_on: list
    takes: list


class Group(NamedTuple):
    """Crates that stand together."""

    heading: str
    crates: list


def words_of(line):
    """The name that a line begins with, and those behind the colon."""
    name, _, names = line.partition(":")
    return name.split()[0], names.split()


def groups():
    """The groups in their order."""
    lines = (TOP / "crates.txt").read_text().splitlines()
    names = {words_of(line)[0] for line in lines if line and not line.startswith("#")}
    found, above = [Group("", [])], ""
    for line in lines:
        if line.startswith("## "):
            found.append(Group(line[3:], []))
        elif line and not line.startswith("#"):
            name, used = words_of(line)
            own, kit = [it for it in used if it in names], [it for it in used if it not in names]
            found[-1].crates.append(Crate(name, above, line, own, kit))
        above = line[2:] if line.startswith("# ") else ""
    return [group for group in found if group.crates]


def crates():
    """Each crate by its name, in the order of crates.txt."""
    return {crate.name: crate for group in groups() for crate in group.crates}


def all_below(stands_on):
    """For each crate those that it stands on, directly or not."""
    found = {}

    def below(name):
        if name not in found:
            found[name] = set(stands_on[name]).union(*map(below, stands_on[name]))
        return found[name]

    for name in stands_on:
        below(name)
    return found
