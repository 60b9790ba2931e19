#!/usr/bin/env python3
"""Checks what the sources say of themselves to whoever calls them.

Each public item of a crate, and each method of its public traits, has documentation (`///`); what stands in a module of tests is
no item. Each name that a crate's root file makes public of its own modules is that of a public item. Each crate says on its root
page what it gives, those that docs/LIBRARY.md sends a caller to in three sentences and with a first example. What
docs/LIBRARY.md and the root pages quote of code or of output stands so in a source or in what the tour prints. The items
themselves, with their clauses, are printed by tests/byhand/api.py.

A crate re-exports an item of another crate only for one of three reasons: its own API needs the item; the specification places the
item there (`SPECIFIED`); or a crate uses the item from there because its line of crates.txt is full.
"""

import collections
import itertools
import pathlib
import re
import sys

sys.path.insert(0, str(pathlib.Path(__file__).resolve().parents[1]))

from lib.counting import Counter
from lib.crates import MOST_BELOW, crates
from lib.places import TOP
from lib.sources import FOLDER, items_of, names_in_api, re_exports_of, root_of, root_page, uses_of

# what the specification places in a crate whose own signatures do not need it
SPECIFIED = {
    "scenario": {"Failed", "Fault", "FromRead", "IntoWrite", "Sink", "Source"},
    "world": {"Flick", "history_laws", "laws"},
}

LIBRARY = TOP / "docs" / "LIBRARY.md"


def names_given_on(crate):
    """The names that a root file makes public of its own modules, each with the path that it stands behind."""
    root = root_of(crate)
    for path, names in re.findall(r"^pub use ([\w:]+)(?:::\{([^}]*)\})?;", root.read_text(), re.M | re.S):
        module, *inner = path.split("::")
        if (root.parent / f"{module}.rt").exists():
            yield from re.findall(r"\w+", names) or inner[-1:]


def users_with_full_lines():
    """For each crate and name, the crates that take the name from it and have a full line of crates.txt."""
    found = collections.defaultdict(set)
    for crate, listed in crates().items():
        if len(listed.stands_on) >= MOST_BELOW:
            for path in (FOLDER / crate / "src").rglob("*.rt"):
                within = re.findall(r"(?=\b(\w+)::(\w+))", re.sub(r"//.*", "", path.read_text()))
                for pair in [*within, *(pair for _, names in uses_of(path) for pair in itertools.pairwise(names))]:
                    found[pair].add(crate)
    return found


def re_exports():
    """Each re-export, and whether it has a reason: the API, the specification, or a user whose line is full."""
    users = users_with_full_lines()
    for crate in crates():
        needed = names_in_api(crate) | SPECIFIED.get(crate, set())
        for name, source in re_exports_of(crate):
            without = [user for user in users[crate, name] if source not in crates()[user].stands_on]
            has_reason = name in needed or bool(without)
            yield f"{crate} re-exports `{name}` of {source}", has_reason


def thin_pages():
    """The crates that a caller is sent to and whose root page has fewer than three sentences, or no example."""
    table = re.search(r"^## Which crates\n(.*?)^## ", LIBRARY.read_text(), re.M | re.S)[1]
    rows = re.findall(r"^\| [^|]* \| (`.*?) \|", table, re.M)
    for crate in sorted({crate for row in rows for crate in re.findall(r"`(\w+)`", row)}):
        told, _, example = root_page(crate).partition("```rust\n")
        if len(re.findall(r"\.(?=\s)", told)) < 3 or not example:
            yield crate


def stripped(text):
    """The lines of a text without their indents, between line ends."""
    return "\n" + "\n".join(line.strip() for line in text.strip().split("\n")) + "\n"


def quotes():
    """What pages quote of code or of output."""
    for page in [LIBRARY.read_text(), *map(root_page, crates())]:
        yield from re.findall(r"^```(?:rust|text)\n(.*?)^```$", page, re.M | re.S)


def main():
    counter = Counter()
    for crate in crates():
        items = list(items_of(crate))
        for item in items:
            place = f"{item.path.relative_to(TOP)}:{item.line}"
            counter.count(item.docs.strip(), f"{place}: {item.kind} {item.name} has no documentation")
        counter.count(root_page(crate), f"{crate} has no root page")
        lost = set(names_given_on(crate)) - {item.name for item in items}
        counter.count(not lost, f"{crate} makes names public that no public item has: {sorted(lost)}")
    for told, has_reason in re_exports():
        counter.count(has_reason, f"{told}, which its API does not need; import it from the crate that declares it")
    for crate in thin_pages():
        counter.count(False, f"{crate}'s root page has fewer than three sentences, or no example")
    sources = [stripped(path.read_text()) for path in [*FOLDER.glob("*/src/**/*.rt"), FOLDER / "tour" / "stdout"]]
    for quote in quotes():
        counter.count(any(stripped(quote) in source for source in sources), f"a quote stands nowhere:\n{quote}")
    counter.end()


main()
