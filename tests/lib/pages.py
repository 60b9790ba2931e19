"""The pages of the repository, or of a copy of it: the commands that they show, and their links.

A command is behind `$ ` in a block of `console`, and what it prints, on both streams, is on the lines below it. A block without a
language has commands alone.
"""

import re

CONSOLE = re.compile(r"^```console\n(.*?)^```$", re.M | re.S)
ANY_BLOCK = re.compile(r"^```(\w*)\n.*?^```$", re.M | re.S)
LINK = re.compile(r"\]\(([^()\s]+)\)")
CODE = re.compile(r"^```.*?^```$|`[^`\n]*`", re.M | re.S)
# the words by which rt or `./run` runs the program
BY_OTHERS = re.compile(r"(\brt (try|run)( --jobs \d+)? -- |^\./run )")


def commands_in(text):
    """Yields each command of a text with what is shown below it."""
    for block in CONSOLE.findall(text):
        for shown in re.split(r"^\$ ", block, flags=re.M)[1:]:
            command, _, output = shown.partition("\n")
            yield command, output


def by_name(command):
    """Returns a command that runs the program by its name, where the page shows how rt or `./run` runs it."""
    return BY_OTHERS.sub("bakerystore ", command)


def typed_in(text):
    """Returns the blocks of commands whose output is not shown."""
    return [block[0][4:-3] for block in re.finditer(ANY_BLOCK, text) if not block[1]]


def pages_below(top):
    """Returns the pages of a repository."""
    return sorted(page for page in top.rglob("*.md") if not {".git", "out"} & set(page.relative_to(top).parts))


def links_of(page):
    """Returns the links of a page, except those in code."""
    return LINK.findall(CODE.sub("", page.read_text()))


def names_of_headings(page):
    """Returns the names by which the headings of a page are linked to."""
    text = re.sub(r"^```.*?^```$", "", page.read_text(), flags=re.M | re.S)
    headings = re.findall(r"^#+ +(.*?) *$", text, re.M)
    return {re.sub(r"[^\w\- ]", "", heading.lower()).replace(" ", "-") for heading in headings}


def fault_of_link(top, page, link):
    """Returns what is wrong with a link of a page of the repository, or None. Links to other places are left alone."""
    if re.match(r"\w+:", link):
        return None
    path, _, name = link.partition("#")
    target = (page.parent / path).resolve() if path else page
    if not target.is_relative_to(top) or not target.exists():
        return "leads nowhere"
    if not name:
        return None
    if target.suffix == ".md":
        return None if name in names_of_headings(target) else "names no heading"
    line = re.fullmatch(r"L(\d+)", name)
    return None if line and 1 <= int(line[1]) <= len(target.read_text().splitlines()) else "names no line"
