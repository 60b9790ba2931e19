"""Makes the manual page of `bakerystore` from the pages that `bakerystore help` prints.

Each page is read as blocks between blank lines: paragraphs, examples (lines from `$ ` on) and lists (a term, a gap, and its text).
The manual page has every word of each page in its order, without the word `Usage:`. Headings of the general page become sections.
"""

import re
from typing import NamedTuple

from lib import command_table

# the columns of a help page: a line ends on purpose if the next one begins with a capital letter that would have fit
WIDTH = 88
# the greatest indent of the texts of a list; terms that are longer get a line of their own
MOST_INDENT = 32
USUAL_INDENT = 7
ROFF = {"\\": r"\e", "-": r"\-", "'": r"\(aq", "`": r"\(ga", "^": r"\(ha", "~": r"\(ti", '"': r"\(dq"}
PLACEHOLDER = re.compile(r"[A-Z]+")
TERM = re.compile(r"(?P<term>\S+(?: \S+)*)(?: {2,}(?P<text>\S.*))?")
OPTIONS, STATUS = "Options:", "Exit status:"

WHAT_IT_IS = """\
bakerystore simulates and checks locks on safe bits: shared bits with one writer and one reader, where a read that overlaps a
write may return either value. It runs Lamport's bakery lock and the store of named counters and texts that the lock protects,
one bit access at a time. Processes may fail at any step and restart. It also judges recorded runs of any lock on such bits,
explains the first violation, and draws each run as a picture."""
FILES = """\
The files that this page names are in the folder of the release archive, and the examples run in that folder. These are the
pages of documentation among them:"""
EXAMPLES = """\
The list under DESCRIPTION has an example of each command. The sections COMMANDS, MARKS OF A RUN and FAULTS show further
examples with their output."""
LITERATURE = """\
L. Lamport. A New Solution of Dijkstra's Concurrent Programming Problem. Communications of the ACM 17(8), 1974.
L. Lamport. On Interprocess Communication. Distributed Computing 1(2), 1986."""


class Item(NamedTuple):
    """A term of a list, and the lines of its text, without the indent that all of them have."""

    term: str
    lines: list


def escaped(text):
    """Returns a text as roff reads it within a line."""
    return "".join(ROFF.get(letter, letter if letter.isascii() else f"\\[u{ord(letter):04X}]") for letter in text)


def line_of(text):
    """Returns an escaped text as a line that roff does not read as a request."""
    return r"\&" + text if text.startswith(".") else text


def bold(text):
    return rf"\fB{escaped(text)}\fR"


def italic(text):
    return rf"\fI{escaped(text)}\fR"


def marked(text):
    """Returns a line of prose: what is between backquotes is bold."""
    parts = text.split("`")
    if len(parts) % 2 == 0:
        raise ValueError(f"a backquote is not closed: {text!r}")
    quote = escaped("`")
    return line_of("".join(quote + bold(part) + quote if at % 2 else escaped(part) for at, part in enumerate(parts)))


def styled(text):
    """Returns words to be typed: bold, except placeholders such as FILE, which are italic."""
    found = []
    for word in re.split(r"([\w`-]+)", text):
        if PLACEHOLDER.fullmatch(word):
            found.append(italic(word))
        elif re.match(r"[\w`-]", word):
            found.append(bold(word))
        else:
            found.append(escaped(word))
    return line_of("".join(found))


def usage(lines):
    """Returns usage lines, which stay as they are; only the words before a gap of three blanks are to be typed."""
    found = [".nf"]
    for line in lines:
        typed, gap, text = re.fullmatch(r"(.*?)( {3,}.*)?", line).group(1, 2, 2)
        found.append(styled(typed) + (marked(text) if gap else ""))
    return [*found, ".fi"]


def sentences(text):
    """Returns each sentence of a text as a line; a sentence does not end between backquotes."""
    whole = re.sub(r"`[^`]*`", lambda quoted: quoted[0].replace(" ", "\0"), text)
    return [marked(sentence.replace("\0", " ")) for sentence in re.split(r"(?<=[.?!]) (?=[A-Z`(])", whole)]


def paragraph(lines):
    """Returns a paragraph. Where a line of the help page ends early, this one ends too."""
    found, text = [], ""
    for at, line in enumerate(lines):
        text = f"{text} {line}".lstrip()
        is_last = at + 1 == len(lines)
        following = "" if is_last else lines[at + 1].split(" ")[0]
        if is_last or following[0].isupper() and len(line) + 1 + len(following) <= WIDTH:
            found += sentences(text) + [".br"] * (not is_last)
            text = ""
    return found


def example(lines):
    """Returns lines that stay as they are."""
    return [".EX", *("  " + escaped(line) for line in lines), ".EE"]


def is_shown(line):
    """Whether a line of an item's text is of an example: a command, or what it prints."""
    return line.startswith(("$ ", " "))


def text_of_item(lines):
    """Returns the text of an item: paragraphs and examples by turns."""
    found, at = [], 0
    while at < len(lines):
        end = at + 1
        while end < len(lines) and is_shown(lines[end]) == is_shown(lines[at]):
            end += 1
        group = lines[at:end]
        if is_shown(group[0]):
            found += example(line.removeprefix("  ") for line in group)
        else:
            found += sentences(" ".join(group))
        at = end
    return found


def column_of(lines):
    """Returns the column at which the texts of a list begin; none, if the lines are not a list."""
    base = len(lines[0]) - len(lines[0].lstrip())
    for line in lines:
        match = TERM.fullmatch(line[base:])
        if match and match["text"]:
            return base + match.start("text")
    return None


def items_of(lines):
    """Returns the items of a list, and how far its texts are indented from its terms."""
    base, column = len(lines[0]) - len(lines[0].lstrip()), column_of(lines)
    items = []
    for line in lines:
        if line.startswith(" " * column):
            items[-1].lines.append(line[column:])
            continue
        term, text = line[base:column].rstrip(), line[column:]
        if line[:base].strip() or not term or line[column - 1 : column].strip():
            raise ValueError(f"a line of a list is not understood: {line!r}")
        items.append(Item(term, [text] * bool(text)))
    return items, column - base


def listed(lines, is_close):
    """Returns a list. Its items have no blank lines between them if it is close."""
    items, indent = items_of(lines)
    indent = indent if indent <= MOST_INDENT else USUAL_INDENT
    found = []
    for at, item in enumerate(items):
        # the first item keeps its distance from what is above the list
        found += [".PD 0"] * (is_close and at == 1)
        found += [f".TP {indent}" if item.lines else ".PP", styled(item.term), *text_of_item(item.lines)]
    return found + [".PD"] * (is_close and len(items) > 1)


def blocks_of(text):
    """Returns the blocks of a page, each as its lines."""
    return [block.split("\n") for block in re.split(r"\n\n+", text.strip("\n")) if block]


def block(lines):
    """Returns a block of a help page."""
    if lines[0].startswith("  $ "):
        return [".PP", *example(line.removeprefix("  ") for line in lines)]
    if lines[0].startswith("  "):
        return listed(lines, not any("$ " in line for line in lines))
    if re.match(r"\S+(?: \S+)* {2,}\S", lines[0]):
        return listed(lines, False)
    return [".PP", *paragraph(lines)]


def blocks(many):
    return [line for lines in many for line in block(lines)]


def usage_and_rest(text):
    """Returns the usage lines of a page without the word `Usage:`, and its other blocks."""
    first, *rest = blocks_of(text)
    if not first[0].startswith("Usage: "):
        raise ValueError(f"a page does not begin with its usage: {first[0]!r}")
    # usage lines after the first are indented as far as the word reaches
    return [line.removeprefix("Usage: ").strip() for line in first], rest


def general_parts(text):
    """Returns the parts of the general page: its usage, its description, its options, its statuses, and what follows."""
    first, rest = usage_and_rest(text)
    for heading in (OPTIONS, STATUS):
        if rest.count([heading]) != 1:
            raise ValueError(f"the general page has not one heading {heading!r}")
    options, status = rest.index([OPTIONS]), rest.index([STATUS])
    return first, rest[:options], rest[options + 1 : status], rest[status + 1 : status + 2], rest[status + 2 :]


def command_part(name, text):
    """Returns the part of a command."""
    first, rest = usage_and_rest(text)
    return [f".SS {escaped(name)}", *usage(first), *blocks(rest)]


def plain(text):
    """Returns a paragraph of this file."""
    return sentences(" ".join(text.split("\n")))


def files_named(pages):
    """Returns the pages of documentation that the help pages name, in their order."""
    return [*dict.fromkeys(name for text in pages.values() for name in re.findall(r"[\w/]+\.md\b", text))]


def head(version, date):
    """Returns the lines above the first section."""
    return [
        r".\" The manual page of bakerystore, made from the pages that `bakerystore help` prints.",
        r".\" To read it: man -l bakerystore.1, or copy it to a folder share/man/man1 that man searches.",
        f'.TH BAKERYSTORE 1 "{date}" "bakerystore {escaped(version)}" Halmabirch',
        # the macros set the hyphenation anew from this register at each paragraph
        ".nr HY 0",
        ".nh",
        ".ad l",
    ]


def man_page(pages, version, date):
    """Returns the manual page, as roff. `pages` are the texts that `bakerystore help NAME` prints, by name: each command, `run`,
    `faults`, and '' or `help` for the general page."""
    first, description, options, status, more = general_parts(pages[""] if "" in pages else pages["help"])
    names = [command.name for command in command_table.commands()]
    lines = [
        *head(version, date),
        *(".SH NAME", r"bakerystore \- simulator and trace checker for locks on safe bits"),
        *(".SH SYNOPSIS", *usage(first)),
        *(".SH DESCRIPTION", *plain(WHAT_IT_IS), *blocks(description)),
        *(".SH COMMANDS", *(line for name in names for line in command_part(name, pages[name]))),
        *(".SH OPTIONS", *blocks(options)),
        *('.SH "EXIT STATUS"', *blocks(status)),
        *('.SH "MARKS OF A RUN"', *blocks(blocks_of(pages["run"]))),
        *(".SH FAULTS", *blocks(blocks_of(pages["faults"]))),
        *(".SH FILES", *plain(FILES), ".PP", ".nf", *map(escaped, files_named(pages)), ".fi", *blocks(more)),
        *(".SH EXAMPLES", *plain(EXAMPLES)),
        *('.SH "SEE ALSO"', *(line for work in LITERATURE.split("\n") for line in (".PP", marked(work)))),
    ]
    # a heading begins a paragraph by itself
    return re.sub(r"^(\.S[HS] .*\n)\.PP\n", r"\1", "\n".join(lines) + "\n", flags=re.M)
