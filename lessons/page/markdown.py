"""Reads the small part of Markdown that the pages of this folder use, and writes it as HTML.

The blocks are headings, paragraphs, lists, tables, code between lines of three backticks, rules, pictures, and folded parts:
`<details><summary>NAME</summary>` on a line of its own, up to `</details>`. Within a line there are code, links, emphasis and strong
emphasis. Everything else is text, and each of its characters is escaped.
"""

import html
import re
from dataclasses import dataclass, field

HEADING = re.compile(r"(#{1,4}) (.+)")
FENCE = re.compile(r"```(\w*)")
ITEM = re.compile(r"(-|\d+\.) +(.+)")
PICTURE = re.compile(r"!\[([^\]]+)\]\(([^()\s]+)\)")
FOLDED = re.compile(r"<details><summary>(.+)</summary>")
UNFOLDED = "</details>"
RULE = "---"
# the line below the first row of a table
TABLE_LINE = re.compile(r"\|(?:\s*:?-+:?\s*\|)+")
CELL_BORDER = re.compile(r"(?<!\\)\|")
# code of so many lines, each of at most so many characters, is printed in two columns
LONG, NARROW = 14, 50
INLINE = re.compile(
    r"`(?P<code>[^`]+)`|\[(?P<text>[^\[\]]+)\]\((?P<link>[^()\s]+)\)|\*\*(?P<strong>.+?)\*\*(?!\*)|(?<![\w*])\*(?P<emphasis>[^*\s][^*]*)\*(?!\w)"
)


@dataclass
class Block:
    """A block of a page: its kind, its text or its rows or items, what its kind adds to them, and the blocks within it."""

    kind: str
    text: object = ""
    more: object = None
    blocks: list = field(default_factory=list)


class Reader:
    """Reads the lines of a page, block by block."""

    def __init__(self, text):
        self.lines, self.at = text.splitlines(), 0

    @property
    def line(self):
        """Returns the line that is read next, or None at the end."""
        return self.lines[self.at] if self.at < len(self.lines) else None

    def next_line(self):
        """Returns the line, and goes to the one after it."""
        self.at += 1
        return self.lines[self.at - 1]

    def blocks(self, end=None):
        """Returns the blocks up to a line with this text, or up to the end."""
        found = []
        while self.line is not None and self.line != end:
            if self.line.strip():
                found.append(self.block())
            else:
                self.next_line()
        if end is not None and self.line is None:
            raise ValueError(f"{end} is missing")
        return found

    def block(self):
        """Returns the block that begins here."""
        line = self.line
        for pattern, read in (
            (FENCE, self.code),
            (HEADING, lambda it: Block("heading", it[2], len(it[1]))),
            (FOLDED, self.folded),
            (PICTURE, lambda it: Block("picture", it[1], it[2])),
        ):
            if found := pattern.fullmatch(line):
                self.next_line()
                return read(found)
        if line == RULE:
            self.next_line()
            return Block("rule")
        if line.startswith("|"):
            return self.table()
        return self.items() if ITEM.fullmatch(line) else self.paragraph()

    def code(self, found):
        """Returns a block of code, after its first line."""
        lines = []
        while self.line != "```":
            if self.line is None:
                raise ValueError("a block of code has no end")
            lines.append(self.next_line())
        self.next_line()
        return Block("code", "".join(f"{line}\n" for line in lines), found[1])

    def folded(self, found):
        """Returns a folded part, after its first line."""
        blocks = self.blocks(UNFOLDED)
        self.next_line()
        return Block("folded", found[1], None, blocks)

    def table(self):
        """Returns a table: its rows, of which the first one is the heading."""
        rows = []
        while self.line is not None and self.line.startswith("|"):
            row = self.next_line()
            if not TABLE_LINE.fullmatch(row):
                rows.append([cell.strip().replace(r"\|", "|") for cell in CELL_BORDER.split(row)[1:-1]])
        return Block("table", rows)

    def items(self):
        """Returns a list. An item goes on in the lines after it that are indented."""
        items, is_numbered = [], self.line[0].isdigit()
        while self.line is not None and (found := ITEM.fullmatch(self.line)):
            self.next_line()
            text = [found[2]]
            while self.line is not None and self.line.startswith("  ") and self.line.strip():
                text.append(self.next_line().strip())
            items.append(" ".join(text))
        return Block("list", items, is_numbered)

    def paragraph(self):
        """Returns a paragraph, which ends before an empty line or another block."""
        lines = [self.next_line()]
        while self.line and not self.line.startswith(("|", "```", "#", "<details>", UNFOLDED)) and not ITEM.fullmatch(self.line):
            lines.append(self.next_line())
        return Block("paragraph", "\n".join(lines))


def read(text):
    """Returns the blocks of a page."""
    return Reader(text).blocks()


def name_of_heading(text):
    """Returns the name by which links lead to a heading."""
    return re.sub(r"[^\w\- ]", "", text.lower()).replace(" ", "-")


def console(text):
    """Returns a block of commands and what they print, with each command marked."""
    lines = []
    for line in text.splitlines(keepends=True):
        escaped = html.escape(line, quote=False)
        lines.append(f'<b class="typed">{escaped[:-1]}</b>\n' if line.startswith("$ ") else escaped)
    return "".join(lines)


def is_long(text):
    """Returns whether code has many lines, and none that is wider than half a page, without its commands and comments."""
    lines = [line for line in text.splitlines() if not line.startswith(("$ ", "#"))]
    return len(lines) >= LONG and max(map(len, lines)) <= NARROW


class Writer:
    """Writes blocks as HTML. `address` returns the address to which a link or a picture leads, of the address in the Markdown."""

    def __init__(self, address):
        self.address = address

    def inline(self, text):
        """Returns the HTML of the text of a line."""
        parts, at = [], 0
        for found in INLINE.finditer(text):
            parts += [html.escape(text[at : found.start()], quote=False), self.inline_part(found)]
            at = found.end()
        return "".join([*parts, html.escape(text[at:], quote=False)])

    def inline_part(self, found):
        """Returns the HTML of code, of a link or of emphasis."""
        if found["code"] is not None:
            return f"<code>{html.escape(found['code'], quote=False)}</code>"
        if found["link"] is not None:
            return f'<a href="{html.escape(self.address(found["link"]))}">{self.inline(found["text"])}</a>'
        name, text = ("strong", found["strong"]) if found["strong"] is not None else ("em", found["emphasis"])
        return f"<{name}>{self.inline(text)}</{name}>"

    def html(self, blocks):
        """Returns the HTML of blocks."""
        return "\n".join(getattr(self, f"html_of_{block.kind}")(block) for block in blocks)

    def html_of_heading(self, block):
        return f'<h{block.more} id="{name_of_heading(block.text)}">{self.inline(block.text)}</h{block.more}>'

    def html_of_paragraph(self, block):
        return f"<p>{self.inline(block.text)}</p>"

    def html_of_rule(self, block):
        return "<hr>"

    def html_of_code(self, block):
        text = console(block.text) if block.more == "console" else html.escape(block.text, quote=False)
        kind = html.escape(block.more or "commands") + " long" * is_long(block.text)
        return f'<pre class="{kind}"><code>{text}</code></pre>'

    def html_of_list(self, block):
        name = "ol" if block.more else "ul"
        items = "\n".join(f"<li>{self.inline(item)}</li>" for item in block.text)
        return f"<{name}>\n{items}\n</{name}>"

    def html_of_table(self, block):
        row = lambda cells, name: "<tr>" + "".join(f"<{name}>{self.inline(cell)}</{name}>" for cell in cells) + "</tr>"
        body = "\n".join(row(cells, "td") for cells in block.text[1:])
        return f'<div class="table"><table>\n<thead>{row(block.text[0], "th")}</thead>\n<tbody>\n{body}\n</tbody>\n</table></div>'

    def html_of_picture(self, block):
        return f'<p><img src="{html.escape(self.address(block.more))}" alt="{html.escape(block.text)}"></p>'

    def html_of_folded(self, block):
        return f"<details>\n<summary>{self.inline(block.text)}</summary>\n{self.html(block.blocks)}\n</details>"
