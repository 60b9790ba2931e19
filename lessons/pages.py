#!/usr/bin/env python3
"""Makes a page for a browser of each lesson, and an index with goals and minutes.

pages.py --to FOLDER writes index.html, a page for each lesson, the other pages of lessons/ and the glossary, and the pictures. The
folder is out/lessons if none is named. The pages are made from the Markdown files alone, so no program is run and nothing is proved. They
work from the file system, without a server and without a network. ANSWERS.md, the teacher's key, is not among them.

A page of a lesson has the parts of the lesson in their order: the beginning, its file, the prediction with a box to write in, the run,
the picture, the question with a box, and the answer. Run, picture and answer are folded.
"""

import argparse
import html
import os
import pathlib
import re
import sys
from typing import NamedTuple

LESSONS = pathlib.Path(__file__).resolve().parent
TOP = LESSONS.parent
PARTS = LESSONS / "page"
sys.path.insert(0, str(PARTS))

from markdown import Block, Writer, name_of_heading, read

# the pages that are not lessons, by the file that they are made from
OTHERS = {
    LESSONS / "README.md": "index.html",
    LESSONS / "LECTURE.md": "lecture.html",
    LESSONS / "HANDOUT.md": "handout.html",
    LESSONS / "SEMESTER.md": "semester.html",
    LESSONS / "TEACHING.md": "teaching.html",
    LESSONS / "MEMORY.md": "memory.html",
    LESSONS / "SHEET.md": "sheet.html",
    TOP / "docs" / "LOCKS.md": "locks.html",
    TOP / "docs" / "GLOSSARY.md": "glossary.html",
}
RUN, ANSWER = "The run", "Answer"
# the width of the names of the lanes in a picture, and the height at which they begin
NAMES_WIDTH, NAMES_TOP = 52, 28
# the groups of a picture, of which the last one is its legend; the names of bits, the box of the verdict, and the lines in it
GROUP = re.compile(r'<g transform="translate\(0,(\d+)\)">')
BIT = re.compile(r'<text class="cell" x="8" y="(\d+)">([^<]+)')
VERDICT = re.compile(r'<rect class="ruling[^>]* y="(\d+)" [^>]*height="(\d+)"')
VERDICT_LINE = re.compile(r'<text class="(?:sentence|rest)" x="18" y="\d+">([^<]+)')
# the most that a letter is wide in a name, and in the first line of a verdict, and the lines above and below the foot of a name
LETTER, LARGE_LETTER, ABOVE, BELOW = 7, 8, 11, 4
SIZE = re.compile(r'<svg [^>]*width="(\d+)"')
HEAD_OF_INDEX = ["Lesson", "What it shows", "Minutes", "Needs"]
KEYS = """<p class="ui">Keys on a page: <kbd>Space</kbd> or <kbd>Page Down</kbd> goes on in the lesson and unfolds what it comes to,
<kbd>Shift</kbd>+<kbd>Space</kbd> or <kbd>Page Up</kbd> goes back, <kbd>←</kbd> and <kbd>→</kbd> lead to the previous and the next
lesson. <kbd>Esc</kbd> leaves a box.</p>"""


class Lesson(NamedTuple):
    """A lesson: its name, its title, and the blocks of its page without the lines of links."""

    stem: str
    title: str
    blocks: list

    @property
    def page(self):
        return f"{self.stem}.html"


class Part(NamedTuple):
    """A part of a page: its name and heading, its blocks or None, or those that are folded, and the blocks before and after it."""

    name: str
    heading: str
    blocks: list | None
    folded: list | None = None
    lead: list = []
    after: list = []


def lesson_of(path):
    """Returns the lesson of a Markdown file. Its title is followed by a line of links, which ends the page too."""
    title, links, *blocks = read(path.read_text())
    *blocks, rule, last = blocks
    if (title.kind, rule.kind) != ("heading", "rule") or links != last:
        raise ValueError(f"{path.name} has no title, or does not begin and end with its links")
    return Lesson(path.stem, title.text, blocks)


def lessons():
    """Returns the lessons in their order."""
    return [lesson_of(path) for path in sorted(LESSONS.glob("[0-9]*.md"))]


def sections_of(blocks):
    """Returns the blocks before the first heading, and those below each heading, by its text."""
    first, below = [], {}
    now = first
    for block in blocks:
        if block.kind == "heading" and block.more == 2:
            now = below.setdefault(block.text, [])
        else:
            now.append(block)
    return first, below


def split_at_fold(blocks, name):
    """Returns the blocks before the folded part of this name, those within it, and those after it."""
    at = next(at for at, block in enumerate(blocks) if block.kind == "folded" and block.text == name)
    return blocks[:at], blocks[at].blocks, blocks[at + 1 :]


def parts_of(lesson):
    """Returns the parts of a lesson. What follows the run, before the question, begins the part of the question."""
    first, below = sections_of(lesson.blocks)
    (file, of_file), (predict, of_predict), (question, of_question) = below.items()
    before_run, run, lead = split_at_fold(of_predict, RUN)
    before_answer, answer, end = split_at_fold(of_question, ANSWER)
    at = next((at for at, block in enumerate(run) if block.kind == "picture"), None)
    yield Part("start", lesson.title, first)
    yield Part(name_of_heading(file), file, of_file)
    yield Part("predict", predict, before_run)
    yield Part("run", RUN, None, run[:at])
    if at is not None:
        yield Part("picture", "The picture", None, run[at:])
    yield Part("question", question, before_answer, lead=lead)
    yield Part("answer", ANSWER, None, answer, after=end)


def names_in(drawing):
    """Returns the widths that stay in sight at the left of a picture, from top to bottom, each with its first and its last height:
    those of the names of lanes and of bits, and of the text of the verdict. The last height is that of the verdict's end or, if there is
    none, of the legend."""
    groups, found, at, verdict = [*GROUP.finditer(drawing)], [], NAMES_TOP, None
    for group, after in zip(groups, groups[1:]):
        top, text = int(group[1]), drawing[group.end() : after.start()]
        rows = [(top + int(y) - ABOVE, top + int(y) + BELOW, 8 + LETTER * len(html.unescape(name))) for y, name in BIT.findall(text)]
        if verdict := VERDICT.search(text):
            y, height = map(int, verdict.groups())
            longest = max(len(html.unescape(line)) for line in VERDICT_LINE.findall(text[verdict.end() :]))
            rows.append((top + y - 1, top + y + height + 1, 18 + LARGE_LETTER * longest))
        for first, last, width in sorted(rows):
            found += [(at, first, NAMES_WIDTH), (first, last, max(width, NAMES_WIDTH))]
            at = last
    return found if verdict else [*found, (at, int(groups[-1][1]), NAMES_WIDTH)]


def outline(rows):
    """Returns the outline of the names of a picture, for the style sheet."""
    length = lambda number: f"calc({number} * var(--unit))"
    corners = [("0", length(rows[0][0]))]
    for first, last, width in rows:
        corners += [(length(width), length(first)), (length(width), length(last))]
    corners.append(("0", length(rows[-1][1])))
    return f"polygon({','.join(map(' '.join, corners))})"


class Pages:
    """The pages, for a folder of this place: links to other files of the repository lead there from it."""

    def __init__(self, folder):
        self.folder, self.lessons = folder, lessons()
        self.names = {**{LESSONS / f"{lesson.stem}.md": lesson.page for lesson in self.lessons}, **OTHERS}
        self.style, self.script = ((PARTS / name).read_text() for name in ("page.css", "page.js"))

    def address(self, page, link):
        """Returns the address of a link of a Markdown page."""
        if re.match(r"\w+:", link) or link.startswith("#"):
            return link
        path, sign, name = link.partition("#")
        target = (page.parent / path).resolve()
        if target.parent == LESSONS / "pictures" and target.suffix == ".svg":
            return f"pictures/{target.name}"
        return f"{self.names.get(target) or pathlib.Path(os.path.relpath(target, self.folder)).as_posix()}{sign}{name}"

    def writer(self, page):
        """Returns a writer of the blocks of a Markdown page."""
        return Writer(lambda link: self.address(page, link))

    def document(self, title, kind, links, content):
        """Returns a whole page."""
        return (
            '<!doctype html>\n<html lang="en">\n<head>\n<meta charset="utf-8">\n'
            '<meta name="viewport" content="width=device-width, initial-scale=1">\n'
            f"<title>{html.escape(title)}</title>\n{links}<style>\n{self.style}</style>\n</head>\n"
            f'<body class="{kind}">\n{content}\n<script>\n{self.script}</script>\n</body>\n</html>\n'
        )

    # Pages of lessons.

    def lesson(self, before, lesson, after):
        """Returns the page of a lesson between two others, or None."""
        writer, parts = self.writer(LESSONS / f"{lesson.stem}.md"), [*parts_of(lesson)]
        links = "".join(
            f'<link rel="{name}" href="{it.page}" title="{html.escape(it.title)}">\n' for name, it in (("prev", before), ("next", after)) if it
        )
        sections = "\n".join(self.part(writer, lesson, part) for part in parts)
        content = f"{self.top_of(before, after)}\n<main>\n{sections}\n</main>\n{self.bar_of(before, parts, after)}"
        return self.document(lesson.title, "lesson", links, content)

    def top_of(self, before, after):
        """Returns the links at the top of a lesson."""
        links = [f'<a href="{before.page}">← {html.escape(before.title)}</a>'] if before else []
        links += ['<a href="index.html">All lessons</a>', '<a href="glossary.html">Glossary</a>']
        links += [f'<a href="{after.page}">{html.escape(after.title)} →</a>'] if after else []
        return f'<nav class="ui" aria-label="Lessons">{" ".join(links)}</nav>'

    def bar_of(self, before, parts, after):
        """Returns the bar at the bottom of a lesson, which leads to its parts."""
        arrow = lambda it, sign, words: (
            f'<a class="arrow" href="{it.page}" aria-label="{words}: {html.escape(it.title)}">{sign}</a>'
            if it
            else f'<span class="arrow">{sign}</span>'
        )
        links = " ".join(f'<a href="#{part.name}">{"Start" if part.name == "start" else part.heading}</a>' for part in parts)
        buttons = '<button type="button" id="unfold">Unfold all</button>'
        return (
            f'<nav class="bar ui" aria-label="Parts of this lesson">{arrow(before, "←", "Previous")} <span class="parts">{links}</span> '
            f'{buttons} {arrow(after, "→", "Next")}</nav>'
        )

    def part(self, writer, lesson, part):
        """Returns a part of a lesson. The heading of a folded part unfolds it."""
        heading = f"h{1 if part.name == 'start' else 2}"
        if part.folded is None:
            lead = f"{writer.html(part.lead)}\n" if part.lead else ""
            inner = f'{lead}<{heading} id="{part.name}">{writer.inline(part.heading)}</{heading}>\n{self.paired(writer, part.blocks)}'
        else:
            echo = '<p class="echo ui" hidden></p>\n' if part.name in ("run", "picture", "answer") else ""
            of_part = self.pictured(writer, lesson, part.folded)
            # the heading of the picture is not in the Markdown
            kind = ' class="ui"' if part.name == "picture" else ""
            inner = (
                f'<details>\n<summary><{heading} id="{part.name}"{kind}>{part.heading}</{heading}></summary>\n{echo}{of_part}\n</details>\n'
                f"{writer.html(part.after)}"
            )
        box = self.box(part.name) if part.name in ("predict", "question") else ""
        return f'<section class="part" data-part="{part.name}" tabindex="-1">\n{inner}\n{box}</section>'

    def box(self, name):
        """Returns a box to write in."""
        words = {"predict": "Your prediction", "question": "Your answer"}[name]
        return f'<label class="box ui">{words}<textarea id="{name}-box" rows="4" spellcheck="false"></textarea></label>\n'

    def paired(self, writer, blocks):
        """Returns the HTML of blocks, with the table of words next to the file that it explains, where the page is wide."""
        found, at = [], 0
        while at < len(blocks):
            is_pair = blocks[at].kind == "code" and at + 1 < len(blocks) and blocks[at + 1].kind == "table"
            size = 2 if is_pair else 1
            text = writer.html(blocks[at : at + size])
            found.append(f'<div class="pair">\n{text}\n</div>' if is_pair else text)
            at += size
        return "\n".join(found)

    def pictured(self, writer, lesson, blocks):
        """Returns the HTML of blocks, with the picture in a frame in which it is moved."""
        return "\n".join(self.figure(lesson, block) if block.kind == "picture" else writer.html([block]) for block in blocks)

    def figure(self, lesson, block):
        """Returns a picture of a lesson. Where it is wider than its frame, the names of its lanes and its verdict stay in sight."""
        drawing = (LESSONS / block.more).read_text()
        width = int(SIZE.search(drawing)[1])
        source, words = self.address(LESSONS / "README.md", block.more), html.escape(block.text)
        rows = names_in(drawing)
        names = f"--names:{max(width for _, _, width in rows)};--outline:{outline(rows)}"
        sizes = f"--wide:{width};--lanes:{rows[-1][1]};{names}"
        return (
            f'<div class="view" tabindex="0" role="group" aria-label="{words}" style="{sizes}">\n'
            f'<div class="names" aria-hidden="true"><img src="{source}" alt=""></div>\n'
            f'<img class="whole" src="{source}" alt="{words}">\n</div>\n'
            f'<p class="ui"><button type="button" class="size" aria-pressed="false">Whole picture</button> '
            f'<a href="{source}">The picture alone</a></p>'
        )

    # Other pages.

    def goals(self):
        """Returns the goal of each lesson, by the link to its Markdown page."""
        tables = [block.text for block in read((LESSONS / "TEACHING.md").read_text()) if block.kind == "table"]
        rows = next(table[1:] for table in tables if table[0] == ["Lesson", "Goal", "Minutes"])
        return {re.search(r"\(([^)]+)\)", lesson)[1]: goal for lesson, goal, _ in rows}

    def with_goals(self, block):
        """Returns the table of the lessons with their goals."""
        if block.kind != "table" or block.text[0] != HEAD_OF_INDEX:
            return block
        goals, rows = self.goals(), [["Lesson", "What it shows", "Afterwards you can", "Minutes", "Needs"]]
        for lesson, shows, minutes, needs in block.text[1:]:
            rows.append([lesson, shows, goals[re.search(r"\(([^)]+)\)", lesson)[1]], minutes, needs])
        return Block("table", rows)

    def other(self, page, name):
        """Returns a page that is not a lesson."""
        title, *blocks = read(page.read_text())
        writer = self.writer(page)
        if name == "index.html":
            blocks = [self.with_goals(block) for block in blocks]
        others = [("index.html", "All lessons"), ("lecture.html", "A lecture"), ("semester.html", "A semester"), ("sheet.html", "Exercises")]
        links = " ".join(f'<a href="{to}">{words}</a>' for to, words in [*others, ("glossary.html", "Glossary")] if to != name)
        keys = KEYS if name == "index.html" else ""
        content = f'<nav class="ui" aria-label="Pages">{links}</nav>\n<main>\n{writer.html([title])}\n{keys}{writer.html(blocks)}\n</main>'
        return self.document(title.text, "other", "", content)

    def all(self):
        """Yields each file of the folder: its name and its content."""
        for before, lesson, after in zip([None, *self.lessons], self.lessons, [*self.lessons[1:], None]):
            yield lesson.page, self.lesson(before, lesson, after).encode()
        for page, name in OTHERS.items():
            yield name, self.other(page, name).encode()
        for picture in sorted((LESSONS / "pictures").glob("*.svg")):
            yield f"pictures/{picture.name}", picture.read_bytes()


def pages(folder):
    """Returns the content of each page and picture by its name, with links from this folder to the other files of the repository."""
    return dict(Pages(pathlib.Path(folder).resolve()).all())


def main():
    parser = argparse.ArgumentParser(description="Makes a page for a browser of each lesson, and an index.")
    parser.add_argument("--to", type=pathlib.Path, metavar="FOLDER", default=TOP / "out" / "lessons", help="out/lessons if not named")
    folder = parser.parse_args().to
    for name, content in pages(folder).items():
        (folder / name).parent.mkdir(parents=True, exist_ok=True)
        (folder / name).write_bytes(content)
    print(folder / "index.html")


if __name__ == "__main__":
    main()
