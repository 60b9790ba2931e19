#!/usr/bin/env python3
"""Checks the pages of lessons/: runs the file of each lesson, and compares its output with lessons/expected/ and with the page.

A lesson is a page and a file of the same name, as 02-doorway.md and 02-doorway.bakery. Its page

- has the links of `links_of` at its top and at its bottom: to the previous lesson, to the index and to the next lesson;
- states its minutes, and has the parts of `parts_of` in this order;
- quotes its whole file, in a block whose language is that of `LANGUAGES`;
- runs its file by the first command of the part *The run*. What the page shows of the output are lines of the run, in their order
  (readme.py compares them exactly, with the other commands of `console` blocks);
- shows its picture, unless its command is one of `NOT_DRAWN`, and then perhaps a picture of a part of the run. The line below a
  picture has the command that draws it. The picture of a record of another lock ends with the verdict on it.

The page of the race shows texts side by side in its block of `text`: they are those of all orders of the calls, and each race
prints one of them. The index lists each page with its title and its minutes, TEACHING.md lists it with the same minutes, and
SHEET.md and ANSWERS.md have a part for each lesson.
"""

import os
import pathlib
import re
import subprocess
import sys
from typing import NamedTuple

sys.path.insert(0, str(pathlib.Path(__file__).resolve().parents[1]))

from lib.counting import Counter
from lib.places import OTHER_LOCKS, PROGRAM, TOP
from second.race_texts import texts_beside, texts_of_orders

LESSONS = TOP / "lessons"
LANGUAGES = {".bits": "bits", ".bakery": "bakery", ".record": "record", ".py": "python"}
FILE_PARTS = {".bits": "## The accesses", ".bakery": "## The scenario", ".record": "## The record", ".py": "## The lock"}
# a part that a page may have in addition
FOLDED_FILE = "<summary>The record as a file</summary>"
RUN = re.compile(
    r"<summary>The run</summary>\n(?:(?!```|</details>).*\n)*"
    r"```console\n\$ (?P<command>.+)\n(?P<shown>(?:(?!\$ |```).*\n)*)"
)
COMMAND = re.compile(
    r"(?:bakerystore (?P<words>[a-z0-9 -]+)|PYTHONPATH=examples/other-locks (?P<python>python3)) lessons/(?P<file>[\w.-]+)(?: \| .+)?"
)
PICTURE = re.compile(
    r"^!\[[^\]]+\]\(pictures/(?P<stem>[\w-]+)\.svg\)\n\n"
    r"Drawn (?:from that record )?by `bakerystore (?P<words>draw-svg(?: --[a-z-]+(?: \d+)?)*) lessons/(?P<file>[\w./-]+)`",
    re.M,
)
MINUTES = re.compile(r"\bAbout (\d+) minutes\b")
ROW_OF_INDEX = re.compile(r"^\| \[(?P<title>[^]]+)\]\((?P<page>[\w.-]+)\) \| [^|]+ \| (?P<minutes>\d+) \| [^|]+ \|$", re.M)
ROW_OF_TEACHING = re.compile(r"^\| \[(?P<number>\d+)\]\((?P<page>[\w.-]+)\) \| [^|]+ \| (?P<minutes>\d+) \|$", re.M)
# the commands of which no picture is drawn: the accesses of one bit, one line about many runs, and threads, which leave no record
NOT_DRAWN = {"sweep", "race"}
# the programs of the folder that belong to no lesson
TOOLS = {"pages.py", "grade.py"}
RACES = 50


class Lesson(NamedTuple):
    """A lesson: its file, and the text of its page."""

    file: pathlib.Path
    text: str

    @property
    def title(self):
        return self.text.partition("\n")[0].removeprefix("# ")

    @property
    def words(self):
        """The words that run the lesson's file, or None if the page has no such command."""
        run = RUN.search(self.text)
        command = run and COMMAND.fullmatch(run["command"])
        return (command["words"] or command["python"]) if command and command["file"] == self.file.name else None

    @property
    def shown(self):
        """The lines of its run that the page shows."""
        return RUN.search(self.text)["shown"].splitlines()


def lessons():
    """Returns the lessons in their order."""
    files = sorted(path for path in LESSONS.iterdir() if path.suffix in LANGUAGES and path.with_suffix(".md").exists())
    return [Lesson(file, file.with_suffix(".md").read_text()) for file in files]


def taught():
    """Returns the name of each lesson's file, with the words that run it."""
    return {lesson.file.name: lesson.words for lesson in lessons()}


def status_of(printed):
    """Returns the exit status of a run that ends well and prints this: that of a verdict, if it prints or shows one."""
    return 3 if printed.startswith("bad ") or "<title>judge bad " in printed else 0


def output_of(words, file):
    """Runs a file by these words, and returns what the program prints, or None if it ends with a fault."""
    command = [sys.executable] if words == "python3" else [PROGRAM, *words.split()]
    environment = dict(os.environ, PYTHONPATH=str(OTHER_LOCKS))
    ran = subprocess.run([*command, file], capture_output=True, text=True, timeout=600, env=environment)
    return ran.stdout if (ran.returncode, ran.stderr) == (status_of(ran.stdout), "") else None


def contents_of(path):
    """Returns the text of a file, or None if it does not exist."""
    return path.read_text() if path.exists() else None


def occur_in_order(lines, printed):
    """Returns whether the lines are among those printed, in their order."""
    remaining = iter(printed)
    return all(line in remaining for line in lines)


def links_of(before, after):
    """Returns the line of links of a page between these lessons; None is before the first one and after the last one."""
    links = [f"Previous: [{before.title}]({before.file.stem}.md)"] if before else []
    links += ["[All lessons](README.md)", "[Glossary](../docs/GLOSSARY.md)"]
    links += [f"Next: [{after.title}]({after.file.stem}.md)"] if after else []
    return " · ".join(links)


def parts_of(lesson):
    """Returns the headings and summaries that the page of a lesson has, in this order."""
    return [FILE_PARTS[lesson.file.suffix], "## Predict", "<summary>The run</summary>", "## Question", "<summary>Answer</summary>"]


def fault_of_page(lesson, links):
    """Returns what is wrong with the text of a page, before anything is run, or None."""
    lines = lesson.text.splitlines()
    if lines[2] != links or lines[-1] != links:
        return f"does not begin and end with these links: {links}"
    if not re.match(rf"# {int(lesson.file.stem[:2])} \w", lesson.text) or len(MINUTES.findall(lesson.text)) != 1:
        return "has no title with its number, or not once its minutes"
    parts = [line.removeprefix("<details>") for line in lines if line.startswith(("## ", "<details>"))]
    if [part for part in parts if part != FOLDED_FILE] != parts_of(lesson):
        return f"has not these parts, in this order: {parts_of(lesson)}"
    if f"\n```{LANGUAGES[lesson.file.suffix]}\n{lesson.file.read_text()}```\n" not in lesson.text:
        return f"does not quote {lesson.file.name}"
    return None if lesson.words else f"does not run {lesson.file.name} by the first command of its run"


def fault_of_text(lesson):
    """Returns what is wrong with the output of a lesson's file, or with what the page shows of it, or None."""
    printed = output_of(lesson.words, lesson.file)
    if printed is None or printed != contents_of(LESSONS / "expected" / f"{lesson.file.stem}.txt"):
        return f"prints other lines than expected:\n{printed}"
    if not lesson.shown or not occur_in_order(lesson.shown, printed.splitlines()):
        return f"shows other lines than are printed: {lesson.shown}"
    return None


def drawn_file(lesson):
    """Returns the file that the picture of a lesson is drawn from. Of a bits file it is a trace of the same accesses."""
    stem = lesson.file.stem
    return {"python3": f"expected/{stem}.txt", "bits": f"pictures/{stem}.trace"}.get(lesson.words, lesson.file.name)


def accesses_in(text):
    """Returns the accesses of a bits file, or of a trace of one bit."""
    words = [line.split() for line in text.splitlines()[1:] if not line.startswith(("#", "register"))]
    return [it[2:] if it[0].isdigit() else it for it in words if ":" not in it]


def fault_of_accesses(lesson):
    """Returns what is wrong with the accesses that the picture of a bits file is drawn from, or None. Each read has the value that is printed."""
    values = iter(contents_of(LESSONS / "expected" / f"{lesson.file.stem}.txt").split())
    wanted = [["value", next(values)] if it[0] == "value" else it for it in accesses_in(lesson.file.read_text())]
    return None if accesses_in(contents_of(LESSONS / drawn_file(lesson))) == wanted else "draws other accesses"


def fault_of_pictures(lesson):
    """Returns what is wrong with the picture that a page shows, or with the one of a part of the run that may follow it, or None."""
    stem = lesson.file.stem
    pictures = [*PICTURE.finditer(lesson.text)]
    stems = [picture["stem"] for picture in pictures]
    if stems not in ([stem], [stem, f"{stem}-part"]) or lesson.text.count("](pictures/") != len(pictures):
        return "does not show its picture, once, with the command that draws it"
    if any(("--to" in picture["words"]) != (picture["stem"] != stem) for picture in pictures):
        return "shows a part in place of the picture, or no part after it"
    return next(filter(None, (fault_of_picture(lesson, picture) for picture in pictures)), None)


def fault_of_picture(lesson, picture):
    """Returns what is wrong with one of the pictures that a page shows, or None."""
    of_any_lock = lesson.words == "python3" or "--any-lock" in lesson.words
    if picture["file"] != drawn_file(lesson):
        return f"shows a picture of another file: {picture['file']}"
    if ("--any-lock" in picture["words"]) != of_any_lock:
        return "shows a picture with another kind of verdict"
    if lesson.words == "bits" and (fault := fault_of_accesses(lesson)):
        return fault
    drawn = output_of(picture["words"], LESSONS / picture["file"])
    if drawn is None or drawn != contents_of(LESSONS / "pictures" / f"{picture['stem']}.svg"):
        command = f"bakerystore {picture['words']} lessons/{picture['file']} > lessons/pictures/{picture['stem']}.svg"
        return f"shows another picture than is drawn: {command}"
    return None


def fault_of_race(lesson):
    """Returns what is wrong with the texts of a race, or None."""
    blocks = re.findall(r"^```text\n(.*?)^```$", lesson.text, re.M | re.S)
    texts = set().union(*map(texts_beside, blocks))
    if texts != texts_of_orders(lesson.file.read_text()):
        return "shows other texts than those of all orders"
    printed = {output_of("race", lesson.file) for _ in range(RACES)}
    return None if printed <= texts else f"prints other texts than it shows: {printed - texts}"


def fault_of_run(lesson):
    """Returns what is wrong with the run of a lesson, or None."""
    if lesson.words == "race":
        return fault_of_race(lesson)
    return fault_of_text(lesson) or (None if lesson.words in NOT_DRAWN else fault_of_pictures(lesson))


def fault_of_index(every):
    """Returns what is wrong with the rows of the index and of TEACHING.md, or with the parts of the sheet and its key, or None."""
    minutes = [MINUTES.search(lesson.text)[1] for lesson in every]
    pages = [f"{lesson.file.stem}.md" for lesson in every]
    wanted = [*zip((lesson.title for lesson in every), pages, minutes, strict=True)]
    if ROW_OF_INDEX.findall((LESSONS / "README.md").read_text()) != wanted:
        return "README.md does not list each page in order, with its title and its minutes"
    numbered = [*zip((str(int(page[:2])) for page in pages), pages, minutes, strict=True)]
    if ROW_OF_TEACHING.findall((LESSONS / "TEACHING.md").read_text()) != numbered:
        return "TEACHING.md does not list each page in order, with its minutes"
    for name in ("SHEET.md", "ANSWERS.md"):
        if re.findall(r"^## (.+)$", (LESSONS / name).read_text(), re.M) != [lesson.title for lesson in every]:
            return f"{name} has not a part for each lesson, in order"
    return None


def strays(every):
    """Returns the files of the folder that belong to no lesson, and the pages with a number that have no file."""
    stems = {lesson.file.stem for lesson in every}
    own = [path for path in LESSONS.iterdir() if path.is_file() and path.name not in TOOLS]
    files = {path.stem for path in own if path.suffix != ".md" or path.name[0].isdigit()}
    made = {path.stem for folder in ("expected", "pictures") for path in (LESSONS / folder).iterdir()}
    return (files | made) - stems - {f"{stem}-part" for stem in stems}


def main():
    counter, every = Counter(), lessons()
    for before, lesson, after in zip([None, *every], every, [*every[1:], None]):
        fault = fault_of_page(lesson, links_of(before, after)) or fault_of_run(lesson)
        counter.count(fault is None, f"{lesson.file.stem}.md: {fault}")
    fault = fault_of_index(every)
    counter.count(fault is None, fault)
    counter.count(every and not strays(every), f"these belong to no lesson: {strays(every)}")
    counter.end()


if __name__ == "__main__":
    main()
