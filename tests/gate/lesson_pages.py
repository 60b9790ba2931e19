#!/usr/bin/env python3
"""Makes the pages of lessons/ for a browser, reads them back by a parser of HTML, and runs each command that they show.

- Each command of a page prints what the page shows below it, byte for byte.
- A page has the words of its Markdown file in their order, and its code byte for byte. What a page adds to them is marked `ui`.
- The page of a lesson has its parts in order, those after the prediction folded, a box for the prediction and one for the answer, and
  leads to the previous and the next lesson. Its pictures are files of lessons/pictures/. What stays in sight of a picture has the names
  of its bits, and its verdict.
- The index has each lesson with its goal and its minutes.
- Each link leads to a file, and to an element of it if it names one. A page loads nothing but its picture, and no element is left open.
- The text of a page is escaped, and a page that has no end of its code is refused.
- Made again for another folder, the pages differ only in links to files outside of the folder.
"""

import html.parser
import os
import pathlib
import re
import subprocess
import sys
import tempfile
from concurrent.futures import ThreadPoolExecutor

sys.path.insert(0, str(pathlib.Path(__file__).resolve().parents[1]))

from lib.counting import Counter
from lib.pages import by_name, commands_in
from lib.places import PROGRAM, TOP

LESSONS = TOP / "lessons"
sys.path.append(str(LESSONS))
import pages
from markdown import Writer, read

VOID = {"meta", "link", "img", "hr", "br", "input"}
FENCE = re.compile(r"^```\w*\n(.*?)^```$", re.M | re.S)
# what Markdown has beside the words: targets of links, pictures, numbers of items, and the line below the head of a table
SIGNS = re.compile(r"!\[[^\]]+\]\([^()\s]+\)|(?<=\])\([^()\s]+\)|^\d+\. |</?(?:details|summary)>", re.M)
PARTS = {
    "scenario": ["start", "the-scenario", "predict", "run", "picture", "question", "answer"],
    "none": ["start", "the-scenario", "predict", "run", "question", "answer"],
    "bits": ["start", "the-accesses", "predict", "run", "picture", "question", "answer"],
    "record": ["start", "the-record", "predict", "run", "picture", "question", "answer"],
    "python": ["start", "the-lock", "predict", "run", "picture", "question", "answer"],
}
FOLDED = {"run", "picture", "answer"}
PICTURE = re.compile(r"pictures/[\w-]+\.svg")
# Markdown, and the HTML that it becomes
WRITTEN = [
    ("a <b>c</b> & `<i>` \"d\"", '<p>a &lt;b&gt;c&lt;/b&gt; &amp; <code>&lt;i&gt;</code> "d"</p>'),
    ("**a *b* c** and 2*3*4", "<p><strong>a <em>b</em> c</strong> and 2*3*4</p>"),
    ("[`x` y](z.md?\"a)", '<p><a href="z.md?&quot;a"><code>x</code> y</a></p>'),
    ("| A |\n|---|\n| `p \\| q` |", '<div class="table"><table>\n<thead><tr><th>A</th></tr></thead>\n<tbody>\n<tr><td><code>p | q</code></td></tr>\n</tbody>\n</table></div>'),
    ("1. a\n   b\n2. c", "<ol>\n<li>a b</li>\n<li>c</li>\n</ol>"),
    ("```console\n$ a <b\nc\n```", '<pre class="console"><code><b class="typed">$ a &lt;b</b>\nc\n</code></pre>'),
    ("![<a>](b.svg)", '<p><img src="b.svg" alt="&lt;a&gt;"></p>'),
]
REFUSED = ["```\na", "<details><summary>A</summary>\na"]


class Page(html.parser.HTMLParser):
    """A page that is read back: its words and code outside of what is marked `ui`, its elements, and what is left open."""

    def __init__(self, text):
        super().__init__()
        self.opened, self.faults, self.ids, self.links, self.loaded = [], [], [], [], []
        self.text, self.codes, self.parts, self.images, self.boxes = [], [], [], [], []
        self.feed(text)
        self.close()
        self.faults += [f"{name} is left open" for name, _ in self.opened]

    @property
    def is_ui(self):
        return any(kind for _, kind in self.opened)

    def handle_starttag(self, name, attributes):
        found = dict(attributes)
        classes = (found.get("class") or "").split()
        self.ids += [found["id"]] if "id" in found else []
        self.links += [found["href"]] if name in ("a", "link") else []
        self.loaded += [found["src"]] if "src" in found else []
        if name == "section":
            self.parts.append([found["data-part"], None])
        if name == "details":
            self.is_unfolded = "open" in found
        if name == "h2" and self.opened[-1][0] == "summary":
            self.parts[-1][1] = self.is_unfolded
        if name == "img":
            self.images.append((found["src"], found.get("alt")))
        if name == "textarea":
            self.boxes.append(self.parts[-1][0])
        if name == "pre":
            self.codes.append("")
        if name not in VOID:
            self.opened.append((name, "ui" in classes or name in ("title", "style", "script")))

    def handle_endtag(self, name):
        if not self.opened or self.opened.pop()[0] != name:
            self.faults.append(f"</{name}> ends nothing")

    def handle_data(self, text):
        if any(name == "pre" for name, _ in self.opened):
            self.codes[-1] += text
        if not self.is_ui:
            self.text.append(text)

    @property
    def words(self):
        return re.findall(r"\w+", " ".join(self.text))


def words_of(markdown):
    """Returns the words of a Markdown page, in their order."""
    parts = re.split(r"^(```\w*\n.*?^```)$", markdown, flags=re.M | re.S)
    texts = [FENCE.sub(r"\1", part) if at % 2 else SIGNS.sub(" ", part) for at, part in enumerate(parts)]
    return re.findall(r"\w+", " ".join(texts))


def without_links(text):
    """Returns the text of a lesson without the line of links at its begin and at its end."""
    lines = text.splitlines()
    return "\n".join([lines[0], *lines[3:-2]])


def commands_of(page):
    """Yields the commands of a page, with what it shows below each."""
    for code in page.codes:
        if code.startswith("$ "):
            yield from commands_in(f"```console\n{code}```\n")


def printed_by(command):
    """Returns what a command prints on both streams, at the top of the repository."""
    paths = f"{PROGRAM.parent}{os.pathsep}{os.environ['PATH']}"
    how = {"stdout": subprocess.PIPE, "stderr": subprocess.STDOUT, "text": True, "env": dict(os.environ, PATH=paths)}
    return subprocess.run(by_name(command), shell=True, cwd=TOP, **how).stdout


def run_commands(counter, found):
    """Runs the commands of all pages, several at a time."""
    shown = [(name, command, output) for name, page in found.items() for command, output in commands_of(page)]
    counter.count(len(shown) > 50, f"the pages show {len(shown)} commands only")
    with ThreadPoolExecutor(os.cpu_count()) as pool:
        for (name, command, output), printed in zip(shown, pool.map(printed_by, [command for _, command, _ in shown])):
            counter.count(printed == output, f"{name}: {command}\n{printed}wanted:\n{output}")


def check_text(counter, name, page, source):
    """Whether a page has the words and the code of its Markdown file, and no element that is left open."""
    text = source.read_text()
    is_lesson = source.name[0].isdigit()
    if name != "index.html":
        counter.compare(f"{name}, words", page.words, words_of(without_links(text) if is_lesson else text))
    counter.compare(f"{name}, code", page.codes, FENCE.findall(text))
    counter.compare(f"{name}, elements", page.faults, [])
    twice = {it for it in page.ids if page.ids.count(it) > 1}
    counter.count(not twice, f"{name}: two elements have one of these names: {twice}")


def wanted_parts(source):
    """Returns the parts that the page of a lesson has."""
    files = {path.suffix for path in LESSONS.glob(f"{source.stem}.*")}
    kind = next((kind for end, kind in ((".bits", "bits"), (".record", "record"), (".py", "python")) if end in files), "scenario")
    return PARTS[kind if (LESSONS / "pictures" / f"{source.stem}.svg").exists() else "none"]


def check_lesson(counter, name, page, before, after):
    """Whether the page of a lesson has its parts, boxes, picture and neighbours."""
    wanted = wanted_parts(LESSONS / name.replace(".html", ".md"))
    counter.compare(f"{name}, parts", page.parts, [[part, False if part in FOLDED else None] for part in wanted])
    counter.compare(f"{name}, boxes", page.boxes, ["predict", "question"])
    neighbours = [it for it in (before, after) if it]
    counter.compare(f"{name}, previous and next", page.links[: len(neighbours)], neighbours)
    pictures = [words for _, words in page.images if words]
    shown = (LESSONS / name.replace(".html", ".md")).read_text().count("](pictures/")
    counter.compare(f"{name}, pictures", (len(pictures), shown > 0), (shown, "picture" in wanted))


def check_names(counter):
    """Whether the names of all bits of a picture and the lines of its verdict are within what stays in sight."""
    for path in sorted((LESSONS / "pictures").glob("*.svg")):
        drawing, top = path.read_text(), 0
        rows = pages.names_in(drawing)
        for line in drawing.splitlines():
            if group := re.fullmatch(r'<g transform="translate\(0,(\d+)\)">', line):
                top = int(group[1])
            if text := re.match(r'<text class="(?:cell" x="8|sentence" x="18|rest" x="18)" y="(\d+)">([^<]+)', line):
                height, width = top + int(text[1]), 6 * len(text[2])
                counter.count(any(first < height < last and width < most for first, last, most in rows), f"{path.name}: {text[2]}")


def fault_of_link(folder, name, link, found):
    """Returns what is wrong with a link of a page in a folder, or None."""
    path, _, element = link.partition("#")
    if re.match(r"\w+:|/", link):
        return "leads elsewhere"
    page = path or name
    if page not in found and not PICTURE.fullmatch(path) and not (folder / path).resolve().exists():
        return "leads nowhere"
    return "names no element" if element and page in found and element not in found[page].ids else None


def check_links(counter, folder, found):
    """Whether each link leads somewhere, and each page loads pictures of its folder alone."""
    for name, page in found.items():
        faults = [f"{link} {fault}" for link in page.links if (fault := fault_of_link(folder, name, link, found))]
        counter.count(not faults, f"{name}: {faults}")
        pictures = all(PICTURE.fullmatch(it) and (LESSONS / it).exists() for it in page.loaded)
        counter.count(pictures, f"{name} loads {page.loaded}")


def check_index(counter, page):
    """Whether the index has a row for each lesson, with its goal and its minutes."""
    rows = re.findall(r"^\| \[\d+\]\(([\w-]+)\.md\) \| (.+) \| (\d+) \|$", (LESSONS / "TEACHING.md").read_text(), re.M)
    text, at = " ".join(" ".join(page.text).split()), 0
    for stem, goal, minutes in rows:
        counter.count(f"{stem}.html" in page.links, f"index.html does not lead to {stem}.html")
        plain = " ".join(re.sub(r"[`*]", " ", goal).split())
        words = re.compile(r"\W+".join(map(re.escape, re.findall(r"\w+", plain))) + rf"\W+{minutes}\b")
        row = words.search(text, at)
        counter.count(row, f"index.html has not, in this order: {goal} {minutes}")
        at = row.end() if row else at
    counter.compare("lessons with a goal", len(rows), len(list(LESSONS.glob("[0-9]*.md"))))


def check_writer(counter):
    """Whether Markdown becomes the HTML that it should, and is refused if a part has no end."""
    for text, wanted in WRITTEN:
        counter.compare(text, Writer(lambda link: link).html(read(text)), wanted)
    for text in REFUSED:
        try:
            read(text)
            counter.count(False, f"{text!r} is not refused")
        except ValueError:
            counter.count(True)


def check_elsewhere(counter, content):
    """Whether the pages for the folder of a release differ in links alone, and each link leads somewhere."""
    folder = LESSONS / "html"
    other = pages.pages(folder)
    check_links(counter, folder, {name: Page(text.decode()) for name, text in other.items() if name.endswith(".html")})
    plain = lambda text: re.sub(rb'href="[^"]*"', b"", text)
    counter.compare("pages for another folder", [*other], [*content])
    counter.count(all(plain(other[name]) == plain(text) for name, text in content.items()), "another folder changes more than links")
    counter.count(not any(os.fsencode(TOP) in text for text in other.values()), "a page names the folder of the repository")


def main():
    counter = Counter()
    check_writer(counter)
    with tempfile.TemporaryDirectory() as folder:
        folder = pathlib.Path(folder).resolve() / "pages"
        subprocess.run([sys.executable, LESSONS / "pages.py", "--to", folder], check=True, stdout=subprocess.DEVNULL)
        content = pages.pages(folder)
        written = {path.relative_to(folder).as_posix(): path.read_bytes() for path in folder.rglob("*") if path.is_file()}
    counter.count(written == content, "the pages are other ones when they are made again")
    found = {name: Page(text.decode()) for name, text in content.items() if name.endswith(".html")}
    check_links(counter, folder, found)
    check_elsewhere(counter, content)
    lessons = sorted(LESSONS.glob("[0-9]*.md"))
    names = [f"{path.stem}.html" for path in lessons]
    sources = {**dict(zip(names, lessons)), **{name: path for path, name in pages.OTHERS.items()}}
    counter.compare("pages", sorted(found), sorted(sources))
    for name, source in sources.items():
        check_text(counter, name, found[name], source)
    for before, name, after in zip([None, *names], names, [*names[1:], None]):
        check_lesson(counter, name, found[name], before, after)
    check_index(counter, found["index.html"])
    check_names(counter)
    pictures = {name: text for name, text in content.items() if not name.endswith(".html")}
    drawn = {f"pictures/{path.name}": path.read_bytes() for path in (LESSONS / "pictures").glob("*.svg")}
    counter.count(pictures == drawn, f"the pages have other pictures: {pictures.keys() ^ drawn.keys()}")
    run_commands(counter, found)
    counter.end()


if __name__ == "__main__":
    main()
