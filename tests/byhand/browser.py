#!/usr/bin/env python3
"""Opens four pages of runs in headless Chromium, moves the slider of each, and reads what it says.

The proved program draws the pages of four worked examples. In a copy of each a script moves the slider to each place, goes on by
an event with the arrow keys, and then opens the place of an event by the page's address; what the page has said each time stands
at its end. The page of a part of each run says the same at each of its marks. In a narrow window it measures letters, moves the picture within its frame, and looks where the names of the lanes are
then. The pages of all records of other locks, judged by the laws of any lock, are measured alike, 390 and 1280 pixels wide: the
names of the lanes are seen above all else at the left, an address leads to its event, and the line that is run is marked and seen in
the list.

The pages of the lessons are made anew. A script in each goes through its parts by the space bar and back, and writes a prediction; the
arrow keys lead from the first lesson to the last one, and back. The letters of a picture have at least 18 pixels in a window of 1280.
Once a picture is moved to its end, its lanes and its verdict are in sight, if the window has room. The zoom of the browser makes text and
pictures larger. Each lesson is printed on one sheet, with its folded parts and without them, and the hand-out on one side. By hand: it
needs Chromium, and says so where there is none.
"""

import html
import json
import pathlib
import re
import shutil
import subprocess
import sys
import tempfile

sys.path.insert(0, str(pathlib.Path(__file__).resolve().parents[1]))

from lib.counting import Counter
from lib.places import OTHER_LOCKS, PROGRAM, TOP, WORKED

sys.path.append(str(TOP / "lessons"))
import pages as lesson_pages

NAMES = ["chromium", "chromium-browser", "google-chrome", "chrome"]
OPTIONS = ["--headless", "--no-sandbox", "--disable-gpu", "--virtual-time-budget=10000", "--dump-dom"]
# moves the slider, and then goes to an event by the address
MOVES = """<script>
var slider = document.getElementById('at'), said = document.getElementById('said'), heard = [];
for (var place = 0; place <= +slider.max; place++) {
  slider.value = place;
  slider.dispatchEvent(new Event('input'));
  heard.push([said.textContent, document.querySelectorAll('li.on').length, slider.getAttribute('aria-valuetext')]);
}
window.addEventListener('hashchange', function () {
  var end = document.createElement('pre');
  end.id = 'heard';
  end.textContent = JSON.stringify([heard, said.textContent]);
  document.body.appendChild(end);
});
location.hash = '#EVENT';
</script>
"""
# measures the page, moves its picture within the frame, and goes to the first event and on by the keys
MEASURES = """<script>
var band = document.querySelector('.band'), frame = band.parentNode, scale = band.getBoundingClientRect().width / 1200;
var sizes = [].map.call(document.querySelectorAll('svg text'), function (text) { return parseFloat(getComputedStyle(text).fontSize); });
function left(name) { return name.getBoundingClientRect().left - frame.getBoundingClientRect().left; }
var lane = band.querySelector('.lane'), before = left(lane), slider = document.getElementById('at'), told = [];
frame.scrollLeft = 300;
frame.dispatchEvent(new Event('scroll'));
var moved = frame.scrollLeft, stays = Math.abs(left(lane) - before) < 2;
slider.value = 0;
slider.dispatchEvent(new Event('input'));
['ArrowRight', 'ArrowRight', 'ArrowLeft'].forEach(function (key) {
  slider.dispatchEvent(new KeyboardEvent('keydown', { key: key }));
  told.push(slider.getAttribute('aria-valuetext'));
});
var end = document.createElement('pre');
end.id = 'heard';
end.textContent = JSON.stringify([
  Math.min.apply(null, sizes) * scale >= 11, moved, stays,
  document.documentElement.scrollWidth <= innerWidth, document.querySelector('h2').textContent, told
]);
document.body.appendChild(end);
</script>
"""
# measures a page that stands in a frame of another one, and tells that one what is wrong
VIEWS = """<script>
addEventListener('load', function () {
  var bands = document.querySelectorAll('.band'), frame = bands[0].parentNode, list = document.querySelector('ol'), wrong = [];
  var slider = document.getElementById('at'), marks = document.querySelectorAll('g.m');
  var names = frame.querySelectorAll('.lane,.thin,.name');
  function check(holds, words) { if (!holds && wrong.indexOf(words) < 0) wrong.push(words); }
  function place(element) { return element.getBoundingClientRect(); }
  function within(inner, outer) { return place(inner).top > place(outer).top - 2 && place(inner).bottom < place(outer).bottom + 2; }
  document.querySelectorAll('svg text').forEach(function (text) {
    var height = parseFloat(getComputedStyle(text).fontSize) * place(text.ownerSVGElement).width / 1200;
    check(innerWidth > 500 || height >= 11, 'small letters');
  });
  check(document.documentElement.scrollWidth <= innerWidth, 'the page scrolls sideways');
  for (var n = 0; n <= +slider.max; n++) {
    slider.value = n;
    slider.dispatchEvent(new Event('input'));
    var lines = document.querySelectorAll('li.on'), x = marks[n].getAttribute('data-x');
    check(lines.length === 1 && within(lines[0], list), 'the line that is run is not seen');
    x = x * place(bands[0]).width / 1200 - frame.scrollLeft;
    check(x > 0 && x < frame.clientWidth, 'the mark is not seen');
    names.forEach(function (name) {
      check(Math.abs(place(name).left - place(frame).left - 8 * place(bands[0]).width / 1200) < 2, 'a name has moved');
      check(!(name.compareDocumentPosition(marks[n]) & 4) || name.ownerSVGElement !== marks[n].ownerSVGElement, 'a name is covered');
    });
  }
  var to = document.querySelectorAll('g.m[id]')[Math.min(3, document.querySelectorAll('g.m[id]').length - 1)];
  location.hash = to.id;
  setTimeout(function () {
    check(to.classList.contains('on'), 'the address leads elsewhere');
    parent.postMessage(wrong.join(', '), '*');
  }, 100);
});
</script>
"""
# lays one page after the other into a frame, and gathers what each tells
FRAMES = """<!doctype html><body><iframe style="width:WIDTHpx;height:844px;border:0"></iframe><script>
var names = NAMES, told = {}, at = -1;
function next(said) {
  if (at >= 0) told[names[at]] = said;
  at++;
  if (at < names.length) return document.querySelector('iframe').src = names[at];
  var end = document.createElement('pre');
  end.id = 'heard';
  end.textContent = JSON.stringify(told);
  document.body.appendChild(end);
}
addEventListener('message', function (message) { next(message.data); });
next();
</script>
"""
# goes through the parts of a lesson and back, tells the frame what is wrong, and leads on by a key
STEPS = """<script>
addEventListener('load', function () {
  var parts = [].slice.call(document.querySelectorAll('.part')), wrong = [], key = 'KEY';
  var box = document.getElementById('predict-box'), views = [].slice.call(document.querySelectorAll('.view')), seen = [];
  function check(holds, words) { if (!holds && wrong.indexOf(words) < 0) wrong.push(words); }
  function press(key, isShifted) {
    var at = document.activeElement || document.body;
    at.dispatchEvent(new KeyboardEvent('keydown', { key: key, shiftKey: isShifted, bubbles: true, cancelable: true }));
  }
  function shown() { return document.querySelector('.parts [aria-current]').getAttribute('href').slice(1); }
  // a picture that has come to its end is in sight, without its title, if the window has room for it
  function look(view) {
    var lanes = view.querySelector('.names').getBoundingClientRect(), room = innerHeight - document.querySelector('.bar').offsetHeight;
    var title = lanes.height * 40 / view.style.getPropertyValue('--lanes');
    if (seen.indexOf(view) >= 0 || !view.scrollLeft || view.scrollLeft + view.clientWidth < view.scrollWidth - 2) return;
    seen.push(view);
    check(lanes.height - title > room || lanes.bottom < room && lanes.top > -title, 'the picture is not in sight');
  }
  function visited(key, isShifted) {
    var found = [shown()];
    for (var n = 0; n < 80; n++) {
      press(key, isShifted);
      views.forEach(look);
      if (shown() !== found[found.length - 1]) found.push(shown());
    }
    return found.join(' ');
  }
  function names() { return parts.map(function (part) { return part.getAttribute('data-part'); }); }
  check(!document.querySelector('details[open]'), 'a part is unfolded at first');
  box.focus({ preventScroll: true });
  press(' ');
  check(scrollY === 0, 'a blank in the box goes on');
  box.value = 'a guess';
  box.dispatchEvent(new Event('input'));
  press('Escape');
  check(document.activeElement !== box, 'Esc does not leave the box');
  scrollTo(0, 0);
  check(visited(' ', false) === names().join(' '), 'the space bar leads elsewhere');
  document.querySelectorAll('.part > details').forEach(function (fold) {
    check(fold.open === !!fold.querySelector('summary h2'), 'a part is not unfolded, or a file is');
  });
  check(document.querySelector('[data-part=run] .echo').textContent.indexOf('a guess') > 0, 'the prediction is not repeated');
  check(document.documentElement.scrollWidth <= innerWidth, 'the page scrolls sideways');
  views.forEach(function (view) {
    var least = 10 * view.querySelector('img.whole').getBoundingClientRect().width / 1200;
    check(least >= (innerWidth < 700 ? 10.9 : 18), 'small letters: ' + least);
    check(view.scrollLeft + view.clientWidth > view.scrollWidth - 2, 'the picture was not moved to its end');
    var strip = view.querySelector('.names').getBoundingClientRect();
    check(Math.abs(strip.left - view.getBoundingClientRect().left) < 3, 'the names of the lanes have moved');
    view.nextElementSibling.querySelector('button').click();
    check(view.classList.contains('fitted') && view.scrollWidth <= view.clientWidth + 2, 'a button does not show the whole picture');
    view.nextElementSibling.querySelector('button').click();
  });
  check(visited('PageUp', false) === names().reverse().join(' '), 'Page Up leads elsewhere');
  parent.postMessage([document.title, wrong.join(', ')], '*');
  press(key, false);
});
</script>
"""
# opens a lesson in a frame, and gathers what it and the lessons tell to which it leads
COURSE = """<!doctype html><body><iframe style="width:WIDTHpx;height:900px;border:0" src="FIRST"></iframe><script>
var told = [];
addEventListener('message', function (message) {
  told.push(message.data);
  if (message.data[0] !== 'LAST') return;
  var end = document.createElement('pre');
  end.id = 'heard';
  end.textContent = JSON.stringify(told);
  document.body.appendChild(end);
});
</script>
"""
# measures the letters of a page, and its first picture
LETTERS = """<script>
var end = document.createElement('pre');
end.id = 'heard';
end.textContent = JSON.stringify([
  parseFloat(getComputedStyle(document.documentElement).fontSize), document.querySelector('.whole').getBoundingClientRect().width
]);
document.body.appendChild(end);
</script>
"""
ZOOMS = (1, 1.25, 1.5, 2)
# what is measured of a page: letters are large enough, the picture has moved and the name of its lane has not, nor does the page
# scroll sideways; the heading of the first band; and what the slider says behind each key
MEASURED = {
    "withdrawal-show-while-inside": [
        *(True, 300, True, True, "Part 1: 0 to 57"),
        ["event 1, after 0 0 call read a", "event 2, after 0 0 call read a", "event 1, after 0 0 call read a"],
    ],
}
# what the slider says of the places of each page, beside the line of the run: the line of the file with its number, the store after
# the history so far, and who stands in line
SAID = {
    "failure-commit-settled-new": [
        ("4: call 0 write a c:5", "empty", "none"),
        ("5: step 0 1152", "empty", "0"),
        ("5: step 0 1152", "empty", "0"),
        ("6: fail 0", "empty", "0"),
        ("8: go 0 down", "empty", "0"),
        ("8: go 0 down", "a=c:5", "0"),
        ("8: go 0 down", "a=c:5", "none"),
        ("8: go 0 down", "a=c:5", "none"),
        ("9: call 1 read a", "a=c:5", "none"),
        ("10: go 1 idle", "a=c:5", "1"),
        ("10: go 1 idle", "a=c:5", "1"),
        ("10: go 1 idle", "a=c:5", "1"),
        ("10: go 1 idle", "a=c:5", "none"),
        ("10: go 1 idle", "a=c:5", "none"),
        ("(end)", "a=c:5", "none"),
    ],
    "withdrawal-show-while-inside": [
        ("4: call 0 read a", "empty", "none"),
        ("5: go 0 wait", "empty", "0"),
        ("6: call 1 read a", "empty", "0"),
        ("7: go 1 wait", "empty", "0 1"),
        ("9: withdraw 0", "empty", "0 1"),
        ("10: go 0 idle", "empty", "1"),
        ("11: go 1 inside", "empty", "1"),
        ("12: show", "empty", "1"),
        ("13: withdraw 1", "empty", "1"),
        ("(end)", "empty", "1"),
    ],
    "comments-and-spaces": [
        ("4:   call 0  add a -3", "empty", "none"),
        ("(end)", "empty", "none"),
    ],
    "two-processes-wander": [
        ("2: call 0 write a c:5", "empty", "none"),
        ("3: call 1 add a 3", "empty", "none"),
        ("5: wander 5000", "empty", "1"),
        ("5: wander 5000", "empty", "0 1"),
        ("5: wander 5000", "empty", "0 1"),
        ("5: wander 5000", "a=c:5", "0 1"),
        ("5: wander 5000", "a=c:5", "1"),
        ("5: wander 5000", "a=c:5", "1"),
        ("5: wander 5000", "a=c:5", "1"),
        ("5: wander 5000", "a=c:8", "1"),
        ("5: wander 5000", "a=c:8", "none"),
        ("5: wander 5000", "a=c:8", "none"),
        ("(end)", "a=c:8", "none"),
    ],
}
# an event of each, the place of its first line, or of the last one before it, and what is said beside that of one without a line
EVENTS = {
    "failure-commit-settled-new": (1157, 4, ""),
    "withdrawal-show-while-inside": (44, 4, "event44 has no mark; it comes after that line\n"),
    "comments-and-spaces": (0, 0, ""),
    "two-processes-wander": (2451, 7, ""),
}


def shown(browser, page, *options):
    """The page, once the browser has run its scripts."""
    with tempfile.TemporaryDirectory() as folder:
        path = pathlib.Path(folder) / "page.html"
        path.write_text(page)
        words = [browser, *OPTIONS, *options, f"--user-data-dir={folder}/user", path.as_uri()]
        return subprocess.run(words, capture_output=True, text=True, timeout=120).stdout


def told_by(browser, name, script, *options, words=()):
    """What a script tells that runs at the end of the page of an example, which is drawn with these words."""
    page = subprocess.run([PROGRAM, "draw", *words, WORKED / name / "scenario"], capture_output=True, check=True).stdout.decode()
    end = re.search(r'<pre id="heard">(.*?)</pre>', shown(browser, page.replace("</body>", script + "</body>"), *options), re.S)
    return json.loads(html.unescape(end.group(1))) if end else None


def heard(browser, name, words=()):
    """What the page of an example says at each place of its slider, and at its event."""
    return told_by(browser, name, MOVES.replace("EVENT", str(EVENTS[name][0])), words=words)


def part_faults(browser, name):
    """What is wrong with the page of a part of an example, without its first and last events: each mark says what it says in the whole."""
    lines = (WORKED / name / "replay").read_text().splitlines()
    numbers = [int(line.split()[0]) for line in lines if line[0].isdigit()]
    first, last = (numbers[1], numbers[-2]) if len(numbers) > 2 else (0, max(numbers, default=0))
    told = heard(browser, name, ["--from", str(first), "--to", str(last)])
    part, (whole, _) = told[0] if told else [], wanted(name)
    if not part or not any(whole[at : at + len(part)] == part for at in range(len(whole))):
        yield f"the part says {part[:2]} .. {part[-1:]}"


def measured(browser, name):
    """What is measured of it in a narrow window."""
    return told_by(browser, name, MEASURES, "--window-size=390,844")


def drawn_records():
    """The pages of the records of other locks, by their names; none of a record with a fault, whose page breaks off."""
    for file in sorted(OTHER_LOCKS.glob("*/record")):
        page = subprocess.run([PROGRAM, "draw", "--judge", "--any-lock", file], capture_output=True).stdout.decode()
        if "</body>" in page:
            yield f"{file.parent.name}.html", page


def viewed(browser, pages, width):
    """What is wrong with each page in a frame so many pixels wide."""
    with tempfile.TemporaryDirectory() as folder:
        place = pathlib.Path(folder)
        for name, page in pages.items():
            (place / name).write_text(page.replace("</body>", VIEWS + "</body>"))
        outer = place / "outer.html"
        outer.write_text(FRAMES.replace("WIDTH", str(width)).replace("NAMES", json.dumps(list(pages))))
        size = ["--virtual-time-budget=600000", "--window-size=1400,1000"]
        words = [browser, *OPTIONS, *size, f"--user-data-dir={folder}/user", outer.as_uri()]
        page = subprocess.run(words, capture_output=True, text=True, timeout=600).stdout
    end = re.search(r'<pre id="heard">(.*?)</pre>', page, re.S)
    return json.loads(html.unescape(end.group(1))) if end else dict.fromkeys(pages, "nothing was told")


def led(browser, folder, key, width):
    """What the lessons tell in a frame so many pixels wide, from the first one on, or from the last one back."""
    lessons = lesson_pages.lessons() if key == "ArrowRight" else lesson_pages.lessons()[::-1]
    for name, content in lesson_pages.pages(folder).items():
        (folder / name).parent.mkdir(exist_ok=True)
        script = STEPS.replace("KEY", key).encode() if name[0].isdigit() else b""
        (folder / name).write_bytes(content.replace(b"</body>", script + b"</body>"))
    outer = folder / "outer.html"
    text = COURSE.replace("WIDTH", str(width)).replace("FIRST", lessons[0].page).replace("LAST", lessons[-1].title)
    outer.write_text(text)
    size = ["--virtual-time-budget=60000", "--window-size=1400,1000"]
    words = [browser, *OPTIONS, *size, f"--user-data-dir={folder}/user", outer.as_uri()]
    page = subprocess.run(words, capture_output=True, text=True, timeout=600).stdout
    end = re.search(r'<pre id="heard">(.*?)</pre>', page, re.S)
    return json.loads(html.unescape(end.group(1))) if end else []


def sheets(browser, page):
    """The pages of paper on which a page is printed."""
    with tempfile.TemporaryDirectory() as folder:
        path, paper = pathlib.Path(folder) / "page.html", pathlib.Path(folder) / "page.pdf"
        shutil.copytree(TOP / "lessons" / "pictures", pathlib.Path(folder) / "pictures")
        path.write_text(page)
        words = [browser, *OPTIONS[:3], "--no-pdf-header-footer", f"--print-to-pdf={paper}", f"--user-data-dir={folder}/user"]
        subprocess.run([*words, path.as_uri()], capture_output=True, timeout=120)
        return len(re.findall(rb"/Type /Page\b", paper.read_bytes()))


def enlarged(browser, page, width):
    """How large letters and picture are on a screen so many pixels wide, at each zoom."""
    page = page.replace("<details>", "<details open>").replace("</body>", LETTERS + "</body>")
    for zoom in ZOOMS:
        end = re.search(r'<pre id="heard">(.*?)</pre>', shown(browser, page, f"--window-size={round(width / zoom)},900"), re.S)
        yield [size * zoom for size in json.loads(end.group(1))]


def try_lessons(counter, browser):
    """Opens and prints the pages of the lessons."""
    titles = [lesson.title for lesson in lesson_pages.lessons()]
    for key, width, wanted in (("ArrowRight", 1280, titles), ("ArrowRight", 390, titles), ("ArrowLeft", 1280, titles[::-1])):
        with tempfile.TemporaryDirectory() as folder:
            told = led(browser, pathlib.Path(folder), key, width)
        counter.compare(f"the lessons by {key}, {width} pixels wide", [title for title, _ in told], wanted)
        for title, wrong in told:
            counter.count(not wrong, f"{title}, {width} pixels wide: {wrong}")
    for name, content in lesson_pages.pages(TOP / "out" / "lessons").items():
        if name[0].isdigit():
            folded = content.decode()
            counts = [sheets(browser, page) for page in (folded, folded.replace("<details>", "<details open>"))]
            counter.count(all(1 <= count <= 2 for count in counts), f"{name} takes {counts} sides of paper, folded and unfolded")
        if name == "handout.html":
            counter.compare("sides of paper of the hand-out", sheets(browser, content.decode()), 1)
        if name.startswith("16-"):
            for width in (1024, 1280, 1920):
                sizes = [*zip(*enlarged(browser, content.decode(), width))]
                counter.count(all(a < b for size in sizes for a, b in zip(size, size[1:])), f"sizes by zoom, {width} pixels wide: {sizes}")


def wanted(name):
    """What it is to say: the line told, with one line of the scenario marked, and the line as the slider's value."""
    lines = (WORKED / name / "replay").read_text().splitlines()
    texts = [
        f"line{line}\nmade by{source}\nstore{store}\nin line{queue}\n"
        for line, (source, store, queue) in zip(lines, SAID[name], strict=True)
    ]
    _, place, beside = EVENTS[name]
    return [[[text, 1, line] for text, line in zip(texts, lines)], texts[place] + beside]


def main():
    browser = next(filter(None, map(shutil.which, NAMES)), None)
    if browser is None:
        print("no Chromium here: nothing was opened\n0 passed, 0 failed")
        return
    counter = Counter()
    for name in SAID:
        counter.compare(name, heard(browser, name), wanted(name))
        faults = list(part_faults(browser, name))
        counter.count(not faults, f"{name}, from its second event to its last but one: {faults}")
    for name, told in MEASURED.items():
        counter.compare(f"{name}, in a narrow window", measured(browser, name), told)
    pages = dict(drawn_records())
    for width in (390, 1280):
        for name, wrong in viewed(browser, pages, width).items():
            counter.count(not wrong, f"{name}, {width} pixels wide: {wrong}")
    try_lessons(counter, browser)
    counter.end()


main()
