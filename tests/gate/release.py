#!/usr/bin/env python3
"""Makes the release, unpacks it in an empty folder, and uses it as people do: with an empty environment, no network and no kit.

- The archive has the same bytes from two clones in folders of other names, by users with other settings.
- `release.py` refuses a program that is not proved, a program with other bytes, and files that no commit has; `--compare` names
  the files that differ.
- The commands of INSTALL.md print what the page shows, for one person and for a class; and so does each command of the README, the guide
  and the lessons in the unpacked folder. The commands that a page shows without their output end well and report no error.
- Each link of a page leads to a file of the folder, and no file of it names the folder in which it was made.
- The manual page has no fault and contains each help page; the completions of bash complete the table's commands and options.
- The version is the same in the program, the changes, README.md and INSTALL.md.

Where the files are not those of a commit, the clones are left out, and a line reports that.
"""

import io
import os
import pathlib
import re
import shutil
import subprocess
import sys
import tarfile
import tempfile

sys.path.insert(0, str(pathlib.Path(__file__).resolve().parents[1]))

from lib import release, release_checks
from lib.counting import Counter
from lib.pages import by_name, commands_in, fault_of_link, links_of, pages_below, typed_in
from lib.places import PROGRAM, TOP
from lib.proved import NOTE, STAMP

# the pages whose commands are run in the unpacked folder
PAGES = ["README.md", "docs/GUIDE.md", "examples/README.md"]
# the sections of INSTALL.md whose commands are run, each in an empty folder with the files of the release
SECTIONS = ["One person", "A class"]
SYSTEM = "/usr/bin:/bin"
# what a command ends with: done, or a bad verdict
STATUSES = {0, 3}
# what separates the outputs of the commands of one shell
MARK = "\0"
SECONDS = 300


def no_network():
    """Returns the words that start a command without a network, or none where this machine does not permit that."""
    for words in (["unshare", "--net"], ["unshare", "--map-root-user", "--net"]):
        if shutil.which("unshare") and subprocess.run([*words, "true"], capture_output=True).returncode == 0:
            return words
    print("the network is not shut off: this machine does not permit `unshare --net`")
    return []


class Place:
    """A folder in which commands are run, with an empty environment and an empty home."""

    def __init__(self, folder, alone, path=SYSTEM):
        self.folder, self.alone = folder, alone
        self.home = folder.parent / "home"
        self.home.mkdir(exist_ok=True)
        self.environment = {"PATH": path, "HOME": str(self.home)}

    def run(self, script, **streams):
        """Runs a script of bash."""
        words = [*self.alone, "bash", "-c", script]
        how = {"cwd": self.folder, "env": self.environment, "stdin": subprocess.DEVNULL, "text": True, "timeout": SECONDS}
        return subprocess.run(words, **how, **streams)

    def printed(self, script):
        """Returns what a script prints on both streams."""
        return self.run(script, stdout=subprocess.PIPE, stderr=subprocess.STDOUT).stdout

    def printed_by_each(self, commands):
        """Returns what each command prints, where all are typed into one shell."""
        typed = "\n".join(f"{command}\nprintf '\\0'" for command in commands)
        return self.printed(typed).split(MARK)[:-1]


def section(page, heading):
    """Returns the text below a heading of a page."""
    return re.search(rf"^## {re.escape(heading)}\n(.*?)(?=^## |\Z)", page.read_text(), re.M | re.S)[1]


def install(counter, packed, alone):
    """Follows each section of INSTALL.md, and returns the unpacked folder of the first one."""
    for heading in SECTIONS:
        folder = pathlib.Path(tempfile.mkdtemp()) / "an empty folder"
        folder.mkdir()
        (folder / release.archive_name()).write_bytes(packed)
        (folder / release.SUMS).write_text(release.sums_of(packed))
        commands = [*commands_in(section(TOP / "INSTALL.md", heading))]
        outputs = Place(folder, alone).printed_by_each([command for command, _ in commands])
        counter.count(len(outputs) == len(commands) > 0, f"INSTALL.md, {heading}: {outputs}")
        for (command, wanted), printed in zip(commands, outputs):
            counter.count(printed == wanted, f"INSTALL.md, {heading}: {command}\n{printed}wanted:\n{wanted}")
        yield folder


def unpack(packed, folder):
    """Unpacks the archive, and returns the folder that it unpacks to."""
    subprocess.run(["tar", "xz", "-C", folder], input=packed, check=True)
    return folder / release.folder_name()


def follow_pages(counter, place):
    """Runs each command of the pages in the unpacked folder."""
    for page in [*(place.folder / name for name in PAGES), *sorted(place.folder.glob("lessons/*.md"))]:
        name, text = page.relative_to(place.folder), page.read_text()
        for command, wanted in commands_in(text):
            printed = place.printed(by_name(command))
            counter.count(printed == wanted, f"{name}: {command}\n{printed}wanted:\n{wanted}")
        for script in typed_in(text):
            ran = place.run(script, capture_output=True)
            counter.count(ran.returncode in STATUSES and ran.stderr == "", f"{name}: {script}{ran.stderr}status {ran.returncode}")


def follow_links(counter, top):
    """Follows each link of each page of the unpacked folder."""
    for page in pages_below(top):
        for link in links_of(page):
            fault = fault_of_link(top, page, link)
            counter.count(fault is None, f"{page.relative_to(top)}: {link} {fault}")


def try_files(counter, packed):
    """Checks what the archive contains."""
    files = release.contents(packed)
    counter.count(files["bin/bakerystore"] == (release.EXECUTABLE, PROGRAM.read_bytes()), "bin/bakerystore is another program")
    naming = [name for name, (_, content) in files.items() if os.fsencode(TOP) in content]
    counter.count(not naming, f"these files name the folder in which the archive was made: {naming}")
    with tarfile.open(fileobj=io.BytesIO(packed)) as tar:
        entries = tar.getmembers()
    names = [entry.name for entry in entries]
    counter.count(len(names) == len(set(names)), "an entry occurs twice")
    counter.compare("owners and times", {(it.uid, it.gid, it.mtime) for it in entries}, {(0, 0, release.head().time)})


def try_versions(counter):
    """Checks that the version is the same everywhere."""
    version = release.version()
    counter.count(release.printed_by(["--version"]).startswith(f"bakerystore {version}, "), "the program has another version")
    newest = re.search(r"^## \[?(\d+\.\d+\.\d+)\]?", (TOP / "CHANGELOG.md").read_text(), re.M)[1]
    counter.compare("the newest version of CHANGELOG.md", newest, version)
    for page in ("README.md", "INSTALL.md"):
        named = set(re.findall(r"(?:Version |bakerystore[ -])(\d+\.\d+\.\d+)", (TOP / page).read_text()))
        counter.compare(f"the versions that {page} names", named, {version})


def clone(folder):
    """Clones the repository into a folder, with the program and what rt and the tests left beside it."""
    quiet = ["-c", "advice.detachedHead=false"]
    subprocess.run(["git", *quiet, "clone", "--quiet", "--no-hardlinks", TOP, folder], check=True)
    out = folder / PROGRAM.parent.relative_to(TOP)
    out.mkdir()
    for file in (PROGRAM, NOTE, STAMP):
        if file.exists():
            shutil.copy(file, out)
    return folder


def make_in(folder, *words, **settings):
    """Runs the script of a clone."""
    command = [sys.executable, "tests/release.py", *words]
    return subprocess.run(command, cwd=folder, capture_output=True, text=True, env={**os.environ, **settings})


def try_clones(counter, packed, folder):
    """Makes the release in two clones, and has it refused where it must be."""
    first, second = clone(folder / "first"), clone(folder / "another name for the second")
    settings = [{"TZ": "Asia/Tokyo", "LC_ALL": "C"}, {"TZ": "America/New_York", "LC_ALL": "C.UTF-8", "PYTHONHASHSEED": "1"}]
    for each, its in zip((first, second), settings):
        ran = make_in(each, **its)
        file = each / "out" / release.archive_name()
        counter.count(file.exists() and file.read_bytes() == packed, f"another archive from a clone\n{ran.stdout}{ran.stderr}")
    ran = make_in(first, "--compare", str(second / "out" / release.archive_name()))
    counter.compare("the same archive", (ran.returncode, ran.stdout), (0, "the archives are the same to the byte\n"))
    refuse(counter, first, second / "out" / release.archive_name())


def refuse(counter, folder, archive):
    """Has the script of a clone refuse changed files and other programs, and find the file in which a later commit differs."""
    page, program = folder / "README.md", folder / PROGRAM.relative_to(TOP)
    page.write_text(page.read_text() + "\n")
    ran = make_in(folder)
    counter.count(ran.returncode == 1 and "differ from the last commit" in ran.stderr, f"changed files: {ran}")
    identity = ["-c", "user.name=a", "-c", "user.email=a@example.org"]
    subprocess.run(["git", *identity, "commit", "--quiet", "-am", "a line"], cwd=folder, check=True)
    ran = make_in(folder, "--compare", str(archive))
    differing = {line.partition(":")[0] for line in ran.stdout.splitlines()}
    # (and the manual page, if the two commits are of two days)
    counter.count(
        ran.returncode == 1 and {"README.md", "RELEASE"} <= differing <= {"README.md", "RELEASE", "share/man/man1/bakerystore.1"},
        f"a changed page: {ran}",
    )
    program.write_bytes(program.read_bytes() + b"\n")
    counter.count("no proved program" in make_in(folder).stderr, "a program of other bytes is not refused")
    program.unlink()
    counter.count("no proved program" in make_in(folder).stderr, "that there is no program is not refused")


def try_completions(counter, top, folder):
    """Tries the manual page and the completions of the unpacked folder."""
    page = top / "share/man/man1/bakerystore.1"
    release_checks.man_page_is_clean(counter, page)
    release_checks.man_page_has_every_word(counter, page, release.help_pages())
    files = folder / "files"
    files.mkdir()
    release_checks.bash_completes(counter, top / "share/bash-completion/completions/bakerystore", files)
    release_checks.zsh_parses(counter, top / "share/zsh/site-functions/_bakerystore")
    release_checks.fish_parses(counter, top / "share/fish/vendor_completions.d/bakerystore.fish")


def main():
    counter, alone = Counter(), no_network()
    packed = release.archive(release.head())
    try_files(counter, packed)
    try_versions(counter)
    for folder in install(counter, packed, alone):
        shutil.rmtree(folder.parent)
    with tempfile.TemporaryDirectory() as name:
        folder = pathlib.Path(name)
        top = unpack(packed, folder)
        follow_links(counter, top)
        follow_pages(counter, Place(top, alone, f"{top}/bin:{SYSTEM}"))
        try_completions(counter, top, folder)
        if release.is_clean():
            try_clones(counter, packed, folder)
        else:
            print("the files are not those of a commit, so no clones are compared")
    counter.end()


main()
