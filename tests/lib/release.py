"""The release archive: the files of the repository, with the proved program, its manual page and its completions.

The archive of one commit has the same bytes whoever makes it. So its names are sorted, each time in it is that of the commit, no owner
is named, and nothing depends on the folder, the day or the user.
"""

import gzip
import hashlib
import io
import os
import re
import subprocess
import sys
import tarfile
import time
from typing import NamedTuple

from lib import completions
from lib.command_table import commands
from lib.man_page import man_page
from lib.places import PROGRAM, TOP

sys.path.append(str(TOP / "lessons"))
import pages as lesson_pages

PLATFORM = "x86_64-linux"
# the C library that INSTALL.md asks for
GLIBC = (2, 34)
HELP = TOP / "crates" / "command_line" / "src" / "help.rt"
VERSION = re.compile(r'^pub const VERSION: &str =\s+"(\d+\.\d+\.\d+),', re.M)
# the pages of `help` that are not those of a command
PAGES = ["help", "run", "faults"]
# the folder with the pages of the lessons for a browser
LESSON_PAGES = "lessons/html"
PLAIN, EXECUTABLE = 0o644, 0o755
SUMS = "SHA256SUMS"


class NoRelease(Exception):
    """Why no release can be made."""


class Commit(NamedTuple):
    """The commit that a release is made from, and its time in seconds since 1970."""

    name: str
    time: int

    @property
    def date(self):
        """Returns its day in UTC."""
        return time.strftime("%Y-%m-%d", time.gmtime(self.time))


class Member(NamedTuple):
    """A file of the archive, without the folder that all of them are in."""

    name: str
    mode: int
    content: bytes


def git(*words):
    """Returns what git prints."""
    return subprocess.run(["git", *words], cwd=TOP, capture_output=True, check=True, text=True).stdout


def head():
    """Returns the commit that is checked out."""
    name, seconds = git("log", "-1", "--format=%H %ct").split()
    return Commit(name, int(seconds))


def is_clean():
    """Returns whether the files are those of the commit."""
    return git("status", "--porcelain") == ""


def version():
    """Returns the version that the program prints."""
    return VERSION.search(HELP.read_text())[1]


def folder_name():
    """Returns the name of the folder that the archive unpacks to."""
    return f"bakerystore-{version()}-{PLATFORM}"


def archive_name():
    """Returns the name of the archive."""
    return f"{folder_name()}.tar.gz"


def oldest_glibc(program):
    """Returns the oldest version of the GNU C library that has each symbol that the program asks for."""
    asked = re.findall(rb"GLIBC_(\d+)\.(\d+)", program)
    return max((int(major), int(minor)) for major, minor in asked)


def printed_by(words):
    """Returns what the program prints."""
    return subprocess.run([PROGRAM, *words], stdin=subprocess.DEVNULL, capture_output=True, check=True, text=True).stdout


def help_pages():
    """Returns each page of `bakerystore help` by its name."""
    return {name: printed_by(["help", name]) for name in [*PAGES, *(command.name for command in commands())]}


def tracked():
    """Yields the files that git tracks."""
    for line in git("ls-files", "--stage", "-z").split("\0")[:-1]:
        mode, _, rest = line.partition(" ")
        name = rest.partition("\t")[2]
        if mode not in ("100644", "100755"):
            raise NoRelease(f"{name} is not a plain file")
        yield Member(name, EXECUTABLE if mode == "100755" else PLAIN, (TOP / name).read_bytes())


def about(commit, program):
    """Returns the text of the file RELEASE, which states what the archive was made from."""
    kit = subprocess.run(["rt", "version"], capture_output=True, check=True, text=True).stdout.strip()
    facts = {
        "version": version(),
        "commit": commit.name,
        "date": commit.date,
        "proved by": kit,
        "sha256 of bin/bakerystore": hashlib.sha256(program).hexdigest(),
    }
    return "".join(f"{name}: {fact}\n" for name, fact in facts.items())


def made(commit):
    """Yields the files of the archive that git does not track."""
    program, pages = PROGRAM.read_bytes(), help_pages()
    oldest = oldest_glibc(program)
    if oldest > GLIBC:
        raise NoRelease(f"the program needs version {oldest} of the GNU C library, and INSTALL.md asks for {GLIBC}")
    texts = {
        "RELEASE": about(commit, program),
        "share/man/man1/bakerystore.1": man_page(pages, version(), commit.date),
        "share/bash-completion/completions/bakerystore": completions.bash(),
        "share/zsh/site-functions/_bakerystore": completions.zsh(),
        "share/fish/vendor_completions.d/bakerystore.fish": completions.fish(),
    }
    yield Member("bin/bakerystore", EXECUTABLE, program)
    yield from (Member(name, PLAIN, text.encode()) for name, text in texts.items())
    pages_of_lessons = lesson_pages.pages(TOP / LESSON_PAGES)
    yield from (Member(f"{LESSON_PAGES}/{name}", PLAIN, content) for name, content in pages_of_lessons.items())


def members(commit):
    """Returns the files of the archive in the order of their names."""
    return sorted([*tracked(), *made(commit)])


def folders_of(files):
    """Returns the folders that the files are in, each after the one that contains it."""
    found = {""}
    for file in files:
        while (folder := os.path.dirname(file.name)) not in found:
            found.add(folder)
            file = file._replace(name=folder)
    return sorted(found)


def info(name, mode, commit):
    """Returns the head of an entry of the archive."""
    entry = tarfile.TarInfo(f"{folder_name()}/{name}".rstrip("/"))
    entry.mode, entry.mtime, entry.uname, entry.gname = mode, commit.time, "root", "root"
    return entry


def archive(commit):
    """Returns the bytes of the archive of this commit."""
    files, packed = members(commit), io.BytesIO()
    with gzip.GzipFile(filename="", mode="wb", compresslevel=9, fileobj=packed, mtime=commit.time) as zipped:
        with tarfile.open(fileobj=zipped, mode="w", format=tarfile.USTAR_FORMAT) as tar:
            for folder in folders_of(files):
                entry = info(folder, EXECUTABLE, commit)
                entry.type = tarfile.DIRTYPE
                tar.addfile(entry)
            for file in files:
                entry = info(file.name, file.mode, commit)
                entry.size = len(file.content)
                tar.addfile(entry, io.BytesIO(file.content))
    return packed.getvalue()


def sums_of(packed):
    """Returns the text of SHA256SUMS for an archive of these bytes."""
    return f"{hashlib.sha256(packed).hexdigest()}  {archive_name()}\n"


def contents(packed):
    """Returns the mode and the content of each file in an archive of these bytes, by its name without the folder."""
    with tarfile.open(fileobj=io.BytesIO(packed), mode="r:gz") as tar:
        files = [entry for entry in tar if entry.isfile()]
        return {entry.name.partition("/")[2]: (entry.mode, tar.extractfile(entry).read()) for entry in files}


def differences(own, other):
    """Yields a line for each file in which two archives differ."""
    own, other = contents(own), contents(other)
    for name in sorted(own.keys() | other.keys()):
        if name not in other:
            yield f"{name}: only in the archive of this repository"
        elif name not in own:
            yield f"{name}: only in the other archive"
        elif own[name] != other[name]:
            yield f"{name}: differs"
