#!/usr/bin/env python3
"""Makes the release: an archive with the proved program and all files of the repository, and SHA256SUMS.

Both are written to out/. The program must be proved from these sources (`python3 tests/prove.py`), and the files must be those of a
commit: then everybody who makes the archive from this commit with this kit gets the same bytes. With `--compare ARCHIVE` nothing is
written; the archive of this repository is made and compared with another one, file by file. The status is 1 if no release can be made,
or if the archives differ.
"""

import argparse
import pathlib
import sys

from lib.places import TOP
from lib.proved import is_proved
from lib.release import SUMS, NoRelease, archive, archive_name, differences, head, is_clean, sums_of

NOT_PROVED = "no proved program of these sources in crates/bakerystore/out; run: python3 tests/prove.py"
NOT_CLEAN = "the files differ from the last commit (git status); a release names the commit that it is made from"


def refuse_unless_ready():
    """Refuses to make a release from files that no commit has, or with a program that is not proved."""
    if not is_clean():
        raise NoRelease(NOT_CLEAN)
    if not is_proved():
        raise NoRelease(NOT_PROVED)


def write(packed, folder):
    """Writes the archive and its sum."""
    folder.mkdir(exist_ok=True)
    (folder / archive_name()).write_bytes(packed)
    (folder / SUMS).write_text(sums_of(packed))
    print(f"{folder / archive_name()}: {len(packed):,} bytes\n{sums_of(packed)}", end="")


def compare(packed, file):
    """Reports in what the archive of this repository differs from another one, and returns the exit status."""
    other = file.read_bytes()
    if packed == other:
        print("the archives are the same to the byte")
        return 0
    lines = list(differences(packed, other))
    print("\n".join(lines) or "the archives have the same files; only their compression or their order differs")
    return 1


def main():
    parser = argparse.ArgumentParser(description="Makes the release archive in out/ from the proved program and the last commit.")
    parser.add_argument("--compare", type=pathlib.Path, metavar="ARCHIVE", help="write nothing; compare with this archive")
    asked = parser.parse_args()
    try:
        refuse_unless_ready()
        packed = archive(head())
    except NoRelease as why:
        sys.exit(f"release: {why}")
    if asked.compare:
        sys.exit(compare(packed, asked.compare))
    write(packed, TOP / "out")


if __name__ == "__main__":
    main()
