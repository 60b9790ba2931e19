"""Runs programs under `preload/refuse.c`, a library loaded before them, which refuses growths, or the start of one thread."""

import os
import pathlib
import struct
import subprocess
import tempfile
from typing import NamedTuple

from lib.preloading import built

TOLD = struct.Struct("<QQIII")


class Met(NamedTuple):
    """How many growths a run met, and how many of these a copy was refused; how many threads it asked for, the refused one
    among them, and how many were started; and the memory that was resident at most, in KiB."""

    growths: int = 0
    copied: int = 0
    asked: int = 0
    started: int = 0
    peak: int = 0


class Lost(NamedTuple):
    """How a copy ended that was refused a growth: its status (below 0: by this signal); how many bytes were written when it was
    made, what it wrote from there on, and whether that is how the process went on too."""

    growth: int
    returncode: int
    before: int
    stdout: str
    stderr: str
    is_front: bool


def copies_in(told, whole):
    """The copies of which a file tells; what the process itself wrote is the whole text."""
    at = 0
    while at < len(told):
        growth, before, status, output, errors = TOLD.unpack_from(told, at)
        at += TOLD.size
        stdout, stderr = told[at : at + output], told[at + output : at + output + errors]
        at += output + errors
        texts = (text.decode(errors="replace") for text in (stdout, stderr))
        yield Lost(growth, os.waitstatus_to_exitcode(status), before, *texts, whole[before : before + output] == stdout)


class Refuser:
    """Needs `cc`, and a folder for the library. A run that takes more seconds raises `TimeoutExpired`."""

    def __init__(self, folder, seconds=600):
        self.folder, self.seconds = folder, seconds
        self.library = built("refuse", folder)

    def under(self, met, **said):
        """The environment of a run that leaves what it met in this file."""
        told = {name: str(value) for name, value in said.items()}
        return {**os.environ, "LD_PRELOAD": str(self.library), "MET": met.name, **told}

    def run(self, words, growth=0, thread=0):
        """The run of these words with this growth and the start of this thread refused (0: none), and what it met."""
        with tempfile.NamedTemporaryFile(dir=self.folder) as met:
            environment = self.under(met, REFUSED_GROWTH=growth, REFUSED_THREAD=thread)
            ran = subprocess.run(words, capture_output=True, text=True, env=environment, timeout=self.seconds)
            return ran, met_in(met)

    def each(self, words, share=0, shares=1, repeats=0):
        """One run, of which each growth is refused to a copy: how it ended, what it met, and its copies. Of the growths this
        share alone is refused, and with `repeats` so many of those that are alike."""
        with (
            tempfile.NamedTemporaryFile(dir=self.folder) as met,
            tempfile.NamedTemporaryFile(dir=self.folder) as told,
            tempfile.NamedTemporaryFile(dir=self.folder) as output,
        ):
            environment = self.under(met, EACH_GROWTH=told.name, SHARE=share, SHARES=shares, REPEATS=repeats)
            ran = subprocess.run(
                words, stdin=subprocess.DEVNULL, stdout=output, stderr=subprocess.PIPE, env=environment, timeout=self.seconds
            )
            whole = pathlib.Path(output.name).read_bytes()
            ended = subprocess.CompletedProcess(words, ran.returncode, whole.decode(errors="replace"), ran.stderr.decode())
            copies = list(copies_in(pathlib.Path(told.name).read_bytes(), whole))
            return ended, met_in(met), copies


def met_in(file):
    return Met(*map(int, file.read().split()))
