"""Whether the program that stands in crates/bakerystore/out was proved, and is of these sources.

`rt run` leaves beside it a stamp: a sum of the kit, of crates.txt and of all sources that the program is made from, and one of the
program. `rt ci` leaves none, so who has run it to its end notes the same two sums.
"""

import hashlib
import importlib.machinery
import importlib.util
import os
import shutil

from lib.places import PROGRAM, TOP

STAMP = PROGRAM.with_suffix(".stamp")
NOTE = PROGRAM.with_suffix(".proved")


def kit():
    """The script `rt`, read as a module: what it says of a crate's sources is asked of itself."""
    loader = importlib.machinery.SourceFileLoader("rt", os.path.realpath(shutil.which("rt")))
    module = importlib.util.module_from_spec(importlib.util.spec_from_loader("rt", loader))
    loader.exec_module(module)
    return module


def sums():
    """The sum of all that the program is made from, as rt has it, and that of the program."""
    rt, folder = kit(), str(PROGRAM.parent.parent)
    crate = rt.rtlib.Crate(folder, str(TOP), {})
    rt.read_files(crate)
    return crate.stamp() + hashlib.sha256(PROGRAM.read_bytes()).hexdigest()


def is_proved():
    """Whether a proved program of these sources stands. Where rt cannot be asked, none is known of."""
    kept = [file.read_text() for file in (STAMP, NOTE) if file.exists()]
    try:
        return bool(kept) and PROGRAM.exists() and sums() in kept
    except (Exception, SystemExit):
        return False


def note():
    """Notes that the program was proved just now, of these sources."""
    NOTE.write_text(sums())
