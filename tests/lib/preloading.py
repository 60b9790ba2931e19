"""Builds the libraries of tests/preload/, which are loaded before a program (LD_PRELOAD). It needs `cc`."""

import subprocess

from lib.places import TESTS


def built(name, folder):
    """The library of this name, built in a folder."""
    library = folder / f"{name}.so"
    subprocess.run(["cc", "-O2", "-shared", "-fPIC", "-o", library, TESTS / "preload" / f"{name}.c"], check=True)
    return library
