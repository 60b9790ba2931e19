#!/usr/bin/env python3
"""Prints the public calls of a crate, each with its documentation and with all of its clauses.

api.py --print CRATE: first what the crate's root page says, then each public item, file by file. A call of a
type or a trait stands behind its name. By hand, for whoever reads contracts; it needs no program.
"""

import argparse
import pathlib
import sys

sys.path.insert(0, str(pathlib.Path(__file__).resolve().parents[1]))

from lib.crates import crates
from lib.places import TOP
from lib.sources import functions_of, items_of, root_page


def told(item, functions):
    """An item as it is printed: its place, its head, its documentation and its clauses."""
    place = f"{item.path.relative_to(TOP)}:{item.line}"
    function = functions.get((item.path, item.line))
    head = function.head if function else f"{item.kind} {item.name}"
    owner = f"{function.owner}: " if function and function.owner else ""
    lines = [f"{place}: {owner}{head}", *(f"    {line}".rstrip() for line in item.docs.split("\n"))]
    return lines + [f"    {clause.text}" for clause in (function.clauses if function else ())]


def main():
    parser = argparse.ArgumentParser(description=__doc__.splitlines()[0])
    parser.add_argument("--print", required=True, choices=list(crates()), dest="crate", metavar="CRATE")
    crate = parser.parse_args().crate
    functions = {(it.path, it.line): it for it in functions_of(crate)}
    print(root_page(crate))
    for item in items_of(crate):
        print("", *told(item, functions), sep="\n")


main()
