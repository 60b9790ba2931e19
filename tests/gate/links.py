#!/usr/bin/env python3
"""Follows each link of the repository's pages: what it leads to exists, and so does the heading or the line that it names.

A heading is named as the usual viewers of Markdown name it: in small letters, without its marks, with `-` for each space. A
line of another file is named as `L12`.
Links to other places than the repository are left alone, and so is what stands in blocks of code.
"""

import pathlib
import re
import sys

sys.path.insert(0, str(pathlib.Path(__file__).resolve().parents[1]))

from lib.counting import Counter
from lib.pages import fault_of_link, links_of, pages_below
from lib.places import TOP


def main():
    counter = Counter()
    for page in pages_below(TOP):
        for link in links_of(page):
            if re.match(r"\w+:", link):
                continue
            fault = fault_of_link(TOP, page, link)
            counter.count(fault is None, f"{page.relative_to(TOP)}: {link} {fault}")
    counter.end()


main()
