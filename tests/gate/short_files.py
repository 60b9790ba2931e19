#!/usr/bin/env python3
"""Runs the proved program on the short files of examples/short/, and compares what it writes with what stands there.

Each file of examples/short/ is named as a command, and each of its lines is `TEXT -> WRITTEN`: what the command writes where
a file has this text. A TEXT is a string between double quotes, with `\\n`, `\\r`, `\\t` and `\\x7f` for bytes that a line can't
show; or strings that are joined by `+` and repeated by `*`, as "bakery 1\\n" + "show\\n" * 4001. WRITTEN is such a text, which is
written to standard output; or `line 2: words`, a fault, of which nothing is written there. Lines that begin with `#` are
comments.

Where a second reading of the file says what is written (`second/engines.py`), it has to say the same. The program is the one
that `rt run` leaves in crates/bakerystore.
"""

import ast
import pathlib
import re
import subprocess
import sys

sys.path.insert(0, str(pathlib.Path(__file__).resolve().parents[1]))

from lib.counting import Counter
from lib.places import PROGRAM, TOP
from second.engines import head_of, wanted

FAULT = re.compile(r"line \d+: [a-z-]+")


def text_of(node):
    """The text that an expression of strings, `+` and `*` stands for."""
    if isinstance(node, ast.Constant) and isinstance(node.value, str):
        return node.value
    if isinstance(node, ast.BinOp) and isinstance(node.op, ast.Add):
        return text_of(node.left) + text_of(node.right)
    if isinstance(node, ast.BinOp) and isinstance(node.op, ast.Mult) and isinstance(node.right, ast.Constant):
        return text_of(node.left) * node.right.value
    raise ValueError(f"no text: {ast.unparse(node)}")


def bytes_of(told):
    return text_of(ast.parse(told.strip(), mode="eval").body).encode("latin1")


def row_of(line):
    """What a line says: a text, and the status, the output and the faults that are wanted of a command on it."""
    text, arrow, written = line.rpartition(" -> ")
    if not arrow:
        raise ValueError(f"no line of the form TEXT -> WRITTEN: {line}")
    if FAULT.fullmatch(written):
        return bytes_of(text), (1, b"", f"{written}\n".encode())
    output = bytes_of(written)
    return bytes_of(text), (3 if output.startswith(b"bad") else 0, output, b"")


def rows(file):
    lines = file.read_text().splitlines()
    return [(line, *row_of(line)) for line in lines if line and not line.startswith("#")]


def read_again(command, text):
    """What a second reading wants of a command, or None; a record of no events is its head."""
    want, said = wanted(command, text)
    return (0, head_of(said), b"") if want is None and command == "record" else want


def main():
    counter = Counter()
    for file in sorted((TOP / "examples" / "short").iterdir()):
        for line, text, want in rows(file):
            run = subprocess.run([PROGRAM, file.name, "-"], input=text, capture_output=True)
            ran, again = (run.returncode, run.stdout, run.stderr), read_again(file.name, text)
            for what, found in [("the program", ran), ("the second reading", again)]:
                told = f"{file.name}, {line[:200]}: {what} has {str(found)[:200]}"
                counter.count(found == want, told)
    counter.end()


if __name__ == "__main__":
    main()
