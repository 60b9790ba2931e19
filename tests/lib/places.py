"""Where things stand: the repository, and the programs that `rt ci` or `rt run` leaves in it."""

import pathlib

TESTS = pathlib.Path(__file__).resolve().parent.parent
TOP = TESTS.parent
PROGRAM = TOP / "crates" / "bakerystore" / "out" / "bakerystore"
WORKLOADS = TOP / "crates" / "workloads" / "out" / "workloads"
WORKED = TOP / "examples" / "worked"
OTHER_LOCKS = TOP / "examples" / "other-locks"
