#!/usr/bin/env python3
"""Tries each must-fail edit as `rt ci` does, but in less time, and asks more: that its own function is refused (lib/wrong_bodies.py).

Those of one crate are tried together: one check of a copy of the crate, over the libraries that `rt ci` left, is asked for their
functions alone. Each has to be refused by a clause of its own function. One that stands in the same function or lines as another, or
in a function that calls a refused one, is tried in a later round, over what the earlier ones proved.

Words: CRATE or CRATE/NAME, to try these alone and see all that the prover says of their functions.
"""

import os
import pathlib
import re
import sys
import tempfile
from concurrent.futures import ThreadPoolExecutor

sys.path.insert(0, str(pathlib.Path(__file__).resolve().parents[1]))

from lib import proved
from lib.counting import Counter
from lib.places import TOP
from lib.wrong_bodies import wrong_bodies

# bytes of memory that a check takes, at most
MOST_OF_A_CHECK = 4_000_000_000
LINE = re.compile(r"^fn (\S+): (.*)$", re.M)
# a function that calls one that is not proved: nothing is known of it
CALLS = re.compile(r"\bit calls `")
GOAL = re.compile(r"it is not proved that")
# a proof that names what a wrong body took away says nothing of the contract
NAMES = re.compile(r"has no field|is not in scope|has no `|was not admitted")


def said_of(body, printed):
    """What a check printed of the body's function: the lines above, up to the line of another one; its name; the rest of its line."""
    above = 0
    for line in LINE.finditer(printed):
        if f"::{line[1]}".endswith(f"::{body.refused}"):
            return printed[above : line.start()].splitlines(), *line.groups()
        above = line.end()
    return [], "", f"nothing is said of it: {printed[-1500:]}"


def reasons(body, printed):
    """Why a check refuses the body by a clause of its own function: goals that are not proved, and answers that prove something else."""
    above, function, said = said_of(body, printed)
    if CALLS.search(said) or not said.startswith(("not proved", "no proof")):
        return []
    proofs = f"proofs/{'/'.join(function.split('::')[1:])}/"
    answers = [it for it in printed.splitlines() if proofs in it and ": error: " in it and not NAMES.search(it)]
    return [it for it in above if GOAL.search(it)] + answers


def side_by_side(bodies):
    """Those that one check can try, each in a function of its own, and the texts that they change."""
    texts, chosen = {}, []
    for body in bodies:
        changed = body.changed(texts)
        if changed and body.refused not in [it.refused for it in chosen]:
            texts, chosen = changed, [*chosen, body]
    return texts, chosen


def tried(kit, crate, bodies):
    """Each wrong body of a crate, with why it is refused, or with nothing and what the check says of it."""
    results, left = [], bodies
    with tempfile.TemporaryDirectory(prefix="must-fail-") as kept:
        while left:
            texts, chosen = side_by_side(left)
            if not chosen:
                return results + [(it, [], "an old text does not stand once in its file") for it in left]
            only = [word for it in chosen for word in ("--only", it.refused)]
            printed = kit.checked(crate, texts, ["--jobs", "1", *only], kept).stdout
            found = [(it, reasons(it, printed), said_of(it, printed)[2]) for it in chosen]
            # (where a round refuses none, the next one would be the same)
            is_last = not any(why for _, why, _ in found)
            done = [it for it in found if is_last or not CALLS.search(it[2])]
            results += done
            left = [it for it in left if it not in [body for body, _, _ in done]]
    return results


def main():
    words, counter, kit = sys.argv[1:], Counter(), proved.kit()
    bodies = [it for it in wrong_bodies() if not words or it.crate in words or str(it) in words]
    # (its first call sets a signal's handler, which only the main thread may)
    kit.rtlib.guarded()
    os.chdir(TOP)
    # (those that stand on most take longest)
    crates = sorted(kit.rtlib.crates_below(str(TOP)), key=lambda it: -len(it.below()))
    lanes = max(1, min(kit.processors(), kit.free() // MOST_OF_A_CHECK))
    with ThreadPoolExecutor(lanes) as pool:
        runs = [pool.submit(tried, kit, crate, own) for crate in crates if (own := [it for it in bodies if it.crate == crate.name])]
        for run in runs:
            for body, why, said in run.result():
                print(f"{body}: {'refused: ' + (chr(10).join(why) if words else why[0][:160]) if why else 'NOT REFUSED'}", flush=True)
                counter.count(why, f"{body}: no clause of {body.refused} refuses it: {said}")
    counter.end()


main()
