#!/usr/bin/env python3
"""Proves the program `bakerystore` and all that it stands on, builds it, and runs it with the words given, as `replay -`.

`rt run` in crates/bakerystore does the same, crate after crate; here crates that do not stand on one another are proved
side by side. Each library has a room of its own, with copies of the sources that it needs and of what was proved
below it, since one run of rt keeps others from the crates that it stands on. What it leaves there goes to crates/NAME/out,
where rt looks for it; what stands there already, and is of these sources, is not proved again.
"""

import os
import pathlib
import shutil
import subprocess
import sys
import tempfile
import time
from concurrent.futures import FIRST_COMPLETED, ThreadPoolExecutor, wait

from lib.crates import PROGRAM, all_below, crates
from lib.places import TOP

CORES = len(os.sched_getaffinity(0))


def tell(text):
    """Tells how far it is, beside what the program prints."""
    print(text, file=sys.stderr, flush=True)


def link_or_copy(source, to):
    """Links a file, or copies it to another disk."""
    try:
        os.link(source, to)
    except OSError:
        shutil.copy2(source, to)


def room_for(name, under, rooms):
    """A folder with the sources of a crate and of those under it, and with what was proved of these."""
    room, told = pathlib.Path(rooms) / name, crates()
    for crate in [name, *under]:
        source, copy = TOP / "crates" / crate, room / "crates" / crate
        for part in ["src", "specs", "proofs"]:
            if (source / part).is_dir():
                shutil.copytree(source / part, copy / part)
        if (source / "out" / "rlib").is_dir():
            shutil.copytree(source / "out" / "rlib", copy / "out" / "rlib", copy_function=link_or_copy)
    (room / "crates.txt").write_text("".join(f"{told[it].line}\n" for it in [name, *under]))
    return room / "crates" / name


def prove(name, under, rooms):
    """Proves a library, and takes what it leaves into the repository; answers whether it is proved, and what rt printed."""
    begun = time.time()
    room = room_for(name, under, rooms)
    ran = subprocess.run(
        ["rt", "lib", "--jobs", "1"],
        cwd=room,
        stdin=subprocess.DEVNULL,
        stdout=subprocess.PIPE,
        stderr=subprocess.STDOUT,
        text=True,
    )
    if ran.returncode == 0:
        for part in sorted((room / "out").iterdir()):
            to = TOP / "crates" / name / "out" / part.name
            shutil.rmtree(to, ignore_errors=True)
            to.parent.mkdir(exist_ok=True)
            shutil.move(part, to)
    shutil.rmtree(room.parent.parent, ignore_errors=True)
    tell(f"{'proved' if ran.returncode == 0 else 'NOT PROVED'}: {name}, {time.time() - begun:.0f} s")
    return ran.returncode == 0, ran.stdout


def work_behind(below):
    """For each crate the functions of the longest chain of crates that begins with it, each standing on the one before."""
    behind = {}
    for name in sorted(below, key=lambda it: -len(below[it])):
        functions = sum(it.read_bytes().count(b"fn ") for it in (TOP / "crates" / name / "src").rglob("*.rt"))
        behind[name] = functions + max((behind[it] for it in behind if name in below[it]), default=0)
    return behind


def prove_all(below, rooms):
    """Proves the libraries below the program, each once those that it stands on are proved; whether all are."""
    left, proved, running = set(below[PROGRAM]), set(), {}
    behind = work_behind({it: below[it] for it in [PROGRAM, *left]})
    with ThreadPoolExecutor(CORES) as pool:
        while left or running:
            # each crate gets one core: a check that two share takes a third more of the processor
            ready = sorted((it for it in left if proved.issuperset(below[it])), key=lambda it: -behind[it])
            for name in ready[: CORES - len(running)]:
                left.remove(name)
                running[pool.submit(prove, name, below[name], rooms)] = name
            for done in wait(running, return_when=FIRST_COMPLETED).done:
                name = running.pop(done)
                is_proved, printed = done.result()
                if not is_proved:
                    tell(printed)
                    return False
                proved.add(name)
    return True


def main():
    # (outside the repository: rt looks for crates in all its folders, and a run that is killed leaves its rooms)
    with tempfile.TemporaryDirectory(prefix="prove-") as rooms:
        if not prove_all(all_below({name: crate.stands_on for name, crate in crates().items()}), rooms):
            sys.exit(1)
    tell("proved: all libraries; now the program")
    sys.exit(subprocess.run(["rt", "run", "--jobs", str(CORES), "--", *sys.argv[1:]], cwd=TOP / "crates" / PROGRAM).returncode)


main()
