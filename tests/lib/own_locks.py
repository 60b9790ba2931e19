"""Locks of a user's own: what search.py and writer.py print of them, in a copy of their folder outside the repository."""

import os
import pathlib
import shutil
import subprocess
import sys
import tempfile

from lib.places import OTHER_LOCKS

HEAD = """from cells import register, shared, until
from locks import Lock, one_bit
from writer import main, read, write

flag, turn, shared_ones = register("flag"), shared("turn", 2), [0, 0]
failing = Lock(one_bit, clears=(("choosing", 1),))


def lock(me, processes):
"""
INSIDE = ["yield 'enter'", "yield 'taken no-name'", "yield 'leave'"]
ON_BITS = ["yield 'call read a'", "yield from write(me, 'choosing', 1, processes)", "yield 'wait 0'", *INSIDE, "yield 'answer no-name'"]
ON_CELLS = ["yield 'call'", "yield flag[me].set(1)", "yield 'wait'", "yield 'enter'", "yield 'leave'", "yield 'answer'"]
ROW_ON_CELLS = "| lock | 2, 2 | 4 | 4 | 4 | none (77) | none (77) | none (45) | 0 | 0 | 0 |"
# parts of messages
SHARED_ARRAY = 'an array that all processes write is a list: `turn = [shared(f"turn{i}") for i in range(4)]`'
NO_CELL = "flag has a cell for each process, so write `yield flag[me].set(..)` and `(yield flag[other].get())`; "
NO_CELL += 'a variable that all write is `shared("flag")`'
A_CELL = "turn is a cell, so write `(yield turn.get())` for its value and `yield turn.set(..)` to change it"
IS_MISSING = "prints the run; is a mark missing, or the `yield` before it?"
OF_PYTHON = "which is a global variable of Python; declare what processes share as a register"
OF_A_TRACE = "needs the marks of a trace: write `call` in place of `call read a`, and `wait` in place of `wait 0`"
# a lock by its lines, the options of search.py, and the last line that it prints
LOCKS = [
    (ON_BITS, "", "| lock | 2, 2 | 6 | 6 | 6 | none (105) | none (101) | none (101) | 0 | 0 | 0 |"),
    (ON_CELLS, "", ROW_ON_CELLS),
    (ON_CELLS, "--trace together", "1 flag[1] set 1 : enter"),
    # laws that no run breaks
    (ON_CELLS, "--trace overtaken", "no run breaks the law `overtaken`, and 77 states were explored"),
    (ON_CELLS, "--trace stuck", "all calls can end from each of 81 states"),
    (ON_BITS, "--record overtaken", "no run breaks the law `overtaken`, and 105 states were explored"),
    # two bits of a ticket
    (
        ["yield 'call read a'", "yield from write(me, 'ticket', 2, processes, 2)", "yield 'wait 0'", *INSIDE, "yield 'answer no-name'"],
        "--record together",
        "1 1.ticket.1.0 end : wait 0 : enter",
    ),
    # locks that never enter, or never wait
    (
        [*ON_BITS[:3], "while True: yield from read(1 - me, 'choosing', me)"],
        "",
        "| lock | 2, 2 | never enters (45) | never enters (24) | never enters (24) | never enters (45) | never enters (24) "
        "| never enters (24) | 29 | 21 | 21 |",
    ),
    (
        [*ON_CELLS[:2], *ON_CELLS[3:]],
        "",
        "| lock | 2, 2 | 4 | 4 | 4 | never waits (77) | never waits (77) | never waits (45) | 0 | 0 | 0 |",
    ),
    # refused entries
    (
        [*ON_BITS[:2], "yield f'{1 - me}.choosing.0.{me}', 'write 0'", "yield f'{1 - me}.choosing.0.{me}', 'end'", *ON_BITS[2:]],
        "",
        "entry 3 of a run breaks the law `access` (not-owner): 0 1.choosing.0.0 write 0; `--memory safe --record access` prints the run",
    ),
    (
        [*ON_BITS[:2], *ON_BITS[3:]],
        "",
        "entry 2 of a run breaks the law `marks` (not-waiting): 0 0.choosing.0.1 end : enter; `--memory safe --record marks` "
        f"{IS_MISSING}",
    ),
    # marks that are missing, or that the lock does not yield
    (
        ON_CELLS[1:],
        "",
        f"entry 0 of a run breaks the law `access` (not-running): 0 flag[0] set 1; `--memory safe --trace access` {IS_MISSING}",
    ),
    (
        [*ON_CELLS[:3], *ON_CELLS[4:]],
        "",
        f"entry 2 of a run breaks the law `marks` (not-inside): 0 : leave : answer; `--memory safe --trace marks` {IS_MISSING}",
    ),
    (
        ON_BITS[1:],
        "",
        "entry 0 of a run breaks the law `access` (not-running): 0 0.choosing.0.1 write 1; `--memory safe --record access` "
        f"{IS_MISSING}",
    ),
    (["'call'", *ON_CELLS[1:]], "", "line 11: write `yield` before 'call'"),
    ([*ON_CELLS[:3], "'enter'", *ON_CELLS[4:]], "", "line 14: write `yield` before 'enter'"),
    (["'call read a'", *ON_BITS[1:]], "", "line 11: write `yield` before 'call read a'"),
    ([*ON_BITS[:2], "'wait 0'", *ON_BITS[3:]], "", "line 13: write `yield` before 'wait 0'"),
    ([*ON_BITS[:4], "'taken no-name'", *ON_BITS[5:]], "", "line 15: write `yield` before 'taken no-name'"),
    (['"""Repeats calls."""', *ON_CELLS], "", ROW_ON_CELLS),
    (
        ["yield 'call'", "yield flag[1 - me].set(1)", *ON_CELLS[2:]],
        "",
        "entry 1 of a run breaks the law `access` (not-owner): 0 flag[1] set 1; `--memory safe --trace access` prints the run",
    ),
    (
        ["yield 'call'", "yield turn.add(7)", *ON_CELLS[2:]],
        "",
        "entry 1 of a run breaks the law `access` (too-wide): 0 turn add 7 gives 0; `--memory atomic --trace access` prints the run",
    ),
    # marks without end
    (
        ["yield 'call'", "while True: yield 'wait'"],
        "",
        "line 12: the lock yields 'wait'; it yields at most 4 marks between two accesses",
    ),
    (
        ["yield 'enter'"],
        "",
        "an entry has at most 4 marks, and this one has enter, enter, enter, enter, enter",
    ),
    (
        [ON_BITS[0], "while True: yield 'wait 0'"],
        "",
        "an entry has at most 3 marks, and this one has wait 0, wait 0, wait 0, wait 0",
    ),
    # accesses that are not made, the first line of a lock being line 11
    (
        [*ON_BITS[:3], "while read(1 - me, 'choosing', me): pass"],
        "",
        'line 14: write `(yield from read(1, "choosing", ..))`, with the parentheses, where the value is used',
    ),
    ([ON_BITS[0], ON_BITS[1].replace("yield from ", "")], "", 'line 12: write `yield from` before write(0, "choosing", 1, ..)'),
    ([ON_BITS[0], ON_BITS[1].replace(" from ", " ")], "", 'line 12: write `yield from` before write(0, "choosing", 1, ..)'),
    (
        [ON_CELLS[0], "while flag[1 - me].get(): pass"],
        "",
        "line 12: write `(yield flag[1].get())`, with the parentheses, where the value is used",
    ),
    (
        [ON_CELLS[0], "seen = yield flag[1 - me].get() == 1"],
        "",
        "line 12: write `(yield flag[1].get())`, with the parentheses, where the value is used",
    ),
    ([ON_CELLS[0], "flag[me].set(1)", *ON_CELLS[2:]], "", "line 12: write `yield` before flag[0].set(1)"),
    ([ON_CELLS[0], "yield from flag[me].set(1)"], "", "line 12: write `yield`, and not `yield from`, before flag[0].set(1)"),
    ([*ON_CELLS[:3], "until((0,), flag[1 - me])", *ON_CELLS[3:]], "", "line 14: write `yield from` before until(..)"),
    ([ON_CELLS[0], "yield until((0,), flag[1 - me])"], "", "line 12: write `yield from`, and not `yield`, before until(..)"),
    ([ON_CELLS[0], "yield flag[me].get"], "", "line 12: write flag[0].get(..), with parentheses"),
    # other uses of registers and cells
    ([ON_CELLS[0], "yield turn[me].set(1)"], "", f"line 12: turn is one cell, and has no index; {SHARED_ARRAY}"),
    ([ON_CELLS[0], "yield flag[0][1].get()"], "", "line 12: flag[0] is one cell, and has no index"),
    ([ON_CELLS[0], "yield flag.set(1)"], "", f"line 12: {NO_CELL}"),
    ([ON_CELLS[0], "yield flag.write(1)"], "", f"line 12: {NO_CELL}"),
    ([ON_CELLS[0], "yield flag.value"], "", f"line 12: {NO_CELL}"),
    ([ON_CELLS[0], "flag[me] = 1"], "", f"line 12: {NO_CELL}"),
    ([ON_CELLS[0], "yield flag(me).set(1)"], "", f"line 12: {NO_CELL}"),
    ([ON_CELLS[0], "yield flag[me].write(1)"], "", "line 12: flag[0] has no `write`; it has get() and set(value)"),
    (
        [ON_CELLS[0], "yield turn.fetch_and_add(1)"],
        "",
        "line 12: turn has no `fetch_and_add`; it has get(), set(value), swap(value), add(number) and cas(expected, value)",
    ),
    ([ON_CELLS[0], "while turn == me: pass"], "", f"line 12: {A_CELL}"),
    ([ON_CELLS[0], "turn.value = 1"], "", f"line 12: {A_CELL}"),
    ([ON_CELLS[0], "yield turn"], "", f"line 12: {A_CELL}"),
    (["yield turn"], "", f"line 11: {A_CELL}"),
    # indices and values
    ([ON_CELLS[0], "yield flag[me - 1].get()"], "", "line 12: the index of flag is -1; a whole number from 0 is expected"),
    ([ON_CELLS[0], "yield flag[me / 1].set(1)"], "", "line 12: the index of flag is 0.0; a whole number from 0 is expected"),
    (
        [ON_CELLS[0], "yield flag[processes].get()"],
        "",
        "entry 1 of a run breaks the law `access` (no-cell): 0 flag[2] get 0; `--memory safe --trace access` prints the run",
    ),
    ([ON_CELLS[0], "yield turn.set(me - 1)"], "", "line 12: the value of turn.set(..) is -1; a whole number from 0 is expected"),
    ([ON_CELLS[0], "yield turn.set(me / 2)"], "", "line 12: the value of turn.set(..) is 0.0; a whole number from 0 is expected"),
    ([ON_CELLS[0], "yield turn.set(None)"], "", "line 12: the value of turn.set(..) is None; a whole number from 0 is expected"),
    (
        [ON_CELLS[0], "yield flag[me].set(2)"],
        "",
        "entry 1 of a run breaks the law `access` (too-wide): 0 flag[0] set 2; `--memory safe --trace access` prints the run",
    ),
    (
        [ON_BITS[0], "yield from write(me, 'choosing', 2, processes)"],
        "",
        'line 12: write(0, "choosing", 2, ..) writes 1 of the bits of 2; its last argument is the number of bits',
    ),
    # variables that processes share, and that are not registers
    ([*ON_CELLS[:3], "shared_ones[me] = 1", *ON_CELLS[3:]], "", f"line 14: the search does not see that shared_ones changes, {OF_PYTHON}"),
    ([*ON_CELLS[:3], "global count; count = me", *ON_CELLS[3:]], "", f"line 14: the search does not see that count changes, {OF_PYTHON}"),
    ([*ON_CELLS[:3], "own = [0, 0]", "own[me] = 1", *ON_CELLS[3:]], "", ROW_ON_CELLS),
    # mistakes in Python
    ([ON_CELLS[0], "yield flagg[me].set(1)"], "", "line 12: NameError: name 'flagg' is not defined"),
    (
        [ON_CELLS[0], "yield flag[me].set()"],
        "",
        "line 12: TypeError: NamedCell.set() missing 1 required positional argument: 'value'",
    ),
    ([ON_CELLS[0], "yield flag[me.set(1)"], "", "line 12: SyntaxError: '[' was never closed"),
    (
        ["yield 'call read a'", "while True: pass"],
        "",
        "line 12: the lock runs for 5 processor seconds without a mark or an access; is a `yield` missing?",
    ),
    ([*ON_BITS, "return"], "", "the lock returns; a lock repeats its calls for ever, so put its text into `while True:`"),
    (
        [ON_BITS[0], "yield from write(me, 'turn', 1, processes)"],
        "",
        "line 12: a record has no field `turn`; the fields are choosing, commit, ticket, stamp0, stamp1, image0, image1",
    ),
    # other marks
    (
        [ON_CELLS[0], "yield 'wiat'"],
        "",
        "line 12: the lock yields 'wiat'; it yields the marks call, wait, enter, leave, answer and accesses of its registers",
    ),
    ([ON_BITS[0], ON_CELLS[1]], "", f"line 12: flag[0].set(1) {OF_A_TRACE}"),
]


def run(folder, words, path=""):
    """The last line that a script of the folder prints, and its status."""
    words = [sys.executable, *words]
    ran = subprocess.run(words, cwd=folder, capture_output=True, text=True, env={**os.environ, "PATH": path or os.environ["PATH"]})
    return (ran.stdout + ran.stderr).splitlines()[-1:], ran.returncode


def unread(folder, words, text="", path=""):
    """What a script reports whose output no process reads, as if `head` had ended already."""
    reader, output = os.pipe()
    os.close(reader)
    environment = {**os.environ, "PATH": path or os.environ["PATH"]}
    words = [sys.executable, *words]
    ran = subprocess.run(words, cwd=folder, input=text, stdout=output, stderr=subprocess.PIPE, text=True, env=environment)
    os.close(output)
    return ran.stderr


def text_of(lines):
    return HEAD + "    while True:\n" + "".join(f"        {line}\n" for line in lines)


def try_locks(counter, folder):
    """Each lock of the table."""
    for lines, options, wanted in LOCKS:
        (folder / "mine.py").write_text(text_of(lines))
        (last,), status = run(folder, ["search.py", "mine.py:lock", *options.split()])
        counter.compare(f"a lock of one's own, {lines}", (last.removeprefix("search.py: mine.py:lock: "), status), (wanted, status))
        is_message = last.startswith("search.py: ")
        counter.compare(f"the status for {lines}", status, int(is_message))


def try_names(counter, folder):
    """What a name leads to."""
    (folder / "mine.py").write_text(text_of(ON_BITS))
    for words, part, wanted in [
        (["mine.py"], "name the lock of this file too: mine.py:failing, mine.py:lock", 1),
        (["mine.py:lokc"], "mine.py has no lock 'lokc'; it has failing, lock", 1),
        (["none.py:lock"], "there is no file none.py", 1),
        (["mine.py:flag"], "mine.py has no lock 'flag'; it has failing, lock", 1),
        (["one-bot"], "there is no lock one-bot; the locks are ", 1),
        (["--failures", "mine.py:lock"], "lock does not state what is cleared after a failure or a withdrawal", 2),
        (["--failures", "kessels"], "kessels does not state what is cleared after a failure or a withdrawal", 2),
        (["--failures", "--calls", "1", "mine.py:failing"], "| failing | 2, 1 | none (1,457) | 11 |", 0),
    ]:
        (last,), status = run(folder, ["search.py", *words])
        counter.count(part in last and status == wanted, f"{words}: {last}, {status}")


def try_files(counter, folder):
    """What a file leads to that cannot be read: a mistake, an import that fails, a program."""
    for text, wanted in [
        ("from cells import register\nflag = register('Flag')\n", "line 2: `Flag` is not a name: it has 1 to 8 small letters"),
        ("from cells import register\nflag = register('flag', '2')\n", "line 2: the width of flag is '2'; a whole number from 0"),
        ("from cells import register\nflag = register('flag', 1, 2)\n", "line 2: flag has 1 bits and opens with 2; a register has"),
        ("from cells import register\nflag = register('flag', size=2)\n", "line 2: TypeError: register() got an unexpected keyword"),
        ("import nothing\n", "line 1: ModuleNotFoundError: No module named 'nothing'"),
        ("import sys\nsys.exit()\n", "mine.py ends the search; put its call of `main` below `if __name__ == \"__main__\":`"),
    ]:
        (folder / "mine.py").write_text(text)
        last, status = run(folder, ["search.py", "mine.py:lock"])
        counter.count(last[0].startswith(f"search.py: mine.py:lock: {wanted}") and status == 1, f"{text}: {last}, {status}")


def try_beside(counter, folder):
    """A lock may import a file of its own folder, from which the search is not run."""
    own = folder / "own"
    own.mkdir()
    (own / "parts.py").write_text("from cells import register\nflag = register('flag')\n")
    (own / "mine.py").write_text(text_of(ON_CELLS).replace("\nflag,", "\nfrom parts import flag\nown,"))
    last, status = run(folder, ["search.py", "own/mine.py:lock"])
    counter.compare("a lock with a file beside it", (last, status), ([ROW_ON_CELLS], 0))


def try_writer(counter, folder):
    """The writer judges by the program, where the second judge is missing; without either it says so."""
    (folder / "mine.py").write_text(text_of(ON_BITS) + "\n\nif __name__ == '__main__':\n    main(lock)\n")
    programs = folder / "programs"
    programs.mkdir()
    counter.compare("a writer without a program", run(folder, ["mine.py"], str(programs))[1], 1)
    stand_in = programs / "bakerystore"
    stand_in.write_text("#!/bin/sh\ntest \"$*\" = 'judge --any-lock -' && echo good 3\n")
    stand_in.chmod(0o755)
    path = f"{programs}{os.pathsep}/usr/bin{os.pathsep}/bin"
    last, status = run(folder, ["mine.py", "--law", "good", "--entries", "3"], path)
    counter.count(status == 0 and last[0][0].isdigit(), f"a writer with a program: {last}, {status}")
    counter.compare("a writer without a reader", unread(folder, ["mine.py", "--law", "good", "--entries", "3"], path=path), "")


def try_unread(counter, folder):
    """A script whose output no process reads ends without a message."""
    for words in ["search.py", "peterson.py:peterson"], ["search.py", "--trace", "stuck", "raise-then-look"], ["lanes.py", "-"]:
        counter.compare(f"{words} without a reader", unread(folder, words, "trace 1\n0 : call\n"), "")


def try_all(counter):
    """Tries all in a copy of the scripts."""
    with tempfile.TemporaryDirectory() as name:
        folder = pathlib.Path(name)
        for script in OTHER_LOCKS.glob("*.py"):
            shutil.copy(script, folder)
        try_locks(counter, folder)
        try_names(counter, folder)
        try_files(counter, folder)
        try_beside(counter, folder)
        try_writer(counter, folder)
        try_unread(counter, folder)
