#!/usr/bin/env python3
"""Searches locks for the shortest runs in which two processes are inside together, or one is overtaken: every schedule, and all that
reads may give, of so many processes with so many calls each, breadth first.

search.py [NAME ..] prints a row of each lock on bits: its processes and calls; and for each of the laws `together` and `overtaken`,
on safe bits, on bits whose accesses never overlap, and on whole registers whose accesses never overlap, how many entries the
shortest record has, or `none` and how many states were looked at. `never enters` stands for `none` if no process enters in any
run. The last three cells are numbers of states that are stuck: from them not all calls can end.
search.py --record LAW NAME prints a shortest record.

search.py --atlas [NAME ..] prints a row of each lock that has registers by its own names, in safe, regular and atomic memory.
`-` stands where a lock has shared registers, which are in atomic memory alone.
search.py --trace LAW NAME prints a shortest run of one as a trace.

A lock of your own is named as FILE.py:NAME. A lock with an entry that the law `access` or `marks` refuses has no row: that entry is
reported.

This is a search of small cases and not a theorem: nothing follows for more processes or more calls. The accesses of a process
take effect in program order, and none of the memories has store buffers, fences or reordering.
"""

import argparse
import ast
import inspect
import pathlib
import re
import runpy
import sys

import alone
import bit_search
import cell_search
from bit_search import FORMS, LAWS
from cell_locks import atlas
from cells import Access, Named
from driver import Mistake, NoValue, end_with_reader, mistake_in, resume, started
from locks import Lock, locks

MOST_PROCESSES = 16
MEMORIES = [*bit_search.MEMORIES, "regular", "atomic"]
# the text of a mark, of a trace or of a record
MARK = re.compile(r"call( read \w+)?|wait( \d+)?|enter|leave|(taken|answer)( [\w-]+)?")
NO_CLEARS = """{own} does not state what is cleared after a failure or a withdrawal, so --failures cannot search it. \
Add to {file} the lines `from locks import Lock` and `failing = Lock({own}, clears=(("choosing", 1),))`, with each field that is \
cleared and its bits, and name {file}:failing"""
NO_CLEARS_KNOWN = "{own} does not state what is cleared after a failure or a withdrawal; these do: {able}"


def names_in(file):
    """Returns what a file of locks defines. It may import files beside it."""
    sys.path.append(str(pathlib.Path(file).parent))
    try:
        found, tree = runpy.run_path(file), ast.parse(pathlib.Path(file).read_bytes())
        check_dropped(tree, found)
        check_globals(tree, found)
    except SyntaxError as error:
        raise Mistake(f"line {error.lineno}: {type(error).__name__}: {error.msg}") from None
    except SystemExit:
        raise Mistake(f"{file} ends the search; put its call of `main` below `if __name__ == \"__main__\":`") from None
    except Exception as error:
        raise mistake_in(error, file) from None
    return found


def check_dropped(tree, found):
    """Raises a mistake if a line of a file only names a mark or a part of a lock, such as `until(..)`, and does not run it."""
    for line in (it for it in ast.walk(tree) if isinstance(it, ast.Expr)):
        name = line.value.func.id if is_call(line.value) else None
        if inspect.isgeneratorfunction(found.get(name)):
            raise Mistake(f"line {line.lineno}: write `yield from` before {name}(..)")
        mark = line.value.value if isinstance(line.value, ast.Constant) else None
        if isinstance(mark, str) and MARK.fullmatch(mark):
            raise Mistake(f"line {line.lineno}: write `yield` before {mark!r}")


def is_call(value):
    """Returns whether an expression calls a function by its name."""
    return isinstance(value, ast.Call) and isinstance(value.func, ast.Name)


def check_globals(tree, found):
    """Raises a mistake if a function of a file changes a global variable of Python, which all processes would share."""
    for function in (it for it in ast.walk(tree) if isinstance(it, ast.FunctionDef)):
        inner = [*ast.walk(function)]
        own = {it.id for it in inner if isinstance(it, ast.Name) and isinstance(it.ctx, ast.Store)} | {it.arg for it in function.args.args}
        elements = [it for it in inner if isinstance(it, ast.Subscript) and isinstance(it.ctx, ast.Store) and isinstance(it.value, ast.Name)]
        changed = [(it.value.id, it) for it in elements if isinstance(found.get(it.value.id), (list, dict)) and it.value.id not in own]
        for name, it in [*changed, *((it.names[0], it) for it in inner if isinstance(it, ast.Global))]:
            what = f"line {it.lineno}: the search does not see that {name} changes, which is a global variable of Python"
            raise Mistake(f"{what}; declare what processes share as a register")


def lock_in(name):
    """Returns the lock of FILE.py:NAME, which is a function or a `Lock`. Its tickets have as many bits as it accesses, or states."""
    file, _, own = name.rpartition(":")
    if not pathlib.Path(file).is_file():
        raise Mistake(f"there is no file {file}")
    found = names_in(file)
    lock = found.get(own)
    if isinstance(lock, Lock):
        # (a `Lock` that states no bits of a ticket has 1)
        return lock._replace(tickets=None) if lock.tickets == 1 else lock
    if not callable(lock) or isinstance(lock, NoValue):
        raise Mistake(f"{file} has no lock {own!r}; it has {', '.join(locks_of(file, found)) or 'none'}")
    return Lock(lock, tickets=None)


def locks_of(file, found):
    """Yields the names in a file that may be locks: its own functions of two arguments, and each `Lock`."""
    for name, it in found.items():
        code = getattr(it, "__code__", None)
        if isinstance(it, Lock) or code is not None and code.co_filename == file and code.co_argcount == 2:
            yield name


def lock_of(name, known):
    """Returns the lock of a name."""
    if name in known:
        return known[name]
    if ":" in name:
        return lock_in(name)
    if name.endswith(".py") and pathlib.Path(name).is_file():
        of_file = ", ".join(f"{name}:{own}" for own in locks_of(name, names_in(name)))
        raise Mistake(f"name the lock of this file too: {of_file or f'{name}:NAME'}")
    raise Mistake(f"there is no lock {name}; the locks are {', '.join(known)}, and your own FILE.py:NAME")


def is_on_cells(lock):
    """Returns whether a lock has registers by its own names. Such a lock begins with a mark of a trace, or with an access."""
    first = resume(started(lock.lock, 0, lock.processes))
    if isinstance(first, Access):
        first.is_made = True
    return isinstance(first, (Access, Named)) or isinstance(first, str) and first in alone.MARKS


def options():
    """Returns the parser of the command line."""
    parser = argparse.ArgumentParser(description=__doc__, formatter_class=argparse.RawDescriptionHelpFormatter)
    told = "a lock of locks.py (with --atlas or --trace, of cell_locks.py), or FILE.py:NAME; all, if none is named"
    parser.add_argument("names", metavar="NAME", nargs="*", help=told)
    laws = [*LAWS, "stuck", *FORMS]
    told = "prints the shortest record that breaks this law; for `stuck`, the shortest after which not all calls can end"
    parser.add_argument("--record", metavar="LAW", choices=laws, help=told)
    told = "likewise the shortest trace, of a lock with registers by its own names"
    parser.add_argument("--trace", metavar="LAW", choices=laws, help=told)
    parser.add_argument("--atlas", action="store_true", help="the locks of cell_locks.py")
    told = "of the record (safe, bits or registers) or of the trace (safe, regular or atomic); the weakest that the lock can have"
    parser.add_argument("--memory", choices=MEMORIES, help=told)
    told = "once a process fails and once one withdraws, at any time: rows of safe bits, of locks that state what is cleared then"
    parser.add_argument("--failures", action="store_true", help=told)
    for what in ("processes", "calls", "tickets"):
        told = {"tickets": "so many bits of a ticket"}.get(what, f"so many {what}")
        parser.add_argument(f"--{what}", type=int, help=f"{told}, in place of those that a lock states")
    return parser


def known_locks(said):
    """Returns the locks by their names, and the names that are searched if none is given."""
    on_bits = locks(said.tickets) if said.tickets else locks()
    if said.atlas or said.trace:
        return atlas(), list(atlas())
    return {**atlas(), **on_bits}, list(on_bits)


def why_no_failures(name, known):
    """Returns the reason why a lock cannot be searched with failures."""
    file, _, own = name.rpartition(":")
    able = ", ".join(name for name, lock in known.items() if lock.clears)
    return (NO_CLEARS if file else NO_CLEARS_KNOWN).format(own=own, file=file, able=able)


def text_of(said, name, lock):
    """Returns what is printed for a lock."""
    if not 1 <= lock.processes <= MOST_PROCESSES or lock.calls < 1:
        raise Mistake(f"a run has 1 to {MOST_PROCESSES} processes, and at least one call of each")
    if is_on_cells(lock):
        if said.record or said.failures:
            raise Mistake("a record has neither such registers nor their failures; --trace prints a trace")
        if said.memory and said.memory not in cell_search.MEMORIES:
            raise Mistake(f"the memories of such a lock are {', '.join(cell_search.MEMORIES)}")
        return cell_search.trace(lock, said.trace, said.memory) if said.trace else f"{cell_search.row(name, lock)}\n"
    if said.trace:
        raise Mistake("a trace has registers by the lock's own names (cells.py); of a lock on bits --record prints a record")
    if said.memory and said.memory not in bit_search.MEMORIES:
        raise Mistake(f"the memories of a lock on bits are {', '.join(bit_search.MEMORIES)}")
    if said.record:
        return bit_search.record(lock, said.record, said.memory or "safe", said.failures)
    return f"{bit_search.row(name, lock, said.failures)}\n"


def show(said, name, text):
    """Prints what was found, and returns whether there is something. A comment in its place has the number of states explored."""
    if not text.startswith("#"):
        print(text, end="", flush=True)
        return True
    law, states = said.trace or said.record, text.split()[2]
    none = f"no run breaks the law `{law}`, and {states} states were explored"
    none = f"all calls can end from each of {states} states" if law == "stuck" else none
    print(f"search.py: {name}: {none}", file=sys.stderr, flush=True)
    return False


def main():
    end_with_reader()
    parser, has_all = options(), True
    said = parser.parse_args()
    known, all_names = known_locks(said)
    sizes = {what: number for what in ("processes", "calls") if (number := getattr(said, what)) is not None}
    for name in said.names or all_names:
        try:
            lock = lock_of(name, known)._replace(**sizes)
            if said.tickets and ":" in name:
                lock = lock._replace(tickets=said.tickets)
            if said.failures and not lock.clears and not is_on_cells(lock):
                if not said.names:
                    continue
                parser.error(why_no_failures(name, known))
            has_all = show(said, name, text_of(said, name.rpartition(":")[2], lock)) and has_all
        except Mistake as mistake:
            sys.exit(f"search.py: {name}: {mistake}")
    sys.exit(0 if has_all else 1)


if __name__ == "__main__":
    main()
