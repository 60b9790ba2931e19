"""Runs a lock that is written as a Python generator, and explains the usual mistakes: a `yield` that is missing, a lock that
returns, a loop that never makes an access, an error in Python. A message names the line of the lock's file.
"""

import inspect
import operator
import signal
import sys
import traceback
from types import GeneratorType, MethodType

# the processor seconds after which a lock that yields nothing is stopped
MOST_SECONDS = 5
# the entries after which a process alone has been in each of its states, or is taken to count without end
MOST_ENTRIES = 400
# of each access that a lock has named and never made: the file and the line that dropped it, and what the lock is to write
forgotten = []


class Mistake(Exception):
    """A mistake in the text of a lock, as a message for its author."""


class NoValue:
    """What a lock names and cannot compute with: an operator on it is a mistake. `key` is what two runs of the lock compare of it,
    and `advice` what to write in its place."""

    def refuse(self, *_):
        raise Mistake(self.advice)

    __bool__ = __eq__ = __ne__ = __lt__ = __le__ = __gt__ = __ge__ = __index__ = __int__ = refuse
    __add__ = __radd__ = __sub__ = __rsub__ = __mul__ = __rmul__ = __mod__ = __rmod__ = refuse
    __and__ = __rand__ = __or__ = __ror__ = __xor__ = __rxor__ = __lshift__ = __rshift__ = refuse
    __hash__ = object.__hash__


class Unmade(NoValue):
    """An access that a lock names. `yield from` makes it, and any other use is a mistake."""

    how = "yield from"

    def __init__(self, text, parts=()):
        self.is_made, self.text, self.parts = False, text, parts

    def __iter__(self):
        self.is_made = True
        return self.parts

    @property
    def key(self):
        return self.text

    @property
    def call(self):
        """Returns the access as a lock writes it."""
        return self.text

    @property
    def advice(self):
        self.is_made = True
        return f"write `({self.how} {self.call})`, with the parentheses, where the value is used"

    @property
    def refused_yield(self):
        """Returns what is wrong if a lock on bits yields the access."""
        return f"write `yield from` before {self.call}"

    def __del__(self):
        if not self.is_made:
            frame = sys._getframe().f_back
            at = (frame.f_code.co_filename, frame.f_lineno) if frame else ("", 0)
            forgotten.append((*at, f"write `{self.how}` before {self.call}"))


def end_with_reader():
    """Lets the script end without a traceback if the reader of its output, such as `head`, stops early."""
    if hasattr(signal, "SIGPIPE"):
        signal.signal(signal.SIGPIPE, signal.SIG_DFL)


def form_mistake(number, law, refusal, line, print_it):
    """Returns the mistake of a lock with an entry that is refused by its form, and the options that print the run."""
    at = f"entry {number} of a run breaks the law `{law}` ({refusal}): {line}; `{print_it} {law}` prints the run"
    is_of_marks = law == "marks" or refusal == "not-running"
    return Mistake(f"{at}; is a mark missing, or the `yield` before it?" if is_of_marks else at)


def whole(number, what, *parts):
    """Returns a number of a lock, or raises a mistake that names it if it is not a whole number from 0."""
    try:
        found = operator.index(number)
    except TypeError:
        found = None
    if found is None or found < 0:
        raise Mistake(f"{what.format(*parts)} is {number!r}; a whole number from 0 is expected")
    return found


def check_length(entries):
    """Raises a mistake if a process reaches new states for ever."""
    if entries > MOST_ENTRIES:
        raise Mistake(f"a process is in a new state after {MOST_ENTRIES:,} entries; does one of its variables count without end?")


def started(lock, me, processes):
    """Returns the generator of a process."""
    try:
        inspect.signature(lock).bind(me, processes)
        generator = lock(me, processes)
    except TypeError:
        generator = None
    if not isinstance(generator, GeneratorType):
        raise Mistake("a lock is a function of `me` and `processes` that yields marks and accesses")
    return generator


def is_too_long(*_):
    raise Mistake(f"the lock runs for {MOST_SECONDS} processor seconds without a mark or an access; is a `yield` missing?")


def line_of(lines, file):
    """Returns `line N: ` for the last of some lines that is in a file, or nothing."""
    numbers = [number for name, number in lines if name == file]
    return f"line {numbers[-1]}: " if numbers else ""


def mistake_in(error, file):
    """Returns the message for an error that a lock raised: its line in the file, and what is wrong."""
    line = line_of([(frame.f_code.co_filename, number) for frame, number in traceback.walk_tb(error.__traceback__)], file)
    return Mistake(f"{line}{error}" if isinstance(error, Mistake) else f"{line}{type(error).__name__}: {error}")


def wrong_yield(generator, found, wanted):
    """Returns the message for what a lock has yielded in place of what is wanted, with the line of its `yield`."""
    what = f"the lock yields {found!r}; it yields {wanted}"
    if isinstance(found, Unmade):
        what, found.is_made = found.refused_yield, True
    elif isinstance(found, NoValue):
        what = found.advice
    elif isinstance(found, GeneratorType):
        what = f"write `yield from`, and not `yield`, before {found.gi_code.co_name}(..)"
    elif isinstance(found, MethodType):
        what = f"write {found.__self__!r}.{found.__name__}(..), with parentheses"
    lines, inner = [], generator
    while isinstance(inner, GeneratorType):
        lines.append((inner.gi_code.co_filename, inner.gi_frame.f_lineno))
        inner = inner.gi_yieldfrom
    return Mistake(f"{line_of(lines, generator.gi_code.co_filename)}{what}")


def resume(generator, value=None):
    """Resumes the generator of a process with what its access gave, and returns what it yields next."""
    file = generator.gi_code.co_filename
    if hasattr(signal, "setitimer"):
        signal.signal(signal.SIGVTALRM, is_too_long)
        signal.setitimer(signal.ITIMER_VIRTUAL, MOST_SECONDS)
    try:
        after = generator.send(value)
    except StopIteration:
        raise Mistake("the lock returns; a lock repeats its calls for ever, so put its text into `while True:`") from None
    except Exception as error:
        raise mistake_in(error, file) from None
    finally:
        if hasattr(signal, "setitimer"):
            signal.setitimer(signal.ITIMER_VIRTUAL, 0)
    if forgotten:
        name, number, what = forgotten[0]
        forgotten.clear()
        raise Mistake(f"{line_of([(name, number)], file)}{what}")
    return after
