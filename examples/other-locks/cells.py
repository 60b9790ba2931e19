"""The registers of a lock by its own names. The cells of a register are read and written whole.

    flag = register("flag")             # flag[p] for each process p, which only p writes
    turn = shared("turn", opens=1)      # one cell that all may write, in atomic memory alone

A lock is a function of a process and of their number that repeats its calls for ever. It yields marks, which are texts, and
accesses; what an access read is what the `yield` gives:

    def lock(me, processes):
        while True:
            yield "call"
            yield flag[me].set(1)
            yield "wait"
            while (yield flag[1 - me].get()):
                pass
            yield "enter"
            yield "leave"
            yield flag[me].set(0)
            yield "answer"

`wait` ends the doorway and may be left out. `wait`, `enter` and `answer` belong to the access before them, `leave` to the access
after it. A search makes an access in one entry or in two, a begin and an end.
"""

import re
from dataclasses import dataclass

from driver import Mistake, NoValue, Unmade, whole

NAME = re.compile(r"[a-z_][a-z0-9_]{0,7}")
MOST_BITS = 32


class Access(Unmade):
    """An access of a cell: its move, and the numbers of the move."""

    how = "yield"

    def __init__(self, cell, move, *numbers):
        self.is_made = True
        self.cell, self.move = cell, move
        self.numbers = tuple(whole(number, "the value of {}.{}(..)", cell, move) for number in numbers)
        super().__init__(" ".join(map(str, [cell, move, *self.numbers])))

    def __iter__(self):
        self.is_made = True
        raise Mistake(f"write `yield`, and not `yield from`, before {self.call}")

    @property
    def call(self):
        return f"{self.cell}.{self.move}({', '.join(map(str, self.numbers))})"

    @property
    def refused_yield(self):
        return f"{self.call} needs the marks of a trace: write `call` in place of `call read a`, and `wait` in place of `wait 0`"

    @property
    def is_read(self):
        return self.move == "get"

    @property
    def is_write(self):
        return self.move == "set"


@dataclass(frozen=True)
class Register:
    """A register: a cell for each process, or one that is shared; the bits of each cell, and the value that it opens with."""

    name: str
    width: int
    opens: int
    is_shared: bool

    @property
    def line(self):
        """Returns its line in a trace."""
        opens = f" opens {self.opens}" if self.opens else ""
        return f"{'shared' if self.is_shared else 'register'} {self.name} {self.width}{opens}"


@dataclass(frozen=True)
class Cell:
    """A cell: its register, and its owner if it has one."""

    register: Register
    owner: int | None = None

    def __str__(self):
        return self.register.name if self.owner is None else f"{self.register.name}[{self.owner}]"


class Named(NoValue):
    """What a lock names of its registers. Any use but an index of an array and the methods of a cell is a mistake."""

    def __init__(self, key):
        vars(self)["key"] = key

    def __getattr__(self, name):
        if name.startswith("__"):
            raise AttributeError(name)
        self.refuse_method(name)

    __setattr__ = __setitem__ = __iter__ = __len__ = __contains__ = __call__ = NoValue.refuse

    def refuse_method(self, name):
        """Raises a mistake for a method that does not exist."""
        raise NotImplementedError


class Array(Named):
    """The cells of a register, one for each process."""

    def __init__(self, register):
        super().__init__(register)
        vars(self)["cells"] = {}

    def __repr__(self):
        return self.key.name

    def __getitem__(self, owner):
        owner = whole(owner, "the index of {!r}", self)
        if owner not in self.cells:
            self.cells[owner] = NamedCell(Cell(self.key, owner))
        return self.cells[owner]

    @property
    def advice(self):
        own = f"write `yield {self!r}[me].set(..)` and `(yield {self!r}[other].get())`"
        return f"{self!r} has a cell for each process, so {own}; a variable that all write is `shared(\"{self!r}\")`"

    def refuse_method(self, name):
        self.refuse()


class NamedCell(Named):
    """A cell, with the accesses that a lock makes of it."""

    def __repr__(self):
        return str(self.key)

    def __getitem__(self, index):
        elements = f'`{self.key.register.name} = [shared(f"{self.key.register.name}{{i}}") for i in range(4)]`'
        what = f"{self!r} is one cell, and has no index"
        raise Mistake(f"{what}; an array that all processes write is a list: {elements}" if self.key.register.is_shared else what)

    @property
    def advice(self):
        return f"{self!r} is a cell, so write `(yield {self!r}.get())` for its value and `yield {self!r}.set(..)` to change it"

    def refuse_method(self, name):
        shared_ones = ", swap(value), add(number) and cas(expected, value)"
        methods = f"get(), set(value){shared_ones}" if self.key.register.is_shared else "get() and set(value)"
        raise Mistake(f"{self!r} has no `{name}`; it has {methods}")

    def get(self):
        """Reads the value."""
        return Access(self.key, "get")

    def set(self, value):
        """Writes a value."""
        return Access(self.key, "set", value)

    def swap(self, value):
        """Writes a value, and returns the value before."""
        return Access(self.key, "swap", value)

    def add(self, number):
        """Adds a number modulo 2^width, and returns the value before."""
        return Access(self.key, "add", number)

    def cas(self, expected, value):
        """Writes a value if the cell has the expected one, and returns the value before."""
        return Access(self.key, "cas", expected, value)


def checked(name, width, opens, is_shared):
    """Returns a register, or raises a mistake if a trace cannot declare it."""
    if not isinstance(name, str) or not NAME.fullmatch(name):
        raise Mistake(f"`{name}` is not a name: it has 1 to 8 small letters, digits and `_`, and does not begin with a digit")
    width, opens = whole(width, "the width of {}", name), whole(opens, "the opening value of {}", name)
    if not 1 <= width <= MOST_BITS or opens >= 2**width:
        what = f"{name} has {width} bits and opens with {opens}"
        raise Mistake(f"{what}; a register has 1 to {MOST_BITS} bits, and its opening value fits them")
    return Register(name, width, opens, is_shared)


def register(name, width=1, opens=0):
    """Returns a register with a cell for each process, which only that process writes and all read."""
    return Array(checked(name, width, opens, False))


def shared(name, width=1, opens=0):
    """Returns the cell of a register that all processes may write."""
    return NamedCell(Cell(checked(name, width, opens, True)))


# Parts of locks.


def leaving(cell, value=0):
    """Is in the critical section, and leaves it by a write of this cell."""
    yield "enter"
    yield "leave"
    yield cell.set(value)
    yield "answer"


def until(values, cell):
    """Reads a cell until it has one of these values."""
    while (yield cell.get()) not in values:
        pass
