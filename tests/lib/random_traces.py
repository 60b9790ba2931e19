"""Traces that are made up from numbers: the same number gives the same trace.

There are three sorts, in turn. The first is drawn entry by entry: mostly entries that keep all laws, and in the end one that may be
anything. The second is a trace of examples/traces/ in which entries are left out, doubled, exchanged or otherwise changed. The third
is a trace of one of these sorts in which a word is left out, doubled or exchanged for another, so that most have a fault.
"""

import random

from lib.places import TOP
from second.scenario_files import Fault, words_of
from second.trace_files import Reader, read_trace
from second.traces import Past, broken_law

WIDTHS, NAMES = [1, 1, 1, 2, 3, 8, 32], ["flag", "turn", "next", "want", "q_1"]
MEMORIES = ["safe", "regular", "atomic"]
MARKS = ["call", "wait", "enter", "leave", "answer"]
MOST_ENTRIES, TRIES = 45, 12
ODD_WORDS = ["0", "1", "2", "7", "01", "-1", "255", "256", "4294967295", "4294967296", ":", "::", "x", "flag[0]", "flag[3]", "flag[", "flag[]"]
ODD_WORDS += ["flag", "turn", "turn[0]", "gives", "opens", "trace", "processes", "memory", "register", "shared", "safe", "regular", "atomic"]
ODD_WORDS += ["write", "end", "read", "value", "set", "get", "swap", "add", "cas", *MARKS, "#", "ninebytes", "a_name_2", "A", "wait 0"]


def kept_traces():
    """Returns the lines of the short traces of examples/traces/ that have no fault."""
    found = []
    for file in sorted(TOP.glob("examples/traces/*/trace")):
        text = file.read_bytes()
        try:
            read_trace(text)
        except (Fault, UnicodeDecodeError):
            continue
        lines = [line.strip() for line in text.decode().splitlines()]
        found.append([line for line in lines if line and not line.startswith("#")])
    return found


KEPT = kept_traces()


def any_head(draws):
    """Returns the headings of a trace."""
    memory = draws.choice(MEMORIES)
    lines = [f"processes {draws.choice([1, 2, 2, 3, 4])}"] * draws.randint(0, 1) + [f"memory {memory}"] * (memory != "safe" or draws.randint(0, 1))
    draws.shuffle(lines)
    for name in draws.sample(NAMES, draws.randint(1, 3)):
        width = draws.choice([it for it in WIDTHS if it <= 8] if memory == "regular" else WIDTHS)
        opens = draws.choice(["", " opens 0", " opens 1", f" opens {draws.randrange(2**width)}"])
        kind = "shared" if memory == "atomic" and draws.random() < 0.5 else "register"
        lines.append(f"{kind} {name} {width}{opens}")
    return ["trace 1", *lines]


def any_value(draws, width):
    is_odd = draws.random() < 0.02
    return draws.choice([0, 1, 1, 2**width - 1, draws.randrange(2 ** min(width, 3))]) if not is_odd else 2**32 - 1


def any_access(draws, trace, past, process):
    """Returns an access, mostly one that the process can make."""
    opened = past.open(process) if process < trace.processes else None
    name = draws.choice([*trace.registers])
    index = draws.randrange(trace.processes + (draws.random() < 0.05))
    move = draws.choice(["write", "read", "read", "set", "get", "get"])
    if trace.memory == "atomic" and draws.random() < 0.95:
        move = draws.choice(["set", "get", "get", "swap", "add", "cas"])
    if opened and draws.random() < 0.95:
        name, index = opened.access.register, opened.access.index
        move = {"write": "end", "read": "value"}[opened.access.move]
    register = trace.registers[name]
    if move in ("swap", "add", "cas") and not register.is_shared and draws.random() < 0.95:
        move = draws.choice(["set", "get"])
    if move in ("write", "set") and draws.random() < 0.95:
        index = process
    cell = name if register.is_shared else f"{name}[{index}]"
    value = lambda: any_value(draws, register.width)
    words = {"end": "", "read": "", "swap": f" {value()} gives {value()}", "add": f" {value()} gives {value()}"}
    words["cas"] = f" {value()} {value()} gives {value()}"
    return f"{cell} {move}{words.get(move, f' {value()}')}"


def any_entry(draws, trace, past):
    """Returns an entry that may be anything."""
    process = draws.randrange(trace.processes + (draws.random() < 0.02))
    stage = past.stage(process)
    likely = {"idle": ["call"], "doorway": ["wait", "enter", "answer"], "waiting": ["enter"], "inside": ["leave"], "leaving": ["answer"]}
    if stage == "idle" and draws.random() < 0.9:
        return f"{process} : call"
    marks = draws.choices(likely[stage] if draws.random() < 0.9 else MARKS, k=draws.choices(range(5), [12, 6, 1, 0.3, 0.1])[0])
    access = f" {any_access(draws, trace, past, process)}" if not marks or draws.random() < 0.7 else ""
    return " : ".join([f"{process}{access}", *marks])


def drawn(draws):
    """Returns the lines of a trace that is drawn entry by entry; all entries but the last few keep the laws."""
    head, left = any_head(draws), draws.randint(1, MOST_ENTRIES)
    spoiled = draws.choice([0, 1, 1, 2])
    past, lines = Past(setup_of(head)), []
    for at in range(left):
        for _ in range(TRIES if at < left - spoiled else 1):
            line = any_entry(draws, past.trace, past)
            entry = entry_of(past.trace, line, len(past.entries), len(head) + 1)
            if at >= left - spoiled or broken_law(past, entry) is None:
                lines.append(line)
                past.entries.append(entry)
                break
    return [*head, *lines]


def setup_of(head):
    """Returns what the headings of a trace say, which have no fault."""
    reader = Reader()
    for at, line in enumerate(head[1:], 2):
        take(reader, line, at)
    return reader


def entry_of(reader, line, number, first):
    """Returns the entry of a line below some headings, as the entry of this number; the first entry is in the line `first`."""
    take(reader, line, first + number)
    return reader.entries.pop()._replace(number=number)


def take(reader, line, at):
    kind = reader.take(words_of(line.encode()), at)
    if kind:
        raise Fault(at, kind)


def changed(draws):
    """Returns a kept trace with changed entries."""
    lines = list(draws.choice(KEPT))
    for _ in range(draws.randint(1, 3)):
        entries = [at for at, line in enumerate(lines) if line[0].isdigit()]
        if not entries:
            break
        at, other = draws.choice(entries), draws.choice(entries)
        change = draws.randrange(5)
        if change == 0:
            del lines[at]
        elif change == 1:
            lines.insert(at, lines[other])
        elif change == 2:
            lines[at], lines[other] = lines[other], lines[at]
        elif change == 3:
            words = lines[at].split()
            place = draws.randrange(len(words))
            words[place] = {"0": "1", "1": "0", "2": "1"}.get(words[place], words[place])
            lines[at] = " ".join(words)
        else:
            words = lines[at].split(" : ")
            lines[at] = " : ".join(words[: draws.randint(1, len(words))] + draws.choices(MARKS, k=draws.randint(0, 1)))
    if draws.random() < 0.3:
        memory = draws.choice(MEMORIES)
        lines = [f"memory {memory}" if line.startswith("memory ") else line for line in lines]
    return lines


def spoiled(draws):
    """Returns a trace in which a word is left out, doubled or exchanged."""
    lines = draws.choice([drawn, changed])(draws)
    for _ in range(draws.randint(1, 2)):
        at = draws.randrange(len(lines))
        words = lines[at].split() or ["x"]
        place, odd = draws.randrange(len(words)), draws.choice(ODD_WORDS)
        how = draws.randrange(4)
        words[place : place + 1] = [[], [words[place]] * 2, [odd], [odd, words[place]]][how]
        lines[at] = " ".join(words)
    if draws.random() < 0.1:
        draws.shuffle(lines)
    return lines


def trace(number):
    """Returns the text of the trace of this number."""
    draws = random.Random(number)
    lines = [drawn, changed, spoiled][number % 3](draws)
    if draws.random() < 0.1:
        lines.insert(draws.randrange(len(lines) + 1), draws.choice(["", "# a comment", "  \t ", "#" * 129]))
    return "".join(f"{line}\n" for line in lines).encode()
