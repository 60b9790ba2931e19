"""A second reading of what `plain`, `bits` and `judge` write, and of the fault that any command tells of its file.

It is written from docs/MODEL.md and docs/FORMATS.md alone, and shares nothing with the programs that it is held against.
"""

from lib.running import SCENARIO_COMMANDS
from second.judge import Setup, judged
from second.record_files import read_record
from second.scenario_files import Fault, read_bits, read_scenario
from second.store import Call, Store


def plain_text(scenario):
    """What `plain` prints."""
    headings = scenario.headings
    processes = headings["processes"]
    store = Store(headings["slots"], scenario.opening, [0] * processes if scenario.version == 2 else [])
    applied, lines = [0] * processes, []
    for words in scenario.lines:
        if words[0] == "show":
            lines.append(store.shown())
        elif words[0] == "call":
            process = int(words[1])
            if process >= processes:
                lines.append(f"- {process} refused no-process")
                continue
            applied[process] += 1
            number = applied[process] if scenario.version == 2 else 0
            place = sum(applied) - 1
            store, reply = store.after(Call(process, number, place, words[2:], None))
            lines.append(f"{place} {process} {reply}")
    return "".join(f"{line}\n" for line in lines).encode()


def bits_text(lines):
    """What `bits` prints, by the moves that were made: a write of a value, its end, and what a read has met."""
    value, writing, met, text = 0, None, None, []
    for first, *operands in lines:
        operand = int(operands[0]) if operands else None
        is_refused = {
            "write": writing is not None,
            "end": writing is None,
            "settle": writing is None,
            "read": met is not None,
            "value": met is None,
            "drop": met is None,
        }[first]
        if is_refused:
            text.append("refused")
        elif first == "write":
            writing, met = operand, met and "a write"
        elif first in ("end", "settle"):
            value, writing = (writing if first == "end" else operand), None
        elif first == "read":
            met = "nothing" if writing is None else "a write"
        else:
            text += [str(operand if met == "a write" else value)] * (first == "value")
            met = None
    return "".join(f"{line}\n" for line in text).encode()


def judge_text(record):
    head, entries = record
    return judged(Setup(head), entries).encode()


READINGS = {
    **dict.fromkeys(SCENARIO_COMMANDS, read_scenario),
    "bits": read_bits,
    "judge": read_record,
}
TEXTS = {"plain": plain_text, "bits": bits_text, "judge": judge_text}


def wanted(command, text):
    """The status, the output and the faults that are wanted of a command whose text is known, and what the file says."""
    try:
        said = READINGS[command](text)
    except Fault as fault:
        return (1, b"", f"{fault}\n".encode()), None
    if command not in TEXTS:
        return None, said
    printed = TEXTS[command](said)
    return (3 if printed.startswith(b"bad") else 0, printed, b""), said


def head_of(scenario):
    """The lines with which the record of a scenario begins."""
    lines = [f"record {scenario.version}", *(f"{name} {number}" for name, number in scenario.headings.items())]
    return "".join(f"{line}\n" for line in [*lines, *(f"open {name} {value}" for name, value in scenario.opening)]).encode()
