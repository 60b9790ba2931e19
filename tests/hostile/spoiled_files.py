"""Spoiled files: the test spoils each example file of `plain`, `bits` and `judge`, one change at a time, and runs the result. It
cuts the file after each byte, replaces each byte by 0x00, 0x0D, 0xFF and a neighbouring byte, and doubles, drops or swaps lines.
Record files of more than 2,000 bytes are left out.

An independent implementation computes what `plain`, `bits` or `judge` must print for each spoiled file. If a scenario has a fault,
the other commands must report that fault and print nothing else. If it has none, `audit` must print `good` and the number of events
of `replay`, `record` must print the setup of the file and one entry for each event, and `race` must print `good`. Runs of more than
20,000 events are not recorded.

The independent implementation consists of `scenario_files.py`, `record_files.py`, `engines.py` and `judge.py` in `tests/second/`.
"""

import random
import re

from lib.running import CHUNK, SCENARIO_COMMANDS, counted, files_of, runner, workers
from second.engines import head_of, wanted

SPOILING_BYTES = {"0x00": b"\0", "0x0D": b"\r", "0xFF": b"\xff"}
MOST_RECORD_BYTES = 2000
MOST_ENTRIES = 20_000
END = re.compile(rb"(?:.*\n)?end events (\d+) taken \d+ refused \d+\n", re.S)


def spoiled_bytes(text):
    """Texts in which one byte is another one, or that end behind it, each with what was done."""
    for at in range(len(text)):
        yield "cut after each byte", text[:at]
        neighbour = text[at + 1 : at + 2] or text[at - 1 : at]
        for name, byte in [*SPOILING_BYTES.items(), ("its neighbour", neighbour)]:
            yield f"each byte replaced by {name}", text[:at] + byte + text[at + 1 :]


def spoiled_lines(text):
    """Texts in which one line stands twice, or not, or behind the next one, each with what was done."""
    lines = text.splitlines(keepends=True)
    for at, line in enumerate(lines):
        before, behind = lines[:at], lines[at + 1 :]
        yield "each line doubled", b"".join([*before, line, line, *behind])
        yield "each line dropped", b"".join([*before, *behind])
        if behind:
            yield "each line exchanged with the next", b"".join([*before, behind[0], line, *behind[1:]])


def spoiled(files):
    """The texts that are made of files by all of this, each once, with what was done."""
    texts = {}
    for file in files:
        text = file.read_bytes()
        for how, other in [*spoiled_bytes(text), *spoiled_lines(text)]:
            texts.setdefault(other, how)
    return [(how, text) for text, how in texts.items()]


def whole_runs(text, scenario):
    """Tries the commands that run a file without a fault; each with what is wrong, or None."""
    replay = runner().run(["replay", "-"], text)
    end = END.fullmatch(replay.output)
    yield "replay", None if (replay.status, replay.errors) == (0, b"") and end else replay
    events = int(end[1]) if end else 0
    audit = runner().run(["audit", "-"], text)
    yield "audit", None if audit == (0, f"good {events}\n".encode(), b"") else audit
    race = runner().run(["race", "-"], text)
    yield "race", None if (race.status, race.errors) == (0, b"") and race.output.endswith(b"\ngood\n") else race
    if events <= MOST_ENTRIES:
        record, head = runner().run(["record", "-"], text), head_of(scenario)
        is_whole = record.output.startswith(head) and record.output.count(b"\n") == head.count(b"\n") + events
        yield "record", None if (record.status, record.errors) == (0, b"") and is_whole else record


def unlike(text, ran, want):
    """What is wrong with a run on a text, or None."""
    return None if ran == want else f"{text!r}: {ran}, wanted {want}"


def tries(job):
    """Tries a text by a command, and by those others; each with what was done, and what is wrong, or None."""
    (how, text), command, others = job
    want, said = wanted(command, text)
    ran = runner().run([*command.split(), "-"], text)
    found = [(f"{how}, run by `plain`, `bits` or `judge`", f"`{command}`", unlike(text, ran, want))]
    if said is None:
        for other in others:
            ran = runner().run([*other.split(), "-"], text)
            found.append((f"a spoiled file with a fault, run by `{other}`", how, unlike(text, ran, want)))
    elif command == "plain":
        runs = whole_runs(text, said)
        found += [(f"a spoiled file without a fault, run by `{other}`", how, why and f"{text!r}: {why}") for other, why in runs]
    return found


def jobs_of(examples, command, others, most):
    files = files_of(command, examples)
    if command == "judge":
        files = [file for file in files if file.stat().st_size <= MOST_RECORD_BYTES]
    texts = spoiled(files)
    if most is not None:
        texts = random.Random(1).sample(texts, min(most, len(texts)))
    return [(text, command, others) for text in texts]


def rows(examples, _folder, is_short):
    """Tries all, or in short some thousand of them."""
    others = [command for command in SCENARIO_COMMANDS if command != "plain"]
    jobs = [
        *jobs_of(examples, "plain", others, 1500 if is_short else None),
        *jobs_of(examples, "bits", [], None),
        *jobs_of(examples, "judge", [], 1000 if is_short else None),
    ]
    with workers() as pool:
        yield from counted(try_ for found in pool.imap_unordered(tries, jobs, CHUNK) for try_ in found)
