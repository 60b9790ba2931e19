#!/usr/bin/env python3
"""How the proved program meets a person at a terminal: its pages, whose examples are made; why words are refused; lines that
come as they are made, and the line that shows how far a run is; reads and writes that a signal interrupts, and a write that fails.

It needs `cc`, `rt` and pseudo-terminals, and the program that `rt ci` or `rt run` leaves in crates/bakerystore. A library loaded
before the program interrupts its calls, counts them, and sets its clock (`interrupt.c`).
"""

import contextlib
import os
import pathlib
import pty
import re
import subprocess
import sys
import tempfile
import threading
import time
import tty
from typing import NamedTuple

sys.path.insert(0, str(pathlib.Path(__file__).resolve().parents[1]))

from lib.counting import Counter
from lib.places import PROGRAM, TOP
from lib.preloading import built

# in the order of the page
COMMANDS = ["plain", "bits", "replay", "audit", "sweep", "race", "record", "state", "calls", "judge", "draw", "draw-svg"]
KINDS = ["too-long", "not-first", "unknown", "words", "number", "bad-name", "bad-value", "bad-setup", "memory"]
MARKS = ["call", "wait", "enter", "taken", "leave", "answer", "fail", "settled", "down", "withdraw", "restart"]
REFUSALS = ["no-process", "busy", "is-down", "not-running", "not-waiting", "already-failed", "not-down", "calls-full"]
FAULT_LINES = ["read fault", "write fault", "out of memory", "no thread"]
SCENARIO = "bakery 1\ncall 0 add a 1\n"
PRINTED = "0 0 no-name\n"
RECORD = "record 1\nprocesses 2\ntickets 4\nstamps 4\nslots 1\n0 : call add a 1\n"
# what a page shows: a command behind `$ `, and the lines below it that begin at the same place
SHOWN = re.compile(r"^( +)\$ (.*)\n((?:\1(?! |\$ ).*\n)*)", re.M)
CLEAR = "\r\x1b[K"
# a record file that breaks the law `program` after its first ten entries
LATE = "entry-left-out"

# words that ask for nothing that there is: why, the tip if there is one, and what the usage line says behind the program's name
ANY = "[OPTIONS] [COMMAND]"
LONG = f"--{'y' * 62}.."
REFUSED = [
    (["a\nb\x1b[K"], "unrecognized subcommand 'a\\nb\\u{1b}[K'", "", ANY),
    (["x" * 64], f"unrecognized subcommand '{'x' * 64}'", "", ANY),
    (["x" * 100_000], f"unrecognized subcommand '{'x' * 64}..'", "", ANY),
    (["plain", "a file", f"x{'é' * 100}"], f"unexpected argument 'x{'é' * 31}..' found", "", "plain [OPTIONS] <FILE>"),
    (["plain", f"--{'y' * 63}"], f"unexpected argument '{LONG}' found", f"to pass '{LONG}' as a value, use '-- {LONG}'", "plain [OPTIONS] <FILE>"),
    (["plain", "a file", "\x1b[31m"], "unexpected argument '\\u{1b}[31m' found", "", "plain [OPTIONS] <FILE>"),
    (["plain"], "the following required arguments were not provided:\n  <FILE>", "", "plain <FILE>"),
    (["plain", "-", "--quiet", "--quiet"], "the argument '--quiet' cannot be used multiple times", "", "plain [OPTIONS] <FILE>"),
    (["plain", "--explain", "-", "--explain"], "the argument '--explain' cannot be used multiple times", "", "plain [OPTIONS] <FILE>"),
    (["--explain"], "unexpected argument '--explain' found", "", ANY),
    (["draw", "--reads", "--reads", "-"], "the argument '--reads' cannot be used multiple times", "", "draw [OPTIONS] <FILE>"),
    (["judge", "--why", "-", "--why"], "the argument '--why' cannot be used multiple times", "", "judge [OPTIONS] <FILE>"),
    (["judge", "--any-lock", "--any-lock", "-"], "the argument '--any-lock' cannot be used multiple times", "", "judge [OPTIONS] <FILE>"),
    (["draw-svg", "--judge", "-", "--judge"], "the argument '--judge' cannot be used multiple times", "", "draw-svg [OPTIONS] <FILE>"),
    (["draw", "--why", "-"], "unexpected argument '--why' found", "to pass '--why' as a value, use '-- --why'", "draw [OPTIONS] <FILE>"),
    (["audit", "--why", "-"], "unexpected argument '--why' found", "to pass '--why' as a value, use '-- --why'", "audit [OPTIONS] <FILE>"),
    (["--quiet", "audit"], "the following required arguments were not provided:\n  <FILE>", "", "audit <FILE>"),
    (["plain", "a file", "-"], "unexpected argument '-' found", "", "plain [OPTIONS] <FILE>"),
    (["--", "plain", "a file"], "unexpected argument 'plain' found", "subcommand 'plain' exists; to use it, remove the '--' before it", ANY),
    (["help", "plain", "bits", "race"], "unexpected argument 'bits' found", "", "help [OPTIONS] [PAGE]"),
    (["plain", "-x"], "unexpected argument '-x' found", "to pass '-x' as a value, use '-- -x'", "plain [OPTIONS] <FILE>"),
    (["--hlep"], "unexpected argument '--hlep' found", "a similar argument exists: '--help'", "--help"),
    (["plain", "--version"], "unexpected argument '--version' found", "to pass '--version' as a value, use '-- --version'", "plain [OPTIONS] <FILE>"),
    (["replay", "--reads", "-"], "unexpected argument '--reads' found", "to pass '--reads' as a value, use '-- --reads'", "replay [OPTIONS] <FILE>"),
    (["--reads"], "unexpected argument '--reads' found", "", ANY),
    (["--reads", "draw", "-"], "unexpected argument '--reads' found", "'draw --reads' exists", ANY),
    (["draw", "--reads"], "the following required arguments were not provided:\n  <FILE>", "", "draw --reads <FILE>"),
    (["draw", "--read", "-"], "unexpected argument '--read' found", "a similar argument exists: '--reads'", "draw --reads <FILE>"),
    (["draw", "--from", "1", "--from", "2", "-"], "the argument '--from <from>' cannot be used multiple times", "", "draw [OPTIONS] <FILE>"),
    (["draw-svg", "--to=1", "-", "--to=1"], "the argument '--to <to>' cannot be used multiple times", "", "draw-svg [OPTIONS] <FILE>"),
    (["replay", "--from", "1", "-"], "unexpected argument '--from' found", "to pass '--from' as a value, use '-- --from'", "replay [OPTIONS] <FILE>"),
    (["judge", "--to", "1", "-"], "unexpected argument '--to' found", "to pass '--to' as a value, use '-- --to'", "judge [OPTIONS] <FILE>"),
    (["plain", b"\xff"], "an argument is not UTF-8 (to read a file of such a name: bakerystore COMMAND - < FILE)", "", ANY),
]

# words in the place of a command that are none
NO_COMMANDS = ["rplay", "Plain", "show", "", "raec", "hepl", "bit", "-", "plian", *(f"{command}z" for command in [*COMMANDS, "help"])]

# words that ask for something, and what is printed
TAKEN = [
    (["--"], PRINTED),
    (["plain", "--", "a file"], PRINTED),
    (["plain", "--", "-x"], PRINTED),
    (["plain", "./-x"], PRINTED),
    (["plain", "--", "-"], PRINTED),
    (["--quiet"], PRINTED),
    (["plain", "--quiet", "a file"], PRINTED),
    (["plain", "a file", "--quiet"], PRINTED),
    (["plain", "--explain", "a file"], PRINTED),
    (["--quiet", "plain", "a file", "--quiet"], PRINTED),
]


class Ran(NamedTuple):
    """How a run ended, and what it wrote: None where that was no pipe."""

    status: int
    output: str | None
    errors: str | None


def told(why, tip, usage):
    """What `clap` tells of words that it does not take."""
    tip = tip and f"\n\n  tip: {tip}"
    return f"error: {why}{tip}\n\nUsage: bakerystore {usage}\n\nFor more information, try '--help'.\n"


def jaro(one, other):
    """The Jaro similarity of two words."""
    if one == other:
        return 1.0
    apart = max(max(len(one), len(other)) // 2 - 1, 0)
    met = [False] * len(other)
    common = []
    for at, letter in enumerate(one):
        for place in range(max(at - apart, 0), min(at + apart + 1, len(other))):
            if not met[place] and other[place] == letter:
                met[place] = True
                common.append(letter)
                break
    if not common:
        return 0.0
    there = [letter for letter, is_met in zip(other, met) if is_met]
    swapped = sum(mine != theirs for mine, theirs in zip(common, there)) // 2
    return (len(common) / len(one) + len(common) / len(other) + (len(common) - swapped) / len(common)) / 3


def near(word):
    """The tip that names the commands near to a word, the nearest last."""
    names = sorted((name for name in [*COMMANDS, "help"] if jaro(word, name) > 0.7), key=lambda name: jaro(word, name))
    are = "a similar subcommand exists" if len(names) == 1 else "some similar subcommands exist"
    return f"{are}: " + ", ".join(f"'{name}'" for name in names) if names else ""


def run(words, text="", **streams):
    """Runs the program on a standard input; its two outputs go to pipes unless it is said where."""
    streams = {"stdout": subprocess.PIPE, "stderr": subprocess.PIPE, **streams}
    ran = subprocess.run([PROGRAM, *words], input=text, text=True, **streams)
    return Ran(ran.returncode, ran.stdout, ran.stderr)


def pages(counter):
    """The pages come by each of their words, tell all there is, and each command that they show prints what they show."""
    general = run(["--help"])
    texts = {"--help": general.output}
    for words in [["-h"], ["help"], ["help", "help"], ["help", "--help"], ["help", "-h"], ["-h", "--quiet"], ["--help", "plain"]]:
        counter.compare(words, run(words), general)
    listed = general.output.partition("\n\n  help COMMAND")[0]
    counter.compare("commands of the page", re.findall(r"^  ([a-z-]+) +\S", listed, re.M), COMMANDS)
    counter.compare("statuses of the page", re.findall(r"^  (\d)   ", general.output, re.M), list("01234"))
    for command in COMMANDS:
        page = texts[command] = run(["help", command])
        for words in [[command, "--help"], [command, "-h"], ["help", "--quiet", command], [command, "a file", "--help"]]:
            counter.compare(words, run(words), page)
        texts[command] = page.output
        usage = run([command, "-", "-"]).errors.splitlines()[2]
        counter.compare(f"begin of the page of {command}", (page.output.splitlines()[0], usage), (f"Usage: bakerystore {command} [OPTIONS] <FILE>",) * 2)
    faults = texts["faults"] = run(["help", "faults"]).output
    counter.compare("kinds of fault", re.findall(r"^([a-z]+(?:-[a-z]+)?)  +[A-Z]", faults, re.M), KINDS)
    counter.compare("other faults", re.findall(r"^([a-z]+(?: [a-z]+)+)  +[A-Z]", faults, re.M), FAULT_LINES)
    counter.compare("causes of too-long", len(re.findall(r"^ +line \d+: too-long$", faults, re.M)), 3)
    words_of_run = texts["run"] = run(["help", "run"]).output
    counter.compare("words of a run", re.findall(r"^  (?!refused)([a-z]+)\b(?! refused)", words_of_run, re.M), [*MARKS, "turns", "show", "end"])
    counter.compare("refusals of a run", re.findall(r"^  refused ([a-z-]+)  ", words_of_run, re.M), REFUSALS)
    for name, text in texts.items():
        shown = SHOWN.findall(text)
        counter.compare(f"the page {name} shows commands", shown != [], True)
        for _, command, printed in shown:
            made = shell(command)
            wanted = re.sub("^ +", "", printed, flags=re.M)
            if name == "--help":
                counter.compare(f"{command}, status and faults", (made.status, made.errors), (0, ""))
            else:
                counter.compare(command, made.errors or made.output, wanted)
    with open("/dev/full", "w") as full:
        counter.compare("a page to a full device", run(["--help"], stdout=full), Ran(1, None, "write fault\n"))


def shell(command):
    """Runs a command that a page shows, from the top of the repository."""
    paths = f"{PROGRAM.parent}{os.pathsep}{os.environ['PATH']}"
    environment = dict(os.environ, PATH=paths)
    ran = subprocess.run(command, shell=True, cwd=TOP, capture_output=True, text=True, env=environment)
    return Ran(ran.returncode, ran.stdout, ran.stderr)


def words(counter, folder):
    """Words that are refused say why, above the usage line, and a near command; `--` ends the options; the version names the
    logic."""
    for name in ["a file", "-x"]:
        (folder / name).write_text(SCENARIO)
    for asked, *why in REFUSED:
        counter.compare(asked, run(asked, SCENARIO, cwd=folder), Ran(2, "", told(*why)))
    for word in NO_COMMANDS:
        refused = Ran(2, "", told(f"unrecognized subcommand '{word}'", near(word), ANY))
        for asked in [[word], [word, "-"], [word, "--help"], ["help", word]]:
            counter.compare(asked, run(asked, SCENARIO, cwd=folder), refused)
    for asked, printed in TAKEN:
        counter.compare(asked, run(asked, SCENARIO, cwd=folder), Ran(0, printed, ""))
    with open(os.fsencode(folder) + b"/\xff", "w") as file:
        file.write(SCENARIO)
    with open(os.fsencode(folder) + b"/\xff") as file:
        ran = subprocess.run([PROGRAM, "plain", "-"], stdin=file, capture_output=True, text=True)
    counter.compare("a file whose name is not UTF-8", (ran.returncode, ran.stdout), (0, PRINTED))
    toolchain = subprocess.run(["rt", "version"], capture_output=True, text=True, check=True).stdout
    logic = re.search(r"logic ([0-9a-f]+)$", toolchain.strip()).group(1)
    named = re.search(r"^Proved with\n\n```\n(.*?)\n```$", (TOP / "docs" / "CLAIMS.md").read_text(), re.M | re.S)
    logics = {line.rpartition(" logic ")[2] for line in named[1].splitlines()} if named else None
    counter.compare("the logic of the toolchains that docs/CLAIMS.md names", logics, {logic})
    version = run(["--version"])
    for asked in [["-V"], ["--version", "plain", "a file"]]:
        counter.compare(asked, run(asked), version)
    wanted = f"bakerystore N, sources for Rattle's logic {logic}; the program cannot tell how this copy was built\n"
    counter.compare("the version, number left out", re.sub(r"\d+\.\d+\.\d+", "N", version.output), wanted)
    counter.compare("its status", (version.status, version.errors), (0, ""))


class Terminal:
    """A pseudo-terminal that changes no byte; `end` is what the program gets."""

    def __init__(self):
        self.ours, self.end = pty.openpty()
        tty.setraw(self.end)
        self.written = b""
        self.reader = threading.Thread(target=self.read)
        self.reader.start()

    def read(self):
        """Reads until nobody holds the other end."""
        with open(self.ours, "rb", buffering=0) as ours, contextlib.suppress(OSError):
            while part := ours.read(65536):
                self.written += part

    def text(self):
        """What was written by a program that has ended."""
        os.close(self.end)
        self.reader.join()
        return self.written.decode()


class Interrupter:
    """Runs the program under `interrupt.c`."""

    def __init__(self, folder):
        self.library, self.met = built("interrupt", folder), folder / "met"

    def run(self, asked, text="", tries=0, tick=0, failing=0, **streams):
        """A run, of which the write of the number `failing` to standard output fails, and how many reads and writes it met."""
        added = {"LD_PRELOAD": str(self.library), "MET": str(self.met), "TRIES": str(tries), "TICK": str(tick)}
        added |= {"STREAM": "1", "CALL": str(failing), "HOW": "fail"} if failing else {}
        ran = run(asked, text, env={**os.environ, **added}, **streams)
        reads, writes, *_ = map(int, self.met.read_text().split())
        return ran, reads, writes


def marks(processes):
    """A scenario whose events each have one mark: each process calls, and then each fails; and the text of its replay."""
    calls = "".join(f"call {process} read a\n" for process in range(processes))
    fails = "".join(f"fail {process}\n" for process in range(processes))
    text = "".join(f"{process} {process} call read a\n" for process in range(processes))
    text += "".join(f"{processes + process} {process} fail\n" for process in range(processes))
    heads = f"bakery 2\nprocesses {processes}\n"
    return heads + calls + fails, text + f"end events {2 * processes} taken 0 refused 0\n"


def lines_at_a_terminal(counter, interrupter):
    """A terminal gets each line by a write of its own, and the first while the run goes on; a pipe gets all at once."""
    scenario, text = marks(16)
    terminal = Terminal()
    ran, _, writes = interrupter.run(["replay", "-"], scenario, stdout=terminal.end)
    counter.compare("to a terminal", (ran, terminal.text()), (Ran(0, None, ""), text))
    counter.compare("writes to a terminal", writes, text.count("\n"))
    ran, _, writes = interrupter.run(["replay", "-"], scenario)
    counter.compare("to a pipe", ran, Ran(0, text, ""))
    counter.compare("writes to a pipe", writes, 1)
    # one process stays inside, for which another one waits in all its steps
    long = "bakery 1\ncall 0 read a\ngo 0 inside\ncall 1 read a\n" + "step 1 100000\n" * 3900
    first = "0 0 call read a\n"
    terminal = Terminal()
    with subprocess.Popen([PROGRAM, "replay", "-"], stdin=subprocess.PIPE, stdout=terminal.end, text=True) as going:
        going.stdin.write(long)
        going.stdin.close()
        while going.poll() is None and not terminal.written.startswith(first.encode()):
            time.sleep(0.01)
        counter.compare("the first line is there while the run goes on", going.poll(), None)
        going.kill()
    counter.compare("the first line of a run that goes on", terminal.text()[: len(first)], first)


def progress(counter, interrupter):
    """The line of progress stands where standard error is a terminal and standard output is none, from two seconds on, and not
    with `--quiet`. The clock goes on by 100 ms each time, and is asked at the begin of the run and before each of its lines."""
    scenario, text = marks(16)
    # a comment behind each line: the first line that is run is the 5th one of the file
    spaced = scenario.replace("\n", "\n# a comment\n")
    times = range(20, 33, 2)
    shown = "".join(f"\r{asked - 1} events so far, 9 a second, line {2 * asked + 3} of the file\x1b[K" for asked in times) + CLEAR
    # `draw-svg` makes the run twice: its lines come again, at the times from 33 on, behind the 32 events of the first time
    again = shown.removesuffix(CLEAR)
    for asked in range(34, 65, 2):
        again += f"\r{asked - 1} events so far, 9 a second, line {2 * (asked - 32) + 3} of the file, for the second time\x1b[K"
    again += CLEAR
    for command in ["replay", "record", "audit", "draw", "draw-svg"]:
        alone = run([command, "-"], spaced)
        counter.compare(f"{command} in pipes", (alone.status, alone.errors), (0, ""))
        for options, wanted in [([], again if command == "draw-svg" else shown), (["--quiet"], "")]:
            terminal = Terminal()
            ran, *_ = interrupter.run([command, "-", *options], spaced, tick=100, stderr=terminal.end)
            counter.compare(f"progress of {command} {options}", (ran, terminal.text()), (Ran(0, alone.output, None), wanted))
        ran, *_ = interrupter.run([command, "-"], spaced, tick=100)
        counter.compare(f"no progress of {command} in a pipe", ran, alone)
    terminal = Terminal()
    ran, *_ = interrupter.run(["replay", "-"], scenario, tick=100, stdout=terminal.end, stderr=terminal.end)
    counter.compare("no progress beside the text", (ran.status, terminal.text()), (0, text))
    few, text = marks(9)
    terminal = Terminal()
    ran, *_ = interrupter.run(["replay", "-"], few, tick=100, stderr=terminal.end)
    counter.compare("no progress within two seconds", (ran, terminal.text()), (Ran(0, text, None), ""))
    # the process fails after each of its 32 events, in two runs
    swept = "sweep runs 64 good 64 stuck 0\n"
    shown = "".join(f"\r{asked - 1} of 32 events swept so far, 9 a second\x1b[K" for asked in times) + CLEAR
    terminal = Terminal()
    ran, *_ = interrupter.run(["sweep", "-"], "bakery 1\ncall 0 read a\nstep 0 31\n", tick=100, stderr=terminal.end)
    counter.compare("progress of sweep", (ran, terminal.text()), (Ran(0, swept, None), shown))
    # it shows the line beside its output too, since that comes at the end
    terminal = Terminal()
    words = ["sweep", "-"]
    ran, *_ = interrupter.run(words, "bakery 1\ncall 0 read a\nstep 0 31\n", tick=100, stdout=terminal.end, stderr=terminal.end)
    counter.compare("progress of sweep at one terminal", (ran.status, terminal.text()), (0, shown + swept))
    # it reads blocks of 8,192 bytes, of which each has 64 of these lines; a pipe would give it fewer at a time. The first 1,024 bytes,
    # in which the first word is looked for, are a read of their own, so it is one block behind, and takes one read more
    comments = "".join(f"{line:127}\n" for line in ["record 1", *["# a line"] * 2047])
    shown = "".join(f"\r{64 * (asked - 1)} lines read so far, {640 * (asked - 1) // asked} a second\x1b[K" for asked in times)
    shown += f"\r2048 lines read so far, {20480 // 34} a second\x1b[K" + CLEAR
    terminal = Terminal()
    with tempfile.NamedTemporaryFile("w") as file:
        file.write(comments)
        file.flush()
        ran, *_ = interrupter.run(["judge", file.name], "", tick=100, stderr=terminal.end)
    counter.compare("progress of judge", (ran, terminal.text()), (Ran(0, "good 0\n", None), shown))


def interrupted(counter, interrupter, folder):
    """Each read and write is made again, however often it is interrupted, with texts above what a buffer holds."""
    adds = "bakery 2\nopen a c:0\n" + "call 0 add a 1\n" * 3000
    sums = "".join(f"{place} 0 sum {place + 1}\n" for place in range(3000))
    scenario, text = marks(16)
    file = folder / "marks"
    file.write_text(scenario)
    bits = "bits 1\n" + "read\nvalue 1\n" * 2000
    cases = [
        (["plain", "-"], adds, Ran(0, sums, "")),
        (["replay", "-"], scenario, Ran(0, text, "")),
        (["replay", file], "", Ran(0, text, "")),
        (["bits", "-"], bits, Ran(0, "0\n" * 2000, "")),
        (["audit", file], "", Ran(0, "good 32\n", "")),
        (["sweep", "-"], SCENARIO, Ran(0, "sweep runs 2 good 2 stuck 0\n", "")),
        (["race", "-"], SCENARIO, Ran(0, "0 0 no-name\nshow empty\ngood\n", "")),
        (["record", "-"], SCENARIO, Ran(0, RECORD, "")),
        (["judge", "-"], RECORD, Ran(0, "good 1\n", "")),
        (["draw", file], "", run(["draw", file])),
        (["draw-svg", file], "", run(["draw-svg", file])),
        (["plain", "-"], "bakery 1\nstep\n", Ran(1, "", "line 2: words\n")),
        (["help", "faults"], "", run(["help", "faults"])),
    ]
    for asked, given, wanted in cases:
        for tries in [2, 3, 7]:
            ran, *met = interrupter.run(asked, given, tries)
            counter.compare(f"{asked}, {tries} tries", (ran, sum(met) >= tries), (wanted, True))
    terminal = Terminal()
    ran, *_ = interrupter.run(["replay", file], tries=3, stdout=terminal.end)
    counter.compare("interrupted at a terminal", (ran, terminal.text()), (Ran(0, None, ""), text))
    terminal = Terminal()
    ran, *_ = interrupter.run(["plain", "-"], adds, tries=5, stdout=terminal.end)
    counter.compare("a long text, interrupted at a terminal", (ran, terminal.text()), (Ran(0, None, ""), sums))


def failed_writes(counter, interrupter):
    """After a write that failed nothing is written: what stands there is what was written before it."""
    scenario, text = marks(16)
    lines = text.splitlines(keepends=True)
    for failing in [1, 2, 3, len(lines)]:
        terminal = Terminal()
        ran, _, writes = interrupter.run(["replay", "-"], scenario, failing=failing, stdout=terminal.end)
        counter.compare(f"write {failing} to a terminal fails", (ran, terminal.text()), (Ran(1, None, "write fault\n"), "".join(lines[: failing - 1])))
        # the fault is told by a write of its own
        counter.compare(f"writes made where write {failing} fails", writes, failing + 1)
    of_scenarios = [[command, *["--at=end"] * (command == "state"), "-"] for command in COMMANDS if command not in ("bits", "judge")]
    for asked, given in [*((asked, SCENARIO) for asked in of_scenarios), (["judge", "-"], RECORD), (["--help"], "")]:
        ran, *_ = interrupter.run(asked, given, failing=1)
        counter.compare(f"the one write of {asked} fails", ran, Ran(1, "", "write fault\n"))
    whole = run(["draw", "-"], scenario).output
    ran, *_ = interrupter.run(["draw", "-"], scenario, failing=2)
    counter.compare("the second block fails", (ran, 0 < len(ran.output) < len(whole)), (Ran(1, whole[: len(ran.output)], "write fault\n"), True))


def gone(counter):
    """A reader that went away is a write fault, whatever is written."""
    streamed = [["plain", "-"], ["replay", "-"], ["record", "-"], ["draw", "-"], ["draw-svg", "-"]]
    for asked, given in [*((words, SCENARIO) for words in streamed), (["judge", "-"], RECORD), (["--help"], "")]:
        ours, end = os.pipe()
        os.close(ours)
        counter.compare(f"{asked} to nobody", run(asked, given, stdout=end), Ran(1, None, "write fault\n"))
        os.close(end)


def at_terminal(asked, **streams):
    """What a run writes to standard error, where that is a terminal, and its status."""
    terminal = Terminal()
    ran = run(asked, stderr=terminal.end, **streams)
    return ran.status, ran.output, terminal.text()


def causes(counter):
    """With `--explain` and at a terminal a second line names the stream that failed, and the reason."""
    reads = [("nofile", "nofile: no such file"), (".", ".: it is a directory"), ("a\x1b[31mb", "a\\u{1b}[31mb: no such file")]
    for file, cause in reads:
        for asked, errors in [(["replay", file], "read fault\n"), (["replay", "--explain", file], f"read fault\n{cause}\n")]:
            counter.compare(asked, run(asked), Ran(1, "", errors))
        counter.compare(f"{file!r} at a terminal", at_terminal(["replay", file]), (1, "", f"read fault\n{cause}\n"))
    with open("/dev/full", "w") as full:
        ran = run(["plain", "--explain", "-"], SCENARIO, stdout=full)
    counter.compare("a full device", ran, Ran(1, None, "write fault\nstandard output: no space left on the device\n"))
    ours, end = os.pipe()
    os.close(ours)
    ran = run(["plain", "--explain", "-"], SCENARIO, stdout=end)
    os.close(end)
    counter.compare("a reader that went away", ran, Ran(1, None, "write fault\nstandard output: its reader has gone away\n"))


def hints(counter):
    """At a terminal `judge` adds a hint where an early entry is not one of this lock, and otherwise nothing."""
    other, late = TOP / "lessons" / "19-overtakes.record", TOP / "examples" / "records" / LATE
    hint = "hint: --any-lock judges the records of other locks\n"
    for words, output, errors in [
        (["judge", other], "bad 3 program\n", hint),
        (["judge", "--any-lock", other], "bad 10 overtaken\n", ""),
        (["judge", late / "record-file"], (late / "judge").read_text(), ""),
        (["judge", TOP / "examples" / "failed-read.record"], "good 21\n", ""),
    ]:
        status = 3 if output.startswith("bad") else 0
        counter.compare(words, at_terminal(words), (status, output, errors))
        counter.compare(f"{words} in pipes", run(words), Ran(status, output, ""))


def main():
    counter = Counter()
    with tempfile.TemporaryDirectory() as name:
        folder = pathlib.Path(name)
        interrupter = Interrupter(folder)
        pages(counter)
        words(counter, folder)
        lines_at_a_terminal(counter, interrupter)
        progress(counter, interrupter)
        interrupted(counter, interrupter, folder)
        failed_writes(counter, interrupter)
        gone(counter)
        causes(counter)
        hints(counter)
    counter.end()


main()
