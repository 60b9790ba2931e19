"""Failing streams: every command runs a file without a fault and a file with one, and each read and each write in turn fails, takes
one byte, or takes no byte. In other runs a standard stream is closed or full, a file has reached its limit, the reader of a pipe
goes away, the input never ends, or the file cannot be read or has a name that is not UTF-8.

After a failed read the program must print `read fault` and nothing else. A read that takes no byte is the end of the file, so the
program must then write what it writes for the bytes that it has read. No page states how many bytes a read takes. After a failed
write, or one that takes no byte, the program must report `write fault` and not write to standard output again, and what it wrote before
must be a prefix of the text. If standard error fails, the exit status and standard output must be unchanged. A call that takes one byte
must change nothing. Every command except `judge` must stop reading at the greatest length of a file.

The library `tests/preload/interrupt.c` is loaded before the program and spoils one call of a run.
"""

import contextlib
import functools
import os
import pathlib
import resource
import signal
import socket
import subprocess
import tempfile
import time

from lib.places import PROGRAM
from lib.preloading import built
from lib.running import CHUNK, COMMANDS, Ran, Row, counted, runner, workers

READS, OUTPUT, ERRORS = range(3)
STREAMS = ["read", "write to standard output", "write to standard error"]
# what becomes of a call
HOWS = {"fail": "fails", "none": "takes no byte", "one": "takes one byte"}
PIPES = {"stdin": subprocess.PIPE, "stdout": subprocess.PIPE, "stderr": subprocess.PIPE}
# (so that each command but those that draw writes single bytes)
MOST_WRITES = 320
INPUT_LIMIT = 532_481
NOBODY = 2_000_000_000
READ_FAULT = Ran(1, b"", b"read fault\n")
WRITE_FAULT = (1, b"write fault\n")
SCENARIO = "worked/restart-of-failed-process/scenario"
# what each command runs: a file without a fault, and one with a fault
GOOD = {"bits": "overlap.bits", "judge": "failed-read.record"}
FAULTY = {"bits": "worked/bits-fault-number/bits-file", "judge": "records/fault-unknown-field/record-file"}
# 4,096 lines of 128 bytes, each with two bytes of line end, which say nothing
FULL = (b"#" * 128 + b"\r\n") * 4096
MORE_TO_JUDGE = b"# nothing\n" * 1_000_000
# how long a run is watched that waits for more, and one that must end, in seconds
WAITS, ENDS = 1, 60
MOST_KIB = 16 * 1024


def good_file(command, examples):
    return examples / GOOD.get(command, SCENARIO)


def faulty_file(command, examples):
    return examples / FAULTY.get(command, "typing-error.bakery")


class Spoiler:
    """Runs the program under `interrupt.c`, which spoils its reads and writes."""

    def __init__(self, folder):
        self.library = built("interrupt", folder)

    def run(self, words, text, **said):
        """A run, and how many reads, writes to standard output and writes to standard error it met, and how many bytes were
        read."""
        with tempfile.NamedTemporaryFile(dir=self.library.parent) as met:
            told = {name: str(value) for name, value in said.items()}
            environment = {**os.environ, "LD_PRELOAD": str(self.library), "MET": met.name, **told}
            ran = runner().run(words, text, environment)
            reads, writes, errors, taken = map(int, met.read().split() or (0,) * 4)
            return ran, reads, writes - errors, errors, taken


def spoiled_calls(spoiler, command, text, most):
    """Each call of a run, with what becomes of it: the run's commands, the most bytes of its calls, and the call."""
    _, reads, outputs, errors, _ = spoiler.run([*command.split(), "-"], text, MOST=most)
    for stream, calls in enumerate([reads, outputs, errors]):
        for call in range(1, calls + 1):
            for how in HOWS:
                yield command, text, most, stream, call, how


def is_as_it_must(met, whole, cut, most, stream, call, how):
    """Whether a run of which a call was spoiled ended as it must. `met` is that run with the numbers of its calls, `whole` the run
    without that, and `cut` the run on the bytes that were read before a read that took no byte."""
    ran, _, outputs, *_ = met
    if how == "one":
        return ran == whole
    if stream == READS:
        return ran == (READ_FAULT if how == "fail" else cut)
    if stream == OUTPUT:
        written = len(ran.output)
        is_before = written < len(whole.output) and (written <= most * (call - 1) or most == 0 and call > 1)
        is_last = outputs == call
        return (ran.status, ran.errors) == WRITE_FAULT and whole.output.startswith(ran.output) and is_before and is_last
    return (ran.status, ran.output) == (whole.status, whole.output) and whole.errors.startswith(ran.errors)


@functools.lru_cache(maxsize=256)
def plainly(command, text):
    """A run without any of this."""
    return runner().run([*command.split(), "-"], text)


def run_without(job, taken):
    """The run on the bytes that were read, if a read that took no byte ended the file; otherwise the run on the whole text."""
    command, text, _, stream, _, how = job
    return plainly(command, text[:taken] if (stream, how) == (READS, "none") else text)


def spoil(spoiler, job):
    """Spoils one call; what was done, and what is wrong, or None."""
    command, text, most, stream, call, how = job
    met = spoiler.run([*command.split(), "-"], text, MOST=most, STREAM=stream, CALL=call, HOW=how)
    ran, *_, taken = met
    whole, cut = plainly(command, text), run_without(job, taken)
    what = f"each {STREAMS[stream]} in turn {HOWS[how]}"
    if is_as_it_must(met, whole, cut, most, stream, call, how):
        return what, f"`{command}`", None
    return what, f"`{command}`", f"call {call} of at most {most} bytes: {ran}, without it {whole}, on the first {taken} bytes {cut}"


def call_jobs(spoiler, examples):
    """Each call of runs whose reads and writes take all that there is, and of runs whose calls take few bytes, or one."""
    for command in COMMANDS:
        for file in [good_file(command, examples), faulty_file(command, examples)]:
            text = file.read_bytes()
            few = max(1, -(-len(plainly(command, text).output) // MOST_WRITES))
            for most in [0, few]:
                yield from spoiled_calls(spoiler, command, text, most)


def all_but_nothing(counts):
    """The rows, and one more if there is none: a run under the library met no call."""
    found = list(counts)
    return found or [Row("each read and write in turn", "no call was met", 1, ["none"])]


class Tries:
    """Counts runs of one thing, and those that ended otherwise."""

    def __init__(self, what):
        self.what, self.found = what, []

    def compare(self, command, ran, good):
        self.found.append((self.what, f"`{command}`", None if good else str(ran)))


def run(words, **streams):
    """A run of the program with these streams, and pipes for the others."""
    ran = subprocess.run([PROGRAM, *words], timeout=600, **{**PIPES, "stdin": subprocess.DEVNULL, **streams})
    return Ran(ran.returncode, ran.stdout or b"", ran.stderr or b"")


def closed(number):
    """What closes a stream before the program begins."""
    return functools.partial(os.close, number)


def closed_streams(examples):
    """Streams that are closed, full, or without a reader."""
    for command in COMMANDS:
        good, faulty = good_file(command, examples), faulty_file(command, examples)
        whole, told = run([*command.split(), good]), run([*command.split(), faulty])
        tries = Tries("standard input is closed")
        ran = run([*command.split(), "-"], preexec_fn=closed(0))
        tries.compare(command, ran, ran == READ_FAULT)
        ran = run([*command.split(), good], preexec_fn=closed(0))
        tries.compare(command, ran, ran == whole)
        yield from tries.found
        tries = Tries("standard output is closed")
        ran = run([*command.split(), good], preexec_fn=closed(1))
        tries.compare(command, ran, (ran.status, ran.errors) == WRITE_FAULT)
        yield from tries.found
        tries = Tries("standard error is closed")
        ran = run([*command.split(), faulty], preexec_fn=closed(2))
        tries.compare(command, ran, ran == (told.status, told.output, b""))
        ran = run([*command.split(), good], preexec_fn=closed(2))
        tries.compare(command, ran, ran == whole)
        yield from tries.found
        tries = Tries("a stream is full")
        with open("/dev/full", "wb") as full:
            ran = run([*command.split(), good], stdout=full)
            tries.compare(command, ran, (ran.status, ran.errors) == WRITE_FAULT)
            ran = run([*command.split(), faulty], stderr=full)
            tries.compare(command, ran, (ran.status, ran.output) == (told.status, told.output))
        yield from tries.found
        yield from limited_files(command, good)
        yield from gone_readers(command, good)


def limited_files(command, good):
    """A file that may have no byte: the limit ends the program by a signal, and where this is ignored, a write fails."""
    tries = Tries("a file has reached its limit")
    limit = functools.partial(resource.setrlimit, resource.RLIMIT_FSIZE, (0, 0))
    for ignored in (False, True):
        with tempfile.TemporaryFile() as file:
            # Python ignores the signal, and a child does so unless its signals are restored
            ran = run([*command.split(), good], stdout=file, preexec_fn=limit, restore_signals=not ignored)
        wanted = WRITE_FAULT if ignored else (-signal.SIGXFSZ, b"")
        tries.compare(command, ran, (ran.status, ran.errors) == wanted)
    yield from tries.found


def gone_readers(command, good):
    """A pipe whose reader goes away before the run, and one whose reader does so after some bytes of a long text."""
    tries = Tries("a pipe whose reader has gone")
    ours, end = os.pipe()
    os.close(ours)
    ran = run([*command.split(), good], stdout=end)
    os.close(end)
    tries.compare(command, ran, (ran.status, ran.errors) == WRITE_FAULT)
    yield from tries.found
    if command not in ("replay", "record", "draw", "draw-svg"):
        return
    tries = Tries("a pipe whose reader goes after ten bytes")
    # (more than a pipe holds)
    text = b"bakery 1\nprocesses 1\n" + b"call 0 write a c:5\ngo 0 idle\n" * 2000
    with subprocess.Popen([PROGRAM, *command.split(), "-"], **PIPES) as going:
        going.stdin.write(text)
        going.stdin.close()
        front = os.read(going.stdout.fileno(), 10)
        going.stdout.close()
        ran = Ran(going.wait(), front, going.stderr.read())
    tries.compare(command, ran, (ran.status, ran.errors) == WRITE_FAULT and len(front) == 10)
    yield from tries.found


def peak_of(process):
    """The memory that is resident at most, in KiB, of a process that runs."""
    lines = pathlib.Path(f"/proc/{process}/status").read_text().splitlines()
    return next(int(line.split()[1]) for line in lines if line.startswith("VmHWM:"))


def fed(command, text, seconds):
    """A run whose input gives this text and goes on without an end, for so many seconds, if it does not end before: whether it
    has ended, how it ends when the input does, and its memory."""
    with subprocess.Popen([PROGRAM, *command.split(), "-"], **PIPES) as going:
        with contextlib.suppress(BrokenPipeError):
            going.stdin.write(text)
            going.stdin.flush()
        begun = time.time()
        while going.poll() is None and time.time() < begun + seconds:
            time.sleep(0.01)
        has_ended = going.poll() is not None
        peak = 0 if has_ended else peak_of(going.pid)
        with contextlib.suppress(BrokenPipeError):
            going.stdin.close()
        return has_ended, Ran(going.wait(), going.stdout.read(), going.stderr.read()), peak


def endless(spoiler):
    """An input that does not end: 532,481 bytes of it are taken and no more; and `judge` reads on."""
    for command in [command for command in COMMANDS if command != "judge"]:
        tries = Tries("an input without an end")
        has_ended, ran, _ = fed(command, FULL, WAITS)
        tries.compare(command, ran, not has_ended and ran == (1, b"", b"line 4097: not-first\n"))
        has_ended, ran, _ = fed(command, FULL + b"#", ENDS)
        tries.compare(command, ran, has_ended and ran == (1, b"", b"line 4097: too-long\n"))
        yield from tries.found
    tries = Tries("an input without an end")
    ran, *_, taken = spoiler.run(["plain", "/dev/zero"], b"", MOST=1)
    tries.compare("plain", (ran, taken), ran == (1, b"", b"line 1: too-long\n") and taken == INPUT_LIMIT)
    has_ended, ran, peak = fed("judge", MORE_TO_JUDGE, WAITS)
    good = not has_ended and ran == (1, b"", b"line 1000001: not-first\n") and peak <= MOST_KIB
    tries.compare("judge", (ran, peak), good)
    yield from tries.found


def unreadable(examples, folder):
    """Files that cannot be opened or read, and names that are no text."""
    (folder / "folder").mkdir()
    (folder / "loop").symlink_to("loop")
    (folder / "no link").symlink_to("nothing")
    with socket.socket(socket.AF_UNIX) as listener:
        listener.bind(str(folder / "socket"))
    words = ["", "folder", "folder/", "loop", "no link", "nothing", "nothing/nothing", "socket", "/proc/self/mem", "x" * 5000]
    for command in COMMANDS:
        tries = Tries("a file that cannot be read")
        for word in words:
            ran = run([*command.split(), "--", word], cwd=folder)
            tries.compare(command, (word, ran), ran == READ_FAULT)
        with open("/proc/self/mem", "rb") as memory:
            ran = run([*command.split(), "-"], stdin=memory)
            tries.compare(command, ran, ran == READ_FAULT)
        listing = os.open(folder, os.O_RDONLY)
        ran = run([*command.split(), "-"], stdin=listing)
        os.close(listing)
        tries.compare(command, ran, ran == READ_FAULT)
        ran = forbidden(command, good_file(command, examples), folder)
        tries.compare(command, ran, ran == READ_FAULT)
        yield from tries.found
        yield from names(command, good_file(command, examples), folder)


def forbidden(command, good, folder):
    """A file that nobody may read; it is run as nobody, where this is the superuser, whom nothing forbids to."""
    file, program = folder / "forbidden", folder / "program"
    folder.chmod(0o755)
    if not file.exists():
        program.write_bytes(PROGRAM.read_bytes())
        program.chmod(0o755)
        file.write_bytes(good.read_bytes())
        file.chmod(0)
    ran = subprocess.run([program, *command.split(), file], capture_output=True, user=NOBODY if os.geteuid() == 0 else None)
    return Ran(ran.returncode, ran.stdout, ran.stderr)


def names(command, good, folder):
    """A name that is not UTF-8 is refused as a word, and the file can be read as standard input."""
    tries = Tries("a name that is not UTF-8")
    whole, name = run([*command.split(), good]), os.fsencode(folder) + b"/\xff"
    with open(name, "wb") as file:
        file.write(good.read_bytes())
    ran = run([*command.split(), name])
    tries.compare(command, ran, (ran.status, ran.output) == (2, b"") and ran.errors.startswith(b"error: an argument is not UTF-8"))
    with open(name, "rb") as file:
        ran = run([*command.split(), "-"], stdin=file)
    tries.compare(command, ran, ran == whole)
    yield from tries.found


def rows(examples, folder, is_short):
    spoiler = Spoiler(folder)
    jobs = list(call_jobs(spoiler, examples))
    with workers() as pool:
        spoiled = pool.imap_unordered(functools.partial(spoil, spoiler), jobs, CHUNK)
        yield from all_but_nothing(counted(spoiled))
    for tried in [closed_streams(examples), endless(spoiler), unreadable(examples, folder)]:
        yield from counted(tried)
