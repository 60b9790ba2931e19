"""Runs a command within limits of processor seconds, seconds, memory, file size, open files, processes and output.

The command runs in a session of its own, in a folder that is made for it, with no input and few environment variables. Its whole
group is killed when it ends or reaches a limit. If the grader is root, the command runs as `nobody`, unless `nobody` may not start
Python. Where `unshare` works, the command has no network, and it leaves no process when it ends.
"""

import contextlib
import os
import resource
import select
import signal
import subprocess
import sys
import time
from typing import NamedTuple

NOBODY = 65534
# the ways to have neither network nor other processes, the strongest first
UNSHARED = {
    "no network, and processes of their own": ["unshare", "--user", "--map-root-user", "--net", "--pid", "--fork", "--kill-child"],
    "no network": ["unshare", "--user", "--map-root-user", "--net"],
    "the network of this machine, since `unshare` does not work here": [],
}
# the bytes that are read at once
BLOCK = 65536


class Limits(NamedTuple):
    """The limits of a command: processor seconds, seconds, bytes of memory or 0 for no limit, of a file and of output, and open files."""

    cpu: int = 60
    seconds: int = 600
    memory: int = 1 << 30
    file: int = 1 << 20
    output: int = 1 << 20
    files: int = 64


class Ended(NamedTuple):
    """How a command ended: its exit status, negative for a signal; its output; and the limit that it reached, or an empty text."""

    status: int
    output: bytes
    limit: str


class Isolation(NamedTuple):
    """How a command is kept apart: the words before it, whether it becomes `nobody`, and a description."""

    words: list
    is_nobody: bool
    text: str


def prepare(limits, is_nobody):
    """Sets the limits of the process that becomes the command."""
    for kind, most in (
        (resource.RLIMIT_CPU, limits.cpu),
        (resource.RLIMIT_AS, limits.memory or resource.RLIM_INFINITY),
        (resource.RLIMIT_FSIZE, limits.file),
        (resource.RLIMIT_NOFILE, limits.files),
        (resource.RLIMIT_CORE, 0),
    ):
        resource.setrlimit(kind, (most, most))
    if is_nobody:
        os.setgroups([])
        os.setgid(NOBODY)
        os.setuid(NOBODY)


def end(process):
    """Kills what is left of a command's group, and returns its status and its processor seconds."""
    try:
        os.killpg(process.pid, signal.SIGKILL)
    except ProcessLookupError:
        pass
    _, status, used = os.wait4(process.pid, 0)
    process.stdout.close()
    process.returncode = os.waitstatus_to_exitcode(status)
    return process.returncode, used.ru_utime + used.ru_stime


def run(words, folder, limits, isolation):
    """Runs a command in a folder, and returns how it ended."""
    process = subprocess.Popen(
        [*isolation.words, *words],
        cwd=folder,
        env={"PATH": "/usr/local/bin:/usr/bin:/bin", "HOME": str(folder), "TMPDIR": str(folder), "LC_ALL": "C.UTF-8", "PYTHONHASHSEED": "0"},
        stdin=subprocess.DEVNULL,
        stdout=subprocess.PIPE,
        stderr=subprocess.DEVNULL,
        start_new_session=True,
        preexec_fn=lambda: prepare(limits, isolation.is_nobody),
    )
    output, limit, late = bytearray(), "", time.monotonic() + limits.seconds
    while not limit:
        left = late - time.monotonic()
        if left <= 0:
            limit = "seconds"
        elif select.select([process.stdout], [], [], min(left, 1))[0]:
            block = os.read(process.stdout.fileno(), BLOCK)
            if not block:
                break
            output += block
            limit = "output" if len(output) > limits.output else ""
    status, used = end(process) if limit else ended(process, late)
    # (`unshare` does not pass on the signal that ended the command)
    limit = limit or ("cpu" if used > limits.cpu - 0.5 else "seconds" if time.monotonic() > late else "")
    return Ended(status, bytes(output[: limits.output]), limit)


def ended(process, late):
    """Waits for a command that has closed its output, and returns its status and its processor seconds."""
    while time.monotonic() < late:
        if os.waitid(os.P_PID, process.pid, os.WEXITED | os.WNOWAIT | os.WNOHANG):
            break
        time.sleep(0.01)
    return end(process)


def isolation(folder):
    """Returns the strongest isolation in which Python runs here."""
    for is_nobody in (True, False) if os.geteuid() == 0 else (False,):
        for text, words in UNSHARED.items():
            user = "nobody" if is_nobody else "this user"
            found = Isolation(words, is_nobody, f"{text}; they run as {user}")
            with contextlib.suppress(OSError):
                if run([sys.executable, "-I", "-c", "print(1)"], folder, Limits(), found).output == b"1\n":
                    return found
    raise OSError(f"{sys.executable} does not run within the limits")
