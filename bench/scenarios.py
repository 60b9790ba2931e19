#!/usr/bin/env python3
"""Writes scenario files for timing into a folder.

For `plain`: `calls` with 4,000 calls, and `largest`, the largest legal file: 4,096 lines of 128 bytes, each with two
bytes of line end, of which 4,000 are lines after the headings.

For `replay`, each with 32 ticket and 32 stamp bits and a counter that each call adds 1 to: `lone-N` where process 0 of N
calls again and again and `go`es until it is idle, on 8 slots; `turns-N` where the N processes do so one after the other,
each by `wander`, so that no read is overlapped; `crowd-N` where all call at once and `wander`, with seeded flicks;
`failing-N` where two of such a crowd fail in each round, and call again in the next; `waiting` where process 0 of 2 reads
the ticket of the one that is inside, again and again; `overlapped` where a waiter reads a ticket whose lowest bit is being
written, with seeded flicks.

For `sweep`, of the same kind, with seeded flicks: `swept-1` where one process calls four times, `swept-2` where both of 2
processes call twice, `swept-4` where three of 4 call once and `wander`, and `swept-8` where three of 8 call once and make
their first 500 turns. `front-N` has the first 20 turns of `swept-N`.

For `record` and `judge`, of the same kind: `recorded-2` where both of 2 processes call at once and `wander`, with seeded flicks,
on 8 slots.

For `draw`, of the same kind, on 1 slot: `drawn-2` where process 0 of 2 calls again and again and goes until it is idle, and
`drawn-16` where in each round all of 16 call, go until they wait, and go until they are idle.

For `race`, with 16 ticket and 13 stamp bits and one slot: `race-N` where each of N processes adds 1 to a counter and reads it
by turns, 4,000 calls in all.
"""

import argparse
import pathlib


def call(k):
    """A call of one of two processes, on one of eight names."""
    name = "abcdefgh"[k % 8]
    commands = [f"write {name} c:{k}", f"add {name} 7", f"read {name}", f"cas {name} c:{k - 1} t:x{k}"]
    return f"call {k % 2} {commands[k % 4]}"


def calls():
    return "\n".join(["bakery 1", "slots 8"] + [call(k) for k in range(4000)]) + "\n"


def largest():
    filled = lambda line: " " * (128 - len(line)) + line + "\r\n"
    head = ["bakery 2", "processes 16", "tickets 32", "stamps 32", "slots 8"]
    opening = [f"open name_{k} c:-9223372036854775808" for k in range(8)]
    lines = ["call 1 cas name_7 c:-9223372036854775808 c:-922337203685477580%d" % (k % 9) for k in range(4000)]
    skipped = ["#"] * (4096 - len(head) - len(opening) - len(lines))
    return "".join(filled(line) for line in head + opening + lines + skipped)


def counting(processes, slots, lines):
    head = ["bakery 2", f"processes {processes}", "tickets 32", "stamps 32", f"slots {slots}", "open a c:0"]
    return "\n".join(head + lines + ["show"]) + "\n"


def lone(processes):
    """About 15 or 100 million events."""
    return counting(processes, 8, ["call 0 add a 1", "go 0 idle"] * 1500)


def turns(processes):
    """At most 30 million events."""
    return counting(processes, 1, [line for k in range(1500) for line in (f"call {k % processes} add a 1", "wander 100000")])


def crowd(processes):
    """Rounds in which each process calls once, and as many turns as such a round may want: a process inside makes some
    1,500 Steps for each process, and is picked for one Step in as many."""
    rounds = {2: 600, 4: 100, 8: 20, 16: 5}[processes]
    wanders = {2: 1, 4: 3, 8: 10, 16: 80}[processes]
    calls = [f"call {p} add a 1" for p in range(processes)]
    return counting(processes, 1, ["flick pcg 1"] + (calls + ["wander 100000"] * wanders) * rounds)


def recorded(processes):
    """About 10 million events."""
    calls = [f"call {p} add a 1" for p in range(processes)]
    return counting(processes, 8, ["flick pcg 1"] + (calls + ["wander 100000"]) * 520)


def failing(processes):
    """Rounds as those of a crowd. Two processes fail in each, wherever they are then, and are restarted once they are down."""
    rounds = {4: 60, 8: 20, 16: 5}[processes]
    wanders = {4: 3, 8: 10, 16: 80}[processes]
    calls = [f"call {p} add a 1" for p in range(processes)]
    fails = [line for p in (0, processes - 1) for line in (f"wander {700 * processes}", f"fail {p}")]
    restarts = [f"restart {p}" for p in (0, processes - 1)]
    return counting(processes, 1, ["flick pcg 1"] + (calls + fails + ["wander 100000"] * wanders + restarts) * rounds)


def waiting():
    """260 million events."""
    return counting(2, 1, ["call 1 add a 1", "go 1 inside", "call 0 add a 1", "go 0 wait"] + ["step 0 100000"] * 2600)


def overlapped():
    """100 million events. Process 0 has ticket 3, and by the third of the accesses that clear it, it has begun to write the
    lowest bit for process 1, which so reads 2 or 3: both are before its own, 4."""
    calls = ["call 0 ask", "go 0 inside", "call 1 ask", "go 1 wait", "go 0 idle", "call 0 ask", "go 0 wait", "go 1 idle"]
    clears = ["call 1 ask", "go 1 wait", "go 0 inside", "step 0 567"]
    return counting(2, 1, calls + clears + ["flick pcg 1"] + ["step 1 100000"] * 1000)


def swept(processes):
    """Some 4,000 events of one process, 11,000 of 2, 21,000 of 4 and 500 of 8. A sweep over them has twice as many runs."""
    callers, rounds, turns = {1: (1, 4, 100000), 2: (2, 2, 100000), 4: (3, 1, 100000), 8: (3, 1, 500)}[processes]
    calls = [f"call {p} add a 1" for p in range(callers)]
    return counting(processes, 1, ["flick pcg 1"] + (calls + [f"wander {turns}"]) * rounds)


def front(processes):
    """Some 20 events, so some 40 runs."""
    calls = [f"call {p} add a 1" for p in range({1: 1, 2: 2, 4: 3, 8: 3}[processes])]
    return counting(processes, 1, ["flick pcg 1"] + calls + ["wander 20"])


def drawn(processes):
    """Some 12,000 lines of one process, or 8,000 of 16 that wait for each other."""
    if processes == 2:
        return counting(processes, 1, ["call 0 add a 1", "go 0 idle"] * 1990)
    rounds = [line.format(p) for line in ["call {} add a 1", "go {} wait", "go {} idle"] for p in range(processes)]
    return counting(processes, 1, rounds * (3984 // len(rounds)))


def raced(processes):
    head = ["bakery 2", f"processes {processes}", "tickets 16", "stamps 13", "slots 1", "open a c:0"]
    calls = [f"call {p} {'read a' if k % 2 else 'add a 1'}" for k in range(4000 // processes) for p in range(processes)]
    return "\n".join(head + calls) + "\n"


def main():
    parser = argparse.ArgumentParser(description=__doc__, formatter_class=argparse.RawDescriptionHelpFormatter)
    parser.add_argument("folder", nargs="?", default=".", type=pathlib.Path, help="where the files go, this folder if not said")
    folder = parser.parse_args().folder
    folder.mkdir(parents=True, exist_ok=True)
    (folder / "calls").write_bytes(calls().encode())
    (folder / "largest").write_bytes(largest().encode())
    for name, scenario, sizes in [
        ("lone", lone, [2, 16]),
        ("turns", turns, [2, 8, 16]),
        ("crowd", crowd, [2, 4, 8, 16]),
        ("recorded", recorded, [2]),
        ("failing", failing, [4, 8, 16]),
        ("swept", swept, [1, 2, 4, 8]),
        ("front", front, [1, 2, 4, 8]),
        ("drawn", drawn, [2, 16]),
        ("race", raced, [2, 4, 8, 16]),
    ]:
        for processes in sizes:
            (folder / f"{name}-{processes}").write_bytes(scenario(processes).encode())
    for name, scenario in [("waiting", waiting), ("overlapped", overlapped)]:
        (folder / name).write_bytes(scenario().encode())


main()
