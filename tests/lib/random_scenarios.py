"""Scenario files that are made up from numbers: the same number gives the same file."""

import random

NAMES = ["a", "a", "b", "longest8"]
VALUES = ["c:0", "c:1", "c:-9223372036854775808", "c:9223372036854775807", "t:", 't:<&">', "t:&amp;<b>", "t:longest_of12"]
TARGETS = ["wait", "inside", "inside", "idle", "idle", "idle", "down"]
FLICKS = ["0", "1", "pcg 3", "pcg 77"]


def command(draws, version):
    name, value, other = draws.choice(NAMES), draws.choice(VALUES), draws.choice(VALUES)
    commands = [f"read {name}", f"write {name} {value}", f"write {name} c:1", f"add {name} {draws.randint(-2, 3)}"]
    commands += [f"cas {name} {value} {other}", f"cas {name} c:1 {other}"]
    return draws.choice(commands if version == 1 else [*commands, "ask"])


def line(draws, version, process):
    kind = draws.choices(
        ["call", "go", "step", "wander", "flick", "fail", "withdraw", "restart", "show"],
        [9, 6, 6, 3, 1, 2, 2, 2, 2],
    )[0]
    rest = {
        "call": f"{process} {command(draws, version)}",
        "go": f"{process} {draws.choice(TARGETS)}",
        "step": f"{process} {draws.choice([1, 5, 30, 300, 2000])}",
        "wander": f"{draws.choice([50, 500, 5000])}",
        "flick": draws.choice(FLICKS),
        "show": "",
    }.get(kind, str(process))
    return f"{kind} {rest}".strip()


def scenario(number):
    """The text of the file of this number: a setup of either version, with calls, steps, failures and refusals."""
    draws = random.Random(number)
    version = draws.randint(1, 2)
    most_processes, most_bits = (8, 16) if version == 1 else (16, 32)
    processes = draws.choice([1, 2, 2, 3, 4, draws.randint(5, most_processes)])
    tickets, stamps = (draws.choice([1, 2, 3, 4, draws.randint(1, most_bits)]) for _ in range(2))
    slots = draws.randint(1, 4)
    heads = [f"bakery {version}", f"processes {processes}", f"tickets {tickets}", f"stamps {stamps}", f"slots {slots}"]
    names = draws.sample(sorted(set(NAMES)), min(slots, draws.randint(0, 3))) if version == 2 else []
    lines = [*heads, *(f"open {name} {draws.choice(VALUES)}" for name in names)]
    for _ in range(draws.randint(3, 40)):
        # now and then a process that is not there
        process = draws.randint(0, 255) if draws.random() < 0.03 else draws.randrange(processes)
        lines.append(line(draws, version, process))
    return "\n".join(lines) + "\n"


def short_line(draws, version, process):
    """A line that makes few events."""
    kind = draws.choices(["call", "go", "step", "wander", "flick", "fail", "withdraw", "restart"], [8, 1, 8, 4, 1, 2, 1, 2])[0]
    rest = {
        "call": f"{process} {command(draws, version)}",
        "go": f"{process} wait",
        "step": f"{process} {draws.randint(1, 12)}",
        "wander": f"{draws.randint(1, 15)}",
        "flick": draws.choice(FLICKS),
    }.get(kind, str(process))
    return f"{kind} {rest}"


def short_scenario(number):
    """The text of the short file of this number: few processes and bits, and lines that make few events."""
    draws = random.Random(number)
    version, processes = draws.randint(1, 2), draws.choice([1, 1, 2, 2, 3])
    heads = [f"bakery {version}", f"processes {processes}", f"tickets {draws.randint(1, 2)}", f"stamps {draws.randint(1, 2)}"]
    heads += [f"open {draws.choice(NAMES)} {draws.choice(VALUES)}"] if version == 2 and draws.random() < 0.5 else []
    lines = [f"call {draws.randrange(processes)} {command(draws, version)}"]
    lines += [short_line(draws, version, draws.randrange(processes + (draws.random() < 0.03))) for _ in range(draws.randint(1, 6))]
    return "\n".join([*heads, *lines]) + "\n"
