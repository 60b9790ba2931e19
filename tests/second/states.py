"""A second reading of `state`: what is found by looking back over the first entries of a run's record.

What a process does next is told by the programs of `programs.py`; the rest is looked up in the entries. It shares nothing with the
program that it is held against.
"""

import functools

from second import programs
from second.calls import first_access, first_with
from second.judge import Judge, entry_of
from second.programs import Setup, image_of, pairs_in
from second.scenario_files import NAME, is_value
from second.store import SLOT, Store

FIELDS = ["choosing", "ticket", "commit", "stamp0", "stamp1", "image0", "image1"]
STAGES = {"call": "doorway", "wait": "waiting", "enter": "inside", "leave": "leaving", "answer": "idle", "fail": "settling"}
STAGES |= {"down": "down", "withdraw": "leaving", "restart": "idle"}


class State:
    """The entries so far, those of each process, and the moves of each bit."""

    def __init__(self, record, many):
        head = [line for line in record if not line[0].isdigit()]
        self.setup, self.lines = Setup(head), record[len(head) :][:many]
        self.entries = [entry_of(line) for line in self.lines]
        self.own = [[] for _ in range(self.setup.processes)]
        # the moves of each bit, and the bits of each register that were written
        self.of_bit, self.written = {}, {}
        for number, (process, access, marks) in enumerate(self.entries):
            self.own[process].append((number, access, marks))
            if access:
                self.of_bit.setdefault(access[:4], []).append((number, process, access[4]))
                if access[4].startswith("write"):
                    self.written.setdefault(access[:2], set()).add(access[:4])

    def stage(self, process):
        has_left = False
        for _, _, marks in reversed(self.own[process]):
            for mark in reversed(marks):
                word = mark.split(" ")[0]
                has_left = has_left or word == "leave"
                if word in STAGES and word != "leave":
                    return "leaving" if has_left and STAGES[word] == "inside" else STAGES[word]
        return "idle"

    def its_call(self, process):
        """The number of its last call, the entry with which that began, and its own entries since; none, if that call has ended."""
        own = self.own[process]
        calls = [at for at, (_, _, marks) in enumerate(own) if marks and marks[0].startswith("call")]
        its = own[calls[-1] + 1 :] if calls else []
        has_ended = not calls or first_with(its, "answer") or first_with(its, "down")
        return len(calls), None if has_ended else own[calls[-1]], its

    @functools.cached_property
    def aheads(self):
        """What is ahead, twice, because a program is told one value of its next access only; the second time is seldom needed."""
        return [functools.cache(self.ahead) for _ in range(2)]

    def ahead(self):
        """Of each process the access that it makes next, and what it or its unit writes or reads then; and the judge that knows."""
        busy, heard = {}, Judge(self.setup)
        plain_written, plain_read = programs.written, programs.read

        def written(setup, process, field, value, *rest, **more):
            busy[process] = ("writes", value)
            return (yield from plain_written(setup, process, field, value, *rest, **more))

        def read(setup, process, owner, field, *rest, **more):
            busy[process] = ("reads", None)
            return (yield from plain_read(setup, process, owner, field, *rest, **more))

        programs.written, programs.read = written, read
        try:
            for number, (process, access, marks) in enumerate(self.entries):
                seat = heard.seats[process]
                if marks and marks[0] == "fail":
                    busy[process] = ("settles", None)
                if access:
                    is_open = seat.steps.wanted()[4].endswith("None")
                    seat.steps.marks(int(access[4][-1]) if is_open else None)
                heard.note(number, process, access, marks)
            wanted = [seat.steps.wanted() if seat.stage not in ("idle", "down") else None for seat in heard.seats]
        finally:
            programs.written, programs.read = plain_written, plain_read
        return heard, wanted, busy

    # Bits and registers.

    def bit(self, bit):
        """The value of a bit, and the write that is open on it, if one is."""
        value, writing = self.setup.opens(*bit[:3]), None
        for _, _, move in self.of_bit.get(bit, []):
            word, *told = move.split(" ")
            if word == "write":
                writing = int(told[0])
            elif word in ("end", "settle"):
                value, writing = writing if word == "end" else int(told[0]), None
        return value, writing

    def shown(self, field, number):
        return str(number) if not field.startswith("image") else self.store_text(number)

    def store_text(self, number):
        """The store whose image this is, if it is one."""
        image, end = number.to_bytes(self.setup.image_bits // 8, "little"), SLOT * self.setup.slots
        numbers = [int.from_bytes(image[at : at + 2], "big") for at in range(end, len(image), 2)]
        try:
            pairs = list(pairs_in(image[at : at + SLOT] for at in range(0, end, SLOT)))
            store = Store(self.setup.slots, pairs, numbers)
            are_pairs = all(NAME.fullmatch(name.encode("latin1")) and is_value(value.encode("latin1")) for name, value in pairs)
            is_image = are_pairs and image_of(store) == number and len(store.pairs) == len(pairs)
        except (ValueError, OverflowError):
            is_image = False
        return shown_store(store) if is_image else "no-image"

    def copies(self, owner, field, opening):
        """Of each reader of a register the number that its copies hold, and whether a write of one of them is open."""
        numbers, flickers = [opening] * self.setup.processes, [False] * self.setup.processes
        for bit in self.written[owner, field]:
            _, _, at, reader = bit
            value, writing = self.bit(bit)
            numbers[reader] = numbers[reader] & ~(1 << at) | value << at
            flickers[reader] = flickers[reader] or writing is not None
        return zip(numbers, flickers)

    def register_lines(self):
        for owner in range(self.setup.processes):
            # (a register that was not written holds what it opened with, and is not shown)
            for field in (field for field in FIELDS if (owner, field) in self.written):
                opening = self.setup.opening_image if (owner, field) == (0, "image0") else 0
                texts, is_shown = {}, False
                for reader, (number, flickers) in enumerate(self.copies(owner, field, opening)):
                    is_shown = is_shown or flickers or number != opening
                    texts.setdefault("flickers" if flickers else self.shown(field, number), []).append(str(reader))
                if is_shown and len(texts) == 1:
                    yield f"register {owner}.{field} {next(iter(texts))}"
                elif is_shown:
                    yield from (f"register {owner}.{field} readers {' '.join(of)} {text}" for text, of in texts.items())

    # Processes.

    def process_lines(self, process):
        """What is told of a process that runs or whose unit settles."""
        heard, wanted, busy = self.aheads[0]()
        stage = self.stage(process)
        number, call, its = self.its_call(process)
        yield stage
        if call:
            yield f"call {number} {call[2][0].removeprefix('call ')} at {call[0]}"
            yield from call_lines(its)
        failed = next((at for at, _, marks in reversed(self.own[process]) if "fail" in marks), None)
        if stage == "settling":
            yield f"failed at {failed}"
        yield from self.ticket_lines(process, stage, its, busy, wanted)
        yield from self.busy_lines(process, stage, wanted[process], busy.get(process), failed)
        yield from self.open_lines(process)
        flicks = (0, 1) if heard.has_flick(wanted[process]) else (0,)
        texts = [self.next_text(process, flick, self.aheads[flick]()) for flick in flicks]
        yield from (f"next {text}" for text in dict.fromkeys(texts))

    def numbers_read(self, its):
        """The numbers read in a call, each with its register, and whether its read has ended."""
        numbers = []
        for _, access, _ in its:
            if access and access[4].startswith("value"):
                owner, field, bit, _, move = access
                if bit == 0:
                    numbers.append([owner, field, 0, False])
                numbers[-1][2] |= int(move[-1]) << bit
                numbers[-1][3] = bit == self.setup.width(field) - 1
        return numbers

    def ticket_lines(self, process, stage, its, busy, wanted):
        numbers = [number for number in self.numbers_read(its) if number[3]]
        wait = first_with(its, "wait")
        if stage == "doorway":
            own = [a for _, a, _ in its if a and a[:2] == (process, "ticket") and a[3] == 0 and a[4].startswith("write")]
            raised = any(a and a[:2] == (process, "choosing") for _, a, _ in its) and wanted[process][:2] != (process, "choosing")
            if wanted[process][:2] == (process, "ticket"):
                yield f"ticket {busy[process][1]}"
            elif own:
                yield f"ticket {sum(int(a[4][-1]) << a[2] for a in own)}"
            elif raised or numbers:
                yield f"ticket above {max((number[2] for number in numbers), default=0)}"
        elif stage in ("waiting", "inside"):
            yield f"ticket {wait[1][1]}"
        after = [number for number in self.numbers_read([one for one in its if wait and one[0] > wait[0]]) if number[3]]
        if stage == "waiting" and after:
            owner, field, number, _ = after[-1]
            if field == "choosing" and number == 1:
                yield f"waits for {owner} choosing"
            if field == "ticket" and 0 < number and (number, owner) < (int(wait[1][1]), process):
                yield f"waits for {owner} ticket {number}"

    def busy_lines(self, process, stage, wanted, busy, failed):
        (owner, field, bit, reader, move), (kind, value) = wanted, busy
        readers, width = self.setup.processes, self.setup.width(field)
        if kind == "writes":
            made = (bit * readers + reader) * 2 + (move == "end")
            yield f"writes {owner}.{field} {made} of {width * readers * 2} value {self.shown(field, value)}"
        elif kind == "reads":
            made, so_far = bit * 2 + move.startswith("value"), 0
            for _, access, _ in reversed(self.own[process]):
                if access and access[:2] == (owner, field) and access[4].startswith("value") and access[2] < bit:
                    so_far |= int(access[4][-1]) << access[2]
                    if access[2] == 0:
                        break
            told = f" so far {so_far}" if bit > 0 and not field.startswith("image") else ""
            yield f"reads {owner}.{field} {made} of {width * 2}{told}"
        else:
            made = [access[4] for at, access, _ in self.own[process] if access and at > failed]
            begun = next(a for at, a, _ in reversed(self.own[process]) if a and at < failed)
            write = next(a for at, a, _ in reversed(self.own[process]) if a and at < failed and a[4].startswith("write"))
            chosen = f" value {made[0][-1]}" if made else ""
            yield f"settles {owner}.{field} {len(made)} of {2 * readers - begun[4].startswith('write')}{chosen}"
            yield f"torn {owner}.{field}.{bit} write {write[4][-1]}"

    def open_lines(self, process):
        dropped = failed = False
        for at, access, marks in reversed(self.own[process]):
            dropped, failed = dropped or "withdraw" in marks, failed or "fail" in marks
            if access:
                owner, field, bit, reader, move = access
                if move.startswith("write"):
                    yield f"open {owner}.{field}.{bit}.{reader} {move}"
                elif move == "read" and not dropped and not failed:
                    yield f"open {owner}.{field}.{bit}.{reader} read{' overlapped' if self.is_met(access[:4], at) else ''}"
                return

    def is_met(self, bit, begin):
        """Whether a write has overlapped the read that began with this entry."""
        writing = None
        for number, _, move in self.of_bit[bit]:
            if move.startswith("write"):
                if number > begin:
                    return True
                writing = True
            elif number < begin and move.split(" ")[0] in ("end", "settle"):
                writing = None
            if number == begin and writing:
                return True
        return False

    def next_text(self, process, flick, ahead):
        heard, wanted, _ = ahead
        *place, move = wanted[process]
        value = None
        if move.endswith("None"):
            known = heard.bit((*place, move)).read_now() if move.startswith("value") else None
            value = flick if known is None else known
            move = move.replace("None", str(value))
        marks = [mark.replace("?", str(heard.taken)) for mark in heard.seats[process].steps.marks(value)]
        return " : ".join([f"{'.'.join(map(str, place))} {move}", *marks])

    def all_lines(self):
        for process in range(self.setup.processes):
            stage, (number, _, _) = self.stage(process), self.its_call(process)
            if stage in ("idle", "down"):
                yield f"process {process} {stage}{f' calls {number}' if number else ''}"
            else:
                yield from (f"process {process} {line}" for line in self.process_lines(process))
        yield from self.register_lines()
        heard, *_ = self.aheads[0]()
        yield f"history {heard.taken}"
        yield f"store {shown_store(heard.store)}"


def shown_store(store):
    """A store's pairs, and its numbers, unless all are 0."""
    pairs = " ".join(f"{name}={value}" for name, value in store.pairs.items()) or "empty"
    return f"{pairs} numbers {' '.join(map(str, store.numbers))}" if any(store.numbers) else pairs


def call_lines(its):
    """What is told of a call by its marks and by the first access that the process makes itself."""
    doorway = first_access(its)
    ends = {word: found[0] if (found := first_with(its, word)) else None for word in ("wait", "enter", "leave", "withdraw")}
    to = lambda at: "" if at is None else f" to {at}"
    if doorway is not None:
        yield f"doorway from {doorway}{to(ends['wait'])}"
    if ends["enter"] is not None:
        yield f"inside from {ends['enter']}{to(ends['leave'])}"
    if taken := first_with(its, "taken"):
        yield f"taken {' '.join(taken[1][1:])} at {taken[0]}"
    if ends["withdraw"] is not None:
        yield f"withdrew at {ends['withdraw']}"


def state_text(run, numbers, at):
    """What `state --at` writes of a run, of whose scenario's lines these are the numbers in the file; `at` is a number, or None for the
    end."""
    events = run.events if at is None else min(at, run.events)
    state = State(run.record, events)
    head = [f"events {events}"]
    if events:
        index = run.made_by[events - 1]
        made, words = run.made_by[:events].count(index), run.scenario.lines[index]
        head += [f"last {state.lines[-1]}", f"line {numbers[index]} made {made} {' '.join(words)}"]
    return "".join(f"{line}\n" for line in [*head, *state.all_lines()]).encode()
