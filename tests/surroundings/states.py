"""States with random changes, which no run wrote: each is refused by the text that it has to be refused by, or runs on to a named end."""

import collections
import os
import random
import re
import shutil
import struct

from codes import TRACES, random_cases, written
from due import EACH_INSTANT
from plain_code import refusal_of as code_refusal_of
from plain_runs import run_of
from plain_states import MARK, refusal_of
from starts import MESSAGES, NO_MEMORY

# So many states are changed for each mutation that is asked for.
FOR_ONE = 2
# So many random specifications are taken beside those that are named.
RANDOM = 12
NUMBERS = [0, 1, 2, 3, 4, 5, 7, 9, 255, 65536, 65537, 10**12, 10**12 + 1, 1 << 40, (1 << 40) + 1, (1 << 63) - 1, 1 << 63, (1 << 64) - 1]
# What the run goes on with: the rest of the trace or not, and a last line of a later time or not.
LATER = b"\n200:\n"


def known_states(room, seed):
    """States with their code, and what comes after: of each trace at a few places."""
    # One that sets itself again for ever would run until a time that a changed state may set far away.
    sources = [(source.encode(), trace) for source, trace in TRACES.items() if source is not EACH_INSTANT]
    sources += [it for it, _ in zip(((source, trace) for source, trace in random_cases(seed) if b"tick" not in source), range(RANDOM))]
    found = []
    for source, trace in sources:
        data = written(room, source)
        if not data:
            continue
        code = code_refusal_of(data)[1]
        for place in {0, len(trace) // 2, 2 * len(trace) // 3, len(trace)}:
            folder = room.place({"s.tsl": source, "t": trace[:place]})
            ended = room.start(["run", "s.tsl", "t", "--save", "state"], folder)
            if ended.status == 0:
                with open(os.path.join(folder, "state"), "rb") as file:
                    found.append((file.read(), source, code, trace[:place], trace[place:]))
            shutil.rmtree(folder)
    return found


def fields_of(data):
    """Where the fields behind the text of the program begin."""
    return len(MARK) + 8 + struct.unpack(">Q", data[len(MARK) : len(MARK) + 8])[0] if len(data) >= len(MARK) + 8 else 0


def changed(dice, data, others):
    """The bytes of a state with a change or a few, most of them behind the text of the program."""
    for _ in range(dice.choice([1, 1, 1, 1, 2, 3])):
        first = min(fields_of(data), len(data) - 1) if dice.random() < 0.9 else 0
        at, way = dice.randrange(first, len(data)), dice.randrange(12)
        if way in (0, 1):
            data = data[:at] + bytes([data[at] ^ 1 << dice.randrange(8)]) + data[at + 1 :]
        elif way in (2, 3):
            data = data[:at] + bytes([dice.choice([0, 1, 2, 3, 4, 5, 6, 8, 10, 127, 255])]) + data[at + 1 :]
        elif way in (4, 5, 6):
            data = data[:at] + struct.pack(">Q", dice.choice(NUMBERS)) + data[at + 8 :]
        elif way == 7:
            data = data[:at] or data[:1]
        elif way == 8:
            data = data[:at] + data[at + dice.choice([1, 8]) :] or data[:1]
        elif way == 9:
            data = data[: at + 8] + data[at:]
        else:
            other = dice.choice(others)
            data = data[:at] + other[min(at, len(other) - 1) :]
    return data


def is_right(ended, wanted, known, more):
    """Whether a start on some state ended as it has to: refused by this text, or as worked out where it is a state of known bytes."""
    if wanted:
        return ended.is_as(b"", 8, f"{wanted}\n".encode())
    if known is None:
        return ended.status in (0, 1, 4, 7) and re.fullmatch(MESSAGES[ended.status], ended.err) is not None
    code, earlier = known
    whole, before = run_of(code, earlier + more), run_of(code, earlier, ended=False)
    return ended.is_as(whole.out[len(before.out) :], whole.status, whole.message)


UNITS = """in u: Events[Unit]
def q: Events[Queue[Unit]] := merge(Queue.enqueue(last(q, u), u), Queue.empty[Unit])
out Queue.size(q) as n
"""


def many_units(room, check):
    """A queue of units has its number alone in a state. One of more than there is memory for ends with that."""
    folder = room.place({"s.tsl": UNITS.encode(), "t": b"1: u\n2: u\n3:\n"})
    saved = room.start(["run", "s.tsl", "t", "--save", "state"], folder)
    check.judge(saved.is_as(b"0: n = 0\n1: n = 1\n2: n = 2\n", 0, b""), saved, "a queue of units")
    with open(os.path.join(folder, "state"), "rb") as file:
        before, size, behind = file.read().rpartition(struct.pack(">Q", 2))
    for count, wanted in ((2, (b"3: n = 3\n", 0, b"")), (1 << 63, (b"", 6, NO_MEMORY))):
        place = room.place({"s.tsl": UNITS.encode(), "t": b"3: u\n", "state": before + struct.pack(">Q", count) + behind if size else b""})
        ended = room.start(["run", "s.tsl", "t", "--resume", "state"], place, before=["sh", "-c", 'ulimit -v 300000 && exec "$@"', "sh"])
        check.judge(ended.is_as(*wanted), ended, f"a queue of {count} units in a state")


def states(room, check, cases, words):
    known = known_states(room, words.seed)
    kinds = collections.Counter()

    def trial(number):
        dice = random.Random(f"{words.seed} state {number}")
        whole, source, code, earlier, rest = dice.choice(known)
        data = changed(dice, whole, [it[0] for it in known]) if dice.random() < 0.98 else whole
        wanted, _ = refusal_of(data, code)
        more = dice.choice([rest, rest, b""]) + dice.choice([b"", LATER])
        folder = room.place({"s.tsl": source, "state": data, "t": more})
        ended = room.start(["run", "s.tsl", "t", "--resume", "state"], folder)
        kinds[wanted or ended.label()] += 1
        judged = is_right(ended, wanted, (code, earlier) if data == whole else None, more)
        check.judge(judged, ended, f"mutated state {number}, wanted {wanted or 'a run'}", source=source, state=data, trace=more)
        shutil.rmtree(folder)

    many_units(room, check)
    if not known:
        check.deviates("there is no state")
    list(room.pool.map(trial, range(FOR_ONE * words.mutations if known else 0)))
    check.notes.append(", ".join(f"{kind}: {count}" for kind, count in kinds.most_common()))
