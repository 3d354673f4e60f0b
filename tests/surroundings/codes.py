"""Code files with random changes, which no compiler made: each is refused by the text that it has to be refused by, or runs as its equations mean."""

import collections
import os
import random
import re
import shutil
import struct

from due import BEATS, DIVIDED, EACH_INSTANT, ECHO, HEARTBEATS, LAST_TWO, SEEN, WAITING, WORDS_SEEN
from plain_code import needs, numbers_bytes, refusal_of, running, updates_of, with_plan
from plain_plans import is_fine
from plain_runs import SOLVED, Limits, run_of
from starts import MESSAGES

NOT_FINE = "code: plan not fine"
# What a run that is compared may do at most, and how long the last values and delays go on at its end.
INSTANTS, UNTIL = 40, 70
# So many random specifications with two or more updates are taken beside those that are named here.
RANDOM = 16
# So many codes are changed for each mutation that is asked for.
FOR_ONE = 10

TRACES = {
    HEARTBEATS: BEATS,
    SEEN: b"1: i = 5\n2: i = 7\n3: i = 5\n",
    WORDS_SEEN: b'1: t = "a"\n2: t = "b"\n3: t = "a"\n4: t = ""\n',
    WAITING: b'1: t = "a"\n2: t = "b"\n3: r\n4: r\n5: r\n6: t = "c"\n7: r\n',
    LAST_TWO: b"1: i = 1\n2: i = 2\n2: x = 0\n3: i = 3\n4: i = 4\n5: x = 0\n",
    DIVIDED: b"1: i = 1\n3: i = 0\n4: i = 1\n",
    EACH_INSTANT: b"9:\n",
    ECHO: b'0: n = -5\n1: b = true\n1: t = "x"\n2: u\n3: n = 9223372036854775807\n3: b = false\n',
}


# ---- Changes


def changed_numbers(dice, data):
    """Other numbers of four bytes in the place of some: those of names, arguments, counts and steps are found so now and then."""
    at = dice.randrange(8, max(9, len(data) - 3))
    return data[:at] + struct.pack(">I", dice.choice([0, 1, 2, 3, 5, 8, 255, 256, 1 << 31, (1 << 32) - 1])) + data[at + 4 :]


def changed_plan(dice, data, code):
    """Another set of updates, and often another order that has each step after those that it needs."""
    updates = updates_of(code)
    in_place = sorted(dice.sample(updates, dice.randint(0, len(updates))))
    steps = list(code.steps)
    if dice.random() < 0.6:
        steps = some_order(dice, code)
    elif dice.random() < 0.2:
        dice.shuffle(steps)
    elif dice.random() < 0.2:
        steps[dice.randrange(len(steps))] = dice.choice(steps)
    return with_plan(data, code, in_place, steps)


def some_order(dice, code):
    count = len(code.equations)
    left = {number: set(needs(code.equations[number])) for number in running(code)}
    left.update({count + place: {number} for place, (_, number) in enumerate(code.outputs)})
    steps = []
    while left:
        step = dice.choice([it for it, before in left.items() if not before & left.keys()])
        steps.append(step)
        del left[step]
    return steps


def swapped_arguments(dice, data, code):
    """An argument of an equation in the place of one of another, where both stand in the bytes as a list of arguments."""
    lists = [numbers_bytes(one.args) for one in code.equations if one.args] or [b""]
    before, after = dice.choice(lists), dice.choice(lists)
    at = [found.start() for found in re.finditer(re.escape(before), data)]
    return data if not at else data[: at[-1]] + after + data[at[-1] + len(before) :]


def changed(dice, data, code, others):
    """The bytes of some code with a change or a few."""
    for _ in range(dice.choice([1, 1, 1, 1, 2, 3])):
        at, way = dice.randrange(len(data)), dice.randrange(15)
        if way in (0, 1):
            data = data[:at] + bytes([data[at] ^ 1 << dice.randrange(8)]) + data[at + 1 :]
        elif way in (2, 3):
            data = data[:at] + bytes([dice.choice([0, 1, 2, 3, 4, 5, 6, 8, 9, 16, 17, 18, 127, 255])]) + data[at + 1 :]
        elif way == 4:
            data = data[:at] or data[:1]
        elif way == 5:
            data = data[:at] + data[at + dice.choice([1, 4]) :] or data[:1]
        elif way == 6:
            data = data[: at + 4] + data[at:]
        elif way == 7:
            data = changed_numbers(dice, data)
        elif way == 8:
            other = dice.choice(others)
            data = data[:at] + other[min(at, len(other) - 1) :]
        elif way == 9:
            data = swapped_arguments(dice, data, code)
        else:
            data = changed_plan(dice, data, code) if refusal_of(data)[0] in ("", NOT_FINE) else data
    return data


# ---- The check


def written(room, source):
    """The bytes of the code of a specification, or none where it is refused."""
    folder = room.place({"s.tsl": source})
    ended = room.start(["compile", "s.tsl", "c"], folder)
    if ended.status == 3:
        return b""
    with open(os.path.join(folder, "c"), "rb") as file:
        return file.read()


def random_cases(seed):
    """Specifications of many sets, maps and queues, as tests/solved makes them, each with a trace."""
    maker = SOLVED.compare()
    for number in range(4 * RANDOM):
        dice = random.Random(f"{seed} known {number}")
        specification = maker.Specification(dice, aggregates=True, lines=12)
        yield specification.source().encode(), specification.trace().encode()


def known_codes(room, seed):
    """The bytes of the code of some specifications, each with its code and its trace."""
    known = [(written(room, source.encode()), trace) for source, trace in TRACES.items()]
    for source, trace in random_cases(seed):
        data = written(room, source) if len(known) < len(TRACES) + RANDOM else b""
        if data and len(updates_of(refusal_of(data)[1])) > 1:
            known.append((data, trace))
    return [(data, refusal_of(data)[1], trace) for data, trace in known]


def wanted_ends(data, trace):
    """How a start on these bytes may end: with the text that refuses them, or as their equations mean it. Where it is not known whether the plan is fine,
    both are possible."""
    refused, code = refusal_of(data)
    fine = None if refused else is_fine(code)
    not_fine = (b"", 9, f"{refused or NOT_FINE}\n".encode())
    if refused or fine is False:
        return [not_fine]
    ran = run_of(code, trace, Limits(instants=INSTANTS, until=UNTIL))
    return [(ran.out, ran.status, ran.message), *([] if fine else [not_fine])]


def codes(room, check, cases, words):
    known = known_codes(room, words.seed)
    kinds = collections.Counter()

    def trial(number):
        dice = random.Random(f"{words.seed} code {number}")
        whole, code, trace = dice.choice(known)
        data = changed(dice, whole, code, [it for it, _, _ in known])
        wanted = wanted_ends(data, trace)
        folder = room.place({"c": data, "t": trace})
        ended = room.start(["exec", "c", "t", "--instants", str(INSTANTS), "--until", str(UNTIL)], folder)
        kinds["not known"] += len(wanted) > 1
        is_right = any(ended.is_as(*it) for it in wanted) and re.fullmatch(MESSAGES[ended.status], ended.err) is not None
        kinds[re.sub(rb"[0-9]+", b"N", ended.err.strip()).decode() if ended.status == 9 else ended.label()] += 1
        check.judge(is_right, ended, f"mutated code {number}, wanted {' or '.join(map(str, wanted))}", code=data, trace=trace)
        shutil.rmtree(folder)

    list(room.pool.map(trial, range(FOR_ONE * words.mutations)))
    check.notes.append(", ".join(f"{kind}: {count}" for kind, count in kinds.most_common()))
