"""Reads what `flat` prints, and tells how often each equation can have an event."""

import re
from dataclasses import dataclass, replace

EQUATION = re.compile(r"^%(\d+) (?:(\S+) )?:= (.*)$")
ARGUMENT = re.compile(r"%(\d+)")
OUTPUT = re.compile(r"^out (\S+) %(\d+)$")

# How often an equation can have an event: never, at 0 alone, once at some time, or more often. Each of these includes those before it.
NEVER, AT_START, ONCE, OFTEN = range(4)
UPDATES = ("SetAdd", "SetRemove", "MapAdd", "MapRemove", "QueueAdd", "QueueTake")


@dataclass(frozen=True)
class Equation:
    number: int
    name: str
    operation: str
    arguments: tuple
    text: str  # the type of an input or of what is empty, the function of a lift
    part_of: str = ""  # of an equation without a name that of the definition or output that it is a part of


def parts_of(text):
    """The operation, the arguments, and what stands between. The function of a lift may have anything in texts, so arguments are read from the end."""
    operation, _, rest = text.partition(" ")
    arguments = []
    while found := re.search(r"(?:^| )%(\d+)$", rest):
        arguments.insert(0, int(found[1]))
        rest = rest[: found.start()]
    return operation, tuple(arguments), rest


def read(text):
    """The equations by number, and the outputs as pairs of a name and a number."""
    equations, outputs = {}, []
    # A literal text may have what other systems end lines with.
    for line in text.split("\n"):
        if found := EQUATION.match(line):
            number, name, rest = int(found[1]), found[2] or "", found[3]
            equations[number] = Equation(number, name, *parts_of(rest))
        elif found := OUTPUT.match(line):
            outputs.append((found[1], int(found[2])))
    return with_owners(equations), outputs


def with_owners(equations):
    """Says of each equation without a name which definition or output it is a part of: that of the nearest one that uses it."""
    owners, todo = {}, [it for it in equations.values() if it.name]
    for user in todo:
        for number in user.arguments:
            if number in equations and not equations[number].name and number not in owners:
                owners[number] = user.name or owners[user.number]
                todo.append(equations[number])
    return {number: replace(it, part_of=owners.get(number, "")) for number, it in equations.items()}


def either(a, b):
    """Where one of two has an event. Two that happen once can make two."""
    if NEVER in (a, b) or a == b == AT_START:
        return max(a, b)
    return OFTEN


def all_of(counts):
    """Where all of some have an event at one time."""
    return min(counts, default=AT_START)


def any_of(counts):
    total = NEVER
    for count in counts:
        total = either(total, count)
    return total


def last_of(value, trigger):
    """After the first event of the value, at the events of the trigger: never at 0."""
    if value == NEVER or trigger in (NEVER, AT_START):
        return NEVER
    return trigger


def is_timer(amount, trigger):
    """A delay that is meant to have its one event, as `delay(100, unit)`: nothing sets it anew."""
    return AT_START in (amount, trigger) and trigger != OFTEN


def delay_of(amount, trigger):
    """Each event takes one of the amount, and none is at 0. A timer counts as if it had more: that it has one is what was meant."""
    if NEVER in (amount, trigger):
        return NEVER
    return ONCE if amount != OFTEN and not is_timer(amount, trigger) else OFTEN


def count_of(equation, counts):
    operation, own = equation.operation, [counts.get(number, OFTEN) for number in equation.arguments]
    if operation == "Input":
        return OFTEN
    if operation == "Nil":
        return NEVER
    if operation in ("Unit", "Empty"):
        return AT_START
    if operation == "Last":
        return last_of(*own)
    if operation == "Delay":
        return delay_of(*own)
    if operation in ("Merge", "Any", "OptLift"):
        return any_of(own)
    return all_of(own)


def how_often(equations):
    """How often each equation can have an event: the least answer that agrees with all equations, found from below."""
    counts = dict.fromkeys(equations, NEVER)
    changed = True
    while changed:
        changed = False
        for number, equation in equations.items():
            count = max(counts[number], count_of(equation, counts))
            if count != counts[number]:
                counts[number], changed = count, True
    return counts
