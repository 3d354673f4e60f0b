"""Facts, and their text: a line of a derivation has a fact, and the numbers of those that it follows from."""

import re
from dataclasses import dataclass
from typing import Optional

from .equations import NATURAL, Equation
from .failures import Wrong, needs
from .values import GREATEST


@dataclass(frozen=True)
class Event:
    """The equation has an event at a time, whose value is printed so."""

    equation: Equation
    time: int
    text: str


@dataclass(frozen=True)
class Silent:
    """The equation has none from one time to another."""

    equation: Equation
    first: int
    last: int


@dataclass(frozen=True)
class Gap:
    """No equation of the slice has one."""

    first: int
    last: int


@dataclass(frozen=True)
class Pending:
    """A delay is due then, by what happened up to a time."""

    equation: Equation
    time: int
    due: Optional[int]


NAMED = re.compile(rf"(?: #{NATURAL})+")
GAP = re.compile(rf"gap ({NATURAL}) to ({NATURAL})")
SUBJECT = re.compile(rf"%({NATURAL}) (.*)", re.DOTALL)
EVENT = re.compile(rf"at ({NATURAL}) = (.+)", re.DOTALL)
SILENT = re.compile(rf"silent ({NATURAL}) to ({NATURAL})")
PENDING = re.compile(rf"pending after ({NATURAL}): (none|{NATURAL})")


def time_of(digits):
    if int(digits) > GREATEST:
        raise Wrong(f"{digits} is no time: the greatest is {GREATEST}")
    return int(digits)


def fact_of(text, system):
    if found := GAP.fullmatch(text):
        return Gap(time_of(found[1]), time_of(found[2]))
    found = SUBJECT.fullmatch(text)
    if not found:
        raise Wrong("it is not written as a fact is")
    equation, rest = system.equations.get(int(found[1])), found[2]
    if equation is None:
        raise Wrong(f"there is no equation %{found[1]}")
    if equation.name:
        if not rest.startswith(equation.name + " "):
            raise Wrong(f"the equation %{equation.number} is called {equation.name}")
        rest = rest[len(equation.name) + 1 :]
    if found := EVENT.fullmatch(rest):
        return Event(equation, time_of(found[1]), found[2])
    if found := SILENT.fullmatch(rest):
        return Silent(equation, time_of(found[1]), time_of(found[2]))
    if found := PENDING.fullmatch(rest):
        return Pending(equation, time_of(found[1]), None if found[2] == "none" else time_of(found[2]))
    raise Wrong("it is not written as a fact is")


def step_of(line, number, system):
    """The fact of a line, and the numbers of the facts that it names."""
    mark = f"#{number} "
    if not line.startswith(mark):
        raise Wrong(f"its line does not begin with `{mark}`")
    text, by, names = line[len(mark) :].rpartition(" by")
    if by and NAMED.fullmatch(names):
        return fact_of(text, system), [int(word[1:]) for word in names.split()]
    return fact_of(line[len(mark) :], system), []
