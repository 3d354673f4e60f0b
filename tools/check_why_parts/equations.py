"""The equations of a specification, as `flat` prints them."""

import re
from dataclasses import dataclass

from .failures import Trouble
from .values import QUOTED, scalar_of

# The most parts of a function of a lift.
MOST_PARTS = 1024
UPDATES = {"SetAdd": 2, "SetRemove": 2, "MapAdd": 3, "MapRemove": 2, "QueueAdd": 2, "QueueTake": 1}
# The operations with so many arguments. Any, Lift and OptLift have one to eight.
COUNTS = {"Input": 0, "Nil": 0, "Unit": 0, "Empty": 0, "Time": 1, "Last": 2, "Delay": 2, "Merge": 2, "Filter": 2, "Pick": 3, **UPDATES}
TYPED = ("Input", "Nil", "Empty")
LIFTS = ("Lift", "OptLift")
OF_ALL = ("Filter", "Pick", "Lift", *UPDATES)  # an event where all arguments have one
OF_ANY = ("Any", "Merge", "OptLift")  # none where no argument has one
NATURAL = r"(?:0|[1-9][0-9]{0,18})"
EQUATION = re.compile(rf"%({NATURAL}) (?:([^ ]+) )?:= ([A-Za-z]+)(.*)", re.DOTALL)
OUTPUT = re.compile(rf"out ([^ ]+) %({NATURAL})")
PART = re.compile(rf"\$([0-9]{{1,3}})|([a-z]+)\(|none|true|false|\(\)|-?[0-9]{{1,19}}|{QUOTED}")
AFTER_PART = re.compile(r", |\)")


@dataclass(frozen=True, eq=False)
class Equation:
    number: int
    name: str  # "" where it has none
    operation: str
    kind: str  # the type of an input or of an empty set, map or queue, else ""
    body: object  # the function of a lift, else None
    arguments: tuple

    def __str__(self):
        return f"%{self.number} {self.name}" if self.name else f"%{self.number}"


class Bodies:
    """Reads the function of a lift from a text."""

    def __init__(self, text):
        self.text, self.at, self.parts = text, 0, 0

    def take(self, pattern):
        found = pattern.match(self.text, self.at)
        if not found:
            raise Trouble("the function of a lift is not as `flat` prints it")
        self.at = found.end()
        return found

    def body(self):
        self.parts += 1
        if self.parts > MOST_PARTS:
            raise Trouble(f"the function of a lift has more than {MOST_PARTS} parts")
        found = self.take(PART)
        if found[1]:
            return int(found[1])
        if found[2]:
            return found[2], self.rest()
        if found[0] == "none":
            return "none", []
        kind = {"t": "Bool", "f": "Bool", "(": "Unit", '"': "String"}.get(found[0][0], "Int")
        value = scalar_of(kind, found[0])
        if value is None:
            raise Trouble(f"{found[0]} is no literal")
        return (value,)

    def rest(self):
        """The parts of an operation, up to its parenthesis."""
        parts = [self.body()]
        while self.take(AFTER_PART)[0] == ", ":
            parts.append(self.body())
        return parts


def equation_of(line):
    found = EQUATION.fullmatch(line)
    if not found:
        raise Trouble(f"`{line}` is no line of `flat`")
    number, name, operation, rest = found.groups()
    kind, body = "", None
    if operation in TYPED:
        kind, rest = rest[1:], ""
    elif operation in LIFTS:
        bodies = Bodies(rest[1:])
        body = bodies.body()
        rest = rest[1 + bodies.at :]
    if not re.fullmatch(rf"(?: %{NATURAL})*", rest):
        raise Trouble(f"`{line}` is no line of `flat`")
    arguments = tuple(int(word[1:]) for word in rest.split())
    count = COUNTS.get(operation)
    if len(arguments) != count if count is not None else operation not in ("Any", *LIFTS) or not 1 <= len(arguments) <= 8:
        raise Trouble(f"`{line}` is no line of `flat`")
    return Equation(int(number), name or "", operation, kind, body, arguments)


class System:
    """The equations by number, and the outputs as pairs of a name and a number."""

    def __init__(self, text):
        self.equations, self.outputs = {}, []
        for line in text.split("\n")[:-1]:
            if found := OUTPUT.fullmatch(line):
                self.outputs.append((found[1], int(found[2])))
            else:
                equation = equation_of(line)
                self.equations[equation.number] = equation
        named = [number for equation in self.equations.values() for number in equation.arguments] + [number for _, number in self.outputs]
        if not text.endswith("\n") or not self.outputs or any(number not in self.equations for number in named):
            raise Trouble("these are not the equations as `flat` prints them")

    def inputs(self):
        return [equation for equation in self.equations.values() if equation.operation == "Input"]

    def slice_of(self, number):
        """What an output can depend on: the least set that has its equation, and each argument of what it has."""
        found, todo = set(), [number]
        while todo:
            at = todo.pop()
            if at not in found:
                found.add(at)
                todo.extend(self.equations[at].arguments)
        return found
