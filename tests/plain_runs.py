"""What a run of some code has to do, worked out plainly: what it writes, how it ends, and the state that a part of it leaves.

The code is as tests/plain_code.py has it, the streams are those of the solver of tests/solved, and the lines of a trace are read as
tests/surroundings/due.py reads them. Beside the streams there is here which sets, maps and queues stand in one cell.
"""

import collections
import importlib.machinery
import importlib.util
import os
import sys

sys.path.insert(0, os.path.join(os.path.dirname(os.path.abspath(__file__)), "surroundings"))

from due import read_trace  # noqa: E402
from plain_code import inputs_of, running, updates_of  # noqa: E402
from plain_states import MOST_INSTANTS, MOST_TRACE, State, delays_of, kept_of, order_of  # noqa: E402

# How lines are judged, and how far a run may go.
Limits = collections.namedtuple("Limits", "strict instants bytes until", defaults=(False, MOST_INSTANTS, MOST_TRACE, 0))
# What a run has written, its status and message, what each running update has copied, and of a part that goes on the state that it leaves.
Ran = collections.namedtuple("Ran", "out status message copied state")


def solver():
    """The script tests/solved, which solves equations plainly."""
    path = os.path.join(os.path.dirname(os.path.abspath(__file__)), "solved")
    loader = importlib.machinery.SourceFileLoader("solved", path)
    module = importlib.util.module_from_spec(importlib.util.spec_from_loader("solved", loader))
    loader.exec_module(module)
    return module


SOLVED = solver()


def body_of(body):
    """A body as tests/solved has it."""
    if body[0] == "argument":
        return body[1]
    if body[0] == "literal":
        return [body[2]]
    return (body[0], [] if body[0] == "none" else [body_of(part) for part in body[1:]])


def equation_of(one):
    op = "OptLift" if one.op == "Lift" and not one.strict else one.op
    of = f"{one.of[0]}[]" if len(one.of) > 1 else one.of[0]
    return SOLVED.Equation(op, of, body_of(one.body) if one.body else None, list(one.args))


class Machine(SOLVED.Solver):
    """The streams of some code, what its updates have copied, and the cells that events of sets, maps and queues stand in."""

    def __init__(self, code, events):
        super().__init__({number: equation_of(code.equations[number]) for number in running(code)}, events)
        self.code = code
        self.copied = dict.fromkeys(updates_of(code), 0)
        self.cells = {}

    def run(self, time):
        kind = super().run(time)
        for number in self.copied:
            if number not in self.code.in_place and self.event(number, time) is not None:
                self.copied[number] += SOLVED.size(self.event(self.equations[number].args[0], time))
        for number in self.equations:
            if len(self.code.equations[number].of) > 1 and self.event(number, time) is not None:
                self.cell(number, time)
        return kind

    def cell(self, number, time):
        """The cell of an event: that of the event which is handed on, or a new one, which is called by the equation and the time."""
        if (number, time) not in self.cells:
            self.cells[number, time] = self.own_cell(number, time)
        return self.cells[number, time]

    def own_cell(self, number, time):
        op, _, _, args = self.equations[number]
        if op == "Last":
            return self.cell(args[0], self.last_time(args[0], time))
        if op == "Merge":
            return self.cell(args[0] if self.event(args[0], time) is not None else args[1], time)
        if op == "Pick":
            return self.cell(args[1 if self.event(args[0], time) else 2], time)
        if op == "Filter" or number in self.code.in_place:
            return self.cell(args[0], time)
        return number, time

    def last_time(self, number, bound):
        """The time of the last event before the bound, or None."""
        return max((at for at, outcome in self.streams[number].items() if at < bound and outcome is not None), default=None)

    def pending(self, number, bound):
        """When the delay expires, from the bound on, or None."""
        amounts = self.streams[self.equations[number].args[0]]
        due = {at + value for at, value in amounts.items() if value is not None and bound <= at + value <= SOLVED.MOST}
        return max((at for at in due if self.expires(number, at)), default=None)


def content_of(value):
    """What a cell with a value has, as a state spells it."""
    if isinstance(value, SOLVED.Queue):
        return list(value.elements)
    keys = sorted(value, key=order_of)
    return [(key, value[key]) for key in keys] if isinstance(value, dict) else keys


def registers_of(machine, bound):
    """The last registers, and what the cells have that they name."""
    registers, cells = [], {}
    for number in kept_of(machine.code):
        at = machine.last_time(number, bound)
        if at is None:
            registers.append(None)
        elif len(machine.code.equations[number].of) == 1:
            registers.append(("scalar", machine.event(number, at)))
        else:
            content = content_of(machine.event(number, at))
            place, had = cells.setdefault(machine.cell(number, at), (len(cells), content))
            if had != content:
                raise AssertionError(f"two last registers with one cell have {had} and {content}")
            registers.append(("cell", place))
    return registers, [content for _, content in cells.values()]


def state_after(machine, trace, reading, ran, limits):
    """The state that a part of a run leaves on these bytes of a trace."""
    last = reading.lines[-1][0] if reading.lines else None
    bound = last or 0
    registers, cells = registers_of(machine, bound)
    delays = [machine.pending(number, bound) for number in delays_of(machine.code)]
    opened = sorted(machine.events.get(last, {}).items())
    rest = trace[trace.rfind(b"\n") + 1 :]
    numbers = (len(trace), trace.count(b"\n"), last, rest, ran, opened, list(machine.copied.values()))
    return State(limits.strict, limits.instants, limits.bytes, *numbers, registers, cells, delays)


def run_of(code, trace, limits=Limits(), ended=True):
    """A run of some code on these bytes of a trace. Where they have not ended, the status is None unless the run is over by what came."""
    inputs = inputs_of(code)
    reading = read_trace(trace, ended, {name: of for name, (_, of) in inputs.items()}, limits.strict, limits.bytes)
    events = {}
    for now, name, printed in reading.lines:
        if name is not None:
            events.setdefault(now, {})[inputs[name][0]] = SOLVED.scalar(printed)
    machine, out, ran, time = Machine(code, events), [], 0, 0
    last = reading.lines[-1][0] if reading.lines else 0
    bound = max(last, limits.until) + 1 if ended and not reading.refusal else last

    def ends(status, message, state=None):
        return Ran("".join(out).encode(), status, message.encode(), machine.copied, state)

    while time is not None and time < bound:
        if ran == limits.instants:
            return ends(7, f"limit: {limits.instants} instants before time {time}\n")
        ran += 1
        kind = machine.run(time)
        if kind:
            at = code.equations[min(machine.roots)]
            return ends(1, f"{time}: fault {kind} at {at.line}:{at.column}\n")
        for name, number in code.outputs:
            value = machine.event(number, time)
            if value is not None:
                out.append(f"{time}: {name} = {SOLVED.printed(value)}\n")
        time = machine.next_instant(time)
    if reading.refusal:
        return ends(4, reading.refusal.decode())
    return ends(0, "") if ended else ends(None, "", state_after(machine, trace, reading, ran, limits))


def stats_of(code, copied):
    """What is told of the updates with `--stats`."""
    def line(number):
        one = code.equations[number]
        return f"stats {one.name or f'%{number}'} {one.line}:{one.column} copied {copied[number]}\n"

    return "".join(map(line, copied)).encode()
