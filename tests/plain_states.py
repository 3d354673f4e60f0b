"""States of runs read and spelled plainly, by the table of docs/COMMANDS.md alone: what refuses some bytes for some code, or what they spell.

The code is as tests/plain_code.py has it. A scalar is a value of Python: `()`, a number, a truth value or a text. What a cell has is a list of
keys, of pairs of a key and a value, or of elements, the first one in front.
"""

import collections
import struct

from plain_code import code_text, running, updates_of

MARK = b"TSLSTA1\n"
OTHER_PROGRAM, WRONG_FORM = "state: other program", "state: wrong form"
MOST_TIME, MOST_INSTANTS, MOST_TRACE, MOST_REST, MOST_TEXT = (1 << 63) - 1, 10**12, 1 << 40, 65536, 65536

# A register is None, ("scalar", VALUE) or ("cell", NUMBER). Open events are pairs of an equation and a value, and a time may be None.
State = collections.namedtuple("State", "strict instants bytes taken lines last rest ran open ledger registers cells delays")


class OtherProgram(Exception):
    """The state is one of other code."""


class WrongForm(Exception):
    """The bytes spell no state that fits."""


def demand(is_so):
    if not is_so:
        raise WrongForm


# ---- What a state has something for


def kept_of(code):
    """The equations whose last event is kept."""
    return sorted({code.equations[number].args[0] for number in running(code) if code.equations[number].op == "Last"})


def delays_of(code):
    return [number for number in running(code) if code.equations[number].op == "Delay"]


def order_of(key):
    """What keys are ordered by: numbers and truth values by themselves, and texts by their bytes."""
    return key.encode() if isinstance(key, str) else key


# ---- Spelling


def number_bytes(value):
    return struct.pack(">Q", value)


def text_bytes(data):
    return number_bytes(len(data)) + data


def scalar_bytes(value):
    if value == () and isinstance(value, tuple):
        return b""
    if isinstance(value, bool):
        return bytes([value])
    return text_bytes(value.encode()) if isinstance(value, str) else struct.pack(">q", value)


def optional_bytes(value):
    return b"\0" if value is None else b"\1" + number_bytes(value)


def register_bytes(register):
    if register is None:
        return b"\0"
    kind, value = register
    return b"\1" + scalar_bytes(value) if kind == "scalar" else b"\2" + number_bytes(value)


def cell_bytes(cell, of):
    parts = [scalar_bytes(it) for entry in cell for it in (entry if of[0] == "Map" else (entry,))]
    return number_bytes(len(cell)) + b"".join(parts)


def types_of_cells(state, code):
    """The types of the cells by number: those of the registers that name them."""
    found = {}
    for number, register in zip(kept_of(code), state.registers):
        if register and register[0] == "cell":
            found.setdefault(register[1], code.equations[number].of)
    return [found[number] for number in sorted(found)]


def parts_of(state, code):
    """The bytes of each field."""
    program = code_text(code).encode()
    yield MARK + text_bytes(program)
    yield bytes([state.strict]) + number_bytes(state.instants) + number_bytes(state.bytes)
    yield number_bytes(state.taken) + number_bytes(state.lines) + optional_bytes(state.last) + text_bytes(state.rest)
    yield number_bytes(state.ran) + number_bytes(len(state.open))
    yield from (number_bytes(equation) + scalar_bytes(value) for equation, value in state.open)
    yield from map(number_bytes, state.ledger)
    yield from map(register_bytes, state.registers)
    yield from map(cell_bytes, state.cells, types_of_cells(state, code))
    yield from map(optional_bytes, state.delays)


def state_bytes(state, code):
    return b"".join(parts_of(state, code))


# ---- Reading


class Bytes:
    """Bytes that are taken from the front."""

    def __init__(self, data):
        self.data, self.at = data, 0

    def take(self, count):
        demand(count <= len(self.data) - self.at)
        self.at += count
        return self.data[self.at - count : self.at]

    def flag(self, most=1):
        value = self.take(1)[0]
        demand(value <= most)
        return value

    def number(self, least=0, most=(1 << 64) - 1):
        value = struct.unpack(">Q", self.take(8))[0]
        demand(least <= value <= most)
        return value

    def optional(self, least=0):
        return self.number(least, MOST_TIME) if self.flag() else None

    def scalar(self, of):
        if of == "Unit":
            return ()
        if of == "Int":
            return struct.unpack(">q", self.take(8))[0]
        if of == "Bool":
            return self.flag() == 1
        try:
            return self.take(self.number(0, MOST_TEXT)).decode("utf-8")
        except UnicodeDecodeError:
            raise WrongForm from None

    def open_events(self, code, last):
        found = []
        for _ in range(self.number(0, len(code.equations))):
            equation = self.number(0, len(code.equations) - 1)
            one = code.equations[equation]
            demand(one.op == "Input" and (not found or found[-1][0] < equation))
            found.append((equation, self.scalar(one.of[0])))
        demand(last is not None or not found)
        return found

    def registers(self, code):
        """The last registers, and the types of the cells that they name."""
        found, types = [], []
        for equation in kept_of(code):
            of, kind = code.equations[equation].of, self.flag(2)
            demand(kind == 0 or (kind == 1) == (len(of) == 1))
            if kind == 2:
                number = self.number(0, len(types))
                types += [of] if number == len(types) else []
                demand(types[number] == of)
                found.append(("cell", number))
            else:
                found.append(("scalar", self.scalar(of[0])) if kind else None)
        return found, types

    def cell(self, of):
        size, found, last = self.number(), [], None
        # An element of a queue of units has no byte, and each other one has.
        demand(of == ("Queue", "Unit") or size <= len(self.data) - self.at)
        for _ in range(size):
            key = self.scalar(of[1])
            demand(of[0] == "Queue" or last is None or last < order_of(key))
            last = order_of(key)
            found.append((key, self.scalar(of[2])) if of[0] == "Map" else key)
        return found


def state_of(data, code):
    """The state that the bytes spell. It raises OtherProgram or WrongForm where there is none that fits the code."""
    given = Bytes(data)
    demand(given.take(len(MARK)) == MARK)
    if given.take(given.number()) != code_text(code).encode():
        raise OtherProgram
    strict, instants, most = given.flag() == 1, given.number(1, MOST_INSTANTS), given.number(1, MOST_TRACE)
    taken = given.number(0, most)
    lines, last = given.number(0, taken), given.optional()
    rest = given.take(given.number(0, min(MOST_REST, taken)))
    demand(b"\n" not in rest)
    bound = last or 0
    ran = given.number(1 if bound else 0, instants if bound else 0)
    opened = given.open_events(code, last)
    ledger = [given.number() for _ in updates_of(code)]
    registers, types = given.registers(code)
    cells = [given.cell(of) for of in types]
    delays = [given.optional(bound) for _ in delays_of(code)]
    demand(given.at == len(data))
    return State(strict, instants, most, taken, lines, last, rest, ran, opened, ledger, registers, cells, delays)


def refusal_of(data, code):
    """The text that refuses the bytes as a state of the code, or nothing; and the state, where they spell one."""
    try:
        return "", state_of(data, code)
    except OtherProgram:
        return OTHER_PROGRAM, None
    except WrongForm:
        return WRONG_FORM, None
