"""Values as they are written and printed, and what operations make of them."""

import re
from collections import namedtuple

GREATEST = 2**63 - 1
MOST_TEXT = 65536
ESCAPES = {'"': '"', "\\": "\\", "n": "\n", "t": "\t", "r": "\r"}
QUOTED = r'"(?:[^"\\\n]|\\["\\ntr])*"'


class Fault(Exception):
    """An operation has no value."""


# ---- Values: numbers, truths, texts, () for a unit, a frozenset, a dict, a queue. An option is None, or a tuple of one value.

# Its elements, the first of them first.
Queue = namedtuple("Queue", "elements")


def empty_of(kind):
    """What is empty of a type."""
    return {"Set": frozenset(), "Map": {}, "Queue": Queue(())}[kind[: kind.index("[")]]


def unquoted(text):
    return re.sub(r"\\(.)", lambda found: ESCAPES[found[1]], text[1:-1])


def number_of(text):
    """The number of 64 bits that a minus or nothing and digits are, or None."""
    found = re.fullmatch(r"(-?)0*([0-9]*)", text)
    if not found or not text[-1:].isdigit() or len(found[2]) > 19:
        return None
    number = int(found[1] + (found[2] or "0"))
    return number if -GREATEST - 1 <= number <= GREATEST else None


def scalar_of(kind, text):
    """The value of a type that a text spells, or None."""
    if kind == "Int":
        return number_of(text)
    if kind == "Bool":
        return {"true": True, "false": False}.get(text)
    if kind == "Unit":
        return () if text == "()" else None
    if not re.fullmatch(QUOTED, text):
        return None
    value = unquoted(text)
    return value if size_of(value) <= MOST_TEXT else None


def escaped(text):
    for plain, escape in (("\\", "\\\\"), ('"', '\\"'), ("\n", "\\n"), ("\t", "\\t"), ("\r", "\\r")):
        text = text.replace(plain, escape)
    return f'"{text}"'


def printed(value):
    if isinstance(value, bool):
        return "true" if value else "false"
    if isinstance(value, int):
        return str(value)
    if isinstance(value, str):
        return escaped(value)
    if value == ():
        return "()"
    if isinstance(value, Queue):
        return "Queue(" + ", ".join(map(printed, value.elements)) + ")"
    keys = sorted(value, key=lambda key: key.encode() if isinstance(key, str) else key)
    if isinstance(value, dict):
        return "Map(" + ", ".join(f"{printed(key)} -> {printed(value[key])}" for key in keys) + ")"
    return "Set(" + ", ".join(map(printed, keys)) + ")"


def size_of(value):
    if isinstance(value, Queue):
        return len(value.elements)
    return len(value.encode()) if isinstance(value, str) else len(value)


# ---- What operations make of values


def in_range(number):
    if not -GREATEST - 1 <= number <= GREATEST:
        raise Fault("Overflow")
    return number


def divided(a, b):
    """The quotient, cut towards zero, and the remainder."""
    if b == 0:
        raise Fault("DivideByZero")
    quotient = in_range(abs(a) // abs(b) * (1 if (a < 0) == (b < 0) else -1))
    return quotient, a - b * quotient


def value_at(table, key):
    if key not in table:
        raise Fault("MissingKey")
    return table[key]


def first_of(queue):
    if not queue.elements:
        raise Fault("EmptyQueue")
    return queue.elements[0]


def value_in(option):
    if option is None:
        raise Fault("NoValue")
    return option[0]


def joined(a, b):
    if size_of(a) + size_of(b) > MOST_TEXT:
        raise Fault("TextTooLong")
    return a + b


OPERATIONS = {
    "add": lambda a, b: in_range(a + b),
    "sub": lambda a, b: in_range(a - b),
    "mul": lambda a, b: in_range(a * b),
    "neg": lambda a: in_range(-a),
    "div": lambda a, b: divided(a, b)[0],
    "rem": lambda a, b: divided(a, b)[1],
    "eq": lambda a, b: a == b,
    "ne": lambda a, b: a != b,
    "lt": lambda a, b: a < b,
    "le": lambda a, b: a <= b,
    "gt": lambda a, b: a > b,
    "ge": lambda a, b: a >= b,
    "not": lambda a: not a,
    "contains": lambda a, b: b in a,
    "size": size_of,
    "front": first_of,
    "get": value_at,
    "concat": joined,
    "length": size_of,
    "some": lambda a: (a,),
    "none": lambda: None,
    "issome": lambda a: a is not None,
    "isnone": lambda a: a is None,
    "getsome": value_in,
}
SKIPPING = ("if", "and", "or")


def applied(body, arguments):
    """The value of a lift's function: a number stands for an argument, a tuple of one value for that value."""
    if isinstance(body, int):
        return arguments[body]
    if len(body) == 1:
        return body[0]
    name, parts = body
    if name not in SKIPPING:
        return OPERATIONS[name](*[applied(part, arguments) for part in parts])
    decides = applied(parts[0], arguments)
    if name == "if":
        return applied(parts[1 if decides else 2], arguments)
    return applied(parts[1], arguments) if decides == (name == "and") else decides


def updated(operation, aggregate, *values):
    if operation == "QueueTake":
        first_of(aggregate)
        return Queue(aggregate.elements[1:])
    key, *values = values
    if operation == "QueueAdd":
        return Queue((*aggregate.elements, key))
    if operation == "SetAdd":
        return aggregate | {key}
    if operation == "SetRemove":
        return aggregate - {key}
    rest = {other: value for other, value in aggregate.items() if other != key}
    return {**rest, key: values[0]} if operation == "MapAdd" else rest
