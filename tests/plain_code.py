"""Code files read plainly, by the table of docs/COMMANDS.md alone: what refuses some bytes, or the code that they spell; and slices of what `flat` prints.

Of a plan it knows what can never be fine: a step that is missing or doubled, or one that stands before a step that it needs. Whether the
updates that it lists may happen in place is not judged here: where they may not, a run would print something else than the equations mean.
"""

import collections
import re
import struct

MARK = b"TSLCOD1\n"
OPERATIONS = (
    "Input Nil Unit Lift Any Time Last Delay Merge Filter Pick Empty MapAdd MapRemove SetAdd SetRemove QueueAdd QueueTake".split()
)
UPDATES = OPERATIONS[-6:]
OF_VALUES = (
    "add sub mul neg div rem eq ne lt le gt ge not and or if contains size get concat length some none issome isnone getsome front".split()
)
PARTS = {
    **dict.fromkeys(OF_VALUES, 2),
    **dict.fromkeys(("neg", "not", "size", "length", "some", "issome", "isnone", "getsome", "front"), 1),
    "if": 3,
    "none": 0,
}
SCALARS = ("Unit", "Int", "Bool", "String")
WORDS = {"in", "def", "out", "as", "if", "then", "else", "true", "false"}
MOST_EQUATIONS, MOST_UPDATES, MOST_NODES, MOST_NAME, MOST_TEXT = 4096, 256, 1024, 255, 65536

# A type is a list of names: Int, or Map, Int, Bool. A body is ("argument", NUMBER), ("literal", TYPE, VALUE), ("none", TYPE), or the name of an
# operation with its parts. Of an equation that is not spelled there is an empty one.
Equation = collections.namedtuple("Equation", "runs op of line column name args strict body")
Code = collections.namedtuple("Code", "equations outputs in_place steps")
NOT_SPELLED = Equation(False, "Nil", ("Unit",), 1, 1, None, (), None, None)


class WrongForm(Exception):
    """The bytes spell nothing."""


def demand(is_so):
    if not is_so:
        raise WrongForm


class Bytes:
    """Bytes that are taken from the front."""

    def __init__(self, data):
        self.data, self.at = data, 0

    def take(self, count):
        demand(count <= len(self.data) - self.at)
        self.at += count
        return self.data[self.at - count : self.at]

    def byte(self, most):
        value = self.take(1)[0]
        demand(value <= most)
        return value

    def number(self):
        return struct.unpack(">I", self.take(4))[0]

    def numbers(self):
        count = self.number()
        demand(4 * count <= len(self.data) - self.at)
        return tuple(self.number() for _ in range(count))

    def text(self, size):
        try:
            return self.take(size).decode("utf-8")
        except UnicodeDecodeError:
            raise WrongForm from None

    def name(self):
        size = self.number()
        demand(size <= MOST_NAME)
        name = self.text(size) if size else None
        demand(name is None or name.isidentifier() and name not in WORDS)
        return name

    def scalar_type(self):
        return SCALARS[self.byte(3)]

    def key_type(self):
        place = self.byte(3)
        demand(place > 0)
        return SCALARS[place]

    def type(self):
        place = self.byte(6)
        if place == 4:
            return ("Set", self.key_type())
        if place == 5:
            return ("Map", self.key_type(), self.scalar_type())
        return ("Queue", self.scalar_type()) if place == 6 else (SCALARS[place],)

    def literal(self):
        of = self.scalar_type()
        if of == "Unit":
            return ("literal", of, ())
        if of == "Int":
            return ("literal", of, struct.unpack(">q", self.take(8))[0])
        if of == "Bool":
            return ("literal", of, self.byte(1) == 1)
        size = struct.unpack(">Q", self.take(8))[0]
        demand(size <= MOST_TEXT)
        return ("literal", of, self.text(size))

    def body(self, left):
        """A body; so many nodes are left in the list, which gets shorter."""
        demand(left)
        left.pop()
        kind = self.byte(2)
        if kind == 0:
            return ("argument", self.number())
        if kind == 1:
            return self.literal()
        name = OF_VALUES[self.byte(len(OF_VALUES) - 1)]
        return (name, self.type()) if name == "none" else (name, *(self.body(left) for _ in range(PARTS[name])))

    def equation(self):
        kind = self.byte(2)
        if kind == 0:
            return NOT_SPELLED
        op = OPERATIONS[self.byte(len(OPERATIONS) - 1)]
        demand(kind == 1 or op == "Input")
        of, line, column, name, args = self.type(), self.number(), self.number(), self.name(), self.numbers()
        strict = self.byte(1) == 1 if op == "Lift" else None
        body = self.body([None] * MOST_NODES) if op == "Lift" else None
        return Equation(kind == 1, op, of, line, column, name, args, strict, body)

    def output(self):
        name = self.name()
        demand(name is not None)
        return name, self.number()


def differ(names):
    return len(set(names)) == len(names)


def code_of(data):
    """The code that the bytes spell. It raises WrongForm where they have not the form."""
    given = Bytes(data)
    demand(given.take(len(MARK)) == MARK)
    count = given.number()
    demand(count <= MOST_EQUATIONS)
    equations = [given.equation() for _ in range(count)]
    count = given.number()
    demand(0 < count <= len(data))
    outputs = [given.output() for _ in range(count)]
    code = Code(equations, outputs, given.numbers(), given.numbers())
    demand(given.at == len(data))
    inputs = [it.name for it in equations if it.op == "Input"]
    demand(None not in inputs and differ(inputs) and differ([name for name, _ in outputs]))
    demand(all(runs(code, number) for _, number in outputs))
    demand(len(updates_of(code)) <= MOST_UPDATES)
    demand(all(before < after for before, after in zip(code.in_place, code.in_place[1:])) and set(code.in_place) <= set(updates_of(code)))
    demand(all(runs(code, step) or 0 <= step - len(equations) < len(outputs) for step in code.steps))
    return code


def runs(code, number):
    return number < len(code.equations) and code.equations[number].runs


def running(code):
    return [number for number, it in enumerate(code.equations) if it.runs]


def updates_of(code):
    return [number for number in running(code) if code.equations[number].op in UPDATES]


# ---- Types: a body has a kind, whether it may be absent and of which type it is, or None where it is ill typed

VALUE, OPTION = False, True
INT, BOOL, STRING = ("Int",), ("Bool",), ("String",)
# What operations of parts of one type make of them.
OF_ONE_TYPE = {
    **dict.fromkeys(("add", "sub", "mul", "div", "rem", "neg"), (INT, INT)),
    **dict.fromkeys(("lt", "le", "gt", "ge"), (INT, BOOL)),
    **dict.fromkeys(("and", "or", "not"), (BOOL, BOOL)),
    "concat": (STRING, STRING),
    "length": (STRING, INT),
}


def kind_of(body, arguments):
    name = body[0]
    if name == "argument":
        return arguments[body[1]] if body[1] < len(arguments) else None
    if name == "literal":
        return VALUE, (body[1],)
    if name == "none":
        return OPTION, body[1]
    parts = [kind_of(part, arguments) for part in body[1:]]
    return None if None in parts else made_of(name, parts)


def made_of(name, parts):
    (is_option, of), rest = parts[0], parts[1:]
    if name in OF_ONE_TYPE:
        wanted, made = OF_ONE_TYPE[name]
        return (VALUE, made) if all(it == (VALUE, wanted) for it in parts) else None
    if name in ("issome", "isnone", "getsome"):
        return (VALUE, of if name == "getsome" else BOOL) if is_option else None
    if name == "if":
        return parts[1] if parts[0] == (VALUE, BOOL) and parts[1] == parts[2] else None
    if is_option:
        return None
    if name == "some":
        return OPTION, of
    if name in ("eq", "ne"):
        return (VALUE, BOOL) if parts[0] == parts[1] and len(of) == 1 else None
    return of_aggregate(name, of, rest)


def of_aggregate(name, of, rest):
    if name == "size":
        return (VALUE, INT) if len(of) > 1 else None
    if name == "front":
        return (VALUE, of[1:]) if of[0] == "Queue" else None
    has_key = of[0] in ("Set", "Map") and rest == [(VALUE, of[1:2])]
    if name == "contains":
        return (VALUE, BOOL) if has_key else None
    return (VALUE, of[2:]) if has_key and of[0] == "Map" else None


def is_typed(one, types):
    """Whether an equation has the arity and the types of its operation: the equation, and the types of its arguments."""
    of, is_scalar = one.of, len(one.of) == 1
    if one.op in ("Input", "Nil", "Unit", "Empty"):
        return not types and {"Input": is_scalar, "Nil": True, "Unit": of == ("Unit",), "Empty": not is_scalar}[one.op]
    if one.op == "Lift":
        kinds = [(not one.strict, it) for it in types]
        return 1 <= len(types) <= 8 and is_scalar and kind_of(one.body, kinds) == (not one.strict, of)
    if one.op == "Any":
        return 3 <= len(types) <= 8 and of == ("Unit",)
    if one.op == "Time":
        return len(types) == 1 and of == INT
    if one.op == "Last":
        return len(types) == 2 and types[0] == of
    if one.op == "Delay":
        return len(types) == 2 and types[0] == INT and of == ("Unit",)
    if one.op in UPDATES:
        wanted = {"SetAdd": of[1:2], "SetRemove": of[1:2], "MapAdd": of[1:], "MapRemove": of[1:2], "QueueAdd": of[1:], "QueueTake": ()}
        return of[0] == one.op[: len(of[0])] and types == [of, *((it,) for it in wanted[one.op])]
    return types == {"Merge": [of, of], "Filter": [of, BOOL], "Pick": [BOOL, of, of]}[one.op] and not (one.op == "Pick" and is_scalar)


def ill_typed(code):
    """The least equation that breaks arity and types, or that runs and has an argument that does not, or None."""
    for number, one in enumerate(code.equations):
        if any(it >= len(code.equations) for it in one.args):
            return number
        if not is_typed(one, [code.equations[it].of for it in one.args]) or one.runs and not all(runs(code, it) for it in one.args):
            return number
    return None


def needs(one):
    """The arguments that an equation needs at the same time."""
    return one.args[1:] if one.op in ("Last", "Delay") else one.args


def has_cycle(code):
    left = {number: set(needs(one)) for number, one in enumerate(code.equations)}
    while left:
        free = [number for number, before in left.items() if not before & left.keys()]
        if not free:
            return True
        for number in free:
            del left[number]
    return False


def is_never_fine(code):
    """Whether a step is missing or doubled, or stands before one that it needs."""
    count = len(code.equations)
    before = {number: needs(code.equations[number]) for number in running(code)}
    before.update({count + place: (number,) for place, (_, number) in enumerate(code.outputs)})
    if sorted(code.steps) != sorted(before):
        return True
    at = {step: place for place, step in enumerate(code.steps)}
    return any(at[other] > at[step] for step, others in before.items() for other in others)


def refusal_of(data):
    """The text that refuses the bytes, or nothing where their plan alone may do so; and the code, where they have the form."""
    try:
        code = code_of(data)
    except WrongForm:
        return "code: wrong form", None
    number = ill_typed(code)
    if number is not None:
        return f"code: wrong types in equation {number}", code
    if has_cycle(code):
        return "code: cycle", code
    return "code: plan not fine" if is_never_fine(code) else "", code


# ---- Texts


def type_text(of):
    return of[0] if len(of) == 1 else f"{of[0]}[{', '.join(of[1:])}]"


def literal_text(value):
    if isinstance(value, bool):
        return "true" if value else "false"
    if isinstance(value, int):
        return str(value)
    if value == ():
        return "()"
    for plain, escape in (("\\", "\\\\"), ('"', '\\"'), ("\n", "\\n"), ("\t", "\\t"), ("\r", "\\r")):
        value = value.replace(plain, escape)
    return f'"{value}"'


def body_text(body):
    name = body[0]
    if name == "argument":
        return f"${body[1]}"
    if name == "literal":
        return literal_text(body[2])
    return name if name == "none" else f"{name}({', '.join(map(body_text, body[1:]))})"


def equation_text(code, number):
    one = code.equations[number]
    words = [f"%{number}", *([one.name] if one.name else []), ":=", "OptLift" if one.op == "Lift" and not one.strict else one.op]
    if one.op in ("Input", "Nil", "Empty"):
        words.append(type_text(one.of))
    if one.op == "Lift":
        words.append(body_text(one.body))
    return " ".join([*words, *(f"%{it}" for it in one.args)])


def flat_text(code):
    """What `flat` prints of the specification that the code was made of."""
    lines = [equation_text(code, number) for number in running(code)] + [f"out {name} %{number}" for name, number in code.outputs]
    return "".join(f"{line}\n" for line in lines)


def step_text(code, step):
    if step >= len(code.equations):
        name, number = code.outputs[step - len(code.equations)]
        return f"print {name} %{number}"
    return equation_text(code, step) + (" in place" if step in code.in_place else "")


def code_text(code):
    """What `code` prints of it."""
    equations = [(number, code.equations[number]) for number in running(code)]
    kept = sorted({one.args[0] for _, one in equations if one.op == "Last"})
    lines = [step_text(code, step) for step in code.steps] + [f"keep %{number}" for number in kept]
    lines += [f"timer %{number}" for number, one in equations if one.op == "Delay"]
    return "".join(f"{line}\n" for line in lines)


def slice_text(flat, name):
    """What `slice` prints of a specification of which `flat` prints this, or nothing where no output has the name."""
    lines = flat.split("\n")[:-1]
    printed = [it for it in lines if it.startswith(f"out {name} %")]
    if not printed:
        return ""
    equations = dict(it[1:].split(" ", 1) for it in lines if it.startswith("%"))
    found, left = set(), [printed[0].rpartition("%")[2]]
    while left:
        number = left.pop()
        if number not in found:
            found.add(number)
            left += arguments_of(equations[number])
    kept = [it for it in lines if it.startswith("%") and it[1:].split(" ", 1)[0] in found]
    return "".join(f"{it}\n" for it in [*kept, printed[0]])


def arguments_of(text):
    """The numbers at the end of an equation's text. Before them may stand a literal text, with anything in it."""
    numbers = []
    while found := re.search(r" %([0-9]+)$", text):
        numbers.append(found[1])
        text = text[: found.start()]
    return numbers


def inputs_of(code):
    """The inputs by name, those that do not run among them: the number of each and its type."""
    return {one.name: (number, one.of[0]) for number, one in enumerate(code.equations) if one.op == "Input"}


# ---- Changes


def numbers_bytes(numbers):
    return struct.pack(f">{len(numbers) + 1}I", len(numbers), *numbers)


def with_plan(data, code, in_place, steps):
    """The bytes of some code with another plan."""
    size = len(numbers_bytes(code.in_place)) + len(numbers_bytes(code.steps))
    return data[: len(data) - size] + numbers_bytes(in_place) + numbers_bytes(steps)
