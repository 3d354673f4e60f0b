"""Draws the equations that `flat` or `slice` prints, as a graph in the language DOT of Graphviz."""

import re

from equations import UPDATES, read
from visible import visible

# What the arguments of an operation are, where an arrow has to say it.
ROLES = {
    "Last": ("value", "at"),
    "Delay": ("amount", "reset"),
    "Merge": ("first", "else"),
    "Filter": ("event", "if"),
    "Pick": ("if", "then", "else"),
    "SetAdd": ("set", "key"),
    "SetRemove": ("set", "key"),
    "MapAdd": ("map", "key", "value"),
    "MapRemove": ("map", "key"),
    "QueueAdd": ("queue", "value"),
}
# The first argument of these is taken as it was before.
BEFORE = ("Last", "Delay")
# Of the function of a lift so many characters are shown.
WIDTH = 60
HEAD = """digraph tessla {
  rankdir=LR
  node [shape=box, fontname="monospace", fontsize=11, margin="0.12,0.05"]
  edge [fontname="sans-serif", fontsize=9]
"""


def quoted(text):
    return '"' + visible(text).replace("\\", "\\\\").replace('"', '\\"') + '"'


def lines_of(*lines):
    """A label of several lines."""
    return '"' + "\\n".join(quoted(it)[1:-1] for it in lines if it) + '"'


def operation_of(equation):
    """The operation of an equation with its type or function, as far as there is room."""
    text = f"{equation.operation} {equation.text}".strip()
    return text if len(text) <= WIDTH else text[: WIDTH - 2] + ".."


def updates_of(flat, show):
    """Of each update, by its number, what `show` says of it behind its place, without the reason."""
    numbers = sorted(number for number, it in read(flat)[0].items() if it.operation in UPDATES)
    found = (re.search(r" [0-9]+:[0-9]+ (in place|copied)", line) for line in show.split("\n")[:-1])
    return {number: it[1] for number, it in zip(numbers, found) if it}


def nodes_of(equation, updates):
    shape = ", style=rounded" if equation.operation == "Input" else ""
    label = lines_of(equation.name or f"%{equation.number}", operation_of(equation), updates.get(equation.number, ""))
    return f"  n{equation.number} [label={label}{shape}]\n"


def arrows_of(equation):
    """An arrow from each argument. Where the same one stands twice, there are two."""
    roles = ROLES.get(equation.operation)
    for place, number in enumerate(equation.arguments):
        role = roles[place] if roles else f"${place}" if len(equation.arguments) > 1 and equation.text else ""
        says = [f"label={quoted(role)}"] if role else []
        says += ["style=dashed", "constraint=false"] if equation.operation in BEFORE and place == 0 else []
        more = f" [{', '.join(says)}]" if says else ""
        yield f"  n{number} -> n{equation.number}{more}\n"


def drawn(part, updates):
    """The graph of the equations and outputs in a text, with what is known of updates."""
    equations, outputs = read(part)
    lines = [nodes_of(it, updates) for it in equations.values()]
    lines += [it for equation in equations.values() for it in arrows_of(equation)]
    for place, (name, number) in enumerate(outputs):
        lines += [f"  o{place} [label={quoted(name)}, shape=plaintext, fontname=\"monospace bold\"]\n", f"  n{number} -> o{place}\n"]
    return HEAD + "".join(lines) + "}\n"
