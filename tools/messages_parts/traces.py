"""What helps with the lines of a trace: one that was refused, and names that are no input's."""

import re

from .slips import answer
from .source import inputs_of, nearest, short

# So much of a trace is looked through, and of a source.
LOOKED_AT = 2 << 20
SOURCE = 1 << 18
BEGINNING = rb"^[ \t]*[0-9]+[ \t]*:[ \t]*"
NAME = rb"([^\s=#-][^\s=]*)"
NAMED = re.compile(BEGINNING + NAME)


def text_of(data):
    return data.decode("utf-8", "surrogateescape")


def inputs(spec):
    """The inputs of a specification that can be read once more."""
    data = spec.head(SOURCE + 1) if spec else b""
    return inputs_of(text_of(data)) if len(data) <= SOURCE else {}


def unread(spec, trace, is_part):
    """One line on the names in a trace that are no input's, or none. Of a part that is saved a last line without its end is none yet."""
    known = inputs(spec)
    data = trace.head(LOOKED_AT) if trace and known else b""
    is_cut = len(data) == LOOKED_AT
    data = with_beginning(data, trace.begun) if data else data
    data = data[: data.rfind(b"\n") + 1] if is_part or is_cut else data
    names = b"|".join(re.escape(it.encode("utf-8", "surrogateescape")) for it in known)
    other = re.compile(BEGINNING + rb"(?!(?:" + names + rb")(?:[\s=]|\Z))" + NAME, re.M)
    strangers = list(other.finditer(data))
    if not strangers:
        return []
    name, line = text_of(strangers[0][1]), data.count(b"\n", 0, strangers[0].start(1)) + 1
    near = nearest(name, known)
    lines = "1 line has a name" if len(strangers) == 1 else f"{len(strangers)} lines have names"
    part = " of its first 2 MB" if is_cut else ""
    closest = f"; the nearest input is {near}" if near else f"; inputs are {short(', '.join(known))}"
    first = f"{short(name)} in line {line}" if len(strangers) == 1 else f"the first is {short(name)} in line {line}"
    return [f"tessla: {lines} that no input has{part}: {first}{closest}"]


def with_beginning(data, begun):
    """A trace whose first line goes on with these bytes, or with unknown ones: then that line says nothing."""
    if begun is not None:
        return begun + data
    _, end, more = data.partition(b"\n")
    return end + more


def of_line(line, text, spec):
    """What helps with a refused line, or None."""
    shown = text_of(line)
    if text == "unknown stream":
        return of_stranger(shown, spec)
    if text == "not a trace line":
        return of_form(shown)
    wrong = re.fullmatch("wrong value for (.*)", text)
    value = re.match(r"[ \t]*[0-9]+[ \t]*:[ \t]*[^\s=]+[ \t]*(?:=[ \t]*(.*?))?[ \t]*$", shown)
    return of_value(wrong[1], value[1], inputs(spec).get(wrong[1])) if wrong and value else None


def of_stranger(shown, spec):
    named = NAMED.match(shown.encode("utf-8", "surrogateescape"))
    name = text_of(named[1]) if named else ""
    near = nearest(name, inputs(spec)) if name else None
    return answer(f"{short(name)} is no input", f"the nearest input is {near}") if near else None


def of_form(shown):
    if re.match(r"[ \t]*[0-9]*\.[0-9]+[ \t]*:", shown):
        return answer("the time is a fraction, and times are whole", "count in a finer unit: tools/log2trace with --scale does")
    if re.match(r"[ \t]*-[0-9]+[ \t]*:", shown):
        return answer("the time is negative", "times begin at 0: count from the beginning of the trace")
    if re.match(r"[ \t]*[0-9]+[ \t]+[^\s:=]+[ \t]*=", shown):
        return answer("no colon stands after the time", "write TIME: NAME = VALUE")
    if re.match(r"[ \t]*[0-9]+[ \t]*:[ \t]*[^\s=]+[ \t]*=[ \t]*$", shown):
        return answer("no value stands after =", "write it, or leave the = out for an input of Unit")
    return None


EXAMPLES = {"Int": "5", "Bool": "true", "String": '"text"'}


def of_value(name, value, kind):
    name = short(name)
    if kind not in (*EXAMPLES, "Unit"):
        return None
    if kind == "Unit":
        return answer(f"{name} is an input of Unit, and {short(value or '')} is no value of it", f"write TIME: {name}, without a value")
    if value is None:
        return answer(f"{name} is an input of {kind}, and has no value here", f"write TIME: {name} = {EXAMPLES[kind]}")
    if kind == "Int" and re.fullmatch(r"-?[0-9]*\.[0-9]+(?:[eE][-+]?[0-9]+)?", value):
        return answer(f"{short(value)} is a fraction, and {name} is an input of Int", "count in a finer unit: tools/log2trace with --scale does")
    if kind == "Int" and re.fullmatch(r"-?[0-9]{19,}", value):
        return answer(f"{short(value)} has more than 64 bits", "choose a coarser unit")
    if kind == "Bool" and value.lower() in ("true", "false", "1", "0", "yes", "no"):
        return answer(f"{short(value)} is no truth value", f"write TIME: {name} = {'true' if value.lower() in ('true', '1', 'yes') else 'false'}")
    if kind == "String" and not value.startswith('"'):
        return answer(f"{name} is an input of String, and {short(value)} stands in no quotes", 'write it between double quotes: "..."')
    if re.search(r"(?:#|--)", value) and not value.startswith('"'):
        return answer("a comment stands after the value", "put it on a line of its own")
    return answer(f"{name} is an input of {kind}, and {short(value)} is no value of it", f"write TIME: {name} = {EXAMPLES[kind]}, for one")
