"""What helps with names, arguments and types that are not as the specification declares them."""

import re

from .slips import answer
from .source import NAME, nearest, short

BUILT_IN = {
    "merge": ("a", "b"),
    "default": ("a", "b"),
    "last": ("v", "r"),
    "delay": ("d", "r"),
    "time": ("e",),
    "const": ("v", "e"),
    "filter": ("e", "c"),
    "isSome": ("o",),
    "isNone": ("o",),
    "getSome": ("o",),
    "Some": ("v",),
    "Set.add": ("s", "k"),
    "Set.remove": ("s", "k"),
    "Set.contains": ("s", "k"),
    "Set.size": ("s",),
    "Map.add": ("m", "k", "v"),
    "Map.remove": ("m", "k"),
    "Map.contains": ("m", "k"),
    "Map.get": ("m", "k"),
    "Map.size": ("m",),
    "Queue.enqueue": ("q", "v"),
    "Queue.dequeue": ("q",),
    "Queue.front": ("q",),
    "Queue.size": ("q",),
    "String.concat": ("a", "b"),
    "String.size": ("a",),
}
OF_STREAMS = ("merge", "default", "last", "delay", "time", "const", "filter", "lift", "Set.add", "Set.remove", "Map.add", "Map.remove")
OF_STREAMS += ("Queue.enqueue", "Queue.dequeue")
OF_OPTIONS = ("isSome", "isNone", "getSome")
# Names of TeSSLa's library, or of other languages, and what stands in their place here.
CLOCK = "write def tick: Events[Unit] := delay(const(10, merge(unit, tick)), unit)"
ELSEWHERE = {
    **dict.fromkeys(("prev", "previous", "pre", "old"), "write last(x, x)"),
    "count": "write def n: Events[Int] := merge(merge(last(n, x), 0) + const(1, x), 0)",
    "sum": "write def s: Events[Int] := merge(merge(last(s, x), 0) + x, 0)",
    **{name: f"copy the macro {name} of the page MACROS.md" for name in ("highest", "first", "pure", "rising", "falling", "on", "since", "sample", "rate", "throttle", "debounce", "hold", "later")},
    "changes": "copy the macro pure of the page MACROS.md",
    "resetCount": "copy it from the page FROM_TESSLA.md",
    "when": "write last(v, r) for the value before, or filter(e, c) for the events where c is true",
    "slift": "call the function with the streams: f(a, b)",
    "slift1": "call the function with the stream: f(a)",
    "lift1": "call the function with the stream: f(a)",
    "lift2": "write lift(a, b, f)",
    "merge3": "write merge(a, merge(b, c))",
    "merge4": "write merge(a, merge(b, merge(c, d)))",
    "defaultFrom": "write merge(a, b)",
    "undefined": "write nil[Int], or another type",
    "True": "write true",
    "False": "write false",
    "TRUE": "write true",
    "FALSE": "write false",
    "null": "write nil[Int] for no event, or None[Int] for no value in a value function",
    "nil": "write its type: nil[Int]",
    "None": "write its type: None[Int]",
    "max": "write def max(a: Int, b: Int): Int := if a < b then b else a",
    "min": "write def min(a: Int, b: Int): Int := if a < b then a else b",
    "abs": "write def abs(a: Int): Int := if a < 0 then -a else a",
    "elif": "write else if",
    **dict.fromkeys(("average", "avg", "mean"), "copy the recipe average of the cookbook, or latest for many values"),
    **dict.fromkeys(("window", "sliding"), "copy the recipe window of the cookbook, or recent for numbers of events"),
    **dict.fromkeys(("every", "clock", "periodic", "interval", "tick"), CLOCK),
    **dict.fromkeys(("now", "timestamp"), "write time(e), the time of each event of e"),
    **dict.fromkeys(("toString", "str", "string", "show"), "numbers do not become texts: write an output for each"),
    **dict.fromkeys(("always", "globally", "forall", "never", "assert", "G"), "write an output of what is wrong: out filter(c, !c) as wrong"),
    **dict.fromkeys(("eventually", "finally", "F"), "write a limit of time, as the recipe timeout of the cookbook does"),
    **dict.fromkeys(("size", "length", "len"), "write Set.size(s), Map.size(m), Queue.size(q) or String.size(a)"),
    "contains": "write Set.contains(s, k) or Map.contains(m, k)",
    "concat": "write String.concat(a, b)",
}
COUNTED = ("no argument", "one argument", "two arguments", "three arguments", "four arguments")


def counted(number):
    return COUNTED[number] if number < len(COUNTED) else f"{number} arguments"


def of_arity(text):
    """Another number of arguments than the function has."""
    name, given = text.name_here(), text.arguments()
    wanted = BUILT_IN.get(name)
    items = text.named(name)
    if wanted is None and len(items) == 1 and items[0].parameters is not None:
        wanted = items[0].names()
    if given is None or wanted is None or len(given) == len(wanted):
        return None
    parts = [short(it) for it in given]
    form = f"{name}({', '.join(wanted)})"
    if name in ("merge", "default") and 2 < len(parts) <= 8:
        form = ", merge(".join(parts[:-1])
        form = f"{name}({form}, {parts[-1]}{')' * (len(parts) - 1)}"
    elif name == "last" and len(parts) == 1:
        form = f"last({parts[0]}, {parts[0]}) for the value before, or last({parts[0]}, r) for the one at r"
    return answer(f"{short(name)} has {counted(len(wanted))}, and here are {len(given)}", f"write {form}")


def of_name(text):
    """A name that is not declared here."""
    name = text.name_here()
    if not name:
        return None
    whole = re.match(r"\w+(?:-[^\W\d]\w*)+", text.after())
    items, around = text.named(name), text.around()
    in_function = around is not None and around.is_of_values()
    if items:
        return of_declared(name, items[0], around if in_function else None)
    if whole and not any(text.named(it) for it in whole[0].split("-")):
        dashed = short(whole[0])
        return answer(f"{dashed} is a difference of names that are not declared", f"where it is one name, write {dashed.replace('-', '_')}")
    own = nearest(name, (set(around.names()) if around else set()) | text.declared())
    if own is None and name in BUILT_IN and text.arguments() is None:
        return answer(f"{name} belongs to the language, and is not called", f"write {name}({', '.join(BUILT_IN[name])})")
    if own is None and name in ELSEWHERE:
        return answer(f"{name} is not there", of_argument(ELSEWHERE[name], text.arguments()))
    near = own or nearest(name, BUILT_IN)
    return answer(f"{short(name)} is not declared", f"the nearest name is {near}") if near else None


def of_argument(helps, arguments):
    """What helps, of the stream that the call has."""
    return re.sub(r"\bx\b", arguments[0], helps) if arguments and len(arguments) == 1 and NAME.fullmatch(arguments[0]) else helps


def of_declared(name, item, function):
    if function is not None and not item.is_of_values():
        helps = f"give it as a parameter to {short(function.name)}, or write the literal there"
        return answer(f"{short(name)} is a stream, and {short(function.name)} a function of values", helps)
    if item.parameters is not None:
        given = ", ".join(item.names())
        called = f"write {short(name)}({short(given)})"
        helps = called if item.is_of_values() else f"{called}: it is a macro of streams"
        return answer(f"{short(name)} is a function, and is not called", helps)
    return None


# ---- Types


def is_stream(kind):
    return kind.startswith("Events[")


def any_of(want):
    """What may stand there: a message has one set for all sets, one map for all maps, and one queue for all queues."""
    kinds = want[len("one of ") :].replace("Set[Int]", "any set").replace("Map[Int, Int]", "any map").replace("Queue[Int]", "any queue")
    return f"one of {kinds}" if "," in kinds else kinds


def of_type(text, told):
    """A part of another type than its place asks for, or None."""
    found = re.fullmatch(r"WrongType: have (.*?), want (.*)", told)
    if not found:
        return None
    have, want = found.groups()
    if want == "literal":
        return of_literal(text, have)
    if have == "function":
        return answer("braces stand around the body of a macro alone", "write the expression without them, and its parts as definitions of their own")
    name, around = text.name_here(), text.around()
    function = around if around is not None and around.is_of_values() and text.at > around.at else None
    if function is not None:
        return of_value_function(name, function, have, want)
    return of_stream(text, name, have, want)


def of_value_function(name, function, have, want):
    if name in OF_STREAMS:
        helps = f"write {name} outside, among streams, or Events[..] for the parameters: then it is a macro"
        kind = f" of {any_of(want)}" if want in ("one of Set[Int]", "one of Map[Int, Int]", "one of Queue[Int]") else ""
        return answer(f"a stream{kind} is meant: {name} takes streams, and {short(function.name)} is a function of values", helps)
    if name in OF_OPTIONS:
        helps = "use the value as it is, or let the parameter be an Option[..]"
        return answer(f"an option is meant: {name} asks whether a value is there, and this is a value: {have}", helps)
    if want.startswith("one of"):
        helps = f"compare numbers, truth values, texts; ask an option by isSome, getSome ({have} stands here)"
        return answer(f"a value is meant, of another type: this is in the function of values {short(function.name)}", helps)
    if want == f"Option[{have}]":
        return answer(f"a value that may be absent is meant, and this is {have}", "write Some(..) around it")
    if have == f"Option[{want}]":
        return answer(f"a value is meant, and this may be absent: {have}", "write getSome(..) where isSome(..) holds")
    if want == f"Events[{have}]":
        helps = f"write {have} as the type of its result, or Events[..] for its parameters: then it is a macro"
        return answer(f"{short(function.name)} is a function of values, and gives a value", helps)
    return of_texts(have, want)


def of_stream(text, name, have, want):
    if name in OF_OPTIONS or name == "Some":
        helps = "write a function of options, def f(x: Option[..]): Option[..] := .., and lift(e, f)"
        return answer(f"a value is meant, as in a function of values, and this is a stream: {have}", helps)
    if name == "lift" and not is_stream(have) and want.startswith("Option["):
        arguments = text.arguments() or []
        function = short(arguments[-1]) if arguments and NAME.fullmatch(arguments[-1]) else "f"
        streams = short(", ".join(arguments[:-1])) or ".."
        helps = f"write {function}({streams}), which calls it event by event; lift is for functions of Option[..] to Option[..]"
        return answer(f"{function} takes or gives {have}, a plain value, and lift asks for options", helps)
    if is_stream(have) and want.startswith("Option["):
        helps = f"write lift({short(', '.join(text.arguments() or ['..']))}, {short(name)})"
        return answer(f"{short(name)} takes options, and this is a stream: {have}", helps)
    if name in ("merge", "default") and is_stream(have) and want != have and is_stream(want) and len(text.arguments() or []) == 2:
        return of_merge(text, have, want)
    if want.startswith("one of"):
        inner = have[len("Events[") : -1] if is_stream(have) else have
        first = f", and is the first argument: {name}({', '.join(BUILT_IN[name])})" if name in BUILT_IN and "," not in want else ""
        return answer(f"a stream of another type is meant: this is one of {short(inner)}", f"it may be {any_of(want)}{first}")
    if have == f"Events[{want}]":
        return answer(f"a macro gives a stream, and its result is written as {short(want)}", f"write {short(have)}")
    if name == "delay" and want == "Events[Int]":
        return answer(f"delay takes how long it waits first, a stream of Int, and this is {short(have)}", "write delay(const(10, e), e)")
    return of_texts(have, want)


def of_merge(text, have, want):
    """A merge of streams of two types, of which perhaps the times alone count."""
    cause = f"merge has streams of one type, and here one is {short(want)} and the other {short(have)}"
    first, second = map(short, text.arguments())
    times = f"merge(time({first}), time({second}))"
    if re.search(r"\b(?:last|delay)\s*\((?:[^()]|\([^()]*\))*,\s*$", text.before()):
        return answer(cause, f"only when they come counts here: write {times}")
    return answer(cause, f"change one of them; where only their times count, as for a delay, write {times}")


def of_texts(have, want):
    """Numbers, truth values and texts in each other's place."""
    kinds = [re.fullmatch(r"Events\[(Unit|Int|Bool|String)\]|(Unit|Int|Bool|String)", it) for it in (have, want)]
    if not all(kinds) or is_stream(have) != is_stream(want):
        return None
    found, asked = (it[1] or it[2] for it in kinds)
    what = "stream" if is_stream(have) else "value"
    helps = {
        ("String", "Int"): "change the part; texts are joined by String.concat(a, b)",
        ("Bool", "Int"): "change the part, or write if c then 1 else 0 of it",
        ("Int", "Bool"): "change the part, or compare it: x != 0",
    }
    of_unit = "a Unit only comes, and has nothing to calculate with: const(1, e) has a number wherever e comes"
    helps = of_unit if "Unit" in (found, asked) else helps.get((found, asked), "change the part")
    return answer(f"a {what} of {asked} is meant, and a part of this operation is a {what} of {found}", helps)


def of_literal(text, have):
    """The first argument of const, which is no literal."""
    name, arguments = text.name_here(), text.arguments()
    if name != "const" or not arguments or len(arguments) != 2:
        return None
    value, event = map(short, arguments)
    if not re.search(r"[^\W\d]", value) and value != "()":
        return answer(f"{value} is no literal", "write its value as one literal")
    if value in ("()", "unit"):
        return answer(f"{value} is no literal", f"write const(true, {event}), or {event} alone where it has no value to matter")
    if re.match(r"(?:Set|Map|Queue)\.empty\b", value):
        helps = f"write last({value}, {event}), which has it at each event of {event} after 0"
        return answer(f"{value} is a stream with one event at 0, and no literal", helps)
    forms = {
        "Events[Int]": f"write {value} + const(0, {event})",
        "Events[Bool]": f"write {value} && const(true, {event})",
        "Events[String]": f'write String.concat({value}, const("", {event}))',
    }
    if have in forms and is_constant(text, value):
        return answer(f"{value} is a stream with one event at 0, and const takes a literal", f"{forms[have]}, or the literal itself")
    return answer(f"{value} is a stream, and const takes a literal", f"write last({value}, {event}) for its last value before {event}")


def is_constant(text, name):
    """Whether the name is that of a literal."""
    return bool(re.search(rf"\bdef\s+{re.escape(name)}\s*(?::[^=\n]*)?:?=\s*(?:-?\d+|true|false|\".*\")\s", text.text))


def of_bad_type(text):
    """A type that may not stand here."""
    name = text.name_here()
    if name == "Option":
        helps = "let no event come where there is none; for no one keep a Bool beside it, or a value that never comes, as -1"
        return answer("an event has a value, so there are no streams, keys or values of Option", helps)
    if name == "Unit" and re.search(r"\b(?:Set|Map)(?:\.empty)?\s*\[$", text.before()):
        return answer("keys are Int, Bool or String, and not Unit", "choose one of these")
    if name in ("Set", "Map", "Queue") and re.search(r"\b(?:Set|Map|Queue)(?:\.empty)?\s*\[[^\]]*$", text.before()):
        return answer("a set, map or queue stands in no other one", "keep one for each part, or make one key of both: a * 1000 + b, or String.concat(a, b)")
    return None


def of_twice(text):
    """A name that is declared already."""
    name = text.name_here() or short(text.after().split()[0] if text.after().split() else "")
    others = [it for it in text.named(name) if it.at != text.at]
    if name in BUILT_IN or name in ("unit", "nil", "lift", "None", "Set", "Map", "Queue", "String"):
        return answer(f"{name} belongs to the language", "choose another name")
    if others and others[0].at < text.at:
        line, column = text.place_of(others[0].at)
        return answer(f"{short(name)} is declared at {line}:{column} already", "choose another name")
    return None


def of_cycle(text, told, file):
    """The definitions on a cycle, with their places, and the parts without names in them.

    A part without a name is needed by the part or the definition after it alone, so it is a part of that definition. The place that the
    message has is that of the first.
    """
    nodes = told[len("cycle ") :].split(" -> ")[:-1]
    names = list(dict.fromkeys(it for it in nodes if not it.startswith("%")))
    lines = []
    for name in names[:8]:
        items = text.named(name)
        if len(items) == 1:
            line, column = text.place_of(items[0].at)
            parts = parts_before(nodes, name)
            more = f", with its part{'s' if len(parts) > 1 else ''} {', '.join(parts)}" if parts else ""
            lines.append(f"  {file}:{line}:{column}: {name}{more}")
    if len(names) > 8:
        lines.append(f"  and {len(names) - 8} definitions more")
    return lines


def parts_before(nodes, name):
    """The parts without names that stand right before a name on a cycle."""
    at, parts = nodes.index(name) - 1, []
    while nodes[at].startswith("%") and len(parts) < 8:
        parts.insert(0, nodes[at])
        at -= 1
    return parts
