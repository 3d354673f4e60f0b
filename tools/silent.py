"""What is likely to be wrong with a specification that is accepted, and that no message tells.

Looked for are outputs that have no event or one at most, delays that are over after one event, or are hardly ever set, or again and again, states and conditions
without a start, updates that repeat an old key or put together what comes apart, inputs and definitions that nothing needs, and updates that copy.
"""

import re
from collections import Counter

from equations import AT_START, NEVER, OFTEN, ONCE, UPDATES, how_often, read
from when import NOT, START, When, alone, asked_at, at_start, causes, covers, held, maybe_at_start, needs, never_meet, on_cycles, users_of

HOW_OFTEN = {NEVER: "never has an event", AT_START: "has an event at 0 and no other", ONCE: "has one event at most"}
COPIED = re.compile(r"^(\S+) (\d+:\d+) copied: (.*)$")
UPDATED = re.compile(r"^(\S+) (\d+:\d+) (?:in place|copied: .*)$", re.M)
CONDITION = re.compile(r"(?:gt|ge|lt|le|eq|ne|and|or|not|contains)\(")
# What is no name of a stream that is used: comments, texts, and the names that outputs are printed by.
NO_USE = re.compile(r'--[^\n]*|#[^\n]*|"(?:[^"\\\n]|\\.)*"|\bas\s+\w+')
DEFINITION = re.compile(r"\bdef\s+([^\W\d]\w*)\s*[:=]")
INPUT = re.compile(r"^in\s+([^\s:]+)\s*:")


def is_constant(number, equations):
    """An output that is meant to have its one event at 0: made of literals alone, without an input, a last or a delay."""
    seen, todo = set(), [number]
    while todo:
        at = todo.pop()
        if at in seen:
            continue
        seen.add(at)
        if at not in equations or equations[at].operation in ("Input", "Nil", "Last", "Delay", "Filter"):
            return False
        todo.extend(equations[at].arguments)
    return True


def of_outputs(equations, outputs, counts):
    for name, number in outputs:
        count = counts.get(number, OFTEN)
        if count in HOW_OFTEN and not is_constant(number, equations):
            yield f"the output {name} {HOW_OFTEN[count]}"


def called(equation):
    return equation.name or f"%{equation.number}"


def told(equation):
    """How an equation is named where it is told first: one without a name with what it is a part of."""
    return f"{called(equation)}, a part of {equation.part_of}," if equation.part_of else called(equation)


def of_delays(equations, counts):
    """A delay needs an event of its amount each time it is to be set: a literal has one at 0 and no other."""
    for equation in equations.values():
        if equation.operation == "Delay" and counts[equation.number] == ONCE:
            yield (
                f"the delay {told(equation)} has one event at most, since its amount has: "
                "`const(10, r)` has the amount 10 at each event of r"
            )


def of_inputs(source, equations):
    """Inputs that do not run, as the lines of the source have them."""
    running = {equation.name for equation in equations.values() if equation.operation == "Input"}
    for line in source.split("\n"):
        if (found := INPUT.match(line.strip())) and found[1] not in running:
            yield f"no output needs the input {found[1]}"


def of_definitions(source):
    """Definitions without parameters that stand nowhere else in the source. Functions and macros may be there to be called once."""
    text = NO_USE.sub(" ", source)
    defined = DEFINITION.findall(text)
    words = Counter(re.findall(r"\w+", text))
    for name in dict.fromkeys(defined):
        if words[name] == defined.count(name):
            yield f"nothing uses the definition {name}"


def is_empty(number, equations):
    """A set, map or queue that is empty at each of its events: it comes from empty ones alone, and nothing is added to it."""
    seen, todo = set(), [number]
    while todo:
        at = todo.pop()
        if at in seen:
            continue
        seen.add(at)
        equation = equations.get(at)
        if equation is None:
            return False
        if equation.operation == "Merge":
            todo.extend(equation.arguments)
        elif equation.operation in ("Last", "Filter", "SetRemove", "MapRemove"):
            todo.append(equation.arguments[0])
        elif equation.operation != "Empty":
            return False
    return True


def of_updates(text, equations):
    """Updates that copy, but for those of what is empty: a copy of nothing costs nothing, and is how a new empty one is made."""
    updates = {called(it): it for it in equations.values() if it.operation in UPDATES}
    for line in text.splitlines():
        if (found := COPIED.match(line)) and not (found[1] in updates and is_empty(updates[found[1]].arguments[0], equations)):
            kind = kind_of(updates[found[1]]) if found[1] in updates else "set, map or queue"
            yield f"the update {found[1]} at {found[2]} copies its {kind} each time: {found[3]}"


def kind_of(update):
    return next(it for it in ("set", "map", "queue") if update.operation.lower().startswith(it))


def of_resets(equations, counts, when):
    """A delay is set where its amount and its reset have an event at one time. Where they come from different inputs that is hardly ever.

    An amount that is an input itself may well be a field of one event with the other.
    """
    for number, equation in equations.items():
        if equation.operation != "Delay" or counts[number] in (NEVER, ONCE) or equations[equation.arguments[0]].operation == "Input":
            continue
        amount, reset = (when(it) for it in equation.arguments)
        if amount and reset and never_meet(amount, reset | {frozenset([("event", number)])}):
            yield (
                f"the delay {told(equation)} is set only where its amount and its reset have an event at one time, and these have none in common: "
                "`delay(const(10, a), merge(a, b))` is set by a, and b cancels it"
            )


def of_states(equations, when):
    """A state is read by `last`, which has nothing before the first event of the state. Each is told once, by its name where it has one."""
    starts, users, cycles, seen = at_start(equations), users_of(equations), on_cycles(equations), set()
    maybe = maybe_at_start(equations)
    for number, equation in equations.items():
        state = equation.arguments[0] if equation.operation == "Last" else None
        if number not in cycles or state in seen or not needs(equations, state, number):
            continue
        # A start of a queue is empty, and what takes from it would fault at 0.
        asking = [it for it in users[number] if equations[it].operation != "QueueTake"]
        lacking = [it for it in asking if not is_started(equations[it], number, equations, starts, when)]
        # What can have no event at 0 anyway loses none.
        if not lacking or state in starts and not any(set(equations[it].arguments) - {number} <= maybe for it in lacking):
            continue
        seen.add(state)
        name, state_told = called(equations[state]), told(equations[state])
        if state in starts:
            yield f"the state {state_told} loses an event at time 0: its start stands outside of `merge(last({name}, r), START)`"
        else:
            yield f"the state {state_told} has no start, and `last({name}, r)` has nothing before its first event: write `merge(last({name}, r), START)`"


def is_started(user, last, equations, starts, when):
    """Whether what uses a `last` has something else where that has nothing yet: at 0, or wherever the `last` could have an event."""
    if user.operation != "Merge":
        return False
    other = next((it for it in user.arguments if it != last), last)
    return other in starts or covers(when(other), when(last))


def placed(equation, show):
    """An update with its place, which `show` has."""
    name = called(equation)
    place = dict(UPDATED.findall(show)).get(name)
    return f"{name} at {place}" if place else name


def of_conditions(equations, when):
    """A condition that asks a state of several inputs by `last` is not there before the first event of that state."""
    starts, seen = at_start(equations), set()
    for equation in equations.values():
        for number in asked_at(equations, equation.arguments[1]) if equation.operation == "Filter" else ():
            state, asking = equations[number].arguments
            if state in starts or (equation.number, state) in seen or equations[state].operation != "Merge" or needs(equations, state, number):
                continue
            before, then = causes(equations, when, state), causes(equations, when, asking)
            if before is None or then is None or before <= then:
                continue
            seen.add((equation.number, state))
            name = called(equations[state])
            yield f"the filter {told(equation)} lets nothing through before the first event of {name}: `merge(last({name}, e), const(START, e))` has a start"


def is_new(equations, number):
    """The stream of which a condition asks whether it is another than before: `x != last(x, x)`, or None."""
    equation = equations[number]
    if equation.operation == "Lift" and equation.text == NOT and equations[held(equations, equation.arguments[0])].text == "eq($0, $1)":
        equation = equations[held(equations, equation.arguments[0])]
    elif equation.text != "ne($0, $1)":
        return None
    here, before = (held(equations, it) for it in equation.arguments)
    return here if equations[before].operation == "Last" and equations[before].arguments == (here, here) else None


def is_rising(equations, number):
    """The stream of which a condition asks whether it becomes true: `c && !last(c, c)`, or None."""
    equation = equations[number]
    if equation.text != "and($0, $1)":
        return None
    here, rest = (held(equations, it) for it in equation.arguments)
    before = equations[held(equations, equations[rest].arguments[0])] if equations[rest].text == NOT else None
    return here if before and before.operation == "Last" and before.arguments == (here, here) else None


def of_first(equations, when):
    """A condition that compares with the value before is not there at the first event."""
    for equation in equations.values():
        if equation.operation != "Filter":
            continue
        condition = held(equations, equation.arguments[1])
        new, rising = is_new(equations, condition), is_rising(equations, condition)
        stream = rising if new is None else new
        if stream is None or not equations[stream].name or when(stream) != when(equation.arguments[0]):
            continue
        name, first = equations[stream].name, f"the filter {told(equation)} leaves out the first event of"
        if new is not None:
            yield (
                f"{first} {name}, since its condition needs last({name}, {name}): "
                f"`merge({name} != last({name}, {name}), const(true, {name}))` counts it as new"
            )
        else:
            yield (
                f"{first} {name} also where it is true, since its condition needs last({name}, {name}): "
                f"`{name} && !merge(last({name}, {name}), const(false, {name}))` counts it as false before"
            )


def of_keys(show, equations, when):
    """An update whose set has events where its key has none does the same to the last key once more, unless a filter leaves that out.

    So does one that puts a value at the end of a queue; one that takes the first value away has nothing beside its queue.
    """
    users = users_of(equations)
    for number, equation in equations.items():
        if equation.operation not in UPDATES or len(equation.arguments) == 1:
            continue
        collection, given = when(equation.arguments[0]), [when(held(equations, it)) for it in equation.arguments[1:2]]
        given += [when_of_value(equations, when, equation.arguments[0], held(equations, it)) for it in equation.arguments[2:]]
        if collection is None or None in given:
            continue
        extra = alone(equations, when, collection, frozenset().union(*given))
        extra = [it for it in extra if not is_decided(equations, when, number, users[number], it[1])]
        if extra:
            names, kind = " and ".join(called(equations[number]) for _, number in extra[:3]), kind_of(equation)
            given = "value" if kind == "queue" else "key"
            yield f"the update {placed(equation, show)} repeats its last {given} at {names}: take its {kind} by `last` at the {given}, `merge(last({kind[0]}, {given}), START)`"


def when_of_value(equations, when, collection, value):
    """When a value of a map comes by itself. One that is made of the map comes wherever the map does, which is no reason to put it there."""
    if needs(equations, value, held(equations, collection)):
        when = When(equations)
        when.known.update({collection: frozenset(), held(equations, collection): frozenset()})
    return when(value)


def of_lasting(equations):
    """A delay for how long a condition has held is set anew wherever the condition is worked out, though it was true before."""
    for equation in equations.values():
        amount = equations[equation.arguments[0]] if equation.operation == "Delay" else None
        if amount is None or amount.operation != "Lift" or len(amount.arguments) != 1:
            continue
        source, reset = equations[amount.arguments[0]], equations[equation.arguments[1]]
        asks = source if source == reset else equations[held(equations, source.arguments[1])] if source.operation == "Filter" else None
        if reset.name and reset == asks and reset.operation == "Lift" and CONDITION.match(reset.text):
            name, was = reset.name, "true" if source.operation == "Filter" else "so"
            yield (
                f"the delay {told(equation)} is set anew at each event of {name}, also where it was {was} before: "
                f"`filter({name}, merge({name} != last({name}, {name}), const(true, {name})))` has its changes alone"
            )


def is_decided(equations, when, number, users, event):
    """Whether an equation goes through filters alone, whose conditions other events than this one have a part in."""
    for user in (equations[it] for it in users):
        if user.operation != "Filter" or user.arguments[0] != number:
            return False
        asked = causes(equations, when, user.arguments[1])
        if asked is not None and asked <= {event}:
            return False
    return bool(users)


def of_sums(equations, when):
    """A sum over the past that also comes where its summand does not adds the last one once more there."""
    for number, equation in equations.items():
        if equation.operation != "Lift" or equation.text not in ("add($0, $1)", "sub($0, $1)"):
            continue
        state, summand = equation.arguments[0], held(equations, equation.arguments[1])
        here, given = when(state), when(summand)
        if here is None or given is None or START in set().union(*given) or not needs(equations, state, number) or never_meet(here, given):
            continue
        extra = alone(equations, when, here, given)
        if extra:
            names = " and ".join(called(equations[it]) for _, it in extra[:3])
            does = "adds" if equation.text.startswith("add") else "takes off"
            yield f"the sum {told(equation)} {does} the last value of {called(equations[summand])} again at {names}: take its state by `last` at {called(equations[summand])}"


def of_fields(show, equations, when):
    """A key and its value from different inputs: where one comes alone, it goes with the last one of the other."""
    for equation in equations.values():
        if equation.operation != "MapAdd":
            continue
        key, value = (when(held(equations, it)) for it in equation.arguments[1:])
        if key and value and never_meet(key, value) and frozenset([START]) not in key | value:
            yield (
                f"the update {placed(equation, show)} puts a key of one input with the value of another: where one comes alone, it goes with the last of the other; "
                "make a pair of them first (the manual, events of several fields)"
            )


def silent(flat, show, source):
    """What is told, line by line: of what `flat` and `show` print, and of the source."""
    equations, outputs = read(flat)
    counts, when = how_often(equations), When(equations)
    yield from of_outputs(equations, outputs, counts)
    yield from of_delays(equations, counts)
    yield from of_resets(equations, counts, when)
    yield from of_lasting(equations)
    yield from of_states(equations, when)
    yield from of_conditions(equations, when)
    yield from of_first(equations, when)
    yield from of_sums(equations, when)
    yield from of_keys(show, equations, when)
    yield from of_fields(show, equations, when)
    yield from of_inputs(source, equations)
    yield from of_definitions(source)
    yield from of_updates(show, equations)
