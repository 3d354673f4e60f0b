"""Tells when an equation of `flat` has events: at which events of inputs and delays, and under which conditions of filters.

An answer is a set of alternatives, each a set of atoms that hold together there: the event of an input or a delay, the time 0, a condition that is true
or false, and what a function of options gives. It is what can be told without values: an event may fail to come where it says so, as where
`last` has nothing yet, but comes nowhere else.
"""

# The time 0, at which literals and empty sets have their only event.
START = ("start", -1)
NOT = "not($0)"
# Of more alternatives nothing is told.
MOST = 64


def least(alternatives):
    """Those that no other one is a part of, or None where there are too many to go on with."""
    kept = []
    for one in sorted(alternatives, key=len):
        if not any(other <= one for other in kept):
            kept.append(one)
        if len(kept) > MOST:
            return None
    return frozenset(kept)


def either(parts):
    return None if None in parts else least(frozenset().union(*parts))


def together(parts):
    whole = frozenset([frozenset()])
    for part in parts:
        if part is None or whole is None:
            return None
        whole = least({one | other for one in whole for other in part if is_possible(one | other)})
    return whole


def is_possible(atoms):
    """No condition is true and false, and nothing but literals has an event because it is the beginning."""
    return not any(("false", number) in atoms for kind, number in atoms if kind == "true")


def held(equations, number):
    """The stream of which this is the current value: `Merge x (Last x r)` is x."""
    equation = equations.get(number)
    if equation and equation.operation == "Merge":
        first, second = equation.arguments
        other = equations.get(second)
        if other and other.operation == "Last" and other.arguments[0] == first:
            return first
    return number


class When:
    """The alternatives of each equation, worked out where they are asked for."""

    def __init__(self, equations):
        self.equations, self.known = equations, {}

    def __call__(self, number):
        """What an equation needs at the same time is no cycle, so this ends."""
        todo = [number]
        while todo:
            at = todo[-1]
            left = [it for it in self.needed(at) if it not in self.known]
            if left:
                todo.extend(left)
            else:
                self.known[at] = self.alternatives(todo.pop())
        return self.known[number]

    def needed(self, number):
        """The equations whose events count for those of this one."""
        equation = self.equations.get(number)
        if equation is None or equation.operation == "Delay":
            return ()
        return equation.arguments[1:] if equation.operation == "Last" else equation.arguments

    def alternatives(self, number):
        equation, parts = self.equations.get(number), [self.known[it] for it in self.needed(number)]
        if equation is None:
            return None
        if equation.operation in ("Input", "Delay"):
            return frozenset([frozenset([("event", number)])])
        if equation.operation in ("Unit", "Empty"):
            return frozenset([frozenset([START])])
        if equation.operation == "Nil":
            return frozenset()
        if equation.operation in ("Merge", "Any"):
            return either(parts)
        if equation.operation == "OptLift":
            return together([either(parts), frozenset([frozenset([("given", number)])])])
        if equation.operation == "Filter":
            return together([*parts, frozenset([frozenset([self.truth(equation.arguments[1])])])])
        return together(parts)

    def truth(self, number):
        """The atom that a condition is true: that what it denies is false, where it denies something."""
        equation = self.equations.get(number)
        if equation and equation.operation == "Lift" and equation.text == NOT:
            return ("false", held(self.equations, equation.arguments[0]))
        return ("true", held(self.equations, number))


def at_zero(equations, yes, no):
    """The equations with an event at 0, where those of some operations have one, those of others have none, and all else has it from its arguments."""
    found, changed = set(), True
    while changed:
        changed = False
        for number, equation in equations.items():
            every = any if equation.operation in ("Merge", "Any") else all
            begins = equation.operation in yes or equation.operation not in no and every(it in found for it in equation.arguments)
            if begins and number not in found:
                found.add(number)
                changed = True
    return found


def at_start(equations):
    """The equations that surely have an event at 0."""
    return at_zero(equations, ("Unit", "Empty"), ("Input", "Nil", "Last", "Delay", "Filter", "OptLift"))


def maybe_at_start(equations):
    """The equations that may have an event at 0."""
    return at_zero(equations, ("Unit", "Empty", "Input", "OptLift"), ("Nil", "Last", "Delay"))


def events_in(atoms):
    return {it for it in atoms if it == START or it[0] == "event"}


def never_meet(first, second):
    """Whether no event of one can be seen to come with one of the other: they have no event in common, or contradict each other."""
    return not any(events_in(one) & events_in(other) and is_possible(one | other) for one in first for other in second)


def covers(first, second):
    """Whether the first has an event wherever the second has one."""
    return first is not None and second is not None and all(any(one <= other for one in first) for other in second)


def alone(equations, when, first, second):
    """The events of the first at which it comes without the second, as far as can be seen: they have no part in any alternative of it.

    A condition that other events have a part in may be false there, so such an alternative tells nothing.
    """
    shared = set().union(*(events_in(it) for it in second)) if second else set()
    kept = (it for it in first if not events_in(it) & (shared | {START}) and is_own(equations, when, it))
    return sorted(set().union(*map(events_in, kept), set()))


def is_own(equations, when, alternative):
    """Whether the conditions of an alternative follow from its own events."""
    own = {number for kind, number in alternative if kind == "event"}
    asked = (causes(equations, when, number) for kind, number in alternative if kind in ("true", "false", "given"))
    return all(it is not None and it <= own for it in asked)


def trimmed(left, ways, back):
    """What is left where those are taken away, again and again, from which no way leads on; `back` are the ways in the other direction."""
    left, todo = set(left), list(left)
    while todo:
        at = todo.pop()
        if at in left and not any(it in left for it in ways[at]):
            left.discard(at)
            todo.extend(back[at])
    return left


def asked_at(equations, number):
    """The equations by `last` that a stream needs at the same time, as operands of operations."""
    seen, todo = set(), [number]
    while todo:
        at = todo.pop()
        equation = equations.get(at)
        if at in seen or equation is None:
            continue
        seen.add(at)
        if equation.operation == "Last":
            yield at
        elif equation.operation == "Merge" and held(equations, at) != at:
            todo.append(held(equations, at))
        elif equation.operation not in ("Merge", "Any", "OptLift", "Input", "Delay"):
            todo.extend(equation.arguments)


def causes(equations, when, number):
    """The inputs whose events a stream needs, those of the amounts of delays among them. None where that is not known."""
    seen, todo = set(), [number]
    while todo:
        alternatives = when(todo.pop())
        if alternatives is None:
            return None
        for kind, event in set().union(*alternatives):
            if kind == "event" and event not in seen:
                seen.add(event)
                todo.extend(equations[event].arguments[:1] if equations[event].operation == "Delay" else ())
    return seen


def users_of(equations):
    users = {number: [] for number in equations}
    for number, equation in equations.items():
        for it in equation.arguments:
            users.setdefault(it, []).append(number)
    return users


def on_cycles(equations):
    """Those that need themselves, through `last` or a delay, and maybe some between two such cycles."""
    users, arguments = users_of(equations), {number: it.arguments for number, it in equations.items()}
    return trimmed(trimmed(equations, arguments, users), users, arguments)


def needs(equations, number, goal):
    """Whether an equation needs another one, at whatever time."""
    seen, todo = set(), [number]
    while todo:
        at = todo.pop()
        if at == goal:
            return True
        if at not in seen and at in equations:
            seen.add(at)
            todo.extend(equations[at].arguments)
    return False
