"""From which facts another follows."""

from .equations import OF_ALL, OF_ANY
from .facts import Event, Gap, Pending, Silent
from .failures import Wrong, needs, short
from .values import GREATEST, Fault, applied, empty_of, printed, updated

UNUSED = "it names a fact that its rule does not use"
# What an event of each operation follows from, and what it follows from that there is none.
EVENT_RULES = {
    "Input": "an event of an input follows from no fact: the trace has it",
    "Nil": "a nil has no event",
    "Unit": "a unit has its one event at 0, which follows from no fact",
    "Empty": "an empty set, map or queue has its one event at 0, which follows from no fact",
    "Time": "a time has an event by one of its argument at the same time, and by no other fact",
    "Any": "an any has an event by one of one argument at the same time, and by no other fact",
    "Merge": "a merge has an event by one of its first argument at the same time; or by one of its second, where the first is silent",
    "Last": "a last has an event by one of its second argument then, one of its first before, and that the first is silent at just the times between",
    "Delay": "a delay has an event by what is pending after the time before: just this time",
}
SILENT_RULES = {
    "Input": "that an input is silent at a time follows from no fact: the trace has no event of it",
    "Nil": "that a nil is silent at a time follows from no fact",
    "Unit": "that a unit is silent follows from no fact, at a time above 0",
    "Empty": "that an empty set, map or queue is silent follows from no fact, at a time above 0",
    "Filter": "a filter is silent where one of its arguments is, or where its condition is false",
    "Last": "a last is silent at 0, where its second argument is, or where its first is from 0 to just the time before",
    "Delay": "a delay is silent at 0, or where another time or none is pending after the time before",
}
ONE_SILENT = "it is silent where one of its arguments is, and by no other fact"
LONG_SILENT = "a silence from one time to another follows from one gap that has all these times, or from two of the same equation that join"
GAP_RULE = "a gap begins above 0 and follows from what is pending, after the time before, for each delay of the slice and for nothing else"
PENDING_RULE = (
    "what is pending after a time follows from what the delay's first argument has then and an event of its second or of itself; or, where these two "
    "are silent, from what was pending after the time before, and at 0 from nothing more; or from a gap up to this time and what was pending just before it"
)


def events_of(named, number, time):
    return [fact for fact in named if isinstance(fact, Event) and fact.equation.number == number and fact.time == time]


def silents_of(named, number, time):
    return [fact for fact in named if isinstance(fact, Silent) and fact.equation.number == number and fact.first <= time <= fact.last]


def is_silent(named, number, time):
    """Just one fact is named, and it says that this equation has no event at the time."""
    return len(named) == 1 and len(silents_of(named, number, time)) == 1


class Rules:
    """Which facts follow, for a slice and the events of a trace."""

    def __init__(self, system, trace, members):
        self.trace, self.members = trace, members
        self.inputs = [system.equations[number] for number in sorted(members) if system.equations[number].operation == "Input"]
        self.delays = [system.equations[number] for number in sorted(members) if system.equations[number].operation == "Delay"]
        self.equations = system.equations
        self.values = {}  # of the events that follow

    def follow(self, fact, named):
        """Fails where a fact does not follow from just these facts, which all follow."""
        if isinstance(fact, Gap):
            self.gap(fact, named)
            return
        if fact.equation.number not in self.members:
            raise Wrong(f"the output does not depend on {fact.equation}")
        if isinstance(fact, Event):
            self.event(fact, named)
        elif isinstance(fact, Silent):
            self.silent(fact, named)
        else:
            self.pending(fact, named)

    def told(self, arguments, time, named):
        """What the arguments have at a time, None where they are silent, by all of the facts: one for each place of an argument at most."""
        values, used = [], set()
        for number in arguments:
            own = events_of(named, number, time) or silents_of(named, number, time)
            needs(own, f"it names no fact that says what {self.equations[number]} has at {time}")
            needs(len(own) <= arguments.count(number), UNUSED)
            values.append(self.values[own[0]] if isinstance(own[0], Event) else None)
            used.update(own)
        needs(used == named, UNUSED)
        return values

    def applied(self, equation, values):
        """What the function of a lift makes of these, where None is no event."""
        strict = equation.operation == "Lift"
        try:
            answer = applied(equation.body, values if strict else [None if value is None else (value,) for value in values])
        except Fault as fault:
            raise Wrong(f"the function of {equation} has the fault {fault} there") from None
        return answer if strict else None if answer is None else answer[0]

    @staticmethod
    def updated(equation, values):
        try:
            return updated(equation.operation, *values)
        except Fault as fault:
            raise Wrong(f"{equation} has the fault {fault} there") from None

    # -- Events

    def event(self, fact, named):
        equation = fact.equation
        if equation.operation in (*OF_ALL, "OptLift"):
            value = self.computed(equation, fact.time, named)
        else:
            value = self.other_event(equation, fact.time, named)
            needs(value is not None, EVENT_RULES[equation.operation])
        needs(printed(value) == fact.text, f"the value is {short(printed(value))}")
        self.values[fact] = value

    def computed(self, equation, time, named):
        """The value by what all arguments have at the same time."""
        operation, values = equation.operation, self.told(equation.arguments, time, named)
        if operation == "OptLift":
            needs(any(value is not None for value in values), "no argument has an event")
            value = self.applied(equation, values)
            needs(value is not None, f"the function of {equation} gives nothing there")
            return value
        needs(all(value is not None for value in values), "an argument is silent")
        if operation == "Filter":
            needs(values[1], "the condition is false")
            return values[0]
        if operation == "Pick":
            return values[1 if values[0] else 2]
        return self.applied(equation, values) if operation == "Lift" else self.updated(equation, values)

    def other_event(self, equation, time, named):
        """The value, or None where there is no event by these facts."""
        operation, arguments = equation.operation, equation.arguments
        if operation == "Input":
            return None if named else self.trace.events[equation.name].at(time)
        if operation in ("Unit", "Empty"):
            at_zero = () if operation == "Unit" else empty_of(equation.kind)
            return at_zero if time == 0 and not named else None
        if operation in ("Time", "Any"):
            seen = len(named) == 1 and any(events_of(named, number, time) for number in arguments)
            return (time if operation == "Time" else ()) if seen else None
        if operation == "Merge":
            return self.merged(*arguments, time, named)
        if operation == "Last":
            return self.lasting(*arguments, time, named)
        return () if operation == "Delay" and time > 0 and named == {Pending(equation, time - 1, time)} else None

    def merged(self, first, second, time, named):
        own = events_of(named, first, time)
        if not own:
            own = events_of(named, second, time)
            if len(silents_of(named, first, time)) != 1 or len(named) != 2:
                return None
        elif len(named) != 1:
            return None
        return self.values[own[0]] if len(own) == 1 else None

    def lasting(self, source, trigger, time, named):
        asks = events_of(named, trigger, time)
        before = [fact for fact in named if isinstance(fact, Event) and fact.equation.number == source and fact.time < time]
        if len(asks) != 1 or len(before) != 1:
            return None
        between = Silent(self.equations[source], before[0].time + 1, time - 1)
        used = {*asks, *before, *([between] if between.first <= between.last else [])}
        return self.values[before[0]] if used == named else None

    # -- That there are none

    def silent(self, fact, named):
        needs(fact.first <= fact.last, "it is silent at no time")
        if self.is_in_gap(fact, named) or self.is_joined(fact, named):
            return
        needs(fact.first == fact.last, LONG_SILENT)
        operation = fact.equation.operation
        if operation in OF_ANY:
            self.without(fact.equation, fact.first, named)
        else:
            needs(self.lacks(fact.equation, fact.first, named), SILENT_RULES.get(operation, ONE_SILENT))

    @staticmethod
    def is_in_gap(fact, named):
        return len(named) == 1 and any(isinstance(gap, Gap) and gap.first <= fact.first and fact.last <= gap.last for gap in named)

    @staticmethod
    def is_joined(fact, named):
        """By one silence up to some time, and one from the time after it on."""
        parts = [part for part in named if isinstance(part, Silent) and part.equation == fact.equation]
        if len(parts) != 2 or len(named) != 2:
            return False
        low, high = sorted(parts, key=lambda part: part.first)
        return low.first == fact.first and low.last + 1 == high.first and high.last == fact.last

    def without(self, equation, time, named):
        """A merge, an any or an optional lift that has no event, by what all arguments have."""
        values = self.told(equation.arguments, time, named)
        if any(value is not None for value in values):
            needs(equation.operation == "OptLift", "an argument has an event")
            needs(self.applied(equation, values) is None, f"the function of {equation} gives a value there")

    def lacks(self, equation, time, named):
        operation, arguments = equation.operation, equation.arguments
        if operation == "Input":
            return not named and self.trace.events[equation.name].at(time) is None
        if operation == "Nil":
            return not named
        if operation in ("Unit", "Empty"):
            return not named and time > 0
        if operation in ("Last", "Delay") and time == 0 and not named:
            return True
        if operation == "Delay":
            return len(named) == 1 and any(
                isinstance(fact, Pending) and fact.equation == equation and fact.time == time - 1 and fact.due != time for fact in named
            )
        if operation == "Last":
            return is_silent(named, arguments[1], time) or (time > 0 and named == {Silent(self.equations[arguments[0]], 0, time - 1)})
        if operation == "Filter" and len(named) == 1 and any(self.values[fact] is False for fact in events_of(named, arguments[1], time)):
            return True
        return any(is_silent(named, number, time) for number in arguments)

    # -- What is pending

    def gap(self, fact, named):
        needs(0 < fact.first <= fact.last, GAP_RULE)
        for equation in self.inputs:
            time = self.trace.events[equation.name].first_from(fact.first)
            needs(time is None or time > fact.last, f"{equation} has an event at {time}")
        used = set()
        for delay in self.delays:
            own = [it for it in named if isinstance(it, Pending) and it.equation == delay and it.time == fact.first - 1]
            needs(len(own) == 1, f"it has to name what is pending for {delay} after {fact.first - 1}")
            needs(own[0].due is None or own[0].due > fact.last, f"{delay} is due at {own[0].due}")
            used.update(own)
        needs(used == named, GAP_RULE)

    def pending(self, fact, named):
        delay = fact.equation
        needs(delay.operation == "Delay", f"{delay} is no delay")
        if not self.is_set(fact, named) and not self.is_kept(fact, named) and not self.is_over_gap(fact, named):
            raise Wrong(PENDING_RULE)

    def is_set(self, fact, named):
        """The second argument or the delay has an event: what is pending is what the amount says, or nothing."""
        amount, reset = fact.equation.arguments
        sets = events_of(named, reset, fact.time) + events_of(named, fact.equation.number, fact.time)
        for amounts in (events_of(named, amount, fact.time), silents_of(named, amount, fact.time)):
            for own in amounts:
                if any({own, it} == named for it in sets):
                    needs(self.due_by(own, fact.time) == fact.due, "the amount leads to another time, or to none")
                    return True
        return False

    def due_by(self, own, time):
        """What an amount's event or its silence leads to, if it is a time."""
        if isinstance(own, Silent):
            return None
        needs(self.values[own] > 0, "the amount is not above 0, which is a fault")
        return time + self.values[own] if time + self.values[own] <= GREATEST else None

    @staticmethod
    def is_kept(fact, named):
        """The second argument and the delay are silent, and what was pending before still is."""
        reset, own = fact.equation.arguments[1], fact.equation.number
        before = {Pending(fact.equation, fact.time - 1, fact.due)} if fact.time > 0 else set()
        if fact.time == 0 and fact.due is not None or not before <= named:
            return False
        silents = [(silents_of(named, number, fact.time)) for number in (reset, own)]
        return any({a, b} | before == named for a in silents[0] for b in silents[1])

    @staticmethod
    def is_over_gap(fact, named):
        gaps = [gap for gap in named if isinstance(gap, Gap) and gap.last == fact.time]
        return any(named == {gap, Pending(fact.equation, gap.first - 1, fact.due)} for gap in gaps)
