"""A second reading of derivations, as slow as it is plain: each rule says which facts it uses, place by place, and all choices are tried.

What tools/check-why answers is compared with it. The equations, the operations and the printed values are those of tests/solved.
"""

import itertools
import re
from collections import namedtuple

Event = namedtuple("Event", "kind number time text")
Silent = namedtuple("Silent", "kind number first last")
Gap = namedtuple("Gap", "kind first last")
Pending = namedtuple("Pending", "kind number time due")

MOST = (1 << 63) - 1
PIECE = re.compile(r'Set\(|Map\(|Queue\(|, | -> |\)|true|false|\(\)|-?[0-9]+|"(?:[^"\\]|\\["\\ntr])*"', re.DOTALL)
FACT = re.compile(
    r"%(?P<event>[0-9]+) (?:(?P<a>\S+) )?at (?P<at>[0-9]+) = (?P<value>.+)"
    r"|%(?P<silent>[0-9]+) (?:(?P<b>\S+) )?silent (?P<first>[0-9]+) to (?P<last>[0-9]+)"
    r"|gap (?P<from>[0-9]+) to (?P<to>[0-9]+)"
    r"|%(?P<pending>[0-9]+) (?:(?P<c>\S+) )?pending after (?P<after>[0-9]+): (?P<due>none|[0-9]+)",
    re.DOTALL,
)
UPDATES = ("SetAdd", "SetRemove", "MapAdd", "MapRemove", "QueueAdd", "QueueTake")
COMPUTES = ("Filter", "Pick", "Lift", "OptLift", *UPDATES)
MISSES = ("Time", "Filter", "Pick", "Lift", *UPDATES)
JOINS = ("Any", "Merge", "OptLift")


def named_as(number, names):
    return f"%{number} {names[number]}" if names.get(number) else f"%{number}"


def text_of(fact, names):
    """The text of a fact, by the names of the equations."""
    if fact.kind == "gap":
        return f"gap {fact.first} to {fact.last}"
    name = named_as(fact.number, names)
    if fact.kind == "event":
        return f"{name} at {fact.time} = {fact.text}"
    if fact.kind == "silent":
        return f"{name} silent {fact.first} to {fact.last}"
    return f"{name} pending after {fact.time}: {'none' if fact.due is None else fact.due}"


def line_of(place, fact, by, names):
    return f"#{place} {text_of(fact, names)}" + (" by" + "".join(f" #{number}" for number in by) if by else "") + "\n"


def fact_of(text):
    """The fact that a text may be, or None."""
    found = FACT.fullmatch(text)
    if not found:
        return None
    if found["event"]:
        return Event("event", int(found["event"]), int(found["at"]), found["value"])
    if found["silent"]:
        return Silent("silent", int(found["silent"]), int(found["first"]), int(found["last"]))
    if found["from"]:
        return Gap("gap", int(found["from"]), int(found["to"]))
    return Pending("pending", int(found["pending"]), int(found["after"]), None if found["due"] == "none" else int(found["due"]))


def times_of(fact):
    return [part for part in fact[1 if fact.kind == "gap" else 2 :] if isinstance(part, int)]


class Plain:
    """Which facts follow, for a slice. `solved` is the script tests/solved; `events` has the events of the inputs by time and number.

    The rules have the names that docs/DERIVATIONS.md gives them.
    """

    def __init__(self, solved, equations, members, events, used):
        self.solved, self.equations, self.events, self.members = solved, equations, events, members
        # How often a rule was used, by its name and an operation.
        self.used = used
        self.delays = [number for number in sorted(members) if equations[number].op == "Delay"]

    # Values

    def value(self, text):
        """The value that a text spells, which has been found right."""
        pieces = PIECE.findall(text)
        if pieces[0] not in ("Set(", "Map(", "Queue("):
            return self.solved.scalar(text)
        parts = [self.solved.scalar(piece) for piece in pieces[1:] if piece not in (", ", " -> ", ")")]
        if pieces[0] == "Queue(":
            return self.solved.Queue(tuple(parts))
        return frozenset(parts) if pieces[0] == "Set(" else dict(zip(parts[::2], parts[1::2]))

    def told(self, fact):
        return self.value(fact.text) if fact.kind == "event" else None

    def at_once(self, equation, values, time):
        """What an operation makes of what its arguments have at one time; None where that is no event or a fault."""
        op, all_there = equation.op, all(value is not None for value in values)
        if op == "Any":
            return () if any(value is not None for value in values) else None
        if op == "Merge":
            return values[0] if values[0] is not None else values[1]
        try:
            if op == "OptLift":
                if all(value is None for value in values):
                    return None
                answer = self.solved.value_of(equation.body, [None if value is None else [value] for value in values])
                return None if answer is None else answer[0]
            if not all_there:
                return None
            if op == "Filter":
                return values[0] if values[1] else None
            if op == "Pick":
                return values[1] if values[0] else values[2]
            return self.solved.value_of(equation.body, values) if op == "Lift" else self.solved.updated(op, *values)
        except self.solved.Faults:
            return self.solved.FAULT

    # A place is a test of the fact that stands there. A rule is its name, its places, and a test of the facts that stand there.

    def happens(self, number, time):
        return lambda fact: fact.kind == "event" and fact.number == number and fact.time == time

    def none(self, number, time):
        return lambda fact: fact.kind == "silent" and fact.number == number and fact.first <= time <= fact.last

    def tells(self, number, time):
        return lambda fact: self.happens(number, time)(fact) or self.none(number, time)(fact)

    def just(self, wanted):
        return lambda fact: fact == wanted

    def makes(self, fact):
        """The rules by which an event follows."""
        number, time, equation = fact.number, fact.time, self.equations[fact.number]
        op, args = equation.op, equation.args
        says = lambda value: value is not None and value is not self.solved.FAULT and self.solved.printed(value) == fact.text
        if op == "Input":
            yield "given", [], lambda: says(self.events.get(time, {}).get(number))
        if op == "Unit":
            yield "constant", [], lambda: time == 0 and says(())
        if op == "Empty":
            yield "constant", [], lambda: time == 0 and says(self.solved.empty(equation.of))
        if op in ("Time", "Any"):
            for arg in args:
                yield "seen", [self.happens(arg, time)], lambda event: says(time if op == "Time" else ())
        if op == "Merge":
            yield "first", [self.happens(args[0], time)], lambda event: says(self.told(event))
            yield "second", [self.none(args[0], time), self.happens(args[1], time)], lambda _, event: says(self.told(event))
        if op in COMPUTES:
            places = [self.tells(arg, time) for arg in args]
            yield "computed", places, lambda *facts: says(self.at_once(equation, [self.told(it) for it in facts], time))
        if op == "Last":
            asks = self.happens(args[1], time)
            before = lambda event: event.kind == "event" and event.number == args[0] and event.time < time
            yield "last", [asks, before], lambda _, event: event.time + 1 == time and says(self.told(event))
            silent = lambda it: it.kind == "silent" and it.number == args[0] and it.first <= it.last == time - 1
            yield "last", [asks, before, silent], lambda _, event, it: it.first == event.time + 1 and says(self.told(event))
        if op == "Delay" and time > 0:
            yield "expired", [self.just(Pending("pending", number, time - 1, time))], lambda _: says(())

    def lacks(self, number, time):
        """The rules by which there is no event at a time."""
        equation = self.equations[number]
        op, args = equation.op, equation.args
        if op == "Input":
            yield "not_given", [], lambda: self.events.get(time, {}).get(number) is None
        if op == "Nil":
            yield "never", [], lambda: True
        if op in ("Unit", "Empty"):
            yield "past", [], lambda: time > 0
        if op in MISSES:
            for arg in args:
                yield "missing", [self.none(arg, time)], lambda _: True
        if op == "Filter":
            yield "not_true", [self.happens(args[1], time)], lambda event: self.told(event) is False
        if op in JOINS:
            places = [self.tells(arg, time) for arg in args]
            yield "without", places, lambda *facts: self.at_once(equation, [self.told(it) for it in facts], time) is None
        if op in ("Last", "Delay"):
            yield "at_zero", [], lambda: time == 0
        if op == "Last":
            yield "not_asked", [self.none(args[1], time)], lambda _: True
            if time > 0:
                yield "nothing_before", [self.just(Silent("silent", args[0], 0, time - 1))], lambda _: True
        if op == "Delay" and time > 0:
            yield "not_due", [lambda it: it.kind == "pending" and it.number == number and it.time == time - 1], lambda it: it.due != time

    def silences(self, fact):
        number, first, last = fact.number, fact.first, fact.last
        yield "silent_in_gap", [lambda gap: gap.kind == "gap" and gap.first <= first and last <= gap.last], lambda _: first <= last
        part = lambda it: it.kind == "silent" and it.number == number
        yield "silent_joined", [part, part], lambda a, b: first == a.first <= a.last and a.last + 1 == b.first <= b.last == last
        if first == last:
            yield from self.lacks(number, first)

    def gaps(self, fact):
        waits = lambda number: lambda it: it.kind == "pending" and it.number == number and it.time == fact.first - 1
        given = [time for time, events in self.events.items() if fact.first <= time <= fact.last and not self.members.isdisjoint(events)]
        is_after = lambda *facts: all(it.due is None or it.due > fact.last for it in facts)
        yield "gap", [waits(number) for number in self.delays], lambda *facts: 0 < fact.first <= fact.last and not given and is_after(*facts)

    def pendings(self, fact):
        number, time, due = fact.number, fact.time, fact.due
        if self.equations[number].op != "Delay":
            return
        amount, reset = self.equations[number].args
        for sets in (reset, number):
            event = self.happens(sets, time)
            amounts = self.happens(amount, time)
            yield "set", [amounts, event], lambda it, _: self.told(it) > 0 and time + self.told(it) == due
            yield "set_too_late", [amounts, event], lambda it, _: time + self.told(it) > MOST and due is None
            yield "cancelled", [self.none(amount, time), event], lambda *_: due is None
        quiet = [self.none(reset, time), self.none(number, time)]
        yield "none_at_zero", quiet, lambda *_: time == 0 and due is None
        if time > 0:
            yield "kept", [*quiet, self.just(Pending("pending", number, time - 1, due))], lambda *_: True
        gap = lambda it: it.kind == "gap" and it.first <= it.last == time
        before = lambda it: it.kind == "pending" and it.number == number and it.due == due
        yield "over_gap", [gap, before], lambda it, other: other.time + 1 == it.first

    def rules(self, fact):
        if fact.kind == "gap":
            return self.gaps(fact)
        if fact.number not in self.members:
            return iter(())
        return {"event": self.makes, "silent": self.silences, "pending": self.pendings}[fact.kind](fact)

    def follows(self, fact, named):
        """Whether the fact follows from just these facts: some rule has them all in its places, and no others."""
        for name, places, holds in self.rules(fact):
            choices = [[it for it in named if fits(it)] for fits in places]
            if any(set(chosen) == named and holds(*chosen) for chosen in itertools.product(*choices)):
                self.used[name, "" if fact.kind == "gap" else self.equations[fact.number].op] += 1
                return True
        return False

    # Derivations

    def verdict(self, steps, output):
        """What is wrong with a derivation, whose steps are facts with the numbers that they name: a word and a number, or nothing."""
        facts, used = [], set()
        for place, (fact, by) in enumerate(steps):
            if any(number >= place for number in by) or not self.follows(fact, {facts[number] for number in by}):
                return "wrong", place
            facts.append(fact)
            used.update(by)
        for place in range(len(facts) - 1):
            if place not in used:
                return "unused", place
        is_event = facts and facts[-1].kind == "event" and facts[-1].number == output
        return ("", 0) if is_event else ("no event", 0)
