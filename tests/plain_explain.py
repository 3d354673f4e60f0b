"""Makes derivations of events from the streams of a system that was solved, and looks whether facts are true of these streams.

Nothing here knows tools/check-why. Where a rule has a choice, dice take it.
"""

import bisect

from plain_rules import Event, Gap, Pending, Silent

MOST = (1 << 63) - 1


class Streams:
    """What happened at the equations of a slice, below a bound. `solver` is one of tests/solved that was run up to it."""

    def __init__(self, solved, solver, members, bound):
        self.printed, self.solver, self.equations, self.members = solved.printed, solver, solver.equations, members
        self.bound = bound
        self.delays = [number for number in sorted(members) if self.equations[number].op == "Delay"]
        times = {at for number in members for at in solver.streams[number] if at < bound and self.event(number, at) is not None}
        # So many times have an event of the slice, and 0.
        self.instants = sorted(times | {0})
        self.times = {number: [at for at in self.instants if self.event(number, at) is not None] for number in members}

    def event(self, number, time):
        return self.solver.streams[number].get(time)

    def latest(self, number, time):
        """The time of the latest event before this time, or None."""
        place = bisect.bisect_left(self.times[number], time)
        return self.times[number][place - 1] if place else None

    def is_instant(self, time):
        place = bisect.bisect_left(self.instants, time)
        return place < len(self.instants) and self.instants[place] == time

    def before(self, time):
        """The latest instant before this time."""
        return self.instants[bisect.bisect_left(self.instants, time) - 1]

    def after(self, time):
        """The first time from this one on that is an instant or is not below the bound."""
        place = bisect.bisect_left(self.instants, time)
        return self.instants[place] if place < len(self.instants) else self.bound

    def due(self, number, time):
        """When a delay is due by what happened up to this time: by the latest event of its second argument or of itself."""
        amount, reset = self.equations[number].args
        sets = [at for at in (self.latest(reset, time + 1), self.latest(number, time + 1)) if at is not None]
        led = self.event(amount, max(sets)) if sets else None
        return max(sets) + led if led is not None and max(sets) + led <= MOST else None

    def is_silent(self, number, first, last):
        place = bisect.bisect_left(self.times[number], first)
        return place == len(self.times[number]) or self.times[number][place] > last

    def is_true(self, fact):
        """Whether a fact holds as far as it speaks of times below the bound."""
        if fact.kind == "event":
            value = self.event(fact.number, fact.time) if fact.time < self.bound else None
            return fact.time >= self.bound or value is not None and self.printed(value) == fact.text
        if fact.kind == "silent":
            return self.is_silent(fact.number, fact.first, fact.last)
        if fact.kind == "gap":
            return all(self.is_silent(number, fact.first, fact.last) for number in self.members)
        return fact.time >= self.bound or self.due(fact.number, fact.time) == fact.due


class Explainer:
    """Steps that end in an event: facts with the numbers of those that they follow from. Each is there once, and made where it is needed."""

    def __init__(self, streams, dice):
        self.streams, self.dice, self.equations = streams, dice, streams.equations
        self.steps, self.places = [], {}

    def put(self, fact, named):
        """The number of a fact that follows from those of these numbers."""
        if fact not in self.places:
            by = list(dict.fromkeys(named))
            self.dice.shuffle(by)
            if by and self.dice.random() < 0.1:
                by.append(self.dice.choice(by))
            self.places[fact] = len(self.steps)
            self.steps.append((fact, by))
        return self.places[fact]

    # Events

    def event(self, number, time):
        value = self.streams.event(number, time)
        fact = Event("event", number, time, self.streams.printed(value))
        return self.places[fact] if fact in self.places else self.put(fact, self.why(number, time))

    def why(self, number, time):
        """The facts that an event follows from."""
        op, _, _, args = self.equations[number]
        if op in ("Input", "Unit", "Empty"):
            return []
        if op in ("Time", "Any"):
            return [self.event(self.dice.choice([arg for arg in args if self.streams.event(arg, time) is not None]), time)]
        if op == "Merge":
            if self.streams.event(args[0], time) is not None:
                return [self.event(args[0], time)]
            return [self.none(args[0], time), self.event(args[1], time)]
        if op == "Last":
            latest = self.streams.latest(args[0], time)
            between = [self.silent(args[0], latest + 1, time - 1)] if latest + 1 < time else []
            return [self.event(args[1], time), self.event(args[0], latest), *between]
        if op == "Delay":
            return [self.pending(number, time - 1)]
        return self.told(args, time)

    def told(self, numbers, time):
        return [self.none(number, time) if self.streams.event(number, time) is None else self.event(number, time) for number in numbers]

    # That there are none

    def none(self, number, time):
        """That there is none at this time: alone, or with times before, or with all between two instants."""
        if not self.streams.is_instant(time):
            first, last = self.streams.before(time) + 1, self.streams.after(time) - 1
            return self.silent(number, self.dice.randint(first, time), self.dice.randint(time, last))
        latest = self.streams.latest(number, time)
        if self.dice.random() < 0.2:
            return self.silent(number, self.dice.randint(0 if latest is None else latest + 1, time), time)
        return self.silent(number, time, time)

    def silent(self, number, first, last):
        fact = Silent("silent", number, first, last)
        if fact in self.places:
            return self.places[fact]
        middle = self.cut(first, last)
        if middle is not None:
            return self.put(fact, [self.silent(number, first, middle), self.silent(number, middle + 1, last)])
        if self.streams.is_instant(first):
            return self.put(fact, self.why_none(number, first))
        if first == last and self.dice.random() < 0.1 and self.equations[number].op in ("Input", "Nil", "Unit", "Empty"):
            return self.put(fact, [])
        return self.put(fact, [self.gap(first, last)])

    def cut(self, first, last):
        """Where an interval is put together: at an instant in it, before or after."""
        instants = self.streams.instants
        low, high = bisect.bisect_left(instants, first), bisect.bisect_right(instants, last)
        if low == high:
            return self.dice.randint(first, last - 1) if first < last and self.dice.random() < 0.1 else None
        at = instants[self.dice.randrange(low, high)]
        cuts = [middle for middle in (at - 1, at) if first <= middle < last]
        return self.dice.choice(cuts) if cuts else None

    def why_none(self, number, time):
        """The facts by which there is none at an instant."""
        op, _, _, args = self.equations[number]
        if op in ("Input", "Nil", "Unit", "Empty"):
            return []
        if op in ("Merge", "Any", "OptLift"):
            return self.told(args, time)
        if op == "Last":
            return self.why_no_last(args, time)
        if op == "Delay":
            return [] if time == 0 else [self.pending(number, time - 1)]
        missing = [arg for arg in args if self.streams.event(arg, time) is None]
        if op == "Filter" and (not missing or args[1] not in missing and self.dice.random() < 0.5 and not self.streams.event(args[1], time)):
            return [self.event(args[1], time)]
        return [self.none(self.dice.choice(missing), time)]

    def why_no_last(self, args, time):
        if time == 0:
            return []
        ways = []
        if self.streams.event(args[1], time) is None:
            ways.append(lambda: self.none(args[1], time))
        if self.streams.latest(args[0], time) is None:
            ways.append(lambda: self.silent(args[0], 0, time - 1))
        return [self.dice.choice(ways)()]

    # What is pending

    def gap(self, first, last):
        """That nothing happens between two instants, at these times or at more around them."""
        first, last = (self.dice.choice([it, widest]) for it, widest in ((first, self.streams.before(first) + 1), (last, self.streams.after(last) - 1)))
        return self.put(Gap("gap", first, last), [self.pending(number, first - 1) for number in self.streams.delays])

    def pending(self, number, time):
        fact = Pending("pending", number, time, self.streams.due(number, time))
        return self.places[fact] if fact in self.places else self.put(fact, self.why_pending(number, time))

    def why_pending(self, number, time):
        amount, reset = self.equations[number].args
        if not self.streams.is_instant(time):
            before = self.streams.before(time)
            start = before if self.dice.random() < 0.7 else self.dice.randint(before, time - 1)
            gap = self.put(Gap("gap", start + 1, time), [self.pending(delay, start) for delay in self.streams.delays])
            return [gap, self.pending(number, start)]
        sets = [it for it in (reset, number) if self.streams.event(it, time) is not None]
        if sets:
            return [*self.told([amount], time), self.event(self.dice.choice(sets), time)]
        before = [self.pending(number, time - 1)] if time > 0 else []
        return [self.none(reset, time), self.none(number, time), *before]
