"""Whether the plan of some code is fine, found plainly: by truth tables over all conditions, and by paths that are looked for anew each time.

A plan has the updates that happen in place and the order of the steps. It is fine where no variable keeps a set that such an update changes, none
still has it where the update has made another, and each step that reads the old one stands before the update.
"""

from plain_code import UPDATES, needs, running

# With more conditions nothing is said here.
MOST_CONDITIONS = 14


def conditions_of(code):
    """The unit, each input, the condition of each filter, and the firing of each last, delay and lift of options."""
    found = ["unit"]
    for number in running(code):
        one = code.equations[number]
        if one.op == "Filter":
            found.append(("true", one.args[1]))
        elif one.op in ("Input", "Last", "Delay") or one.op == "Lift" and not one.strict:
            found.append(("fires", number))
    return list(dict.fromkeys(found))


class Formulas:
    """When each equation that runs can have an event: rows of truth values, one for each assignment of the conditions."""

    def __init__(self, code, conditions):
        self.code, self.tables = code, {}
        rows = 1 << len(conditions)
        self.all = (1 << rows) - 1
        self.rows = {it: self.row_of(place, rows) for place, it in enumerate(conditions)}
        self.unit = self.rows["unit"]

    @staticmethod
    def row_of(place, rows):
        """The row of a condition: ones and zeros by turns, so many of each."""
        size = 1 << place
        block = ((1 << size) - 1) << size
        row, width = block, 2 * size
        while width < rows:
            row |= row << width
            width *= 2
        return row

    def table(self, number, at_start=False):
        """When the equation has an event, or whether it has one at time 0."""
        if (number, at_start) not in self.tables:
            self.tables[number, at_start] = self.own(number, self.code.equations[number], at_start)
        return self.tables[number, at_start]

    def own(self, number, one, at_start):
        if one.op in ("Unit", "Empty"):
            return self.unit
        if one.op == "Nil" or at_start and one.op in ("Last", "Delay"):
            return 0
        if one.op == "Input":
            return self.rows["fires", number]
        later = self.all & ~self.unit
        if one.op == "Delay":
            return later & self.rows["fires", number]
        if one.op == "Last":
            fires = self.all if self.starts(one.args[0]) else self.rows["fires", number]
            return later & self.table(one.args[1]) & fires
        given = [self.table(it, at_start) for it in one.args]
        if one.op in ("Merge", "Any") or one.op == "Lift" and not one.strict:
            either = 0
            for it in given:
                either |= it
            return either & (self.rows["fires", number] if one.op == "Lift" else self.all)
        both = self.all if one.op != "Filter" else self.rows["true", one.args[1]]
        for it in given:
            both &= it
        return both

    def starts(self, number):
        return not self.unit & ~self.table(number, True)

    def implies(self, a, b):
        return a == b or not self.table(a) & ~self.table(b)

    def together(self, a, b):
        return bool(self.table(a) & self.table(b))


class Paths:
    """The sets, maps and queues of some code, where they go, and what shares them."""

    def __init__(self, code, formulas):
        self.code, self.formulas, self.chosen = code, formulas, set(code.in_place)
        self.variables = [it for it in running(code) if len(self.of(it).of) > 1]
        self.kept = sorted({self.of(it).args[0] for it in self.variables if self.of(it).op == "Last"})
        self.roots = {it: self.reaching(it) for it in self.variables}
        self.shared = self.shares()

    def of(self, number):
        return self.code.equations[number]

    def passed(self, number):
        """The variables that an equation hands on, each with the place at which it enters."""
        one = self.of(number)
        places = {"Merge": (0, 1), "Filter": (0,), "Pick": (1, 2)}.get(one.op, (0,) if number in self.chosen else ())
        return [(place, one.args[place]) for place in places]

    def is_root(self, number):
        return self.of(number).op in ("Last", "Empty") or self.of(number).op in UPDATES and number not in self.chosen

    def reaching(self, number):
        """The roots from which a path leads to a variable."""
        seen, left = set(), [number]
        while left:
            at = left.pop()
            if at not in seen:
                seen.add(at)
                left += [it for _, it in self.passed(at)]
        return {it for it in seen if self.is_root(it)}

    def last_of(self, number):
        """The variables whose last value a variable can have."""
        return {self.of(it).args[0] for it in self.roots[number] if self.of(it).op == "Last"}

    def shares(self):
        """The pairs of stored variables that may have one set. More are added until nothing changes."""
        found, size = {(it, it) for it in self.kept}, 0
        while len(found) != size:
            size = len(found)
            for a in self.kept:
                for b in self.kept:
                    lasts = any((u, v) in found for u in self.last_of(a) for v in self.last_of(b))
                    if self.roots[a] & self.roots[b] or lasts or any((u, b) in found for u in self.last_of(a)):
                        found |= {(a, b), (b, a)}
        return found

    def alias(self, a, b):
        both_last = self.of(a).op == self.of(b).op == "Last"
        return a == b or both_last and (self.of(a).args[0], self.of(b).args[0]) in self.shared

    def may_enter(self, update, number, place):
        """Whether the old set of an update may come into an equation at this argument."""
        one = self.of(number)
        if number == update:
            return False
        if one.op == "Merge" and place == 1:
            return one.args[0] != one.args[1] and not self.formulas.implies(update, one.args[0])
        return True

    def bypass(self, update):
        """The variables that may have the old set of an update at its time, not by the update."""
        source = self.of(update).args[0]
        begun = [it for it in self.variables if self.is_root(it) and any(self.alias(it, root) for root in self.roots[source])]
        seen, left = set(), begun
        while left:
            at = left.pop()
            if at not in seen:
                seen.add(at)
                left += [it for it in self.variables for place, given in self.passed(it) if given == at and self.may_enter(update, it, place)]
        return {it for it in seen if self.formulas.together(update, it)}

    def uses(self, variable, update):
        """The steps that read a variable, or hand it on, and so have to stand before the update that changes it."""
        for number in running(self.code):
            one = self.of(number)
            for place, given in enumerate(one.args):
                if given == variable and self.takes(number, one, place, update):
                    yield number
        for place, (_, number) in enumerate(self.code.outputs):
            if number == variable:
                yield len(self.code.equations) + place

    def takes(self, number, one, place, update):
        if one.op == "Merge":
            return place == 0 or one.args[0] == one.args[1] or not self.formulas.implies(update, one.args[0])
        if one.op in UPDATES:
            return place == 0 and number != update
        return one.op == "Lift" or one.op == "Filter" and place == 0 or one.op == "Pick" and place > 0

    def is_lost(self, update):
        """Whether a variable keeps the old set of an update, or still has it where the update has made another."""
        if self.bypass(update) & set(self.kept):
            return True
        before = self.last_of(self.of(update).args[0])
        sharing = {v for v in self.kept if any((u, v) in self.shared for u in before)}
        return any(not self.formulas.implies(update, v) for v in sharing)


def pairs_of(code, paths):
    """The pairs of steps of which the first has to stand before the second."""
    for number in running(code):
        yield from ((it, number) for it in needs(code.equations[number]))
    for place, (_, number) in enumerate(code.outputs):
        yield number, len(code.equations) + place
    for update in code.in_place:
        for variable in paths.bypass(update):
            yield variable, update
            yield from ((it, update) for it in paths.uses(variable, update))


def is_fine(code):
    """Whether the plan of code that is well typed and has no cycle is fine, or None where there are too many conditions to tell."""
    steps = running(code) + [len(code.equations) + place for place in range(len(code.outputs))]
    if sorted(code.steps) != sorted(steps):
        return False
    at = {step: place for place, step in enumerate(code.steps)}
    if not code.in_place:
        return all(at[a] < at[b] for a, b in pairs_of(code, None))
    conditions = conditions_of(code)
    if len(conditions) > MOST_CONDITIONS:
        return None
    paths = Paths(code, Formulas(code, conditions))
    return not any(map(paths.is_lost, code.in_place)) and all(at[a] < at[b] for a, b in pairs_of(code, paths))
