"""Shows a derivation as a tree that a person reads: an event, and below it, further in, what it follows from.

Facts of equations without a name are folded: what they follow from stands in their place, so the tree has the names of the source. When a delay was set stands
once, and not at each time at which it stays so. What stands above is not shown again, and neither is how an earlier event of a stream came that is
being explained: it came in the same way. All of that is shown where the whole tree is asked for, but for what has no name.
"""

import re
from dataclasses import dataclass, replace

LINE = re.compile(r"#[0-9]+ (.*?)(?: by((?: #[0-9]+)+))?", re.DOTALL)
FACT = re.compile(
    r"%(?P<event>[0-9]+) (?:(?P<a>\S+) )?at (?P<at>[0-9]+) = (?P<value>.+)"
    r"|%(?P<silent>[0-9]+) (?:(?P<b>\S+) )?silent (?P<first>[0-9]+) to (?P<last>[0-9]+)"
    r"|gap (?P<from>[0-9]+) to (?P<to>[0-9]+)"
    r"|%(?P<pending>[0-9]+) (?:(?P<c>\S+) )?pending after (?P<after>[0-9]+): (?P<due>none|[0-9]+)",
    re.DOTALL,
)
# So many facts stand below one where the tree is not whole.
MOST = 12


@dataclass(frozen=True)
class Fact:
    kind: str
    number: int  # of the equation; -1 for a gap, and for an output that has another name than its equation
    name: str  # "" where it has none
    first: int
    last: int
    text: str  # a value, or when a delay is due
    grounds: tuple


class NoDerivation(Exception):
    """A text is no derivation as it is printed."""


def fact_of(line):
    found = LINE.fullmatch(line)
    fact = FACT.fullmatch(found[1]) if found else None
    if not fact:
        raise NoDerivation(line)
    grounds = tuple(dict.fromkeys(int(it[1:]) for it in (found[2] or "").split()))
    if fact["event"]:
        return Fact("event", int(fact["event"]), fact["a"] or "", int(fact["at"]), int(fact["at"]), fact["value"], grounds)
    if fact["silent"]:
        return Fact("silent", int(fact["silent"]), fact["b"] or "", int(fact["first"]), int(fact["last"]), "", grounds)
    if fact["from"]:
        return Fact("gap", -1, "", int(fact["from"]), int(fact["to"]), "", grounds)
    return Fact("pending", int(fact["pending"]), fact["c"] or "", int(fact["after"]), int(fact["after"]), fact["due"], grounds)


def facts_of(text):
    """The facts of a derivation, in order."""
    facts = [fact_of(line) for line in text.split("\n")[:-1]]
    if not facts or any(ground >= number for number, fact in enumerate(facts) for ground in fact.grounds):
        raise NoDerivation(text)
    return facts


@dataclass(frozen=True)
class Row:
    """A line of the tree: how far in it stands, its text, and the fact that it tells, None where it tells no event for the first time."""

    depth: int
    text: str
    fact: object


def times(fact):
    return str(fact.first) if fact.first == fact.last else f"{fact.first} to {fact.last}"


class Tree:
    """The tree of a derivation of an event of this output. `equations` are those of its slice, by number."""

    def __init__(self, facts, equations, output, is_whole=False):
        self.facts, self.equations, self.output, self.is_whole = facts, equations, output, is_whole
        self.earliest = []
        for fact in facts:
            self.earliest.append(min([fact.first, *(self.earliest[it] for it in fact.grounds)]))

    def called(self, fact):
        """The name of a fact's equation, or of what it is a part of."""
        equation = self.equations.get(fact.number)
        owner = equation.part_of if equation else ""
        return fact.name or (f"a part of {owner}" if owner else f"%{fact.number}")

    # What stands below a fact

    def set_at(self, number):
        """The fact that says when a delay was set, or cancelled, for one that says that it stays so."""
        while True:
            before = [it for it in self.facts[number].grounds if self.facts[it].kind == "pending"]
            if not before:
                return number
            number = before[0]

    def is_shown(self, fact):
        return fact.kind in ("gap", "pending") or bool(fact.name) or fact.kind == "silent" and fact.first < fact.last

    def below(self, number):
        """The facts that stand below one, each once: in the place of one that has no name stands what it follows from."""
        found, passed, todo = {}, set(), [*reversed(self.grounds(number))]
        while todo:
            at = todo.pop()
            if at in passed:
                continue
            passed.add(at)
            if self.is_shown(self.facts[at]):
                found[at] = None
            else:
                todo += reversed(self.grounds(at))
        return list(found)

    def grounds(self, number):
        """The facts that one follows from, as far as they are shown. Where nothing happens no stream has an event, and that says enough."""
        fact = self.facts[number]
        if self.is_whole:
            return fact.grounds
        if fact.kind == "gap" or fact.kind == "silent" and fact.first < fact.last:
            return []
        found = [it for it in fact.grounds if fact.kind != "silent" or self.facts[it].kind != "gap"]
        return [self.set_at(it) if self.facts[it].kind == "pending" else it for it in found]

    # How it is written

    def text(self, number, stays):
        fact = self.facts[number]
        if fact.kind == "event":
            return f"{fact.first}: {self.called(fact)} = {fact.text}"
        if fact.kind == "silent":
            return f"{times(fact)}: no event of {self.called(fact)}"
        if fact.kind == "gap":
            return f"{times(fact)}: nothing happens"
        due = "is not set" if fact.text == "none" else f"is set for {fact.text}"
        return f"{fact.first}: {self.called(fact)} {due}" + (", and is not set anew" if stays else "")

    def stays(self, number, below):
        """Whether what stands below a fact is when a delay was set, which it stayed."""
        return not self.is_whole and self.facts[below].kind == "pending" and below not in self.facts[number].grounds

    def rows(self):
        """The lines, from the event on."""
        # What was shown, and how many events of each equation are explained on the way to a line.
        shown, path = set(), {}
        last = self.facts[-1]
        if last.name != self.output:
            # An output has the events of an equation that may have a name of its own.
            yield Row(0, f"{last.first}: {self.output} = {last.text}", replace(last, number=-1, name=self.output))
        todo = [(len(self.facts) - 1, 0 if last.name == self.output else 1, False)]
        while todo:
            number, depth, stays = todo.pop()
            fact = None if number is None else self.facts[number]
            if depth < 0:
                path[fact.number] -= 1
                continue
            if fact is None:
                yield Row(depth, stays, None)
                continue
            below = self.below(number)
            text = self.text(number, stays)
            if number in shown:
                yield Row(depth, text + (" (above)" if below else ""), None)
            elif fact.kind == "event" and path.get(fact.number) and below and not self.is_whole:
                back = self.earliest[number]
                yield Row(depth, text + (f" (in the same way, back to {back})" if back < fact.first else " (in the same way)"), None)
            else:
                shown.add(number)
                yield Row(depth, text, fact if fact.kind == "event" else None)
                if fact.kind == "event":
                    path[fact.number] = path.get(fact.number, 0) + 1
                    todo.append((number, -1, False))
                todo += reversed(self.lines_below(number, below, depth + 1))

    def lines_below(self, number, below, depth):
        """What is to be told below a fact: facts, each with whether it stays so; of many the first, and how many more there are."""
        few = below if self.is_whole or len(below) <= MOST else below[: MOST - 1]
        lines = [(it, depth, self.stays(number, it)) for it in few]
        if len(few) < len(below):
            back = min(self.earliest[it] for it in below)
            lines.append((None, depth, f"and {len(below) - len(few)} more facts, back to {back}"))
        return lines
