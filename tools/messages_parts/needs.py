"""Which definitions of a specification need which others, and how: for definitions that need themselves."""

from .slips import answer
from .source import NAME, TOKEN, WHOLE, short

# How a definition needs a name: as it was before, or as it is now: in the second argument of last or delay, as the condition of a filter, or in
# another way.
BEFORE, LAST, DELAY, CONDITION, NOW = "before", "last", "delay", "condition", "now"
OWN = ("merge", "default", "const", "time", "filter", "lift", "last", "delay")
OPENING, CLOSING = ("(", "[", "{"), (")", "]", "}")
WORDS = ("in", "def", "out", "as", "if", "then", "else", "true", "false")
# Of a longer way so many names are told.
MOST = 6


def is_operand(sign):
    return sign[0] == '"' or sign.isdigit() or NAME.fullmatch(sign) is not None


class Definition:
    """A definition: its name, where that stands, the block that it stands in, whether its type is written, its parameters, and what it needs."""

    def __init__(self, name, at, block):
        self.name, self.at, self.block = name, at, block
        self.has_type, self.is_macro, self.parameters, self.needs = False, False, set(), []


class Need:
    """A name that a definition needs, how, the first argument of the filter where it is a condition, and the definitions that are called with it."""

    def __init__(self, name, how, first="", called=()):
        self.name, self.how, self.first, self.called = name, how, first, called


class Open:
    """A bracket that is open: its sign, the function that is called, where its first argument begins and ends, and which one it is at."""

    def __init__(self, sign, called, start, owner):
        self.sign, self.called, self.start, self.owner = sign, called, start, owner
        self.end, self.place = None, 0


class Needs:
    """The definitions of a source. Of one that is too long to look at there are none."""

    def __init__(self, text):
        self.text, self.definitions, self.places, self.parents = text, [], {}, {0: None}
        if len(text) <= WHOLE:
            self.read([it for it in TOKEN.finditer(text) if not it[0].startswith(("--", "#"))])

    def read(self, tokens):
        self.tokens, self.open, self.owner, self.block = tokens, [], None, 0
        number = 0
        while number < len(tokens):
            sign = tokens[number][0]
            if self.begins_result(number):
                self.owner = self.open[-1].owner
            if sign in ("in", "out"):
                self.owner = None
            elif sign == "def":
                number = self.define(number + 1)
                continue
            elif sign in OPENING:
                self.enter(number)
            elif sign in CLOSING:
                self.leave()
            elif sign == "," and self.open:
                self.open[-1].place += 1
                self.open[-1].end = self.open[-1].end or tokens[number].start()
            elif self.owner and NAME.fullmatch(sign) and sign not in WORDS and not self.is_at(number - 1, "."):
                self.owner.needs.append(self.need(sign))
            number += 1

    def is_at(self, number, sign):
        return 0 <= number < len(self.tokens) and self.tokens[number][0] == sign

    def begins_result(self, number):
        """Whether the result of a macro begins here: an operand right in its block that follows another one."""
        if not (self.open and self.open[-1].sign == "{" and number):
            return False
        before, sign, at = self.tokens[number - 1][0], self.tokens[number][0], self.tokens[number].start()
        if sign in ("(", "-"):
            begins = not self.text[self.text.rfind("\n", 0, at) + 1 : at].strip()
        else:
            begins = sign == "if" or sign not in WORDS and is_operand(sign)
        return begins and (before in (")", "]", "true", "false") or before not in WORDS and is_operand(before))

    def define(self, number):
        """Takes the name, the parameters and the type of a definition. Returns where its body begins."""
        tokens = self.tokens
        if number >= len(tokens) or not NAME.fullmatch(tokens[number][0]):
            return number
        self.owner = Definition(tokens[number][0], tokens[number].start(), self.block)
        self.definitions.append(self.owner)
        self.places.setdefault((self.owner.name, self.block), self.owner)
        depth, number = 0, number + 1
        while number < len(tokens) and not (depth == 0 and tokens[number][0] in (":=", "=", "in", "def", "out")):
            sign = tokens[number][0]
            depth += (sign in OPENING) - (sign in CLOSING)
            if sign == ":" and depth == 0:
                self.owner.has_type = True
            elif sign == ":" and depth == 1:
                self.owner.parameters.add(tokens[number - 1][0])
            elif sign == "Events" and depth >= 1 and not self.owner.has_type:
                self.owner.is_macro = True
            number += 1
        return number

    def enter(self, number):
        start = self.tokens[number].end()
        called = self.tokens[number - 1][0] if number and self.tokens[number][0] == "(" and NAME.fullmatch(self.tokens[number - 1][0]) else ""
        if called and self.is_at(number - 2, "."):
            called = f"{self.tokens[number - 3][0]}.{called}"
        self.open.append(Open(self.tokens[number][0], called, start, self.owner))
        if self.tokens[number][0] == "{":
            self.parents[start] = self.block
            self.block = start

    def leave(self):
        closed = self.open.pop() if self.open else None
        if closed and closed.sign == "{":
            # What stands behind the block belongs to nothing, and its last expression to the macro.
            self.owner, self.block = None, self.parents[self.block]

    def need(self, name):
        """What is needed here, by the calls that are open."""
        how, first, called = NOW, "", []
        for it in reversed(self.open):
            if it.sign == "{":
                break
            if it.called in ("last", "delay") and it.place == 0:
                return Need(name, BEFORE)
            if how == NOW and it.called in ("last", "delay"):
                how = it.called
            elif how == NOW and it.called == "filter" and it.place == 1:
                how, first = CONDITION, self.text[it.start : it.end].strip()
            elif it.called and it.called not in OWN and "." not in it.called:
                called.append(it.called)
        return Need(name, how, first, called)

    def named(self, name, block):
        """The definition that a name means in a block, or None."""
        while block is not None:
            if (name, block) in self.places:
                return self.places[name, block]
            block = self.parents[block]
        return None

    def at(self, at):
        return next((it for it in self.definitions if it.at == at), None)

    def only(self, name):
        """The one definition of that name, or None."""
        found = [it for it in self.definitions if it.name == name]
        return found[0] if len(found) == 1 else None

    def of(self, definition):
        """What a definition needs that is defined, each with how it does."""
        for need in definition.needs:
            found = None if need.name in definition.parameters else self.named(need.name, definition.block)
            if found is not None:
                yield found, need

    def is_now(self, definition, need):
        """Whether it is needed at the same time. A macro may ask for what it is called with as it was before."""
        called = [self.named(it, definition.block) for it in need.called]
        return need.how != BEFORE and not any(it is None or it.is_macro for it in called)

    def way(self, start, is_taken):
        """The shortest way from a definition back to it, as pairs of a definition and how it needs the next one; None where there is none."""
        todo, seen = [(start, ())], {start}
        for at, before in todo:
            for found, need in self.of(at):
                if not is_taken(at, found, need):
                    continue
                way = (*before, (at, need))
                if found is start:
                    return way
                if found not in seen:
                    seen.add(found)
                    todo.append((found, way))
        return None


def of_type(text):
    """A definition that needs itself and has no written type: the way, or that a type does not help."""
    needs = Needs(text.text)
    start = needs.at(text.at)
    if start is None:
        return None
    at_once = needs.way(start, lambda at, _, need: needs.is_now(at, need))
    if at_once:
        streams = [it.name for it, _ in at_once if not it.parameters]
        cause, helps = of_way([(it.name, need) for it, need in at_once], (streams or [start.name])[0])
        return answer(f"{cause}; a type does not help here", helps)
    way = needs.way(start, lambda _, found, __: not found.has_type)
    if not way:
        return None
    names = [short(it.name) for it, _ in way]
    if len(names) == 1:
        return answer(f"{names[0]} needs itself, and has no written type", f"write its type: def {names[0]}: Events[..] := ..")
    return answer(f"{chain(names)}, and none has a written type", f"write the type of one of them: def {names[0]}: Events[..] := ..")


def chain(names):
    """That each of these needs the next one, and the last one the first."""
    if len(names) > MOST:
        return f"{names[0]} needs {names[1]}, and so on over {len(names) - 2} more back to {names[0]}"
    if len(names) == 1:
        return f"{names[0]} needs itself"
    return ", ".join(f"{one} needs {other}" for one, other in zip(names, [*names[1:], names[0]]))


def of_cycle(text, told):
    """Streams that wait for each other at one time: what one asks of another now, and how it is asked for as it was before."""
    nodes = told[len("cycle ") :].split(" -> ")[:-1]
    # Each needs the one before it.
    names = [it for it in reversed(nodes) if not it.startswith("%")]
    parts = [it for it in nodes if it.startswith("%")]
    if not names:
        return None
    needs, way = Needs(text.text), []
    for name, other in zip(names, [*names[1:], names[0]]):
        definition = needs.only(name)
        found = [it for it in definition.needs if it.name == other and it.how != BEFORE] if definition else []
        way.append((name, found[0] if found else Need(other, NOW)))
    cause, helps = of_way(way, names[0])
    return answer(cause + (f"; {parts[0]} is a part without a name" if parts else ""), helps)


def of_way(way, own):
    """The cause and the remedy, where each name of a way needs the next one at the same time; `own` is that of a stream among them."""
    names, own = [short(name) for name, _ in way], short(own)
    cause = f"{chain(names)} at the same time"
    for name, need in way:
        other = short(need.name)
        if need.how == LAST:
            return (
                f"{cause}: in {short(name)} the second argument of last is asked now",
                f"take the state at the event that {other} is made of; of last the first argument alone is from before",
            )
        if need.how == DELAY:
            return (
                f"{cause}: in {short(name)} the second argument of delay is asked now",
                f"let {other} stand in the first argument of the delay alone, or ask for it as it was before: last({other}, e)",
            )
        if need.how == CONDITION:
            return (
                f"{cause}: filter asks for {other} as it is now",
                f"ask for it as it was before: last({other}, {short(need.first)}), with a start by merge(.., START)",
            )
    return cause, f"write last({own}, e) for its value before, where e is what changes it; of last and delay the first argument alone may need {own}"
