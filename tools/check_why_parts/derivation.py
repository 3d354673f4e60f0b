"""Whether a derivation shows that an event came."""

from .equations import System
from .facts import Event, step_of
from .failures import Trouble, Wrong, needs
from .rules import Rules
from .traces import Trace, declared_in


class Derivation:
    """The lines of a derivation, for a system."""

    def __init__(self, system, text):
        self.system = system
        self.lines = text.split("\n")
        if self.lines[-1] == "":
            self.lines.pop()

    def shown(self):
        """The number of the output's equation that the last fact is an event of, and its time. Where it is none, that of the output that is alone."""
        needs(self.lines, "there is no fact")
        own = {number for _, number in self.system.outputs}
        try:
            last, _ = step_of(self.lines[-1], len(self.lines) - 1, self.system)
        except Wrong:
            last = None
        if isinstance(last, Event) and last.equation.number in own:
            return last.equation.number, last.time
        needs(len(own) == 1, "the last fact is no event of an output")
        return min(own), 0

    def check(self, trace, output):
        """The last fact, an event of this output, where all facts follow and are used. Else it fails."""
        rules = Rules(self.system, trace, self.system.slice_of(output))
        facts, used = [], set()
        for number, line in enumerate(self.lines):
            try:
                fact, names = step_of(line, number, self.system)
                for name in names:
                    needs(name < number, f"it names #{name}, which is no earlier fact")
                rules.follow(fact, {facts[name] for name in names})
            except Wrong as wrong:
                raise Wrong(f"fact {number} is wrong: {wrong}") from None
            facts.append(fact)
            used.update(names)
        for number in range(len(facts) - 1):
            needs(number in used, f"fact {number} is used by no later one")
        needs(facts, "there is no fact")
        needs(isinstance(facts[-1], Event) and facts[-1].equation.number == output, "the last fact is no event of the output")
        return facts[-1]


def judged(system, trace, text, event=None, until=0):
    """The text that says which event came, by how many facts. It fails where the derivation is wrong."""
    derivation = Derivation(system, text)
    if event is None:
        number, time = derivation.shown()
    else:
        number, time = dict(system.outputs).get(event[0]), event[1]
        needs(number is not None, f"there is no output {event[0]}")
    if trace.refused and time >= trace.closed_below(until):
        raise Trouble(trace.refused)
    last = derivation.check(trace, number)
    needs(event is None or last.time == time, f"the last fact is an event at {last.time}")
    needs(last.time < trace.closed_below(until), f"the trace ends at {trace.last}, and does not tell what comes up to {last.time}")
    names = [name for name, of in system.outputs if of == number and (event is None or name == event[0])]
    count = len(derivation.lines)
    return f"{', '.join(names)} at {last.time} = {last.text}: it follows, by {count} fact{'s' * (count > 1)}"


def text_of(data, what, failure=Trouble):
    try:
        return data.decode("utf-8")
    except UnicodeDecodeError:
        raise failure(f"{what} is no UTF-8") from None


def system_of(source, flat):
    """The equations, whose inputs are those of the source, and the types of these."""
    system = System(text_of(flat, "what `flat` prints"))
    declared = declared_in(text_of(source, "the specification"))
    places = {name: place for place, name in enumerate(declared)}
    for equation in system.inputs():
        if declared.get(equation.name) != equation.kind or places[equation.name] != equation.number:
            raise Trouble(f"the source has no input {equation.name} of type {equation.kind} at its place {equation.number}")
    return system, declared


def verdict_of(source, flat, trace, derivation, event=None, until=0):
    """The text that says which event came, from what the files have."""
    system, declared = system_of(source, flat)
    text = text_of(derivation, "the derivation", Wrong)
    try:
        return judged(system, Trace(declared, trace), text, event, until)
    except (TypeError, AttributeError, KeyError, IndexError, ValueError, RecursionError):
        # A text in place of what `flat` prints may have an operation of values that it doesn't take.
        raise Trouble("the equations do not fit together") from None
