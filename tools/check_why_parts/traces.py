"""The inputs of a source, and their events by the lines of a trace."""

import bisect
import re
from dataclasses import dataclass, field

from .values import GREATEST, scalar_of

MOST_LINE = 65536
# A comment, a text, a number, a name, or another character.
TOKEN = re.compile(r'(?:#|--)[^\n]*|"(?:[^"\\]|\\.)*"|[0-9]+|[^ \t\r\n:=,.()\[\]{}|&!<>+\-*/%"#]+|.', re.DOTALL)
BLANKS = (" ", "\t", "\r", "\n")
WORDS = ("in", "def", "as", "out", "if", "then", "else", "true", "false")


def tokens_of(source):
    """The names, numbers and symbols of a source."""
    return [token for token in TOKEN.findall(source) if token not in BLANKS and not token.startswith(("#", "--", '"'))]


def declared_in(source):
    """The types of the inputs by their names, in order. An accepted source has the word `in` in declarations alone."""
    tokens, declared = tokens_of(source), {}
    for at, token in enumerate(tokens):
        if token == "in":
            name, _, kind = (tokens[at + 1 : at + 4] + [""] * 3)[:3]
            declared[name] = tokens[at + 5] if kind == "Events" and at + 5 < len(tokens) else kind
    return declared


def is_name(text):
    return text.isidentifier() and text not in WORDS


@dataclass
class Events:
    """The events of an input: times that rise, and values."""

    times: list = field(default_factory=list)
    values: list = field(default_factory=list)

    def at(self, time):
        place = bisect.bisect_left(self.times, time)
        return self.values[place] if place < len(self.times) and self.times[place] == time else None

    def first_from(self, time):
        """The first time from this one on that has an event, or None."""
        place = bisect.bisect_left(self.times, time)
        return self.times[place] if place < len(self.times) else None


class Trace:
    """The events of the inputs, by name, up to the first line that is refused. `refused` says which it is, and why."""

    def __init__(self, declared, data):
        self.declared, self.last, self.refused, self.here = declared, 0, "", set()
        self.names = {name.encode(): name for name in declared}
        self.events = {name: Events() for name in declared}
        lines = data.split(b"\n")
        for place, line in enumerate(lines, 1):
            if place < len(lines) or line:
                refused = "line too long" if len(line) > MOST_LINE else self.read(line.rstrip(b"\r \t").lstrip(b" \t"))
                if refused:
                    self.refused = f"trace {place}: {refused}"
                    break

    def closed_below(self, until):
        return self.last if self.refused else max(self.last, until) + 1

    def name_of(self, data):
        """The name that these bytes are, or ""."""
        if data not in self.names:
            name = data.decode("utf-8", "replace")
            self.names[data] = name if is_name(name) else ""
        return self.names[data]

    def read(self, line):
        """Reads a line without the blanks around it; the answer is why it is refused."""
        if not line or line.startswith((b"#", b"--")):
            return ""
        digits, colon, rest = line.partition(b":")
        digits, rest = digits.rstrip(b" \t"), rest.lstrip(b" \t")
        written, equals, value = rest.partition(b"=")
        value = value.lstrip(b" \t")
        name = self.name_of(written.rstrip(b" \t")) if rest else ""
        if not colon or not digits or digits.strip(b"0123456789") or (rest and not name) or (equals and not value):
            return "not a trace line"
        digits = digits.lstrip(b"0")
        time = int(digits or b"0") if len(digits) < 20 else GREATEST + 1
        if time > GREATEST:
            return "time too large"
        if time < self.last:
            return f"time {time} after {self.last}"
        if time > self.last:
            self.here = set()
        refused = self.event(time, name, value if equals else None) if name in self.declared else ""
        if not refused:
            self.last = time
        return refused

    def event(self, time, name, written):
        kind = self.declared[name]
        try:
            value = () if kind == "Unit" and written is None else scalar_of(kind, (written or b"").decode("utf-8"))
        except UnicodeDecodeError:
            value = None
        if value is None:
            return f"wrong value for {name}"
        if name in self.here:
            return f"{name} twice at one time"
        self.here.add(name)
        self.events[name].times.append(time)
        self.events[name].values.append(value)
        return ""
