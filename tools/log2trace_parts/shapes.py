"""Lines that look like one before: a regular expression tells that they do, and finds their time and their values. So they are not read in full."""

import re
from typing import Any, Callable, Dict, Iterable, List, NamedTuple, Optional, Sequence, Tuple

from .times import MARK, SHORT, Reader

MOST_SHAPES = 8  # that are tried for a line
FIRST_SHAPES, LINES_FOR_MORE = 32, 500  # to make one takes as long as to read some hundred lines
MOST_PARTS = 200  # of a line that gets a shape

# What stands in a trace as it does in a log. No line of the trace can be too long then, nor a line of the log that has a shape.
PLAIN_NUMBER = "0|-?[1-9][0-9]{0,17}"
TRUTH = "true|false"
TEXT = r"[ !#-\[\]-~]{0,4000}"
SOME_TEXT = rf" {{0,40}}[!#-\[\]-~]{TEXT}"
BLANK = " {0,40}"
# What is a number in any case; one with a fraction has to be multiplied.
DIGITS = re.compile("[0-9]{1,18}")
DECIMAL = r"-?(?:0|[1-9][0-9]{0,17})(?:\.[0-9]{1,18})?"


class Kind(NamedTuple):
    """The values that a part of a line may have, and what is made of them."""

    pattern: str
    form: Optional[str]  # what stands behind the name, with %s for the value; empty for an event without one, None for no event
    reader: Optional[Reader] = None  # for a value that does not stand as it does in the log


def no_event(pattern: str) -> Kind:
    return Kind(pattern, None)


def as_it_is(value: str) -> Optional[str]:
    return value


def in_quotes(value: str) -> Optional[str]:
    return f'"{value}"'


def without_value(_: str) -> Optional[str]:
    return None


READERS = {"": without_value, " = %s": as_it_is, ' = "%s"': in_quotes}


class Field(NamedTuple):
    """A line that has one value, up to its end."""

    start: str  # stands before the value
    group: int  # of the value; 0 where nobody wants it
    pattern: str  # of the value, if it is wanted and not the time


class Shape(NamedTuple):
    """What lines have in common that differ in plain values alone."""

    match: Callable[[str, int], "Optional[re.Match[str]]"]  # finds one at a place
    scanner: Callable[[str, int], Any]  # its `match` finds one after the other from a place on
    time: int  # the group of the time
    whole_times: bool  # whether it has digits alone
    named: Tuple[int, ...]  # the groups of an input's name, and of its value if there is one; none where the names are known
    names: Tuple[str, ...]  # of the inputs, in the order of their events
    groups: Tuple[int, ...]  # of their values
    lines: str  # of the trace, with MARK for the time and %s for the values
    here: Dict[str, str]  # has these names
    readers: Tuple[Reader, ...]  # of the inputs where a value has to be read, and else none; all inputs have groups then
    ends: int  # of lines of the log
    row: Callable[[Tuple[Any, ...]], str]  # makes the lines of the trace of the times and values of these columns:
    columns: Tuple[Tuple[int, Optional[Reader]], ...]  # the group of each, 0 for the time, and what reads it if anything has to
    fields: Tuple[Field, ...]  # of the lines before the last one, which is empty; none where lines have other parts

    def rows(self, times: List[int], columns: Sequence[Sequence[str]]) -> List[str]:
        """What lines of this shape make, by their settled times and their groups."""
        found: List[Iterable[Any]] = []
        for group, reader in self.columns:
            column = columns[group - 1] if group else times
            found.append(map(reader, column) if reader else column)
        return list(map(self.row, zip(*found)))

    def values(self, match: "re.Match[str]") -> Tuple[str, ...]:
        found = match.group(*self.groups)
        return (found,) if len(self.groups) == 1 else found


class Pattern:
    """The pattern of a shape, while it is made from left to right."""

    def __init__(self) -> None:
        self.parts: List[str] = []
        self.groups = self.time = self.ends = 0
        self.whole_times = False
        self.named: Tuple[int, ...] = ()
        self.inputs: List[Tuple[str, int, Kind]] = []
        self.fields: List[Field] = []

    def text(self, text: str) -> None:
        self.parts.append(re.escape(text))

    def any(self, pattern: str) -> None:
        if pattern:
            self.parts.append(f"(?:{pattern})")

    def end(self, pattern: str = "") -> None:
        self.parts.append(f"{pattern}\n")
        self.ends += 1

    def group(self, pattern: str) -> int:
        self.parts.append(f"({pattern})")
        self.groups += 1
        return self.groups

    def take_time(self, text: str, pattern: str, digits: str = DIGITS.pattern) -> None:
        """Takes times like this one: of digits alone, as `digits` has them, or else of the pattern."""
        self.whole_times = DIGITS.fullmatch(text) is not None
        self.time = self.group(digits if self.whole_times else pattern)

    def input(self, name: str, kind: Kind) -> None:
        if kind.form is None and kind.reader is None:
            self.any(kind.pattern)
        else:
            self.inputs.append((name, self.group(kind.pattern), kind))

    def shape_of(self, line: str) -> Optional[Shape]:
        """The shape of this line, if it has this pattern with its own values."""
        shape = self.shape()
        match = shape.match(line, 0)
        return shape if self.time and match and match.end() == len(line) else None

    def shape(self) -> Shape:
        kinds = [kind for _, _, kind in self.inputs]
        names = tuple(name for name, _, _ in self.inputs)
        read = any(kind.reader for kind in kinds)
        pattern, forms, columns = re.compile("".join(self.parts)), [], []  # type: Any, List[str], List[Tuple[int, Optional[Reader]]]
        for name, group, kind in self.inputs:
            form = kind.form if kind.reader is None else " = %s"
            forms.append(f"%d: {name}{form}\n")
            columns += [(0, None), (group, kind.reader)] if form else [(0, None)]
        return Shape(
            pattern.match,
            pattern.scanner,
            self.time,
            self.whole_times,
            self.named,
            names,
            tuple(group for _, group, kind in self.inputs if read or kind.form) or (0,),
            "".join(f"{MARK}{name}{kind.form or ''}\n" for name, _, kind in self.inputs) + ("" if read or any(kind.form for kind in kinds) else "%.0s"),
            dict.fromkeys(names, ""),
            tuple(kind.reader or READERS[kind.form or ""] for kind in kinds) if read else (),
            self.ends,
            "".join(forms).__mod__,
            tuple(columns),
            tuple(self.fields),
        )


class Shapes:
    """The shapes of the newest lines, those first that were met last."""

    def __init__(self) -> None:
        self.newest: List[Shape] = []
        self.made = self.found = 0

    def find(self, text: str, at: int) -> Optional[Shape]:
        """The shape that the line at a place has."""
        for shape in self.newest:
            if shape.match(text, at):
                if shape is not self.newest[0]:
                    self.newest.remove(shape)
                    self.newest.insert(0, shape)
                self.found += 1
                return shape
        return None

    def may_learn(self, text: str) -> bool:
        """Whether a line that was read in full may get a shape."""
        return len(text) < SHORT and self.made < FIRST_SHAPES + self.found // LINES_FOR_MORE

    def learn(self, shape: Optional[Shape]) -> None:
        self.made += 1
        if shape is not None:
            self.newest.insert(0, shape)
            del self.newest[MOST_SHAPES:]
