"""What logs have in common whose values have names."""

import decimal
import functools
import itertools
import re
from typing import Any, Dict, Iterable, List, Optional, Sequence, Tuple

from .logs import GROUPS, MOST_NAMES, Log
from .shapes import BLANK, DECIMAL, PLAIN_NUMBER, TRUTH, Kind, Shape, no_event
from .texts import BLANKS, NEWEST, NUMBER, WHOLE, Refused, quoted, shown, whole
from .times import SHORT, Reader

BEGINS_NUMBER = set("+-.0123456789")


class Fields(Log):
    def __init__(self, *arguments: Any):
        super().__init__(*arguments)
        self.readers: Dict[str, Reader] = {}
        self.readers_of_names = Readers(self)
        self.value_name = self.words.value  # what has the value of an input that the log names

    def reader(self, name: str) -> Reader:
        """What makes the text of a value of this input from a cell or member."""
        if name not in self.readers:
            self.readers[name] = self.new_reader(name)
        return self.readers[name]

    def new_reader(self, name: str) -> Reader:
        if name in self.words.unit:
            return self.without_value
        if name in self.words.text:
            return self.text
        if name in self.words.factor:
            return functools.partial(self.multiplied, name, self.words.factor[name])
        return functools.partial(self.plain, name)

    def without_value(self, value: Any) -> Optional[str]:
        """Of an input of type Unit."""
        raise NotImplementedError

    def text(self, value: Any) -> str:
        """The value of an input of type String."""
        raise NotImplementedError

    def multiplied(self, name: str, factor: decimal.Decimal, value: Any) -> str:
        """The value of an input that has a factor."""
        raise NotImplementedError

    def plain(self, name: str, value: Any) -> str:
        """The value of an input of which nothing was said."""
        raise NotImplementedError

    def named_events(self, time: int, values: Dict[str, Any]) -> None:
        """Makes the events of a line that has a value for each input."""
        self.settled.events(time, map(self.names.__getitem__, values), map(self.readers_of_names.__getitem__, values), values.values())

    def take_one(self, shape: Shape, match: "re.Match[str]", time: int) -> None:
        if not shape.named:
            super().take_one(shape, match, time)
            return
        # What stands for the name of an input, and its value as it stands in a trace.
        named, *value = match.group(*shape.named, 0)[:-1]
        name = self.names[named]
        self.settled.begin()
        if name is not None:
            self.settled.event(time, name, value[0] if value and name not in self.words.unit else None)

    def take_at_once(self, shape: Shape, matches: List["re.Match[str]"]) -> bool:
        if not shape.named:
            return super().take_at_once(shape, matches)
        columns: List[Sequence[Any]] = list(zip(*map(GROUPS, matches)))
        times, texts = self.times_of(columns[shape.time - 1]), columns[shape.named[0] - 1]
        if times is None or not self.names.keys() >= set(texts):
            return False
        names = list(map(self.names.get, texts))
        if len(shape.named) == 1:
            return self.take_events(times, names, "%d: %s\n")
        return self.take_values(times, names, columns[shape.named[1] - 1])

    def take_values(self, times: List[int], names: List[Optional[str]], values: Sequence[str]) -> bool:
        """Takes one event of each line by its name and its value, if none is left out or refused; whether it did."""
        if self.words.unit.isdisjoint(names):
            return self.take_events(times, names, "%d: %s = %s\n", values)
        endings = ["" if name in self.words.unit else f" = {value}" for name, value in zip(names, values)]
        return self.take_events(times, names, "%d: %s%s\n", endings)

    def multiplier(self, name: str) -> Optional[Reader]:
        """What multiplies a number that is plain, if the input has a factor."""
        if name not in self.words.factor:
            return None
        return functools.partial(whole, name, factor=self.words.factor[name])

    def named_event(self, time: int, named: str, value: Any) -> None:
        """Makes the event of a row or object that names its input; its value is None where there is none."""
        name = self.names[named]
        if name is None:
            return
        if self.value_name is None or name in self.words.unit:
            self.settled.event(time, name, None)
        elif value is None:
            raise Refused(f"{shown(name)} has no {shown(self.value_name)} (see --unit)")
        else:
            self.settled.event(time, name, self.reader(name)(value))


class Readers(Dict[str, Reader]):
    """What reads the values of each name in the log."""

    def __init__(self, log: Fields):
        super().__init__()
        self.log = log

    def __missing__(self, text: str) -> Reader:
        name = self.log.names[text]
        reader = self.log.without_value if name is None else self.log.reader(name)
        if len(self) < MOST_NAMES:
            self[text] = reader
        return reader


class Values(Dict[str, Optional[str]]):
    """What a reader makes of the newest texts."""

    def __init__(self, reader: Reader):
        super().__init__()
        self.reader = reader

    def __missing__(self, text: str) -> Optional[str]:
        value = self.reader(text)
        if len(self) >= NEWEST:
            self.clear()
        self[text] = value
        return value


class Cells(Fields):
    """A log whose values are texts. One that is empty, or has blanks alone, is no event."""

    def new_reader(self, name: str) -> Reader:
        return Values(super().new_reader(name)).__getitem__

    def without_value(self, value: str) -> Optional[str]:
        return None if value.strip(BLANKS) else ""

    def text(self, value: str) -> str:
        return quoted(value) if value.strip(BLANKS) else ""

    def multiplied(self, name: str, factor: decimal.Decimal, value: str) -> str:
        text = value.strip(BLANKS)
        return whole(name, text, factor) if text else ""

    def plain(self, name: str, value: str) -> str:
        if value.isdigit() and value.isascii() and len(value) < 19 and value[0] != "0":
            return value
        text = value.strip(BLANKS)
        if not text or text in ("true", "false", "()"):
            return text
        if text[0] not in BEGINS_NUMBER or not NUMBER.fullmatch(text):
            return quoted(value)
        return text if WHOLE.fullmatch(text) else whole(name, text)

    def column(self, name: str, texts: List[str]) -> List[Optional[str]]:
        """What the reader of an input makes of texts that are not empty."""
        if not (name in self.words.unit or name in self.words.text or name in self.words.factor):
            if are_numbers(texts):
                return list(texts)
            if are_texts(texts):
                return [f'"{text}"' for text in texts]
        return list(map(self.reader(name), texts))

    def take_named(self, times: List[int], texts: List[str], values: Optional[List[str]]) -> bool:
        """Takes one event of each line by what names the input and has its value, if none is left out or refused; whether it did."""
        if not self.names.keys() >= set(texts):
            return False
        names = list(map(self.names.get, texts))
        if values is None:
            return self.take_events(times, names, "%d: %s\n")
        if self.words.unit.isdisjoint(names) and self.words.text.isdisjoint(names) and self.words.factor.keys().isdisjoint(names) and are_texts(values):
            return self.take_events(times, names, '%d: %s = "%s"\n', values)
        try:
            read = ["" if name is None or name in self.words.unit else self.reader(name)(value) for name, value in zip(names, values)]
        except Refused:
            return False
        # Without a value an event is refused.
        if any(not value for name, value in zip(names, read) if name and name not in self.words.unit):
            return False
        return self.take_values(times, names, [value or "" for value in read])

    def take_inputs(self, times: List[int], columns: Iterable[Tuple[Optional[str], Sequence[str]]]) -> bool:
        """Takes the texts that lines have for each input, if no event is left out or refused; whether it did."""
        try:
            events = [self.events_of(name, texts) for name, texts in columns if name]
        except Refused:
            return False
        return not events or self.take_lines(times, events)

    def take_lines(self, times: List[int], events: List[List[str]]) -> bool:
        """Takes the events that lines make of each input, without their times, if none is left out or refused; whether it did."""
        together, alone = events[0], len(events) == 1  # what each line makes, and whether none makes two events
        if not all(map(all, events)):
            together = list(map("".join, zip(*events)))
            alone = sum(len(column) - column.count("") for column in events) == len(together) - together.count("")
            times, events = list(itertools.compress(times, together)), [list(itertools.compress(column, together)) for column in events]
            together = list(filter(None, together))
        settled = self.settled.times_of_rows(times) if times else []
        if not settled:
            names = [event.partition(" ")[0] for event in together] if alone else []
            return alone and self.take_events(times, names, "%d: %.0s%s\n", together)
        rows = rows_of(settled, [together] if alone else events)
        if max(map(len, rows)) > SHORT:
            return False
        self.settled.take_rows(times[-1], settled[-1], [column[-1].partition(" ")[0] for column in events if column[-1]], rows)
        return True

    def events_of(self, name: str, texts: Sequence[str]) -> List[str]:
        """The event that each text makes of an input, without its time; no text where it makes none."""
        values = self.column(name, list(filter(None, texts)))
        events = [name if value is None else value and f"{name} = {value}" for value in values]
        if len(events) == len(texts):
            return events
        rest = iter(events)
        return [text and next(rest) for text in texts]

    def kind(self, name: str, value: str, without: str = "") -> Kind:
        """What an input makes of values that look like this one, none of which has a character of `without`."""
        text, marks = value.strip(" "), marks_but(without)
        some = f"{BLANK}[{marks}][ {marks}]{{0,4000}}"
        if not text:
            return no_event(BLANK)
        if name in self.words.unit:
            return Kind(some, "")
        if name in self.words.text:
            return Kind(some, ' = "%s"')
        if name in self.words.factor:
            return Kind(DECIMAL, None, self.multiplier(name))
        return self.plain_kind(name, text, f"(?!(?:{TRUTH}) *[^ {marks}])[{marks_but(without + NO_TEXT)}][ {marks}]{{0,4000}}")

    def plain_kind(self, _name: str, text: str, some: str) -> Kind:
        """What an input of which nothing was said makes of values like this one; `some` are the texts that are nothing else."""
        if WHOLE.fullmatch(text):
            return Kind(PLAIN_NUMBER, " = %s")
        return Kind(TRUTH, " = %s") if text in ("true", "false") else Kind(some, ' = "%s"')


NO_TEXT = "+-.0123456789("  # what a plain text does not begin with
BEGINS_NO_TEXT = {"", *BLANKS, *NO_TEXT}


def rows_of(times: Sequence[int], events: Sequence[Sequence[str]]) -> List[str]:
    """The lines of a trace that lines of a log make, by their times, and the events of each input; no text is no event."""
    if all(map(all, events)):
        form = "%d: %s\n" * len(events)
        return list(map(form.__mod__, zip(*[part for column in events for part in (times, column)])))
    lines = [[event and f"{time}: {event}\n" for time, event in zip(times, column)] for column in events]
    return list(map("".join, zip(*lines)))


def are_numbers(texts: Sequence[str]) -> bool:
    """Whether all are whole numbers that stand in a trace as they do in the log."""
    together = "".join(texts)
    if not (together.isascii() and together.isdigit()) or max(map(len, texts)) > 18:
        return False
    firsts = {text[:1] for text in texts}
    return "" not in firsts and ("0" not in firsts or all(text == "0" for text in texts if text[0] == "0"))


def are_plain(texts: Sequence[str]) -> bool:
    """Whether all have more than blanks, and stand in a trace as they do in the log, in characters of ASCII."""
    together = "".join(texts)
    return together.isascii() and together.isprintable() and '"' not in together and "\\" not in together and all(map(str.strip, texts))


def are_texts(texts: Sequence[str]) -> bool:
    """Whether all are texts that stand in a trace as they do in the log, and neither numbers nor truth values."""
    together = "".join(texts)
    if '"' in together or "\\" in together or not together.isprintable():
        return False
    firsts = {text[:1] for text in texts}
    if not firsts.isdisjoint(BEGINS_NO_TEXT):
        return False
    return firsts.isdisjoint("tf") or not any(text.rstrip(BLANKS) in ("true", "false") for text in texts)


@functools.lru_cache(None)
def marks_but(without: str) -> str:
    """The printable characters of ASCII that stand in a trace as they are, but for a blank and for these, in a regular expression."""
    return re.escape("".join(char for char in map(chr, range(33, 127)) if char not in '"\\' + without))
