"""Lines that a pattern takes apart."""

import itertools
from typing import Any, List, Optional, Tuple

from .fields import Cells
from .logs import is_text
from .texts import BLANKS, Refused
from .times import Reader

LAST_OF_OTHERS = {"", " ", "\t", ":"}  # how lines end that may be blank, or ticks


class Matched(Cells):
    """Lines that a regular expression takes apart. Its groups name what they have: the time, and an input each or the name of one."""

    def __init__(self, *arguments: Any):
        super().__init__(*arguments)
        self.other = 0  # lines that were left out
        self.groups = dict(self.words.match.groupindex)
        self.time_at = self.groups.pop("time")
        self.places = (*self.groups.values(), self.time_at)  # two at least, so that a match has as many
        self.value_name = "value" if "event" in self.groups and "value" in self.groups else None
        self.inputs: List[Optional[str]] = []  # of the groups, after the first line
        self.readers_of_inputs: List[Reader] = []

    def line(self, line: str) -> None:
        match = self.words.match.fullmatch(line.rstrip("\r\n"))
        if match is None:
            if "other" not in self.words.skip:
                raise Refused("--match does not fit (see --skip)")
            self.other += 1
            return
        number = self.time_of(match[self.time_at] or "")
        if "event" in self.groups:
            self.line_of_event(number, match["event"] or "", match["value"] or "" if self.value_name else "")
            return
        values = match.group(*self.places)[:-1]
        if not self.inputs:
            self.inputs = [self.names[name] for name in self.groups]
            self.readers_of_inputs = [self.readers_of_names[name] for name in self.groups]
        if any(values):
            self.settled.events(number, self.inputs, self.readers_of_inputs, [value or "" for value in values])

    def line_of_event(self, time: int, named: str, value: str) -> None:
        if not named.strip(BLANKS):
            raise Refused("--match finds no event in it")
        self.named_event(time, named.strip(BLANKS), value if value.strip(BLANKS) else None)

    def learn(self, _line: str) -> None:
        self.take_pieces(self.take_text)

    def take_text(self, text: str) -> bool:
        """Takes lines, if nothing of them is left out or refused but other lines; whether it did."""
        if not is_text(text):
            return False
        lines = text[:-1].split("\n")
        if "\r" in text:
            lines = [line.rstrip("\r") for line in lines]
        if not LAST_OF_OTHERS.isdisjoint([line[-1:] for line in lines]):
            bare = [line.rstrip(" \t\r") for line in lines]
            if any(line.endswith(":") for line in bare):
                return False
            lines = list(itertools.compress(lines, bare))
        matches = list(map(self.words.match.fullmatch, lines))
        found = list(filter(None, matches))
        if len(found) < len(matches) and "other" not in self.words.skip:
            return False
        if found and not self.take_matches(list(zip(*[match.groups("") for match in found]))):
            return False
        self.other += len(matches) - len(found)
        return True

    def take_matches(self, groups: List[Tuple[str, ...]]) -> bool:
        """Takes what the groups of --match have found in lines, if nothing of it is left out or refused; whether it did."""
        times = self.times_of(groups[self.time_at - 1])
        if times is None:
            return False
        columns = {name: groups[at - 1] for name, at in self.groups.items()}
        if "event" in columns:
            return self.take_named(times, [text.strip(BLANKS) for text in columns["event"]], columns.get("value"))
        return bool(self.inputs) and self.take_inputs(times, zip(self.inputs, columns.values()))

    def finish(self, whole_log: bool) -> None:
        if self.other:
            self.say(f"left out of other lines: {self.other} (--skip other)")
        super().finish(whole_log)
