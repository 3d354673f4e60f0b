"""Events in the order of their times."""

import itertools
import operator
from typing import Any, Callable, Dict, Iterable, List, Optional, Sequence

from .texts import GREATEST, Refused, shown

LONGEST_EVENT = 65536  # bytes of a line of a trace
SHORT = LONGEST_EVENT // 4  # characters that fit in any case
MARK = "\0"  # stands for the time in lines of a trace that have no time yet

# Makes the text of a value; None is for an event without one, and an empty text where there is no event.
Reader = Callable[[Any], Optional[str]]


class Settled:
    """Writes events by time, and settles equal times and times that go back."""

    def __init__(self, equal: str, back: str, write: Callable[[str], None], tell: Callable[[str], None], hint: Callable[[], str]):
        self.equal, self.back, self.write, self.tell = equal, back, write, tell
        self.hint = hint  # what a message on equal times says further
        self.holds = equal == "last"  # whether a line is written once its time is over
        self.log = -1  # the last time of the log
        self.now = -1  # the last time of the trace, which is later where events were shifted
        self.here: Dict[str, str] = {}  # the inputs that have an event at that time, with their lines
        self.shared = False  # whether these are those of others too, so that they don't change
        self.begins = False  # whether the next event is the first one of a line that has a time of its own
        self.left_out = 0

    def begin(self) -> None:
        """The events that follow are those of another line."""
        self.begins = self.equal == "apart"

    def release(self) -> None:
        """Writes what was held of the last time, since a later event might have come in its place."""
        held, self.here, self.shared = self.here, {}, False
        if self.holds:
            for line in held.values():
                self.write(line)

    def tick(self, time: int) -> None:
        if time > self.log:
            self.log = time
            if time > self.now:
                self.release()
                self.now = time
                self.write(f"{time}:\n")

    def events(self, time: int, names: Iterable[Optional[str]], readers: Iterable[Reader], values: Iterable[Any]) -> None:
        """The events that a line has of inputs that differ from each other; None is the name of one that is not wanted."""
        if time <= self.now or self.holds:
            for name, reader, value in zip(names, readers, values):
                text = reader(value) if name else ""
                if text != "":
                    self.event(time, name or "", text)
            return
        # Nothing of this time came before, so nothing of it has to be settled.
        here: Dict[str, str] = {}
        for name, reader, value in zip(names, readers, values):
            text = reader(value) if name else ""
            if name and text != "":
                here[name] = line = f"{time}: {name}\n" if text is None else f"{time}: {name} = {text}\n"
                if len(line) > SHORT:
                    must_fit(name, line)
                self.write(line)
        if here:
            self.here, self.shared, self.log, self.now, self.begins = here, False, time, time, False

    def times_of_rows(self, times: List[int], names: Sequence[str] = ()) -> Optional[List[int]]:
        """The times in the trace of lines that have these times; None where an event has to be left out or refused, or may have to be.

        Each line has events of inputs that differ from each other, or the one event of one of these names.
        """
        settled: Optional[List[int]] = None
        if all(map(operator.lt, [self.now, *times], times)):
            settled = times
        elif self.equal == "apart":
            if (self.here or times[0] > self.now) and all(map(operator.le, [max(self.log, 0), *times], times)):
                settled = list(itertools.accumulate(times, later, initial=self.now))[1:]
        elif names and not self.holds and self.log == self.now and differ(self.now, self.here, times, names):
            settled = times
        return settled if settled and settled[-1] <= GREATEST else None

    def firsts_of_rows(self, times: Sequence[int], names: Sequence[str]) -> Optional[List[bool]]:
        """Which of these events are kept by `--equal first`; None where another one may have to be left out or refused, or all are kept."""
        if self.equal != "first" or self.log != self.now or not all(map(operator.le, [max(self.now, 0), *times], times)):
            return None
        now, seen, firsts = self.now, set(self.here), []  # type: int, set[str], List[bool]
        for time, name in zip(times, names):
            if time > now:
                now, seen = time, set()
            firsts.append(name not in seen)
            seen.add(name)
        return None if all(firsts) else firsts

    def take_rows(self, log: int, now: int, names: Iterable[str], rows: List[str]) -> None:
        """Takes what lines make in the trace: their last time in the log and in the trace, and the inputs that have events at that one."""
        if now > self.now:
            self.release()
        here = lines_of(rows.pop()) if self.holds else itertools.repeat("")
        self.here = {**self.here, **dict(zip(names, here))}
        self.write("".join(rows))
        self.log, self.now, self.shared, self.begins = log, now, False, False

    def lines(self, time: int, names: Sequence[str], text: str) -> None:
        """The events that a line of the log has of inputs that differ from each other, as short lines of a trace with MARK for the time."""
        if time <= self.now:
            for name, line in zip(names, text.split("\n")):
                self.event(time, name, line[len(f"{MARK}{name} = ") :] or None)
            return
        text = text.replace(MARK, f"{time}: ")
        self.release()
        if self.holds:
            self.here = dict(zip(names, lines_of(text)))
        else:
            self.here = dict.fromkeys(names, "")
            self.write(text)
        self.log = self.now = time
        self.begins = False

    def event(self, time: int, name: str, value: Optional[str]) -> None:
        # Before the first event the first time has been 0, if there was one and times count from it.
        if time < self.log or time < 0:
            if not self.takes_late(time, name):
                return
            time = max(self.log, 0)
        self.log = time
        if time > self.now:
            self.release()
            self.now = time
        elif self.begins and self.here:
            self.shift()
        self.begins = False
        if name in self.here and not self.takes_second(name):
            return
        if self.shared:
            self.here, self.shared = dict(self.here), False
        self.here[name] = line = f"{self.now}: {name}\n" if value is None else f"{self.now}: {name} = {value}\n"
        if len(line) > SHORT:
            must_fit(name, line)
        if not self.holds:
            self.write(line)

    def takes_late(self, time: int, name: str) -> bool:
        """Whether an event is taken whose time is before that of the log."""
        log = max(self.log, 0)
        if self.back == "refuse":
            raise Refused(f"time {shown(str(time))} after {log} (see --back)")
        if self.back == "drop":
            self.tell(f"left out: {shown(name)} at {shown(str(time))}, after {log}")
        return self.back == "raise"

    def takes_second(self, name: str) -> bool:
        """Whether a second event of the input is taken; its time may be another then."""
        if self.equal == "refuse":
            raise Refused(f"{shown(name)} twice at time {self.now} ({self.hint()}see --equal)")
        if self.equal in ("shift", "apart"):
            self.shift()
        else:
            self.left_out += 1
        return self.equal != "first"

    def shift(self) -> None:
        if self.now == GREATEST:
            raise Refused("time too large")
        self.release()
        self.now += 1


def lines_of(text: str) -> List[str]:
    """The lines of a trace, whose values may have other characters that end lines elsewhere."""
    return [f"{line}\n" for line in text[:-1].split("\n")]


def later(before: int, time: int) -> int:
    return time if time > before else before + 1


def differ(now: int, here: Iterable[str], times: Sequence[int], names: Sequence[str]) -> bool:
    """Whether times never go back, and no name comes twice at one of them; these are the first one, and the names that it has."""
    seen = set(here)
    for time, name in zip(times, names):
        if time > now:
            now, seen = time, {name}
        elif time < now or name in seen:
            return False
        else:
            seen.add(name)
    return True


def must_fit(name: str, line: str) -> None:
    if len(line.encode()) > LONGEST_EVENT + 1:
        raise Refused(f"{shown(name)} makes a line that is too long for a trace")
