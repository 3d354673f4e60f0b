"""Frames of a bus, as candump writes them."""

import re
from typing import Any, Callable, Dict, List, NamedTuple, Optional, Sequence, Tuple

from .logs import GROUPS, MOST_NAMES, Log, pieces
from .texts import GREATEST, Refused, shown
from .words import Wanted

FRAME = re.compile(
    r"[ \t]*\(([0-9]+(?:\.[0-9]+)?|[0-9]+-[0-9: .-]+)\)[ \t]+([^ \t]+)[ \t]+([0-9A-Fa-f]{8}|[0-9A-Fa-f]{3})"
    r"(?:#(R[0-9]?|(?:#[0-9A-Fa-f])?[0-9A-Fa-f.]*)(?:[ \t]+[RT])?"
    r"|[ \t]+\[([0-9]{1,2})\]((?:[ \t]+[0-9A-Fa-f]{2})*)(?:[ \t]+(remote request|ERRORFRAME|'.*'))?)[ \t\r\n]*"
)
# What candump writes with the capitals that it has, without a note, and short enough for any bus.
JOINED = re.compile(r"\(([0-9]{1,18}(?:\.[0-9]{1,9})?)\) ([!-~]{1,40} [0-9A-F]{3,8})#([0-9A-F]{0,16})\n")
SPACED = re.compile(
    r" {0,40}\(([0-9]{1,18}(?:\.[0-9]{1,9})?)\) {1,40}([!-~]{1,40} {1,40}[0-9A-F]{3,8}) {1,40}\[([0-8])\]((?: {1,40}[0-9A-F]{2}){0,8})\n"
)
OCTETS = re.compile(r"(?:[0-9A-Fa-f]{2}(?:\.?[0-9A-Fa-f]{2})*)?")


class Skippable(Exception):
    """A frame that --skip may leave out."""

    def __init__(self, kind: str, why: str):
        super().__init__(why)
        self.kind = kind


class Known(NamedTuple):
    """What is made of frames."""

    wanted: List[Wanted]
    values: List[Tuple[str, Callable[[str], str]]]  # of each input, by the digits of the data


class Frames(Log):
    def __init__(self, *arguments: Any):
        super().__init__(*arguments)
        self.plans: Dict[Tuple[str, str], List[Wanted]] = {}  # of each interface and identifier
        self.buses: Dict[str, str] = {}  # the interface of each identifier that makes events for whatever interface
        self.skipped = {"remote": 0, "short": 0}
        self.known: Dict[str, Known] = {}  # by the text between time and data
        self.names_of_texts: Dict[str, str] = {}  # the input of those that make one event, with all data as a text

    def line(self, line: str) -> None:
        match = FRAME.fullmatch(line)
        if not match:
            raise Refused("not a line of candump")
        stamp, bus, identifier, joined, count, spaced, note = match.groups()
        time, identifier = self.time_of(stamp), identifier.upper()
        if joined is None:
            self.frame(time, bus, identifier, data_of_spaced, (int(count), spaced, note))
        else:
            self.frame(time, bus, identifier, data_of_joined, joined)

    def learn(self, line: str) -> None:
        """Takes the plain frames that were read, up to the first line that is none. What comes of them is what `line` makes."""
        for pattern in (JOINED, SPACED):
            match = pattern.fullmatch(line)
            if match is not None:
                self.make_known(match[2])
            self.take_plain(pattern)

    def take_plain(self, pattern: "re.Pattern[str]") -> None:
        for matches in pieces(pattern.scanner(self.lines.text, self.lines.at)):
            columns = list(zip(*map(GROUPS, matches)))
            digits = columns[2] if pattern is JOINED else list(map(digits_of, columns[2], columns[3]))
            if self.take_frames(columns[0], columns[1], digits):
                self.lines.number += len(matches)
                self.lines.at = matches[-1].end()
            else:
                self.take_each_frame(matches, digits)

    def take_frames(self, stamps: Sequence[str], origins: Sequence[str], digits: Sequence[str]) -> bool:
        """Takes frames of known identifiers, if nothing of what they make is left out or refused; whether it did."""
        if any(length % 2 for length in set(map(len, digits))):
            return False
        times = self.times_of(stamps)
        if times is None:
            return False
        names = list(map(self.names_of_texts.get, origins))
        if all(names):
            return self.take_events(times, names, '%d: %s = "%s"\n', digits)
        plans = [self.known[origin] for origin in origins if origin in self.known]
        if len(plans) < len(origins):
            return False
        try:
            found = [(time, name, value(text)) for time, plan, text in zip(times, plans, digits) for name, value in plan.values]
        except (Refused, Skippable):
            return False
        if not found:
            return True
        # Events of one line stand together where others stand apart.
        if self.settled.equal == "apart" and any(len(plan.values) > 1 for plan in plans):
            return False
        events = list(zip(*found))
        return self.take_events(events[0], events[1], "%d: %s = %s\n", events[2])

    def take_each_frame(self, matches: List["re.Match[str]"], all_digits: Sequence[str]) -> None:
        for match, digits in zip(matches, all_digits):
            self.lines.number += 1
            self.lines.at = match.end()
            self.settled.begin()
            plan = self.known.get(match[2])
            if plan is None or len(digits) % 2:
                self.line(match[0])
                self.make_known(match[2])
            else:
                self.events(self.time_of(match[1]), plan.wanted, bytes.fromhex, digits)

    def make_known(self, origin: str) -> None:
        """Keeps what is made of the frames of an interface and an identifier, by these two as they stand in the log."""
        bus, identifier = origin.split()
        plan = self.plans.get((bus, identifier))
        if plan is not None and len(self.known) < MOST_NAMES:
            self.known[origin] = Known(plan, [(wanted.name, value_reader(wanted)) for wanted in plan])
            if len(plan) == 1 and plan[0].part is None:
                self.names_of_texts[origin] = plan[0].name

    def frame(self, time: int, bus: str, identifier: str, data_of: Callable[[Any], bytes], content: Any) -> None:
        """Makes the events of a frame, whose data are looked at where an event is made of them."""
        plan = self.plans.get((bus, identifier))
        if plan is None:
            plan = self.new_plan(bus, identifier)
            if plan or len(self.plans) < MOST_NAMES:
                self.plans[bus, identifier] = plan
        self.events(time, plan, data_of, content)

    def events(self, time: int, plan: List[Wanted], data_of: Callable[[Any], bytes], content: Any) -> None:
        for wanted in plan:
            try:
                value = value_of(data_of(content), wanted)
            except Skippable as why:
                if why.kind not in self.words.skip:
                    raise Refused(f"{why} (see --skip)") from None
                self.skipped[why.kind] += 1
            else:
                self.settled.event(time, wanted.name, value)

    def new_plan(self, bus: str, identifier: str) -> List[Wanted]:
        """What is made of the frames with an identifier that come from an interface."""
        if self.words.bus not in (None, bus):
            return []
        if self.words.map:
            mapped = [wanted for wanted in self.words.map.get(identifier, ()) if wanted.bus in (None, bus)]
        else:
            mapped = [Wanted(None, f"can_{identifier}", None)]
        plan = [wanted for wanted in mapped if self.names[wanted.name]]
        if any(wanted.bus is None for wanted in plan) and self.buses.setdefault(identifier, bus) != bus:
            raise Refused(f"{identifier} comes from {shown(bus)}, and came from {shown(self.buses[identifier])} (see --bus)")
        return plan

    def missing(self) -> List[str]:
        texts: List[str] = []
        for identifier, all_wanted in self.words.map.items():
            for wanted in all_wanted:
                if not any(self.is_frame_of(identifier, wanted, *plan) for plan in self.plans):
                    bus = f"{shown(wanted.bus)}/" if wanted.bus else ""
                    texts.append(f"--map {bus}{identifier}={wanted.name}: the log has no such frame")
        if self.words.bus and not any(bus == self.words.bus for bus, _ in self.plans):
            texts.append(f"--bus {shown(self.words.bus)}: the log has no such interface")
        self.lacks = bool(texts)
        return super().missing() + texts

    def is_frame_of(self, identifier: str, wanted: Wanted, bus: str, number: str) -> bool:
        return number == identifier and wanted.bus in (None, bus) and self.words.bus in (None, bus)

    def finish(self, whole_log: bool) -> None:
        for kind, count in self.skipped.items():
            if count:
                self.say(f"left out of {kind} frames: {count} (--skip {kind})")
        super().finish(whole_log)


def digits_of(length: str, data: str) -> str:
    """The digits of the data of a frame, which has blanks; one alone, which makes no byte, where they are not as many as the length says."""
    digits = data.replace(" ", "")
    return digits if len(digits) == 2 * int(length) else "0"


def value_reader(wanted: Wanted) -> Callable[[str], str]:
    """What makes the value of an input from the digits of the data."""
    if wanted.part is None:
        return '"{}"'.format
    first, count, order, signed = wanted.part
    begin, end = 2 * first, 2 * (first + count)
    greatest = GREATEST if not signed else 2 ** (8 * count - 1) - 1

    def read(digits: str) -> str:
        part = digits[begin:end]
        if len(part) < end - begin:
            raise Skippable("short", "it is too short")
        number = int(part if order == "big" else bytes.fromhex(part)[::-1].hex(), 16)
        if number > greatest:
            if not signed:
                raise Refused("it is too large")
            number -= 2 ** (8 * count)
        return str(number)

    return read


def data_of_joined(text: str) -> bytes:
    """The data of a frame as `candump -L` writes it."""
    if text.startswith("R"):
        raise Skippable("remote", "a remote frame has no data")
    digits, most = (text[2:], 64) if text.startswith("#") else (text, 8)
    if not (digits.isalnum() and len(digits) % 2 == 0) and not OCTETS.fullmatch(digits):
        raise Refused("the data are no whole bytes")
    data = bytes.fromhex(digits.replace(".", ""))
    if len(data) > most:
        raise Refused(f"more than {most} bytes of data")
    return data


def data_of_spaced(content: Tuple[int, str, Optional[str]]) -> bytes:
    """The data of a frame as `candump -ta` writes it: their number, their digits, and what stands after them."""
    count, text, note = content
    if note == "remote request":
        raise Skippable("remote", "a remote frame has no data")
    data = bytes.fromhex(text)
    if len(data) != count:
        raise Refused(f"the length is {count}, and there are {len(data)} bytes")
    return data


def value_of(data: bytes, wanted: Wanted) -> str:
    """The value that a frame with this data has for an input."""
    if wanted.part is None:
        return f'"{data.hex().upper()}"'
    first, count, order, signed = wanted.part
    octets = data[first : first + count]
    if len(octets) < count:
        raise Skippable("short", f"the frame is too short for {shown(wanted.name)}")
    number = int.from_bytes(octets, order, signed=signed)
    if number > GREATEST:
        raise Refused(f"{shown(wanted.name)} is beyond 64 bits with a sign")
    return str(number)
