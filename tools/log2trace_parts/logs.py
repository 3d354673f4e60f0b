"""What logs of all formats have in common, and a log that is a trace already."""

import bisect
import codecs
import functools
import io
import itertools
import re
from typing import Any, Callable, Dict, Iterator, List, Optional, Sequence, Set, Tuple

from .clock import AFTER_SECONDS, TO_THE_HOUR, Clock
from .shapes import Shape, Shapes
from .texts import BLANKS, EXACT, GREATEST, LONGEST_NAME, NEWEST, SURROGATE, Refused, is_name, name_of, number_of, shown
from .times import MARK, SHORT, Settled
from .words import Words

LONGEST_LINE = 2**20  # characters of a line of a log
BLOCK = 2**16  # bytes that are read at once, if they are there
MOST_NAMES = 65536
LONGEST_TIME = 40  # digits that are taken as whole numbers

AT_ONCE, FEWEST_AT_ONCE = 128, 8  # lines whose times and values are taken in columns; more would leave the fast part of the memory
SHORTEST_PIECE, LONGEST_PIECE = 2**10, 2**14  # characters of such lines
GROUPS = re.Match.groups

POWERS = [10**digits for digits in range(LONGEST_TIME)]
TIME = re.compile(r"(?:[0-9]+\.?[0-9]*|\.[0-9]+)(?:[eE][+-]?[0-9]+)?")
EVENTS = re.compile(r"(?m:^)([0-9]{1,18}): (([A-Za-z_][0-9A-Za-z_]{0,200})(?: = [!-~](?:[ -~]{0,4000}[!-~])?)?)\n")
TICK = re.compile(r"[ \t]*([0-9]+(?:\.[0-9]+)?)[ \t]*:[ \t\r\n]*")


class Lines:
    """The lines of a log, counted. Those that are not UTF-8, or that don't end, are refused."""

    what = "line"  # as messages call it

    def __init__(self, file: io.BufferedReader):
        self.file, self.number = file, 0
        self.text, self.at = "", 0  # what was read, and from where on it was not taken yet
        self.decoder = codecs.getincrementaldecoder("utf-8")("surrogateescape")

    def __iter__(self) -> Iterator[str]:
        for line in iter(self.line, ""):
            if not line.isascii():
                line = self.checked(line)
            if len(line) > LONGEST_LINE:
                raise self.refused(f"a line of more than {LONGEST_LINE} characters")
            yield line

    def line(self) -> str:
        """The next line, of whatever it is made; no text at the end."""
        end = self.text.find("\n", self.at) + 1
        if end:
            line = self.text[self.at : end]
            self.at = end
        else:
            line = self.line_of_more()
        self.number += bool(line)
        return line

    def line_of_more(self) -> str:
        """A line that does not end in what was read. Where it is too long its beginning is enough."""
        pieces = [self.text[self.at :]]
        length = end = len(pieces[0])
        self.text, self.at = "", 0
        while length <= LONGEST_LINE and self.read_more():
            end = self.text.find("\n") + 1 or len(self.text)
            pieces.append(self.text[:end])
            length += end
            self.at = end
            if self.text.endswith("\n", 0, end):
                break
        return "".join(pieces)[: LONGEST_LINE + 1]

    def read_more(self) -> bool:
        """Reads more, after all was taken; False at the end."""
        data = b"-"
        self.text, self.at = "", 0
        while data and not self.text:
            data = self.file.read1(BLOCK)
            self.text = self.decoder.decode(data, not data)
        return self.text != ""

    def checked(self, line: str) -> str:
        if SURROGATE.search(line):
            raise self.refused("not UTF-8")
        return line[1:] if self.number == 1 and line[0] == "\ufeff" else line

    def refused(self, why: str) -> Refused:
        refused = Refused(why)
        refused.line = self.number
        return refused


def pieces(scanner: Any) -> Iterator[List["re.Match[str]"]]:
    """What a scanner finds without a gap, in pieces."""
    matches = iter(scanner.match, None)
    while piece := list(itertools.islice(matches, AT_ONCE)):
        yield piece


class Names(Dict[str, Optional[str]]):
    """The input of each name in the log; None where it is not wanted."""

    def __init__(self, only: Set[str], tell: Callable[[str], None]):
        super().__init__()
        self.only, self.tell = only, tell
        self.seen: Set[str] = set()  # the names that stood in the log, as inputs
        self.origins: Dict[str, str] = {}  # the name in the log that each input has

    def __missing__(self, text: str) -> Optional[str]:
        name = name_of(text)
        if self.only and name not in self.only:
            if len(self) < MOST_NAMES:
                self[text] = None
                self.seen.add(name)
            return None
        origin = self.origins.setdefault(name, text)
        if origin != text:
            raise Refused(f"{shown(origin)} and {shown(text)} are both the input {shown(name)}")
        if len(name.encode()) > LONGEST_NAME:
            raise Refused(f"a name of more than {LONGEST_NAME} bytes: {shown(name)}")
        if len(self) >= MOST_NAMES:
            raise Refused(f"more than {MOST_NAMES} different names")
        if origin != name:
            self.tell(f"{shown(origin)} is the input {shown(name)}")
        self[text] = name
        self.seen.add(name)
        return name


class Log:
    """A log that becomes a trace."""

    def __init__(self, words: Words, lines: Lines, write: Callable[[str], None], say: Callable[[str], None]):
        self.words, self.lines, self.say = words, lines, say
        self.names = Names(words.only, self.tell)
        self.settled = Settled(words.equal, words.back, write, self.tell, self.hint)
        self.whole_scale = int(words.scale) if words.scale == int(words.scale) else 0
        self.clock = Clock(words.zone)
        self.hours = self.clock.alike.hours
        self.newest = "", 0  # the newest date that looked like the one before, and its time
        self.scaled = functools.lru_cache(NEWEST)(self.new_scaled)
        self.shapes = Shapes()
        self.piece = LONGEST_PIECE  # characters that are tried at once
        self.hard = "", 0  # what was read, and up to where its lines are read in full
        self.first: Optional[int] = None
        self.cut = False  # whether times had fractions that were cut
        self.lacks = False  # whether a frame that is asked for never came, in a log that was read to its end

    def read(self) -> None:
        """Takes each line that is neither blank nor a tick."""
        for line in self.lines:
            text = line.rstrip(" \t\r\n")
            if text and not (text[-1] == ":" and self.tick(line)):
                self.settled.begin()
                self.line(line)
                self.learn(line)

    def learn(self, _line: str) -> None:
        """Takes what may be taken at once after this line, since it looks like one before."""

    def take_known(self) -> None:
        """Takes the lines that were read and have a known shape, up to the first one that has none."""
        lines = self.lines
        while lines.at < len(lines.text):
            shape = self.shapes.find(lines.text, lines.at)
            if shape is None:
                break
            self.take(shape, lines)

    def take_pieces(self, take: Callable[[str], bool]) -> None:
        """Takes whole lines that were read in pieces, up to one that can't be taken at once; its lines are read in full."""
        lines = self.lines
        while lines.text is not self.hard[0] or lines.at >= self.hard[1]:
            end = lines.text.rfind("\n", lines.at, lines.at + self.piece) + 1
            piece = lines.text[lines.at : end]
            count = piece.count("\n")
            if count < FEWEST_AT_ONCE:
                return
            if take(piece):
                lines.number += count
                lines.at = end
                self.piece = min(2 * self.piece, LONGEST_PIECE)
            else:
                self.hard = lines.text, end
                self.piece = max(self.piece // 2, SHORTEST_PIECE)

    def take(self, shape: Shape, lines: Lines) -> None:
        """Takes the lines from here on that have this shape. What comes of them is what their reading in full would make."""
        for matches in pieces(shape.scanner(lines.text, lines.at)):
            if len(matches) >= FEWEST_AT_ONCE and self.take_at_once(shape, matches):
                lines.number += shape.ends * len(matches)
                lines.at = matches[-1].end()
            else:
                self.take_each(shape, matches, lines)

    def take_at_once(self, shape: Shape, matches: List["re.Match[str]"]) -> bool:
        """Takes lines of this shape, if nothing of them is left out or refused; whether it did."""
        return self.take_rows(shape, list(zip(*map(GROUPS, matches))))

    def take_rows(self, shape: Shape, columns: Sequence[Sequence[str]]) -> bool:
        """The same by the groups of the lines."""
        times = self.times_of(columns[shape.time - 1]) if shape.names else None
        settled = self.settled.times_of_rows(times) if times else None
        if times is None or settled is None:
            return False
        try:
            rows = shape.rows(settled, columns)
        except Refused:
            return False
        self.settled.take_rows(times[-1], settled[-1], shape.here, rows)
        return True

    def take_each(self, shape: Shape, matches: List["re.Match[str]"], lines: Lines) -> None:
        settled = self.settled
        quick = bool(shape.names) and not shape.readers and not settled.holds
        scale = self.whole_scale if shape.whole_times and not self.words.from_first else 0
        for match in matches:
            lines.number += shape.ends
            lines.at = match.end()
            time = int(match[shape.time]) * scale if scale else self.time_of(match[shape.time])
            if quick and settled.now < time <= GREATEST:
                settled.write((shape.lines % match.group(*shape.groups)).replace(MARK, f"{time}: "))
                settled.log = settled.now = time
                settled.here, settled.shared, settled.begins = shape.here, True, False
            else:
                self.take_one(shape, match, checked_time(time))

    def take_events(self, times: Sequence[int], names: Sequence[Optional[str]], form: str, *values: Sequence[str]) -> bool:
        """Takes one event of each line, if none is left out or refused; whether it did. None is the name of one that is not wanted.

        The form has places for a time, a name and these values.
        """
        if not all(names):
            times, values = list(itertools.compress(times, names)), tuple(list(itertools.compress(column, names)) for column in values)
        known = list(filter(None, names))
        settled = self.settled.times_of_rows(times, known) if known else []
        if settled is None:
            firsts = self.settled.firsts_of_rows(times, known)
            return firsts is not None and self.take_firsts(firsts, times, known, form, values)
        rows = list(map(form.__mod__, zip(settled, known, *values)))
        if not rows:
            return True
        if max(map(len, rows)) > SHORT:
            return False
        first = bisect.bisect_left(settled, settled[-1])
        self.settled.take_rows(times[-1], settled[-1], known[first:], rows)
        return True

    def take_firsts(self, firsts: List[bool], times: Sequence[int], names: Sequence[str], form: str, values: Sequence[Sequence[str]]) -> bool:
        """Takes those events that are the first ones of their inputs at their times, if none is refused; whether it did."""
        kept_times, kept_names, *kept = [list(itertools.compress(column, firsts)) for column in (times, names, *values)]
        taken = self.take_events(kept_times, kept_names, form, *kept)
        if taken:
            self.settled.left_out += firsts.count(False)
        return taken

    def take_one(self, shape: Shape, match: "re.Match[str]", time: int) -> None:
        """Takes a line of this shape, whatever its time."""
        self.settled.begin()
        if shape.readers:
            self.settled.events(time, shape.names, shape.readers, shape.values(match))
        elif shape.names:
            self.settled.lines(time, shape.names, shape.lines % shape.values(match))

    def line(self, line: str) -> None:
        raise NotImplementedError

    def tell(self, text: str) -> None:
        self.say(f"{self.lines.what} {self.lines.number}: {text}" if self.lines.number else text)

    def hint(self) -> str:
        return "times have fractions, see --scale; else " if self.cut else ""

    def time_of(self, text: str) -> int:
        if self.hours:
            if text == self.newest[0]:
                return self.newest[1]
            time = self.time_alike(text)
            if time is not None:
                self.newest = text, time
                return time
        before, _, after = text.partition(".")
        digits = before + after
        if self.whole_scale and before and digits.isdigit() and digits.isascii() and len(digits) < LONGEST_TIME:
            time, rest = int(digits) * self.whole_scale, 0
            if after:
                time, rest = divmod(time, POWERS[len(after)])
        else:
            time, rest = self.scaled(text.strip(BLANKS))
        if rest:
            self.note_cut(text.strip(BLANKS))
        if self.words.from_first:
            self.first = time if self.first is None else self.first
            time -= self.first
        return checked_time(time)

    def times_of(self, texts: Sequence[str]) -> Optional[List[int]]:
        """The time of each text, as `time_of` has it; None where one is not as plain as those before it."""
        scale, words = self.whole_scale, self.words
        if not scale or (words.from_first and self.first is None):
            return None
        found = self.clock.numbers(texts) if self.hours else plain_numbers(texts)
        if found is None:
            return None
        times, places = found
        if scale != 1 or places:
            unit = POWERS[places]
            # The first time that is cut is for `time_of`.
            if scale % unit and not self.cut and any(time * scale % unit for time in times):
                return None
            if scale % unit:
                times = [time * scale // unit for time in times]
            elif scale != unit:
                times = [time * (scale // unit) for time in times]
        if words.from_first:
            times = [time - (self.first or 0) for time in times]
        return times if max(times) <= GREATEST else None

    def time_alike(self, text: str) -> Optional[int]:
        """The time of a date that looks like the one before, in an hour that is known, if it is one."""
        length, end, point, zone = self.clock.alike.looks
        begun, scale = self.hours.get(text[:TO_THE_HOUR]), self.whole_scale
        if begun is None or len(text) != length or not text.endswith(zone) or not scale:
            return None
        try:
            time = (begun + self.clock.alike.into_hour[text[TO_THE_HOUR:AFTER_SECONDS]]) * scale
        except KeyError:
            return None
        if point:
            after = text[AFTER_SECONDS + 1 : end]
            if text[AFTER_SECONDS] != point or not (after.isdigit() and after.isascii()):
                return None
            more, rest = divmod(int(after) * scale, POWERS[len(after)])
            time += more
            if rest:
                self.note_cut(text)
        if self.words.from_first:
            self.first = time if self.first is None else self.first
            time -= self.first
        return time if time <= GREATEST else checked_time(time)

    def note_cut(self, text: str) -> None:
        """A time was cut to a whole unit, which --scale has to ask for."""
        if not self.words.scaled:
            raise Refused(f"the time {shown(text)} has a fraction (--scale 1000 keeps three digits of it, --scale 1 none)")
        self.cut = True

    def new_scaled(self, text: str) -> Tuple[int, object]:
        """A time of the log that is not short and plain in whole units of the trace, and what is over."""
        moment = self.clock.moment(text)
        if moment is not None:
            seconds, after = moment
            if self.whole_scale:
                return divmod(int(f"{seconds}{after}") * self.whole_scale, 10 ** len(after))
            text = f"{seconds}.{after}"
        elif not TIME.fullmatch(text):
            raise Refused(f"no time: {shown(text)}")
        exact = EXACT.multiply(number_of(text), self.words.scale)
        return int(exact), exact != int(exact)

    def tick(self, line: str) -> bool:
        """Takes the line if it is a tick."""
        match = TICK.fullmatch(line)
        if match:
            self.settled.tick(self.time_of(match.group(1)))
        return bool(match)

    def missing(self) -> List[str]:
        """What the words name and the log never had."""
        named = [(flag, name) for flag in ("only", "unit", "text", "factor", "signed") for name in sorted(getattr(self.words, flag))]
        return [f"--{flag} {shown(name)}: the log has no such input" for flag, name in named if name not in self.names.seen]

    def finish(self, whole_log: bool) -> None:
        """Tells what was left out, and what the words name and a whole log has not."""
        if self.settled.left_out:
            self.say(f"left out at equal times: {self.settled.left_out} ({self.hint()}--equal {self.words.equal})")
        if whole_log:
            for text in self.missing():
                self.say(text)


def plain_numbers(texts: Sequence[str]) -> Optional[Tuple[List[int], int]]:
    """Numbers that have digits alone, and all as many after a point, without the point, and how many these are; None where one is none."""
    joined, count, width = "\n".join(texts), len(texts), len(texts[0])
    alike = joined[width :: width + 1] == "\n" * (count - 1) and len(joined) == count * (width + 1) - 1
    if width == 0 or max(width, 0 if alike else max(map(len, texts))) >= LONGEST_TIME:
        return None
    places = 0
    if "." in joined:
        places = width - texts[0].find(".") - 1
        points = joined[width - places - 1 :: width + 1] if alike else "".join([text[-places - 1 : -places] for text in texts])
        if places < 1 or points != "." * count or joined.count(".") != count:
            return None
        joined = joined.replace(".", "")
    digits, bare = joined.split("\n"), joined.replace("\n", "")
    if len(digits) != count or not all(digits) or not (bare.isascii() and bare.isdigit()):
        return None
    return list(map(int, digits)), places


def checked_time(time: int) -> int:
    if time > GREATEST:
        raise Refused("time too large")
    return time


def is_text(text: str) -> bool:
    """Whether what was read was UTF-8."""
    return text.isascii() or not SURROGATE.search(text)


class Trace(Log):
    """A trace, whose values stay as they are."""

    def learn(self, _line: str) -> None:
        self.take_pieces(self.take_text)

    def take_text(self, text: str) -> bool:
        """Takes plain lines, if nothing of them is left out or refused; whether it did."""
        found = EVENTS.findall(text)
        if len(found) < text.count("\n"):
            return False
        whens, events, names = zip(*found)
        known = set(names)
        times = self.times_of(whens) if all(map(is_name, known)) else None
        if times is None:
            return False
        only = self.words.only
        taken = self.take_events(times, [name if name in only else None for name in names] if only else names, "%d: %.0s%s\n", events)
        if taken:
            self.names.seen |= known & only
        return taken

    def line(self, line: str) -> None:
        if line.lstrip(BLANKS).startswith(("#", "--")):
            return
        time, _, rest = line.rstrip(" \t\r\n").partition(":")
        name, equals, value = (part.strip(BLANKS) for part in rest.partition("="))
        time = time.strip(BLANKS)
        if not (time.isascii() and time.isdigit() and is_name(name)) or (equals and not value):
            raise Refused("not a trace line")
        number = self.time_of(time)
        if self.words.only:
            if name not in self.words.only:
                return
            self.names.seen.add(name)
        self.settled.event(number, name, value if equals else None)
