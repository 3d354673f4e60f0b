"""Objects of JSON."""

import decimal
import json
import re
from typing import Any, Callable, Dict, List, Optional, Set, Tuple

from .fields import Fields
from .paths import NOTHING, Path, Place
from .shapes import SOME_TEXT, Kind, Pattern, Shape
from .skeletons import NoShape, Take, kind_of, pattern_of
from .texts import BLANKS, GREATEST, Refused, quoted, shown, whole

DEEPEST = 64  # levels of JSON


class Number(str):
    """A number of a JSON text that is not whole, as it stands there."""

    __slots__ = ()


def number_text(value: Any) -> Optional[str]:
    """A number as it stands in the JSON text; None for what is none."""
    if type(value) is int:
        return str(value)
    return value if type(value) is Number else None


class Objects(Fields):
    """An object on each line."""

    def __init__(self, *arguments: Any):
        super().__init__(*arguments)
        self.time_at = Path("time" if self.words.time is None else self.words.time)
        self.event_at = Path(self.words.event or "")
        self.value_at = Path(self.words.value or "")
        self.objects = 0
        self.value_seen = False
        self.paths_seen: Set[str] = set()

    def line(self, line: str) -> None:
        members = decoded(line)
        number = self.time_of(self.time_text(members))
        if self.words.event:
            self.object_of_event(number, members)
        elif self.words.path:
            self.object_of_paths(number, members)
        else:
            self.object_of_members(number, members)

    def learn(self, line: str) -> None:
        if self.shapes.may_learn(line):
            self.shapes.learn(self.shape_of(line))
        self.take_known()

    def shape_of(self, line: str) -> Optional[Shape]:
        """The shape of a line that was taken; None where it has none."""
        members = decoded(line)
        try:
            if self.words.event:
                take = self.named_taker(members)
            elif self.words.path:
                take = self.path_taker(members)
            else:
                take = self.member_taker(members)
            pattern = pattern_of(line, self.time_at.place(members), take)
            order = list(self.words.path)
            pattern.inputs.sort(key=lambda found: order.index(found[0]) if order else 0)
            return pattern.shape_of(line)
        except NoShape:
            return None

    def kind(self, name: str, token: str) -> Kind:
        return kind_of(token, name in self.words.unit, name in self.words.text, self.multiplier(name))

    def member_taker(self, members: Dict[str, Any]) -> Take:
        """Takes the members that are inputs."""
        wanted = {member: self.names[member] for member in members if member != self.time_at.text}
        if any(wanted.get(member) and isinstance(value, (list, dict)) for member, value in members.items()):
            raise NoShape()

        def take(pattern: Pattern, place: Place, token: str) -> bool:
            name = wanted.get(str(place[0]))
            if name:
                pattern.input(name, self.kind(name, token))
            return name is not None

        return take

    def path_taker(self, members: Dict[str, Any]) -> Take:
        """Takes what stands at the paths that are inputs."""
        wanted: Dict[Optional[Place], str] = {self.time_at.place(members): ""}
        for name, path in self.words.path.items():
            place = path.place(members)
            if place is not None and self.names[name]:
                if place in wanted or isinstance(path.of(members), (list, dict)):
                    raise NoShape()
                wanted[place] = name

        def take(pattern: Pattern, place: Place, token: str) -> bool:
            if place in wanted:
                pattern.input(wanted[place], self.kind(wanted[place], token))
            return place in wanted

        return take

    def named_taker(self, members: Dict[str, Any]) -> Take:
        """Takes the name of an input, and its value."""
        event, value = self.event_at.place(members), self.value_at.place(members) if self.words.value else None
        if self.words.text or self.words.factor or (self.words.value and value is None) or event in (value, self.time_at.place(members)):
            raise NoShape()

        def take(pattern: Pattern, place: Place, token: str) -> bool:
            if place == event:
                if token[0] != '"':
                    raise NoShape()
                pattern.text('"')
                pattern.named = (pattern.group(SOME_TEXT), *pattern.named)
                pattern.text('"')
            elif place == value:
                if token == "null":
                    raise NoShape()
                pattern.named = (*pattern.named, pattern.group(self.kind("", token).pattern))
            return place in (event, value)

        return take

    def time_text(self, members: Dict[str, Any]) -> str:
        time = self.time_at.of(members)
        if time is None or time is NOTHING:
            raise Refused(f"it has no {shown(self.time_at.text)} (see --time)")
        text = time if isinstance(time, str) else number_text(time)
        if text is None:
            raise Refused(f"no time: {shown(json_text(time))}")
        return text

    def object_of_members(self, number: int, members: Dict[str, Any]) -> None:
        members.pop(self.time_at.text, None)
        self.named_events(number, members)

    def object_of_paths(self, number: int, members: Dict[str, Any]) -> None:
        for name, path in self.words.path.items():
            value = path.of(members)
            if value is NOTHING:
                continue
            self.paths_seen.add(name)
            if self.names[name] and value is not None:
                self.settled.event(number, name, self.reader(name)(value))

    def object_of_event(self, time: int, members: Dict[str, Any]) -> None:
        self.objects += 1
        value = self.value_at.of(members) if self.words.value else NOTHING
        self.value_seen = self.value_seen or value is not NOTHING
        named = self.event_at.of(members)
        named = number_text(named) or named
        if not isinstance(named, str) or not named.strip(BLANKS):
            raise Refused(f"it has no {shown(self.event_at.text)}, or one that is no name")
        self.named_event(time, named, None if value is NOTHING else value)

    def missing(self) -> List[str]:
        texts = super().missing()
        for name, path in self.words.path.items():
            if name not in self.paths_seen:
                texts.append(f"--path {name}={shown(path.text)}: the log has no such member")
        return texts

    def without_value(self, value: Any) -> Optional[str]:
        return "" if value is None else None

    def text(self, value: Any) -> str:
        if value is None:
            return ""
        return quoted(value if type(value) is str else json_text(value))

    def multiplied(self, name: str, factor: decimal.Decimal, value: Any) -> str:
        if value is None:
            return ""
        text = number_text(value)
        if text is None:
            raise Refused(f"{name} = {shown(json_text(value))} is no number (see --factor)")
        return whole(name, text, factor)

    def plain(self, name: str, value: Any) -> str:
        if type(value) is str:
            return quoted(value)
        if type(value) is int and -GREATEST <= value <= GREATEST:
            return str(value)
        text = number_text(value)
        if text is not None:
            return whole(name, text)
        return json_text(value) if isinstance(value, bool) else self.text(value)

    def finish(self, whole_log: bool) -> None:
        super().finish(whole_log)
        if whole_log and self.words.value and self.objects and not self.value_seen:
            raise Refused(f"--value {shown(self.words.value)}: the log has no such member")


def object_of(pairs: List[Tuple[str, Any]]) -> Dict[str, Any]:
    """An object, which has each member once."""
    members = dict(pairs)
    if len(members) != len(pairs):
        names = [name for name, _ in pairs]
        raise Refused(f"the member {shown(next(name for name in members if names.count(name) > 1))} twice")
    return members


def refuse_constant(text: str) -> None:
    raise Refused(f"{text} is no number")


def decoder(parse_int: Callable[[str], Any]) -> json.JSONDecoder:
    return json.JSONDecoder(object_pairs_hook=object_of, parse_int=parse_int, parse_float=Number, parse_constant=refuse_constant)


# A whole number is written as it stood, but for -0, and for one that Python would not take.
WHOLE_NUMBERS, ALL_NUMBERS = decoder(int), decoder(Number)
MINUS_ZERO = re.compile(r"-0(?![0-9.eE])")
LONGEST_WHOLE = 4000


def decoded(line: str) -> Dict[str, Any]:
    """The object that a line is."""
    if line.count("[") + line.count("{") > DEEPEST and depth_of(line) > DEEPEST:
        raise Refused(f"more than {DEEPEST} levels")
    text = line.strip(" \t\r\n")
    special = len(text) > LONGEST_WHOLE or ("-0" in text and MINUS_ZERO.search(text))
    try:
        members, end = (ALL_NUMBERS if special else WHOLE_NUMBERS).scan_once(text, 0)
    except (ValueError, StopIteration):
        raise Refused("not JSON") from None
    if end != len(text):
        raise Refused("not JSON")
    if not isinstance(members, dict):
        raise Refused("no object")
    return members


def depth_of(line: str) -> int:
    """How many brackets of a JSON text are open at most."""
    depth = most = 0
    for match in re.finditer(r'"(?:[^"\\]|\\.)*"?|[\[{]|[\]}]', line):
        depth += {"[": 1, "{": 1, "]": -1, "}": -1}.get(match.group(), 0)
        most = max(most, depth)
    return most


def json_text(value: Any) -> str:
    """A value as JSON, with its numbers as they were written."""
    text = number_text(value)
    if text is not None:
        return text
    if isinstance(value, list):
        return "[" + ", ".join(map(json_text, value)) + "]"
    if isinstance(value, dict):
        return "{" + ", ".join(f"{json_text(name)}: {json_text(part)}" for name, part in value.items()) + "}"
    return json.dumps(value, ensure_ascii=False)
