"""What the second reading of logs takes apart by hand, whatever the format: numbers, dates, names, lines, JSON; and how a trace is made."""

from fractions import Fraction
from typing import Any, Dict, List, Optional, Set, Tuple

BLANKS = " \t"
DIGITS = "0123456789"
HEXADECIMAL = DIGITS + "abcdefABCDEF"
WORDS = ["in", "def", "as", "out", "if", "then", "else", "true", "false"]
GREATEST = 2**63 - 1


class No(Exception):
    """The line is refused."""

    def __init__(self, line: Optional[int] = None):
        super().__init__()
        self.line = line


def all_of(text: str, characters: str) -> bool:
    return text != "" and all(char in characters for char in text)


def name_of(text: str) -> str:
    name = ""
    for char in text.strip(BLANKS):
        name += char if ("a" + char).isidentifier() else "_"
    if name == "" or not (name[0] == "_" or name[0].isidentifier()):
        name = "_" + name
    return name + "_" if name in WORDS else name


def number_of(text: str) -> Optional[Fraction]:
    """The number that a text is; None where it is none."""
    rest, exponent = text, 0
    for letter in "eE":
        if letter in rest:
            rest, _, power = rest.partition(letter)
            digits = power[1:] if power[:1] in ("+", "-") else power
            if not all_of(digits, DIGITS):
                return None
            exponent = -int(digits[:40]) if power[0] == "-" else int(digits[:40])
            break
    negative = rest[:1] == "-"
    rest = rest[1:] if rest[:1] in ("+", "-") else rest
    before, _, after = rest.partition(".")
    if not all_of(before + after, DIGITS):
        return None
    if len(text) > 100 or abs(exponent) > 999:
        raise No()
    number = Fraction(int(before + after)) / 10 ** len(after) * Fraction(10) ** exponent
    return -number if negative else number


def seconds_of(text: str, zone: Optional[int]) -> Fraction:
    """The seconds since 1970 of a date, whose zone is so many minutes ahead if it has none itself."""
    digits = [char if char not in DIGITS else "0" for char in text]
    shape = "".join(digits)
    if shape[:16] not in ("0000-00-00T00:00", "0000-00-00t00:00", "0000-00-00 00:00"):
        raise No()
    year, month, day, hour, minute = (int(text[at:end]) for at, end in ((0, 4), (5, 7), (8, 10), (11, 13), (14, 16)))
    second, fraction, rest = 0, Fraction(0), text[16:]
    if shape[16:19] == ":00":
        second, rest = int(text[17:19]), text[19:]
        if rest[:1] in (".", ","):
            count = len(rest[1:]) - len(rest[1:].lstrip(DIGITS))
            if not 1 <= count <= 80:
                raise No()
            fraction, rest = Fraction(int(rest[1 : 1 + count]), 10**count), rest[1 + count :]
    ahead = minutes_ahead(rest, zone)
    leap = year % 4 == 0 and (year % 100 != 0 or year % 400 == 0)
    lengths = [31, 29 if leap else 28, 31, 30, 31, 30, 31, 31, 30, 31, 30, 31]
    if not (year >= 1 and 1 <= month <= 12 and 1 <= day <= lengths[month - 1] and hour < 24 and minute < 60 and second < 60):
        raise No()
    before = year - 1
    days = before * 365 + before // 4 - before // 100 + before // 400 + sum(lengths[: month - 1]) + day - 1 - 719162
    whole = ((days * 24 + hour) * 60 + minute - ahead) * 60 + second
    if whole < 0:
        raise No()
    return whole + fraction


def minutes_ahead(text: str, zone: Optional[int]) -> int:
    if text == "" or text == " ":
        if zone is None:
            raise No()
        return zone
    text = text[1:] if text[0] == " " else text
    if text in ("Z", "z"):
        return 0
    digits = text[1:].replace(":", "", 1) if len(text) == 6 and text[3] == ":" else text[1:]
    if text[0] not in "+-" or not all_of(digits, DIGITS) or len(digits) not in (2, 4):
        raise No()
    hours, minutes = int(digits[:2]), int(digits[2:] or "0")
    if hours > 23 or minutes > 59:
        raise No()
    return (-1 if text[0] == "-" else 1) * (60 * hours + minutes)


def cut(number: Fraction) -> int:
    return -int(-number) if number < 0 else int(number)


def quoted(text: str) -> str:
    if any("\ud800" <= char <= "\udfff" for char in text):
        raise No()
    pairs = {"\\": "\\\\", '"': '\\"', "\n": "\\n", "\t": "\\t", "\r": "\\r"}
    return '"' + "".join(pairs.get(char, char) for char in text) + '"'


class Reading:
    """What is known of the trace so far. The options are those of the command line, by name."""

    def __init__(self, options: Dict[str, Any]):
        self.options = options
        self.lines: List[str] = []
        self.held: List[Tuple[str, str]] = []  # name and line of the last time, with --equal last
        self.here: List[str] = []
        self.log, self.now = -1, -1
        self.begins = False  # whether the next event is the first one of a line
        self.first: Optional[int] = None
        self.origins: Dict[str, str] = {}
        self.frames: Set[Tuple[str, str]] = set()  # by interface and identifier

    # Times

    def release(self) -> None:
        self.lines += [line for _, line in self.held]
        self.held, self.here = [], []

    def time(self, text: str) -> int:
        text = text.strip(BLANKS)
        if text[:1] in ("+", "-"):
            raise No()
        number = number_of(text)
        if number is None:
            number = seconds_of(text, self.options.get("zone"))
        number *= self.options.get("scale", 1)
        if "scale" not in self.options and number.denominator != 1:
            raise No()
        time = cut(number)
        if self.options.get("from_first"):
            self.first = time if self.first is None else self.first
            time -= self.first
        if time > GREATEST:
            raise No()
        return time

    def tick(self, line: str) -> bool:
        text = line.rstrip(" \t\r\n")
        if not text.endswith(":"):
            return False
        text = text[:-1].strip(BLANKS)
        before, point, after = text.partition(".")
        if not all_of(before, DIGITS) or (point and not all_of(after, DIGITS)):
            return False
        time = self.time(text)
        if time > self.log:
            self.log = time
            if time > self.now:
                self.release()
                self.now = time
                self.lines.append(f"{time}:")
        return True

    def event(self, time: int, name: str, value: Optional[str]) -> None:
        least = max(self.log, 0)
        if time < least:
            if self.options.get("back", "refuse") == "refuse":
                raise No()
            if self.options["back"] == "drop":
                return
            time = least
        self.log = time
        equal = self.options.get("equal", "refuse")
        if time > self.now:
            self.release()
            self.now = time
        elif equal == "apart" and self.begins and self.here:
            self.next_time()
        self.begins = False
        if name in self.here:
            if equal == "refuse":
                raise No()
            if equal == "first":
                return
            if equal in ("shift", "apart"):
                self.next_time()
        line = f"{self.now}: {name}" + ("" if value is None else f" = {value}")
        if len(line.encode()) > 65536:
            raise No()
        if equal != "last":
            self.lines.append(line)
        elif name in self.here:
            self.held = [(other, line if other == name else kept) for other, kept in self.held]
        else:
            self.held.append((name, line))
        self.here.append(name)

    def next_time(self) -> None:
        if self.now == GREATEST:
            raise No()
        self.release()
        self.now += 1

    # Names and values

    def input(self, text: str) -> Optional[str]:
        """The input of a name; None where it is not wanted."""
        name = name_of(text)
        only = self.options.get("only")
        if only and name not in only:
            return None
        if self.origins.setdefault(name, text) != text or len(name.encode()) > 255:
            raise No()
        return name

    def whole(self, text: str, factor: Optional[Fraction]) -> str:
        number = number_of(text)
        if number is None or (factor is None and number.denominator != 1):
            raise No()
        value = cut(number * (1 if factor is None else factor))
        if not -GREATEST - 1 <= value <= GREATEST:
            raise No()
        return str(value)

    def cell(self, name: str, cell: str) -> Optional[str]:
        text = cell.strip(BLANKS)
        if name in self.options.get("unit", ()):
            return None
        if name in self.options.get("text", ()):
            return quoted(cell)
        if name in self.options.get("factor", {}):
            return self.whole(text, self.options["factor"][name])
        if text in ("true", "false", "()"):
            return text
        return quoted(cell) if number_of(text) is None else self.whole(text, None)

    def member(self, name: str, value: Any) -> Optional[str]:
        kind, content = value
        if name in self.options.get("unit", ()):
            return None
        if name in self.options.get("text", ()):
            return quoted(content if kind == "text" else json_text(value))
        if name in self.options.get("factor", {}):
            if kind != "number":
                raise No()
            return self.whole(content, self.options["factor"][name])
        if kind == "number":
            return self.whole(content, None)
        return content if kind == "word" else quoted(content if kind == "text" else json_text(value))


def with_line(at: int, function, *arguments) -> Any:
    try:
        return function(*arguments)
    except No as no:
        raise No(at if no.line is None else no.line) from None


def lines_of(log: bytes):
    """The lines with their numbers."""
    parts = log.split(b"\n")
    for at, part in enumerate(parts, 1):
        data = part + b"\n" if at < len(parts) else part
        if not data:
            return
        try:
            line = data.decode("utf-8")
        except UnicodeDecodeError:
            raise No(at) from None
        yield at, line[1:] if at == 1 and line.startswith("\ufeff") else line


def is_blank(line: str) -> bool:
    return line.strip(" \t\r\n") == ""


def is_number(text: str) -> bool:
    try:
        return number_of(text) is not None
    except No:
        return True


def event_of(reading: Reading, time: int, named: str, has_values: bool, value: Any, text_of: Any) -> None:
    name = reading.input(named)
    if name is None:
        return
    if not has_values or name in reading.options.get("unit", ()):
        reading.event(time, name, None)
    elif value is None:
        raise No()
    else:
        reading.event(time, name, text_of(name, value))


# ---- JSON


class Json:
    """Reads a JSON text: pairs of a kind and a content."""

    def __init__(self, text: str):
        self.text, self.at = text, 0

    def whole(self) -> Any:
        value = self.value(0)
        self.blanks()
        if self.at != len(self.text):
            raise No()
        return value

    def blanks(self) -> None:
        while self.at < len(self.text) and self.text[self.at] in " \t\r\n":
            self.at += 1

    def next(self) -> str:
        self.blanks()
        return self.text[self.at : self.at + 1]

    def take(self, wanted: str) -> None:
        if not self.text.startswith(wanted, self.at):
            raise No()
        self.at += len(wanted)

    def value(self, depth: int) -> Any:
        char = self.next()
        if char and char in "[{":
            if depth == 64:
                raise No()
            return ("list", self.list(depth + 1)) if char == "[" else ("object", self.object(depth + 1))
        if char == '"':
            return "text", self.string()
        for word in ("true", "false", "null"):
            if self.text.startswith(word, self.at):
                self.at += len(word)
                return "null" if word == "null" else "word", word
        return "number", self.number()

    def list(self, depth: int) -> List[Any]:
        self.take("[")
        values: List[Any] = []
        while self.next() != "]":
            if values:
                self.take(",")
            values.append(self.value(depth))
        self.take("]")
        return values

    def object(self, depth: int) -> List[Tuple[str, Any]]:
        self.take("{")
        members: List[Tuple[str, Any]] = []
        while self.next() != "}":
            if members:
                self.take(",")
                self.blanks()
            name = self.string()
            self.blanks()
            self.take(":")
            if name in [other for other, _ in members]:
                raise No()
            members.append((name, self.value(depth)))
        self.take("}")
        return members

    def string(self) -> str:
        self.take('"')
        text = ""
        while True:
            char = self.text[self.at : self.at + 1]
            self.at += 1
            if char == '"':
                return join_halves(text)
            if char == "" or char < " ":
                raise No()
            if char == "\\":
                char = self.escape()
            text += char

    def escape(self) -> str:
        char = self.text[self.at : self.at + 1]
        self.at += 1
        simple = {'"': '"', "\\": "\\", "/": "/", "b": "\b", "f": "\f", "n": "\n", "r": "\r", "t": "\t"}
        if char in simple:
            return simple[char]
        digits = self.text[self.at : self.at + 4]
        if char != "u" or len(digits) != 4 or not all_of(digits, HEXADECIMAL):
            raise No()
        self.at += 4
        return chr(int(digits, 16))

    def number(self) -> str:
        begin = self.at
        if self.text[self.at : self.at + 1] == "-":
            self.at += 1
        before = self.digits()
        if len(before) > 1 and before[0] == "0":
            raise No()
        if self.text[self.at : self.at + 1] == ".":
            self.at += 1
            self.digits()
        if self.text[self.at : self.at + 1] in ("e", "E"):
            self.at += 1
            if self.text[self.at : self.at + 1] in ("+", "-"):
                self.at += 1
            self.digits()
        return self.text[begin : self.at]

    def digits(self) -> str:
        begin = self.at
        while self.at < len(self.text) and self.text[self.at] in DIGITS:
            self.at += 1
        if self.at == begin:
            raise No()
        return self.text[begin : self.at]


def join_halves(text: str) -> str:
    """Makes one character of two halves that follow each other."""
    made, at = "", 0
    while at < len(text):
        high, low = text[at], text[at + 1 : at + 2]
        if "\ud800" <= high <= "\udbff" and low and "\udc00" <= low <= "\udfff":
            made += chr(0x10000 + ((ord(high) - 0xD800) << 10) + (ord(low) - 0xDC00))
            at += 2
        else:
            made += high
            at += 1
    return made


def json_string(text: str) -> str:
    pairs = {'"': '\\"', "\\": "\\\\", "\b": "\\b", "\f": "\\f", "\n": "\\n", "\r": "\\r", "\t": "\\t"}
    return '"' + "".join(pairs.get(char, f"\\u{ord(char):04x}" if char < " " else char) for char in text) + '"'


def json_text(value: Any) -> str:
    kind, content = value
    if kind == "list":
        return "[" + ", ".join(json_text(part) for part in content) + "]"
    if kind == "object":
        return "{" + ", ".join(f"{json_string(name)}: {json_text(part)}" for name, part in content) + "}"
    return json_string(content) if kind == "text" else content
