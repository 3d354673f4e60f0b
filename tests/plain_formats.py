"""A second reading of lines that a pattern takes apart, of the journal, and of dumps of value changes."""

from typing import Any, Dict, Iterator, List, Optional, Tuple

from plain_reading import BLANKS, DIGITS, GREATEST, Json, No, Reading, all_of, event_of, is_blank, lines_of, quoted, with_line

# ---- Lines that a pattern takes apart

# Patterns of --match, and a function that finds by hand what each of them finds; None is a line that it does not fit.
BY_EVENT = "(?P<time>[^ ]+ [^ ]+) status (?P<event>[^ ]+) (?P<value>[^ ]*) [^ ]+"
BY_GROUP = "(?P<time>[0-9.]*);(?P<a>[^;]*);(?P<b>[^;]*)(?:;(?P<in>[^;]*))?"


def by_event(line: str) -> Optional[Dict[str, str]]:
    parts = line.split(" ")
    if len(parts) != 6 or parts[2] != "status" or "" in parts[:4] + parts[5:]:
        return None
    return {"time": " ".join(parts[:2]), "event": parts[3], "value": parts[4]}


def by_group(line: str) -> Optional[Dict[str, str]]:
    parts = line.split(";")
    if len(parts) not in (3, 4) or (parts[0] and not all_of(parts[0], DIGITS + ".")):
        return None
    return dict(zip(["time", "a", "b", "in"], parts))


def line_of_pattern(reading: Reading, line: str) -> None:
    if is_blank(line) or reading.tick(line):
        return
    found = reading.options["match"](line.rstrip("\r\n"))
    if found is None:
        if "other" not in reading.options.get("skip", ()):
            raise No()
        return
    time = reading.time(found.pop("time"))
    if "event" in found:
        value = found["value"] if found["value"].strip(BLANKS) else None
        if not found["event"].strip(BLANKS):
            raise No()
        event_of(reading, time, found["event"].strip(BLANKS), True, value, reading.cell)
        return
    for group, cell in found.items():
        name = reading.input(group)
        if name is not None and cell.strip(BLANKS):
            reading.event(time, name, reading.cell(name, cell))


# ---- The journal

NUMBERS = "PRIORITY ERRNO CODE_LINE SYSLOG_FACILITY SYSLOG_PID TID EXIT_STATUS N_RESTARTS _PID _UID _GID _AUDIT_SESSION _AUDIT_LOGINUID"
NUMBERS += " _SYSTEMD_OWNER_UID _LINE_BREAK_ID _SOURCE_REALTIME_TIMESTAMP _SOURCE_MONOTONIC_TIMESTAMP _SOURCE_BOOTTIME_TIMESTAMP"
NUMBERS += " __MONOTONIC_TIMESTAMP __REALTIME_TIMESTAMP __SEQNUM"
CAPITALS = "ABCDEFGHIJKLMNOPQRSTUVWXYZ_"


def read_journal(reading: Reading, log: bytes) -> None:
    at = 3 if log.startswith(b"\xef\xbb\xbf") else 0
    while at < len(log):
        first = number_at(log, at)
        end = log.find(b"\n", at) + 1 or len(log)
        line = log[at:end]
        if is_blank(line.decode("latin-1")):
            at = end
        elif line.lstrip(b" \t").startswith(b"{"):
            with_line(first, entry_of_object, reading, line)
            at = end
        elif with_line(first, reading.tick, line.decode("utf-8", "replace")):
            at = end
        else:
            at, fields = exported_entry(reading, log, at, first)
            with_line(first, entry_of_fields, reading, fields)


def number_at(log: bytes, at: int) -> int:
    return log.count(b"\n", 0, at) + 1


def is_wanted(reading: Reading, field: str) -> bool:
    options = reading.options
    time = options.get("time", "__REALTIME_TIMESTAMP")
    if "event" in options:
        return field in (time, options["event"], options.get("value"))
    if field == time:
        return True
    return (field[:2] != "__" or field in options.get("only", ())) and reading.input(field) is not None


def entry_of_object(reading: Reading, line: bytes) -> None:
    try:
        kind, members = Json(line.decode()).whole()
    except UnicodeDecodeError:
        raise No() from None
    if kind != "object":
        raise No()
    fields: Dict[str, Optional[bytes]] = {}
    for field, (kind, content) in members:
        if not is_wanted(reading, field):
            continue
        if kind == "text":
            fields[field] = content.encode("utf-8", "surrogatepass")
        elif kind == "list" and all(part[0] == "number" and part[1] in [str(byte) for byte in range(256)] for part in content):
            fields[field] = as_text(bytes(int(part[1]) for part in content))
        else:
            raise No()
    entry_of_fields(reading, fields)


def as_text(data: bytes) -> Optional[bytes]:
    try:
        data.decode()
    except UnicodeDecodeError:
        return None
    return data


def exported_entry(reading: Reading, log: bytes, at: int, first: int) -> Tuple[int, Dict[str, Optional[bytes]]]:
    """Where the entry ends, and its wanted fields."""
    fields: Dict[str, Optional[bytes]] = {}
    while True:
        end = log.find(b"\n", at)
        line = log[at:end] if end >= 0 else log[at:]
        if line.strip(b"\r") == b"" and at < len(log):
            return (end + 1 if end >= 0 else len(log)), fields
        if at >= len(log):
            raise No(first)
        number = number_at(log, at)
        named, equals, rest = line.partition(b"=")
        if end < 0 or not named or len(named) > 64 or any(chr(byte) not in CAPITALS + DIGITS for byte in named) or named[:1].isdigit():
            raise No(number)
        field, at = named.decode(), end + 1
        wanted = with_line(number, is_wanted, reading, field)
        if wanted and field in fields:
            raise No(number)
        if not equals:
            size = sum(byte << (8 * place) for place, byte in enumerate(log[at : at + 8]))
            if len(log) < at + 8 or len(log) < at + 8 + size + 1 or log[at + 8 + size] != 10 or (wanted and size > 2**20):
                raise No(number)
            rest, at = log[at + 8 : at + 8 + size], at + 8 + size + 1
        if wanted:
            fields[field] = as_text(rest)


def entry_of_fields(reading: Reading, fields: Dict[str, Optional[bytes]]) -> None:
    options = reading.options
    time = fields.pop(options.get("time", "__REALTIME_TIMESTAMP"), None)
    if not time:
        raise No()
    number = reading.time(time.decode("utf-8", "surrogatepass"))
    reading.begins = True
    texts = {field: None if data is None else data.decode("utf-8", "surrogatepass") for field, data in fields.items()}
    if "event" not in options:
        for field, text in texts.items():
            name = reading.input(field)
            if name is not None and takes_text(reading, text) and text.strip(BLANKS):
                reading.event(number, name, field_value(reading, name, field, text))
        return
    named = texts.get(options["event"])
    if not named or not named.strip(BLANKS):
        raise No()
    name = reading.input(named)
    if name is None:
        return
    if "value" not in options or name in options.get("unit", ()):
        reading.event(number, name, None)
        return
    value = texts.get(options["value"], "")
    if takes_text(reading, value):
        if not value.strip(BLANKS):
            raise No()
        reading.event(number, name, field_value(reading, name, options["value"], value))


def takes_text(reading: Reading, text: Optional[str]) -> bool:
    if text is None and "binary" not in reading.options.get("skip", ()):
        raise No()
    return text is not None


def field_value(reading: Reading, name: str, field: str, text: str) -> Optional[str]:
    options = reading.options
    if name in options.get("unit", ()):
        return None
    if name in options.get("text", ()):
        return quoted(text)
    if name in options.get("factor", {}) or field in NUMBERS.split(" "):
        return reading.whole(text.strip(BLANKS), options.get("factor", {}).get(name))
    return quoted(text)


# ---- Dumps of value changes


class Dump:
    def __init__(self, reading: Reading, log: bytes):
        self.reading, self.tokens = reading, self.tokens_of(log)
        self.number = 0  # of the line that was read last
        self.codes: Dict[str, Dict[str, Any]] = {}
        self.called: Dict[str, str] = {}
        self.scopes: List[str] = []
        self.zeros = ""
        self.at: Optional[int] = None

    def tokens_of(self, log: bytes) -> Iterator[str]:
        for self.number, line in lines_of(log):
            token = ""
            for char in line + " ":
                if not char.isspace():
                    token += char
                elif token:
                    yield token
                    token = ""

    def read(self) -> None:
        try:
            self.read_header()
            for token in self.tokens:
                self.read_value(token)
            if self.at is not None:
                self.tick(self.at)
        except No as no:
            raise No(self.number if no.line is None else no.line) from None

    def tick(self, time: int) -> None:
        reading = self.reading
        if time > reading.log:
            reading.log = time
            if time > reading.now:
                reading.release()
                reading.now = time
                reading.lines.append(f"{time}:")

    def until_end(self, limited: bool) -> List[str]:
        words = []
        for token in self.tokens:
            if token == "$end":
                return words
            words.append(token)
            if limited and len(words) > 64:
                raise No()
        raise No()

    def read_header(self) -> None:
        for token in self.tokens:
            if token[0] != "$":
                raise No()
            words = self.until_end(token in ("$scope", "$upscope", "$timescale", "$var", "$enddefinitions"))
            if token == "$enddefinitions":
                if words:
                    raise No()
                return
            if token == "$scope":
                if len(words) != 2 or len(self.scopes) == 255:
                    raise No()
                self.scopes.append(words[1])
            if token == "$upscope":
                if words or not self.scopes:
                    raise No()
                self.scopes.pop()
            if token == "$timescale":
                text = " ".join(words)
                count = text.rstrip("smunpf").rstrip(" ")
                unit = text[len(count) :]
                if count not in ("1", "10", "100") or unit.removeprefix(" ") not in ("s", "ms", "us", "ns", "ps", "fs"):
                    raise No()
                self.zeros = count[1:]
            if token == "$var":
                self.read_variable(words)
        raise No()

    def read_variable(self, words: List[str]) -> None:
        if len(words) < 4 or not all_of(words[1], DIGITS) or len(words[1]) > 9 or not 1 <= int(words[1]) <= 65536:
            raise No()
        kind, width, code, text = words[0], int(words[1]), words[2], "".join(words[3:])
        if len(code) > 255 or not all("!" <= char <= "~" for char in code):
            raise No()
        before, bracket, inside = text.rpartition("[")
        high, colon, low = inside.partition(":")
        if bracket and colon and low.endswith("]") and all_of(high, DIGITS) and all_of(low[:-1], DIGITS):
            text = before
        text = ".".join(self.scopes + [text])
        family = "real" if kind in ("real", "realtime", "shortreal") else "text" if kind == "string" else "bits"
        entry = self.codes.setdefault(code, {"kind": kind, "family": family, "width": width, "names": {}})
        if (entry["family"], entry["width"]) != (family, width):
            raise No()
        name = self.reading.input(text)
        if name is not None:
            if self.called.setdefault(text, code) != code:
                raise No()
            entry["names"][text] = name

    def read_value(self, token: str) -> None:
        first = token[0]
        if first == "#":
            if not all_of(token[1:], DIGITS):
                raise No()
            self.at = self.reading.time(token[1:] + self.zeros)
        elif first in "01xXzZ":
            self.value(token[1:], "bits", first)
        elif first in "bBrRsS":
            kind = {"b": "bits", "r": "real", "s": "text"}[first.lower()]
            self.value(next(self.tokens, ""), kind, token[1:])
        elif token == "$comment":
            self.until_end(False)
        elif token not in ("$dumpvars", "$dumpall", "$dumpon", "$dumpoff", "$end"):
            raise No()

    def value(self, code: str, family: str, text: str) -> None:
        entry = self.codes.get(code)
        if entry is None:
            raise No()
        if self.at is None:
            self.at = self.reading.time("0")
        for name in entry["names"].values():
            if name in self.reading.options.get("unit", ()):
                made: Optional[str] = None
            elif entry["family"] != family:
                raise No()
            elif family == "bits":
                made = self.of_bits(entry, name, text)
                if made == "unknown":
                    continue
            else:
                made = self.of_other(family, name, text)
            self.reading.begins = True
            self.reading.event(self.at, name, made)

    def of_other(self, family: str, name: str, text: str) -> str:
        options = self.reading.options
        if family == "text":
            if name in options.get("factor", {}) and name not in options.get("text", ()):
                raise No()
            return quoted(text)
        return quoted(text) if name in options.get("text", ()) else self.reading.whole(text, options.get("factor", {}).get(name))

    def of_bits(self, entry: Dict[str, Any], name: str, bits: str) -> Optional[str]:
        options, width = self.reading.options, entry["width"]
        if not all_of(bits, "01xXzZ") or len(bits) > width:
            raise No()
        bits = bits.lower()
        while len(bits) < width:
            bits = ("0" if bits[0] == "1" else bits[0]) + bits
        if name in options.get("text", ()):
            return quoted(bits)
        if entry["kind"] == "event":
            return None
        if "x" in bits or "z" in bits:
            if "unknown" not in options.get("skip", ()):
                raise No()
            return "unknown"
        signed = entry["kind"] == "integer" or name in options.get("signed", ())
        number = sum(1 << place for place, bit in enumerate(reversed(bits)) if bit == "1")
        number -= 1 << width if signed and bits[0] == "1" else 0
        if name in options.get("factor", {}):
            if abs(number) >= 2**256:
                raise No()
            return self.reading.whole(str(number), options["factor"][name])
        if width == 1 and name not in options.get("signed", ()):
            return "true" if number else "false"
        if not -GREATEST - 1 <= number <= GREATEST:
            raise No()
        return str(number)
