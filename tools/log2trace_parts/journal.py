"""The journal of systemd, as journalctl writes it: `-o json`, or `-o export` with fields that are no text."""

import codecs
import functools
import io
import re
from typing import Any, Callable, Dict, List, Optional, Set

from .fields import Cells, are_numbers, are_plain
from .logs import FEWEST_AT_ONCE, LONGEST_LINE, LONGEST_PIECE, Lines
from .objects import decoded, number_text
from .paths import Place
from .shapes import MOST_PARTS, PLAIN_NUMBER, SOME_TEXT, Field, Kind, Pattern, Shape
from .skeletons import LETTERS_OF_ASCII, NoShape, pattern_of
from .texts import BLANKS, WHOLE, Refused, quoted, shown, whole

TIME_FIELD = "__REALTIME_TIMESTAMP"
BYTE = re.compile(r"[0-9]{1,3}")
FIELD = re.compile(rb"[A-Z_][A-Z0-9_]{0,63}")
PIECE = 65536  # bytes of a field that nobody wants

# What has numbers, by systemd.journal-fields(7). All other fields are texts, whatever they look like.
NUMBERS = {"PRIORITY", "ERRNO", "CODE_LINE", "SYSLOG_FACILITY", "SYSLOG_PID", "TID", "EXIT_STATUS", "N_RESTARTS"}
NUMBERS |= {"_PID", "_UID", "_GID", "_AUDIT_SESSION", "_AUDIT_LOGINUID", "_SYSTEMD_OWNER_UID", "_LINE_BREAK_ID"}
NUMBERS |= {"_SOURCE_REALTIME_TIMESTAMP", "_SOURCE_MONOTONIC_TIMESTAMP", "_SOURCE_BOOTTIME_TIMESTAMP"}
NUMBERS |= {"__MONOTONIC_TIMESTAMP", "__REALTIME_TIMESTAMP", "__SEQNUM"}

# What tells that values match these patterns.
MEANT: Dict[str, Callable[[List[str]], bool]] = {PLAIN_NUMBER: are_numbers, SOME_TEXT: are_plain}

Entry = Dict[str, Optional[str]]  # the wanted fields; None is one that is no text


class Parts(Lines):
    """The lines of a log that is no text throughout, counted, and what stands between them. A character of the text is a byte of the log."""

    def __init__(self, file: io.BufferedReader):
        super().__init__(file)
        self.decoder = codecs.getincrementaldecoder("latin-1")()

    def bytes_of_line(self) -> bytes:
        """The next line; no bytes at the end."""
        line = self.line().encode("latin-1")
        if len(line) > LONGEST_LINE:
            raise self.refused(f"a line of more than {LONGEST_LINE} bytes")
        return line[3:] if self.number == 1 and line.startswith(b"\xef\xbb\xbf") else line

    def bytes(self, size: int) -> bytes:
        """The next bytes. Fewer come at the end alone."""
        pieces: List[str] = []
        while size > 0 and (self.at < len(self.text) or self.read_more()):
            pieces.append(self.text[self.at : self.at + size])
            self.at += len(pieces[-1])
            size -= len(pieces[-1])
        data = "".join(pieces)
        self.number += data.count("\n")
        return data.encode("latin-1")


class Journal(Cells):
    """Entries. In `-o export` a line for each field, and an empty line after the last; in `-o json` an object on each line."""

    lines: Any

    def __init__(self, *arguments: Any):
        super().__init__(*arguments)
        self.time_name = self.words.time or TIME_FIELD
        self.binary = 0  # fields that were left out

    def read(self) -> None:
        lines = self.lines
        for line in iter(lines.bytes_of_line, b""):
            first, text, at = lines.number, lines.text, lines.at - len(line)
            try:
                self.entry_from(line)
            except Refused as refused:
                refused.line = refused.line or first
                raise
            if lines.text is text and at >= 0 and not self.words.event and self.shapes.may_learn(text[at : lines.at]):
                self.shapes.learn(self.shape_of(text[at : lines.at]))
            self.take_known()

    def take(self, shape: Shape, lines: Lines) -> None:
        if shape.fields:
            self.take_fields(shape, lines)
        try:
            super().take(shape, lines)
        except Refused as refused:
            refused.line = lines.number - shape.ends + 1
            raise

    def take_fields(self, shape: Shape, lines: Lines) -> None:
        """Takes entries that have the same fields in the same order, up to a piece of what was read where this is not so."""
        while lines.text is not self.hard[0] or lines.at >= self.hard[1]:
            end = lines.text.rfind("\n\n", lines.at, lines.at + LONGEST_PIECE) + 2
            rows = lines.text[lines.at : end].split("\n")[:-1]
            if len(rows) < FEWEST_AT_ONCE * shape.ends:
                return
            if len(rows) % shape.ends or not self.take_columns(shape, rows):
                self.hard = lines.text, end
                return
            lines.number += len(rows)
            lines.at = end

    def take_columns(self, shape: Shape, rows: List[str]) -> bool:
        """Takes entries by their lines, if they have this shape, and nothing of them is left out or refused; whether it did."""
        columns: List[List[str]] = [[]] * (len(shape.columns) + 1)
        for at, (start, group, pattern) in enumerate(shape.fields):
            column = rows[at :: shape.ends]
            if "\n".join(["", *column]).count(f"\n{start}") < len(column):
                return False
            if group:
                columns[group - 1] = values = [row[len(start) :] for row in column]
                if group != shape.time and not MEANT.get(pattern, lambda _: False)(values):
                    return False
        return not any(rows[shape.ends - 1 :: shape.ends]) and self.take_rows(shape, columns)

    # Shapes

    def shape_of(self, entry: str) -> Optional[Shape]:
        """The shape of an entry that was taken; None where it has none."""
        try:
            if not entry.isascii():
                return None
            if entry.lstrip(BLANKS).startswith("{"):
                members = decoded(entry)
                wanted = {field for field in members if self.is_wanted(field)}
                if any(type(members[field]) is not str for field in wanted):
                    return None
                pattern = pattern_of(entry, (self.time_name,), functools.partial(self.take_member, wanted), LETTERS_OF_ASCII)
            else:
                pattern = self.pattern_of_lines(entry)
            return pattern.shape_of(entry)
        except NoShape:
            return None

    def take_member(self, wanted: Set[str], pattern: Pattern, place: Place, token: str) -> bool:
        field = str(place[0])
        name = self.names[field] if field in wanted else None
        if name:
            pattern.text('"')
            pattern.input(name, self.kind(name, token.strip('"')))
            pattern.text('"')
        return name is not None

    def pattern_of_lines(self, entry: str) -> Pattern:
        """The pattern of an entry that has a line for each field."""
        pattern = Pattern()
        for line in entry.split("\n")[:-2]:
            field, equals, value = line.partition("=")
            if not equals or pattern.ends > MOST_PARTS:
                raise NoShape()
            groups = pattern.groups
            pattern.text(f"{field}=")
            if field == self.time_name:
                pattern.take_time(value, "[0-9]{1,18}")
            elif self.is_wanted(field):
                pattern.input(self.names[field] or "", self.kind(self.names[field] or "", value))
            else:
                pattern.any("[^\n]{0,4000}")
            wanted = pattern.inputs[-1] if pattern.inputs and pattern.groups > groups and pattern.time != pattern.groups else None
            pattern.fields.append(Field(f"{field}=", pattern.groups if pattern.groups > groups else 0, wanted[2].pattern if wanted else ""))
            pattern.end()
        pattern.end()
        return pattern

    def plain_kind(self, name: str, text: str, _some: str) -> Kind:
        if (self.words.value or name) not in NUMBERS:
            return Kind(SOME_TEXT, ' = "%s"')
        if not WHOLE.fullmatch(text):
            raise NoShape()
        return Kind(PLAIN_NUMBER, " = %s")

    def entry_from(self, line: bytes) -> None:
        """Takes the entry that begins with a line; it may be a blank line or a tick as well."""
        if not line.strip(b" \t\r\n"):
            return
        if line.lstrip(b" \t").startswith(b"{"):
            self.entry(self.object(text_of_line(line)))
        elif not self.tick(line.decode("utf-8", "replace")):
            self.entry(self.exported(line))

    def entry(self, fields: Entry) -> None:
        time = fields.pop(self.time_name, "")
        if not time:
            raise Refused(f"it has no {shown(self.time_name)} (see --time)")
        number = self.time_of(time)
        self.settled.begin()
        if self.words.event:
            self.entry_of_event(number, fields)
            return
        for field, text in fields.items():
            name = self.names[field]
            if name and self.is_text(field, text) and text and text.strip(BLANKS):
                self.settled.event(number, name, self.reader(name)(text))

    def entry_of_event(self, time: int, fields: Entry) -> None:
        named = fields.get(self.words.event or "")
        if not named or not named.strip(BLANKS):
            raise Refused(f"it has no {shown(self.words.event or '')}, or one that is no name")
        value = fields.get(self.words.value or "", "")
        name = self.names[named]
        if name is None or name in self.words.unit or self.is_text(self.words.value or "", value):
            self.named_event(time, named, value if value and value.strip(BLANKS) else None)

    def is_text(self, field: str, text: Optional[str]) -> bool:
        """Whether a field is a text, and not one that is left out."""
        if text is None:
            if "binary" not in self.words.skip:
                raise Refused(f"{shown(field)} is no text (see --skip)")
            self.binary += 1
        return text is not None

    def is_wanted(self, field: str) -> bool:
        if self.words.event:
            return field in (self.time_name, self.words.event, self.words.value)
        # What begins so says where the entry stands in the journal.
        if field == self.time_name or (field.startswith("__") and field not in self.words.only):
            return field == self.time_name
        return self.names[field] is not None

    def plain(self, name: str, value: str) -> str:
        return whole(name, value.strip(BLANKS)) if (self.words.value or name) in NUMBERS else quoted(value)

    def finish(self, whole_log: bool) -> None:
        if self.binary:
            self.say(f"left out of binary fields: {self.binary} (--skip binary)")
        super().finish(whole_log)

    # -o export

    def exported(self, line: bytes) -> Entry:
        """The entry whose first line this is."""
        fields: Entry = {}
        first = self.lines.number
        while line.strip(b"\r\n"):
            number = self.lines.number
            try:
                self.take_field(fields, line)
            except Refused as refused:
                refused.line = refused.line or number
                raise
            line = self.lines.bytes_of_line()
            if not line:
                refused = Refused("the log ends within an entry")
                refused.line = first
                raise refused
        return fields

    def take_field(self, fields: Entry, line: bytes) -> None:
        named, equals, rest = line.rstrip(b"\n").partition(b"=")
        if not FIELD.fullmatch(named) or not line.endswith(b"\n"):
            raise Refused("neither a field of `journalctl -o export` nor an object of `-o json`")
        field = named.decode()
        wanted = self.is_wanted(field)
        if wanted and field in fields:
            raise Refused(f"{shown(field)} twice")
        data = rest if equals else self.data(field, wanted)
        if wanted:
            fields[field] = text_of(data)

    def data(self, field: str, wanted: bool) -> bytes:
        """A field that is written by its length, and by its bytes."""
        size = int.from_bytes(self.exactly(8), "little")
        if wanted and size > LONGEST_LINE:
            raise Refused(f"{shown(field)} has more than {LONGEST_LINE} bytes")
        data = self.exactly(size) if wanted else self.passed_over(size)
        if self.exactly(1) != b"\n":
            raise Refused(f"{shown(field)} does not end where its length says")
        return data

    def passed_over(self, size: int) -> bytes:
        while size > 0:
            size -= len(self.exactly(min(size, PIECE)))
        return b""

    def exactly(self, size: int) -> bytes:
        data = self.lines.bytes(size)
        if len(data) < size:
            raise Refused("the log ends within a field")
        return data

    # -o json

    def object(self, line: str) -> Entry:
        return {field: text_of_member(field, value) for field, value in decoded(line).items() if self.is_wanted(field)}


def text_of_line(line: bytes) -> str:
    try:
        return line.decode()
    except UnicodeDecodeError:
        raise Refused("not UTF-8") from None


def text_of(data: bytes) -> Optional[str]:
    try:
        return data.decode()
    except UnicodeDecodeError:
        return None


def int_of(value: Any) -> Optional[int]:
    text = number_text(value)
    return int(text) if text is not None and BYTE.fullmatch(text) else None


def text_of_member(field: str, value: Any) -> Optional[str]:
    """What a member of `-o json` has: a text, or the bytes of one that is none."""
    if isinstance(value, list) and all(part is not None and part < 256 for part in map(int_of, value)):
        return text_of(bytes(int_of(part) or 0 for part in value))
    if isinstance(value, list):
        raise Refused(f"{shown(field)} twice")
    if value is None:
        raise Refused(f"{shown(field)} was too long for journalctl (its option --all writes it)")
    if type(value) is not str:
        raise Refused(f"{shown(field)} is no text")
    return value
