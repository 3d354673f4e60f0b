"""A second reading of logs, for tests/hostile_logs: what a trace has to be, by the rules of the manual ("From a log to a trace").

It is written apart from tools/log2trace, plainly and not for speed: CSV, JSON and dates are taken apart character by character, numbers are
fractions. What all formats share stands in plain_reading.py, and further formats in plain_formats.py.
"""

from typing import Any, Dict, List, Optional, Tuple

from plain_formats import Dump, line_of_pattern, read_journal
from plain_reading import BLANKS, DIGITS, GREATEST, HEXADECIMAL, Json, No, Reading
from plain_reading import all_of, event_of, is_blank, is_number, lines_of, name_of, with_line


def read(form: str, log: bytes, options: Dict[str, Any]) -> Tuple[Optional[int], bool, bool, str]:
    """The line that is refused, whether all was read and yet is refused, whether a frame that is asked for never came, and the trace."""
    reading = Reading(options)
    number, late = None, False
    try:
        if form == "csv":
            read_table(reading, log)
        elif form == "json":
            late = read_objects(reading, log)
        elif form == "journald":
            read_journal(reading, log)
        elif form == "vcd":
            Dump(reading, log).read()
        else:
            line_of = {"trace": line_of_trace, "candump": line_of_candump, "lines": line_of_pattern}[form]
            for at, line in lines_of(log):
                reading.begins = True
                with_line(at, line_of, reading, line)
    except No as no:
        number = no.line
    reading.release()
    return number, late, form == "candump" and lacks(reading), "".join(f"{line}\n" for line in reading.lines)


def lacks(reading: Reading) -> bool:
    """Whether a --map or --bus had no frame in the log."""
    taken = [(bus, identifier) for bus, identifier in reading.frames if reading.options.get("bus") in (None, bus)]
    maps = reading.options.get("map", ())
    return any(not any(identifier == one[1] and one[0] in (None, bus) for bus, identifier in taken) for one in maps) or not taken and "bus" in reading.options


# ---- Traces


def line_of_trace(reading: Reading, line: str) -> None:
    text = line.rstrip(" \t\r\n")
    if text.strip(BLANKS) == "" or text.lstrip(BLANKS).startswith(("#", "--")) or reading.tick(line):
        return
    if ":" not in text:
        raise No()
    at = text.index(":")
    time, rest = text[:at].strip(BLANKS), text[at + 1 :]
    name = rest.split("=")[0].strip(BLANKS)
    value = rest[rest.index("=") + 1 :].strip(BLANKS) if "=" in rest else None
    if not all_of(time, DIGITS) or name != name_of(name) or value == "":
        raise No()
    number = reading.time(time)
    if not reading.options.get("only") or name in reading.options["only"]:
        reading.event(number, name, value)


# ---- Tables


class Row:
    """A row of a table, character by character."""

    def __init__(self, first: int, separator: str):
        self.first, self.text, self.cells, self.cell = first, "", [], ""  # type: int, str, List[str], str
        self.separator = separator
        self.state = "begin"  # of a cell; then "open", or "quoted" and "closed"
        self.faulty = False  # whether a quote stood inside a cell that is not quoted

    def line(self, line: str) -> None:
        self.text += line
        end = len(line.rstrip("\r\n"))
        for place, char in enumerate(line):
            if self.state == "quoted" or place < end:
                self.char(char)
        if len(self.cell) > 2**17:
            raise No(self.first)

    def char(self, char: str) -> None:
        if self.state == "quoted" and char == '"':
            self.state = "closed"
        elif self.state == "quoted":
            self.cell += char
        elif char in "\r\n":
            raise No(self.first)
        elif char == '"' and self.state in ("begin", "closed"):
            self.cell += char if self.state == "closed" else ""
            self.state = "quoted"
        elif char == self.separator:
            self.end_cell()
        elif self.state == "closed":
            raise No(self.first)
        else:
            self.faulty = self.faulty or char == '"'
            self.cell += char
            self.state = "open"

    def end_cell(self) -> None:
        self.cells.append(self.cell)
        self.cell, self.state = "", "begin"


def rows_of(log: bytes, separator: str):
    """The rows of a table: the number of their first line, their text, and their cells."""
    row = None
    for at, line in lines_of(log):
        if "\0" in line:
            raise No(at)
        row = row or Row(at, separator)
        row.line(line)
        if row.state != "quoted":
            row.end_cell()
            if row.faulty:
                raise No(row.first)
            yield row.first, row.text, row.cells
            row = None
    if row:
        raise No(row.first)


def read_table(reading: Reading, log: bytes) -> None:
    header = reading.options.get("header")
    plan = None if header is None else with_line(0, plan_of, reading, header, True)
    for first, text, cells in rows_of(log, reading.options.get("separator", ",")):
        if len(cells) < 2 and (is_blank(text) or with_line(first, reading.tick, text)):
            continue
        if plan is None:
            plan = with_line(first, plan_of, reading, cells, False)
        else:
            with_line(first, row_of_table, reading, plan, cells)


def plan_of(reading: Reading, cells: List[str], given: bool) -> List[Tuple[str, Any]]:
    """What is done with each column."""
    options = reading.options
    header = [cell.strip(BLANKS) for cell in cells]
    if len(header) < 2 or (not given and header[0] and is_number(header[0])):
        raise No()
    roles = {role: options[role] for role in ("time", "event", "value") if role in options}
    if "time" not in roles and header[0]:
        roles["time"] = header[0]
    if any(header.count(name) != 1 for name in roles.values()):
        raise No()
    time_at = header.index(roles["time"]) if "time" in roles else 0
    plan: List[Tuple[str, Any]] = [("nothing", None)] * len(header)
    for at, name in enumerate(header):
        if at == time_at:
            plan[at] = ("time", None)
        elif "event" in options:
            pass
        elif name == "":
            plan[at] = ("nothing", None) if options.get("only") else ("unnamed", None)
        else:
            made = reading.input(name)
            if made is not None and name in header[:at]:
                raise No()
            plan[at] = ("nothing", None) if made is None else ("input", made)
    # One column may have two of these, so they are not in its place of the plan.
    plan += [(role, header.index(roles[role])) for role in ("event", "value") if role in roles]
    return plan


def row_of_table(reading: Reading, plan: List[Tuple[str, Any]], cells: List[str]) -> None:
    roles = {what: at for what, at in plan if what in ("event", "value")}
    columns = plan[: len(plan) - len(roles)]
    time_at = [what for what, _ in columns].index("time")
    if len(cells) > len(columns) or len(cells) <= time_at:
        raise No()
    time = reading.time(cells[time_at])
    reading.begins = True
    cells = cells + [""] * (len(columns) - len(cells))
    if "event" in roles:
        named = cells[roles["event"]].strip(BLANKS)
        if not named:
            raise No()
        cell = cells[roles["value"]] if "value" in roles else ""
        event_of(reading, time, named, "value" in roles, cell if cell.strip(BLANKS) else None, reading.cell)
        return
    for (what, name), cell in zip(columns, cells):
        if cell.strip(BLANKS) and what == "unnamed":
            raise No()
        if cell.strip(BLANKS) and what == "input":
            reading.event(time, name, reading.cell(name, cell))


# ---- Objects


def read_objects(reading: Reading, log: bytes) -> bool:
    """Whether the member of --value never came, though there were objects."""
    objects, seen = False, False
    for at, line in lines_of(log):
        if is_blank(line) or with_line(at, reading.tick, line):
            continue
        kind, members = with_line(at, Json(line).whole)
        if kind != "object":
            raise No(at)
        members = dict(members)
        objects, reading.begins = True, True
        seen = with_line(at, object_of_log, reading, members) or seen
    return "value" in reading.options and objects and not seen


def place(members: Dict[str, Any], path: str) -> Any:
    """What stands at a path, by its whole name or by its parts; None where nothing does."""
    inside: Any = ("object", list(members.items()))
    for part in path.split("."):
        kind, content = inside
        if kind == "object" and part in dict(content):
            inside = dict(content)[part]
        elif kind == "list" and part in [str(at) for at in range(len(content))]:
            inside = content[int(part)]
        else:
            inside = None
            break
    if "." in path and inside is not None and path in members:
        raise No()
    return members.get(path, inside)


def object_of_log(reading: Reading, members: Dict[str, Any]) -> bool:
    """Whether the member of --value is there."""
    options = reading.options
    kind, text = place(members, options.get("time", "time")) or ("null", None)
    if kind not in ("number", "text"):
        raise No()
    time = reading.time(text)
    if "event" in options:
        return object_of_event(reading, time, members)
    if "path" in options:
        for name, path in options["path"].items():
            value = place(members, path)
            if value is not None and reading.input(name) is not None and value[0] != "null":
                reading.event(time, name, reading.member(name, value))
        return False
    members.pop(options.get("time", "time"), None)
    for member, value in members.items():
        name = reading.input(member)
        if name is not None and value[0] != "null":
            reading.event(time, name, reading.member(name, value))
    return False


def object_of_event(reading: Reading, time: int, members: Dict[str, Any]) -> bool:
    options = reading.options
    value = place(members, options["value"]) if "value" in options else None
    kind, named = place(members, options["event"]) or ("null", None)
    if kind not in ("number", "text") or not named.strip(BLANKS):
        raise No()
    event_of(reading, time, named, "value" in options, None if value is None or value[0] == "null" else value, reading.member)
    return value is not None


# ---- Frames


def line_of_candump(reading: Reading, line: str) -> None:
    if is_blank(line) or reading.tick(line):
        return
    text = line.rstrip(" \t\r\n").lstrip(BLANKS)
    parts = text.replace("\t", " ").split(" ")
    parts = [part for part in parts if part]
    dated = False
    if text[:1] == "(" and ")" in text:
        stamp = text[1 : text.index(")")]
        dated = stamp.partition("-")[0].isdigit() and all_of(stamp.partition("-")[2], DIGITS + ": .-")
        if dated:
            rest = text[text.index(")") + 1 :]
            parts = ["(" + stamp + ")"] + [part for part in rest.replace("\t", " ").split(" ") if part]
            if rest[:1] not in ("", " ", "\t"):
                raise No()
            text = "(date)" + rest
    if len(parts) < 3 or parts[0][0] != "(" or parts[0][-1] != ")":
        raise No()
    time, bus, frame = parts[0][1:-1], parts[1], parts[2]
    before, point, after = time.partition(".")
    if not dated and (not all_of(before, DIGITS) or (point and not all_of(after, DIGITS))):
        raise No()
    identifier, joined, data = frame.partition("#")
    if len(identifier) not in (3, 8) or not all_of(identifier, HEXADECIMAL):
        raise No()
    if joined:
        if not (len(parts) == 3 or (len(parts) == 4 and parts[3] in ("R", "T"))):
            raise No()
        content = joined_data(data)
    else:
        content = spaced_data(parts[3:], text)
    frame_of_log(reading, reading.time(time), bus, identifier.upper(), content)


def joined_data(data: str) -> Tuple[str, str]:
    if data == "R" or (len(data) == 2 and data[0] == "R" and data[1] in DIGITS):
        return "remote", ""
    most = 8
    if data[:1] == "#":
        if len(data) < 2 or data[1] not in HEXADECIMAL:
            raise No()
        data, most = data[2:], 64
    if data and not all_of(data, HEXADECIMAL + "."):
        raise No()
    octets = data.split(".") if data else []
    digits = "".join(octets)
    good = all(octet and len(octet) % 2 == 0 for octet in octets) and len(digits) <= 2 * most
    return ("data" if good else "wrong"), digits.upper()


def spaced_data(parts: List[str], text: str) -> Tuple[str, str]:
    count = parts[0][1:-1] if parts and len(parts[0]) in (3, 4) and parts[0][0] == "[" and parts[0][-1] == "]" else ""
    if not all_of(count, DIGITS):
        raise No()
    digits, parts = "", parts[1:]
    while parts and len(parts[0]) == 2 and all_of(parts[0], HEXADECIMAL):
        digits += parts.pop(0)
    note = ""
    if parts:
        # The note has its own blanks, so it is taken from the line.
        note = text
        for _ in range(4 + len(digits) // 2):
            note = note.lstrip(BLANKS)
            while note and note[0] not in BLANKS:
                note = note[1:]
        note = note.lstrip(BLANKS)
    if note == "remote request":
        return "remote", ""
    ascii_note = len(note) > 1 and note[0] == "'" and note[-1] == "'" and "\n" not in note
    if note and note != "ERRORFRAME" and not ascii_note:
        raise No()
    return ("data" if len(digits) == 2 * int(count) else "wrong"), digits.upper()


def frame_of_log(reading: Reading, time: int, bus: str, identifier: str, content: Tuple[str, str]) -> None:
    options = reading.options
    reading.frames.add((bus, identifier))
    if options.get("bus") not in (None, bus):
        return
    wanted = [(None, identifier, f"can_{identifier}", None)]
    if options.get("map"):
        wanted = [one for one in options["map"] if one[1] == identifier and one[0] in (None, bus)]
    wanted = [one for one in wanted if reading.input(one[2]) is not None]
    if any(one[0] is None for one in wanted):
        if reading.origins.setdefault(f"frames of {identifier}", bus) != bus:
            raise No()
    kind, digits = content
    for _, _, name, part in wanted:
        if kind == "wrong" or (kind == "remote" and "remote" not in options.get("skip", ())):
            raise No()
        if kind == "remote":
            continue
        if part is None:
            reading.event(time, name, f'"{digits}"')
            continue
        first, count, little, signed = part
        octets = [int(digits[at : at + 2], 16) for at in range(0, len(digits), 2)][first : first + count]
        if len(octets) < count:
            if "short" not in options.get("skip", ()):
                raise No()
            continue
        number = 0
        for octet in reversed(octets) if little else octets:
            number = 256 * number + octet
        if signed and number >= 2 ** (8 * count - 1):
            number -= 2 ** (8 * count)
        if number > GREATEST:
            raise No()
        reading.event(time, name, str(number))
