"""Formats that a package of Debian reads, which is there or not: python3-can for ASC and BLF, python3-bt2 for CTF."""

import importlib
import io
import logging
import math
from fractions import Fraction
from typing import Any, Dict, Iterator, Optional, Tuple

from .fields import Fields
from .frames import Frames, Skippable
from .objects import json_text
from .texts import Refused, quoted, shown, whole


def library(name: str, package: str) -> Any:
    """A library that is asked for just now."""
    try:
        return importlib.import_module(name)
    except ImportError:
        raise Refused(f"this format needs Debian's package {package}, which is not there for this Python") from None
    except Exception as error:
        raise Refused(f"{package} can't be loaded: {type(error).__name__}: {shown(str(error))}") from None


def pieces(reader: Any, package: str) -> Iterator[Any]:
    """What a library reads, one after the other. Whatever it raises, the log is refused."""
    iterator = None
    while True:
        try:
            iterator = iter(reader()) if iterator is None else iterator
            piece = next(iterator)
        except StopIteration:
            return
        except (MemoryError, OSError):
            raise
        except Exception as error:
            raise Refused(f"{package} can't read it: {type(error).__name__}: {shown(str(error))}") from None
        yield piece


class Parts(io.BufferedIOBase):
    """The bytes of a log that a library reads, and how many of them and how many messages came."""

    what = "message"

    def __init__(self, file: Any):
        super().__init__()
        self.file, self.number, self.size = file, 0, 0

    def read(self, size: Optional[int] = -1) -> bytes:
        data = self.file.read(size)
        self.size += len(data)
        return data


# ---- Frames


class Recorded(Frames):
    """Frames that python3-can reads."""

    lines: Any

    def read(self) -> None:
        can = library("can", "python3-can")
        logging.getLogger("can").addHandler(logging.NullHandler())
        logging.getLogger("can").propagate = False

        blf = None

        def reader() -> Any:
            nonlocal blf
            if self.words.format == "blf":
                blf = can.BLFReader(self.lines)
                return blf
            return can.ASCReader(io.TextIOWrapper(self.lines.file, encoding="utf-8", errors="surrogateescape"))

        for message in pieces(reader, "python3-can"):
            self.lines.number += 1
            self.settled.begin()
            self.message(message)
        if blf is not None and self.lines.size < blf.file_size:
            raise Refused(f"the log ends after {self.lines.size} bytes, and says that it has {blf.file_size}")

    def message(self, message: Any) -> None:
        bus = "can" if message.channel is None else str(message.channel)
        identifier = message.arbitration_id | (0x20000000 if message.is_error_frame else 0)
        digits = f"{identifier:0{8 if message.is_extended_id or message.is_error_frame else 3}X}"

        time = self.time_of(microseconds(message.timestamp))
        self.frame(time, f"can{bus}" if bus.isdigit() else bus, digits, data_of_message, message)


def data_of_message(message: Any) -> bytes:
    if message.is_remote_frame:
        raise Skippable("remote", "a remote frame has no data")
    # The library takes a line that ends too early for a frame that is shorter than its length.
    octets, length = bytes(message.data or b""), min(message.dlc, 64 if message.is_fd else 8)
    if len(octets) < length and not message.is_error_frame:
        raise Refused(f"the length is {length}, and there are {len(octets)} bytes")
    return octets


def microseconds(seconds: float) -> str:
    """The seconds as digits, to the nearest millionth: the library has them as a float, which has no more from 1970 on."""
    if not math.isfinite(seconds) or seconds < 0:
        raise Refused(f"no time: {seconds}")
    count = round(Fraction(seconds) * 1000000)
    return f"{count // 1000000}.{count % 1000000:06}"


# ---- Events


class Events(Fields):
    """Events of CTF that python3-bt2 reads. One of the name N is an event of N, and each of its fields F is one of N.F."""

    lines: Any

    def read(self) -> None:
        bt2 = library("bt2", "python3-bt2")

        def reader() -> Any:
            return bt2.TraceCollectionMessageIterator(self.words.file)

        for message in pieces(reader, "python3-bt2"):
            if type(message).__name__.startswith("_EventMessage"):
                self.lines.number += 1
                self.settled.begin()
                self.message(bt2, message)

    def message(self, bt2: Any, message: Any) -> None:
        time, event, values = next(pieces(lambda: [taken(bt2, message)], "python3-bt2"))
        number = self.time_of(time)
        name = self.names[event]
        if name:
            self.settled.event(number, name, None)
        for field, value in values.items():
            name = self.names[f"{event}.{field}"]
            if name:
                self.settled.event(number, name, self.reader(name)(value))

    def text(self, value: Any) -> str:
        return quoted(value if isinstance(value, str) else json_text(value))

    def multiplied(self, name: str, factor: Any, value: Any) -> str:
        return whole(name, repr(value) if isinstance(value, float) else str(value), factor)

    def plain(self, name: str, value: Any) -> str:
        if isinstance(value, bool):
            return "true" if value else "false"
        if isinstance(value, (int, float)):
            return whole(name, repr(value))
        return self.text(value)


def taken(bt2: Any, message: Any) -> Tuple[str, str, Dict[str, Any]]:
    """The time of an event in nanoseconds, its name, and its fields that are no structures."""
    event = message.event
    fields: Dict[str, Any] = {}
    if event.payload_field is not None:
        flatten(bt2, "", event.payload_field, fields)
    return str(message.default_clock_snapshot.ns_from_origin), event.name or "event", fields


def flatten(bt2: Any, path: str, field: Any, fields: Dict[str, Any]) -> None:
    if isinstance(field, bt2._StructureFieldConst):
        for name, part in field.items():
            flatten(bt2, f"{path}.{name}" if path else name, part, fields)
    else:
        fields[path] = plain_value(bt2, field)


def plain_value(bt2: Any, field: Any) -> Any:
    """A field as a value of Python."""
    for kind, made in ((bt2._BoolFieldConst, bool), (bt2._IntegerFieldConst, int), (bt2._RealFieldConst, float), (bt2._StringFieldConst, str)):
        if isinstance(field, kind):
            return made(field)
    if isinstance(field, bt2._ArrayFieldConst):
        return [plain_value(bt2, part) for part in field]
    if isinstance(field, bt2._StructureFieldConst):
        return {name: plain_value(bt2, part) for name, part in field.items()}
    return str(field)
