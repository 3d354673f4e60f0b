"""What a program of Linux needs where it is started: its kind of processor, its libraries, and how new a C library has to be."""

import re
import struct
from typing import NamedTuple

PROCESSORS = {62: "amd64", 183: "arm64"}
LOADED, DYNAMIC = 1, 2
NEEDED, TEXTS, VERSIONS, VERSIONS_NUMBER = 1, 5, 0x6FFFFFFE, 0x6FFFFFFF


class NotReadable(Exception):
    """The file is no program of Linux of 64 bits."""


class Needs(NamedTuple):
    """Its processor as Debian calls it, the names of its libraries, and the greatest number of each version of these that it asks for."""

    processor: str
    libraries: list
    versions: dict


class Program:
    """The bytes of a program, and where its parts are in memory."""

    def __init__(self, data):
        self.data = data
        at, size, number = self.take("<Q", 32)[0], *self.take("<HH", 54)
        headers = [self.take("<IIQQQQ", at + size * it) for it in range(number)]
        self.loaded = [(place, offset, length) for kind, _, offset, place, _, length in headers if kind == LOADED]
        self.tags = [tag for kind, _, offset, _, _, length in headers if kind == DYNAMIC for tag in self.dynamic(offset, length)]

    def take(self, form, at):
        return struct.unpack_from(form, self.data, at)

    def dynamic(self, offset, length):
        """The pairs of a tag and a value, up to the first tag 0."""
        for at in range(offset, offset + length, 16):
            tag, value = self.take("<qQ", at)
            if tag == 0:
                return
            yield tag, value

    def value(self, wanted):
        return next((value for tag, value in self.tags if tag == wanted), None)

    def offset(self, place):
        """Where in the file stands what is at that place in memory."""
        for start, offset, length in self.loaded:
            if start <= place < start + length:
                return offset + place - start
        raise NotReadable

    def text(self, number):
        at = self.offset(self.value(TEXTS)) + number
        return self.data[at : self.data.index(b"\0", at)].decode("ascii")

    def libraries(self):
        return [self.text(value) for tag, value in self.tags if tag == NEEDED]

    def versions(self):
        """The names of the versions that it asks for, as GLIBC_2.34."""
        at = self.offset(self.value(VERSIONS)) if self.value(VERSIONS) is not None else 0
        for _ in range(self.value(VERSIONS_NUMBER) or 0):
            _, number, _, first, following = self.take("<HHIII", at)
            name = at + first
            for _ in range(number):
                _, _, _, text, after = self.take("<IHHII", name)
                yield self.text(text)
                name += after
            at += following


def greatest(names):
    """By the name of each family of versions the greatest number, as a text. What has no number is left out, as GLIBC_PRIVATE."""
    found = {}
    for name in names:
        family, _, number = name.rpartition("_")
        if not re.fullmatch(r"[0-9]+(\.[0-9]+)*", number):
            continue
        parts = [int(it) for it in number.split(".")]
        found[family] = max(found.get(family, parts), parts)
    return {family: ".".join(map(str, parts)) for family, parts in found.items()}


def needs(data):
    """What a program needs, which is given as its bytes."""
    if data[:6] != b"\x7fELF\2\1":
        raise NotReadable
    try:
        program = Program(data)
        processor = PROCESSORS.get(program.take("<H", 18)[0])
        if not processor:
            raise NotReadable
        return Needs(processor, program.libraries(), greatest(program.versions()))
    except (struct.error, TypeError, ValueError) as error:
        raise NotReadable from error
