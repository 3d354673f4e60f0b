"""Texts, names and numbers of a log, and what they become in a trace."""

import decimal
import functools
import re
from typing import Optional

WORDS = {"in", "def", "as", "out", "if", "then", "else", "true", "false"}
GREATEST = 2**63 - 1  # of times and numbers
LONGEST_NAME = 255  # bytes
LONGEST_NUMBER = 100  # characters
NEWEST = 1024  # results that are kept, since values of a log come again
SHOWN = 60  # characters of a log in a message

BLANKS = " \t"
NUMBER = re.compile(r"[+-]?(?:[0-9]+\.?[0-9]*|\.[0-9]+)(?:[eE]([+-]?[0-9]+))?")
WHOLE = re.compile(r"0|-?[1-9][0-9]{0,17}")
SURROGATE = re.compile("[\ud800-\udfff]")
# What a terminal would act on: control characters, and those that turn the direction of a text.
CONTROL = re.compile("[\0-\x09\x0b-\x1f\x7f-\x9f\u2028-\u202e\u2066-\u2069]")
ESCAPES = str.maketrans({"\\": "\\\\", '"': '\\"', "\n": "\\n", "\t": "\\t", "\r": "\\r"})

# Numbers of a log are never rounded: what would be is an error.
EXACT = decimal.Context(prec=1000, Emin=-10000, Emax=10000, traps=[decimal.Inexact, decimal.Overflow, decimal.InvalidOperation])


class Refused(Exception):
    """A line that is refused, and why; its number where it is not the line that was read last."""

    line: Optional[int] = None


def visible(text: str) -> str:
    """A text without characters that a terminal would act on."""
    if text.isprintable():
        return text
    return "".join(char if char.isprintable() else char.encode("unicode_escape").decode() for char in text)


def visible_lines(text: str) -> str:
    """Lines without what a terminal would act on, but for their ends."""
    return CONTROL.sub(lambda match: visible(match.group()), text)


def shown(text: str) -> str:
    """A text of the log as it stands in a message."""
    return visible(text if len(text) <= SHOWN else text[:SHOWN] + "..")


def blank(line: str) -> bool:
    return not line.strip(" \t\r\n")


def is_name(text: str) -> bool:
    return text.isidentifier() and text not in WORDS


def name_of(text: str) -> str:
    """A name of the language, made from any text."""
    name = text.strip(BLANKS)
    if not name.isidentifier():
        name = "".join(char if ("_" + char).isidentifier() else "_" for char in name)
        if not name.isidentifier():
            name = "_" + name
    return name + "_" if name in WORDS else name


def quoted(text: str) -> str:
    """A text as it stands in a trace."""
    if text.isprintable() and '"' not in text and "\\" not in text:
        return f'"{text}"'
    if not text.isascii() and SURROGATE.search(text):
        raise Refused(f"half of a character: {shown(text)}")
    return f'"{text.translate(ESCAPES)}"'


def number_of(text: str) -> Optional[decimal.Decimal]:
    """The number that a text is, to its last digit."""
    match = NUMBER.fullmatch(text)
    if not match:
        return None
    exponent = (match.group(1) or "").strip("+-").lstrip("0")
    if len(text) > LONGEST_NUMBER or len(exponent) > 3:
        raise Refused(f"a number too long: {shown(text)}")
    return decimal.Decimal(text)


@functools.lru_cache(NEWEST)
def whole(name: str, text: str, factor: Optional[decimal.Decimal] = None) -> str:
    """The value that a number is for the input."""
    number = number_of(text)
    if number is None:
        raise Refused(f"{name} = {shown(text)} is no number (see --factor)")
    result = int(number if factor is None else EXACT.multiply(number, factor))
    if factor is None and result != number:
        raise Refused(f"{name} = {shown(text)} has a fraction (see --factor)")
    if not -GREATEST - 1 <= result <= GREATEST:
        raise Refused(f"{name} = {shown(text)} is beyond 64 bits with a sign (see --text)")
    return str(result)
