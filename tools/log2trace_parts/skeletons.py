"""The shape of a JSON text: all of it but its plain values."""

import json
import re
import sys
from typing import Any, Callable, Iterator, List, Optional, Tuple

from .paths import Place
from .shapes import DECIMAL, MOST_PARTS, PLAIN_NUMBER, TEXT, TRUTH, Kind, Pattern, no_event
from .times import Reader

TOKEN = re.compile(r'[ \t\r\n]+|"(?:[^"\\]|\\.)*"|[{}\[\],:]|[^ \t\r\n"{}\[\],:]+')
PLAIN = re.compile(f'(?:{PLAIN_NUMBER})|(?:{TRUTH})|null|"{TEXT}"|(?P<fraction>{DECIMAL})')
ESCAPE = r'\\(?:["\\/bfnrt]|u[0-9A-Fa-f]{4})'


def text_of(letters: str) -> str:
    """A text that nobody wants, of such letters."""
    return f'"[{letters}]{{0,4000}}"'


def text_with_escapes(letters: str) -> str:
    """The same with some escapes.

    Before Python 3.11 no part of an expression keeps what it has found. A line of another shape would take long there, so there are no escapes.
    """
    if sys.version_info < (3, 11):
        return text_of(letters)
    return f'"[{letters}]{{0,4000}}+(?:{ESCAPE}[{letters}]{{0,100}}+){{0,20}}+"'


LETTERS, LETTERS_OF_ASCII = r'^"\\\0-\x1f\ud800-\udfff', r" !#-\[\]-~"
ANY = {'"': text_of(LETTERS), "t": TRUTH, "f": TRUTH, "n": "null"}  # what nobody wants, by its first character; others are numbers
JSON_DIGITS = "0|[1-9][0-9]{0,17}"  # no number of JSON has a 0 in front of other digits
DAY_OR_NUMBER = r"[0-9A-Za-z:.,+ -]{1,40}"

# Adds a value that stands at a place to a pattern, if it is wanted. Where it can't be in one it raises NoShape.
Take = Callable[[Pattern, Place, str], bool]


class NoShape(Exception):
    """Lines that look like this one can't be told by a pattern, or not what comes of them."""


def tokens(text: str) -> Iterator[Tuple[str, Optional[Place]]]:
    """The tokens of a JSON text that was accepted, and where those stand that are values without parts."""
    place: List[Any] = []  # the last one of a list or object that is open is where we are in it
    kinds: List[str] = []
    names = False  # whether a text would be a name
    for token in TOKEN.findall(text):
        where: Optional[Place] = None
        if token in ("{", "["):
            place.append(0)
            kinds.append(token)
            names = token == "{"
        elif token in ("}", "]"):
            place.pop()
            kinds.pop()
            names = False
        elif token == ",":
            names = kinds[-1] == "{"
            place[-1] = place[-1] if names else place[-1] + 1
        elif token == ":":
            names = False
        elif names and token[0] == '"':
            place[-1] = json.loads(token)
        elif token[0] not in " \t\r\n":
            where = tuple(place)
        yield token, where


def pattern_of(text: str, time: Optional[Place], take: Take, letters: str = LETTERS) -> Pattern:
    """The pattern of the texts that have any other plain values in the place of those in this one.

    Texts that nobody wants have these letters, and escapes if there is one in this text: to look for them takes long.
    """
    pattern, others = Pattern(), {**ANY, '"': text_with_escapes(letters) if "\\" in text else text_of(letters)}
    parts = list(tokens(text.rstrip(" \t\r\n")))
    if len(parts) > MOST_PARTS or time is None:
        raise NoShape()
    for token, place in parts:
        if place is None:
            pattern.text(token)
        elif place == time:
            take_time(pattern, token)
        elif not take(pattern, place, token):
            pattern.any(others.get(token[0], DECIMAL))
    pattern.end("[ \t\r]{0,40}" if text[-2:-1] in " \t\r" else "")
    return pattern


def take_time(pattern: Pattern, token: str) -> None:
    if token[0] == '"':
        pattern.text('"')
        pattern.take_time(token.strip('"'), DAY_OR_NUMBER)
        pattern.text('"')
    else:
        pattern.take_time(token, DECIMAL, JSON_DIGITS)


def kind_of(token: str, unit: bool, text: bool, factor: Optional[Reader]) -> Kind:
    """What an input makes of values that look like this one."""
    match = PLAIN.fullmatch(token)
    if match is None or (match.group("fraction") and not (unit or text or factor)) or (factor and token[0] in '"tf'):
        raise NoShape()
    if token == "null":
        return no_event("null")
    if unit:
        return Kind(ANY.get(token[0], DECIMAL), "")
    if factor:
        return Kind(DECIMAL, None, factor)
    if token[0] == '"':
        return Kind(f'"{TEXT}"', " = %s")
    pattern = TRUTH if token[0] in "tf" else DECIMAL if text else PLAIN_NUMBER
    return Kind(pattern, ' = "%s"' if text else " = %s")
