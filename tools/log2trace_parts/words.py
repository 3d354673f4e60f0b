"""The words of the command line."""

import argparse
import decimal
import functools
import re
import warnings
from typing import Any, Dict, List, NamedTuple, NoReturn, Optional, Set

from .clock import Zone, zone_of
from .paths import Path
from .texts import BLANKS, LONGEST_NAME, Refused, is_name, name_of, number_of

MAP = re.compile(r"(?:([^/=]+)/)?(?:0[xX])?([0-9A-Fa-f]{1,8})=([^:]+)(?::([0-9]{1,2}):([1-8])((?::le)?(?::signed)?|:signed:le))?")
VALUES = {"text", "unit", "factor"}
FLAGS_OF = {
    "asc": {"map", "bus", "skip"},
    "blf": {"map", "bus", "skip"},
    "candump": {"map", "bus", "skip", "zone"},
    "csv": {"time", "event", "value", "header", "separator", "zone"} | VALUES,
    "ctf": VALUES,
    "journald": {"time", "event", "value", "skip"} | VALUES,
    "json": {"time", "event", "value", "path", "zone"} | VALUES,
    "lines": {"match", "skip", "zone"} | VALUES,
    "trace": set(),
    "vcd": {"signed", "skip"} | VALUES,
}
# What --skip may leave out of a format.
SKIPPED = {
    "asc": {"remote", "short"},
    "blf": {"remote", "short"},
    "candump": {"remote", "short"},
    "journald": {"binary"},
    "lines": {"other"},
    "vcd": {"unknown"},
}
SEPARATORS = {"tab": "\t", ",": ",", ";": ";", "|": "|"}


class Unaccepted(Exception):
    """Words that are not accepted."""


class Part(NamedTuple):
    """The bytes of a frame that are a number."""

    first: int
    count: int
    order: str
    signed: bool


class Wanted(NamedTuple):
    """Events that are made of frames: of which interface, of which name, and of what part of the frame if not of all of it."""

    bus: Optional[str]
    name: str
    part: Optional[Part]


class Words:
    """What the words say."""

    format: str
    file: str
    scale: decimal.Decimal
    scaled: bool  # whether --scale was there
    from_first: bool
    equal: str
    back: str
    time: Optional[str]
    event: Optional[str]
    value: Optional[str]
    bus: Optional[str]
    zone: Optional[Zone]
    separator: str
    match: Optional["re.Pattern[str]"]
    header: Optional[List[str]]
    only: Set[str]
    text: Set[str]
    unit: Set[str]
    signed: Set[str]
    skip: Set[str]
    path: Dict[str, Path]  # by input
    factor: Dict[str, decimal.Decimal]
    map: Dict[str, List[Wanted]]  # by identifier

    def __init__(self, **said: Any):
        vars(self).update(said)

    def check(self) -> None:
        if self.scale <= 0:
            raise Unaccepted("--scale has to be positive")
        for flag in ("time", "event", "value", "bus"):
            if getattr(self, flag) == "":
                raise Unaccepted(f"--{flag}: a name is empty")
        if self.value and not self.event:
            raise Unaccepted("--value is for --event")
        if self.path and self.event:
            raise Unaccepted("--path is not for --event (--value takes a path)")
        if self.format == "lines" and self.match is None:
            raise Unaccepted("lines: without --match nothing says what stands in them")
        if self.format == "ctf" and self.file == "-":
            raise Unaccepted("ctf: a trace is a folder, and not the standard input")
        for kind in sorted(self.skip - SKIPPED.get(self.format, set())):
            raise Unaccepted(f"--skip {kind} is not for {self.format}")
        for name in sorted(self.text | self.unit | set(self.factor)):
            if (name in self.text) + (name in self.unit) + (name in self.factor) > 1:
                raise Unaccepted(f"{name} is named by two of --text, --unit and --factor")


class Parser(argparse.ArgumentParser):
    def error(self, message: str) -> NoReturn:
        raise Unaccepted(f"{message} (--help tells the words)")


def words_of(arguments: List[str]) -> Words:
    found = vars(new_parser().parse_intermixed_args(arguments))
    for name in sorted(set().union(*FLAGS_OF.values()) - FLAGS_OF[found["format"]]):
        if found[name] not in (None, []):
            raise Unaccepted(f"--{name} is not for {found['format']}")
    scale, header, separator = found["scale"], found["header"], found["separator"]
    found.update(
        scale=decimal.Decimal(1) if scale is None else number_of_word("--scale", scale),
        scaled=scale is not None,
        zone=None if found["zone"] is None else zone_of_word(found["zone"]),
        separator=separator_of(separator),
        match=None if found["match"] is None else pattern_of(found["match"]),
        header=None if header is None else header.split(separator_of(separator)),
        only=names_of_words("only", [name for names in found["only"] for name in names.split(",")]),
        text=names_of_words("text", found["text"]),
        unit=names_of_words("unit", found["unit"]),
        signed=names_of_words("signed", found["signed"]),
        skip=set(found["skip"]),
        path=paths_of(found["path"]),
        factor=factors_of(found["factor"]),
        map=maps_of(found["map"]),
    )
    words = Words(**found)
    words.check()
    return words


def new_parser() -> Parser:
    # A formatter that asks for the width of the terminal would load modules, and one is made for each word.
    parser = Parser(add_help=False, allow_abbrev=False, formatter_class=functools.partial(argparse.HelpFormatter, width=80))
    parser.add_argument("format", choices=sorted(FLAGS_OF))
    parser.add_argument("file", nargs="?", default="-")
    parser.add_argument("--from-first", action="store_true")
    parser.add_argument("--equal", choices=["refuse", "first", "last", "shift", "apart"], default="refuse")
    parser.add_argument("--back", choices=["refuse", "raise", "drop"], default="refuse")
    for name in ("scale", "time", "event", "value", "header", "bus", "zone", "separator", "match"):
        parser.add_argument(f"--{name}")
    for name in ("only", "text", "unit", "factor", "map", "path", "signed"):
        parser.add_argument(f"--{name}", action="append", default=[])
    parser.add_argument("--skip", action="append", choices=sorted(set().union(*SKIPPED.values())), default=[])
    return parser


def number_of_word(word: str, text: str) -> decimal.Decimal:
    try:
        number = number_of(text)
    except Refused:
        number = None
    if number is None:
        raise Unaccepted(f"{word}: {text or 'nothing'} is no number that can be taken")
    return number


def zone_of_word(text: str) -> Zone:
    zone = zone_of(text)
    if zone is None:
        raise Unaccepted(f"--zone: {text or 'nothing'} is neither Z nor as +01:00, nor a zone that this machine knows, nor `local`")
    return zone


def separator_of(text: Optional[str]) -> str:
    if text is not None and text not in SEPARATORS:
        raise Unaccepted(f"--separator: {text or 'nothing'} is none of {' '.join(SEPARATORS)}")
    return SEPARATORS[text or ","]


def pattern_of(text: str) -> "re.Pattern[str]":
    """The regular expression of --match, which names what stands in a line by its groups."""
    try:
        with warnings.catch_warnings():
            warnings.simplefilter("ignore")
            pattern = re.compile(text)
    except (re.error, OverflowError, RecursionError) as error:
        raise Unaccepted(f"--match: {error}") from None
    groups = set(pattern.groupindex)
    if "time" not in groups:
        raise Unaccepted("--match: no group is named time, as in (?P<time>[0-9]+)")
    if len(groups) < 2:
        raise Unaccepted("--match: no group is an input, or names one: (?P<event>[a-z]+)")
    if "event" in groups and groups - {"time", "event", "value"}:
        raise Unaccepted("--match: beside the group event stand those of the time and the value alone")
    return pattern


def paths_of(texts: List[str]) -> Dict[str, Path]:
    paths: Dict[str, Path] = {}
    for text in texts:
        name, equals, path = text.partition("=")
        if not equals or not is_name(name) or len(name.encode()) > LONGEST_NAME or not path:
            raise Unaccepted(f"--path {text}: not NAME=PATH, with a name of the language")
        if name in paths:
            raise Unaccepted(f"--path {text}: a second path of this input")
        paths[name] = Path(path)
    return paths


def names_of_words(flag: str, texts: List[str]) -> Set[str]:
    if not all(text.strip(BLANKS) for text in texts):
        raise Unaccepted(f"--{flag}: a name is empty")
    return {name_of(text) for text in texts}


def factors_of(texts: List[str]) -> Dict[str, decimal.Decimal]:
    factors: Dict[str, decimal.Decimal] = {}
    for text in texts:
        name, equals, factor = text.rpartition("=")
        if not equals or not name.strip(BLANKS):
            raise Unaccepted(f"--factor {text}: not NAME=NUMBER")
        if name_of(name) in factors:
            raise Unaccepted(f"--factor {text}: a second factor of this input")
        factors[name_of(name)] = number_of_word(f"--factor {text}", factor)
    return factors


def maps_of(texts: List[str]) -> Dict[str, List[Wanted]]:
    maps: Dict[str, List[Wanted]] = {}
    for text in texts:
        match = MAP.fullmatch(text)
        if not match:
            raise Unaccepted(f"--map {text}: not [BUS/]ID=NAME[:FIRST:COUNT[:le][:signed]], with COUNT from 1 to 8")
        bus, digits, name, first, count, how = match.groups()
        if not is_name(name) or len(name.encode()) > LONGEST_NAME:
            raise Unaccepted(f"--map {text}: {name} is no name of the language")
        part = Part(int(first), int(count), "little" if ":le" in how else "big", ":signed" in how) if first else None
        # Up to three digits are an identifier of 11 bits, more are one of 29 bits, as candump writes them.
        identifier = digits.upper().zfill(3 if len(digits) <= 3 else 8)
        maps.setdefault(identifier, []).append(Wanted(bus, name, part))
    return maps
