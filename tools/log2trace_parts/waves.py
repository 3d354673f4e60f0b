"""Dumps of simulators: value changes, as IEEE 1364 has them (VCD)."""

import decimal
import re
from typing import Any, Callable, Dict, Iterator, List, NamedTuple, Optional, Tuple

from .fields import Fields
from .texts import GREATEST, Refused, quoted, shown, whole

MOST_VARIABLES = 2**20
WIDEST = 65536  # bits
SHORT_BITS, MOST_KNOWN = 16, 16384  # of values that are kept, since they will come again
TIMESCALE = re.compile(r"(10{0,2})[ ]?(?:s|ms|us|ns|ps|fs)")
RANGE = re.compile(r"\[[0-9]+:[0-9]+\]$")
CODE = re.compile(r"[!-~]{1,255}")
BITS = re.compile(r"[01xXzZ]+")
DIGITS = re.compile(r"[0-9]+")
REALS = {"real", "realtime", "shortreal"}
TEXTS = {"string"}
DUMPS = {"$dumpvars", "$dumpall", "$dumpon", "$dumpoff"}  # values stand in these, up to their $end


# A value on a line of its own: a bit and a code, or any value, a blank and a code.
CHANGE = re.compile(r"([01])([!-~]+)|([bBrRsS][!-~]*) ([!-~]+)")


class Variable(NamedTuple):
    """What one or more names are in the log."""

    kind: str
    width: int
    inputs: Dict[str, str]  # by name in the log
    signed: bool = False


class Waves(Fields):
    """Tokens, of which a header comes first: variables in scopes, each with a code. Then come times, and values by these codes."""

    def __init__(self, *arguments: Any):
        super().__init__(*arguments)
        self.variables: Dict[str, Variable] = {}  # by code
        self.codes: Dict[str, str] = {}  # the code of each name that is wanted
        self.scopes: List[str] = []
        self.unit = "1"  # how many units of the timescale a time counts
        self.time: Optional[int] = None  # what the last `#` has said
        self.unknown = 0  # values that were left out
        self.known: Dict[str, List[Tuple[str, Optional[str]]]] = {}  # what the newest of short bits make of each input, by bits and code
        self.lines_known = Changes(self)
        self.left = 0  # words of the line that were not taken yet
        self.parts: Dict[str, Callable[[List[str]], None]] = {
            "$scope": self.scope,
            "$upscope": self.upscope,
            "$timescale": self.timescale,
            "$var": self.variable,
        }

    def tokens(self) -> Iterator[str]:
        for line in self.lines:
            words = line.split()
            self.left = len(words)
            for word in words:
                self.left -= 1
                yield word

    def read(self) -> None:
        tokens = self.tokens()
        self.read_header(tokens)
        for token in tokens:
            self.change(token, tokens)
            if self.left == 0 and self.time is not None:
                self.take_pieces(self.take_text)
        if self.time is not None:
            self.settled.tick(self.time)

    # The header

    def read_header(self, tokens: Iterator[str]) -> None:
        for token in tokens:
            if not token.startswith("$"):
                raise Refused(f"not a part of a header: {shown(token)}")
            words = self.words_to_end(token, tokens)
            if token == "$enddefinitions":
                if words:
                    raise Refused("$enddefinitions has words")
                return
            # Other parts, as $date and $version, say nothing of values.
            self.parts.get(token, lambda words: None)(words)
        raise Refused("the header has no end ($enddefinitions)")

    def words_to_end(self, begin: str, tokens: Iterator[str]) -> List[str]:
        """The words of a part, up to its end."""
        keep, words = begin in self.parts or begin == "$enddefinitions", []  # type: bool, List[str]
        for token in tokens:
            if token == "$end":
                return words
            if keep:
                words.append(token)
                if len(words) > 64:
                    raise Refused(f"{begin} has too many words")
        raise Refused(f"{shown(begin)} has no $end")

    def scope(self, words: List[str]) -> None:
        if len(words) != 2:
            raise Refused("$scope has a kind and a name")
        self.scopes.append(words[1])
        if len(self.scopes) > 255:
            raise Refused("more than 255 scopes in each other")

    def upscope(self, words: List[str]) -> None:
        if words or not self.scopes:
            raise Refused("$upscope ends no scope")
        self.scopes.pop()

    def timescale(self, words: List[str]) -> None:
        match = TIMESCALE.fullmatch(" ".join(words))
        if not match:
            raise Refused(f"no timescale: {shown(' '.join(words))}")
        self.unit = match.group(1)

    def variable(self, words: List[str]) -> None:
        if len(words) < 4 or not CODE.fullmatch(words[2]) or not DIGITS.fullmatch(words[1]) or len(words[1]) > 9:
            raise Refused("$var has a kind, a number of bits, a code and a name")
        kind, width, code = words[0], int(words[1]), words[2]
        if not 1 <= width <= WIDEST:
            raise Refused(f"bits are 1 to {WIDEST}, and not {width}")
        if len(self.variables) >= MOST_VARIABLES:
            raise Refused(f"more than {MOST_VARIABLES} variables")
        known = self.variables.setdefault(code, Variable(kind, width, {}, kind == "integer"))
        if (known.width, known.kind in REALS, known.kind in TEXTS) != (width, kind in REALS, kind in TEXTS):
            raise Refused(f"two variables of different kinds have the code {code}")
        # A range of bits is no part of the name, but a single bit is.
        text = ".".join(self.scopes + [RANGE.sub("", "".join(words[3:]))])
        name = self.names[text]
        if name is not None and self.codes.setdefault(text, code) != code:
            raise Refused(f"two variables are called {shown(text)}")
        if name is not None:
            known.inputs[text] = name

    # The values

    def change(self, token: str, tokens: Iterator[str]) -> None:
        """Takes what begins with a token."""
        first = token[0]
        if first == "#":
            self.new_time(token[1:])
        elif first in "01xXzZ":
            self.bits(token[1:], first)
        elif first in "bB":
            self.bits(next(tokens, ""), token[1:])
        elif first in "rR":
            self.value(next(tokens, ""), self.of_real, token[1:])
        elif first in "sS":
            self.value(next(tokens, ""), self.of_text, token[1:])
        elif token == "$comment":
            self.words_to_end(token, tokens)
        elif token not in DUMPS and token != "$end":
            raise Refused(f"neither a time nor a value: {shown(token)}")

    def take_text(self, text: str) -> bool:
        """Takes lines of a time or a value each, if nothing of them is left out or refused; whether it did."""
        lines = text[:-1].split("\n")
        zeros = self.unit[1:]
        whens = [line[1:] + zeros for line in lines if line[:1] == "#"]
        times = self.times_of(whens) if whens else []
        if times is None or "#" in lines or "." in text and any("." in when for when in whens):
            return False
        time, events, later = self.time, [], iter(times)
        known = self.lines_known
        try:
            for line in lines:
                if line[:1] == "#":
                    time = next(later)
                else:
                    for name, ending in known[line]:
                        events.append((time, name, ending))
        except Refused:
            return False
        if events:
            columns = list(zip(*events))
            if not self.take_events(columns[0], columns[1], "%d: %s%s\n", columns[2]):
                return False
        self.time = time
        return True

    def change_of(self, line: str) -> List[Tuple[str, str]]:
        """The inputs that a line is a value of, and what stands behind each in the trace. It is refused if this is not all that comes of it."""
        match = CHANGE.fullmatch(line)
        variable = match and self.variables.get(match[2] or match[4])
        if not match or not variable:
            raise Refused("not a value of a variable")
        of, text = (self.of_bits, match[1]) if match[1] else (VALUES[match[3][0]].__get__(self), match[3][1:])
        found = []
        for name in variable.inputs.values():
            made = None if name in self.words.unit else of(variable, name, text)
            if made is None and name not in self.words.unit and variable.kind != "event":
                raise Refused("an unknown value")
            found.append((name, "" if made is None else f" = {made}"))
        return found

    def new_time(self, digits: str) -> None:
        if not DIGITS.fullmatch(digits):
            raise Refused(f"no time: {shown(digits)}")
        self.time = self.time_of(digits + self.unit[1:])

    def bits(self, code: str, text: str) -> None:
        key = f"{text} {code}"
        known = self.known.get(key) if self.time is not None else None
        if known is None:
            self.value(code, self.of_bits, text)
            if len(text) <= SHORT_BITS:
                self.learn_bits(self.variables[code], text, key)
            return
        for name, made in known:
            self.settled.begin()
            self.settled.event(self.time or 0, name, made)

    def learn_bits(self, variable: Variable, text: str, key: str) -> None:
        """Keeps what was made of bits, where each input has a value."""
        values = [(name, None if name in self.words.unit else self.of_bits(variable, name, text)) for name in variable.inputs.values()]
        if variable.kind == "event" or all(made is not None or name in self.words.unit for name, made in values):
            if len(self.known) >= MOST_KNOWN:
                self.known.clear()
            self.known[key] = values

    def value(self, code: str, of: Callable[[Variable, str, str], Optional[str]], text: str) -> None:
        variable = self.variables.get(code)
        if variable is None:
            raise Refused(f"no variable has the code {shown(code)}")
        if self.time is None:
            self.time = self.time_of("0")  # of what stands before the first time
        for origin, name in variable.inputs.items():
            if name in self.words.unit:
                made: Optional[str] = None
            else:
                made = of(variable, name, text)
                if made is None and variable.kind != "event":
                    self.leave_out(origin, text)
                    continue
            self.settled.begin()
            self.settled.event(self.time, name, made)

    def leave_out(self, origin: str, text: str) -> None:
        if "unknown" not in self.words.skip:
            raise Refused(f"{shown(origin)} is {shown(text)} (see --skip)")
        self.unknown += 1

    def of_bits(self, variable: Variable, name: str, bits: str) -> Optional[str]:
        """The value of bits; None where one of them is unknown."""
        if variable.kind in REALS or variable.kind in TEXTS or not BITS.fullmatch(bits) or len(bits) > variable.width:
            raise Refused(f"no value of {shown(name)}: {shown(bits)}")
        # Bits that are missing in front are 0, but for an unknown one.
        bits = bits.lower().rjust(variable.width, bits[0].lower() if bits[0] in "xXzZ" else "0")
        if name in self.words.text:
            return quoted(bits)
        if variable.kind == "event" or "x" in bits or "z" in bits:
            return None
        number = int(bits, 2)
        if (variable.signed or name in self.words.signed) and bits[0] == "1":
            number -= 1 << variable.width
        if name in self.words.factor:
            return self.multiplied_bits(name, self.words.factor[name], number)
        if variable.width == 1 and name not in self.words.signed:
            return "true" if number else "false"
        if not -GREATEST - 1 <= number <= GREATEST:
            raise Refused(f"{shown(name)} is beyond 64 bits with a sign (see --text)")
        return str(number)

    def multiplied_bits(self, name: str, factor: decimal.Decimal, number: int) -> str:
        if number.bit_length() > 256:
            raise Refused(f"{shown(name)} is beyond 64 bits with a sign (see --text)")
        return whole(name, str(number), factor)

    def of_real(self, variable: Variable, name: str, text: str) -> Optional[str]:
        if variable.kind not in REALS:
            raise Refused(f"no value of {shown(name)}: {shown(text)}")
        return quoted(text) if name in self.words.text else whole(name, text, self.words.factor.get(name))

    def of_text(self, variable: Variable, name: str, text: str) -> Optional[str]:
        if variable.kind not in TEXTS:
            raise Refused(f"no value of {shown(name)}: {shown(text)}")
        if name in self.words.factor:
            raise Refused(f"{name} = {shown(text)} is no number (see --factor)")
        return quoted(text)

    def finish(self, whole_log: bool) -> None:
        if self.unknown:
            self.say(f"left out of unknown values: {self.unknown} (--skip unknown)")
        super().finish(whole_log)


# What takes a value, by its first letter.
VALUES = {"b": Waves.of_bits, "B": Waves.of_bits, "r": Waves.of_real, "R": Waves.of_real, "s": Waves.of_text, "S": Waves.of_text}


class Changes(Dict[str, List[Tuple[str, str]]]):
    """What the newest lines make that have a value."""

    def __init__(self, log: Waves):
        super().__init__()
        self.log = log

    def __missing__(self, line: str) -> List[Tuple[str, str]]:
        change = self.log.change_of(line)
        if len(self) >= MOST_KNOWN:
            self.clear()
        self[line] = change
        return change
