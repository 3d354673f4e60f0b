"""The beginning of a state that `run --save` wrote: of what code it is, with which options, and how far the run has come.

What follows there is of the code: what its streams keep. Whether that fits the program alone can tell.
"""

import collections
import struct

MARK = b"TSLSTA1\n"
# What any state keeps to: the length of the code's text, the last time, the instants, the bytes of a trace, and those of a line.
MOST_CODE, MOST_TIME, MOST_INSTANTS, MOST_TRACE, MOST_LINE = 1 << 30, (1 << 63) - 1, 10**12, 1 << 40, 65536

# The text of the code, the options, the bytes taken, the whole lines of them, the last time or None, the bytes behind the last line, and the
# instants that ran.
Head = collections.namedtuple("Head", "code strict instants bytes taken lines last rest ran")


class NoState(Exception):
    """It is no state; the argument says why."""


def demand(is_so, why):
    if not is_so:
        raise NoState(why)


class Given:
    """A file that is read from its beginning, of which no more is held than it has."""

    def __init__(self, file):
        self.file = file

    def take(self, count):
        pieces, left = [], count
        while left:
            piece = self.file.read(min(left, 1 << 20))
            demand(piece, "it ends too early: a part of it is cut off")
            pieces.append(piece)
            left -= len(piece)
        return b"".join(pieces)

    def number(self, what, most, least=0):
        value = struct.unpack(">Q", self.take(8))[0]
        demand(least <= value <= most, f"it has {value} as {what}")
        return value

    def flag(self, what):
        value = self.take(1)[0]
        demand(value <= 1, f"it has {value} where 0 or 1 says {what}")
        return value == 1


def begins(file):
    """Looks whether a file begins as a state."""
    found = b""
    while len(found) < len(MARK) and (piece := file.read(len(MARK) - len(found))):
        found += piece
    demand(found, "it is empty")
    demand(found != b"TSLCOD1\n", "it is a code file")
    demand(found == MARK or not MARK.startswith(found), "it ends within its first line")
    demand(found == MARK, "it does not begin as a state does")


def head_of(file):
    """The beginning of a state, as a file gives it that is open. It raises NoState where there is none."""
    begins(file)
    given = Given(file)
    code = given.take(given.number("the length of its code", MOST_CODE))
    strict = given.flag("whether other names are refused")
    instants, most = given.number("the limit of instants", MOST_INSTANTS, 1), given.number("the limit of bytes", MOST_TRACE, 1)
    taken = given.number("the bytes of the trace", most)
    lines = given.number("the lines of the trace", taken)
    last = given.number("the last time", MOST_TIME) if given.flag("whether there is a last time") else None
    rest = given.take(given.number("the bytes of a line that is not whole", min(MOST_LINE, taken)))
    demand(b"\n" not in rest, "it has a line end in the line that is not whole")
    ran = given.number("the instants that ran", instants if last else 0, 1 if last else 0)
    return Head(code, strict, instants, most, taken, lines, last, rest, ran)
