"""What helps with states: those that are refused, and a trace that goes on where one was saved."""

import io

from saved import MARK, NoState, head_of

from .codes import ITEM, is_code
from .slips import answer
from .source import short
from .traces import NAMED

# So much of a state is looked at.
LOOKED_AT = 4 << 20
REPLAY = "begin anew with the whole trace, or go on from another state"


def head_in(data):
    """What the beginning of a state says, or None where these bytes have none."""
    try:
        return head_of(io.BytesIO(data))
    except NoState:
        return None


def of_form(data):
    """What helps with bytes that are no state of any code, or None."""
    if not data:
        return answer("the file is empty", "make it by run --save; a run that ends with another status than 0 makes none")
    if is_code(data):
        return answer("this is a code file, and no state", "name it as the FILE of tessla exec")
    if data.startswith(MARK):
        return None
    if MARK.startswith(data):
        return answer("the file ends within its first line", "go on from the state before it")
    if ITEM.search(data):
        return answer("this is a specification, and no state", "name the file that run --save has made")
    if NAMED.match(data.lstrip()):
        return answer("this is a trace, and no state", "name the file that run --save has made")
    return answer("it does not begin as a state does", "name the file that run --save has made")


def of_other(saved, code):
    """What helps where a state is one of another code: the first line of one that the other has not."""
    if not code or saved == code:
        return None
    for text, other, whose in ((saved, code, "the state's code"), (code, saved, "this code")):
        known = set(other.split("\n"))
        alone = next((it for it in text.split("\n") if it not in known), None)
        if alone is not None:
            return answer(f"{whose} has {short(alone)}, and the other has not", REPLAY)
    return answer("the two codes have their steps in another order", REPLAY)
