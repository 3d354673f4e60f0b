"""What helps with files of code that are not as they are made."""

import re

from .slips import answer

MARK = b"TSLCOD1\n"
# How an item of a specification begins.
ITEM = re.compile(rb"^[ \t]*(?:in|def|out)[ \t(]", re.M)


def is_code(data):
    return data.startswith(MARK)


def of_form(data):
    """What helps with bytes that have not the form of a code file, or None."""
    if not data:
        return answer("the file is empty", "make it once more: tessla compile SPEC FILE")
    if is_code(data):
        return None
    if MARK.startswith(data):
        return answer("the file ends within its first line", "make it once more: tessla compile SPEC FILE")
    if ITEM.search(data):
        return answer("this is a specification, and no code file", "run it by tessla run, or make its code file: tessla compile SPEC FILE")
    return answer("it does not begin as a code file does", "make one: tessla compile SPEC FILE")


def of_specification():
    """What helps where a code file is taken for a specification."""
    return answer("this is a code file, and no specification", "run it by tessla exec")
