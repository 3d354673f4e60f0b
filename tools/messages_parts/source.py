"""The text of a specification, as far as a message needs it: what stands around a place, and what is declared.

It is the text of a source that was refused or accepted already, so nothing here decides anything: what is not found is not said.
"""

import difflib
import re

TOKEN = re.compile(r'(?:--|#)[^\n]*|"(?:\\.|[^"\\\n])*"?|[^\W\d]\w*|\d+|:=|==|!=|<=|>=|&&|\|\||\S')
COMMENT = re.compile(r'("(?:\\.|[^"\\\n])*"?)|(?:--|#)[^\n]*')
NAME = re.compile(r"[^\W\d]\w*")
CALLED = re.compile(r"[^\W\d]\w*(?:\.[^\W\d]\w*)?")
CLOSING = {"(": ")", "[": "]", "{": "}"}
# So much is read around a place, and of a whole source.
AROUND = 2000
WHOLE = 1 << 18
# Of a part that a message repeats so many characters are shown.
PART = 40


def short(text):
    text = " ".join(text.split())
    return text if len(text) <= PART else text[: PART - 2] + ".."


def nearest(name, names):
    """The name of these that is spelt most like it, or None."""
    found = difflib.get_close_matches(name[:64], sorted(it for it in names if len(it) <= 64), 1, 0.7)
    if not found:
        found = [it for it in sorted(names) if it.lower() == name.lower()]
    return found[0] if found else None


class Item:
    """An item of a specification: its word, its name, where that begins, and the text of its parameters, None where it has none."""

    def __init__(self, word, name, at, parameters, is_inner):
        self.word, self.name, self.at, self.parameters, self.is_inner = word, name, at, parameters, is_inner

    def is_of_values(self):
        """Whether it is a function of values."""
        return bool(self.parameters) and "Events" not in self.parameters

    def names(self):
        return re.findall(r"([^\W\d]\w*)\s*:", self.parameters or "")


class Text:
    """A source, and a place in it."""

    def __init__(self, text, line=1, column=1):
        self.text = text
        start = 0
        for _ in range(line - 1):
            start = text.find("\n", start) + 1
        self.at = min(start + column - 1, len(text))
        self.line_start = start
        self._items = None

    def after(self):
        return self.text[self.at : self.at + AROUND]

    def before(self):
        """What stands before the place, from the beginning of a line, without comments and the blanks at its end."""
        start = self.text.rfind("\n", 0, max(0, self.at - AROUND)) + 1
        return COMMENT.sub(lambda found: found[1] or "", self.text[start : self.at]).rstrip()

    def is_tight(self):
        """Whether the place follows what is before it without a blank."""
        return self.at > 0 and not self.text[self.at - 1].isspace()

    def begins_line(self):
        return not self.text[self.line_start : self.at].strip()

    def items(self):
        """The items, in order. Of a source that is too long to look at there are none."""
        if self._items is None:
            self._items = list(items_of(self.text)) if len(self.text) <= WHOLE else []
        return self._items

    def around(self):
        """The item that the place is in, or None."""
        return next((it for it in reversed(self.items()) if it.at <= self.at and not it.is_inner), None)

    def named(self, name):
        """The items of that name."""
        return [it for it in self.items() if it.name == name and it.word != "out"]

    def declared(self):
        return {it.name for it in self.items() if it.word != "out"}

    def place_of(self, at):
        start = self.text.rfind("\n", 0, at) + 1
        return self.text.count("\n", 0, at) + 1, at - start + 1

    def name_here(self):
        found = CALLED.match(self.text, self.at)
        return found[0] if found else ""

    def arguments(self):
        """The arguments of the call that begins at the place, or None where none does."""
        found = CALLED.match(self.text, self.at)
        if not found:
            return None
        open_at = re.compile(r"(?:\s*\[[^\]]*\])?[ \t]*").match(self.text, found.end()).end()
        if self.text[open_at : open_at + 1] != "(":
            return None
        return parts_of(self.text, open_at)


def parts_of(text, open_at):
    """What stands between a bracket and the one that closes it, parted by commas, or None where it is not closed soon."""
    depth, start, parts = 0, open_at + 1, []
    for token in TOKEN.finditer(text, open_at, open_at + AROUND):
        if token[0] in CLOSING:
            depth += 1
        elif token[0] in CLOSING.values():
            depth -= 1
            if depth == 0:
                last = text[start : token.start()].strip()
                return [*parts, last] if last or parts else []
        elif token[0] == "," and depth == 1:
            parts.append(text[start : token.start()].strip())
            start = token.end()
    return None


def items_of(text):
    tokens = [it for it in TOKEN.finditer(text) if not it[0].startswith(("--", "#"))]
    depth = 0
    for here, following, third in zip(tokens, [*tokens[1:], None], [*tokens[2:], None, None]):
        if here[0] == "{":
            depth += 1
        elif here[0] == "}":
            depth -= 1
        elif here[0] in ("in", "def", "out") and following and NAME.fullmatch(following[0]):
            parts = parts_of(text, third.start()) if third and third[0] == "(" and here[0] == "def" else None
            yield Item(here[0], following[0], following.start(), None if parts is None else ", ".join(parts), depth > 0)


def inputs_of(text):
    """The inputs of a source that is accepted, with what stands where the type of each is."""
    tokens = [it for it in TOKEN.finditer(text) if not it[0].startswith(("--", "#"))]
    found = {}
    for number, here in enumerate(tokens[:-3]):
        if here[0] == "in":
            kind = [it[0] for it in tokens[number + 3 : number + 6]]
            found[tokens[number + 1][0]] = (kind[2] if len(kind) > 2 else "") if kind[0] == "Events" else kind[0]
    return found
