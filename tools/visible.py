"""What a terminal may be given of a text that others wrote: control characters become visible, so that none of them does anything.

As a program it copies its standard input so to its standard output.
"""

import codecs
import contextlib
import os
import sys

# Bytes that are no UTF-8 are read as these.
STRAY = {0xDC00 + byte: f"\\x{byte:02x}" for byte in range(128, 256)}
# The characters up to the blank, the one after ~, and those that UTF-8 writes as C2 80 to C2 9F.
CONTROLS = {code: f"\\x{code:02x}" for code in (*range(32), *range(127, 160))}
# Those that end lines, or turn the direction of a text: what follows them would stand elsewhere.
TURNS = {code: f"\\u{code:04x}" for code in (*range(0x2028, 0x202F), *range(0x2066, 0x206A))}
VISIBLE = {**CONTROLS, **TURNS, **STRAY}
# A program's output keeps its lines and its columns.
OF_OUTPUT = {code: text for code, text in VISIBLE.items() if chr(code) not in "\n\t"}
# In an excerpt a tab is one column, and what has no width, or looks as a blank, is shown.
UNSEEN = {code: f"\\u{code:04x}" for code in (*range(0x2000, 0x2010), 0x202F, *range(0x205F, 0x2065), 0x3000, 0xFEFF)}
OF_EXCERPT = {**VISIBLE, **UNSEEN, 0xA0: "\\xa0", 0xAD: "\\xad", ord("\t"): " "}


def text_of(data):
    """The text of some bytes, where those that are no UTF-8 are kept apart."""
    return data.decode("utf-8", "surrogateescape")


def visible(text):
    """A name, or another text of one line."""
    return text.translate(VISIBLE)


class Filter:
    """Makes output visible piece by piece: a character may be cut between two pieces."""

    def __init__(self):
        self.decoder = codecs.getincrementaldecoder("utf-8")("surrogateescape")

    def piece(self, data):
        return self.decoder.decode(data).translate(OF_OUTPUT).encode()

    def end(self):
        return self.decoder.decode(b"", final=True).translate(OF_OUTPUT).encode()


def say(descriptor, text):
    """Writes a line of one's own."""
    write(descriptor, f"{text}\n".encode("utf-8", "backslashreplace"))


def why(failure):
    """A failure of the system in its words, with the file where it has one."""
    reason = failure.strerror or str(failure)
    return f"{failure.filename}: {reason}" if failure.filename is not None else reason


def end_by_output(failure):
    """Says why the standard output can't be written, unless whoever read it has gone, and gives the status."""
    if not isinstance(failure, BrokenPipeError):
        with contextlib.suppress(OSError):
            say(2, f"tessla: the standard output: {failure.strerror}")
    return 125


def write(descriptor, data):
    """Writes all of it. A failure is the caller's."""
    while data:
        data = data[os.write(descriptor, data) :]


def main():
    output = Filter()
    while True:
        data = os.read(0, 65536)
        write(1, output.piece(data) if data else output.end())
        if not data:
            return


if __name__ == "__main__":
    sys.exit(main())
