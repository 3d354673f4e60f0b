"""The outside of the tool: the log, the trace, the messages, and signals."""

import contextlib
import functools
import importlib
import io
import os
import select
import signal
import sys
from typing import Callable, Iterator, List

from .logs import Lines, Log
from .texts import Refused, visible, visible_lines
from .words import Unaccepted, Words, words_of

# The module and the class of each format. Those of the other formats are not loaded, which would take longer than a short log.
FORMATS = {
    "asc": ("borrowed", "Recorded"),
    "blf": ("borrowed", "Recorded"),
    "candump": ("frames", "Frames"),
    "csv": ("tables", "Table"),
    "ctf": ("borrowed", "Events"),
    "journald": ("journal", "Journal"),
    "json": ("objects", "Objects"),
    "lines": ("matches", "Matched"),
    "trace": ("logs", "Trace"),
    "vcd": ("waves", "Waves"),
}


# The status of a log that was read to its end and never had a frame that was asked for.
LACKS = 3


def new_log(words: Words, source: io.BufferedReader, write: Callable[[str], None], say: Callable[[str], None]) -> Log:
    """The log of a format, and what counts its parts."""
    module, name = FORMATS[words.format]
    parts = importlib.import_module(f"{__package__}.{module}")
    lines = parts.Parts(source) if hasattr(parts, "Parts") else Lines(source)
    return getattr(parts, name)(words, lines, write, say)


class OutputFailed(BaseException):
    """The trace can't be written. No library that reads a log may catch this."""


class ReaderGone(OutputFailed):
    """Nobody reads the trace any more."""


class Interrupted(BaseException):
    """A signal has ended the reading. No library that reads a log may catch this."""


class Source(io.RawIOBase):
    """The bytes of a log. What is due is written before more of them are waited for."""

    def __init__(self, read: Callable[[int], bytes], before: Callable[[], None]):
        super().__init__()
        self.read_some, self.before = read, before

    def readable(self) -> bool:
        return True

    def readinto(self, buffer) -> int:
        self.before()
        data = self.read_some(len(buffer))
        buffer[: len(data)] = data
        return len(data)


class Output:
    """The lines of the trace that are not written yet."""

    def __init__(self, write: Callable[[bytes], None], on_terminal: bool = False):
        self.write, self.on_terminal = write, on_terminal
        self.lines: List[str] = []

    def flush(self) -> None:
        text = "".join(self.lines)
        # No line is written twice, also where the writing is interrupted.
        self.lines.clear()
        if text:
            self.write((visible_lines(text) if self.on_terminal else text).encode())


class Interrupts:
    """Lets a signal end the tool where it waits for the log, and not within a line or a write. A second one ends it anywhere."""

    def __init__(self) -> None:
        self.waiting, self.came = False, 0
        for number in (signal.SIGINT, signal.SIGTERM):
            if signal.getsignal(number) != signal.SIG_IGN:
                signal.signal(number, self.handle)

    def handle(self, number: int, _frame: object) -> None:
        again, self.came = self.came, number
        if self.waiting or again:
            raise Interrupted()

    @contextlib.contextmanager
    def may_come(self) -> Iterator[None]:
        self.waiting = True
        try:
            if self.came:
                raise Interrupted()
            yield
        finally:
            self.waiting = False

    def open(self, name: str) -> int:
        with self.may_come():
            return os.open(name, os.O_RDONLY)

    def read(self, file: int, size: int) -> bytes:
        with self.may_come():
            while True:
                try:
                    return os.read(file, size)
                except BlockingIOError:
                    select.select([file], [], [])


def convert(words: Words, read: Callable[[int], bytes], output: Output, say: Callable[[str], None]) -> int:
    """Writes the trace of a log. Whatever ends the log, what was made of it before is written."""
    source = io.BufferedReader(Source(read, output.flush))
    log = new_log(words, source, output.lines.append, say)
    read_all = False
    try:
        try:
            log.read()
            read_all = True
        finally:
            log.settled.release()
            output.flush()
            log.finish(read_all)
    except Refused as refused:
        number = 0 if read_all else refused.line or log.lines.number
        say(f"{log.lines.what} {number}: {refused}" if number else str(refused))
        return 1
    return LACKS if log.lacks else 0


def write_all(data: bytes) -> None:
    if sys.stdout is None:
        raise OutputFailed("it is closed")
    rest = memoryview(data)
    while rest:
        try:
            rest = rest[os.write(1, rest) :]
        except BlockingIOError:
            select.select([], [1], [])
        except BrokenPipeError:
            raise ReaderGone() from None
        except OSError as error:
            raise OutputFailed(error.strerror) from None


def say(text: str) -> None:
    """Writes a message of one line to the standard error, or nowhere where that is closed or full."""
    if sys.stderr is None:
        return
    try:
        os.write(2, f"log2trace: {visible(text)}\n".encode(sys.stderr.encoding, "backslashreplace"))
    except OSError:
        pass


def convert_file(words: Words, interrupts: Interrupts) -> int:
    if sys.stdout is None:
        raise OutputFailed("it is closed")
    name = "the standard input" if words.file == "-" else words.file
    if words.file == "-" and sys.stdin is None:
        say(f"{name}: it is closed")
        return 1
    try:
        file = 0 if words.file == "-" else interrupts.open(words.file)
        return convert(words, functools.partial(interrupts.read, file), Output(write_all, os.isatty(1)), say)
    except OSError as error:
        say(f"{name}: {error.strerror}")
        return 1


def main(arguments: List[str], help_text: str) -> int:
    interrupts = Interrupts()
    try:
        if arguments[:1] == ["help"] or "--help" in arguments or "-h" in arguments:
            write_all(f"{help_text.strip()}\n".encode())
            return 0
        return convert_file(words_of(arguments), interrupts)
    except Unaccepted as unaccepted:
        say(str(unaccepted))
        return 2
    except Interrupted:
        return 128 + interrupts.came
    except ReaderGone:
        return 1  # whoever read it says why
    except OutputFailed as failed:
        say(f"the standard output: {failed}")
        return 1
    except MemoryError:
        say("out of memory")
        return 1
