"""What the scripts of this folder share: words that are refused, starts with a limit of time, what was tried, and the closing line.

A script ends by `Tally.end`: its last line is `N passed, M failed`, with `, K skipped` where something was left out, and the status is 0
where something passed and nothing failed. Above that line stands what was left out, and why. Where the environment variable CI is set, or
TESTS_ALL is 1, what is missing and could be had counts as failed.
"""

import collections
import os
import re
import select
import signal
import subprocess
import sys
import tempfile
import time

# A script that a shell starts in the background has interrupts ignored, and by nohup hang-ups, and so would have all that it starts.
signal.signal(signal.SIGINT, signal.default_int_handler)
signal.signal(signal.SIGHUP, signal.SIG_DFL)

# The seconds in which a program has to have answered the few lines of `answers`; TESTS_SECONDS may say fewer.
AT_ONCE = 10

# After so many starts that were cut off a script tries no more.
MOST_CUT_OFF = 3

SPECIFICATION = "in i: Events[Int]\nout last(i, i) as p\n"

# What is written, and what has to have come before more is written.
TALK = [
    (b"1: i = 1\n2: i = 2\n", b""),
    (b"3: i = 3\n", b"2: p = 1\n"),
    (b"4: i = 4\n", b"3: p = 2\n"),
    (b"5: i = 5\n", b"4: p = 3\n"),
]
AT_THE_END = b"5: p = 4\n"

# How a start ended. Its status is None where it was cut off, and negative after a signal.
Ended = collections.namedtuple("Ended", "status out err")


def refuse(text):
    """Ends the script, since its words can't be taken."""
    print(f"{os.path.basename(sys.argv[0])}: {text}", file=sys.stderr)
    sys.exit(2)


def is_count(word):
    """Whether a word is a number from 1 on."""
    return re.fullmatch("[1-9][0-9]{0,14}", word) is not None


def count_of(name, word):
    """The number that a word says: at least 1."""
    if not is_count(word):
        refuse(f"{name} is a number from 1 on, and not `{word}`")
    return int(word)


def program_of(word):
    """The path of a program that is there."""
    path = os.path.abspath(word)
    if not os.path.isfile(path) or not os.access(path, os.X_OK):
        refuse(f"there is no program {word}")
    return path


def all_is_wanted():
    """Whether what could be had and is missing counts as failed."""
    return bool(os.environ.get("CI")) or os.environ.get("TESTS_ALL") == "1"


class Tally:
    """What was tried, and what was left out."""

    def __init__(self):
        self.passed, self.failed, self.skipped = 0, 0, 0
        self.notes = []

    def passes(self, number=1):
        self.passed += number

    def fails(self, what, number=1):
        self.failed += number
        print(f"FAILED {what}", flush=True)

    def judge(self, what, wrong):
        """Counts what was tried; `wrong` says what is wrong with it, where something is."""
        if wrong:
            self.fails(f"{what}: {wrong}")
        else:
            self.passes()

    def skips(self, what, why, number=1):
        """Something is left out that can't be had here."""
        self.skipped += number
        self.notes.append(f"left out: {what}, since {why}")

    def misses(self, what, why, number=1):
        """Something is left out that could be had."""
        if all_is_wanted():
            self.fails(f"{what}: it could not be tried, since {why}", number)
        else:
            self.skips(what, why, number)

    def end(self, may_skip_all=False):
        """Prints the closing lines and gives the status. Where nothing was tried, that is a failure, unless all of it may be left out, and was."""
        if not self.passed and not self.failed and not (may_skip_all and self.skipped):
            self.fails("all: nothing was tried")
        for note in self.notes:
            print(note)
        print(f"{self.passed} passed, {self.failed} failed" + (f", {self.skipped} skipped" if self.skipped else ""), flush=True)
        return 1 if self.failed else 0


def kill(process):
    """Ends a start with all that it has started, which stands in a group of its own."""
    try:
        os.killpg(process.pid, signal.SIGKILL)
    except ProcessLookupError:
        pass
    process.wait()


def start(words, stdin=b"", seconds=30, **how):
    """Starts a program and waits for its end, or cuts it off."""
    process = subprocess.Popen(
        words, stdin=subprocess.PIPE, stdout=subprocess.PIPE, stderr=subprocess.PIPE, start_new_session=True, **how
    )
    try:
        out, err = process.communicate(stdin, timeout=seconds)
    except subprocess.TimeoutExpired:
        kill(process)
        out, err = process.communicate()
        return Ended(None, out, err)
    return Ended(process.returncode, out, err)


def ending(status):
    """A status in words."""
    if status is None:
        return "it was cut off"
    if status < 0:
        return f"signal {-status}"
    return f"status {status}"


class Talk:
    """A start whose output is read while its input is written."""

    def __init__(self, words, seconds):
        self.end = time.monotonic() + seconds
        self.out = b""
        self.process = subprocess.Popen(
            words, stdin=subprocess.PIPE, stdout=subprocess.PIPE, stderr=subprocess.STDOUT, bufsize=0, start_new_session=True
        )

    def write(self, data):
        try:
            self.process.stdin.write(data)
        except BrokenPipeError:
            pass

    def has_written(self, due):
        """Waits until as much came, or nothing more will. Whether it is just that."""
        while len(self.out) < len(due):
            left = max(0, self.end - time.monotonic())
            if not select.select([self.process.stdout], [], [], left)[0]:
                return False
            piece = os.read(self.process.stdout.fileno(), 65536)
            if not piece:
                return False
            self.out += piece
        return self.out == due

    def close(self):
        """Ends the input, and gives the status and all that was written."""
        try:
            rest, _ = self.process.communicate(timeout=max(0.1, self.end - time.monotonic()))
        except subprocess.TimeoutExpired:
            return None, self.out
        return self.process.returncode, self.out + rest


def at_once():
    return min(AT_ONCE, count_of("TESTS_SECONDS", os.environ.get("TESTS_SECONDS", str(AT_ONCE))))


def talk_with(program, room):
    """What is wrong with how a program answers, line by line, or nothing."""
    path = os.path.join(room, "talk.tsl")
    with open(path, "w", encoding="utf-8") as file:
        file.write(SPECIFICATION)
    talk, due = Talk([program, "run", path], at_once()), b""
    try:
        for line, more in TALK:
            talk.write(line)
            due += more
            if not talk.has_written(due):
                return f"after {line!r} it has to have written {due!r}, and has written {talk.out!r}"
        status, written = talk.close()
        if written != due + AT_THE_END:
            return f"it has to write {due + AT_THE_END!r}, and has written {written!r}"
        return "" if status == 0 else f"it ends with {ending(status)}"
    finally:
        kill(talk.process)


def answers(program, tally):
    """Whether a program answers a few lines, each at once. Nothing else is worth a try where it doesn't.

    Where it does, this alone counts as nothing tried.
    """
    with tempfile.TemporaryDirectory() as room:
        wrong = talk_with(program, room)
    if wrong:
        tally.fails(f"the first lines of {program}: {wrong}")
        tally.skips("all else", "it does not answer the first lines as it has to")
    return not wrong
