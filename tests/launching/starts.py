"""Starts of the launcher, each with a limit of time, and what they are compared with."""

import contextlib
import fcntl
import os
import pty
import select
import shutil
import signal
import subprocess
import sys
import termios
import time

# A script that a shell starts in the background has interrupts ignored, and by nohup hang-ups, and so would have all that it starts.
signal.signal(signal.SIGINT, signal.default_int_handler)
signal.signal(signal.SIGHUP, signal.SIG_DFL)

TOP = os.path.dirname(os.path.dirname(os.path.dirname(os.path.abspath(__file__))))
LAUNCHER = os.path.join(TOP, "tessla")
# A start that takes longer hangs, in seconds; TESTS_SECONDS may say fewer. After so many of these nothing more is tried.
LIMIT = int(os.environ.get("TESTS_SECONDS") or 15)
HANGING = 3
# Whether what this machine has not counts as failed, where it can be had.
ASKS_FOR_ALL = bool(os.environ.get("CI")) or os.environ.get("TESTS_ALL") == "1"


class Hanging(Exception):
    """Too many starts hang."""


class Ended:
    """How a start has ended: its status, less than 0 for a signal, and what it wrote."""

    def __init__(self, status, out, err):
        self.status, self.out, self.err = status, out, err

    def __repr__(self):
        return f"status {self.status}\n      out {self.out[:600]!r}\n      err {self.err[:600]!r}"


class Tried:
    """What was tried, what failed, and what was left out."""

    def __init__(self):
        self.passed = self.failed = self.hanging = 0
        self.left, self.lines = [], []

    def holds(self, what, is_so, *more):
        if is_so:
            self.passed += 1
            return
        self.failed += 1
        self.lines += [f"FAILED {what}", *(f"  {it}" for it in more)]

    def ended(self, what, ended, status, out=None, err=None):
        """Whether a start has ended with this status, and has written this, where it is said."""
        differs = []
        if ended.status != status:
            differs.append(f"the status is {ended.status}, and not {status}")
        for name, wanted, found in (("out", out, ended.out), ("err", err, ended.err)):
            if wanted is not None and wanted.encode("utf-8", "surrogateescape") != found:
                differs += [f"{name}    {found[:700]!r}", f"wanted {wanted[:700]!r}"]
        if ended.status != status and err is None:
            differs.append(f"err    {ended.err[:700]!r}")
        self.holds(what, not differs, *differs)

    def leave_out(self, what, can_be_had=True):
        """What this machine has not is said, and fails where all is asked for and it can be had."""
        if what in self.left:
            return
        self.left.append(what)
        if can_be_had and ASKS_FOR_ALL:
            self.holds(f"all is asked for, and {what} is not there", False)

    def has(self, command):
        """Whether a command is there, which can be had."""
        if shutil.which(command):
            return True
        self.leave_out(command)
        return False

    def hangs(self, words):
        self.hanging += 1
        self.holds(f"it hangs: {' '.join(map(str, words))}"[:200], False)
        if self.hanging == HANGING:
            raise Hanging

    def add(self, part):
        """Takes what a part has tried, and says what failed there."""
        self.passed, self.failed = self.passed + part.passed, self.failed + part.failed
        self.left += [it for it in part.left if it not in self.left]
        for line in part.lines:
            print(line)

    def close(self):
        """Says what was left out and how much was tried, and gives the status."""
        if self.left:
            print(f"left out: {', '.join(self.left)}")
        if not self.passed + self.failed:
            print("FAILED nothing was tried")
            self.failed = 1
        print(f"{self.passed} passed, {self.failed} failed")
        return 1 if self.failed else 0


def kill(child):
    with contextlib.suppress(OSError):
        os.killpg(child.pid, signal.SIGKILL)
    child.wait()


# The python3 that runs this is found without a shim.
PATH = f"{os.path.dirname(os.path.realpath(sys.executable))}:{os.environ['PATH']}"


def environment(**more):
    """The environment of a start: nothing of what it may say of the launcher, and what is named."""
    found = {key: it for key, it in os.environ.items() if not key.startswith("TESSLA_")}
    return {**found, "PATH": PATH, **more}


class Starts:
    """Starts in a folder, with a program."""

    def __init__(self, tried, room, program):
        self.tried, self.room, self.program = tried, room, program

    def start(self, words, given=b"", limit=LIMIT, **how):
        """Starts the words with that standard input, bytes or a file."""
        settings = {"cwd": self.room, "stdin": subprocess.PIPE, "stdout": subprocess.PIPE, "stderr": subprocess.PIPE, "env": environment()}
        if not isinstance(given, bytes):
            settings["stdin"], given = given, None
        settings.update(how)
        child = subprocess.Popen(words, start_new_session=True, **settings)
        try:
            out, err = child.communicate(given, timeout=limit)
        except subprocess.TimeoutExpired:
            kill(child)
            out, err = child.communicate()
            self.tried.hangs(words)
        return Ended(child.returncode, out or b"", err or b"")

    def extras(self, *words, program=None, launcher=LAUNCHER, **how):
        """Starts the launcher as on a terminal, though there is none."""
        env = environment(TESSLA_PROGRAM=program or self.program, TESSLA_TERMINAL="1")
        return self.start([launcher, *words], env={**env, **how.pop("env", {})}, **how)

    def plain(self, *words, program=None, launcher=LAUNCHER, **how):
        """Starts the launcher where no terminal is."""
        env = environment(TESSLA_PROGRAM=program or self.program)
        return self.start([launcher, *words], env={**env, **how.pop("env", {})}, **how)

    def write(self, name, text):
        with open(os.path.join(self.room, name), "wb") as opened:
            opened.write(text if isinstance(text, bytes) else text.encode())
        return os.path.join(self.room, name)

    def script(self, name, text):
        """A program that is a shell script."""
        path = self.write(name, f"#!/bin/sh\n{text}\n")
        os.chmod(path, 0o755)
        return path


class Terminal:
    """A start on a terminal of its own."""

    def __init__(self, starts, words, streams=(0, 1, 2), **how):
        self.starts, self.words = starts, words
        self.master, slave = pty.openpty()
        settings = attributes = termios.tcgetattr(slave)
        # What is given is not shown, and line ends stay as they are.
        attributes[3] &= ~termios.ECHO
        attributes[1] &= ~termios.OPOST
        termios.tcsetattr(slave, termios.TCSANOW, settings)
        pipes = {0: "stdin", 1: "stdout", 2: "stderr"}
        given = {name: slave if number in streams else subprocess.PIPE for number, name in pipes.items()}
        how = {"cwd": starts.room, "env": environment(), **given, **how}
        self.child = subprocess.Popen(words, preexec_fn=lambda: take(slave), **how)
        os.close(slave)
        self.shown = b""

    def give(self, text):
        os.write(self.master, text)

    def read(self, until=None, limit=LIMIT):
        """Reads what is shown, to the end or until a text stands in it, and returns whether it came."""
        deadline = time.monotonic() + limit
        while until is None or until not in self.shown:
            left = deadline - time.monotonic()
            if left <= 0 or not select.select([self.master], [], [], left)[0]:
                return False
            try:
                data = os.read(self.master, 65536)
            except OSError:
                data = b""
            if not data:
                return until is None
            self.shown += data
        return True

    def end(self, limit=LIMIT):
        """Waits for its end, and returns how it ended: what is shown stands in out."""
        if not self.read(limit=limit):
            kill(self.child)
            self.starts.tried.hangs(self.words)
        status = self.child.wait()
        os.close(self.master)
        for it in (self.child.stdin, self.child.stdout, self.child.stderr):
            if it:
                it.close()
        return Ended(status, self.shown, b"")


def take(terminal):
    os.setsid()
    fcntl.ioctl(terminal, termios.TIOCSCTTY, 0)


def until(holds, limit=2 * LIMIT):
    """Waits until something holds, and returns whether it does."""
    deadline = time.monotonic() + limit
    while time.monotonic() < deadline:
        if holds():
            return True
        time.sleep(0.02)
    return holds()


def is_alive(number):
    try:
        with open(f"/proc/{number}/stat", encoding="utf-8", errors="replace") as opened:
            return opened.read().rpartition(")")[2].split()[0] not in ("Z", "X")
    except FileNotFoundError:
        pass
    if os.path.isdir("/proc/self"):
        return False
    with contextlib.suppress(OSError):
        os.kill(number, 0)
        return True
    return False


def controls_in(data):
    """The control characters that a terminal would get, but for line ends."""
    text = data.decode("utf-8", "surrogateescape")
    return [it for it in text if (ord(it) < 32 or 127 <= ord(it) < 160 or 0xDC80 <= ord(it) <= 0xDCFF) and it != "\n"]


if __name__ == "__main__":
    sys.exit("this is a part of tests/launcher")
