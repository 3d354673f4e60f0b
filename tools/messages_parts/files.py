"""Files that the program reads, read once more where that takes no time: regular ones, and of a line a part."""

import contextlib
import errno
import os
import stat

# So much of a line is read: a source has no more.
LINE = 1 << 20


class Source:
    """A file that the program reads, by its name."""

    def __init__(self, name):
        self.name = name
        self.descriptor = None
        # A trace that goes on stands behind so many lines, and behind the beginning of its first one, which is None where it is not known.
        self.before, self.begun = 0, b""
        # Of the standard input the program reads what is left. Lines are counted only where that is all of it.
        if name == "-" and self.is_regular() and os.lseek(0, 0, os.SEEK_CUR) == 0:
            self.descriptor = 0

    def found(self):
        return os.fstat(0) if self.name == "-" else os.stat(self.name)

    def is_regular(self):
        with contextlib.suppress(OSError):
            return stat.S_ISREG(self.found().st_mode)
        return False

    def is_file(self, name):
        """Whether it is the file of that name, by whatever name."""
        with contextlib.suppress(OSError):
            return os.path.samestat(self.found(), os.stat(name))
        return False

    def opened(self):
        """A descriptor, or None where it can't be read without waiting, or not once more."""
        if self.descriptor is None and self.name != "-" and self.is_regular():
            with contextlib.suppress(OSError):
                self.descriptor = os.open(self.name, os.O_RDONLY | os.O_NONBLOCK | os.O_NOCTTY)
        return self.descriptor

    def line(self, number):
        """The line of that number, or as much of it as is read, or None. Those count that stand before the file."""
        file, own = self.opened(), number - self.before
        if file is None or own < 1 or self.begun is None:
            return None
        with contextlib.suppress(OSError):
            at = start_of(file, own)
            if at is not None:
                return ((self.begun if own == 1 else b"") + os.pread(file, LINE, at)).split(b"\n")[0].rstrip(b"\r")
        return None

    def head(self, size):
        """So many bytes of its beginning, or none where it can't be read once more."""
        file = self.opened()
        data = b""
        with contextlib.suppress(OSError):
            while file is not None and len(data) < size:
                piece = os.pread(file, size - len(data), len(data))
                if not piece:
                    break
                data += piece
        return data

    def failure(self):
        """Why it can't be read, or None."""
        try:
            mode = self.found().st_mode
            if stat.S_ISDIR(mode):
                return os.strerror(errno.EISDIR)
            if self.name == "-":
                os.read(0, 0)
                return None if os.get_blocking(0) else "it does not wait for what comes"
            # A pipe or a device is not opened, since that might wait.
            if stat.S_ISREG(mode):
                file = os.open(self.name, os.O_RDONLY | os.O_NONBLOCK | os.O_NOCTTY)
                with contextlib.closing(os.fdopen(file, "rb", buffering=0)) as opened:
                    opened.read(1)
        except OSError as error:
            return error.strerror
        return None


def failure_of_making(name):
    """Why a file of that name can't be made, or None. Nothing is made or changed for that, and of a pipe or a device it is not known."""
    try:
        # What is no folder has nothing below it.
        os.stat(os.path.join(os.path.dirname(name) or os.curdir, ""))
        if os.path.isdir(name):
            return os.strerror(errno.EISDIR)
        if os.path.isfile(name):
            os.close(os.open(name, os.O_WRONLY | os.O_NONBLOCK | os.O_NOCTTY))
        elif not os.path.lexists(name) and not os.access(os.path.dirname(name) or os.curdir, os.W_OK | os.X_OK):
            return os.strerror(errno.EACCES)
        if not os.statvfs(os.path.dirname(name) or os.curdir).f_bavail:
            return os.strerror(errno.ENOSPC)
    except OSError as error:
        return error.strerror
    return None


def start_of(file, number):
    """Where the line of that number begins, or None where there are fewer."""
    at, left = 0, number - 1
    while left > 0:
        block = os.pread(file, LINE, at)
        if not block:
            return None
        ends = block.count(b"\n")
        if ends >= left:
            end = -1
            for _ in range(left):
                end = block.index(b"\n", end + 1)
            return at + end + 1
        left -= ends
        at += len(block)
    return at
