"""Puts files below a folder, each in one step, and follows no link there; and starts once what was put.

A file is made beside its place, under a name that nobody has, and then renamed. Folders and files get their modes whatever the umask is.
"""

import errno
import os
import re
import secrets
import stat
import subprocess

from layout import DOCUMENTS

# So long what was put there may take to answer.
SECONDS = 60
FOLDER = os.O_RDONLY | os.O_DIRECTORY | os.O_CLOEXEC


class Failed(Exception):
    """It is not done, and why."""


def made(above, name, path):
    """The descriptor of a folder, which is made where it is not there. It is no link."""
    try:
        return os.open(name, FOLDER | os.O_NOFOLLOW, dir_fd=above)
    except FileNotFoundError:
        os.mkdir(name, 0o755, dir_fd=above)
    except OSError as error:
        if error.errno not in (errno.ENOTDIR, errno.ELOOP):
            raise
        is_link = stat.S_ISLNK(os.stat(name, dir_fd=above, follow_symlinks=False).st_mode)
        raise Failed(f"{path} is {'a link' if is_link else 'no folder'}") from error
    folder = os.open(name, FOLDER | os.O_NOFOLLOW, dir_fd=above)
    os.fchmod(folder, 0o755)
    return folder


class Prefix:
    """The folder to install in."""

    def __init__(self, path):
        self.path = path
        # What `..` leads to is where a link before it leads from.
        self.real = os.path.realpath(path)
        self.make(self.real)
        self.top = os.open(self.real, FOLDER)

    def make(self, path):
        """Makes the folder and those above it. These may be links."""
        if not os.path.isdir(path):
            self.make(os.path.dirname(path))
            os.mkdir(path)
            os.chmod(path, 0o755)

    def folder(self, names):
        """The descriptor of a folder below."""
        at, path = os.dup(self.top), self.path
        for name in names:
            path = os.path.join(path, name)
            try:
                below = made(at, name, path)
            finally:
                os.close(at)
            at = below
        return at

    def put(self, place, data, mode):
        """Puts a file there in one step."""
        *names, name = place.split("/")
        folder = self.folder(names)
        try:
            if is_folder(folder, name):
                raise Failed(f"{os.path.join(self.path, place)} is a folder")
            new = f".{name}.{secrets.token_hex(8)}"
            file = os.open(new, os.O_WRONLY | os.O_CREAT | os.O_EXCL | os.O_CLOEXEC, 0o600, dir_fd=folder)
            try:
                with os.fdopen(file, "wb") as opened:
                    opened.write(data)
                    os.fchmod(opened.fileno(), mode)
                os.rename(new, name, src_dir_fd=folder, dst_dir_fd=folder)
            except BaseException:
                os.unlink(new, dir_fd=folder)
                raise
        finally:
            os.close(folder)


def is_folder(folder, name):
    try:
        return stat.S_ISDIR(os.stat(name, dir_fd=folder, follow_symlinks=False).st_mode)
    except FileNotFoundError:
        return False


def start_once(prefix):
    """Looks whether what was installed answers as the program does."""
    installed = prefix.real
    words = [os.path.join(installed, "bin", "tessla"), "check", os.path.join(installed, DOCUMENTS, "examples", "seen.tsl")]
    how = {"stdin": subprocess.DEVNULL, "stdout": subprocess.PIPE, "stderr": subprocess.STDOUT}
    ran = subprocess.run(words, timeout=SECONDS, check=False, env={**os.environ, "TESSLA_TERMINAL": "0"}, **how)
    if ran.returncode or not re.fullmatch(rb"ok [0-9]+ [0-9]+\n", ran.stdout):
        said = ran.stdout.decode("utf-8", "surrogateescape").strip()[:200]
        raise Failed(f"what was installed does not start: its status is {ran.returncode}{': ' + said if said else ''}")
