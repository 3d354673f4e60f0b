"""Of what packages are made: the commit, the kit, and the licenses of what the program is linked from. What is not known is refused or told."""

import calendar
import os
import re
import shutil
import subprocess
import time

from crates import crates_of, of_kit
from layout import read
from putting import Failed

SECONDS = 60
# Names of files that have a license, and words of a head that speaks of one.
LICENSE = re.compile(r"(?:un)?licen[cs]e|copying|copyright|notice", re.I)
SAID = re.compile(r"licen[cs]e|copyright", re.I)
# What of the kit is linked into each program beside its libraries, by its folders.
OBJECTS = {
    "c": ("libos_c.a", "liblibc_c.a"),
    "toolchain/lib": ("Scrt1.o", "crti.o", "crtbeginS.o", "crtendS.o", "crtn.o", "libc_nonshared.a", "libgcc.a"),
}
# Who is named where there is no commit.
NOBODY = "unknown <unknown@localhost>"


def answer(words, **how):
    """What a command prints, or None where it is not there or fails."""
    settings = {"stdin": subprocess.DEVNULL, "capture_output": True, "timeout": SECONDS, "check": False, **how}
    try:
        ran = subprocess.run(words, **settings)
    except (FileNotFoundError, PermissionError):
        return None
    return ran.stdout.decode("utf-8", "replace").rstrip("\n") if ran.returncode == 0 else None


def git(top, *words):
    # Variables of git may speak of another repository.
    own = {key: it for key, it in os.environ.items() if not key.startswith("GIT_")}
    return answer(["git", "-C", top, *words], env={**own, "LC_ALL": "C"})


class Origin:
    """The commit that stands at the top, its time, who made it, and whether files are others than there.

    Where there is no commit, the time is that of SOURCE_DATE_EPOCH.
    """

    def __init__(self, launcher):
        top = os.path.dirname(launcher)
        self.commit, self.is_changed, self.maintainer = None, False, NOBODY
        root = git(top, "rev-parse", "--show-toplevel")
        said = git(top, "log", "-1", "--format=%H%n%ct%n%cn <%ce>") if root and os.path.realpath(root) == os.path.realpath(top) else None
        if said:
            self.commit, seconds, self.maintainer = said.split("\n")
            self.is_changed = git(top, "status", "--porcelain") != ""
        else:
            seconds = os.environ.get("SOURCE_DATE_EPOCH", "")
        if not re.fullmatch(r"[0-9]{1,11}", seconds):
            raise Failed("there is no commit of git here, and SOURCE_DATE_EPOCH does not say the time as seconds since 1970")
        self.time = int(seconds)
        self.version = self.version_of(read(launcher).decode("utf-8", "replace"))

    def version_of(self, launcher):
        """That of the launcher, with the day and the commit."""
        found = re.search(r"^version=([0-9][0-9.]*)$", launcher, re.M)
        if not found:
            raise Failed("the launcher has no version")
        version = f"{found[1]}+{self.date('%Y%m%d')}"
        version += f".{self.commit[:10]}" if self.commit else ""
        return version + (".changed" if self.is_changed else "")

    def date(self, form):
        return time.strftime(form, time.gmtime(self.time))

    def day_of_mail(self):
        """The time as a changelog of Debian has it, in English whatever the locale."""
        now = time.gmtime(self.time)
        day, month = calendar_names(now)
        return f"{day}, {now.tm_mday:02} {month} {self.date('%Y %H:%M:%S')} +0000"


def calendar_names(now):
    days, months = "Mon Tue Wed Thu Fri Sat Sun".split(), "Jan Feb Mar Apr May Jun Jul Aug Sep Oct Nov Dec".split()
    return days[calendar.weekday(now.tm_year, now.tm_mon, now.tm_mday)], months[now.tm_mon - 1]


class Kit:
    """The kit that is on the path: its name, and its libraries that the program is linked from, each with the texts of its licenses."""

    def __init__(self, top):
        command = shutil.which("rt")
        if not command:
            raise Failed("the command rt of the Rattle kit is not on the path")
        self.name = answer([command, "--version"])
        if not self.name:
            raise Failed("the command rt does not tell the version of the kit")
        self.folder = os.path.dirname(os.path.dirname(os.path.realpath(command)))
        used = of_kit(crates_of(read(os.path.join(top, "crates.txt")).decode())[1])
        self.licenses = {**{name: self.texts_of(name) for name in sorted(self.linked(used))}, **self.objects()}

    def linked(self, used):
        """These libraries, that of the language, and all that they stand on."""
        found, left = set(), ["std", *used]
        while left:
            name = left.pop()
            if name not in found:
                found.add(name)
                left += self.below(name)
        return found

    def below(self, name):
        file = os.path.join(self.folder, "rlibs", f"{name}.rlib", "format")
        try:
            return re.findall(r"^dep (\w+)$", read(file).decode("utf-8", "replace"), re.M)
        except FileNotFoundError as error:
            raise Failed(f"the kit has no library {name}") from error

    def texts_of(self, name):
        """All that the folder of a library has of licenses: the texts by the names of their files, and what heads of sources say."""
        folder = os.path.join(self.folder, "rattle", name)
        texts = {it: self.text(folder, it) for it in files_in(folder) if LICENSE.match(it)}
        for at, _, names in sorted(os.walk(os.path.join(folder, "src"))):
            for it in sorted(names):
                file = os.path.relpath(os.path.join(at, it), folder)
                head = head_of(self.text(folder, file)) if it.endswith(".rt") else ""
                if SAID.search(head):
                    texts[file] = head
        return texts

    def text(self, folder, name):
        return read(os.path.join(folder, name)).decode("utf-8", "replace").strip("\n")

    def objects(self):
        """What the linker adds from the kit that is of no library, each with the texts of licenses that stand beside it."""
        found = {}
        for folder in OBJECTS:
            path = os.path.join(self.folder, folder)
            texts = {it: self.text(path, it) for it in files_in(path) if LICENSE.match(it)}
            found |= {f"{folder}/{it}": texts for it in files_in(path) if it in OBJECTS[folder]}
        return found


def files_in(folder):
    return sorted(it for it in os.listdir(folder) if os.path.isfile(os.path.join(folder, it))) if os.path.isdir(folder) else []


def head_of(source):
    """The comment that a source begins with."""
    lines = []
    for line in source.split("\n"):
        if not line.startswith("//"):
            break
        lines.append(line.lstrip("/").removeprefix(" "))
    return "\n".join(lines)
