"""A repository of two crates, and a kit that says that it proves them."""

import os
import shutil

from starts import PATH, TOP, environment

# What a kit has made is a program that prints its words.
PRINTS = "#!/bin/sh\nprintf '%s\\n' \"$*\"\n"
PROVES = """printf 'rt: lower is kept: an earlier run proved it\\nrt: tessla proved\\nrt: tessla: its tests are proved\\n'
mkdir -p crates/tessla/out
cp -- "$MADE" crates/tessla/out/tessla
chmod 755 crates/tessla/out/tessla"""
TELLS = "[ \"$*\" != --version ] || { echo 'a kit that pretends'; exit; }"
PARTS = ("tools", "man", "docs", "completions", "highlighting", "examples", "data")
ALONE = ("tessla", "README.md", "LICENSE")


class Repository:
    """A copy of what the launcher stands among, with crates of its own."""

    def __init__(self, starts, name, made=None):
        self.starts, self.top = starts, os.path.join(starts.room, f"repository {name}")
        self.launcher = os.path.join(self.top, "tessla")
        self.kit = os.path.join(starts.room, f"kit {name}", "bin")
        os.makedirs(self.kit)
        os.mkdir(self.top)
        for it in ALONE:
            shutil.copy(os.path.join(TOP, it), self.top)
        for it in PARTS:
            if os.path.isdir(os.path.join(TOP, it)):
                shutil.copytree(os.path.join(TOP, it), os.path.join(self.top, it))
        self.write("crates.txt", "# crates\nlower:\nunused:\ntessla: lower # the program\n")
        for it in ("lower", "unused", "tessla"):
            self.write(f"crates/{it}/src/lib.rt", "// nothing\n")
        self.write("crates/tessla/must-fail/one.edit", "file: src/lib.rt\n")
        self.made = made or starts.script(f"made {name}", PRINTS)
        self.proves(PROVES)

    def write(self, name, text):
        path = os.path.join(self.top, name)
        os.makedirs(os.path.dirname(path), exist_ok=True)
        with open(path, "w", encoding="utf-8") as opened:
            opened.write(text)
        return path

    def proves(self, text):
        """Gives the kit another command."""
        path = os.path.join(self.kit, "rt")
        with open(path, "w", encoding="utf-8") as opened:
            opened.write(f'#!/bin/sh\nMADE=\'{self.made}\'\n{TELLS}\n[ "$*" = ci ] || exit 2\n{text}\n')
        os.chmod(path, 0o755)

    def path(self):
        return f"{self.kit}:{PATH}"

    def environment(self, **more):
        return environment(**{"PATH": self.path(), **more})

    def start(self, *words, **how):
        env = {**self.environment(), **how.pop("env", {})}
        return self.starts.start([self.launcher, *words], env=env, **how)
