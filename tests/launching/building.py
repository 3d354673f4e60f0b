"""How the first start builds, with a kit that only pretends."""

import os
import re
import shutil
import signal
import subprocess

from repository import PROVES, Repository
from starts import LAUNCHER, LIMIT, Terminal, controls_in, environment, is_alive, kill, until

FIRST = "tessla: proving and building the program, on all processors. This is done once, and may take an hour.\n"
ANEW = "tessla: the sources have changed: proving and building the program anew. This may take some minutes.\n"
ALL = "tessla: 2 of 2 crates\n"


def builds_once(starts):
    tried, repository = starts.tried, Repository(starts, "once")
    tools = os.path.join(starts.room, "tools.once")
    os.mkdir(tools)
    for name in ("sh", "dirname", "readlink", "rm", "cat", "find", "sort", "cksum", "tr", "sed", "tail", "head"):
        os.symlink(shutil.which(name), os.path.join(tools, name))
    nothing = "tessla: cannot build: the command rt of the Rattle kit is not on the path\n"
    told = "tessla: the program is not built of what stands here, and TESSLA_BUILD=0 is set: start it once without that\n"
    tried.ended("nothing is built where that is asked", repository.start("run", "a", env={"TESSLA_BUILD": "0"}), 125, "", told)
    tried.ended("without a kit nothing is announced", repository.start("run", "a", env={"PATH": tools}), 125, "", nothing)
    tried.ended("the first start builds, and tells how far it is", repository.start("run", "a", "b c"), 0, "run a b c\n", FIRST + ALL)
    # From here on a build would fail.
    repository.proves("exit 1")
    tried.ended("the second start does not build", repository.start("run", "a", "b"), 0, "run a b\n", "")
    tried.ended("what is built is started where nothing may be built", repository.start("run", env={"TESSLA_BUILD": "0"}), 0, "run\n", "")
    repository.write("crates/lower/src/lib.rt", "// nothing\n")
    tried.ended("a source that is written again without a change is not built", repository.start("run"), 0, "run\n", "")
    repository.write("crates/tessla/must-fail/two.edit", "file: src/lib.rt\n")
    tried.ended("an edit that the gate refuses is not built", repository.start("run"), 0, "run\n", "")
    # While the gate runs, what stands in the folders out of the crates is put aside.
    for name in os.listdir(os.path.join(repository.top, "crates")):
        out = os.path.join(repository.top, "crates", name, "out")
        if os.path.isdir(out):
            os.renames(out, os.path.join(repository.top, ".git", "rt-aside", name))
    tried.ended("a start while the gate runs does not build", repository.start("run"), 0, "run\n", "")


def builds_what_changed(starts):
    tried, repository = starts.tried, Repository(starts, "changed")
    repository.start("run")
    changes = (
        ("a source", lambda: repository.write("crates/lower/src/lib.rt", "// something\n")),
        ("a new file", lambda: repository.write("crates/lower/proofs/new.antt", "new\n")),
        ("a file that is gone", lambda: os.remove(os.path.join(repository.top, "crates/lower/proofs/new.antt"))),
        ("crates.txt", lambda: repository.write("crates.txt", "lower:\ntessla: lower\n")),
    )
    for what, change in changes:
        change()
        ended = repository.start("run", env={"TESSLA_BUILD": "0"})
        tried.holds(f"{what} has changed, and nothing may be built", ended.status == 125 and ended.err.count(b"\n") == 1, ended)
        tried.ended(f"{what} has changed", repository.start("run"), 0, "run\n", ANEW + ALL)
    # As an archive has them that keeps its dates.
    name = repository.write("crates/lower/src/lib.rt", "// something older\n")
    for it in (name, os.path.dirname(name)):
        os.utime(it, (1, 1))
    tried.ended("a source with an older date has changed", repository.start("run"), 0, "run\n", ANEW + ALL)


def tells_what_failed(starts):
    tried, repository = starts.tried, Repository(starts, "failing")
    lines = "i=0; while [ $i -lt 30 ]; do echo line $i; i=$((i + 1)); done"
    repository.proves(f"{lines}; printf 'rt: lower NOT PROVED \\033]0;title\\007\\302\\233\\n'; exit 1")
    ended = repository.start("run")
    tried.ended("a build that fails", ended, 125, "")
    told = all(it in ended.err for it in (b"tessla: 0 of 2 crates\n", b"line 29\n", b" has the whole report\n"))
    tried.holds("a build that fails is told, with the end of its report", told and b"line 9\n" not in ended.err, ended)
    tried.holds("the end of a report is visible", not controls_in(ended.err) and b"NOT PROVED" in ended.err, ended)
    tried.holds("the whole report is there", "line 9\n" in reports_in(repository.top))
    ended = Terminal(starts, [repository.launcher, "run"], env=repository.environment()).end()
    tried.holds("on a terminal too", not [it for it in controls_in(ended.out) if it != "\r"] and b"NOT PROVED" in ended.out, ended)
    repository.proves(PROVES)
    ended = repository.start("run")
    tried.holds("a build after one that failed", ended.status == 0 and ended.out == b"run\n", ended)


def reports_in(folder):
    """What the files with reports have, wherever they stand."""
    text = ""
    for name in (os.path.join(at, it) for at, _, names in os.walk(folder) for it in names if it.endswith(".log")):
        with open(name, encoding="utf-8", errors="replace") as opened:
            text += opened.read()
    return text


def cannot_write(starts):
    """A repository that can't be written in."""
    tried, repository = starts.tried, Repository(starts, "foreign")
    for name in (repository.top, os.path.join(repository.top, "crates", "tessla")):
        open(os.path.join(name, "out"), "w", encoding="utf-8").close()
    ended = repository.start("run")
    tried.holds("a repository that can't be written in", ended.status == 125 and b"tessla: cannot build: " in ended.err, ended)
    tried.holds("nothing else is said of it", all(it.startswith(b"tessla: ") for it in ended.err.splitlines()), ended)


SLOW = """echo $$ >>"$RUNS"
exec 3>"$RUNS.begun.new"; echo $$ >&3; mv "$RUNS.begun.new" "$RUNS.begun"
sleep {seconds}
"""


def waits_for_another(starts):
    tried, repository = starts.tried, Repository(starts, "beside")
    runs = os.path.join(starts.room, "beside.runs")
    repository.proves(SLOW.replace("{seconds}", "2") + PROVES)
    how = {"env": repository.environment(RUNS=runs), "stdin": subprocess.DEVNULL, "stdout": subprocess.PIPE, "stderr": subprocess.PIPE}
    children = [subprocess.Popen([repository.launcher, "run", str(it)], **how) for it in range(3)]
    ended = [(*it.communicate(timeout=60), it.returncode) for it in children]
    good = all(it[0] == f"run {number}\n".encode() and it[2] == 0 for number, it in enumerate(ended))
    tried.holds("three starts beside each other", good, *ended)
    with open(runs, encoding="utf-8") as opened:
        tried.holds("only one of them builds", len(opened.readlines()) == 1, *ended)


def equal_numbers(starts):
    """Two containers have processes of equal numbers."""
    words = ["unshare", *(["--user"] if os.geteuid() else []), "--pid", "--fork", "--kill-child"]
    if subprocess.run([*words, "true"], stderr=subprocess.DEVNULL, check=False).returncode:
        starts.tried.leave_out("unshare --pid", can_be_had=False)
        return
    repository = Repository(starts, "numbers")
    runs = os.path.join(starts.room, "numbers.runs")
    repository.proves(SLOW.replace("{seconds}", "1") + PROVES)
    how = {"env": repository.environment(RUNS=runs), "stdin": subprocess.DEVNULL, "stdout": subprocess.PIPE, "stderr": subprocess.PIPE}
    children = [subprocess.Popen([*words, "sh", "-c", 'exec "$0" run', repository.launcher], **how) for _ in range(2)]
    ended = [(*it.communicate(timeout=60), it.returncode) for it in children]
    starts.tried.holds("two starts of equal process numbers", all(it[0] == b"run\n" and it[2] == 0 for it in ended), *ended)


class Build:
    """A start that builds, and the kit's command in it."""

    def __init__(self, starts, name, seconds):
        self.repository, self.rooms = Repository(starts, name), os.path.join(starts.room, f"rooms {name}")
        os.mkdir(self.rooms)
        runs = os.path.join(starts.room, f"runs {name}")
        self.repository.proves(SLOW.replace("{seconds}", str(seconds)) + PROVES)
        how = {"env": self.repository.environment(RUNS=runs, TMPDIR=self.rooms), "stdin": subprocess.DEVNULL, "start_new_session": True}
        self.child = subprocess.Popen([self.repository.launcher, "run"], stdout=subprocess.DEVNULL, stderr=subprocess.DEVNULL, **how)
        self.kit = None
        if until(lambda: os.path.exists(f"{runs}.begun")):
            with open(f"{runs}.begun", encoding="utf-8") as opened:
                self.kit = int(opened.read())
        starts.tried.holds(f"the build begins ({name})", self.kit)

    def ended_in_time(self):
        try:
            self.child.wait(LIMIT)
        except subprocess.TimeoutExpired:
            return False
        return True

    def close(self):
        kill(self.child)
        if self.kit and is_alive(self.kit):
            os.kill(self.kit, signal.SIGKILL)


def ends_the_build(starts):
    """A signal ends the build at once, and leaves nothing of it."""
    tried = starts.tried
    for number in (signal.SIGTERM, signal.SIGINT, signal.SIGHUP):
        name = signal.Signals(number).name
        build = Build(starts, name, 2 * LIMIT)
        if build.kit:
            build.child.send_signal(number)
            ended = build.ended_in_time()
            tried.holds(f"{name} ends a build at once", ended and build.child.returncode in (-number, 128 + number), build.child.returncode)
            tried.holds(f"{name} ends the kit", until(lambda: not is_alive(build.kit), LIMIT // 2))
            tried.holds(f"{name} leaves no room", not os.listdir(build.rooms), os.listdir(build.rooms))
        build.close()
        build.repository.proves(PROVES)
        ended = build.repository.start("run")
        tried.holds(f"after {name} a build goes on", ended.out == b"run\n", ended)


def leaves_nothing_behind(starts):
    """A build that is killed leaves nobody who watches it."""
    build = Build(starts, "killed", 4 * LIMIT)
    before = watchers()
    build.child.kill()
    build.child.wait()
    is_left_alone = until(lambda: not watchers(), LIMIT // 2)
    starts.tried.holds("nobody watches a build that was killed", before and is_left_alone, f"{before} before, {watchers()} now")
    build.close()
    build.repository.proves(PROVES)
    ended = build.repository.start("run", env={"TMPDIR": build.rooms})
    starts.tried.holds("the next build goes on", ended.out == b"run\n", ended)
    starts.tried.holds("the next build removes what it left", not os.listdir(build.rooms), os.listdir(build.rooms))


def watchers():
    """How many processes have the launcher that is killed, or its tools, among their words."""
    found = 0
    for number in (it for it in os.listdir("/proc") if it.isdigit()):
        try:
            with open(f"/proc/{number}/cmdline", "rb") as opened:
                words = opened.read().split(b"\0")
        except OSError:
            continue
        found += any(re.search(rb"tessla-launcher\.[^/]*/building/repository killed/", it) for it in words)
    return found


def names_are_visible(starts):
    """A repository and a folder for the build with hostile names."""
    name = "hostile\033]0;title\007\u009b"
    repository = Repository(starts, name)
    repository.proves("exit 1")
    ended = repository.start("run")
    starts.tried.holds("a repository with a hostile name", ended.status == 125 and not controls_in(ended.err), ended)
    ended = starts.start([LAUNCHER, "run"], env=environment(TESSLA_PROGRAM=os.path.join(repository.top, "absent")))
    starts.tried.holds("a program with a hostile name", not controls_in(ended.err) and ended.status != 0, ended)


def building(starts):
    builds_once(starts)
    builds_what_changed(starts)
    tells_what_failed(starts)
    cannot_write(starts)
    waits_for_another(starts)
    equal_numbers(starts)
    ends_the_build(starts)
    if os.path.isdir("/proc/self"):
        leaves_nothing_behind(starts)
    else:
        starts.tried.leave_out("/proc", can_be_had=False)
    names_are_visible(starts)
