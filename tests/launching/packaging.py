"""What `package` makes: equal bytes whoever makes them, all that has to be in it, and that it runs where no kit is."""

import gzip
import hashlib
import io
import os
import re
import shutil
import signal
import subprocess
import sys
import tarfile

from installing import OF_REPOSITORY
from repository import Repository
from starts import TOP, controls_in, until
from talking import write_files

# The commit that the packages are made of, and when it was.
SECONDS = 1700000000
AUTHOR = {"NAME": "Tester", "EMAIL": "tester@example.org", "DATE": f"{SECONDS} +0300"}
OF_GIT = {f"GIT_{of}_{name}": value for of in ("AUTHOR", "COMMITTER") for name, value in AUTHOR.items()}
OF_GIT.update({"GIT_CONFIG_GLOBAL": "/dev/null", "GIT_CONFIG_SYSTEM": "/dev/null"})
ARCHIVE, DEBIAN = r"tessla-(.*)-linux-(amd64|arm64)\.tar\.gz", r"tessla_(.*)_(amd64|arm64)\.deb"
# What a program may be started from where there is neither a kit nor a compiler.
PLAIN = ("sh", "dirname", "readlink", "cat", "tr", "sed", "find", "sort", "cksum", "env")
SILENT = "26"
WATCHDOG = "26: silence = ()\n26: heard = 16\n55: silence = ()\n55: heard = 45\n65: silence = ()\n65: heard = 55\n"
# What stands in the packages beside what is installed.
ADDED = {"share/doc/tessla/copyright", "share/doc/tessla/ORIGIN", "share/doc/tessla/SHA256SUMS"}


def git(repository, *words):
    return subprocess.run(["git", "-C", repository.top, *words], env={**repository.environment(), **OF_GIT}, check=True, capture_output=True)


def committed(starts, name):
    """A repository with one commit, that of each other one, and a kit with libraries."""
    repository = Repository(starts, name, made=starts.program)
    repository.write("crates.txt", "lower: clap\nunused: csv\ntessla: lower # the program\n")
    repository.write(".gitignore", "out/\n")
    kit = os.path.dirname(repository.kit)
    for library, below in {"std": ["core"], "core": [], "clap": ["std", "strsim"], "strsim": ["std"], "csv": ["std"]}.items():
        write(kit, f"rlibs/{library}.rlib/format", "rattle rlib\n" + "".join(f"dep {it}\n" for it in below))
        os.makedirs(os.path.join(kit, "rattle", library))
    for library, of in (("clap", "MIT"), ("clap", "APACHE"), ("csv", "MIT")):
        write(kit, f"rattle/{library}/LICENSE-{of}", f"the {of} license of {library}\n")
    write(kit, "rattle/strsim/LICENSE", "the license of strsim\n")
    write(kit, "rattle/strsim/src/lib.rt", "// Compares texts.\nfn main() {}\n// no license\n")
    write(kit, "rattle/core/src/read/mod.rt", "// After others, under a Licence\n// of these.\nfn main() {}\n")
    write(kit, "c/libos_c.a", "")
    write(kit, "toolchain/lib/crti.o", "")
    write(kit, "toolchain/lib/COPYING", "the license of start files\n")
    if starts.tried.has("git"):
        git(repository, "init", "-q")
        git(repository, "add", "-A")
        git(repository, "commit", "-q", "-m", "all")
    repository.start("run", "absent")
    return repository


def write(folder, name, text):
    path = os.path.join(folder, name)
    os.makedirs(os.path.dirname(path), exist_ok=True)
    with open(path, "w", encoding="utf-8") as opened:
        opened.write(text)


def bytes_of(folder):
    """The files of a folder."""
    found = {}
    for name in sorted(os.listdir(folder)) if os.path.isdir(folder) else []:
        with open(os.path.join(folder, name), "rb") as opened:
            found[name] = opened.read()
    return found


def packed(starts, repository, *words, umask="022", **env):
    """Starts `package` with a umask and variables."""
    line = f'umask {umask}; exec "$0" package "$@"'
    env = {"SOURCE_DATE_EPOCH": str(SECONDS), **env}
    return starts.start(["sh", "-c", line, repository.launcher, *words], env=repository.environment(**env), limit=60)


def is_reproducible(starts, repository):
    """The bytes follow from what is packed. Returns the files."""
    tried, first = starts.tried, os.path.join(starts.room, "first")
    ended = packed(starts, repository, first)
    made = bytes_of(first)
    names = sorted(made)
    is_said = ended.out.decode() == "".join(f"{os.path.join(first, it)}\n" for it in [*names[1:], *names[:1]])
    is_right = len(names) == 3 and re.fullmatch(ARCHIVE, names[1]) and re.fullmatch(DEBIAN, names[2]) and names[0] == "SHA256SUMS"
    tried.holds("package makes an archive, a package and their checksums", ended.status == 0 and not ended.err and is_right, ended, names)
    tried.holds("package names what it made", is_said, ended, names)
    sums = "".join(f"{hashlib.sha256(made[it]).hexdigest()}  {it}\n" for it in names[1:])
    tried.holds("their checksums are right", made.get("SHA256SUMS", b"").decode() == sums)
    # Another folder, another user's settings, and files of another time, with modes that a umask has left.
    other = committed(starts, "elsewhere and later")
    for at, _, files in os.walk(other.top):
        for name in files if ".git" not in at else []:
            os.utime(os.path.join(at, name), (1, 1))
    second = os.path.join(starts.room, "a second")
    how = {"TZ": "Asia/Tokyo", "LC_ALL": "C", "LANG": "tr_TR.UTF-8", "HOME": "/nonexistent", "PYTHONHASHSEED": "1", "USER": "x"}
    ended = packed(starts, other, second, umask="077", **how)
    tried.holds("a second run, elsewhere and later, makes equal bytes", ended.status == 0 and bytes_of(second) == made, ended)
    tried.holds("what is made can be read by all", all(os.stat(os.path.join(second, it)).st_mode & 0o777 == 0o644 for it in bytes_of(second)))
    ended = packed(starts, other, umask="000")
    tried.holds("without a folder it is out/packages", ended.status == 0 and bytes_of(os.path.join(other.top, "out", "packages")) == made, ended)
    return made


# ---- What is in them


def members(data):
    """The members of an older archive."""
    found, at = {}, 8
    while at < len(data):
        name, size = data[at : at + 16].decode().strip(), int(data[at + 48 : at + 58])
        found[name] = data[at + 60 : at + 60 + size], data[at + 16 : at + 58].decode().split()
        at += 60 + size + size % 2
    return found


def archive_is_right(starts, what, data, time):
    """An archive in order, of root, of one time, and with the modes that belong there. Returns its files."""
    tried = starts.tried
    tried.holds(f"{what} says neither when nor of what it was packed", data[3:8] == b"\0\0\0\0\0", data[:10])
    with tarfile.open(fileobj=io.BytesIO(data)) as archive:
        infos = archive.getmembers()
        files = {it.name: archive.extractfile(it).read() for it in infos if it.isfile()}
    names = [it.name for it in infos]
    tried.holds(f"{what} is in order", names == sorted(names) and len(set(names)) == len(names))
    wrong = [it.name for it in infos if (it.uid, it.gid, it.uname, it.gname, it.mtime) != (0, 0, "root", "root", time)]
    tried.holds(f"all in {what} is of root and of the commit's time", not wrong, wrong[:5])
    wrong = [it.name for it in infos if it.mode not in ((0o755,) if it.isdir() else (0o644, 0o755)) or not (it.isdir() or it.isfile())]
    tried.holds(f"all in {what} can be read by all and changed by root", not wrong, wrong[:5])
    started = {it.name.rpartition("/")[2] for it in infos if it.isfile() and it.mode == 0o755}
    tried.holds(f"what is started in {what}", started == {"tessla", "log2trace", "trace2", "messages", "state", "explain", "lint", "test", "picture", "page"}, started)
    return files


def sums_are_right(starts, what, files, prefix):
    """The checksums that stand in a package are those of all else in it."""
    sums = files.get(f"{prefix}share/doc/tessla/SHA256SUMS", b"").decode().splitlines()
    own = {f"{prefix}{it[66:]}": it[:64] for it in sums}
    wanted = {name: hashlib.sha256(data).hexdigest() for name, data in files.items() if not name.endswith("/SHA256SUMS")}
    starts.tried.holds(f"the checksums in {what}", own == wanted, sorted(own.keys() ^ wanted.keys())[:5])


def archive_has_all(starts, made, prefix):
    """The archive has what is installed. Returns its bytes by their names."""
    tried = starts.tried
    name = next(it for it in made if it.endswith(".tar.gz"))
    folder = f"tessla-{re.fullmatch(ARCHIVE, name)[1]}/"
    files = archive_is_right(starts, "the archive", made[name], SECONDS)
    own = {it.removeprefix(folder): data for it, data in files.items()}
    installed = {}
    for at, _, names in os.walk(prefix):
        for it in names:
            with open(os.path.join(at, it), "rb") as opened:
                installed[os.path.relpath(os.path.join(at, it), prefix)] = opened.read()
    tried.holds("the archive has all that is installed", own.keys() - ADDED == installed.keys(), sorted((own.keys() - ADDED) ^ installed.keys())[:5])
    tried.holds("and as it is installed", all(own[it] == data for it, data in installed.items() if it in own))
    sums_are_right(starts, "the archive", files, folder)
    return own


def licenses_are_there(starts, own, version):
    tried, text = starts.tried, own.get("share/doc/tessla/copyright", b"").decode()
    with open(os.path.join(starts.room, "repository whole", "LICENSE"), encoding="utf-8") as opened:
        tried.holds("the license of the repository is there", opened.read().strip() in text)
    for part in ("the MIT license of clap", "the license of strsim", "clap (LICENSE-MIT)", "the kit a kit that pretends", version):
        tried.holds(f"the licenses have `{part}`", part in text, text[-500:])
    tried.holds("of two licenses both are there", "the APACHE license of clap" in text)
    tried.holds("and what a source says of one", "core (src/read/mod.rt)\n\nAfter others, under a Licence\nof these.\n" in text, text[-700:])
    tried.holds("and what stands beside start files", "toolchain/lib/crti.o (COPYING)\n\nthe license of start files\n" in text, text[-700:])
    tried.holds("of what is not linked there is none", "csv" not in text)
    without = "states no license, and no terms of its own either:\ncore (but for the files that are named above), std, c/libos_c.a\n"
    tried.holds("what has no text is named", without in text, text[-300:])
    origin = dict(it.split(" ", 1) for it in own.get("share/doc/tessla/ORIGIN", b"").decode().splitlines())
    program = hashlib.sha256(own.get("libexec/tessla/tessla", b"")).hexdigest()
    tried.holds("the kit and the program are named", (origin.get("kit"), origin.get("program")) == ("a kit that pretends", program), origin)


def debian_is_right(starts, made, own):
    """The package of Debian, read here without its tools. Returns its files."""
    tried = starts.tried
    name = next(it for it in made if it.endswith(".deb"))
    version, processor = re.fullmatch(DEBIAN, name).groups()
    parts = members(made[name])
    tried.holds("the package has its parts in order", list(parts) == ["debian-binary", "control.tar.gz", "data.tar.gz"], list(parts))
    tried.holds("its parts have one time and are of root", all(it[1][:3] == [str(SECONDS), "0", "0"] for it in parts.values()))
    with tarfile.open(fileobj=io.BytesIO(parts["control.tar.gz"][0])) as archive:
        said = {it.name: archive.extractfile(it).read().decode() for it in archive.getmembers() if it.isfile()}
    tried.holds("it has no scripts and no settings", sorted(said) == ["./control", "./md5sums"], sorted(said))
    rows = dict(re.findall(r"^([A-Z][A-Za-z-]*): (.*)$", said["./control"], re.M))
    wanted = {"Package": "tessla", "Version": version, "Architecture": processor, "Recommends": "python3 (>= 3.9)"}
    tried.holds("what it says of itself", all(rows.get(key) == it for key, it in wanted.items()), rows)
    tried.holds("it needs the C library or nothing", re.fullmatch(r"libc6 \(>= 2\.[0-9]+\)", rows.get("Depends", "libc6 (>= 2.0)")), rows)
    files = archive_is_right(starts, "the package", parts["data.tar.gz"][0], SECONDS)
    sums = "".join(f"{hashlib.md5(data, usedforsecurity=False).hexdigest()}  {it[2:]}\n" for it, data in sorted(files.items()))
    tried.holds("its sums are right", said["./md5sums"] == sums)
    sums_are_right(starts, "the package", files, "./usr/")
    lost = [it for it in own if it not in ADDED and not is_in(files, it, own[it])]
    tried.holds("the package has all of the archive", not lost, lost)
    return files


def is_in(files, name, data):
    """Whether a file stands in the package of Debian, where that has it."""
    if name.startswith("share/man/"):
        return gzip.decompress(files.get(f"./usr/{name}.gz", gzip.compress(b""))) == data
    return files.get(f"./usr/{name.replace('site-functions', 'vendor-completions')}") == data


# ---- That they run


def plain_path(starts):
    """A folder with what any machine has, and neither a kit nor a compiler."""
    folder = os.path.join(starts.room, "plain")
    if not os.path.isdir(folder):
        os.mkdir(folder)
        for name in PLAIN:
            os.symlink(os.path.realpath(shutil.which(name)), os.path.join(folder, name))
        os.symlink(os.path.realpath(sys.executable), os.path.join(folder, "python3"))
    return folder


def runs(starts, what, prefix):
    """What was unpacked does what the README says, without a kit, and changes nothing there."""
    tried, launcher, path = starts.tried, os.path.join(prefix, "bin", "tessla"), plain_path(starts)
    examples = os.path.join(prefix, "share", "doc", "tessla", "examples")
    before = sorted(os.path.join(at, it) for at, _, names in os.walk(prefix) for it in names)

    def start(*words, given=b"", **env):
        return starts.start([launcher, *words], given=given, cwd=starts.room, env={"PATH": path, "HOME": starts.room, **env})

    watchdog = [os.path.join(examples, f"watchdog.{it}") for it in ("tsl", "trace")]
    tried.ended(f"{what}: the watchdog", start("run", *watchdog), 0, WATCHDOG, "")
    first = os.path.join(prefix, "share", "doc", "tessla", "data", "first.tsl")
    tried.ended(f"{what}: the first run", start("run", first, given=b"1: i = 4\n3: i = 9\n"), 0, "3: p = 4\n", "")
    ended = start("check", watchdog[0])
    tried.holds(f"{what}: check", ended.status == 0 and re.fullmatch(rb"ok [0-9]+ 0\n", ended.out), ended)
    ended = start("show", os.path.join(examples, "seen.tsl"))
    tried.holds(f"{what}: show", ended.status == 0 and ended.out.endswith(b" in place\n"), ended)
    code = os.path.join(starts.room, "watchdog.code")
    tried.ended(f"{what}: compile", start("compile", watchdog[0], code), 0, "", "")
    tried.ended(f"{what}: exec", start("exec", code, watchdog[1]), 0, WATCHDOG, "")
    ended = start("exec", watchdog[0], TESSLA_TERMINAL="1")
    tried.holds(f"{what}: a code file that is none", ended.status == 9 and b"  cause:  this is a specification, and no code file\n" in ended.err, ended)
    ended = start("picture", watchdog[0], "silence")
    tried.holds(f"{what}: picture", ended.status == 0 and ended.out.startswith(b"digraph tessla {\n") and b"silence" in ended.out, ended)
    ended = start("explain", *watchdog, "silence", SILENT)
    tried.holds(f"{what}: explain", ended.status == 0 and ended.out.startswith(f"{SILENT}: silence = ()".encode()) and b"  trace " in ended.out, ended)
    tried.ended(f"{what}: lint", start("lint", watchdog[0]), 0, "", "")
    ended = start("test", examples)
    tried.holds(f"{what}: test", ended.status == 0 and re.search(rb"\n[1-9][0-9]* passed, 0 failed\n$", ended.out), ended)
    ended = start("check", "q.tsl", TESSLA_TERMINAL="1")
    tried.ended(f"{what}: a check with additions", ended, 0, "ok 2 0\n", "")
    ended = start("run", "q.tsl", "fault.trace", TESSLA_TERMINAL="1")
    tried.holds(f"{what}: a remedy", ended.status == 1 and b"  remedy: " in ended.err, ended)
    for word in ("install", "package"):
        tried.ended(f"{what}: {word}", start(word, "x"), 125, "", f"tessla: {word} {OF_REPOSITORY}")
    ended = starts.start([os.path.join(prefix, "bin", "log2trace"), "csv"], given=b"time,x\n1,2\n", env={"PATH": path})
    tried.ended(f"{what}: log2trace", ended, 0, "1: x = 2\n", "")
    ended = starts.start([os.path.join(prefix, "bin", "trace2"), "csv", watchdog[1]], env={"PATH": path})
    tried.holds(f"{what}: trace2", ended.status == 0 and ended.out.startswith(b"time,beat"), ended)
    after = sorted(os.path.join(at, it) for at, _, names in os.walk(prefix) for it in names)
    tried.holds(f"{what}: nothing is left beside what was unpacked", before == after, [it for it in after if it not in before])


def unpacked(files, folder, modes):
    """Puts these files below a folder."""
    for name, data in files.items():
        path = os.path.join(folder, name)
        os.makedirs(os.path.dirname(path), exist_ok=True)
        with open(path, "wb") as opened:
            opened.write(data)
        os.chmod(path, 0o755 if any(it in path for it in modes) else 0o644)


def installed_by_dpkg(starts, made):
    """Installs the package in a folder by dpkg, tries it, and removes it again: nothing is left then."""
    tried = starts.tried
    if not tried.has("dpkg-deb"):
        return
    name = next(it for it in made if it.endswith(".deb"))
    file = starts.write("tessla.deb", made[name])
    ended = starts.start(["dpkg-deb", "--contents", file])
    tried.holds("dpkg-deb reads the package", ended.status == 0 and b"./usr/libexec/tessla/tessla\n" in ended.out and not ended.err, ended)
    if os.geteuid():
        tried.leave_out("the install by dpkg, which needs root", can_be_had=False)
        return
    root = os.path.join(starts.room, "a root")
    for it in ("var/lib/dpkg/info", "var/lib/dpkg/updates", "tmp"):
        os.makedirs(os.path.join(root, it))
    for it in ("status", "available"):
        open(os.path.join(root, "var/lib/dpkg", it), "w", encoding="utf-8").close()
    # No file is written for safety's sake: the folder is thrown away.
    dpkg = ["dpkg", f"--root={root}", "--force-depends", "--force-unsafe-io", "--log=/dev/null"]
    ended = starts.start([*dpkg, "--install", file], limit=120)
    tried.holds("dpkg installs it", ended.status == 0, ended)
    runs(starts, "installed by dpkg", os.path.join(root, "usr"))
    ended = starts.start([*dpkg, "--verify", "tessla"], limit=120)
    tried.ended("dpkg finds all as it was", ended, 0, "")
    ended = starts.start([*dpkg, "--purge", "tessla"], limit=120)
    left = [os.path.join(at, it) for at, folders, names in os.walk(root) for it in [*folders, *names] if "/var" not in f"{at}/{it}" and it != "tmp"]
    tried.holds("once it is removed nothing is left", ended.status == 0 and not left, ended, left[:5])


# ---- What is refused, and what else it says


def refused(starts, repository, what, *words, says=b"", **env):
    ended = packed(starts, repository, *words, **env)
    wrote = ended.err.startswith(b"tessla: ") and ended.err.count(b"\n") == 1 and not controls_in(ended.err)
    starts.tried.holds(f"{what} is refused, in one line", ended.status == 125 and not ended.out and wrote and says in ended.err, ended)


def refuses(starts, repository):
    tried, file = starts.tried, starts.write("a file", "")
    refused(starts, repository, "a file in the place of the folder", file)
    refused(starts, repository, "a hostile name", os.path.join(file, "\033]0;title\007\u009b"))
    refused(starts, repository, "two folders", "a", "b", says=b"package takes")
    refused(starts, repository, "an empty name", "", says=b"package takes")
    refused(starts, repository, "a program of the environment", "never", says=b"unset it", TESSLA_PROGRAM=starts.program)
    refused(starts, repository, "a path without a kit", "never", says=b"rt", PATH=plain_path(starts))
    tried.holds("nothing is made for these", not os.path.exists(os.path.join(starts.room, "never")))
    # A program that is none for a processor that is known, and one that does not start.
    broken = starts.script("broken.made", "")
    with open(starts.program, "rb") as opened, open(broken, "wb") as file:
        program = opened.read()
        # It begins nowhere.
        file.write(program[:24] + bytes(8) + program[32:])
    for name, made, says in (("script", starts.script("script.made", "exit 0"), b"none of Linux"), ("broken one", broken, b"does not start")):
        other = Repository(starts, f"of a {name}", made=made)
        write(os.path.dirname(other.kit), "rlibs/std.rlib/format", "")
        other.start("run")
        refused(starts, other, f"a program that is a {name}", "never", says=says)
    other = Repository(starts, "without a time", made=starts.program)
    other.start("run")
    refused(starts, other, "what has no time", "never", says=b"SOURCE_DATE_EPOCH", SOURCE_DATE_EPOCH="")
    tried.holds("nothing is made for these either", not os.path.exists(os.path.join(starts.room, "never")))
    os.makedirs(os.path.join(starts.room, "hostile\033[2J"))
    ended = packed(starts, repository, os.path.join(starts.room, "hostile\033[2J"))
    tried.holds("the names of what is made are visible", ended.status == 0 and not controls_in(ended.out) and b"\\x1b[2J" in ended.out, ended)


def outputs_that_fail(starts, repository):
    folder = os.path.join(starts.room, "unsaid")
    for to in (">&-", *([">/dev/full"] if os.path.exists("/dev/full") else [])):
        words = ["sh", "-c", f'exec "$0" package "$1" {to}', repository.launcher, folder]
        ended = starts.start(words, env=repository.environment(SOURCE_DATE_EPOCH=str(SECONDS)), limit=60)
        is_said = ended.err.startswith(b"tessla: the standard output: ") and ended.err.count(b"\n") == 1
        starts.tried.holds(f"what was made cannot be said {to}", ended.status == 125 and is_said and len(bytes_of(folder)) == 3, ended)


def interrupts(starts, repository):
    """A signal ends it without a word, and nothing is left."""
    rooms, begun = os.path.join(starts.room, "rooms"), os.path.join(starts.room, "begun")
    os.mkdir(rooms)
    kit = os.path.join(starts.room, "a slow kit")
    os.mkdir(kit)
    os.rename(starts.script("slow rt", f": >'{begun}'; exec sleep 60"), os.path.join(kit, "rt"))
    env = repository.environment(SOURCE_DATE_EPOCH=str(SECONDS), TMPDIR=rooms, PATH=f"{kit}:{repository.path()}")
    for number in (signal.SIGINT, signal.SIGTERM):
        words = [repository.launcher, "package", os.path.join(starts.room, "interrupted")]
        child = subprocess.Popen(words, env=env, stdin=subprocess.DEVNULL, stdout=subprocess.PIPE, stderr=subprocess.STDOUT, start_new_session=True)
        until(lambda: os.path.exists(begun))
        os.killpg(child.pid, number)
        said = child.communicate(timeout=60)[0]
        os.remove(begun)
        is_right = child.returncode in (-number, 128 + number) and not said and not os.listdir(rooms)
        starts.tried.holds(f"{signal.Signals(number).name} ends package", is_right, child.returncode, said[-300:], os.listdir(rooms))
    starts.tried.holds("nothing is made then", not os.path.exists(os.path.join(starts.room, "interrupted")))


def names_what_changed(starts, repository):
    """The version has the day and the commit, and says whether something has changed since."""
    if not starts.tried.has("git"):
        return
    head = git(repository, "rev-parse", "HEAD").stdout.decode()[:10]
    folder = os.path.join(starts.room, "versions")
    # The time is that of the commit, whatever else is said, and variables of git speak of nothing else.
    packed(starts, repository, folder, SOURCE_DATE_EPOCH="5", GIT_DIR="/dev/null/absent")
    names = [it for it in os.listdir(folder) if it.endswith(".deb")]
    starts.tried.holds("the version has the commit and its day", len(names) == 1 and re.search(rf"_[0-9.]+\+20231114\.{head}_", names[0]), names)
    repository.write("data/first.tsl", "in i: Events[Int]\nout i\n")
    packed(starts, repository, folder)
    names = [it for it in os.listdir(folder) if it.endswith(".deb")]
    starts.tried.holds("the version says that files have changed", any(f".{head}.changed_" in it for it in names), names)


SUM = "import runpy, sys; print(runpy.run_path(sys.argv[1])['sum_of_sources'](), end='')"


def has_the_page(starts):
    """The page for the browser is packed where it was made of what stands there, and else that is said."""
    tried, repository = starts.tried, committed(starts, "with a page")
    shutil.copytree(os.path.join(TOP, "web"), os.path.join(repository.top, "web"))
    write(os.path.dirname(repository.kit), "KIT-ID", "a kit that pretends\n")
    folder = os.path.join(starts.room, "paged")
    ended = packed(starts, repository, folder)
    tried.holds("packages without the page say so", ended.status == 0 and b"`./tessla page` makes it" in ended.err and len(bytes_of(folder)) == 3, ended)
    tools = os.path.join(repository.top, "tools")
    ended = starts.start([sys.executable, "-B", "-c", SUM, os.path.join(tools, "page")], env=repository.environment(PYTHONPATH=tools))
    write(repository.top, "out/page.sources", ended.out.decode())
    write(repository.top, "out/page.wasm", "what runs there")
    ended = packed(starts, repository, folder)
    data = next(it for name, it in bytes_of(folder).items() if name.endswith(".tar.gz"))
    with tarfile.open(fileobj=io.BytesIO(data)) as archive:
        pages = [archive.extractfile(it).read() for it in archive.getmembers() if it.name.endswith("/share/doc/tessla/page.html")]
    tried.holds("packages have the page", ended.status == 0 and not ended.err and len(pages) == 1 and b"<title>TeSSLa" in pages[0], ended)
    prefix = os.path.join(starts.room, "installed with a page")
    repository.start("install", prefix)
    page, copy = os.path.join(prefix, "share", "doc", "tessla", "page.html"), os.path.join(starts.room, "copy.html")
    for words, path in (((), page), ((copy,), copy)):
        ended = starts.plain("page", *words, launcher=os.path.join(prefix, "bin", "tessla"), env={"TESSLA_PROGRAM": ""})
        tried.ended("what is installed says where its page is", ended, 0, f"{path}\n", "")
        with open(path, "rb") as opened:
            tried.holds("which is the one that was packed", opened.read() == (pages or [None])[0])


def packaging(starts):
    write_files(starts)
    repository = committed(starts, "whole")
    made = is_reproducible(starts, repository)
    if starts.tried.failed:
        return
    prefix = os.path.join(starts.room, "installed")
    repository.start("install", prefix)
    own = archive_has_all(starts, made, prefix)
    licenses_are_there(starts, own, re.fullmatch(ARCHIVE, sorted(made)[1])[1])
    files = debian_is_right(starts, made, own)
    started = ("/bin/", "/libexec/tessla/tessla", "/libexec/tessla/words/", "/libexec/tessla/messages")
    folder = os.path.join(starts.room, "unpacked here")
    unpacked(own, folder, started)
    runs(starts, "the archive", folder)
    folder = os.path.join(starts.room, "of Debian")
    unpacked({it[2:]: data for it, data in files.items()}, folder, started)
    runs(starts, "the package", os.path.join(folder, "usr"))
    installed_by_dpkg(starts, made)
    refuses(starts, repository)
    outputs_that_fail(starts, repository)
    interrupts(starts, repository)
    names_what_changed(starts, repository)
    has_the_page(starts)
