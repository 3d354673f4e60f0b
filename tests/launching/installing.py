"""What `install` copies, and what it refuses."""

import os
import re
import stat

from repository import Repository
from starts import controls_in
from talking import explained, write_files

FAULT = "2: fault DivideByZero at 2:10\nq.tsl:2:10: DivideByZero\n    def q := 100 / i\n             ^\n"
FILES = (
    "share/man/man1/tessla.1",
    "share/bash-completion/completions/tessla",
    "share/zsh/site-functions/_tessla",
    "share/fish/vendor_completions.d/tessla.fish",
    "share/vim/vimfiles/syntax/tessla.vim",
    "share/vim/vimfiles/ftdetect/tessla.vim",
    "share/vim/vimfiles/ftplugin/tessla.vim",
    "share/vim/vimfiles/compiler/tessla.vim",
    "share/vim/vimfiles/autoload/tessla.vim",
    "share/tessla/vscode/package.json",
    "share/tessla/vscode/extension.js",
    "share/tessla/vscode/language-configuration.json",
    "share/tessla/vscode/tessla.tmLanguage.json",
    "share/man/man1/log2trace.1",
    "share/doc/tessla/LANGUAGE.md",
    "share/doc/tessla/README.md",
    "share/doc/tessla/LICENSE",
    "share/doc/tessla/examples/README.md",
    "share/doc/tessla/examples/seen.tsl",
    "share/doc/tessla/examples/left.options",
)
OF_REPOSITORY = "is a word of the repository alone, where the Rattle kit builds the program: what is installed does not have it\n"
DOCUMENTS = ("LANGUAGE.md", "README.md", "examples/README.md")


def lost_links(document):
    """The links of a document to a file that is not there, or to a heading that this file has not."""
    with open(document, encoding="utf-8") as opened:
        links = re.findall(r"\]\(([^)]*)\)", opened.read())
    lost = [] if links else ["no link at all"]
    for link in links:
        name, _, heading = link.partition("#")
        file = os.path.join(os.path.dirname(document), name) if name else document
        if not os.path.exists(file) or heading and heading not in headings(file):
            lost.append(link)
    return lost


def headings(file):
    with open(file, encoding="utf-8") as opened:
        found = re.findall(r"^#+ (.*)$", opened.read(), re.M)
    return [re.sub("[`:,.']", "", it).lower().replace(" ", "-") for it in found]


def modes(prefix):
    """The modes of all that was installed, by what they should be."""
    wrong = []
    for at, folders, files in os.walk(prefix):
        for name in [*folders, *files]:
            path = os.path.join(at, name)
            mode = stat.S_IMODE(os.lstat(path).st_mode)
            in_place = os.path.relpath(path, prefix)
            is_started = os.path.isdir(path) or in_place.startswith(("bin/", "libexec/")) and not name.endswith(".py")
            if mode != (0o755 if is_started else 0o644):
                wrong.append(f"{in_place} {mode:o}")
    return wrong


def installs(starts, repository):
    tried, prefix = starts.tried, os.path.join(starts.room, "a prefix")
    # A user's umask that lets nobody read is not that of what is installed.
    ended = starts.start(["sh", "-c", 'umask 077; exec "$0" "$@"', repository.launcher, "install", prefix], env=repository.environment())
    tried.holds("install", ended.status == 0 and not ended.out, ended)
    tried.holds("what is installed can be read by all, whatever the umask", not modes(prefix), *modes(prefix))
    for name in FILES:
        tried.holds(f"{name} is installed", os.path.isfile(os.path.join(prefix, name)) and os.path.getsize(os.path.join(prefix, name)))
    left = [it for _, _, files in os.walk(prefix) for it in files if it.startswith(".") or it.endswith(".new")]
    tried.holds("nothing else is left there", not left, *left)
    for name in DOCUMENTS:
        lost = lost_links(os.path.join(prefix, "share", "doc", "tessla", name))
        tried.holds(f"the links of the installed {name} lead somewhere", not lost, *lost)
    return prefix


def installed_works(starts, prefix):
    tried, launcher = starts.tried, os.path.join(prefix, "bin", "tessla")
    if not os.path.isfile(launcher):
        tried.holds("what is installed is there", False)
        return
    installed = {"TESSLA_PROGRAM": "", "TESSLA_TERMINAL": "1"}
    ended = starts.extras("run", "q.tsl", "fault.trace", launcher=launcher, env=installed)
    explained(starts, "what is installed", ended, 1, "1: q = 20\n", FAULT, "divisor")
    os.symlink(launcher, os.path.join(starts.room, "linked"))
    ended = starts.plain("run", "q.tsl", "fault.trace", launcher=os.path.join(starts.room, "linked"), env={"TESSLA_PROGRAM": ""})
    tried.ended("what is installed, through a link", ended, 1, "1: q = 20\n", "2: fault DivideByZero at 2:10\n")
    usage, own = starts.plain("--help", launcher=launcher, env={"TESSLA_PROGRAM": ""}), starts.plain("--help")
    starts.write("slip.tsl", "out 1.5 as x\n")
    ended = starts.extras("check", "slip.tsl", launcher=launcher, env=installed)
    tried.holds("what is installed has remedies of its own", ended.status == 3 and b"1500 thousandths" in ended.err, ended)
    tried.holds("the help of what is installed has the commands", b"tessla check SPEC" in usage.out, usage)
    for word in ("install", "package"):
        counts = [it.out.count(b"tessla %s " % word.encode()) for it in (usage, own)]
        tried.holds(f"it offers no {word}", counts == [0, 1], usage)
        ended = starts.plain(word, "x", launcher=launcher, env={"TESSLA_PROGRAM": ""})
        tried.ended(f"what is installed is asked to {word}", ended, 125, "", f"tessla: {word} {OF_REPOSITORY}")
    for words in ((), (os.path.join(starts.room, "none.html"),)):
        ended = starts.plain("page", *words, launcher=launcher, env={"TESSLA_PROGRAM": ""})
        said = "tessla: there is no page: it was not made before this was installed or packed\n"
        tried.ended(f"what is installed without a page says so ({len(words)})", ended, 125, "", said)
    ended = starts.start([os.path.join(prefix, "bin", "log2trace"), "csv", "--only", "door"], given=b"time,door,temp\n1,true,20.5\n")
    tried.ended("the installed log2trace", ended, 0, "1: door = true\n", "")
    os.rename(os.path.join(prefix, "libexec", "tessla", "tessla"), os.path.join(prefix, "gone"))
    ended = starts.plain("check", "q.tsl", launcher=launcher, env={"TESSLA_PROGRAM": ""})
    tried.holds("a program that is gone is told", ended.status == 125 and ended.err.startswith(b"tessla: "), ended)


def refused(starts, repository, what, prefix, says=b"", **how):
    ended = repository.start("install", prefix, **how)
    wrote = ended.err.startswith(b"tessla: ") and ended.err.count(b"\n") == 1 and not controls_in(ended.err)
    starts.tried.holds(f"{what} is refused, in one line", ended.status == 125 and not ended.out and wrote and says in ended.err, ended)


def follows_no_link(starts, repository):
    tried, victim = starts.tried, starts.write("victim", "of nobody else\n")
    os.chmod(victim, 0o600)

    def is_unharmed():
        with open(victim, encoding="utf-8") as opened:
            return opened.read() == "of nobody else\n" and stat.S_IMODE(os.stat(victim).st_mode) == 0o600

    prefix = os.path.join(starts.room, "linking")
    os.makedirs(os.path.join(prefix, "bin"))
    for name in ("tessla.new", "tessla", "log2trace"):
        os.symlink(victim, os.path.join(prefix, "bin", name))
    ended = repository.start("install", prefix)
    tried.holds("links in the place of files are replaced, and not followed", is_unharmed() and ended.status == 0, ended)
    tried.holds("what is installed is no link", not os.path.islink(os.path.join(prefix, "bin", "tessla")))
    # Where `..` leads to after a link.
    os.makedirs(os.path.join(starts.room, "far", "below"))
    os.symlink(os.path.join("far", "below"), os.path.join(starts.room, "near"))
    ended = repository.start("install", os.path.join(starts.room, "near", "..", "prefix"))
    is_there = os.path.exists(os.path.join(starts.room, "far", "prefix", "bin", "tessla"))
    is_nowhere_else = not os.path.exists(os.path.join(starts.room, "prefix"))
    tried.holds("a prefix through a link and up", ended.status == 0 and is_there and is_nowhere_else, ended)
    for name in ("bin", "libexec/tessla", "share/doc"):
        prefix = os.path.join(starts.room, f"linked {name.replace('/', ' ')}")
        elsewhere = f"{prefix} elsewhere"
        os.makedirs(elsewhere)
        os.makedirs(os.path.dirname(os.path.join(prefix, name)))
        os.symlink(elsewhere, os.path.join(prefix, name))
        refused(starts, repository, f"a link in the place of the folder {name}", prefix, b" is a link\n")
        tried.holds(f"nothing is put where that link leads ({name})", not os.listdir(elsewhere), os.listdir(elsewhere))
    real = os.path.join(starts.room, "real prefix")
    os.mkdir(real)
    os.symlink(real, os.path.join(starts.room, "prefix by name"))
    ended = repository.start("install", os.path.join(starts.room, "prefix by name"))
    tried.holds("the prefix itself may be a link", ended.status == 0 and os.path.isfile(os.path.join(real, "bin", "tessla")), ended)


def refuses(starts, repository):
    refused(starts, repository, "a file in the place of the prefix", starts.write("file", ""))
    refused(starts, repository, "a hostile name", os.path.join(starts.room, "file", "\033]0;title\007\u009b"))
    refused(starts, repository, "no folder", "")
    for name in ("bin/tessla", "libexec/tessla/tessla", "share/man/man1/tessla.1"):
        prefix = os.path.join(starts.room, f"folder {name.replace('/', ' ')}")
        os.makedirs(os.path.join(prefix, name))
        refused(starts, repository, f"a folder in the place of {name}", prefix, b" is a folder\n")
    prefix = os.path.join(starts.room, "file bin")
    os.makedirs(prefix)
    open(os.path.join(prefix, "bin"), "w", encoding="utf-8").close()
    refused(starts, repository, "a file in the place of a folder", prefix)
    for words in ([], ["a", "b"]):
        ended = repository.start("install", *words)
        starts.tried.holds(f"install with {len(words)} words", ended.status == 125 and ended.err.startswith(b"tessla: install"), ended)
    starts.tried.holds("nothing is made for these", not os.path.exists(os.path.join(starts.room, "a")))
    # What a test has left in the environment is not what is proved here.
    prefix = os.path.join(starts.room, "leaked")
    ended = repository.start("install", prefix, env={"TESSLA_PROGRAM": starts.script("leaked.program", "exit 0")})
    leaked = os.path.join(prefix, "libexec", "tessla", "tessla")
    starts.tried.holds("a program that the environment names is not installed", ended.status == 125 and not os.path.exists(leaked), ended)


def starts_what_it_installed(starts):
    """What does not start is no success."""
    for name, text in (("silent", "exit 0"), ("failing", "echo ok 1 0; exit 3"), ("killed", "kill -9 $$")):
        repository = Repository(starts, f"install.{name}", made=starts.script(f"{name}.program", text))
        refused(starts, repository_built(repository), f"a program that does not start ({name})", os.path.join(starts.room, f"of.{name}"))


def repository_built(repository):
    """The repository, once its program is built, so that a later start says nothing of that."""
    repository.start("run")
    return repository


def installing(starts):
    write_files(starts)
    repository = repository_built(Repository(starts, "whole", made=starts.program))
    prefix = installs(starts, repository)
    installed_works(starts, prefix)
    follows_no_link(starts, repository)
    refuses(starts, repository)
    starts_what_it_installed(starts)
