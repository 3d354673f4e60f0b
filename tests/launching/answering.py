"""The help, the manual page and the completions."""

import os
import re
import shutil

from starts import LAUNCHER, TOP, controls_in, environment
from talking import write_files

OPTIONS = ("--until", "--instants", "--bytes", "--strict", "--stats", "--save", "--resume")
COMMANDS = ("run", "check", "flat", "slice", "why", "show", "code", "compile", "exec", "gen", "bench")


def text_of(*names):
    with open(os.path.join(TOP, *names), encoding="utf-8") as opened:
        return opened.read()


def answers_at_once(starts):
    """Without the program these words are answered, and nothing is built."""
    tried = starts.tried
    usage = starts.plain("--help", program="/dev/null/absent")
    tried.holds("the help has the commands", b"tessla check SPEC" in usage.out and usage.status == 0, usage)
    tried.holds("the help has the words of tools/words", b"tessla install PREFIX" in usage.out, usage)
    for word in ("-h", "help"):
        tried.ended(word, starts.plain(word, program="/dev/null/absent"), 0, usage.out.decode(), "")
    version = re.search(r"^version=(.*)$", text_of("tessla"), re.M)[1]
    tried.ended("--version", starts.plain("--version", program="/dev/null/absent"), 0, f"tessla {version}\n", "")
    absent = starts.plain("run", "q.tsl", program="/dev/null/ab\033sent")
    tried.ended("a program that is not there", absent, 125, "")
    tried.holds("its name is visible", not controls_in(absent.err) and absent.err.count(b"\n") == 1, absent)
    page = text_of("man", "tessla.1")
    bash, zsh, fish = (text_of("completions", it) for it in ("tessla.bash", "_tessla", "tessla.fish"))
    for word in sorted(os.listdir(os.path.join(TOP, "tools", "words"))):
        found = [f"tessla {word} " in usage.out.decode(), f"\n.B tessla {word}\n" in page, f" {word} " in bash, f"'{word}:" in zsh, f"-a {word} " in fish]
        tried.holds(f"the help, the manual page and the completions have the word {word}", all(found), found)
    for word in COMMANDS:
        found = [f" tessla {word} " in usage.out.decode(), f"\n.B {word}\n" in page, f" {word} " in bash, f"'{word}:" in zsh, f"-a {word} " in fish]
        tried.holds(f"the help, the manual page and the completions have the command {word}", all(found), found)
    for option in OPTIONS:
        name = option[2:]
        found = [option in usage.out.decode(), f"\\-\\-{name}" in page, option in bash, option in zsh, f"-l {name}" in fish]
        tried.holds(f"the help, the manual page and the completions have {option}", all(found), found)
    if os.path.exists("/dev/full"):
        with open("/dev/full", "wb") as full:
            tried.ended("the help on a full device", starts.plain("--help", stdout=full, program="/dev/null/absent"), 5)
    else:
        tried.leave_out("/dev/full", can_be_had=False)


def folder_of_any_name(starts):
    """The name of the folder that the launcher stands in does nothing to a terminal."""
    folder = os.path.join(starts.room, "a\033]0;title\007\u009b2J folder")
    os.mkdir(folder)
    shutil.copyfile(LAUNCHER, os.path.join(folder, "tessla"))
    open(os.path.join(folder, "crates.txt"), "w", encoding="utf-8").close()
    ended = starts.start(["sh", os.path.join(folder, "tessla"), "--help"], env=environment(TESSLA_PROGRAM=starts.program))
    starts.tried.holds("the help names a folder visibly", ended.status == 0 and not controls_in(ended.out + ended.err), ended)


def kinds_of_the_manual_page(starts):
    """All kinds of the manual's tables stand in the manual page."""
    tried, page = starts.tried, text_of("man", "tessla.1")
    kinds = re.findall(r"^\| `([A-Z][A-Za-z]*)` \| ", text_of("docs", "LANGUAGE.md"), re.M)
    tried.holds("the manual has kinds", len(kinds) > 30)
    for kind in kinds:
        tried.holds(f"the manual page has {kind}", re.search(rf"\b{kind}\b", page))
    texts = re.findall(r"^\| `([a-zA-Z ]+)` \| ", text_of("docs", "LANGUAGE.md").partition("\n## Refused code files\n")[2].partition("\n## ")[0], re.M)
    tried.holds("the manual has the texts that refuse code", len(texts) == 5, texts)
    for text in texts:
        tried.holds(f"the manual page has {text}", re.search(rf'^\.BR "?{text}"? [,.]$', page, re.M))
    texts = re.findall(r"^\| `([a-zA-Z ]+)` \| ", text_of("docs", "LANGUAGE.md").partition("\n## Refused states\n")[2].partition("\n## ")[0], re.M)
    tried.holds("the manual has the texts that refuse states", sorted(texts) == ["other program", "wrong form"], texts)
    for text in texts:
        tried.holds(f"the manual page has {text} of a state", re.search(rf'^\.BR "{text}" [,.]$', page.partition("Texts of refused states:")[2], re.M))
    if tried.has("groff"):
        for name in sorted(os.listdir(os.path.join(TOP, "man"))):
            ended = starts.start(["groff", "-man", "-ww", "-Tascii", os.path.join(TOP, "man", name)])
            tried.holds(f"groff reads the manual page {name}", ended.status == 0 and not ended.err, ended)


# ---- Completions

BASH = '. "$1"; shift; COMP_WORDS=("$@"); COMP_CWORD=$(($# - 1)); _tessla; printf "%s\\0" "${COMPREPLY[@]}"'
# The functions that zsh's completion calls tell here what they are called with.
ZSH = """fpath=($1 $fpath); shift; autoload -Uz compinit && compinit -D -u; words=("$@"); CURRENT=$#
    _describe() { print -rl -- ${${(P)2}%%:*} }; compadd() { print -r -- "$@" }; _files() { print -r -- files "$@" }
    _arguments() { print -rl -- "$@" }; $_comps[tessla] | tr "\\n" " \""""
FISH = "source $argv[1]; complete -C $argv[2]"


def of_bash(starts, *words, folder=None):
    ended = starts.start(["bash", "-c", BASH, "-", os.path.join(TOP, "completions", "tessla.bash"), *words], cwd=folder or starts.room)
    return ended.out.decode("utf-8", "surrogateescape").split("\0")[:-1]


def completes_in_bash(starts):
    tried = starts.tried
    tried.holds("bash completes a command", of_bash(starts, "tessla", "ch") == ["check"])
    tried.holds("bash completes an option", of_bash(starts, "tessla", "run", "q.tsl", "--st") == ["--strict", "--stats"])
    tried.holds("bash completes a specification", of_bash(starts, "tessla", "check", "q") == ["q.tsl"])
    tried.holds("bash completes a specification of compile", of_bash(starts, "tessla", "compile", "q") == ["q.tsl"])
    tried.holds("bash completes a file to be made", of_bash(starts, "tessla", "compile", "q.tsl", "fault") == ["fault.trace"])
    tried.holds("bash completes an option of exec", of_bash(starts, "tessla", "exec", "q.code", "--st") == ["--strict", "--stats"])
    tried.holds("bash completes a file to be saved", of_bash(starts, "tessla", "run", "q.tsl", "--save", "fault") == ["fault.trace"])
    tried.holds("bash completes a state to go on from", of_bash(starts, "tessla", "exec", "q.code", "--resume", "fault") == ["fault.trace"])
    tried.holds("bash completes a state", of_bash(starts, "tessla", "state", "fault") == ["fault.trace"])
    tried.holds("bash completes the option of state", of_bash(starts, "tessla", "state", "x", "--") == ["--code"])
    tried.holds("bash completes a code file", of_bash(starts, "tessla", "exec", "fault") == ["fault.trace"])
    tried.holds("bash completes a specification of slice", of_bash(starts, "tessla", "slice", "q") == ["q.tsl"])
    tried.holds("bash completes no output", of_bash(starts, "tessla", "slice", "q.tsl", "q") in ([], [""]))
    tried.holds("bash completes a specification of why", of_bash(starts, "tessla", "why", "q") == ["q.tsl"])
    tried.holds("bash completes a trace of why", of_bash(starts, "tessla", "why", "q.tsl", "fault") == ["fault.trace"])
    tried.holds("bash completes no output of why", of_bash(starts, "tessla", "why", "q.tsl", "fault.trace", "q") in ([], [""]))
    tried.holds("bash completes an option of why", of_bash(starts, "tessla", "why", "q.tsl", "--") == ["--instants", "--bytes", "--strict"])
    tried.holds("bash completes the option of explain", of_bash(starts, "tessla", "explain", "q.tsl", "--a") == ["--all"])
    tried.holds("bash completes a kind", of_bash(starts, "tessla", "gen", "s") == ["seen"])
    tried.holds("bash completes a word of tools/words", of_bash(starts, "tessla", "li") == ["lint"])
    tried.holds("bash completes a specification of lint", of_bash(starts, "tessla", "lint", "q") == ["q.tsl"])
    tried.holds("bash completes the option of test", of_bash(starts, "tessla", "test", "x", "--") == ["--bless"])
    tried.holds("bash completes the option of picture", of_bash(starts, "tessla", "picture", "q.tsl", "--") == ["--svg"])
    tried.holds("bash completes no number", of_bash(starts, "tessla", "run", "--until", "1") in ([], [""]))
    folder = os.path.join(starts.room, "named")
    os.mkdir(folder)
    for name in ("*.tsl", "a.tsl", "b c.tsl", "[ab].tsl"):
        open(os.path.join(folder, name), "w", encoding="utf-8").close()
    found = of_bash(starts, "tessla", "check", "", folder=folder)
    tried.holds("bash completes names that look like patterns", sorted(found) == ["*.tsl", "[ab].tsl", "a.tsl", "b c.tsl"], found)
    found = of_bash(starts, "tessla", "run", "[", folder=folder)
    tried.holds("bash completes a name that is a pattern", found == ["[ab].tsl"], found)


def completes_in_zsh(starts):
    tried = starts.tried

    def completed(*words):
        return starts.start(["zsh", "-fc", ZSH, "-", os.path.join(TOP, "completions"), *words]).out.decode()

    words = "run check flat slice why show code compile exec gen bench state explain lint test picture page install package help -- --help --version "
    tried.holds("zsh completes a command", completed("tessla", "ch") == words)
    tried.holds("zsh completes an option", re.search("--strict.* --stats.*specification:", completed("tessla", "run", "q.tsl", "--st")))
    tried.holds("zsh completes a specification", completed("tessla", "check", "q") == "files -g *.tsl ")
    tried.holds("zsh completes a specification of compile", completed("tessla", "compile", "q") == "files -g *.tsl ")
    tried.holds("zsh completes a file to be made", completed("tessla", "compile", "q.tsl", "f") == "files ")
    tried.holds("zsh completes an option of exec", re.search("--strict.* --stats.*1:code file:.*2:trace:", completed("tessla", "exec", "q.code", "--st")))
    tried.holds("zsh completes files of both options", re.search("--save=.*:file:_files.* --resume=.*:state:_files", completed("tessla", "run", "q.tsl", "--st")))
    tried.holds("zsh completes a state", re.search("--code.*1:state:_files", completed("tessla", "state", "q")))
    tried.holds("zsh completes no code file of run", "code file" not in completed("tessla", "run", "q.tsl", "--st"))
    tried.holds("zsh completes a specification of slice", completed("tessla", "slice", "q") == "files -g *.tsl ")
    tried.holds("zsh completes no output", completed("tessla", "slice", "q.tsl", "q") == "")
    own = completed("tessla", "why", "q.tsl", "x", "--st")
    tried.holds("zsh completes all of why", re.search("--strict.*1:specification:.*2:trace:_files 3:output: 4:time:", own) and "--all" not in own, own)
    tried.holds("zsh completes the option of explain", re.search("--strict.*--all.*4:time:", completed("tessla", "explain", "q.tsl", "x", "--a")))
    tried.holds("zsh completes a kind", completed("tessla", "gen", "s") == "seen copy ")
    tried.holds("zsh completes a specification of lint", completed("tessla", "lint", "q") == "files -g *.tsl ")
    tried.holds("zsh completes a folder", re.search("--bless.*folder:", completed("tessla", "test", "q")))
    tried.holds("zsh completes the option of picture", re.search("--svg.*specification:", completed("tessla", "picture", "q")))
    tried.holds("zsh completes no number", completed("tessla", "gen", "seen", "1") == "")


def completes_in_fish(starts):
    tried, own = starts.tried, os.path.join(starts.room, "fish")

    def completed(line):
        words = ["fish", "--no-config", "-c", FISH, "--", os.path.join(TOP, "completions", "tessla.fish"), line]
        ended = starts.start(words, env=environment(XDG_CONFIG_HOME=own, XDG_DATA_HOME=own))
        return [it.split("\t")[0] for it in ended.out.decode().splitlines()]

    tried.holds("fish completes a command", completed("tessla ch") == ["check"])
    tried.holds("fish completes an option", completed("tessla run q.tsl --st") == ["--stats", "--strict"])
    tried.holds("fish completes a specification", completed("tessla check q") == ["q.tsl"])
    tried.holds("fish completes a specification of compile", completed("tessla compile q") == ["q.tsl"])
    tried.holds("fish completes a file to be made", "fault.trace" in completed("tessla compile q.tsl f"))
    tried.holds("fish completes an option of exec", completed("tessla exec q.code --st") == ["--stats", "--strict"])
    tried.holds("fish completes a file to be saved", "fault.trace" in completed("tessla run q.tsl --save f"))
    tried.holds("fish completes a state to go on from", "fault.trace" in completed("tessla exec q.code --resume f"))
    tried.holds("fish completes a state", "fault.trace" in completed("tessla state f"))
    tried.holds("fish completes the option of state", completed("tessla state x --c") == ["--code"])
    tried.holds("fish completes a code file", "fault.trace" in completed("tessla exec f"))
    tried.holds("fish completes a specification of slice", completed("tessla slice q") == ["q.tsl"])
    tried.holds("fish completes no output", completed("tessla slice q.tsl q") == [])
    tried.holds("fish completes a specification of why", completed("tessla why q") == ["q.tsl"])
    tried.holds("fish completes a trace of why", "fault.trace" in completed("tessla why q.tsl f"))
    tried.holds("fish completes an option of why", completed("tessla why q.tsl --st") == ["--strict"])
    tried.holds("fish completes the option of explain", completed("tessla explain q.tsl --a") == ["--all"])
    tried.holds("fish completes a kind", completed("tessla gen s") == ["seen"])
    tried.holds("fish completes a word of tools/words", completed("tessla li") == ["lint"])
    tried.holds("fish completes a specification of lint", completed("tessla lint q") == ["q.tsl"])
    tried.holds("fish completes the option of test", completed("tessla test x --b") == ["--bless"])
    tried.holds("fish completes the option of picture", completed("tessla picture q.tsl --") == ["--svg"])
    tried.holds("fish completes no number", completed("tessla gen seen ") + completed("tessla run --until ") == [])


def completes(starts):
    for shell, call in (("bash", completes_in_bash), ("zsh", completes_in_zsh), ("fish", completes_in_fish)):
        if starts.tried.has(shell):
            call(starts)


def shells_are_clean(starts):
    if starts.tried.has("shellcheck"):
        for name in ("tessla", os.path.join("completions", "tessla.bash")):
            shell = ["-s", "bash"] if name.endswith(".bash") else []
            ended = starts.start(["shellcheck", *shell, os.path.join(TOP, name)], limit=60)
            starts.tried.holds(f"shellcheck finds nothing in {name}", ended.status == 0, ended)


def answering(starts):
    write_files(starts)
    answers_at_once(starts)
    folder_of_any_name(starts)
    kinds_of_the_manual_page(starts)
    completes(starts)
    shells_are_clean(starts)
