"""The first of the program's words that is wrong: what it is, and what was meant."""

import os
import re

from .source import nearest, short

COMMANDS = ("run", "check", "flat", "slice", "why", "show", "code", "compile", "exec", "gen", "bench")
# Those that run something on a trace.
RUNS = ("run", "exec")
# What stands after the specification, of the commands that take further words: the name of each, what it is, and what it stands after.
FURTHER = {
    "slice": (("NAME", "the name of an output", "the specification"),),
    "why": (("TRACE", "a trace", "the specification"), ("NAME", "the name of an output", "the trace"), ("TIME", "a time", "the output")),
    "compile": (("FILE", "the name of a file to be made", "the specification"),),
}
# Options of the program that take a value, and the least and the greatest of these.
RANGES = {"--until": (0, 2**63 - 1), "--instants": (1, 10**12), "--bytes": (1, 2**40)}
FLAGS = ("--strict", "--stats")
# Those that take the name of a file, and those that do not stand beside them, with the reason.
FILES = ("--save", "--resume")
APART = {
    "--save": (("--until",), "a run that is saved closes nothing at its end"),
    "--resume": (("--strict", "--instants", "--bytes"), "a run that goes on keeps those that it began with"),
}
OPTIONS = (*RANGES, *FLAGS, *FILES)
# The options that each command has which has some.
OPTIONS_OF = {**dict.fromkeys(RUNS, OPTIONS), "why": ("--instants", "--bytes", "--strict")}
TIMES = (0, 2**63 - 1)
KINDS = ("seen", "copy")
LINES = (1, 1_000_000)


def wrong(words, further):
    """What is wrong and the command that is meant, if one is, or None: of the words, and the names of what the launcher does itself."""
    if not words:
        return None
    command, rest = words[0], words[1:]
    if command not in COMMANDS:
        return of_command(command, further)
    if any(not it for it in rest):
        return f"{command} has an empty word", command
    found = of_trace(command, rest) if command in ("gen", "bench") else of_names(command, rest)
    return (found, command) if found else None


def of_command(command, further):
    if command.startswith("-"):
        name = command.split("=")[0]
        if name in OPTIONS:
            return f"{name} stands after the command: tessla run SPEC {name}", "run"
        return f"{quoted(command)} is no command; the first word is a command, such as run", None
    if os.path.isfile(command):
        return f"{quoted(command)} is a file and no command: tessla run SPEC, or tessla check SPEC", "run"
    near = nearest(command, (*COMMANDS, *further, "help"))
    return f"there is no command {quoted(command)}" + (f"; the nearest is {near}" if near else ""), near


def of_trace(command, rest):
    names = rest[1:] if rest[:1] == ["--"] else rest
    if not names:
        return f"{command} needs a kind, seen or copy, and a number of lines"
    if names[0] not in KINDS:
        near = nearest(names[0], KINDS)
        return f"{quoted(names[0])} is no kind: it is seen or copy" + (f"; the nearest is {near}" if near else "")
    if len(names) < 2:
        return f"{command} {names[0]} needs a number of lines, from 1 to 1000000"
    return of_number("the number of lines", names[1], *LINES) or more_than(command, names, 2)


def of_names(command, rest):
    """Words with names of files and, where something is run, options."""
    names, seen, left = [], set(), list(rest)
    while left:
        word = left.pop(0)
        if word == "--":
            names += left
            break
        if word.startswith("-") and word != "-" and not word.startswith("--"):
            return f"{of_dash(word)}, and after -- all words are names"
        if not word.startswith("--"):
            names.append(word)
            continue
        name, has_value, value = word.partition("=")
        found = of_option(command, name, seen) or of_value(name, has_value, value, left)
        if found:
            return found
        seen.add(name)
    return of_pairs(seen) or of_number_of_names(command, names)


def of_number_of_names(command, names):
    if not names and command == "exec":
        return "exec needs the name of a file that compile has made, FILE, or - for the standard input"
    if not names:
        return f"{command} needs the name of a specification, SPEC, or - for the standard input"
    further = FURTHER.get(command, ())
    if len(names) <= len(further):
        name, what, before = further[len(names) - 1]
        return f"{command} needs {what} after {before}, {name}"
    if command == "why":
        return more_than(command, names, 4) or of_number("the time", names[3], *TIMES)
    return more_than(command, names, 2 if command in RUNS else 1 + len(further))


def of_option(command, name, seen):
    options = OPTIONS_OF.get(command, ())
    if not options:
        return f"{command} takes no options, and {quoted(name)} stands there; after -- all words are names"
    if command == "why" and name == "--until":
        return "why has no option `--until`: the end of the trace closes the times up to its last line's, and a later line TIME: closes more"
    if name not in options:
        near = nearest(name, options)
        return f"{command} has no option {quoted(name)}" + (f"; the nearest is {near}" if near else "; after -- all words are names")
    return f"{name} stands twice" if name in seen else None


def of_dash(word):
    return f"{quoted(word)} begins with a dash, and is no name so: {quoted(os.path.join(os.curdir, word))} is"


def of_file(name, value, is_joined):
    if not value:
        return f"{name} has an empty name"
    return of_dash(value) if value.startswith("-") and value != "-" and not is_joined else None


def of_value(name, has_value, value, left):
    """What is wrong with the value of an option, which stands behind its name or is taken from the words that are left."""
    if name in FLAGS:
        return f"{name} takes no value" if has_value else None
    if not has_value and not left:
        return f"{name} needs {'the name of a file' if name in FILES else 'a number'} after it"
    value = value if has_value else left.pop(0)
    return of_file(name, value, has_value) if name in FILES else of_number(name, value, *RANGES[name])


def of_pairs(seen):
    """What is wrong with options that stand beside each other."""
    apart = ((name, other, why) for name, (others, why) in APART.items() for other in others)
    return next((f"{other} does not stand beside {name}: {why}" for name, other, why in apart if name in seen and other in seen), None)


def of_number(what, text, least, most):
    if not re.fullmatch("[0-9]+", text):
        return f"{what} takes a number of digits alone, and {quoted(text)} is none"
    if not least <= int(text[-40:]) <= most or len(text.lstrip("0")) > 40:
        return f"{what} is from {least} to {most}, and {quoted(text)} is not"
    return None


def more_than(command, names, most):
    return f"{quoted(names[most])} is one word too many for {command}" if len(names) > most else None


def quoted(word):
    return f"`{short(word)}`"
