"""What crates.txt says: the crates of the repository, what each of them stands on, and which of these belong to the program."""

PROGRAM = "tessla"


def crates_of(text):
    """The lines of crates.txt, by the name of the crate, and what each of these stands on."""
    lines, uses = {}, {}
    for line in text.splitlines():
        line = line.partition("#")[0].rstrip()
        head, colon, below = line.partition(":")
        if colon and head.split():
            name = head.split()[0]
            lines[name], uses[name] = line, below.split()
    return lines, uses


def needed(uses):
    """The program's crate and all that it stands on."""
    found, left = set(), [PROGRAM]
    while left:
        name = left.pop()
        if name in uses and name not in found:
            found.add(name)
            left.extend(uses[name])
    return found


def of_kit(uses):
    """The libraries of the kit that these crates of the program stand on."""
    return sorted({below for name in needed(uses) for below in uses[name]} - uses.keys())
