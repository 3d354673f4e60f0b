"""What is laid out below a prefix of the repository and its program: each place with what goes there. `install` puts it there, `package` packs it."""

import os
import re
import subprocess
import sys
import tempfile

DOCUMENTS, LIBRARY = "share/doc/tessla", "libexec/tessla"
VIM, VSCODE = "share/vim/vimfiles", "share/tessla/vscode"

# Each place below the prefix, and what goes there.
FILES = (
    ("share/man/man1/tessla.1", "man/tessla.1"),
    ("share/man/man1/log2trace.1", "man/log2trace.1"),
    ("share/man/man1/trace2.1", "man/trace2.1"),
    ("share/bash-completion/completions/tessla", "completions/tessla.bash"),
    ("share/zsh/site-functions/_tessla", "completions/_tessla"),
    ("share/fish/vendor_completions.d/tessla.fish", "completions/tessla.fish"),
    (f"{DOCUMENTS}/LICENSE", "LICENSE"),
    (f"{DOCUMENTS}/README.md", "README.md"),
    (f"{DOCUMENTS}/LANGUAGE.md", "docs/LANGUAGE.md"),
    (f"{DOCUMENTS}/data/first.tsl", "data/first.tsl"),
    (f"{DOCUMENTS}/examples/README.md", "examples/README.md"),
)
# Further documents of a user, tools that are started by their name, and the packages of these, where they are there.
GUIDES = ("COMMANDS.md", "IN_PLACE.md", "FROM_TESSLA.md", "MACROS.md")
STARTED = ("log2trace", "trace2")
# What the launcher starts is a tool, or a file of tools/words. What is installed neither installs nor packs anything.
NOT_INSTALLED = ("install", "package")
PAGE = f"{DOCUMENTS}/page.html"
IMPORT = re.compile(r"^(?:from|import) (\w+)", re.M)
EXAMPLE = re.compile(r".*\.(?:tsl|trace|output|options|log|log2trace|svg)")


def read(file):
    with open(file, "rb") as opened:
        return opened.read()


def names_of(top, folder):
    """The names of the files in a folder of the repository."""
    path = os.path.join(top, folder)
    return sorted(it for it in os.listdir(path) if os.path.isfile(os.path.join(path, it))) if os.path.isdir(path) else []


def modules_of(top, tools):
    """The modules that stand beside the tools and that these import, or a module that they import."""
    found, left = [], list(tools)
    while left:
        with open(os.path.join(top, left.pop()), encoding="utf-8") as opened:
            for name in IMPORT.findall(opened.read()):
                module = f"tools/{name}.py"
                if module not in found and os.path.isfile(os.path.join(top, module)):
                    found.append(module)
                    left.append(module)
    return found


def editors_of(top):
    """The extension of VS Code is a folder; the folders of Vim stand in one."""
    for it in names_of(top, "highlighting"):
        yield f"{VSCODE}/{it}", f"highlighting/{it}", 0o644
    for kind in sorted(os.listdir(os.path.join(top, "highlighting", "vim"))):
        for it in names_of(top, f"highlighting/vim/{kind}"):
            yield f"{VIM}/{kind}/{it}", f"highlighting/vim/{kind}/{it}", 0o644


def places_of(top):
    """Each place below the prefix but those of the program and its launcher, with what goes there, and its mode."""
    words = [f"tools/words/{it}" for it in names_of(top, "tools/words") if it not in NOT_INSTALLED]
    tools = ["tools/messages", *words]
    started = [it for it in STARTED if os.path.isfile(os.path.join(top, "tools", it))]
    packages = [f"{it}_parts" for it in started]
    guides = [it for it in GUIDES if os.path.isfile(os.path.join(top, "docs", it))]
    places = [(place, file, 0o644) for place, file in FILES]
    places += editors_of(top)
    places += [(f"{DOCUMENTS}/{it}", f"docs/{it}", 0o644) for it in guides]
    places += [(f"{DOCUMENTS}/examples/{it}", f"examples/{it}", 0o644) for it in names_of(top, "examples") if EXAMPLE.fullmatch(it)]
    parts = [f"{at}/{it}" for at in packages for it in names_of(top, f"tools/{at}") if it.endswith(".py")]
    places += [(f"share/tessla/{it}", f"tools/{it}", 0o644) for it in parts]
    places += [(it.replace("tools", LIBRARY, 1), it, 0o755) for it in tools]
    parts = [f"tools/messages_parts/{it}" for it in names_of(top, "tools/messages_parts") if it.endswith(".py")]
    places += [(it.replace("tools", LIBRARY, 1), it, 0o644) for it in [*modules_of(top, tools), *parts]]
    return [*places, *((f"bin/{it}", f"tools/{it}", 0o755) for it in started)]


LINK = re.compile(r"\[([^\]\n]*)\]\(([^)#\s]+)(#[^)\s]*)?\)")


def document(text, file, place, top, places):
    """A document as it is installed. Its links lead to where their files are put, and a link to one that is not becomes plain text."""

    def moved(link):
        to = os.path.normpath(os.path.join(os.path.dirname(file), link[2]))
        if to in places:
            return f"[{link[1]}]({os.path.relpath(places[to], os.path.dirname(place))}{link[3] or ''})"
        return link[1] if to.endswith(".md") or os.path.exists(os.path.join(top, to)) else link[0]

    return LINK.sub(moved, text)


def page_of(top):
    """The page for the browser, or None: nothing is proved and compiled for it here."""
    with tempfile.TemporaryDirectory() as room:
        made = os.path.join(room, "page.html")
        words = [sys.executable, "-E", "-s", "-S", "-B", os.path.join(top, "tools", "page"), "--kept", made]
        ran = subprocess.run(words, stdin=subprocess.DEVNULL, capture_output=True, check=False)
        return read(made) if ran.returncode == 0 else None


def contents(launcher, program):
    """Each place below the prefix, with its bytes and its mode. The launcher comes last: what it starts is there then."""
    top = os.path.dirname(launcher)
    places = places_of(top)
    moved = {file: place for place, file, _ in places}
    for place, file, mode in places:
        data = read(os.path.join(top, file))
        if file.endswith(".md"):
            data = document(data.decode(), file, place, top, moved).encode()
        yield place, data, mode
    page = page_of(top)
    if page:
        yield PAGE, page, 0o644
    yield f"{LIBRARY}/tessla", read(program), 0o755
    yield "bin/tessla", read(launcher), 0o755
