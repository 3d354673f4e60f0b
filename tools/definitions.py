"""Reads files of definitions (crates/*/specs/**/*.antt), and finds what cites what.

A definition is an abbreviation with its equations, a record, a data type, or a function with a type and equations. It stands at the margin of
its file, or of the `module` or `mutual` block around it, and goes on to the next one at that margin. It cites another where one of its
words is the other's name, or a constructor or a field of it, as the file's imports have it. The words of a `module` line are those of all
that stands in the block. A parameter of a record, of a data type or of a block cites nothing where it has a field's name.

A form that isn't read, and a word with a dot, or with a capital in front, that is neither imported nor of the file nor a variable, fails with the file
and the line.

Types of the code (`declared`, `contracts`) stand under src/ of a crate. What stands in no crate of the folder is of a library.
"""

import os
import re
from dataclasses import dataclass, field

NAME = r"[^\s(){}\[\],;:.λ]+"
IMPORT = re.compile(r"^\s*(pub )?(?:ghost )?use ([\w.\-]+?)(?:\.\{([^}]*)\})?(?: as (\w+))?;?$")
# A line that goes on may begin with a changed record, as `record s { field = ..`.
HEAD = re.compile(rf"^(?:pub )?(?P<kind>abbrev|unfoldable|record|data)(?: pub)? (?P<name>{NAME})(?!\S)(?! \{{ \S+ = )")
SIGNATURE = re.compile(rf"^(?:pub )?(?P<name>{NAME}) :(?!\S)")
MUTUAL = re.compile(r"^(?:pub )?(?:(?:abbrev|unfoldable) )?mutual$")
MODULE = re.compile(r"^(?:pub )?module\b")
WORD = re.compile(rf"(?:\w+\.)?{NAME}")
PARAMETERS = re.compile(r"[({]([^(){}:]+?) :(?!\S)")
STRING = re.compile(r'"(?:[^"\\]|\\.)*"')
LAMBDA = re.compile(r"λ ([^.]*)\.(?!\S)")
USE = re.compile(r"^\s*(?:pub )?(?:ghost )?(?:use|open)\b")
NOT_READ = re.compile(r"«|\bderiving\b|\{-|-\}|/-|-/|/\*|\*/")
# What is no name of a definition, and what is there without an import.
KEYWORDS = {"abbrev", "unfoldable", "mutual", "pattern", "pub", "record", "data", "module", "deriving"}
BUILT_IN = {"Type", "Unit"}


class NotFound(Exception):
    """A name is cited that stands nowhere, or a list names what is not there."""


def without_comment(line):
    return re.sub(r"(?:^|\s)--.*$", "", line).rstrip()


def indent_of(line):
    return len(line) - len(line.lstrip())


def is_plain_import(line):
    return "." not in (IMPORT.match(line)[3] or "")


def is_one_line(name, text):
    """Whether a head is one of a form that is not read: a keyword is its name, or its parts stand on its line."""
    return name in KEYWORDS or " where " in text


def is_equation(name, text):
    """Whether a line at the margin goes on with a definition: an equation, its end, or how an operator binds."""
    operator = [part for part in name.split("◌") if part]
    return re.findall(NAME, text)[:1] == [name] or text == "}" or text.startswith(("infix", "unfolding ")) or "◌" in name and all(part in text for part in operator)


@dataclass(eq=False)
class Definition:
    """A definition of a file: its lines without comments, and the lines of the blocks around it."""

    file: "File"
    number: int
    kind: str
    name: str
    around: list
    text: list = field(default_factory=list)
    numbers: list = field(default_factory=list)

    def variables(self):
        """All names that its lines bind anywhere."""
        lines = [*self.around, *self.text]
        bound = [name for line in lines for names in PARAMETERS.findall(line) for name in names.split()]
        bound += [name for names in LAMBDA.findall(" ".join(lines)) for name in re.findall(NAME, names)]
        # A named argument, as `{R = order}`, and what a `let` binds.
        bound += re.findall(rf"(?:\{{|\blet )({NAME}) =(?!\S)", " ".join(lines))
        margin = indent_of(self.text[0])
        heads = [line.partition(" = ")[0] for line in self.text[1:] if indent_of(line) == margin]
        return {*bound, *(name for head in heads for name in re.findall(NAME, head))}

    def parts(self):
        """The names of its constructors, or of its fields."""
        if self.kind not in ("data", "record"):
            return []
        inner = [line for line in self.text[1:] if indent_of(line) > indent_of(self.text[0])]
        margin = min(map(indent_of, inner), default=0)
        names = []
        for line in (it for it in inner if indent_of(it) == margin):
            found = SIGNATURE.match(line.strip())
            if not found:
                raise self.file.not_read(self.numbers[self.text.index(line)], line)
            names.append(found["name"])
        return names

    def parameters(self):
        """The names of its parameters, and of those of the blocks around it. Those of a type's arrows bind in that type alone."""
        head = []
        if self.kind in ("data", "record"):
            end = next((number for number, line in enumerate(self.text) if line.endswith(" where")), 0)
            head = self.text[: end + 1]
        return {name for line in [*self.around, *head] for names in PARAMETERS.findall(line) for name in names.split()}


@dataclass
class Imports:
    """Names as (module, name there), modules by the word before a dot, and which of the names are handed on."""

    names: dict = field(default_factory=dict)
    modules: dict = field(default_factory=dict)
    public: set = field(default_factory=set)

    def take(self, line):
        """Takes an import, and says whether the line is one."""
        found = IMPORT.match(line)
        if not found:
            return False
        public, module, names, alias = found.groups()
        if names is None:
            self.modules[alias or module.rsplit(".", 1)[1]] = module
            return True
        for name in names.split(","):
            plain, _, other = name.strip().partition(" as ")
            self.names[other.strip() or plain] = (module, plain)
            if public:
                self.public.add(other.strip() or plain)
        return True


class File:
    """A file of definitions."""

    def __init__(self, crate, path):
        self.crate, self.path = crate, path
        self.imports, self.definitions, self.by_name = Imports(), [], {}
        self.blocks = []
        with open(path, encoding="utf-8") as file:
            for number, line in enumerate(map(without_comment, file), 1):
                if NOT_READ.search(STRING.sub("", line)):
                    raise self.not_read(number, line)
                if line and not self.imports.take(line):
                    self.take_line(number, line)
                elif USE.match(line) and not is_plain_import(line):
                    raise self.not_read(number, line)
        for definition in self.definitions:
            self.by_name.setdefault(definition.name, definition)
        for definition in self.definitions:
            for part in definition.parts():
                self.by_name.setdefault(part, definition)

    def not_read(self, number, line):
        return NotFound(f"{self.path}:{number}: {line.strip()!r} is not read")

    def take_line(self, number, line):
        indent, text = indent_of(line), line.strip()
        while self.blocks and indent < self.blocks[-1][0]:
            self.blocks.pop()
        margin = self.blocks[-1][0] if self.blocks else 0
        if indent == margin and (MODULE.match(text) or MUTUAL.match(text)):
            self.blocks.append((indent + 2, text if MODULE.match(text) else ""))
            return
        found = (HEAD.match(text) or SIGNATURE.match(text)) if indent == margin else None
        if found:
            around = [words for _, words in self.blocks if words]
            self.definitions.append(Definition(self, len(self.definitions), found.groupdict().get("kind") or "", found["name"], around))
        if not self.definitions:
            raise NotFound(f"{self.path}:{number}: no definition begins before {text!r}")
        last = self.definitions[-1]
        if USE.match(line) or (is_one_line(found["name"], text) if found else indent == margin and not is_equation(last.name, text)):
            raise self.not_read(number, line)
        last.text.append(line)
        last.numbers.append(number)


@dataclass
class Reached:
    """What is cited from some names on: definitions, types of the code as (crate, path), and names of libraries as (module, name)."""

    definitions: set = field(default_factory=set)
    code: set = field(default_factory=set)
    outside: set = field(default_factory=set)


class Library:
    """The crates of a folder."""

    def __init__(self, crates):
        self.crates, self.files = crates, {}

    def file(self, module):
        if module not in self.files:
            _, crate, *rest = module.split(".")
            path = os.path.join(self.crates, crate, *rest) + ".antt"
            if not os.path.isfile(path):
                raise NotFound(f"{module}: there is no file {path}")
            self.files[module] = File(crate, path)
        return self.files[module]

    def definition(self, module, name):
        """The definition of a name of a module, which may hand on another module's."""
        file = self.file(module)
        if name in file.by_name:
            return file.by_name[name]
        if name in file.imports.public:
            return self.definition(*file.imports.names[name])
        raise NotFound(f"{module}: no definition of {name}")

    def is_own(self, module):
        return os.path.isdir(os.path.join(self.crates, module.split(".")[1]))

    def code_type(self, module, name):
        """The crate and the path of a type of the code. Of a type's variants and constants that is the type."""
        _, crate, *parts = module.split(".")
        kind = "declared" if "declared" in parts else "contracts"
        path = [part for part in parts[parts.index(kind) + 1 :] if part not in ("TheVariants", "TheConstants")]
        if "TheConstants" in parts:
            path.append(name)
        if not self.is_declared(crate, path):
            raise NotFound(f"{module}: {'::'.join(path)} is not declared in the code of {crate}")
        return crate, "::".join(path)

    def is_declared(self, crate, path):
        declared = re.compile(rf"\b(?:struct|enum|trait|type|const|static) {re.escape(path[-1])}\b")
        for count in range(len(path), 0, -1):
            for end in (".rt", "/mod.rt"):
                file = os.path.join(self.crates, crate, "src", *path[:count]) + end
                if os.path.isfile(file):
                    with open(file, encoding="utf-8") as text:
                        return bool(declared.search(text.read()))
        return False

    def clauses(self, path, begin):
        """The names that the clauses of a function or of a trait cite, or the ghost lines of an impl, as (module, name)."""
        with open(os.path.join(self.crates, path), encoding="utf-8") as file:
            lines = file.read().split("\n")
        numbers = [number for number, line in enumerate(lines) if line.strip().startswith(begin)]
        if len(numbers) != 1:
            raise NotFound(f"{path}: {begin!r} stands there {len(numbers)} times")
        number = numbers[0]
        margin = " " * indent_of(lines[number])
        end = lines.index(margin + ("}" if begin.startswith(("impl", "pub trait")) else "{"), number)
        clauses, imports = [], Imports()
        for line in lines[:number]:
            imports.take(line)
        for line in lines[number + 1 : end]:
            if not imports.take(line) and not line.strip().startswith("//"):
                clauses.append(line)
        return [name for line in clauses for name in self.cited(line, imports, {}, None)]

    def cited(self, line, imports, own, module, bound=frozenset()):
        """The names that a line cites, as (module, name). A word before a dot may be a module or, of a record, a variable."""
        for word in WORD.findall(STRING.sub('""', line)):
            first, _, rest = word.partition(".")
            if rest and first in imports.modules:
                yield imports.modules[first], rest
                continue
            for name in {word, first, rest} - {""}:
                if name in bound and name != rest:
                    continue
                if name in own:
                    yield module, name
                elif name in imports.names:
                    yield imports.names[name]

    def cited_by(self, module, definition):
        file = definition.file
        numbers = [definition.numbers[0]] * len(definition.around) + definition.numbers
        known = {*file.imports.names, *file.imports.modules, *file.by_name, *definition.variables(), *BUILT_IN}
        for number, line in zip(numbers, [*definition.around, *definition.text]):
            for word in re.findall(rf"(?<!\.)(?<!\w){WORD.pattern}", STRING.sub('""', line)):
                first, _, rest = word.partition(".")
                if first not in known and (first[:1].isupper() or first.isidentifier() and rest):
                    raise NotFound(f"{file.path}:{number}: {word} is neither imported nor of the file")
            yield from self.cited(line, file.imports, file.by_name, module, definition.parameters())

    def is_of_code(self, module):
        return bool({"declared", "contracts"} & set(module.split(".")))

    def cited_here(self, definition):
        """The names that a definition cites, as (module, name). A variable may have the name of a field: that cites nothing."""
        text = "\n".join([*definition.around, *definition.text])
        for module, name in self.cited_by(self.module_of(definition), definition):
            if self.is_own(module) and not self.is_of_code(module):
                cited, field = self.definition(module, name), re.escape(name)
                if cited.kind == "record" and name != cited.name and not re.search(rf"\.{field}(?![^\s).,;])|[{{;]\s+{field} =", text):
                    continue
            yield module, name

    def own_cited_by(self, definition):
        """The definitions that a definition cites, with the names."""
        for module, name in self.cited_here(definition):
            if self.is_own(module) and not self.is_of_code(module):
                yield self.definition(module, name), name

    def reach(self, names):
        reached, seen, todo = Reached(), set(), list(names)
        while todo:
            module, name = todo.pop()
            if (module, name) in seen:
                continue
            seen.add((module, name))
            parts = module.split(".")
            if parts[0] != "Rattle":
                raise NotFound(f"{module}: a module within another one is not read")
            if not self.is_own(module):
                reached.outside.add((module, name))
            elif "declared" in parts or "contracts" in parts:
                reached.code.add(self.code_type(module, name))
            else:
                definition = self.definition(module, name)
                if definition not in reached.definitions:
                    reached.definitions.add(definition)
                    todo.extend(self.cited_here(definition))
        return reached

    def module_of(self, definition):
        path = os.path.relpath(definition.file.path, self.crates)[: -len(".antt")]
        return "Rattle." + path.replace(os.sep, ".")

    def reading_order(self, path):
        """The chapters of a page with the definitions that each names: in rows `| CRATE FILE | NAME, .. |`."""
        chapters = []
        with open(path, encoding="utf-8") as page:
            for line in page:
                if found := re.match(r"^## (?:\d+\. )?(.*)", line):
                    chapters.append((found[1][0].lower() + found[1][1:], []))
                elif found := re.match(r"^\| `(\w+)/specs/(\w+)\.antt` \| (.*) \|$", line):
                    module = f"Rattle.{found[1]}.specs.{found[2]}"
                    chapters[-1][1].extend((module, name.strip().strip("`")) for name in found[3].split(","))
        return [(title, places) for title, places in chapters if places]
