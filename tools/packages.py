"""The packages of a program, one to be unpacked anywhere and one of Debian: what stands in them beside what is installed, and their bytes."""

import hashlib

import elf
from archives import ar, folders_of, gzipped, tar
from layout import DOCUMENTS, LIBRARY
from putting import Failed

# The packages of Debian that have the libraries which the program may need.
PACKAGE_OF = {"libc.so.6": "libc6", "libm.so.6": "libc6", "ld-linux-x86-64.so.2": "libc6", "libgcc_s.so.1": "libgcc-s1"}
# Where Debian has something else than `install`.
MOVED = {"share/zsh/site-functions/_tessla": "share/zsh/vendor-completions/_tessla"}
MANUALS = "share/man/"
SUMS = f"{DOCUMENTS}/SHA256SUMS"

DESCRIPTION = """proved monitor for the stream language TeSSLa
 It reads a specification of streams of timestamped events and a trace of
 events, and writes the events that follow, up to the first fault. Each of its
 functions is proved to do what its contract says.
 .
 With python3 there are words that lint a specification and test a folder of
 them, causes and remedies below messages, log2trace, which makes traces of
 logs, and trace2, which draws them.
"""

OVERRIDES = """# The program is what was proved and tried, byte for byte.
tessla: unstripped-binary-or-object [usr/libexec/tessla/tessla]
# Documents have links to it.
tessla: extra-license-file [usr/share/doc/tessla/LICENSE]
"""

RULE = "-" * 78


def copyright_of(origin, kit, own):
    """What is said of the licenses: that of this repository, and all that the kit states for what the program is linked from."""
    by_text = {}
    for part, texts in kit.licenses.items():
        for name, text in texts.items():
            by_text.setdefault(text, []).append(f"{part} ({name})")
    commit = f"Made from the commit {origin.commit}\n" if origin.commit else ""
    said = [f"tessla {origin.version}\n{commit}Proved and built by the kit {kit.name}\n"]
    said += [f"\nAll of it is under this license, but for what follows:\n\n{own.strip()}\n"]
    said += [f"\n{RULE}\nThe program {LIBRARY}/tessla contains parts of that kit. The licenses that it states for them:\n"]
    said += [f"\n{RULE}\n{', '.join(names)}\n\n{text}\n" for text, names in by_text.items()]
    without = unlicensed(kit)
    if without:
        said += [f"\n{RULE}\nFor these parts the kit states no license, and no terms of its own either:\n{', '.join(without)}\n"]
    return "".join(said)


def unlicensed(kit):
    """The parts of the kit in the program for which it states no license, or for some of their files alone."""
    rows = []
    for part, texts in kit.licenses.items():
        if not texts:
            rows.append(part)
        elif all("/" in name for name in texts):
            rows.append(f"{part} (but for the files that are named above)")
    return rows


def origin_of(origin, kit, program):
    """The same for programs: a word and a value on each line."""
    rows = {"version": origin.version, "commit": origin.commit, "time": origin.date("%Y-%m-%dT%H:%M:%SZ"), "kit": kit.name}
    rows["program"] = hashlib.sha256(program).hexdigest()
    return "".join(f"{name} {value}\n" for name, value in rows.items() if value)


def with_sums(files):
    """These files, and the checksums of all of them in one more."""
    lines = (f"{hashlib.sha256(files[name][0]).hexdigest()}  {name}\n" for name in sorted(files))
    return {**files, SUMS: ("".join(lines).encode(), 0o644)}


class Packages:
    """The packages of what is laid out: by their places its files, each with its bytes and its mode."""

    def __init__(self, files, origin, kit):
        self.origin, program = origin, files[f"{LIBRARY}/tessla"][0]
        try:
            self.needs = elf.needs(program)
        except elf.NotReadable as error:
            raise Failed("the program is none of Linux of 64 bits") from error
        own = files[f"{DOCUMENTS}/LICENSE"][0].decode()
        self.files = {
            **files,
            f"{DOCUMENTS}/copyright": (copyright_of(origin, kit, own).encode(), 0o644),
            f"{DOCUMENTS}/ORIGIN": (origin_of(origin, kit, program).encode(), 0o644),
        }

    # ---- To be unpacked anywhere

    def archive(self):
        """Its name and its bytes."""
        folder = f"tessla-{self.origin.version}"
        files = {f"{folder}/{name}": it for name, it in with_sums(self.files).items()}
        return f"{folder}-linux-{self.needs.processor}.tar.gz", gzipped(tar(files, self.origin.time))

    # ---- Of Debian

    def depends(self):
        """What has to be there: nothing where the program is linked from nothing."""
        found = {}
        for library in self.needs.libraries:
            if library not in PACKAGE_OF:
                raise Failed(f"the program needs {library}, and it is not known which package has that")
            found[PACKAGE_OF[library]] = f" (>= {self.needs.versions['GLIBC']})" if library == "libc.so.6" and "GLIBC" in self.needs.versions else ""
        return ", ".join(f"{name}{version}" for name, version in sorted(found.items()))

    def files_of_debian(self):
        """The files where Debian has them. Pages of the manual are packed, and so is what says when it was made."""
        files = {MOVED.get(name, name): it for name, it in self.files.items()}
        for name in [it for it in files if it.startswith(MANUALS)]:
            data, mode = files.pop(name)
            files[f"{name}.gz"] = gzipped(data), mode
        files[f"{DOCUMENTS}/changelog.gz"] = gzipped(self.changelog().encode()), 0o644
        files["share/lintian/overrides/tessla"] = OVERRIDES.encode(), 0o644
        return {f"./usr/{name}": it for name, it in with_sums(files).items()}

    def changelog(self):
        made = f"the commit {self.origin.commit}" if self.origin.commit else "sources without a commit"
        head = f"tessla ({self.origin.version}) unstable; urgency=medium\n\n  * Made from {made}.\n"
        return f"{head}\n -- {self.origin.maintainer}  {self.origin.day_of_mail()}\n"

    def control(self, files):
        """What the package says of itself. Its size counts a block for each folder, and whole ones for a file."""
        blocks = len(folders_of(files)) + sum(-(-len(data) // 1024) for data, _ in files.values())
        rows = {"Package": "tessla", "Version": self.origin.version, "Architecture": self.needs.processor, "Maintainer": self.origin.maintainer}
        rows |= {"Installed-Size": blocks, "Depends": self.depends(), "Recommends": "python3 (>= 3.9)", "Section": "devel", "Priority": "optional"}
        return "".join(f"{name}: {value}\n" for name, value in rows.items() if value != "") + f"Description: {DESCRIPTION}"

    def debian(self):
        """Its name and its bytes."""
        files, time = self.files_of_debian(), self.origin.time
        sums = "".join(f"{hashlib.md5(data, usedforsecurity=False).hexdigest()}  {name[2:]}\n" for name, (data, _) in sorted(files.items()))
        said = {"./control": (self.control(files).encode(), 0o644), "./md5sums": (sums.encode(), 0o644)}
        packed = [("control.tar.gz", gzipped(tar(said, time))), ("data.tar.gz", gzipped(tar(files, time)))]
        name = f"tessla_{self.origin.version}_{self.needs.processor}.deb"
        return name, ar([("debian-binary", b"2.0\n"), *packed], time)
