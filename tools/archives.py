"""Archives whose bytes follow from what is put into them alone: owner root, one time for all, names in order, no name and no time of their own."""

import gzip
import io
import tarfile


def gzipped(data):
    packed = io.BytesIO()
    with gzip.GzipFile(filename="", mode="wb", compresslevel=9, fileobj=packed, mtime=0) as file:
        file.write(data)
    return packed.getvalue()


def folders_of(names):
    """The folders that these files stand in."""
    found = set()
    for name in names:
        while "/" in name:
            name = name.rpartition("/")[0]
            found.add(name)
    return found


def member(name, time, mode, size=None):
    """What an archive says of a file, or of a folder where there is no size."""
    info = tarfile.TarInfo(name)
    info.uid = info.gid = 0
    info.uname = info.gname = "root"
    info.mtime, info.mode = time, mode
    if size is None:
        info.type = tarfile.DIRTYPE
    else:
        info.size = size
    return info


def tar(files, time):
    """An archive of files, by their places, each with its bytes and its mode. Each folder stands before what is in it."""
    written = io.BytesIO()
    with tarfile.open(fileobj=written, mode="w", format=tarfile.USTAR_FORMAT) as archive:
        for name in sorted([*files, *folders_of(files)]):
            if name in files:
                data, mode = files[name]
                archive.addfile(member(name, time, mode, len(data)), io.BytesIO(data))
            else:
                archive.addfile(member(name, time, 0o755))
    return written.getvalue()


def ar(members, time):
    """An archive of the older kind, of names with their bytes, in this order."""
    written = b"!<arch>\n"
    for name, data in members:
        written += f"{name:<16}{time:<12}{0:<6}{0:<6}{'100644':<8}{len(data):<10}`\n".encode("ascii")
        written += data + b"\n" * (len(data) % 2)
    return written
