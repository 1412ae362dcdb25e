"""Makes a tar of what is installed: packaging/dist.py PROGRAM FOLDER. The same commit and program give the same bytes.

    tar xf strata-1.0.0-x86_64.tar.gz --strip-components=1 -C /usr/local
"""
import gzip
import io
import os
import platform
import sys
import tarfile

import files

PYTHON = "/usr/bin/python3"


def member(name, mode, moment):
    it = tarfile.TarInfo(name)
    it.mode, it.mtime, it.uname, it.gname = mode, moment, "root", "root"
    return it


def add(out, front, entry, moment):
    it = member(front + entry.path, entry.mode, moment)
    if entry.link is not None:
        it.type, it.linkname = tarfile.SYMTYPE, entry.link
        out.addfile(it)
    else:
        it.size = len(entry.data)
        out.addfile(it, io.BytesIO(entry.data))


def packed(found, front, moment):
    """The bytes of the archive."""
    held = io.BytesIO()
    with tarfile.open(fileobj=held, mode="w", format=tarfile.USTAR_FORMAT) as out:
        for folder in ["", *files.folders(found)]:
            it = member(front + folder, 0o755, moment)
            it.type = tarfile.DIRTYPE
            out.addfile(it)
        for entry in found:
            add(out, front, entry, moment)
    return gzip.compress(held.getvalue(), 9, mtime=moment)


def main(program, folder):
    files.hold_built(program)
    name = "strata-%s-%s" % (files.version(), platform.machine())
    path = os.path.join(folder, name + ".tar.gz")
    found = sorted([*files.entries(program, PYTHON), *files.snapshotter_entries(PYTHON)])
    with open(path, "wb") as out:
        out.write(packed(found, name + "/", files.moment()))
    print(path)


if __name__ == "__main__":
    main(*sys.argv[1:])
