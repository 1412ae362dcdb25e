"""Installs what `make build` has made, or removes it: packaging/install.py PROGRAM DESTDIR PREFIX HELPERS [--remove]

Files go below DESTDIR/PREFIX. mount(8) seeks its helpers in HELPERS alone (/sbin): where the prefix is another, links to
them are made there. Where that may not be, or a helper stands there that is not this install's, as a package's is, this is
said. Nothing is proved or built.
"""
import os
import sys

import files

PYTHONS = ("/usr/bin/python3", os.path.realpath(sys.executable))
LINKS = ("mount.strata", "mount.fuse.strata")
# folders in which nothing but strata's own stands
OURS = (files.MODULES, "share/doc/strata", "share/doc/strata-snapshotter")


def write(place, entry):
    """Writes a file beside its place and renames it, so that nobody meets half of one, or a program that is busy."""
    beside = "%s.new-%d" % (place, os.getpid())
    if entry.link is not None:
        os.symlink(entry.link, beside)
    else:
        with open(os.open(beside, os.O_WRONLY | os.O_CREAT | os.O_EXCL, 0o600), "wb") as out:
            out.write(entry.data)
            os.fchmod(out.fileno(), entry.mode)
    os.replace(beside, place)


def make_folder(place):
    """Makes a folder, and those above it, which all may enter."""
    if not os.path.isdir(place):
        make_folder(os.path.dirname(place))
        os.mkdir(place)
        os.chmod(place, 0o755)


def helper_links(destdir, prefix, helpers):
    """The links in the folder where mount(8) seeks helpers, each with what it leads to."""
    if not helpers or prefix in ("/usr", "/") or os.path.realpath(os.path.join(prefix, "sbin")) == os.path.realpath(helpers):
        return []
    return [(destdir + helpers + "/" + name, os.path.join(prefix, "sbin", name)) for name in LINKS]


def is_ours(place, target):
    return os.path.islink(place) and os.readlink(place) == target


def held_links(links):
    """The links that may be made or removed: a helper that is not this install's is left as it is, and reported."""
    for place, target in links:
        if not os.path.lexists(place) or is_ours(place, target):
            yield place, target
        else:
            print("%s: is not of this install, and stays as it is" % place)


def install(found, top, links):
    for folder in files.folders(found):
        make_folder(os.path.join(top, folder))
    for entry in found:
        write(os.path.join(top, entry.path), entry)
    remove_modules(top, {entry.path for entry in found})
    for place, target in held_links(links):
        try:
            make_folder(os.path.dirname(place))
            write(place, files.Entry(place, 0o777, link=target))
        except OSError as fault:
            print("%s: %s; `mount -t strata` finds its helper only there" % (place, fault.strerror))


def remove_modules(top, kept=()):
    """Removes modules, compiled ones and those of an earlier strata too, but for those at paths that are kept."""
    for folder, _, names in os.walk(os.path.join(top, files.MODULES)):
        for place in (os.path.join(folder, name) for name in names if name.endswith((".py", ".pyc"))):
            if os.path.relpath(place, top) not in kept:
                os.unlink(place)


def remove(found, top, links):
    places = [os.path.join(top, entry.path) for entry in found]
    places += [place for place, _ in held_links(links)]
    for place in places:
        if os.path.lexists(place):
            os.unlink(place)
    remove_modules(top)
    for name in OURS:
        for folder, _, _ in os.walk(os.path.join(top, name), topdown=False):
            if not os.listdir(folder):
                os.rmdir(folder)


def main(program, destdir, prefix, helpers, *words):
    act = remove if words == ("--remove",) else install
    if act is remove:
        program = os.devnull
    else:
        files.hold_built(program)
    python = next(path for path in PYTHONS if os.path.exists(path))
    prefix = os.path.abspath(prefix)
    destdir = os.path.abspath(destdir) if destdir else ""
    found = [*files.entries(program, python), *files.snapshotter_entries(python)]
    act(found, destdir + prefix, helper_links(destdir, prefix, helpers))


if __name__ == "__main__":
    main(*sys.argv[1:])
