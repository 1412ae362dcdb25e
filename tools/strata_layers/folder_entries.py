"""Reads a folder as entries, in the order of names: each directory before what is in it, and with
that before the next.

No link is followed, and nothing is trusted twice: what is found at a name has to be the file that
was found there first, as large and as old, when its data are read and when all of them were; and so
have directories at the end. Names and what is said of them are held, and as many directories are
open as a path has.
"""
import errno
import os
import stat
import struct

from strata_format.files import READING, data_parts
from strata_format.image_part import ROOM
from strata_format.progress import unheard
from strata_format.refused import BadEntry, Refused
from strata_format.romfs import NAMES_MOST, path_text
from strata_format.trailer import SECOND
from strata_layers import attributes, entries, overlay
from strata_layers.entries import MARKER, OPAQUE, Entry

DIRECTORIES = READING | os.O_DIRECTORY
OPEN_FILES = b"/proc/self/fd"
NO_ROOM = (errno.ENOSPC, errno.EDQUOT, errno.EFBIG)
# faults of what was there before
GONE = (errno.ENOENT, errno.ELOOP, errno.ENOTDIR, errno.ENXIO, errno.ENODATA)
KINDS = {stat.S_IFDIR: entries.DIRECTORY, stat.S_IFREG: entries.FILES[0],
         stat.S_IFLNK: entries.SYMBOLIC, stat.S_IFCHR: entries.CHARACTER,
         stat.S_IFBLK: entries.BLOCK_DEVICE, stat.S_IFIFO: entries.FIFO,
         stat.S_IFSOCK: entries.SOCKET}
# which file it is, how large, and when it and what is said of it were last changed
SEEN = struct.Struct("=2Q3q")


def seen(found):
    return SEEN.pack(found.st_dev, found.st_ino, found.st_size, found.st_mtime_ns,
                     found.st_ctime_ns)


class Place:
    """A directory of the folder, as it was seen first."""

    __slots__ = ("above", "name", "depth", "seen")

    def __init__(self, above, name, found):
        self.above, self.name, self.seen = above, name, seen(found)
        self.depth = 0 if above is None else above.depth + 1

    def path(self, *names):
        """The path of names in it, from the folder down."""
        found, at = list(names), self
        while at.above is not None:
            found.insert(0, at.name)
            at = at.above
        return tuple(found)


class File:
    """The data of a file, which are read when the image has a place for them."""

    __slots__ = ("folder", "place", "name", "seen", "size")

    def __init__(self, folder, place, name, found):
        self.folder, self.place, self.name = folder, place, name
        self.seen, self.size = seen(found), found.st_size

    def copy(self, part):
        """Appends the data to a part of an image."""
        try:
            number = os.open(self.name, READING, dir_fd=self.folder.opened(self.place))
            try:
                self.copy_open(number, part)
            finally:
                os.close(number)
        except OSError as fault:
            raise self.folder.fault(fault, self.place, self.name) from None

    def copy_open(self, number, part):
        found = os.fstat(number)
        if seen(found) == self.seen:
            begin = part.at
            copy_data(number, found, part, self.folder.heard)
            if part.at - begin == self.size and seen(os.fstat(number)) == self.seen:
                return
        raise changed(self.place.path(self.name))


def copy_data(number, found, part, heard):
    """Appends the data of an open file to a part of an image, with its holes; `heard` gets how many
    bytes."""
    size, at = found.st_size, 0
    if size <= ROOM:
        part.put(os.read(number, size))
    elif found.st_blocks * 512 >= size:
        at = part.put_file(number, 0, size, heard)
    else:
        for start, end in data_parts(number, size):
            part.put_hole(start - at)
            heard(start - at)
            at = start + part.put_file(number, start, end - start, heard)
        part.put_hole(size - at)
    heard(size - at)


def changed(path):
    return Refused("%s: was changed while it was read" % path_text(path))


class Folder:
    """An open folder, which the words `name` mean. `is_upper` says that it is the upper one of a
    mount of overlayfs; `own` is an open file that must not be in it."""

    def __init__(self, number, name, own, is_upper=False, heard=unheard):
        if not os.path.isdir(OPEN_FILES):
            raise Refused("/proc is not mounted, and extended attributes are read through it")
        self.name, self.is_upper, self.heard = os.fsencode(name), is_upper, heard
        found = os.fstat(own.fileno())
        self.own = found.st_dev, found.st_ino
        self.root = Place(None, b"", os.fstat(number))
        # the directories that are open, each within the one before; all; the first paths of files
        # of many names; and the bytes of files
        self.way, self.places, self.linked = [(self.root, number)], [self.root], {}
        self.size = 0

    # --- open directories ---

    def opened(self, place):
        """The number of an open directory. Those above it stay open, too."""
        if self.way[-1][0] is place:
            return self.way[-1][1]
        closed, at = [], place
        while at.depth >= len(self.way) or self.way[at.depth][0] is not at:
            closed.append(at)
            at = at.above
        self.close(at.depth + 1)
        for it in reversed(closed):
            self.way.append((it, os.open(it.name, DIRECTORIES, dir_fd=self.way[-1][1])))
            if seen(os.fstat(self.way[-1][1])) != it.seen:
                raise changed(it.path())
        return self.way[-1][1]

    def close(self, depth=1):
        """Closes what is open from a depth on; never the folder itself."""
        while len(self.way) > depth:
            os.close(self.way.pop()[1])

    def check(self):
        """Sees that no directory was changed since it was read."""
        if seen(os.fstat(self.way[0][1])) != self.root.seen:
            raise changed(())
        for place in self.places[1:]:
            if seen(self.look(place.above, place.name)) != place.seen:
                raise changed(place.path())

    # --- what is there ---

    def fault(self, fault, place, name):
        """What a fault of the system means: where something has gone, it was changed. That there
        is no room is a fault of the image."""
        if fault.errno in GONE:
            return changed(place.path(name))
        if fault.errno in NO_ROOM:
            return fault
        where = os.path.join(self.name, *place.path(name))
        return OSError(fault.errno, fault.strerror, where)

    def look(self, place, name):
        try:
            return os.stat(name, dir_fd=self.opened(place), follow_symlinks=False)
        except OSError as fault:
            raise self.fault(fault, place, name) from None

    def names(self, place):
        """The names in a directory, in order."""
        try:
            return iter(sorted(map(os.fsencode, os.listdir(self.opened(place)))))
        except OSError as fault:
            raise self.fault(fault, place.above or place, place.name) from None

    def attributes(self, place, name):
        """A file's extended attributes by their names, in order."""
        try:
            return attributes.of_file(self.link_to(place, name))
        except OSError as fault:
            raise self.fault(fault, place, name) from None

    def link_to(self, place, name):
        """A path that leads through the open directory, for calls that take no directory."""
        return b"%s/%d/%s" % (OPEN_FILES, self.opened(place), name)

    # --- entries ---

    def entries(self, faults):
        """Paths, and the entries at them. What is wrong with one of them is noted."""
        yield from self.standing((), self.root, b".", os.fstat(self.way[0][1]), faults)
        todo = [((), self.root, self.names(self.root))]
        while todo:
            above, place, names = todo[-1]
            name = next(names, None)
            if name is None:
                todo.pop()
                continue
            path, found = (*above, name), self.look(place, name)
            yield from self.standing(path, place, name, found, faults)
            if stat.S_ISDIR(found.st_mode) and len(path) <= NAMES_MOST:
                below = Place(place, name, found)
                self.places.append(below)
                todo.append((path, below, self.names(below)))

    def standing(self, path, place, name, found, faults):
        """What stands at a path: an entry; and of an upper folder what it says of layers below."""
        try:
            yield from self.read(path, place, name, found)
        except BadEntry as refused:
            faults.note(refused)

    def read(self, path, place, name, found):
        if (found.st_dev, found.st_ino) == self.own:
            raise Refused("the image must be outside the folder that it is made from")
        there = self.attributes(place, name)
        marks, there = overlay.parted(there) if self.is_upper else ({}, there)
        if self.is_upper:
            overlay.check(path, marks)
            if overlay.is_whiteout(found, marks):
                yield (*path[:-1], MARKER + name), Entry(entries.FILES[0], name)
                return
        yield path, self.entry(path, place, name, found, there)
        if stat.S_ISDIR(found.st_mode) and marks.get("opaque") == b"y":
            yield (*path, OPAQUE), Entry(entries.FILES[0], OPAQUE)

    def entry(self, path, place, name, found, there):
        """The entry of a file, which has these extended attributes."""
        key, is_folder = (found.st_dev, found.st_ino), stat.S_ISDIR(found.st_mode)
        if found.st_nlink > 1 and not is_folder and self.linked.setdefault(key, path) != path:
            return Entry(entries.HARD, name, b"/".join(self.linked[key]))
        entry = Entry(KINDS[stat.S_IFMT(found.st_mode)], name)
        entry.mode, entry.uid, entry.gid = stat.S_IMODE(found.st_mode), found.st_uid, found.st_gid
        entry.time, entry.attributes = divmod(found.st_mtime_ns, SECOND), there
        if stat.S_ISREG(found.st_mode):
            entry.size, entry.data = found.st_size, File(self, place, name, found)
            self.size += entry.size
        elif stat.S_ISLNK(found.st_mode):
            entry.link = self.target(place, name)
        elif found.st_rdev:
            entry.major, entry.minor = os.major(found.st_rdev), os.minor(found.st_rdev)
        return entry

    def target(self, place, name):
        try:
            return os.readlink(name, dir_fd=self.opened(place))
        except OSError as fault:
            raise self.fault(fault, place, name) from None
