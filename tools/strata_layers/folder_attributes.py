"""`attributes`: adds an attribute trailer to an image that genromfs made of a folder."""
import os
import stat

from strata_format import romfs, trailer
from strata_format.read_romfs import ReadImage
from strata_format.refused import Refused, shown
from strata_format.xattrs import part_of
from strata_layers.attributes import of_file, settled

KINDS = {romfs.DIRECTORY: stat.S_IFDIR, romfs.REGULAR: stat.S_IFREG, romfs.SYMLINK: stat.S_IFLNK,
         romfs.BLOCK: stat.S_IFBLK, romfs.CHARACTER: stat.S_IFCHR, romfs.SOCKET: stat.S_IFSOCK,
         romfs.FIFO: stat.S_IFIFO}
PIECE = 1 << 20


def said_by(found, mode):
    """What the row of a file of a mode says, by what the system says of that."""
    seconds, nanoseconds = divmod(found.st_mtime_ns, trailer.SECOND)
    mode = 0o777 if stat.S_ISLNK(found.st_mode) else mode
    return trailer.said(mode, found.st_uid, found.st_gid, seconds, nanoseconds)


class Names:
    """What stands in a folder."""

    def __init__(self, folder):
        there = set(os.listdir(folder))
        said = {name for name in there if name[:1] == b"@" and b"," in name}
        # the devices that genromfs makes of plain files, `@NAME,KIND,MAJOR,MINOR`; nothing here says what they are like
        self.devices = {name[1:].split(b",")[0] for name in said} - there
        self.files = there - said


class Reading:
    """An image, the folder that it was made of, and what is said of the one by the other."""

    def __init__(self, image, folder, lost):
        self.image, self.folder, self.lost, self.rows, self.lists = image, folder, lost, {}, {}

    def read(self):
        """What all rows say, by the offsets of headers."""
        todo = [((), self.image.root)]
        while todo:
            path, at = todo.pop()
            if at in self.rows:
                continue
            self.note(path, at)
            if self.image.is_folder(at):
                todo += self.below(path, self.image.members(at))
        return self.rows

    def below(self, path, members):
        """The paths of a folder's members that stand in the folder too, with the headers that they lead to."""
        names = Names(self.place(path))
        for name in sorted(names.files - {*members}):
            self.lost.note("members", shown(self.place((*path, name))))
        for name, header in members.items():
            end = self.image.end(header)
            if end is None:
                raise Refused("not a valid romfs image")
            if name not in names.devices:
                yield (*path, name), end

    def place(self, path):
        return os.path.join(self.folder, *path)

    def note(self, path, at):
        place = self.place(path)
        found, (_, kind, _, size) = os.lstat(place), self.image.header(at)
        if stat.S_IFMT(found.st_mode) != KINDS.get(kind):
            raise Refused("%s: is of another kind in the image" % shown(place))
        if kind == romfs.REGULAR and found.st_size != size:
            raise Refused("%s: has %d bytes, and %d in the image" % (shown(place), found.st_size, size))
        there = of_file(place)
        items, kept_bits, own_bits, lost = settled(there, self.lost.keeps)
        self.rows[at] = said_by(found, stat.S_IMODE(found.st_mode) & kept_bits | own_bits)
        lost = there if lost is None else lost
        if items:
            self.lists[at] = items
        if lost:
            self.lost.note_attributes(shown(place), lost)


def check_behind(number, full):
    """Sees that nothing but zeros and a trailer stand behind the full size of an image."""
    at = trailer.place_of(full)
    if os.pread(number, len(trailer.MAGIC), at) == trailer.MAGIC:
        return
    for data in iter(lambda: os.pread(number, PIECE, at), b""):
        if data.strip(b"\0"):
            raise Refused("something other than a trailer follows its full size")
        at += len(data)


def add_attributes(folder, path, lost):
    """Adds a trailer to the image at a path; how many rows it has."""
    with open(path, "r+b", 0) as file:
        try:
            image = ReadImage(file.fileno())
            check_behind(file.fileno(), image.full)
            reading = Reading(image, os.fsencode(folder), lost)
            rows = reading.read()
            lists = part_of([reading.lists.get(at, ()) for at in sorted(rows)])
            if trailer.end_of(image.full, len(rows)) + len(lists) > trailer.END_MOST:
                raise Refused("with its attributes it would be larger than %d bytes" % trailer.END_MOST)
        except Refused as refused:
            raise Refused("%s: %s" % (shown(os.fsencode(path)), refused)) from None
        lost.settle()
        trailer.write_trailer(file.fileno(), image.full, rows, reading.lists)
    return len(rows)
