"""The maker of images: of a folder, of an archive of tar, and of a layer.

    lost = Lost()
    folder = open_folder("tree")
    image_of_folder(folder, out, lost)      out: a new file, open for writing and reading
    for line in lost.lines(): ..            what the image doesn't hold

Whiteouts are OCI's files `.wh.NAME` and `.wh..wh..opq`, which stand in the image as they are. What
an image can't hold is reported for up to ten entries, or left out on request.
"""
from strata_format import romfs
from strata_format.image import Image
from strata_format.progress import unheard
from strata_format.refused import BadEntry, Faults, NotHeld, Refused, shown
from strata_format.romfs import path_text
from strata_layers import entries
from strata_layers.attributes import settled
from strata_layers.entries import MARKER, said_by
from strata_layers.folder_entries import Folder

# the volume's name of an image whose digest is not known at its beginning
VOLUME_NAME = b"strata"
DEVICES = {entries.CHARACTER: romfs.CHARACTER, entries.BLOCK_DEVICE: romfs.BLOCK}
SPECIALS = {entries.FIFO: romfs.FIFO, entries.SOCKET: romfs.SOCKET}


def path_of(name):
    """The names of a path: an absolute one begins at the layer's root, and `.` and empty names say
    nothing."""
    names = tuple(name.split(b"/"))
    if b"" in names or b"." in names:
        names = tuple(part for part in names if part not in (b"", b"."))
    if not name or b".." in names:
        raise BadEntry("%s: no path within a layer" % (shown(name) or "''"))
    return names


def is_marker(path):
    return path != () and path[-1].startswith(MARKER)


def is_about_layers_below(path):
    """Whether something is a marker, or below one."""
    return any(name.startswith(MARKER) for name in path)


def mark_of(path):
    """What stands for a path that no image may hold, however long it is."""
    from hashlib import sha256  # most images need none of it
    return sha256(b"/".join(path)).digest()


def put(image, path, entry, items):
    """Puts an entry into an image, with these extended attributes."""
    if entry.kind == entries.HARD:
        image.hard_link(path, path_of(entry.link))
        return
    it = put_node(image, path, entry)
    it.said = said_by(entry)
    image.extend(it, items)


def put_node(image, path, entry):
    executable = entry.mode & 0o111 != 0
    if entry.kind in entries.FILES:
        return image.file(path, executable, entry.size, entry.data)
    if entry.kind == entries.DIRECTORY:
        return image.directory(path, executable)
    if entry.kind == entries.SYMBOLIC:
        return image.symlink(path, entry.link)
    if entry.kind in DEVICES:
        return image.device(path, DEVICES[entry.kind], entry.major, entry.minor)
    if entry.kind in SPECIALS:
        return image.special(path, SPECIALS[entry.kind])
    raise BadEntry("%s: an entry of the unknown type '%s'" % (shown(entry.name), shown(entry.kind)))


class Maker:
    """Puts entries into an image. `lost` gets what the image doesn't hold of them, each named
    behind the words `where`; it also has whether entries that romfs cannot hold are left out."""

    def __init__(self, image, lost, where=""):
        self.image, self.lost, self.where = image, lost, where
        # the marks of paths whose entries are left out, and of those whose entries are refused
        self.faults, self.left_out, self.refused = Faults(), set(), set()

    def put_archive(self, entries):
        """All entries of an archive of tar."""
        try:
            for entry in entries:
                self.put_named(entry)
            if self.faults.found:
                self.note_links()
        except Refused as refused:
            self.faults.note(refused)
        self.faults.settle()

    def note_links(self):
        """Notes the hard links that lead to nothing, but those to an entry that is refused itself:
        an image that isn't finished finds none."""
        for path, link in self.image.links():
            if mark_of(self.image.end_of(link)[1]) not in self.refused:
                try:
                    self.image.node_of(link, path)
                except BadEntry as bad:
                    self.faults.note(bad)

    def put_named(self, entry):
        """An entry of an archive, whose path its name says."""
        try:
            path = path_of(entry.name)
        except BadEntry as bad:
            self.faults.note(bad)
            return
        if entry.wrong is not None:
            self.refuse(path, entry.wrong)
            return
        # where a file replaces a directory, umoci also says that what was in the directory is gone
        if not is_marker(path) or not self.image.is_barred(path):
            self.put(path, entry)

    def put_folder(self, folder):
        """All that is in a folder; its files are read when the image is finished."""
        for path, entry in folder.entries(self.faults):
            self.put(path, entry)
        self.faults.settle()

    def put(self, path, entry):
        try:
            if self.is_left_out(entry):
                self.leave_out(path)
                return
            put(self.image, path, entry, self.settle(entry))
        except NotHeld as refused:
            if not self.lost.leaves_out:
                self.refuse(path, refused)
            else:
                self.leave_out(path)
        except BadEntry as bad:
            self.refuse(path, bad)
        else:
            self.lost.hold_names(self.image.parts[-1].nodes)
            if not is_marker(path):
                self.lost.note_entry(self.where, path, entry)

    def refuse(self, path, bad):
        """Notes what is wrong with the entry at a path."""
        self.refused.add(mark_of(path))
        self.faults.note(bad)

    def settle(self, entry):
        """The extended attributes of an entry that are kept, which has those that are lost then, and
        the mode that goes with this."""
        there = entry.attributes
        if not there:
            return ()
        keeps = self.lost.keeps_of_link if entry.kind == entries.SYMBOLIC else self.lost.keeps
        found = there.once(keeps, lambda: settled(there, keeps))
        entry.mode = entry.mode & found.kept_bits | found.own_bits
        entry.attributes = there if found.lost is None else found.lost
        return found.items

    def is_left_out(self, entry):
        """Whether an entry is a hard link to what was left out."""
        return entry.kind == entries.HARD and self.left_out and mark_of(path_of(entry.link)) in self.left_out

    def leave_out(self, path):
        self.left_out.add(mark_of(path))
        self.lost.note("entries", self.where + path_text(path))


def image_of_archive(source, out, lost):
    """Makes the image of an archive of tar; `source.read(n)` gives at most n bytes of it, and none
    at its end."""
    from strata_layers import tars  # a folder needs none of it
    image = Image(lambda: out, VOLUME_NAME)
    Maker(image, lost).put_archive(tars.Tar(source).entries())
    tars.read_rest(source)
    image.finish()


def image_of_folder(number, out, lost, name=b".", is_upper=False, progress=None):
    """Makes the image of an open folder, which faults call `name`. `is_upper` says that it is the
    upper one of a mount of overlayfs, whose whiteouts become those of layers. `progress` gets
    how many bytes there are, and of those that are read. Refused where the folder is changed
    meanwhile."""
    image = Image(lambda: out, VOLUME_NAME)
    folder = Folder(number, name, out, is_upper, progress.add if progress else unheard)
    try:
        Maker(image, lost).put_folder(folder)
        if progress:
            progress.total = folder.size
        image.finish()
        folder.check()
    finally:
        folder.close()
