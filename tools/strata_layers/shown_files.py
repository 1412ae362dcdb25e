"""Files at paths that stacked layers show. Symbolic links are followed as after chroot(2): never out
of the layers, whatever their targets say."""
from strata_format.refused import Refused
from strata_format.romfs import DIRECTORY, REGULAR, SYMLINK, TARGET_MOST, path_text
from strata_layers.below import MARKER, OPAQUE

# as many links as the kernel follows on the way to a file
LINKS_MOST = 40


def file_at(below, path, most):
    """The bytes of the file at a path; none where nothing is shown there. Refused where what is shown
    is no file that can be read, or one of more bytes than `most`."""
    try:
        found = Way(below, path).end()
        return b"" if found is None else data_of(*found, most)
    except Refused as refused:
        raise refused.of("the image's /" + path_text(path)) from None


def shown_at(below, folder, name):
    """The image and the header that stacked layers show in a folder under a name; None where nothing
    is shown there."""
    for image, at in below.folders(folder):
        members = image.members(at)
        if name in members and not name.startswith(MARKER):
            return image, image.end(members[name])
        if MARKER + name in members or OPAQUE in members:
            break
    return None


def data_of(image, at, most):
    """The bytes of a regular file."""
    header = image.header(at) if at is not None else None
    if header is None or header[1] != REGULAR:
        raise Refused("not a regular file")
    if header[3] > most:
        raise Refused("a file of %d bytes, at most %d are read" % (header[3], most))
    return image.data_at(at, most)


class Way:
    """The way to what is shown at a path: the folder that it has come to, and the names that are left,
    the last one first."""

    def __init__(self, below, path):
        self.below, self.folder, self.left, self.links = below, (), list(reversed(path)), 0

    def end(self):
        """The image and the header at its end, of a folder none; None where nothing is shown there."""
        while self.left:
            name = self.left.pop()
            if name == b"..":
                self.folder = self.folder[:-1]
            elif name not in (b"", b"."):
                found = shown_at(self.below, self.folder, name)
                if found is None or not self.enter(*found, name):
                    return found
        raise Refused("a directory")

    def enter(self, image, at, name):
        """Goes into a folder, or where a link leads; whether it goes on there."""
        header = image.header(at) if at is not None else None
        kind = header[1] if header is not None else None
        if kind == DIRECTORY:
            self.folder += (name,)
        elif kind == SYMLINK:
            self.follow(b"".join(image.pieces(at, TARGET_MOST)) if header[3] <= TARGET_MOST else b"")
        elif self.left:
            raise Refused("not a directory on the way: %s" % path_text((*self.folder, name)))
        return kind in (DIRECTORY, SYMLINK)

    def follow(self, target):
        self.links += 1
        if self.links > LINKS_MOST:
            raise Refused("more than %d symbolic links on the way" % LINKS_MOST)
        if not target or len(target) > TARGET_MOST:
            raise Refused("a symbolic link on the way has no valid target")
        if target.startswith(b"/"):
            self.folder = ()
        self.left += reversed(target.split(b"/"))
