"""`image`: an image of a folder, or of an archive of tar on standard input."""
import os
import stat

from strata_format.files import new_file, open_folder
from strata_format.progress import Progress
from strata_format.refused import Refused, shown
from strata_layers.image_maker import image_of_archive, image_of_folder

PASSING = ".strata-"
# behind an image's name, the name of its tree
TREE = ".verity"
STANDARD_INPUT = "-"
ARCHIVE_HINT = "a tar archive goes to standard input: `strata-layers image - IMAGE < ARCHIVE`"
# the letters that packed data begin with, and how many bytes are read to see them
LETTERS, FRONT = {"gzip": b"\x1f\x8b", "zstd": b"\x28\xb5\x2f\xfd"}, 512
# the same of what is not unpacked here; in bzip2 a digit follows, and a block or the end
XZ, BZIP2, BZIP2_NEXT = b"\xfd7zXZ\0", b"BZh", (b"1AY&SY", b"\x17rE8P\x90")


def is_first_block(data):
    """Whether bytes may be the first block of an archive."""
    from strata_layers.tars import is_sum_right  # a folder needs none of it
    try:
        return len(data) == FRONT and (not any(data) or is_sum_right(data))
    except Refused:
        return False


class Heard:
    """What is read from an open file, with its progress reported; its first bytes were read to see
    how it is packed."""

    def __init__(self, file, progress):
        self.file, self.progress = file, progress
        self.front = file.read(FRONT)

    def packing(self):
        return next((it for it, letters in LETTERS.items() if self.front.startswith(letters)), "")

    def other_packing(self):
        """The name of a packing that is not unpacked here, or None."""
        if self.front.startswith(XZ):
            return "xz"
        is_bzip2 = self.front.startswith(BZIP2) and self.front[4:10] in BZIP2_NEXT
        return "bzip2" if is_bzip2 else None

    def is_other(self):
        """Whether these bytes, which are not packed, begin no archive: an empty one begins with zeros."""
        return not self.packing() and not is_first_block(self.front)

    def read(self, size):
        data, self.front = self.front[:size], self.front[size:]
        data = data or self.file.read(size)
        self.progress.add(len(data))
        return data


def archive_read(file, progress):
    """The archive in an open file, unpacked. Nothing at all is none: what should have written it
    has failed."""
    from strata_layers.packing import Unpacked  # a folder needs none of it
    heard = Heard(file, progress)
    if not heard.front:
        raise Refused("standard input is empty")
    other = heard.other_packing()
    if other is not None:
        raise Refused("standard input is compressed with %s: pass it through `%s -dc` first" % (other, other))
    if heard.is_other():
        raise Refused("standard input is no tar archive")
    return Unpacked(heard, heard.packing(), heard=progress.unpack)


def check_aim(path):
    """Sees that nothing but a file would be replaced."""
    try:
        mode = os.lstat(path).st_mode
        if stat.S_ISLNK(mode):
            raise Refused("%s: is a symbolic link: name the file that is to be replaced" % shown(os.fsencode(path)))
        if not stat.S_ISREG(mode):
            raise Refused("%s: exists and is not a file" % shown(os.fsencode(path)))
    except FileNotFoundError:
        pass


class opened_folder:
    """An open folder, as long as a `with`."""

    def __init__(self, path):
        self.number = open_folder(path)

    def __enter__(self):
        return self.number

    def __exit__(self, *_):
        os.close(self.number)


def write_archive_image(out, lost, progress):
    """Writes the image of the archive on standard input."""
    with open(0, "rb", closefd=False) as given:
        archive = archive_read(given, progress)
        try:
            image_of_archive(archive, out, lost)
        finally:
            archive.close()


def write_image_file(source, path, lost, is_upper=False):
    """Makes the image at a path of a folder, or of standard input."""
    if path == STANDARD_INPUT:
        raise Refused("an image cannot be written to standard output; ./- is a file of that name")
    check_aim(path)
    if source == STANDARD_INPUT:
        keep_image(path, lost, lambda out, progress: write_archive_image(out, lost, progress))
        return
    if os.path.isfile(source):
        raise Refused("%s: not a directory; %s" % (shown(os.fsencode(source)), ARCHIVE_HINT))
    with opened_folder(source) as number:
        # a fault that names no whole path would be one of the new file's folder
        name = os.path.abspath(source)
        keep_image(path, lost, lambda out, progress: image_of_folder(
            number, out, lost, name, is_upper, progress))


def keep_image(path, lost, write):
    """Gives a new file its path, once `write` has written it, and nothing is lost that may not
    be."""
    place = os.path.dirname(os.path.abspath(path))
    with opened_folder(place) as folder, Progress("image", None) as progress, \
            new_file(folder, place, 0o666, PASSING) as new:
        write(new.file, progress)
        lost.settle()
        new.keep(folder, os.path.basename(path))
        remove_tree(folder, os.path.basename(path) + TREE)


def remove_tree(folder, name):
    """Removes a tree, which is of the image that was replaced."""
    try:
        if stat.S_ISREG(os.stat(name, dir_fd=folder, follow_symlinks=False).st_mode):
            os.unlink(name, dir_fd=folder)
    except FileNotFoundError:
        pass
