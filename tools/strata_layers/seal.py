"""`seal`: writes the fs-verity tree of an image beside it, and says its digest."""
import contextlib
import os
import stat

from strata_format.files import PIECE, new_file, open_folder, write_all
from strata_format.progress import Progress
from strata_format.refused import Refused, shown
from strata_layers.image_file import PASSING, check_aim
from strata_layers.verity import TREE, Sealing


def open_image(path):
    """An open file, which is one."""
    number = os.open(path, os.O_RDONLY | os.O_NONBLOCK | os.O_CLOEXEC)
    if not stat.S_ISREG(os.fstat(number).st_mode):
        os.close(number)
        raise Refused("%s: no file" % shown(os.fsencode(path)))
    return os.fdopen(number, "rb", 0)


def read_seal(path, algorithm, progress):
    """The digest and the tree of a file."""
    with open_image(path) as file, Sealing(algorithm) as sealing:
        while data := file.read(PIECE // 64):
            sealing.add(data)
            progress.add(len(data))
        return sealing.seal()


def write_tree(file, seal):
    """Writes a tree to a new file."""
    for level in seal.levels:
        write_all(file, level)


def seal_image(path, algorithm):
    """Writes the tree of an image beside it, and says its digest."""
    check_aim(path + TREE)
    place = os.path.dirname(os.path.abspath(path))
    with contextlib.ExitStack() as opened:
        folder = open_folder(place)
        opened.callback(os.close, folder)
        progress = opened.enter_context(Progress("image", None))
        seal = read_seal(path, algorithm, progress)
        new = opened.enter_context(new_file(folder, place, 0o666, PASSING))
        write_tree(new.file, seal)
        new.keep(folder, os.path.basename(path) + TREE)
    return seal.digest
