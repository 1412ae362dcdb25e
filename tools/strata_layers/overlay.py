"""What the upper folder of a mount of overlayfs says of the layers below, as Linux's
Documentation/filesystems/overlayfs.rst has it: by devices, and by extended attributes."""
import os
import stat

from strata_format.refused import BadEntry
from strata_format.romfs import path_text
from strata_format.xattrs import OVERLAYS
from strata_layers.attributes import Attributes
from strata_layers.entries import MARKER

# with these, what is shown at a path is not what stands there, but something of the layers below
ELSEWHERE = {"redirect": "another folder of the layers below", "metacopy": "data of the layers below"}


def parted(attributes):
    """The values of overlayfs's own attributes, by what is behind their fronts, and the others by
    their names."""
    marks = {os.fsdecode(name[len(front):]): value for front in OVERLAYS
             for name, value in attributes.items() if name.startswith(front)}
    return marks, Attributes((name, value) for name, value in attributes.items()
                             if not name.startswith(OVERLAYS))


def check(path, marks):
    """Refuses what no layer says."""
    for mark, words in ELSEWHERE.items():
        if mark in marks:
            raise BadEntry("%s: overlayfs shows %s there, which a layer cannot express"
                           % (path_text(path), words))
    if path and path[-1].startswith(MARKER):
        raise BadEntry("%s: a layer takes a name that begins with .wh. as a whiteout"
                       % path_text(path))


def is_whiteout(found, marks):
    """Whether a file says that below it nothing is shown: a device without numbers, or an empty
    file with a mark."""
    if stat.S_ISCHR(found.st_mode):
        return found.st_rdev == 0
    return stat.S_ISREG(found.st_mode) and found.st_size == 0 and "whiteout" in marks
