"""Whether images keep modes and owners, which matters to users of allow_other."""
import os

from strata_format import image_files, romfs, trailer
from strata_format.refused import shown


def keeps_modes(path):
    """Whether the image in a file has an attribute trailer. What can't be told does no harm here:
    strata refuses what is no image."""
    try:
        file = image_files.opened(path)
        if file is None:
            return True
        with file:
            number = file.fileno()
            front = os.pread(number, 12, 0)
            if not front.startswith(romfs.MAGIC) or len(front) < 12:
                return True
            at = trailer.place_of(int.from_bytes(front[8:], "big"))
            return os.pread(number, len(trailer.MAGIC), at) == trailer.MAGIC
    except OSError:
        return True


def tell(plan):
    """Says that others may read all files of images that keep no modes, unless this is meant."""
    if "allow_other" not in plan.words or plan.modeless:
        return
    found = [it for it in plan.images if not keeps_modes(it)]
    if found:
        more = " and %d more" % (len(found) - 1) if len(found) > 1 else ""
        plan.say("%s%s: without modes and owners, so with allow_other everybody can read all files; "
                 "`strata-layers image` keeps them, and -o modeless says that this is meant"
                 % (shown(os.fsencode(found[0])), more))
