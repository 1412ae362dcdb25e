"""What was meant by a word that names no image: what an image is pulled from, or, for mount(8), an
image of the store."""
import os

from strata_format.refused import one_line
from strata_layers.store import default_place, told_verb
from strata_layers.store_images import PIN, may_be_stored
from strata_layers.transports import TRANSPORTS, layout_made

# what images are pulled from, or copied from by skopeo before
SOURCES = "docker://", "oci:", *TRANSPORTS


def pulled(source, store=None):
    """How what an image is pulled from comes into the store at a place, or the usual one."""
    import shlex
    is_copied = source.startswith(TRANSPORTS)
    word = "oci:LAYOUT:TAG" if is_copied else one_line(shlex.quote(source))
    told = "%s brings it into the store as image:NAME" % told_verb("pull", store or default_place(), word, "NAME")
    return "%s, and %s" % (layout_made(source), told) if is_copied else told


def hold_names(words, store):
    """Looks that no word says `image:` of what an image is pulled from, for the store at a place, or the usual one."""
    for word in words:
        front, _, name = word.partition("image:")
        if not front and name.startswith(SOURCES) and not may_be_stored(name):
            raise OSError(0, "no name of an image; " + pulled(name, store), name)


def hold_unpinned(words):
    """Looks that no image is named by its manifest's digest, where digests are left out."""
    for word in words:
        if PIN in word and not os.path.lexists(word):
            raise OSError(0, "an image that is named by a digest is sealed: not with -o unsealed", word)


def hold_split(word, images):
    """Looks whether a word that was split at colons was meant as a whole, where images are
    missing."""
    there = [os.path.lexists(image) for image in images]
    if word.startswith(SOURCES) and not there[0]:
        raise OSError(0, "no such file; " + pulled(word), word)
    if len(images) > 1 and not any(there) and may_be_stored(word):
        why = "no such files (colons separate images); for an image of the store say image:%s"
        raise OSError(0, why % word, word)
