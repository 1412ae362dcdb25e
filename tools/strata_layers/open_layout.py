"""Opens the layout that a word names; of other forms of images it says what makes a layout of
them."""
import os

from strata_format.image_files import opened
from strata_format.refused import Refused, shown
from strata_layers.layouts import Layout, split_name

TAR_MAGIC = b"ustar"
# of gzip and of zstd
PACKED_MAGIC = (b"\x1f\x8b", b"\x28\xb5\x2f\xfd")


def first_bytes(path):
    try:
        file = opened(path)
        if file is None:
            return b""
        with file:
            return file.read(512) or b""
    except OSError:
        return b""


def other_form(word):
    """The transport by which skopeo reads a file or folder that is no layout, or None."""
    if os.path.isfile(word):
        data = first_bytes(word)
        is_archive = data[257:262] == TAR_MAGIC or data.startswith(PACKED_MAGIC)
        return "docker-archive" if is_archive else None
    if first_bytes(os.path.join(word, "version")).startswith(b"Directory Transport Version"):
        return "dir"
    return None


def is_ordinary(word):
    """Whether a word names a directory with nothing of a layout at its top."""
    return os.path.isdir(word) and not any(
        os.path.lexists(os.path.join(word, it)) for it in ("oci-layout", "index.json", "blobs"))


def hint(word):
    """A sentence of what makes a layout of something, or nothing."""
    for end in (len(word), word.find(":")):
        transport = other_form(word[:end]) if end > 0 else None
        if transport is not None:
            archive = " (or oci-archive:)" if transport == "docker-archive" else ""
            return "; `skopeo copy %s:%s oci:LAYOUT:TAG`%s makes a layout of it" % (
                transport, shown(os.fsencode(word[:end])), archive)
        if end > 0 and is_ordinary(word[:end]):
            return "; `strata-layers image %s IMAGE` makes an image of a directory" % shown(os.fsencode(word[:end]))
    return ""


def open_layout(word):
    """The layout and the tag of `LAYOUT[:TAG]`."""
    try:
        place, tag = split_name(word)
        return Layout(place), tag
    except Refused as refused:
        raise Refused(str(refused) + hint(word)) from None
