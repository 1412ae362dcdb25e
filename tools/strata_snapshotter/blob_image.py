"""Makes the romfs image of a layer from its blob in containerd's content store, before containerd
unpacks it.

The blob's bytes must have its digest, and what it unpacks to must give the chain's digest with that
of the chain below, so nothing that a label says is believed.
"""
import hashlib
import os
import re

from strata_format.image import Image
from strata_layers import image_archive
from strata_layers.below import Below, implied
from strata_layers.image_maker import Maker
from strata_layers.layer_images import filled, volume_name
from strata_layers.layouts import Blob, Descriptor, digest_of
from strata_layers.packing import Unpacked
from strata_layers.tars import read_rest
from strata_snapshotter.whole import Nothing

DIGEST = re.compile(r"sha256:([0-9a-f]{64})")
GZIP, ZSTD = b"\x1f\x8b", b"\x28\xb5\x2f\xfd"


def is_digest(text):
    return text is not None and DIGEST.fullmatch(text) is not None


def chain_digest(below, archive):
    """The digest of a chain of layers, by that of the chain below it (None: there is none) and that
    of its highest layer's archive, as the OCI image specification defines ChainID."""
    if below is None:
        return archive
    return "sha256:" + hashlib.sha256(("%s %s" % (below, archive)).encode()).hexdigest()


class Content:
    """containerd's content store, in its folder."""

    def __init__(self, folder):
        self.folder = folder

    def find(self, digest):
        """The path of a complete blob, and its descriptor; None if there is none."""
        if not is_digest(digest):
            return None
        digits = DIGEST.fullmatch(digest)[1]
        path = os.path.join(self.folder, "blobs", "sha256", digits)
        try:
            size = os.stat(path, follow_symlinks=False).st_size
        except OSError:
            return None
        return path, Descriptor("", "sha256", digits, size, None, ("", "", ""), False)


def packing_of(number):
    """How an open blob is packed, by its first bytes."""
    first = os.pread(number, 4, 0)
    return "gzip" if first.startswith(GZIP) else "zstd" if first == ZSTD else ""


def write_blob_image(path, descriptor, out, lowers):
    """Writes the image of a blob to an open file, as the layer over those in open files `lowers`,
    the lowest first; the digest of its archive, and whether that is one of an image, which is taken
    as it is. Refused where the blob is damaged, or an image does not hold all of the layer."""
    blob = Blob(path, descriptor)
    try:
        source = Unpacked(blob, packing_of(blob.file.fileno()), True)
        try:
            entries, is_image = image_archive.opened(source)
            if is_image:
                image_archive.write_image(entries, out)
            else:
                write_entries(entries, digest_of(descriptor), out, lowers)
            read_rest(source)
        finally:
            source.close()
        blob.settle()
    finally:
        blob.close()
    return source.digest(), is_image


def write_entries(entries, digest, out, lowers):
    """Writes the image of an archive's entries."""
    below, image = Below(), Image(lambda: out, volume_name(digest))
    for number in lowers:
        below.add(number)
    Maker(image, Nothing()).put_archive(entries)
    filled(implied(image.root), below)
    image.finish()
