"""Makes the romfs image of a layer: the bytes of files go from the archive straight into the
image. A layer that is more than one image holds becomes several, which lie on one another."""
import re

from strata_format import trailer
from strata_format.image import Image
from strata_format.refused import Refused, shown
from strata_layers import image_archive
from strata_layers.below import implied
from strata_layers.image_maker import Maker, is_about_layers_below
from strata_layers.layouts import PACKED, digest_of
from strata_layers.packing import Unpacked
from strata_layers.tars import read_rest

# a volume's name is the digest of the layer's archive, as far as Linux's romfs reads names
VOLUME_NAME_MOST = 127
GOOD_DIGEST = re.compile("sha256:[0-9a-f]{64}|sha512:[0-9a-f]{128}")
NO_DIGEST = "sha256:" + "0" * 64
# so many bytes may an image have, with its trailer
IMAGE_MOST = trailer.END_MOST
# so many bytes may the paths of folders have that a store notes with a layer
IMPLIED_MOST = 1 << 22


def volume_name(digest):
    return digest.encode()[:VOLUME_NAME_MOST]


def filled(folders, below):
    """Gives folders that a layer implies the rows that they have in the layers below. Their paths, or None where these
    are very long together: a few deep entries imply very many."""
    paths, left = [], IMPLIED_MOST
    for path, folder in folders:
        folder.said, folder.extended = below.said(path)
        left -= sum(map(len, path)) + len(path)
        if left >= 0:
            paths.append(path)
    return paths if left >= 0 else None


def read_blob(layout, number, descriptor, read):
    """What `read` makes of the blob of a layer. Where the blob is not what its own digest says, that
    is why it is refused, whatever else is wrong with it."""
    blob, found, why = layout.open(descriptor), None, None
    try:
        try:
            found = read(blob)
        except Refused as refused:
            why = refused
        blob.settle()
    finally:
        blob.close()
    if why is not None:
        raise why.of("layer %d" % number)
    return found


class LayerWriter:
    """Writes the images of a layer, which lies on the layers `below`. `new_file` gives the file of
    its image, and, if it takes several, those of the others, in order from the lowest up.
    `archive` is the digest of its archive, where an image's configuration says it; `is_checked`
    says that it must have this one."""

    def __init__(self, layout, number, descriptor, archive=None, is_checked=False):
        self.layout, self.number, self.descriptor = layout, number, descriptor
        self.archive, self.is_checked = archive, is_checked

    def write(self, new_file, lost, below):
        """Writes the images; the paths of the folders that the layer implies without an entry, and
        that may be shown below, which have the rows that they have there; or None where these
        paths are very long."""
        return read_blob(self.layout, self.number, self.descriptor,
                         lambda blob: self.write_blob(blob, new_file, lost, below))

    def write_blob(self, blob, new_file, lost, below):
        packing, it = PACKED[self.descriptor.media], self.descriptor
        # what is not packed is hashed as the blob
        known = digest_of(it) if packing == "" and it.algorithm == "sha256" else None
        is_good = self.archive is not None and GOOD_DIGEST.fullmatch(self.archive)
        said = known or (self.archive if is_good else None)
        is_hashed = known is None and (self.is_checked or said is None)
        source = Unpacked(blob, packing, is_hashed, heard=self.layout.unpacked)
        try:
            image = self.write_archive(source, new_file, volume_name(said or NO_DIGEST), lost)
            read_rest(source)
        finally:
            source.close()
        digest = source.digest() if is_hashed else known
        if self.is_checked and digest != self.archive:
            raise Refused("its archive's digest is %s, and the image's configuration says %s"
                          % (digest, shown(self.archive)))
        if image is None:
            return []
        if said is None:
            image.name_volume(volume_name(digest))
        found = filled(implied(image.root), below)
        image.finish()
        return found

    def write_archive(self, source, new_file, name, lost):
        """Writes what is in an archive; the image that is to be finished, or None where the archive
        is one of an image, which is whole."""
        entries, is_image = image_archive.opened(source)
        if is_image:
            image_archive.write_image(entries, new_file())
            return None
        image = Image(new_file, name, IMAGE_MOST, is_about_layers_below)
        Maker(image, lost, "layer %d: " % self.number).put_archive(entries)
        return image
