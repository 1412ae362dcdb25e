"""`convert`: a layout whose layers are images of romfs, made of one whose layers are archives. Each
may stand in an archive of its own, so that any engine pulls it."""
import hashlib
import os

from strata_format.progress import Progress
from strata_format.refused import Refused, shown
from strata_layers.image_archive import archive_pieces
from strata_layers.layout_images import PACKED_ROMFS, PARENT, PART, ROMFS, all_images, image_of
from strata_layers.layout_writer import LayoutWriter, check_tag, split_new_name
from strata_layers.layouts import INDEXES, MANIFESTS, digest_of
from strata_layers.packing import hold_packing, packed_pieces
from strata_layers.store import heard_pieces
from strata_layers.store_images import VERITY
from strata_layers.store_layers import Maker

CONFIG = "application/vnd.oci.image.config.v1+json"
ARCHIVE = "application/vnd.oci.image.layer.v1.tar"
# what a layer was made of stands in its annotations under this key
SOURCE = "vnd.strata.layer.source"


def hashed(pieces, found):
    """Pieces that pass by a hash."""
    for data in pieces:
        found.update(data)
        yield data


def checked_pieces(layer, number, where, heard):
    """The bytes of an open layer, in pieces; Refused at the end where its digest is wrong."""
    found = hashlib.sha256()
    for data in heard_pieces(number, heard):
        found.update(data)
        yield data
    if found.hexdigest() != layer.digits:
        raise Refused("%s: the layer sha256:%s has the digest sha256:%s"
                      % (where, layer.digits, found.hexdigest()))


class Converter:
    """Writes images of one layout into another, over a store that is locked. `options` has how
    layers are packed, and whether each stands in an archive."""

    def __init__(self, maker, target, options):
        self.maker, self.target, self.store = maker, target, maker.store
        self.packing, self.is_archive = options.packing, options.tar
        self.media = ARCHIVE if options.tar else ROMFS

    def image(self, image, layers):
        """Writes an image with its layers of the store, a list of images each; the descriptor of
        its manifest."""
        each = [self.layer(it, source_of(image, number)) for number, found in enumerate(layers)
                for it in found]
        rootfs = {**image.config["rootfs"], "diff_ids": ["sha256:" + digits for _, digits in each]}
        described = self.target.document(CONFIG, {**image.config, "rootfs": rootfs})
        value = {"schemaVersion": 2, "mediaType": MANIFESTS[0], "config": described,
                 "layers": [it for it, _ in each]}
        if isinstance(image.manifest.get("annotations"), dict):
            value["annotations"] = image.manifest["annotations"]
        return self.target.document(MANIFESTS[0], value, **platform_of(image))

    def layer(self, layer, source):
        """Writes a layer; its descriptor, and the digits of what it is unpacked."""
        digits, size, unpacked = self.blob(layer)
        media = self.media + ("+" + self.packing if self.packing else "")
        notes = {SOURCE: source, VERITY: layer.verity}
        if layer.part:
            notes[PART] = str(layer.part + 1)
        if layer.parent:
            notes[PARENT] = "sha256:" + layer.parent
        return {"mediaType": media, "digest": "sha256:" + digits, "size": size,
                "annotations": notes}, unpacked

    def blob(self, layer):
        """Writes the blob of a layer; its digits, its size, and the digits of what it is
        unpacked."""
        number = self.store.open_layer(layer.digits)
        if number is None:
            raise Refused("%s: a layer was removed meanwhile" % self.store.name)
        try:
            if self.is_archive:
                return self.archive_blob(layer, number)
            if self.packing:
                return (*self.packed_blob(layer, number), layer.digits)
            if not self.target.has(layer.digits, layer.size):
                self.hold_digest(layer, number)
                with Progress("copied", layer.size) as progress:
                    self.target.copy_of(number, layer.digits, progress.add)
            return layer.digits, layer.size, layer.digits
        finally:
            os.close(number)

    def pieces(self, layer, number, heard):
        """The bytes of an open layer, in pieces, which have its digest. One that this run has made was
        read for that already."""
        if layer.digits in self.maker.new:
            return heard_pieces(number, heard)
        return checked_pieces(layer, number, self.store.name, heard)

    def hold_digest(self, layer, number):
        """Sees that a layer of the store is what its digest says, before it is copied."""
        if layer.digits in self.maker.new:
            return
        with Progress("checked", layer.size) as progress:
            for _ in checked_pieces(layer, number, self.store.name, progress.add):
                pass

    def archive_blob(self, layer, number):
        """The same of a layer that stands in an archive."""
        found = hashlib.sha256()
        with Progress("packed", layer.size) as progress:
            pieces = self.pieces(layer, number, progress.add)
            pieces = hashed(archive_pieces(layer.size, pieces), found)
            digits, size = self.target.blob(packed_pieces(pieces, self.packing))
        return digits, size, found.hexdigest()

    def packed_blob(self, layer, number):
        """The same packed; where it was packed once, and is in the layout still, it is not packed
        again."""
        found = self.maker.packed(layer, self.packing)
        if found is not None and self.target.has(*found):
            return found
        with Progress("packed", layer.size) as progress:
            pieces = self.pieces(layer, number, progress.add)
            found = self.target.blob(packed_pieces(pieces, self.packing))
        self.maker.note_packed(layer, self.packing, found)
        return found


def source_of(image, number):
    """The digest of what a layer was made of: its own, or what an image of romfs says."""
    it = image.layers[number]
    if it.media in PACKED_ROMFS:
        notes = image.manifest["layers"][number].get("annotations", {})
        return str(notes.get(SOURCE, digest_of(it)))
    return digest_of(it)


def platform_of(image):
    """The platform of an image, as its configuration says it, or else the index that named it."""
    named = dict(zip(("os", "architecture", "variant"), image.descriptor.platform))
    found = {key: image.config.get(key) or named[key] for key in ("architecture", "os", "variant")}
    found = {key: value for key, value in found.items() if isinstance(value, str) and value}
    return {"platform": found} if "os" in found and "architecture" in found else {}


def images_asked(layout, tag, platform):
    """The images that are meant: the one of a platform, or all."""
    if platform == "all":
        return all_images(layout, tag)
    return [image_of(layout, layout.descriptor(tag, platform), platform)]


def new_name(layout, tag, word):
    """The folder and the tag that an image is written to; without a tag it keeps its own."""
    folder, new_tag = split_new_name(word)
    own = layout.reference(tag)
    new_tag = new_tag or own or "latest"
    check_tag(new_tag)
    if new_tag == own and os.path.isdir(folder) and os.path.samefile(folder, layout.folder):
        raise Refused("%s: is the layout to convert" % shown(os.fsencode(word)))
    return folder, new_tag


def convert(store, layout, tag, word, options, lost):
    """Writes the images of a layout that a tag and a platform mean into the layout of a word,
    `LAYOUT[:TAG]`; its folder and tag. `options` has `platform` (None: this machine's), `packing`
    and `tar`."""
    folder, new_tag = new_name(layout, tag, word)
    hold_packing(options.packing)
    images = images_asked(layout, tag, options.platform)
    with store.locked():
        maker = Maker(store, lost, checks_archives=False)
        size = sum(it.size for image in images for it in image.layers)
        with Progress("layers", size) as progress:
            layout.heard, layout.unpacked = progress.add, progress.unpack
            layers = [maker.layers(layout, image) for image in images]
        lost.settle()
        with LayoutWriter(folder) as target:
            converter = Converter(maker, target, options)
            made = [converter.image(*both) for both in zip(images, layers)]
            if options.platform == "all":
                value = {"schemaVersion": 2, "mediaType": INDEXES[0], "manifests": made}
                made = [target.document(INDEXES[0], value)]
            target.put_index(made[0], new_tag)
    return folder, new_tag
