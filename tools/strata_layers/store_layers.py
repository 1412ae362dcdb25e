"""Brings the layers of an image into a store: what is there already is neither read nor made
again. A layer is an image of romfs, or, if one can't hold it, several that lie on one another."""
import collections
import contextlib
import json
import os

from strata_format import trailer
from strata_format.files import copy_front, is_zeros, write_all
from strata_format.progress import Progress
from strata_format.read_romfs import ReadImage
from strata_format.refused import Refused, shown
from strata_layers.below import Below
from strata_layers.image_archive import image_pieces
from strata_layers.layer_images import LayerWriter, read_blob
from strata_layers.layout_images import PACKED_ROMFS
from strata_layers.layouts import LAYERS_MOST, PACKED, digest_of
from strata_layers.packing import PIECE, Unpacked
from strata_layers.store import SMALL_MOST, digits_of
from strata_layers.store_images import StoredLayer, layer_json, layer_of_json
from strata_layers.store_seals import keep_seal, made_digest, noted_digest, sealed_file
from strata_layers.verity import Sealing

# a layer that was made by other rules is made anew
MAKER = 5
# by these extended attributes were lost; else its layers are the same
BEFORE = 4
# above what an image of romfs can have, with all that stands behind it
UNPACKED_MOST = 1 << 33
BROKEN = "%s: the layer sha256:%s is broken"
ZEROS = bytes(PIECE)


# what is known of a blob: the images that were made of it, the lowest first, or None; the digest of
# what it unpacks to, or None; the paths of the folders that it implies without an entry, which have
# the rows of the layers below, whichever these were; and how much was lost, as Lost counts it
Made = collections.namedtuple("Made", "images archive implied lost")
NOTHING = Made(None, None, [], {})


class Maker:
    """Makes layers of the blobs of layouts, in a store that is locked. Where `checks_archives` says
    so, an archive must have the digest that the image's configuration says of it; its blob's always
    is checked."""

    def __init__(self, store, lost, checks_archives):
        self.store, self.lost, self.checks_archives = store, lost, checks_archives
        # the digits of new images, and the blobs of which it is known what is lost
        self.new, self.told = set(), set()

    # --- what is there ---

    def record_name(self, it):
        """The name of what is noted of a blob; another one for images that lose extended
        attributes."""
        is_bare = self.lost.bare and it.media not in PACKED_ROMFS
        return "%s-%s%s" % (it.algorithm, it.digits, "-bare" * is_bare)

    def stored(self, layer):
        """Whether an image is there with its size."""
        return self.store.size_of(layer.digits) == layer.size

    def made_of(self, it, part=0):
        """What is known of a blob."""
        if PACKED_ROMFS.get(it.media) == "" and it.algorithm == "sha256":
            images = [StoredLayer(it.digits, it.size, part)]
            is_there = self.stored(images[0])
            return Made(images if is_there else None, "sha256:" + it.digits, [], {})
        value = self.store.small_json(self.store.records, self.record_name(it))
        if value is None or value.get("maker") not in (MAKER, BEFORE):
            return NOTHING
        where = "%s: %s" % (self.store.name, self.record_name(it))
        images = layers_said(value.get("layers"), where)
        if it.media in PACKED_ROMFS:
            images = [images[0]._replace(part=part)]
        lost = counts_said(value.get("lost"), where)
        if value["maker"] == BEFORE and "attributes" in lost:
            return NOTHING
        is_taken = self.lost.leaves_out or "entries" not in lost
        is_there = all(map(self.stored, images)) and is_taken
        return Made(images if is_there else None, value.get("archive"),
                    paths_said(value.get("implied"), where), lost)

    def has_made(self, it):
        """Whether the layer of a blob is there. Over other layers it may need other rows."""
        return self.made_of(it).images is not None

    @staticmethod
    def hold_unpacked(it, unpacked, archive):
        """Sees that what a blob unpacks to, where that is known, is what an image says of it."""
        if unpacked not in (None, archive):
            raise Refused("blob %s: unpacked its digest is %s, and the image's configuration says"
                          " %s" % (digest_of(it), shown(str(unpacked)), shown(archive)))

    def note(self, name, made):
        """Notes what is known of the blob that a record is named by. What is very long is not
        noted, and its layer made anew each time."""
        if made.implied is None:
            return
        # what a blob's layer lies on is an image's affair
        layers = [layer_json(it._replace(parent=None)) for it in made.images]
        value = {"maker": MAKER, "layers": layers,
                 "archive": made.archive, "lost": made.lost,
                 "implied": [b"/".join(path).decode("latin-1") for path in made.implied]}
        data = json.dumps(value).encode()
        if len(data) < SMALL_MOST:
            self.store.write_small(self.store.records, name, data)

    def packed(self, layer, packing):
        """The digits and the size of a layer as it was packed before; or None."""
        value = self.store.small_json(self.store.records, "sha256-%s.%s" % (layer.digits, packing))
        if value is None or not isinstance(value.get("size"), int):
            return None
        return digits_of(value.get("digest"), self.store.name), value["size"]

    def note_packed(self, layer, packing, found):
        """Notes how a layer was packed, and that the blob unpacks to the layer."""
        digits, size = found
        value = {"digest": "sha256:" + digits, "size": size}
        name = "sha256-%s.%s" % (layer.digits, packing)
        self.store.write_small(self.store.records, name, json.dumps(value).encode())
        self.note("sha256-" + digits, Made([layer], "sha256:" + layer.digits, [], {}))

    # --- what is made ---

    def layer(self, layout, image, number, below):
        """The images of a layer, over those below; they are brought into the store where they
        aren't there."""
        it, archive = image.layers[number], image.archives[number]
        found = self.made_of(it, image.parts[number])
        if found.images is not None:
            self.hold_unpacked(it, found.archive, archive)
            layout.heard(it.size)
            self.tell(it, found.lost)
            return self.fitted(it, found, below) if found.implied else found.images
        before = dict(self.lost.counts)
        self.told.add(self.record_name(it))
        with contextlib.ExitStack() as opened:
            files = []

            def new_file():
                files.append(opened.enter_context(self.store.new_file()))
                return files[-1].file

            if it.media in PACKED:
                writer = LayerWriter(layout, number, it, archive, self.checks_archives)
                implied = writer.write(new_file, self.lost, below)
                archive = archive if self.checks_archives else None
                read = [sealed_file(new.file.fileno()) for new in files]
            else:
                read, implied = [unpack_layer(layout, number, it, new_file())], []
                self.hold_unpacked(it, "sha256:" + read[0][0], archive)
            images = [self.kept(new, *both, image.parts[number] + at)
                      for at, (new, both) in enumerate(zip(files, read))]
        self.note(self.record_name(it), Made(images, archive, implied, self.lost.since(before)))
        return images

    def tell(self, it, lost):
        """Tells what was lost of a blob that isn't read again; once, if several images have it."""
        if self.record_name(it) not in self.told:
            self.told.add(self.record_name(it))
            self.lost.add(lost)

    def kept(self, new, digits, seal, part):
        """The image in a new file that is whole, which is kept where it isn't there, and so is its
        tree."""
        layer = StoredLayer(digits, os.fstat(new.file.fileno()).st_size, part)
        if noted_digest(self.store, layer) != seal.digest:
            keep_seal(self.store, digits, seal)
        if not self.stored(layer):
            self.store.keep_layer(new, digits)
            self.new.add(digits)
        return layer

    def fitted(self, it, found, below):
        """The images of a blob's layer over those below: those that exist, or, where folders
        that it implies have other rows in the layers below, copies with these."""
        read, images = set(), []
        for layer in found.images:
            number = self.opened(layer)
            try:
                images.append(self.fitted_image(layer, number, found.implied, below, read))
            finally:
                os.close(number)
        if len(read) < len(found.implied):
            raise Refused(BROKEN % (self.store.name, found.images[0].digits))
        if images != found.images:
            self.note(self.record_name(it), found._replace(images=images))
        return images

    def fitted_image(self, layer, number, implied, below, read):
        """One of them, in an open file; the paths of its folders among those that are implied are
        noted as read."""
        try:
            image = ReadImage(number)
            there = {path: image.found(path) for path in implied}
        except Refused:
            raise Refused(BROKEN % (self.store.name, layer.digits)) from None
        wanted = {place: below.said(path) for path, place in there.items() if place is not None}
        read.update(path for path, place in there.items() if place is not None)
        if all((image.said(at), image.list_of(at)) == it for at, it in wanted.items()):
            return layer
        rows = {**image.rows.every(), **{at: row for at, (row, _) in wanted.items()}}
        lists = {**image.rows.lists(), **{at: items for at, (_, items) in wanted.items()}}
        with self.store.new_file() as new:
            with Progress("copied", image.full) as progress:
                copy_front(number, new.file.fileno(), image.full, progress.add)
            trailer.write_trailer(new.file.fileno(), image.full,
                                  {at: row for at, row in rows.items() if row is not None}, lists)
            return self.kept(new, *sealed_file(new.file.fileno()), layer.part)

    def sealed(self, layer):
        """A layer of the store with its fs-verity digest. One that has no tree, as it was brought
        before there were any, gets one, if its bytes are right."""
        digest = noted_digest(self.store, layer)
        if digest is None:
            number = self.opened(layer)
            try:
                digest = made_digest(self.store, number, layer.digits)
            finally:
                os.close(number)
        return layer._replace(verity=digest)

    def opened(self, layer):
        number = self.store.open_layer(layer.digits)
        if number is None:
            raise Refused("%s: a layer was removed meanwhile" % self.store.name)
        return number

    def layers(self, layout, image):
        """The images of all layers of an image, a list for each of its blobs, the lowest first."""
        below, found = Below(), []
        for at in range(len(image.layers)):
            found.append([self.sealed(it) for it in self.layer(layout, image, at, below)])
            hold_digest(at, found[-1], image.digests[at])
            for layer in found[-1]:
                number = self.opened(layer)
                try:
                    below.add(number)
                finally:
                    os.close(number)
        count = sum(map(len, found))
        if count > LAYERS_MOST:
            raise Refused("its layers take %d images, and %d can be stacked" % (count, LAYERS_MOST))
        return with_parents(found, image)


def hold_digest(number, layers, said):
    """Sees that the image of a layer has the fs-verity digest that its manifest says, if it says
    one."""
    digests = ", ".join(it.verity for it in layers)
    if said not in (None, digests):
        raise Refused("layer %d: the fs-verity digest of its image is %s, and the manifest says %s"
                      % (number, digests, said))


def with_parents(layers, image):
    """The images of an image's layers, a list for each, with those that they were made to lie on:
    what a layout says of an image of romfs, and of others the one below."""
    below, found = None, []
    for images, blob, parent in zip(layers, image.layers, image.parents):
        found.append([])
        for it in images:
            found[-1].append(it._replace(parent=parent if blob.media in PACKED_ROMFS else below))
            below = it.digits
    return found


def layers_said(value, where):
    """The images that a record says."""
    if not isinstance(value, list) or not value:
        raise Refused("%s: not valid images of a layer" % where)
    return [layer_of_json(it, where) for it in value]


def counts_said(value, where):
    """How much was lost of each kind, as a record says it."""
    if not isinstance(value, dict) or not all(isinstance(it, int) for it in value.values()):
        raise Refused("%s: no good counts of what is lost" % where)
    return value


def paths_said(value, where):
    """The paths of folders that a record says."""
    if not isinstance(value, list) or not all(isinstance(it, str) for it in value):
        raise Refused("%s: not valid paths of folders" % where)
    return [tuple(it.encode("latin-1", "replace").split(b"/")) if it else () for it in value]


def unpack_layer(layout, number, it, file):
    """Writes an image of romfs as it was before it was packed; the digits of its digest, and its
    seal."""
    return read_blob(layout, number, it, lambda blob: write_unpacked(layout, blob, it, file))


def write_unpacked(layout, blob, it, file):
    # what is not packed is hashed as the blob
    is_hashed = PACKED_ROMFS[it.media] != "" or it.algorithm != "sha256"
    source = Unpacked(blob, PACKED_ROMFS[it.media], is_hashed, UNPACKED_MOST, layout.unpacked)
    with Sealing() as sealing:
        try:
            for data in image_pieces(iter(lambda: source.read(PIECE), b"")):
                # zeros take no room on the disk, and have their digests once
                if len(data) == len(ZEROS) and is_zeros(data):
                    sealing.add(ZEROS)
                    file.seek(len(data), os.SEEK_CUR)
                else:
                    sealing.add(data)
                    write_all(file, data)
            file.truncate(sealing.size)
        finally:
            source.close()
        seal = sealing.seal()
    return source.digest().partition(":")[2] if is_hashed else it.digits, seal
