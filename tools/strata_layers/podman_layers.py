"""`podman --layers`: an additional layer store for podman and CRI-O, of the layers of one image.
podman looks for a layer by its blob's digest before it fetches it:

    DIR/DIGEST/diff             the folder on which the layer is mounted, alone
    DIR/DIGEST/layer.romfs      its image
    DIR/DIGEST/info             its digests and sizes
    DIR/DIGEST/blob             empty: a store has no blobs, so podman can't push or save the layer

overlayfs lays the mounts on one another, so in these images a whiteout is what it is there: a
device of the numbers 0, 0. An opaque folder has one for each name that a layer below has in it.
"""
import json
import os
import re

from strata_format import romfs
from strata_format.files import names_in, new_file, open_folder, write_all
from strata_format.image import Image
from strata_format.read_romfs import ReadImage
from strata_format.refused import Refused
from strata_layers.entries import MARKER, OPAQUE
from strata_layers.image_maker import VOLUME_NAME
from strata_layers.store_images import held_layer

# a record of the store is named by the digest of the blob of which layers were made
RECORD = re.compile("(sha256-[0-9a-f]{64})(-bare)?")
WHITEOUT = 0, 0
PIECE = 1 << 20


# --- layers as overlayfs has them ---

class Layer:
    """Puts what is in the image of a layer into another one. `lowers` are the images below it."""

    def __init__(self, read, lowers, image):
        self.read, self.lowers, self.image = read, lowers, image
        # where a header was met first, and the hard links, which come last
        self.paths, self.links = {}, []

    def put(self):
        todo = [()]
        while todo:
            path = todo.pop()
            at = self.read.found(path)
            self.attribute(self.image.directory(path, True), at)
            members = self.read.members(at)
            if OPAQUE in members:
                self.put_whiteouts(path, members)
            for name in members:
                if self.put_member((*path, name), members[name]):
                    todo.append((*path, name))
        for path, at in self.links:
            self.image.hard_link(path, self.paths[at])

    def put_whiteouts(self, path, members):
        """What an opaque folder hides."""
        found = [(it, it.found(path)) for it in self.lowers]
        hidden = {name for it, at in found if at is not None and it.is_folder(at)
                  for name in it.members(at)}
        for name in hidden - set(members):
            if not name.startswith(MARKER):
                self.image.device((*path, name), romfs.CHARACTER, *WHITEOUT)

    def put_member(self, path, at):
        """Puts what stands at a path; whether that is a folder."""
        name, (_, kind, spec, size) = path[-1], self.read.header(at)
        if name == OPAQUE:
            return False
        if name.startswith(MARKER):
            self.image.device((*path[:-1], name[len(MARKER):]), romfs.CHARACTER, *WHITEOUT)
            return False
        if kind == romfs.HARD:
            self.links.append((path, self.read.end(at)))
        elif kind != romfs.DIRECTORY:
            self.paths[at] = path
            self.attribute(self.node(path, at, kind, spec, size), at)
        return kind == romfs.DIRECTORY

    def attribute(self, it, at):
        it.said = self.read.said(at)
        self.image.extend(it, self.read.list_of(at))

    def node(self, path, at, kind, spec, size):
        if kind == romfs.REGULAR:
            return self.image.file(path, self.read.is_executable(at), size,
                                   self.read.pieces(at, PIECE))
        if kind == romfs.SYMLINK:
            return self.image.symlink(path, b"".join(self.read.pieces(at, PIECE)))
        if kind in (romfs.SOCKET, romfs.FIFO):
            return self.image.special(path, kind)
        return self.image.device(path, kind, spec >> 16, spec & 0xffff)


# --- the store ---

def blobs_by_layers(store):
    """The digests of blobs by what they unpack to and the image that was made of them."""
    found = {}
    for name in names_in(store.records):
        blob = RECORD.fullmatch(name)
        value = store.small_json(store.records, name) if blob else None
        layers = value.get("layers") if value is not None else None
        if isinstance(layers, list) and len(layers) == 1 and isinstance(layers[0], dict):
            key = value.get("archive"), layers[0].get("digest")
            found.setdefault(key, set()).add(blob[1].replace("-", ":"))
    return found


class LayerStore:
    """The layers of one image of a store, in a new or an empty folder."""

    def __init__(self, folder, name, image, store):
        self.folder, self.name, self.image, self.store = folder, name, image, store

    def write(self):
        """Writes all but what the mounts show; the images, and where each is to be mounted."""
        archives, blobs = self.archives(), blobs_by_layers(self.store)
        lowers, found = [], []
        for archive, layer in zip(archives, self.image.layers):
            number = held_layer(self.store, layer, self.name, None)
            try:
                read = ReadImage(number)
            finally:
                os.close(number)
            for blob in sorted(blobs.get((archive, "sha256:" + layer.digits), ())):
                found.append(self.write_layer(blob, archive, layer, read, lowers))
            lowers.append(read)
        if not found:
            raise Refused("%s: the store does not know of which blobs its layers are" % self.name)
        return found

    def archives(self):
        """The digests of what the layers' blobs unpack to."""
        found = self.image.config.get("rootfs", {}).get("diff_ids", [])
        if len(found) != len(self.image.layers):
            raise Refused("%s: a layer has several images, which podman cannot take" % self.name)
        return found

    def write_layer(self, blob, archive, layer, read, lowers):
        """Writes what podman reads of a layer; its image, and where that is to be mounted."""
        place = os.path.join(self.folder, blob)
        os.makedirs(os.path.join(place, "diff"))
        number = open_folder(place)
        try:
            with new_file(number, place, 0o644) as new:
                image = Image(lambda: new.file, VOLUME_NAME)
                Layer(read, lowers, image).put()
                image.finish()
                new.keep(number, "layer.romfs")
            said = {"compressed-diff-digest": blob, "compressed-size": layer.size,
                    "diff-digest": archive, "diff-size": layer.size}
            for name, data in (("blob", b""), ("info", json.dumps(said).encode())):
                with new_file(number, place, 0o644) as new:
                    write_all(new.file, data)
                    new.keep(number, name)
        finally:
            os.close(number)
        return [os.path.join(place, "layer.romfs")], os.path.join(place, "diff")
