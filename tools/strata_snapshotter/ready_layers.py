"""Layers that stand ready when a snapshot is prepared for them: in the store of strata-layers, or
as a blob in containerd's content store.

A client that unpacks an image says which chain of layers a snapshot will end, and CRI and others
say the digests of the layer's blob and of those above it, too.
"""
import logging
import os

from strata_format.refused import Refused
from strata_layers.verity import TREE
from strata_snapshotter.blob_image import chain_digest, is_digest, write_blob_image
from strata_snapshotter.faults import why_of
from strata_snapshotter.given_image import hold_image

REFERENCE = "containerd.io/snapshot.ref"
BLOB = "containerd.io/snapshot/cri.layer-digest"
LAYERS = "containerd.io/snapshot/cri.image-layers"


def chain_of(snapshot):
    """The digest of the chain that a layer ends, as it was unpacked for it; else None. containerd
    names such a snapshot by it."""
    said = snapshot.labels.get(REFERENCE, snapshot.name.rpartition("/")[2])
    return said if is_digest(said) else None


def is_highest(labels):
    """Whether no layer of the image comes over that for which a snapshot is prepared; None if that
    is not said. What is said are the digests of its blob and of all above it."""
    return None if LAYERS not in labels else "," not in labels[LAYERS]


class ReadyLayers:
    """The layers of a store and of a content store, for a snapshotter's places."""

    def __init__(self, held, store, content, program):
        self.places, self.store, self.content = held, store, content
        self.program = program

    def is_there(self, labels):
        """Whether a layer is in the store, or its blob at hand."""
        found = self.store.opened(labels[REFERENCE])
        if found is not None:
            os.close(found[1])
            return True
        return self.content.find(labels.get(BLOB)) is not None

    def write(self, labels, parent, images, file, path):
        """Writes the image of the layer for which a snapshot is prepared, over a parent (or None)
        that is made of images, the lowest first, to a new file, and its tree beside it; its
        fs-verity digest, or None where no layer stands ready."""
        chain = labels[REFERENCE]
        found = self.store.opened(chain)
        if found is None:
            is_written = self.write_blob(chain, labels.get(BLOB), parent, images, file, path)
            return self.places.seal(path) if is_written else None
        layer, number = found
        try:
            self.places.take(number, file, path)
            return self.take_tree(layer, path)
        finally:
            os.close(number)

    def take_tree(self, layer, path):
        """Puts the tree of a layer of the store beside its new image; its fs-verity digest."""
        number = self.store.opened_tree(layer)
        if number is None:
            return self.places.seal(path)
        try:
            with open(path + TREE, "xb", 0) as file:
                self.places.take(number, file, path + TREE)
                os.fsync(file.fileno())
        finally:
            os.close(number)
        return layer.verity

    def write_blob(self, chain, digest, parent, images, out, path):
        """The same of a blob that is at hand."""
        found, below = self.content.find(digest), None
        if found is None:
            return False
        if parent is not None:
            below = chain_of(parent)
            if below is None:
                return False
        files = []
        try:
            files += [open(path, "rb", 0) for path in images]
            archive, is_image = write_blob_image(*found, out, [it.fileno() for it in files])
            if is_image:
                hold_image(self.program, path)
        except (Refused, OSError, MemoryError) as fault:
            logging.info("%s is unpacked: %s", digest, why_of(fault))
            return False
        finally:
            for it in files:
                it.close()
        if chain_digest(below, archive) != chain:
            logging.warning("%s is unpacked: it is not the layer of %s", digest, chain)
            return False
        return True
