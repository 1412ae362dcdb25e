"""The layers in the store of strata-layers, by the digests of the chains that they end."""
import os
import threading

from strata_format.files import names_in
from strata_format.refused import Refused
from strata_layers.store import Store
from strata_layers.store_images import image_in, names
from strata_layers.store_seals import ALGORITHM
from strata_layers.verity import TREE, tree_size
from strata_snapshotter.blob_image import chain_digest, is_digest


class StoreLayers:
    """The layers of a store, which is looked at again when its images change. A store in which
    others may write has none."""

    def __init__(self, place):
        self.place, self.store, self.seen, self.found = place, None, None, {}
        self.lock = threading.Lock()

    def opened(self, chain):
        """The layer that ends a chain, and an open file of it; or None."""
        try:
            with self.lock:
                self.look()
                layer = self.found.get(chain)
            number = None if layer is None else self.store.open_layer(layer.digits)
        except (Refused, OSError):
            return None
        if number is not None and os.fstat(number).st_size != layer.size:
            os.close(number)
            return None
        return None if number is None else (layer, number)

    def opened_tree(self, layer):
        """An open file of the fs-verity tree of a layer; None where it has none."""
        try:
            number = None if layer.verity is None else self.store.open_layer(layer.digits + TREE)
        except (Refused, OSError):
            return None
        if number is not None and os.fstat(number).st_size != tree_size(ALGORITHM, layer.size):
            os.close(number)
            return None
        return number

    def look(self):
        """Reads which layers there are, if the images are other ones than before."""
        here = os.stat(self.place)
        if self.store is None or not os.path.samestat(here, os.fstat(self.store.root)):
            self.store, self.seen = Store(self.place), None
        self.store.hold_own()
        images = self.store.images
        seen = sorted((name, it.st_ino, it.st_mtime_ns) for name in names_in(images)
                      for it in [os.stat(name, dir_fd=images, follow_symlinks=False)])
        if seen != self.seen:
            self.found = {chain: layer for name in names(self.store)
                          for chain, layer in chains_of(self.store, name)}
            self.seen = seen


def chains_of(store, name):
    """The layers of an image by their chains; none where the image says no archives' digests."""
    try:
        image = image_in(store, name)
    except Refused:
        return
    rootfs = image.config.get("rootfs")
    archives = rootfs.get("diff_ids") if isinstance(rootfs, dict) else None
    if not isinstance(archives, list) or len(archives) != len(image.layers):
        return
    chain = None
    for archive, layer in zip(archives, image.layers):
        if not isinstance(archive, str) or not is_digest(archive):
            return
        chain = chain_digest(chain, archive)
        yield chain, layer
