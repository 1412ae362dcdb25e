"""`podman`: an additional image store for podman and CRI-O, of one image whose files a mount shows.

It is what containers/storage calls a read-only store, and its driver `overlay` reads:

    DIR/overlay/ID/diff                the folder on which the image is mounted
    DIR/overlay/ID/link, DIR/overlay/l/SHORT    a short name of it
    DIR/overlay-layers/layers.json     the one layer
    DIR/overlay-images/images.json     the image, with its configuration and a manifest
"""
import base64
import hashlib
import json
import os
import shutil

from strata_format.files import make_folder, new_file, write_all
from strata_format.refused import Refused, shown
from strata_layers.store_images import split_image

MANIFEST = "application/vnd.oci.image.manifest.v1+json"
CONFIG = "application/vnd.oci.image.config.v1+json"
LAYER = "application/vnd.oci.image.layer.v1.tar"
# when a store was made says nothing of its image
CREATED = "1970-01-01T00:00:00Z"
SHORT_MOST = 26
NAMED = "localhost/"


def digits_of(data):
    return hashlib.sha256(data).hexdigest()


def data_name(name):
    """The file of a piece of an image's data, as containers/storage names it."""
    if all(it.isascii() and it.isalnum() or it in "-_." for it in name):
        return name
    return "=" + base64.b64encode(name.encode()).decode()


class new_or_empty:
    """A folder that must be new or empty, and is so again where what writes to it fails."""

    def __init__(self, folder):
        self.folder, self.is_new = folder, not os.path.isdir(folder)
        if not self.is_new and os.listdir(folder):
            raise Refused("%s: is not empty" % shown(folder))

    def __enter__(self):
        return self

    def __exit__(self, kind, *_):
        if kind is None or not os.path.isdir(self.folder):
            return
        for name in os.listdir(self.folder):
            shutil.rmtree(os.path.join(self.folder, name))
        if self.is_new:
            os.rmdir(self.folder)


class ImageStore:
    """The store of one image in a new or an empty folder."""

    def __init__(self, folder, name, image, store):
        self.folder, self.word, self.image, self.store = folder, name, image, store
        self.name = "%s%s:%s" % (NAMED, *split_image(name))
        layers = "".join(it.digits for it in image.layers).encode()
        self.layer = digits_of(layers)
        rootfs = {"type": "layers", "diff_ids": ["sha256:" + self.layer]}
        # a history says as much of each layer, and the layers are one here
        config = {key: it for key, it in image.config.items() if key != "history"}
        self.config = json.dumps({**config, "rootfs": rootfs}, sort_keys=True).encode()
        self.manifest = json.dumps({
            "schemaVersion": 2, "mediaType": MANIFEST,
            "config": {"mediaType": CONFIG, "digest": "sha256:" + digits_of(self.config),
                       "size": len(self.config)},
            "layers": [{"mediaType": LAYER, "digest": "sha256:" + self.layer, "size": self.size()}],
        }).encode()

    def size(self):
        return sum(it.size for it in self.image.layers)

    def mount_place(self):
        return os.path.join(self.folder, "overlay", self.layer, "diff")

    # --- what is written ---

    def put(self, path, data):
        """Writes a file below the folder."""
        folder, name = os.path.split(os.path.join(self.folder, path))
        os.makedirs(folder, exist_ok=True)
        number = make_folder(folder)
        try:
            with new_file(number, folder, 0o644) as new:
                write_all(new.file, data)
                new.keep(number, name)
        finally:
            os.close(number)

    def write(self):
        """Writes all but what the mount shows, images.json last; the image, and where it is to be
        mounted."""
        short = base64.b32encode(bytes.fromhex(self.layer)).decode()[:SHORT_MOST]
        os.makedirs(self.mount_place())
        os.mkdir(os.path.join(self.folder, "overlay", "l"))
        os.symlink("../%s/diff" % self.layer, os.path.join(self.folder, "overlay", "l", short))
        self.put("overlay/%s/link" % self.layer, short.encode())
        self.put("overlay-layers/layers.lock", b"")
        self.put("overlay-layers/layers.json", json.dumps([self.layer_said()]).encode())
        image = digits_of(self.config)
        for name, data in self.data().items():
            self.put("overlay-images/%s/%s" % (image, data_name(name)), data)
        self.put("overlay-images/images.lock", b"")
        self.put("overlay-images/images.json", json.dumps([self.image_said(image)]).encode())
        return [(["--store", self.store.place, "image:" + self.word], self.mount_place())]

    def data(self):
        return {"manifest": self.manifest,
                "manifest-sha256:" + digits_of(self.manifest): self.manifest,
                "sha256:" + digits_of(self.config): self.config}

    def layer_said(self):
        digest = "sha256:" + self.layer
        return {"id": self.layer, "created": CREATED, "compressed-diff-digest": digest,
                "compressed-size": self.size(), "diff-digest": digest, "diff-size": self.size()}

    def image_said(self, image):
        data = self.data()
        return {"id": image, "digest": "sha256:" + digits_of(self.manifest), "names": [self.name],
                "layer": self.layer, "metadata": "{}", "big-data-names": list(data),
                "big-data-sizes": {name: len(it) for name, it in data.items()},
                "big-data-digests": {name: "sha256:" + digits_of(it) for name, it in data.items()},
                "created": CREATED}
