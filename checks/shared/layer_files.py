"""Layers and image layouts for tests: tar archives by Python's tarfile, and the files of a layout."""
import gzip
import hashlib
import io
import json
import os
import tarfile

LAYER = "application/vnd.oci.image.layer.v1.tar"
MANIFEST = "application/vnd.oci.image.manifest.v1+json"
INDEX = "application/vnd.oci.image.index.v1+json"
CONFIG = "application/vnd.oci.image.config.v1+json"
REFERENCE = "org.opencontainers.image.ref.name"
# what says beside the images of a layout's layers which they are
BESIDE = ".layers.json"


def images_in(folder):
    """The images that were made in a folder, in order."""
    return [os.path.join(folder, name) for name in sorted(os.listdir(folder)) if name != BESIDE]


# --- entries: a header, and its data ---

def entry(kind, name, data=b"", **fields):
    info = tarfile.TarInfo(name.decode("utf-8", "surrogateescape") if isinstance(name, bytes) else name)
    info.type, info.size, info.mode = kind, len(data), 0o755 if kind == tarfile.DIRTYPE else 0o644
    for field, value in fields.items():
        setattr(info, field, value)
    return info, data


def directory(name, **fields):
    return entry(tarfile.DIRTYPE, name, **fields)


def file(name, data=b"", **fields):
    return entry(tarfile.REGTYPE, name, data, **fields)


def symlink(name, target, **fields):
    return entry(tarfile.SYMTYPE, name, linkname=target, **fields)


def hard(name, target, **fields):
    return entry(tarfile.LNKTYPE, name, linkname=target, **fields)


def character(name, major, minor, **fields):
    return entry(tarfile.CHRTYPE, name, devmajor=major, devminor=minor, **fields)


def block(name, major, minor, **fields):
    return entry(tarfile.BLKTYPE, name, devmajor=major, devminor=minor, **fields)


def fifo(name, **fields):
    return entry(tarfile.FIFOTYPE, name, **fields)


def archive(entries, form=tarfile.PAX_FORMAT):
    """A tar archive. Long names go into extended headers of POSIX, or into those of GNU tar, by the form."""
    room = io.BytesIO()
    with tarfile.open(fileobj=room, mode="w", format=form, encoding="utf-8", errors="surrogateescape") as tar:
        for info, data in entries:
            tar.addfile(info, io.BytesIO(data))
    return room.getvalue()


# --- layouts ---

class LayoutFolder:
    """An image layout that is being written into a new folder."""

    def __init__(self, path):
        self.path, self.unpacked = path, {}
        os.makedirs(os.path.join(path, "blobs", "sha256"))
        os.mkdir(os.path.join(path, "blobs", "sha512"))
        self.write("oci-layout", {"imageLayoutVersion": "1.0.0"})

    def write(self, name, value):
        data = value if isinstance(value, bytes) else json.dumps(value, separators=(",", ":")).encode()
        with open(os.path.join(self.path, name), "wb") as out:
            out.write(data)

    def blob(self, media, value, algorithm="sha256", **fields):
        """Writes a blob; its descriptor, with these fields of its own."""
        data = value if isinstance(value, bytes) else json.dumps(value, separators=(",", ":")).encode()
        digits = hashlib.new(algorithm, data).hexdigest()
        self.write(os.path.join("blobs", algorithm, digits), data)
        return {"mediaType": media, "digest": "%s:%s" % (algorithm, digits), "size": len(data), **fields}

    def layer(self, data, packed="gzip", **fields):
        media = LAYER + ("+" + packed if packed else "")
        layer = self.blob(media, gzip.compress(data, mtime=0) if packed else data, **fields)
        self.unpacked[layer["digest"]] = "sha256:" + hashlib.sha256(data).hexdigest()
        return layer

    def manifest(self, layers, **fields):
        diffs = [self.unpacked.get(it["digest"], it["digest"]) for it in layers if isinstance(it, dict) and "digest" in it]
        config = self.blob(CONFIG, {"architecture": "amd64", "os": "linux", "rootfs": {"type": "layers", "diff_ids": diffs}})
        return self.blob(MANIFEST, {"schemaVersion": 2, "mediaType": MANIFEST, "config": config, "layers": layers}, **fields)

    def nested(self, manifests, **fields):
        return self.blob(INDEX, {"schemaVersion": 2, "mediaType": INDEX, "manifests": manifests}, **fields)

    def index(self, manifests):
        self.write("index.json", {"schemaVersion": 2, "manifests": manifests})


def tag(name):
    return {"annotations": {REFERENCE: name}}


def layout_of(path, archives, packed=("gzip", "")):
    """A layout of one image of these archives, packed by turns."""
    folder = LayoutFolder(path)
    layers = [folder.layer(data, packed[number % len(packed)]) for number, data in enumerate(archives)]
    folder.index([folder.manifest(layers, **tag("latest"))])
    return folder
