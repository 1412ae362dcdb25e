"""Images for these checks: archives by Python's tarfile, layouts of them, and what they show, said
by hand."""
import gzip
import hashlib
import io
import json
import os
import tarfile

OCI = "application/vnd.oci.image."
ARCHIVE, MANIFEST, INDEX = OCI + "layer.v1.tar", OCI + "manifest.v1+json", OCI + "index.v1+json"
CONFIG, ROMFS = OCI + "config.v1+json", "application/vnd.strata.layer.v1.romfs"
TAG = "org.opencontainers.image.ref.name"


def digest(data):
    return "sha256:" + hashlib.sha256(data).hexdigest()


def fsverity_digest(data):
    """The fs-verity digest of some bytes (Documentation/filesystems/fsverity.rst), plainly."""
    level = [data[at:at + 4096].ljust(4096, b"\0") for at in range(0, len(data), 4096)]
    hashes = [hashlib.sha256(block).digest() for block in level]
    while len(hashes) > 1:
        joined = b"".join(hashes)
        hashes = [hashlib.sha256(joined[at:at + 4096].ljust(4096, b"\0")).digest() for at in range(0, len(joined), 4096)]
    root = hashes[0] if hashes else bytes(32)
    said = bytes([1, 1, 12, 0]) + bytes(4) + len(data).to_bytes(8, "little") + root.ljust(64, b"\0")
    return digest(said.ljust(256, b"\0"))


def entry(name, data=b"", kind=tarfile.REGTYPE, mode=0o644, **more):
    info = tarfile.TarInfo(name)
    info.type, info.mode, info.size = kind, mode, len(data)
    for field, value in more.items():
        setattr(info, field, value)
    return info, data


def folder(name, mode=0o755, **more):
    return entry(name, kind=tarfile.DIRTYPE, mode=mode, **more)


def link(name, target):
    return entry(name, kind=tarfile.SYMTYPE, mode=0o777, linkname=target)


def hard(name, target):
    return entry(name, kind=tarfile.LNKTYPE, linkname=target)


def archive(*entries):
    room = io.BytesIO()
    with tarfile.open(fileobj=room, mode="w", format=tarfile.PAX_FORMAT) as tar:
        for info, data in entries:
            tar.addfile(info, io.BytesIO(data))
    return room.getvalue()


# five layers with whiteouts of both kinds, owners and modes
LAYERS = (
    archive(folder("bin"), entry("bin/say", b"#!/bin/sh\n", mode=0o755), hard("bin/tell", "bin/say"),
            link("sh", "bin/say"), folder("root", mode=0o700), entry("root/key", b"secret", mode=0o600)),
    archive(folder("var"), folder("var/cache"), entry("var/cache/1", b"one"), entry("var/cache/2", b"two"),
            entry("data", bytes(range(256)) * 300, uid=1000, gid=1000)),
    archive(entry("bin/.wh.tell"), entry("etc/name", b"first\n")),
    archive(entry("var/cache/.wh..wh..opq"), entry("var/cache/3", b"three")),
    archive(entry("etc/name", b"second\n"), folder("tmp", mode=0o1777)),
)
# what all five show: type and mode, the layer on top of those that have it, and a file's size
SHOWN = {
    "/": ("040755", 4, 0), "/bin": ("040755", 2, 0), "/bin/say": ("100755", 0, 10),
    "/data": ("100644", 1, 76800), "/etc": ("040755", 4, 0), "/etc/name": ("100644", 4, 7),
    "/root": ("040755", 0, 0), "/root/key": ("100644", 0, 6), "/sh": ("120777", 0, 7),
    "/tmp": ("040755", 4, 0), "/var": ("040755", 3, 0), "/var/cache": ("040755", 3, 0),
    "/var/cache/3": ("100644", 3, 5),
}
# the modes that the layers say, where `list` without attributes shows others
MODES = {"/root": "040700", "/root/key": "100600", "/tmp": "041777"}
RUN = {"Entrypoint": ["/bin/say", "it's"], "Cmd": ["a b"], "Env": ["PATH=/bin", "WORD=x y"],
       "WorkingDir": "/var", "User": "7:8"}


class Layout:
    """An image layout that is written into a new folder."""

    def __init__(self, path, run=None):
        self.path, self.run = path, run or RUN
        os.makedirs(os.path.join(path, "blobs", "sha256"))
        self.write("oci-layout", json.dumps({"imageLayoutVersion": "1.0.0"}).encode())

    def write(self, name, data):
        with open(os.path.join(self.path, name), "wb") as out:
            out.write(data)

    def blob_path(self, its_digest):
        return os.path.join(self.path, "blobs", *its_digest.split(":"))

    def blob(self, media, data, **more):
        data = data if isinstance(data, bytes) else json.dumps(data).encode()
        self.write("blobs/sha256/" + digest(data).partition(":")[2], data)
        return {"mediaType": media, "digest": digest(data), "size": len(data), **more}

    def image(self, archives, platform=("linux", "amd64"), diff_ids=None, **more):
        """An image of archives, each packed by gzip; the descriptor of its manifest."""
        layers = [self.blob(ARCHIVE + "+gzip", gzip.compress(it, mtime=0)) for it in archives]
        return self.image_of(layers, diff_ids or [digest(it) for it in archives], platform, **more)

    def image_of(self, layers, diff_ids, platform=("linux", "amd64"), **more):
        config = self.blob(CONFIG, {"os": platform[0], "architecture": platform[1], "config": self.run,
                                    "rootfs": {"type": "layers", "diff_ids": diff_ids}})
        value = {"schemaVersion": 2, "mediaType": MANIFEST, "config": config, "layers": layers}
        return self.blob(MANIFEST, value, **more)

    def index(self, *descriptors):
        self.write("index.json", json.dumps({"schemaVersion": 2, "manifests": descriptors}).encode())


def tagged(descriptor, name):
    return {**descriptor, "annotations": {TAG: name}}


def layout(path, archives=LAYERS, tag="1"):
    it = Layout(path)
    it.index(tagged(it.image(archives), tag))
    return it


class Read:
    """A layout that was written, read plainly: each blob must have its digest."""

    def __init__(self, path, tag):
        self.path = path
        with open(os.path.join(path, "index.json"), "rb") as file:
            found = [it for it in json.load(file)["manifests"] if it["annotations"][TAG] == tag]
        self.top, = found

    def blob(self, descriptor):
        with open(os.path.join(self.path, "blobs", *descriptor["digest"].split(":")), "rb") as file:
            data = file.read()
        assert (digest(data), len(data)) == (descriptor["digest"], descriptor["size"])
        return data

    def json(self, descriptor):
        return json.loads(self.blob(descriptor))
