"""Tests of tools/layers.py: packing, digests, sizes, and which image of a layout is meant. A test is a function of a room."""
import gzip
import io
import os
import shutil
import struct
import sys
import types

from checks.layers.layer_room import expect, run_tool
from checks.shared.layer_files import LAYER, LayoutFolder, archive, file, layout_of, tag
from strata_layers import layouts, packing


def test_packing(room):
    data = archive([file("a", b"1" * 3000)])
    parts = LayoutFolder(room.name())
    joined = gzip.compress(data[:700]) + gzip.compress(data[700:])
    parts.index([parts.manifest([parts.blob(LAYER + "+gzip", joined), parts.layer(data, "", algorithm="sha512"),
                                 parts.blob("application/vnd.docker.image.rootfs.diff.tar.gzip", gzip.compress(data))])])
    room.taken(parts.path, [data] * 3)
    packed = gzip.compress(data)
    for broken in (packed[:-9], packed[:20] + bytes(20) + packed[40:], b"no gzip", packed[:60]):
        parts.index([parts.manifest([parts.blob(LAYER + "+gzip", broken)])])
        room.refused(parts.path, "layer 0: the compressed data is broken: ..")
    parts.index([parts.manifest([parts.layer(data), parts.blob(LAYER + "+encrypted", data)])])
    room.refused(parts.path, "blob ..: no layer of files, but %s+encrypted" % LAYER)


def hold_no_zstd(room, layout):
    """A packing that no program here makes is refused before any layer is made."""
    store = room.name()
    status, _, told = run_tool("convert", "--store", store, "--compress", "zstd", layout, room.name())
    expect((status, len(told)) == (1, 1) and "install the package zstd" in told[0], "told %r" % told)
    expect(os.listdir(store + "/blobs/sha256") == [], "layers were made")


def test_zstd(room):
    data = archive([file("a", b"1" * 3000)])
    # a frame of one block that is not packed: magic, a window for one segment, its size, the block's header
    size = len(data)
    frame = b"\x28\xb5\x2f\xfd\xa0" + struct.pack("<I", size) + struct.pack("<I", size << 3 | 1)[:3] + data
    parts = LayoutFolder(room.name())
    parts.index([parts.manifest([parts.blob(LAYER + "+zstd", frame)])])
    if packing.zstd_module() is None:
        path, os.environ["PATH"] = os.environ["PATH"], ""
        try:
            room.refused(parts.path, "layer 0: zstd needs the program zstd: install the package zstd ..")
            hold_no_zstd(room, layout_of(room.name(), [data]).path)
        finally:
            os.environ["PATH"] = path
        if shutil.which("zstd") is None:
            return
    room.taken(parts.path, [data])
    parts.index([parts.manifest([parts.blob(LAYER + "+zstd", frame[:-1])])])
    room.refused(parts.path, "layer 0: the compressed data is broken: ..")


class StoredFrames:
    """Stands in for Python 3.14's module: frames whose one block is stored, behind 12 bytes."""

    class ZstdFile:
        def __init__(self, source):
            self.data = io.BytesIO(b"".join(iter(lambda: source.read(100), b""))[12:])

        def read(self, size):
            return self.data.read(size)


def test_zstd_of_python(room):
    """Python's own module is used where there is one, and no program."""
    data = archive([file("a", b"1" * 3000)])
    parts, path = LayoutFolder(room.name()), os.environ["PATH"]
    parts.index([parts.manifest([parts.blob(LAYER + "+zstd", bytes(12) + data)])])
    package = types.ModuleType("compression")
    package.zstd = StoredFrames
    os.environ["PATH"], sys.modules["compression"] = "", package
    try:
        folder = room.name()
        expect(room.convert(parts.path, folder)[0] == 0, "it was refused")
    finally:
        os.environ["PATH"] = path
        del sys.modules["compression"]
    room.hold([folder + "/00.romfs"], [data])


def test_digests(room):
    data = archive([file("a", b"1" * 3000)])
    parts = LayoutFolder(room.name())
    good = parts.layer(data, "")
    name = os.path.join("blobs", *good["digest"].split(":"))
    for value, line in [
            (data[:-1] + b"\1", "blob %s: its digest is .." % good["digest"]),
            (b"x" + data[1:], "blob %s: its digest is .." % good["digest"]),
            (data + b"1", "blob %s: 10241 bytes, and its descriptor says 10240" % good["digest"])]:
        parts.index([parts.manifest([parts.layer(archive([file("x")])), good])])
        parts.write(name, value)
        room.refused(parts.path, line)
    for digest in ("sha256:../../../etc/passwd", "md5:" + "0" * 32, "sha256:" + "A" * 64, "sha512:" + "0" * 64, "sha256", ""):
        parts.index([parts.manifest([{**good, "digest": digest}])])
        room.refused(parts.path, "blob ..: the digest '%s', where sha256 or sha512 is wanted" % digest)
    missing = "sha256:" + "0" * 64
    parts.index([parts.manifest([{**good, "digest": missing}])])
    room.refused(parts.path, "blob %s: no such file or directory" % missing)


def test_documents(room):
    """A manifest or an index of another digest, size or form."""
    parts = LayoutFolder(room.name())
    good = parts.layer(archive([file("x")]))
    it = parts.manifest([good])
    where = "blob " + it["digest"]
    parts.index([{**it, "size": it["size"] + 1}])
    room.refused(parts.path, "%s: %d bytes, and its descriptor says %d" % (where, it["size"], it["size"] + 1))
    parts.index([it])
    with open(os.path.join(parts.path, "blobs", *it["digest"].split(":")), "rb+") as file_:
        file_.write(b" ")
    room.refused(parts.path, where + ": its digest is ..")
    for value, line in [
            (b"no json", ": no JSON"), (b"[" * 100000, ": no JSON"), (b"[]", ": no JSON object"), (b"\xff", ": no JSON"),
            ({}, ": no valid 'layers'"), ({"layers": 7}, ": no valid 'layers'"),
            ({"layers": [7]}, ": a descriptor is no object"),
            ({"layers": [{**good, "size": True}]}, ": no valid 'size'"),
            ({"layers": [{**good, "size": -1}]}, ": a size of -1"),
            ({"layers": [{**good, "digest": 7}]}, ": no valid 'digest'"),
            ({"layers": []}, ": 0 layers, allowed 1 to 128"),
            ({"layers": [good] * 129}, ": 129 layers, allowed 1 to 128"),
            ({"layers": [good], "mediaType": "x"}, ": its media type is x")]:
        parts.index([parts.blob(it["mediaType"], value)])
        room.refused(parts.path, "blob .." + line)
    name = parts.path
    for value, line in [(b"{", "/index.json: no JSON"), ({}, "/index.json: no valid 'manifests'"),
                        ({"manifests": []}, "/index.json: nothing for linux/..; there is nothing"),
                        ({"manifests": [{**it, "mediaType": "a b"}]}, "/index.json: no image manifest, but a\\20b"),
                        ({"manifests": [{**it, "annotations": 7}]}, "/index.json: no valid 'annotations'"),
                        ({"manifests": [{**it, "platform": {"os": 7}}]}, "/index.json: no valid 'platform'")]:
        parts.write("index.json", value)
        room.refused(parts.path, name + line)
    os.remove(os.path.join(name, "index.json"))
    room.refused(name, name + "/index.json: no such file or directory")
    parts.write("oci-layout", {"imageLayoutVersion": "2"})
    room.refused(name, name + "/oci-layout: no version 1.0.0")
    os.remove(os.path.join(name, "oci-layout"))
    room.refused(name, name + "/oci-layout: no such file or directory")
    place = room.name()
    os.mkdir(place)
    for word in (place, place + ":1"):
        room.refused(word, "%s/oci-layout: no such file or directory; `strata-layers image %s IMAGE` makes an image of a directory"
                     % (place, place))
    room.refused(name + "x:y", name + "x:y: no such folder")
    room.refused("oci:x", "oci:x: no such folder; name the folder without oci:")
    room.refused("docker://x/y", "docker://x/y: no such folder; `strata-layers pull` brings images of a registry,"
                 " and `skopeo copy` makes a layout of one")


def test_blobs_elsewhere(room):
    """A blob is a file of the layout: no link to one elsewhere, no pipe and no folder."""
    data = archive([file("x")])
    parts = LayoutFolder(room.name())
    it = parts.layer(data, "")
    parts.index([parts.manifest([it])])
    path = os.path.join(parts.path, "blobs", *it["digest"].split(":"))
    os.rename(path, path + "x")
    os.symlink(path + "x", path)
    room.refused(parts.path, "blob %s: is a symbolic link" % it["digest"])
    os.remove(path)
    os.mkfifo(path)
    room.refused(parts.path, "blob %s: no file" % it["digest"])
    os.remove(path)
    os.mkdir(path)
    room.refused(parts.path, "blob %s: .." % it["digest"])



def test_tags(room):
    data = [archive([file("f", b"%d" % number)]) for number in range(3)]
    for name in ("plain", "with:colon"):
        parts = LayoutFolder(os.path.join(room.path, name))
        one, two = (parts.manifest([parts.layer(it)]) for it in data[:2])
        parts.index([{**one, **tag("1.0")}, {**two, **tag("a:b")}])
        room.taken(parts.path + ":1.0", data[:1])
        room.taken(parts.path + ":a:b", data[1:2])
        room.refused(parts.path, "%s/index.json: which tag? There is 1.0, a:b" % parts.path)
        room.refused(parts.path + ":2", "%s/index.json: no tag '2'; there is 1.0, a:b" % parts.path)
        parts.index([one])
        room.taken(parts.path, data[:1])
        room.refused(parts.path + ":1.0", "%s/index.json: no tag '1.0'; there is none" % parts.path)


def test_platforms(room):
    own, *variants = layouts.own_platform()
    data = [archive([file("f", b"%d" % number)]) for number in range(4)]
    parts = LayoutFolder(room.name())

    def image(number, name, architecture, variant=None):
        more = {"variant": variant} if variant else {}
        return parts.manifest([parts.layer(data[number])], platform={"os": name, "architecture": architecture, **more})

    others, here = [image(0, "windows", own), image(1, "linux", "vax")], image(2, "linux", own)
    note = image(3, "unknown", "unknown")
    for manifests in ([*others, here, note], [here, *others], [here], [note, here, image(3, "linux", own)],
                      [image(3, "linux", own, "v99"), here], [image(2, "linux", own, *variants[:1]), image(3, "linux", "vax")]):
        for deep in (1, 2, 3):
            outer = manifests
            for _ in range(deep - 1):
                outer = [parts.nested(outer, **tag("t"))]
            parts.index(outer)
            room.taken(parts.path, data[2:3])
    parts.index([parts.nested([others[1], note])])
    room.taken(parts.path, data[1:2])
    parts.index([parts.nested(others, **tag("t"))])
    mine = "/".join([own, *variants[:1]])
    room.refused(parts.path + ":t", "blob ..: nothing for linux/%s; there is linux/vax, windows/%s" % (mine, own))
    deep = here
    for _ in range(17):
        deep = parts.nested([deep])
    parts.index([deep])
    room.refused(parts.path, "blob ..: no image manifest, but application/vnd.oci.image.index.v1+json")
