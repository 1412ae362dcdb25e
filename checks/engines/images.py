"""Images for engines: busybox, with whiteouts, opaque folders, replaced kinds, hard links,
owners."""
import hashlib
import os
import shutil
import subprocess
import tarfile

from checks.registry import made

PROGRAMS = ("sh ls cat id stat echo mkdir rm touch find sha256sum mount sleep true wc sort head ln "
            "mv chmod grep dd").split()
FRACTION = {"mtime": "1700000000.25"}
RUN = {"Env": ["PATH=/bin"], "Cmd": ["/bin/sh"]}
NAME = "io.containerd.image.name"


def entry(name, data=b"", **more):
    return made.entry(name, data, pax_headers={**FRACTION, **more.pop("pax", {})}, **more)


def folder(name, mode=0o755, **more):
    return made.folder(name, mode, pax_headers=FRACTION, **more)


def hard(name, target):
    # what unpacks it gives the file the time that is said here, too
    return entry(name, kind=tarfile.LNKTYPE, linkname=target)


def large(size):
    return b"".join(hashlib.sha256(b"%d" % number).digest() for number in range(size // 32))


def lowest():
    with open(shutil.which("busybox"), "rb") as file:
        busybox = file.read()
    folders = [folder(it) for it in ("bin", "etc", "proc", "sys", "dev", "var", "var/cache", "home",
                                     "usr",
                                     "opt", "opt/o", "opt/o/deep", "run", "kind")]
    return [
        *folders, folder("tmp", 0o1777), folder("home/u", 0o700, uid=1000, gid=1000),
        entry("bin/busybox", busybox, mode=0o755),
        *(made.link("bin/" + it, "busybox") for it in PROGRAMS),
        entry("etc/passwd", b"root:x:0:0::/:/bin/sh\nu:x:1000:1000::/home/u:/bin/sh\n"),
        entry("etc/group", b"root:x:0:\nu:x:1000:\n"), entry("etc/motd", b"below\n"),
        hard("etc/issue", "etc/motd"), hard("etc/third", "etc/motd"),
        entry("etc/shadow", b"secret\n", mode=0o600), entry("var/cache/one", b"1"),
        entry("var/cache/two", b"2"),
        entry("usr/sudo", b"#!/bin/sh\n", mode=0o4755), entry("usr/large", large(1 << 20)),
        entry("opt/o/below", b"1"), entry("opt/o/deep/x", b"1"), entry("kind/file", b"f"),
        folder("kind/folder"),
        entry("kind/folder/x", b"x"), made.link("kind/link", "file"),
        made.entry("dev/fifo", kind=tarfile.FIFOTYPE, mode=0o640)]


# kinds of images: the odd one's second layer has a device that no image of romfs holds, and an
# attribute; the linked one's third layer has hard links over those of the lowest (containerd itself
# refuses links to files of lower layers alone); the long one has more layers than strata stacks; the
# third layer of the slow one has so many files that its image takes longer than a container's start
PLAIN, ODD, LINKED, LONG, SLOW = "plain", "odd", "linked", "long", "slow"
LONG_LAYERS, SLOW_FILES = 130, 3000


def layers(kind=PLAIN):
    """Archives of three layers, or of many."""
    more = {"SCHILY.xattr.user.colour": "green"} if kind == ODD else {}
    device = made.entry("dev/far", kind=tarfile.CHRTYPE, devmajor=1, devminor=70000)
    second = [
        folder("opt/o", 0o711), entry("opt/o/.wh..wh..opq"), entry("opt/o/new", b"2"),
        folder("etc"),
        entry("etc/.wh.motd"), folder("var/cache", 0o750), entry("var/cache/.wh..wh..opq"),
        entry("var/cache/three", b"3"), entry("usr/.wh.nothing"),
        entry("etc/shadow", b"other\n", mode=0o640, gid=42),
        entry("usr/sudo", b"#!/bin/sh\n", mode=0o4755, pax=more), *[device] * (kind == ODD)]
    third = [
        entry("home/u/file", b"mine\n", uid=1000, gid=1000), entry("var/.wh.cache"),
        folder("kind/file"),
        entry("kind/file/now", b"n"), entry("kind/folder", b"a file"),
        entry("kind/link", b"no link")]
    if kind == LINKED:
        third += [entry("etc/third", b"anew\n"), hard("home/u/again", "etc/third"),
                  entry("usr/sudo", b"two names\n", mode=0o4711), hard("etc/passwd", "usr/sudo")]
    if kind == SLOW:
        third += [folder("opt/many"), *(entry("opt/many/%d" % number, b"%d" % number)
                                        for number in range(SLOW_FILES))]
    more = LONG_LAYERS - 3 if kind == LONG else 0
    rest = [[entry("opt/o/%d" % number, b"%d" % number)] for number in range(more)]
    return [made.archive(*it) for it in (lowest(), second, third, *rest)]


class Image:
    """An image as a layout, and as an archive that ctr imports."""

    def __init__(self, path, name, archives):
        self.path, self.name, self.archive = path, name, path + ".tar"
        layout = made.Layout(path, RUN)
        described = layout.image(archives)
        layout.index({**described, "annotations": {made.TAG: "1", NAME: name}})
        self.layers = [made.digest(it) for it in archives]
        with tarfile.open(self.archive, "w") as tar:
            for it in sorted(os.listdir(path)):
                tar.add(os.path.join(path, it), it)

    def push(self, host, name):
        push(self.path, host, name)


def push(path, host, name):
    """Copies the image of a layout into a registry."""
    subprocess.run(["skopeo", "copy", "-q", "--dest-tls-verify=false", "oci:%s:1" % path,
                    "docker://%s/%s" % (host, name)], check=True, stdin=subprocess.DEVNULL)
