"""Holds tools/layers.py and strata against umoci, over images that umoci makes: python3 checks layers_umoci PROGRAM

Four images, three of them of four layers and more, with whiteouts of both kinds: one by `umoci repack` of an edited tree, one by `umoci
insert`, two of archives by `umoci raw add-layer`. What strata shows of the images of the layers must be what `umoci unpack`
writes: at each path the type, whether it is executable, its size, its names, a link's target, the content. As root, where umoci
can keep them, the mode, the owner, the time and the extended attributes must be those that the images' trailers say; else it
unpacks by --rootless. Where
there is no umoci, a line says so. The status is 0 where nothing differs.
"""
import os
import shutil
import stat
import struct
import subprocess
import sys
import tarfile
import tempfile

from checks import TOOLS
from checks.layers.shown_trees import Unlike, read, shown_tree
from checks.plain import plain
from checks.plain.plain_stacks import MARKER
from checks.shared.layer_files import archive, directory, file, hard, images_in, symlink

IMAGE = "layout:made"
IS_ROOT = os.geteuid() == 0
XATTR = "SCHILY.xattr."
# acl(5): the user 1234 reads, and of the file's group nobody
CLOSED = struct.pack("<I" + "HHI" * 5, 2, 1, 6, 2 ** 32 - 1, 2, 4, 1234, 4, 0, 2 ** 32 - 1, 16, 4, 2 ** 32 - 1,
                     32, 0, 2 ** 32 - 1)
ROOTLESS = ["--rootless"] * (not IS_ROOT)


class Umoci:
    """umoci, run in a folder of its own."""

    def __init__(self):
        self.path = tempfile.mkdtemp(prefix="layers-umoci-")
        self.layers = 0

    def run(self, *words):
        done = subprocess.run(words, cwd=self.path, stdout=subprocess.PIPE, stderr=subprocess.STDOUT, check=False)
        if done.returncode != 0:
            raise Unlike("%s: %s" % (" ".join(words), done.stdout.decode(errors="replace").strip()))
        return done.stdout.decode()

    def begin(self):
        self.run("umoci", "init", "--layout", "layout")
        self.run("umoci", "new", "--image", IMAGE)

    def unpack(self, bundle):
        self.run("umoci", "unpack", *ROOTLESS, "--image", IMAGE, bundle)
        return os.path.join(self.path, bundle, "rootfs")

    def repack(self, bundle):
        self.layers += 1
        self.run("umoci", "repack", "--refresh-bundle", "--image", IMAGE, bundle)

    def insert(self, *words):
        self.layers += 1
        self.run("umoci", "insert", *ROOTLESS, "--image", IMAGE, *words)

    def add(self, data):
        self.layers += 1
        with open(os.path.join(self.path, "layer.tar"), "wb") as out:
            out.write(data)
        self.run("umoci", "raw", "add-layer", "--image", IMAGE, "layer.tar")


def write(root, name, data, mode=0o644):
    path = os.path.join(root, name)
    os.makedirs(os.path.dirname(path), exist_ok=True)
    with open(path, "wb") as out:
        out.write(data)
    os.chmod(path, mode)


def by_repack(umoci):
    root = umoci.unpack("edited")
    write(root, "bin/tool", b"#!/bin/sh\n", 0o755)
    os.link(root + "/bin/tool", root + "/bin/other")
    os.symlink("tool", root + "/bin/link")
    for number in range(40):
        write(root, "data/d%d/f%d" % (number % 7, number), b"%d" % number * number)
    write(root, "large", bytes(range(256)) * 10000)
    write(root, "turns/to/file", b"1")
    write(root, "turned", b"12")
    write(root, "swapped/in", b"1")
    os.makedirs(root + "/empty")
    umoci.repack("edited")
    for name in ("data/d1", "data/d2", "turns", "swapped"):
        shutil.rmtree(os.path.join(root, name))
    for name in ("data/d3/f3", "turned", "bin/link"):
        os.unlink(os.path.join(root, name))
    os.symlink("bin", root + "/swapped")
    write(root, "turns", b"a file")
    write(root, "turned/to/directory", b"2")
    write(root, "data/d4/f4", b"anew")
    umoci.repack("edited")
    shutil.rmtree(root + "/data/d5")
    write(root, "data/d5/only", b"one")
    write(root, "data/d1/again", b"1")
    os.unlink(root + "/bin/other")
    write(root, "bin/other", b"alone", 0o755)
    os.rmdir(root + "/empty")
    umoci.repack("edited")
    write(root, "bin/tool", b"no tool")
    os.symlink("d1/again", root + "/data/link")
    umoci.repack("edited")
    # umoci writes opaque whiteouts at its insert alone
    write(umoci.path, "source/f0", b"zero")
    umoci.insert("--opaque", "source", "/data/d0")


def by_insert(umoci):
    for number in range(30):
        write(umoci.path, "tree/d%d/f%d" % (number % 3, number), b"%d" % number)
    write(umoci.path, "tree/run", b"#!/bin/sh\n", 0o755)
    os.symlink("d0", umoci.path + "/tree/to-d0")
    write(umoci.path, "small/f1", b"small")
    write(umoci.path, "small/in/it", b"it", 0o755)
    umoci.insert("tree", "/usr/share")
    umoci.insert("tree", "/srv")
    umoci.insert("--whiteout", "/usr/share/d1")
    umoci.insert("--opaque", "small", "/usr/share/d2")
    umoci.insert("small", "/usr/share/d1")
    umoci.insert("--whiteout", "/srv/run")
    umoci.insert("--opaque", "small", "/srv")


def by_archives(umoci):
    deep = "/".join(["deep"] * 40)
    umoci.add(archive([
        directory("./", mode=0o751, mtime=1), directory("./a", mode=0o1777, uid=3, gid=4, mtime=5),
        file("./a/x", b"1", mode=0o4711), hard("./a/y", "./a/x"), file("a/z", b"z", mode=0o755),
        symlink("l", "a/x", uid=6, mtime=7), file("n" * 255, b"long"), file(deep + "/file", b"deep"),
        directory("b", mode=0o2700, gid=8, mtime=9),
        file("b/c", b"c"), file("b/d/e", b"e"),
        file("/absolute", b"absolute"), file("not \xe4scii \\ \n", b"name"), symlink("far", "t" * 300)], tarfile.GNU_FORMAT))
    umoci.add(archive([
        file("a/.wh.x"), file("b/.wh..wh..opq"), file("twice", b"first"),
        file("b/new", b"new", pax_headers={"mtime": "-1.25"}, uid=1),
        file("twice", b"second", mode=0o755), file(".wh.l"), file("p/q/r", b"r"), hard("p/s", "p/q/r")], tarfile.PAX_FORMAT))
    umoci.add(archive([
        file("a/x", b"again"), file("b/c", b"c again"), file(".wh.none"), file(deep[:-5] + "/.wh.deep"),
        directory("p/q", mode=0o755), file("p/.wh.s"), symlink("l", "b/c"), file("absolute", b"", mode=0o755)], tarfile.PAX_FORMAT))
    umoci.add(archive([
        file("p", b"no directory"), file("b/.wh.new"), directory("b/d"), file("b/d/.wh..wh..opq"), file("a/w", b"w"),
        hard("v", "a/w"), hard("u", "v")], tarfile.USTAR_FORMAT))
    umoci.add(archive([directory("p"), file("p/t", b"t"), file("m", b"m")], tarfile.USTAR_FORMAT))


def texts(data):
    return data.decode("utf-8", "surrogateescape")


def by_attributes(umoci):
    """Capabilities, lists of rights and users' own, in two layers."""
    ability = struct.pack("<5I", 0x02000001, 1 << 13, 0, 0, 0)
    umoci.add(archive([
        directory("./"), directory("d", pax_headers={XATTR + "user.low": "1", XATTR + "user.both": "1"}),
        file("d/ping", b"1", mode=0o755, pax_headers={XATTR + "security.capability": texts(ability)}), hard("d/ping4", "d/ping"),
        file("d/acl", b"2", mode=0o640, pax_headers={XATTR + "system.posix_acl_access": texts(CLOSED)}),
        file("d/many", b"3", pax_headers={XATTR + "user.%d" % number: "v" * number for number in range(1, 40)}),
        # a record without a value says nothing
        file("d/none", b"6", pax_headers={XATTR + "user.none": "", XATTR + "user.some": "1"}),
        symlink("l", "d", pax_headers={XATTR + "trusted.link": "x"})], tarfile.PAX_FORMAT))
    umoci.add(archive([
        directory("d", pax_headers={XATTR + "user.both": "2"}), file("d/acl", b"4"),
        file("d/new", b"5", pax_headers={XATTR + "user.low": "a\nb=c"})], tarfile.PAX_FORMAT))


def unpacked_tree(root):
    """What stands at each path below a folder."""
    found, todo = {(): shape(root)}, [()]
    while todo:
        path = todo.pop()
        for name in os.listdir(os.path.join(os.fsencode(root), *path)):
            below = (*path, name)
            whole = os.path.join(os.fsencode(root), *below)
            found[below] = shape(whole)
            if os.path.isdir(whole) and not os.path.islink(whole):
                todo.append(below)
    return found


def shape(path):
    it = os.lstat(path)
    kind = stat.S_IFMT(it.st_mode)
    data, size = b"", 0
    if kind == stat.S_IFLNK:
        data = os.readlink(os.fsencode(path))
    if kind == stat.S_IFREG:
        with open(path, "rb") as source:
            data = source.read()
    if kind in (stat.S_IFLNK, stat.S_IFREG):
        size = it.st_size
    names = it.st_nlink if kind == stat.S_IFREG else 0
    return kind, kind != stat.S_IFLNK and it.st_mode & 0o111 != 0, size, names, data


def shape_of(shown):
    """The same of what strata shows."""
    kind = stat.S_IFMT(shown.mode)
    names = shown.nlink if kind == stat.S_IFREG else 0
    return kind, kind != stat.S_IFLNK and shown.mode & 0o111 != 0, shown.size, names, shown.data


def hold_attributes(root, images):
    """Holds the modes, owners and times that trailers say against those of an unpacked tree, but of folders that no layer says
    anything of. umoci changes the time of a folder in which it takes something away."""
    stack, count = plain.stack_of([read(path) for path in images], True, True), 0
    changed = {path[:-1] for layer in stack.layers for path in layer.paths if path and path[-1].startswith(MARKER)}
    for path, number in stack.paths.items():
        image, header = stack.header(number)
        if header in image.rows:
            whole = os.path.join(os.fsencode(root), *path)
            it = os.lstat(whole)
            wanted = (it.st_mode, it.st_uid, it.st_gid, *divmod(it.st_mtime_ns, 10 ** 9))
            got, most = stack.attributes(number), 3 if path in changed else 5
            if wanted[:most] != got[:most]:
                raise Unlike("%r: umoci has %r, the trailers %r" % (b"/".join(path), wanted, got))
            hold_extended(path, whole, stack.xattrs(number))
            count += 1
    if count < len(stack.paths) // 3:
        raise Unlike("%d of %d paths have a row" % (count, len(stack.paths)))


def hold_extended(path, whole, got):
    wanted = {os.fsencode(name): os.getxattr(whole, name, follow_symlinks=False)
              for name in os.listxattr(whole, follow_symlinks=False)}
    if wanted != dict(got):
        raise Unlike("%r: umoci has %.300r, the trailers %.300r" % (b"/".join(path), wanted, dict(got)))


def held(strata, make):
    """Makes an image, and holds what strata shows of it against what umoci unpacks; the number of layers and of paths."""
    umoci = Umoci()
    try:
        umoci.begin()
        make(umoci)
        wanted = unpacked_tree(umoci.unpack("wanted"))
        umoci.run(sys.executable, os.path.join(TOOLS, "layers.py"), IMAGE, "images")
        folder = os.path.join(umoci.path, "images")
        images = images_in(folder)
        if len(images) != umoci.layers:
            raise Unlike("%d images of %d layers" % (len(images), umoci.layers))
        if IS_ROOT:
            hold_attributes(os.path.join(umoci.path, "wanted", "rootfs"), images)
        got = {path: shape_of(shown) for path, shown in shown_tree(strata, images).items()}
        for path in sorted({*wanted, *got}):
            if wanted.get(path) != got.get(path):
                raise Unlike("%r: umoci has %.300r, strata %.300r" % (b"/".join(path), wanted.get(path), got.get(path)))
        return len(images), len(got)
    finally:
        shutil.rmtree(umoci.path)


def main(strata):
    if shutil.which("umoci") is None:
        print("layers and umoci: left out, since there is no umoci on the path")
        return True
    failed = 0
    for make in (by_repack, by_insert, by_archives, by_attributes):
        name = make.__name__.replace("_", " ")
        try:
            print("layers and umoci, %s: %d layers show the same %d paths" % (name, *held(strata, make)))
        except Unlike as unlike:
            print("layers and umoci, %s: %s" % (name, unlike))
            failed += 1
    return failed == 0


if __name__ == "__main__":
    sys.exit(0 if main(os.path.abspath(sys.argv[1])) else 1)
