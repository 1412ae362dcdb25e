"""Checks of small layouts that ask for much: of memory, of time, of a line; and of stores that others may write to."""
import gzip
import io
import os
import resource
import stat
import struct
import sys
import tarfile
import zlib

from checks import TOOLS
from checks.registry import made
from checks.registry.rooms import MOUNT, Failed, hold
from strata_format import romfs
from strata_layers import packing

# what a pull may hold of memory, over what this process holds already
ROOM = 96 << 20
# what it may reserve, most of which threads never use
RESERVED = 1 << 30
# what it may take of a processor's time, in seconds
TIME = 60
FOLDERS, NAMES = 400, 3000
MIB = bytes(1 << 20)
SHARED = "%s: a store must be its user's own, and others may write in this folder"


def header(kind, name, size=0, link="", mode=0o644):
    info = tarfile.TarInfo(name)
    info.type, info.size, info.linkname, info.mode = kind, size, link, mode
    return info.tobuf(tarfile.USTAR_FORMAT)


def extended(kind, records):
    """An extended header, `<length> <keyword>=<value>` and a new line each."""
    data = b"".join(record(keyword, value) for keyword, value in records)
    return header(kind, "p", len(data)) + data + bytes(-len(data) % 512)


def record(keyword, value):
    rest = b" %s=%s\n" % (keyword, value)
    size = len(rest) + 1
    while len(b"%d" % size) + len(rest) != size:
        size += 1
    return b"%d" % size + rest


def packed(pieces):
    """Pieces packed by gzip, and the digest of what they are."""
    out, packer = io.BytesIO(), zlib.compressobj(6, zlib.DEFLATED, 31)
    found = made.hashlib.sha256()
    for piece in pieces:
        found.update(piece)
        out.write(packer.compress(piece))
    return out.getvalue() + packer.flush(), "sha256:" + found.hexdigest()


def layout_of(room, pieces):
    data, its_digest = packed(pieces)
    it = made.Layout(room.name())
    it.index(made.tagged(it.image_of([it.blob(made.ARCHIVE + "+gzip", data)], [its_digest]), "1"))
    return it


def bounded(room, *words):
    """A run that holds little memory."""
    with open("/proc/self/statm", encoding="ascii") as it:
        size, held = (int(word) * resource.getpagesize() for word in it.read().split()[:2])
    before = resource.getrlimit(resource.RLIMIT_AS)
    resource.setrlimit(resource.RLIMIT_AS, (size + RESERVED, before[1]))
    begin = resource.getrusage(resource.RUSAGE_CHILDREN).ru_utime
    try:
        done, resident = room.measured(*words)
    finally:
        resource.setrlimit(resource.RLIMIT_AS, before)
    hold("memory of a run, above %d bytes" % ROOM, 0, max(0, resident - held - ROOM))
    hold("time of a run, above %d seconds" % TIME, 0, max(0, resource.getrusage(resource.RUSAGE_CHILDREN).ru_utime - begin - TIME))
    return done


def keywords():
    """Extended headers of many things that nobody knows, before one entry."""
    for number in range(130):
        yield extended(b"x", [(b"key%d" % number, bytes(b"v" * 1000000))])
    yield header(b"0", "a") + bytes(1024)


def attributes():
    """Very many extended attributes of very many entries."""
    yield extended(b"g", [(b"SCHILY.xattr.%d" % number, b"1") for number in range(30000)])
    for number in range(4000):
        yield header(b"0", "f%d" % number)
    yield bytes(1024)


def by_turns():
    """Very many extended attributes of entries that differ in mode, kind, and what comes between them."""
    yield extended(b"g", [(b"SCHILY.xattr.%05d" % number, b"1") for number in range(10000)])
    own = extended(b"x", [(b"SCHILY.xattr.user.a", b"1")])
    for number in range(400):
        yield header(b"2" if number % 3 == 0 else b"0", "f%d" % number, link="f" * (number % 3 == 0), mode=0o600 | number % 64)
        yield own + header(b"0", "g%d" % number)
    yield bytes(1024)


def equal_lists():
    """Very many extended attributes, said of each entry anew."""
    own = extended(b"x", [(b"SCHILY.xattr.%05d" % number, b"1") for number in range(10000)])
    for number in range(100):
        yield own + header(b"0", "f%d" % number)
    yield bytes(1024)


def lists():
    """A different list of extended attributes for each of many entries."""
    for number in range(100):
        yield extended(b"x", [(b"SCHILY.xattr.user.%02d" % name, b"%03d" % number + bytes(65000)) for name in range(14)])
        yield header(b"0", "f%d" % number)
    yield bytes(1024)


def deep():
    """Entries that each imply hundreds of folders."""
    for number in range(60):
        yield extended(b"x", [(b"path", b"%d/" % number + b"a/" * 510 + b"f")]) + header(b"0", "x")
    yield bytes(1024)


def holes():
    """Files of nothing but holes, each as large as an image can be."""
    for number in range(300):
        head = bytearray(header(b"S", "s%d" % number))
        head[386:410], head[483:495] = b"0".rjust(11) + b"\0" + b"0".rjust(11) + b"\0", b"%011o\0" % ((1 << 32) - (1 << 20))
        head[148:156] = b" " * 8
        head[148:156] = b"%06o\0 " % sum(head)
        yield bytes(head)
    yield bytes(1024)


def paths():
    """Entries at paths that no image holds, of many names and of long ones."""
    for number in range(12):
        for path in (b"aa/" * 333000, b"a" * 1000000):
            yield extended(b"x", [(b"path", b"%d" % number + path)]) + header(b"5", "x")
        yield extended(b"x", [(b"linkpath", b"%d" % number + b"a" * 1000000)]) + header(b"1", "l%d" % number)


def chain(end="none"):
    """Hard links, each to the next, and the last to nothing."""
    for number in range(20000):
        yield header(b"1", "l%d" % number, link="l%d" % (number + 1) if number < 19999 else end)


def refused_chain():
    """The same, where the last leads to an entry that is refused."""
    yield from chain("n" * 60)
    yield header(b"V", "n" * 60)


def ring():
    """The same, where the last leads to the first."""
    yield from chain("l0")


def links():
    """Hard links to paths that no image holds."""
    for number in range(40):
        yield extended(b"x", [(b"linkpath", b"a/" * 500000 + b"a")]) + header(b"1", "l%d" % number)


def check_much_of_little(room):
    """A few bytes that unpack to much take little memory, and few lines."""
    for pieces, status in ((keywords, 0), (attributes, 0), (by_turns, 0), (equal_lists, 0), (lists, 1), (deep, 0), (holes, 1), (paths, 1),
                           (chain, 1), (refused_chain, 1), (ring, 1), (links, 1)):
        done = bounded(room, "pull", "oci:" + layout_of(room, pieces()).path, "a:1")
        hold("%s: %s" % (pieces.__name__, done.stderr[-300:]), status, done.returncode)
    hold("lines", 11, done.stderr.count("\n"))


def check_many_of_one(room):
    """An index that names one image for very many platforms: it is read once, and there is a most."""
    it = made.Layout(room.name(), {"Labels": [[]] * 200000})
    image = it.image([made.archive(made.entry("a"))])
    for count, status, line in ((40, 0, ""), (257, 1, "tools/layers.py: %s/index.json: 257 images, allowed 1 to 256\n" % it.path)):
        it.index(*({**made.tagged(image, "1"), "platform": {"os": "linux", "architecture": "a%d" % number}} for number in range(count)))
        done = bounded(room, "convert", "--platform", "all", it.path, room.name())
        hold("%d images" % count, (status, line), (done.returncode, done.stderr))


def check_most_unpacked(room):
    """What an archive unpacks to has a most, behind its end too; four times what an image can have."""
    hold("the most", 4 << 32, packing.UNPACKED_MOST)
    data = packed([header(b"0", "a") + bytes(1024), *[MIB] * 4])[0]
    for packing_, blob in (("gzip", data), ("", gzip.decompress(data))):
        source = packing.Unpacked(io.BytesIO(blob), packing_, most=3 << 20)
        count = 0
        try:
            while read := source.read(1 << 16):
                count += len(read)
        except packing.Refused as refused:
            hold("the line", "decompressed it has more than %d bytes" % (3 << 20), str(refused))
            hold("what was read", True, count <= 3 << 20)
            continue
        raise Failed("%d bytes were read" % count)


def image_of_shared_names():
    """An image of romfs whose folders all have the same headers in them."""
    root = 32
    names = root + 64 + FOLDERS * 32
    out = bytearray(b"-rom1fs-" + bytes(8) + b"v".ljust(16, b"\0"))
    out += romfs.header(root + 32, 9, root, 0, b".") + romfs.header(root + 64, 0, root, 0, b"..")
    for number in range(FOLDERS):
        out += romfs.header((len(out) + 32) * (number + 1 < FOLDERS), 9, names, 0, b"d%d" % number)
    for number in range(NAMES):
        out += romfs.header((len(out) + 32) * (number + 1 < NAMES), 2, 0, 0, b"n%d" % number)
    struct.pack_into(">2I", out, 8, len(out), 0)
    struct.pack_into(">I", out, 12, -romfs.words_sum(bytes(out[:512])) & 0xffffffff)
    return bytes(out)


def check_shared_names(room):
    """A layer over a broken image whose folders share their headers is refused."""
    image, top = image_of_shared_names(), made.archive(*(made.entry("d%d/x/f" % number) for number in range(FOLDERS)))
    it = made.Layout(room.name())
    layers = [it.blob(made.ROMFS, image), it.blob(made.ARCHIVE, top)]
    it.index(made.tagged(it.image_of(layers, [made.digest(image), made.digest(top)]), "1"))
    room.refused("layer 1: not a valid romfs image: a header is in many folders", "pull", "oci:" + it.path)


def check_odd_words(room):
    """Words of JSON that are no text, JSON that is deep, numbers that are large, files that are pipes: a line each."""
    archive = made.archive(made.entry("a"))
    for run, line in (({"Env": ["A=\ud800"]}, "the image's configuration has no valid 'Env'"),
                      ({"Env": [], "Cmd": ["\0"]}, "the image's configuration has no valid 'Cmd'")):
        it = made.Layout(room.name(), run)
        it.index(made.tagged(it.image([archive]), "1"))
        room.layers("pull", "oci:" + it.path, "a:1")
        room.refused(line, "config", "a:1")
    it = made.Layout(room.name(), {"Labels": nested(150)})
    it.index(made.tagged(it.image([archive]), "\udc80\ud800"))
    room.refused("blob ..: JSON within JSON, more than 100 deep", "pull", "oci:" + it.path, "b:1")
    room.refused("%s:\\ed\\b2\\80\\ed\\a0\\80: no name of an image; .." % os.path.basename(it.path), "pull", "oci:" + it.path)
    it.index({"mediaType": made.MANIFEST, "digest": "sha256:" + "0" * 64, "size": 10 ** 30})
    room.refused("%s/index.json: a size of 1%s" % (it.path, "0" * 30), "pull", "oci:" + it.path)
    it.index(*(made.tagged({"mediaType": made.MANIFEST, "digest": "sha256:%064x" % number, "size": 1}, "t%05d" % number)
               for number in range(9000)))
    room.refused("%s/index.json: which tag? There is t00000, ..t00019, .." % it.path, "pull", "oci:" + it.path)
    check_pipes(room, it.path)


def check_pipes(room, path):
    os.unlink(path + "/index.json")
    os.mkfifo(path + "/index.json")
    writer = os.open(path + "/index.json", os.O_RDWR)
    room.refused("%s/index.json: no file" % path, "pull", "oci:" + path, "a:1")
    os.close(writer)
    os.unlink(path + "/oci-layout")
    os.mkfifo(path + "/version")
    room.refused("%s/oci-layout: no such file or directory" % path, "pull", "oci:" + path, "a:1")


def nested(depth):
    value = []
    for _ in range(depth):
        value = [value]
    return value


def check_odd_target(room):
    """A layout that is written to, whose index says odd things."""
    source, target = made.layout(room.name()), made.Layout(room.name())
    for odd in ({"annotations": ["x"]}, {"annotations": "x"}, ["x"], "x"):
        target.index(odd)
        room.refused("%s/index.json: no valid 'manifests'" % target.path, "convert", source.path, target.path + ":2")


def check_stores_of_others(room):
    """A store that others may write to is not written to, nor read."""
    source = made.layout(room.name())
    for mode in (0o777, 0o1777, 0o702):
        os.mkdir(place := room.name())
        os.chmod(place, mode)
        room.refused(SHARED % place, "pull", "oci:" + source.path, "a:1", store=place)
        hold("what is in it", [], os.listdir(place))
    os.mkdir(place := room.name())
    os.chmod(place, 0o755)
    room.layers("pull", "oci:" + source.path, "a:1", store=place)
    for name in ("", "/blobs", "/blobs/sha256", "/images", "/made", "/new"):
        mode = stat.S_IMODE(os.stat(place + name).st_mode)
        os.chmod(place + name, 0o777)
        hold_closed(room, place, SHARED % (place + name), source)
        os.chmod(place + name, mode)
    room.layers("config", "a:1", store=place)
    if os.geteuid() == 0:
        os.chown(place, 65532, 65532)
        hold_closed(room, place, SHARED % place, source)


def hold_closed(room, place, line, source):
    """Each verb of a store, and each mount from it, must refuse it with one line."""
    for verb, *words in (("images",), ("verify",), ("prune",), ("config", "a:1"), ("remove", "a:1"),
                         ("podman", "a:1", room.name()), ("pull", "oci:" + source.path, "b:1"),
                         ("convert", source.path, room.name())):
        room.refused(line, verb, *words, store=place)
    for words in (("image:a:1",), ("a:1",), ("--verify", "image:a")):
        done = room.run(sys.executable, "-B", MOUNT, "--strata", room.strata, "--store", place, "--background", *words, room.home)
        hold("mount %r" % (words,), (1, line + "\n"), (done.returncode, done.stderr.partition(": ")[2]))
    made_here = "import sys; from strata_layers import store; store.default_place = lambda: sys.argv[1]"
    code = made_here + "; from strata_mount.helper import main; sys.exit(main(sys.argv[2:]))"
    for more in ((), ("-f",)):
        done = room.run(sys.executable, "-B", "-c", code, place, "image:a:1", room.home, *more,
                        env={**room.environment, "PYTHONPATH": TOOLS})
        hold("mount.strata", (32, "mount.strata: %s\n" % line), (done.returncode, done.stderr))


CHECKS = [check_much_of_little, check_many_of_one, check_most_unpacked, check_shared_names, check_odd_words, check_odd_target,
          check_stores_of_others]
