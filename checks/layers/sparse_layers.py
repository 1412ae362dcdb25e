"""Tests of tools/layers.py: sparse files in layers, as GNU tar and bsdtar write them, and maps that
lie. A test is a function of a room."""
import os
import pty
import re
import shutil
import struct
import subprocess
import sys

from checks import TOOLS
from checks.layers.folder_images import hold_image
from checks.layers.layer_room import GNU, PAX, LeftOut, expect, run_tool
from checks.shared.layer_files import archive, directory, entry, file, layout_of

SPARSE = b"S"


def sparse_folder(room):
    """Files with holes at each end, in the middle, and nothing but a hole; and one of many."""
    folder = room.name()
    os.mkdir(folder)
    for name, size, places in (
            ("ends", 900000, (400000,)), ("middle", 300100, (0, 300000)), ("all", 500000, ()),
            ("name" * 30, 100000, (65536,)), ("plain", 3, (0,)),
            ("many", 1 << 20, range(0, 1 << 20, 8192))):
        with open(os.path.join(folder, name), "wb") as out:
            out.truncate(size)
            for place in places:
                out.seek(place)
                out.write(b"%d" % place * 10)
            out.truncate(size)
    # not all forms have parts of a second
    for name in (*os.listdir(folder), "."):
        os.utime(os.path.join(folder, name), (7, 7))
    return folder


def hold_archive(room, folder, made):
    """The archive's image shows what the folder has."""
    images = room.name()
    status, _, told = room.convert(layout_of(room.name(), [made]).path, images)
    expect(status == 0, "told %r" % told)
    hold_image(room, folder, images + "/00.romfs")


def test_forms_of_sparse_files(room):
    folder = sparse_folder(room)
    posix = [["--format=posix", "--sparse-version=" + it] for it in ("0.0", "0.1", "1.0")]
    for words in (["--format=gnu"], *posix):
        words += ["--sparse", "--hole-detection=raw", "-C", folder, "-cf", "-", "."]
        done = subprocess.run(["tar", *words], capture_output=True, check=False)
        if done.returncode != 0:
            raise LeftOut("no tar of GNU's: %s" % done.stderr.decode(errors="replace").strip())
        expect(len(done.stdout) < 1 << 20, "tar wrote the holes")
        hold_archive(room, folder, done.stdout)


def test_sparse_files_of_bsdtar(room):
    if shutil.which("bsdtar") is None:
        raise LeftOut("there is no bsdtar")
    folder = sparse_folder(room)
    done = subprocess.run(["bsdtar", "-C", folder, "-cf", "-", "."], capture_output=True, check=True)
    hold_archive(room, folder, done.stdout)


def gnu_sparse(name, size, parts, data):
    """An entry of the type S, by the places of GNU tar's manual; more than four parts go into
    blocks behind the header."""
    info, _ = entry(SPARSE, name, data)
    head = bytearray(info.tobuf(GNU))
    pairs = [b"%011o\0%011o\0" % part for part in parts]
    head[386:386 + 96] = b"".join(pairs[:4]).ljust(96, b"\0")
    head[482] = len(pairs) > 4
    head[483:495] = b"%011o\0" % size
    head[148:156] = b" " * 8
    head[148:156] = b"%06o\0 " % sum(head)
    more = [pairs[at:at + 21] for at in range(4, len(pairs), 21)]
    blocks = [b"".join(it).ljust(504, b"\0") + bytes([it is not more[-1]]) + bytes(7)
              for it in more]
    return bytes(head) + b"".join(blocks) + data + bytes(-len(data) % 512)


def pax_sparse(data, **records):
    """A sparse file of POSIX's form, with records, and a file behind it."""
    fields = {"GNU.sparse." + key: str(value) for key, value in records.items()}
    return archive([file("GNUSparseFile.0/a", data, pax_headers=fields), file("after", b"1")], PAX)


def test_maps_of_headers(room):
    after = archive([file("after", b"1")])
    room.take(gnu_sparse("a", 2000, [(0, 100), (1000, 50), (2000, 0)], b"d" * 150) + after)
    room.take(gnu_sparse("a", 90000, [(at * 1000, 3) for at in range(80)], b"xyz" * 80) + after)
    room.take(gnu_sparse("a", 10, [], b"") + after)
    lying = "layer 0: a: a sparse file whose parts overlap or lie outside of it"
    for parts in ([(0, 100), (50, 100)], [(1000, 100), (0, 100)], [(1900, 200)],
                  [(0, 0), (3000, 0)]):
        data = b"d" * sum(size for _, size in parts)
        room.refuse(lying, gnu_sparse("a", 2000, parts, data) + after)
    room.refuse("layer 0: a: a sparse file with 90 bytes of data, and its map says 100",
                gnu_sparse("a", 2000, [(0, 100)], b"d" * 90) + after)
    room.refuse("layer 0: the archive is truncated", gnu_sparse("a", 2000, [(0, 100)] * 5, b"")[:512])
    room.refuse("layer 0: a: a file of 8589934591 bytes, at most 4294967280 are held",
                gnu_sparse("a", 2 ** 33 - 1, [(0, 1)], b"d") + after)


def test_maps_of_records(room):
    broken = "layer 0: a: a sparse file with a broken map"
    outside = "layer 0: a: a sparse file whose parts overlap or lie outside of it"
    for more in ({"size": "x", "map": "0,0"}, {"size": 9, "map": "0,0,1"},
                 {"size": 9, "map": "0,-1"}, {"map": "0,0"}, {"size": 9, "map": "0," + "9" * 20}):
        room.refuse(broken, pax_sparse(b"", name="a", **more))
    room.refuse(outside, pax_sparse(b"12", name="a", size=9, map="0,1,0,1"))
    room.refuse("layer 0: a: a sparse file with 3 bytes of data, and its map says 2",
                pax_sparse(b"123", name="a", size=9, map="0,2"))
    room.refuse("layer 0: ../x: no path within a layer",
                pax_sparse(b"1", name="../x", size=9, map="0,1"))


def test_maps_before_data(room):
    broken = "layer 0: a: a sparse file with a broken map"
    said = {"name": "a", "major": 1, "minor": 0, "realsize": 9}
    for lines in (b"1\n0\n1", b"x\n", b"1\n0\n-1\n", b"2\n0\n1\n", b"1" * 512, b"", b"\n",
                  b"1\n%d\n1\n" % 2 ** 64):
        data = lines.ljust(512 * (lines != b""), b"\0")
        room.refuse(broken, pax_sparse(data, **said))
    room.refuse("layer 0: a: a sparse file whose parts overlap or lie outside of it",
                pax_sparse(b"1\n9\n1\n".ljust(512, b"\0") + b"d", **said))
    many = b"".join(b"%d\n0\n" % at for at in range(1 << 19))
    data = b"%d\n" % ((1 << 19) + 1) + many + b"0\n0\n"
    room.refuse("layer 0: a: a sparse file of more than 524288 parts",
                pax_sparse(data + bytes(-len(data) % 512), **said))


def test_lying_map_hides_nothing(room):
    """What follows a file with a lying map is looked at, too."""
    made = gnu_sparse("a", 10, [(0, 100)], b"d" * 100) + archive([file("../x", b"1")])
    room.refused(layout_of(room.name(), [made]).path,
                 "layer 0: a: a sparse file whose parts overlap or lie outside of it",
                 "layer 0: ../x: no path within a layer")


def test_holes_take_no_room(room):
    """A hole of a gigabyte stays one, and takes no time."""
    made = gnu_sparse("a", 1 << 30, [(1 << 29, 5)], b"12345") + archive([directory("d")])
    folder = room.name()
    expect(room.convert(layout_of(room.name(), [made]).path, folder)[0] == 0, "it was refused")
    found = os.stat(folder + "/00.romfs")
    with open(folder + "/00.romfs", "rb") as it:
        it.seek(8)
        full, = struct.unpack(">I", it.read(4))
    expect(full > 1 << 30 and found.st_blocks * 512 < 1 << 20, "%d blocks" % found.st_blocks)


def test_zeros_take_no_room(room):
    """Zeros that an archive writes out become a hole, in a layer that is made and in one that is pulled."""
    made = archive([file("zeros", bytes(8 << 20)), file("a", bytes(range(256)) * 1000), file("more", bytes(300000) + b"1")])
    folder, new, first, second = (room.name() for _ in range(4))
    layout = layout_of(room.name(), [made]).path
    expect(room.convert(layout, folder)[0] == 0, "it was refused")
    for words in (["convert", "--store", first, layout, new + ":1"], ["pull", "--store", second, "oci:" + new, "x:1"]):
        status, _, told = run_tool(*words)
        expect((status, told) == (0, []), "%r: status %d, told %r" % (words, status, told))
    with open(folder + "/00.romfs", "rb") as it:
        wanted = it.read()
    for place in (first, second):
        blobs = place + "/blobs/sha256/"
        name, = (it for it in os.listdir(blobs) if not it.endswith(".verity"))
        with open(blobs + name, "rb") as it:
            found = it.read()
            blocks = os.fstat(it.fileno()).st_blocks
        # the volume's name is the archive's digest where it is known
        expect(len(found) == len(wanted) and found[512:] == wanted[512:], "other bytes")
        expect(blocks * 512 < 1 << 20, "%d blocks" % blocks)


# the tool, whose line of progress comes at once
AT_ONCE = """
import sys
sys.path.insert(0, sys.argv[1])
from strata_format import progress
progress.FIRST_AFTER = progress.NEXT_AFTER = 0
from strata_layers.command import main
sys.exit(main(sys.argv[2:]))
"""
PROGRESS = re.compile(rb"\r(\w+: \d+(?: of \d+)? MB(?:, \d+ MB unpacked)?)\x1b\[K")


def progress_of(*words, given=subprocess.DEVNULL):
    """The lines of progress that the tool writes on a terminal, where it ends well; and the last bytes."""
    ours, theirs = pty.openpty()
    child = subprocess.Popen([sys.executable, "-IBS", "-c", AT_ONCE, TOOLS, *words], stdin=given, stdout=subprocess.DEVNULL,
                             stderr=theirs)
    os.close(theirs)
    text = b""
    try:
        while data := os.read(ours, 1 << 16):
            text += data
    except OSError:
        pass  # nobody has the terminal open any more
    os.close(ours)
    expect(child.wait() == 0, "%r: told %r" % (words, text[-300:]))
    expect(text.endswith(b"\r\x1b[K"), "%r: the line stays: %r" % (words, text[-100:]))
    return {it.decode() for it in PROGRESS.findall(text)}


def test_progress_over_holes(room):
    """On a terminal what few bytes become is shown as it is unpacked, hashed and copied."""
    large = gnu_sparse("a", 30 << 20, [(1 << 24, 5)], b"12345") + archive([directory("d")])
    zeros = archive([file("zeros", bytes(12 << 20))])
    layout, packed = (layout_of(room.name(), [it, it]).path for it in (large, zeros))
    store, other, new = room.name(), room.name(), room.name()
    got = progress_of("convert", "--store", store, "--compress", "gzip", layout, new + ":1")
    expect({"hashed: 10 of 31 MB", "hashed: 31 of 31 MB", "packed: 20 of 31 MB"} <= got, "convert: %r" % got)
    got = progress_of("pull", "--store", other, "oci:" + new, "x:1")
    expect({"layers: 0 of 0 MB, 10 MB unpacked", "layers: 0 of 0 MB, 31 MB unpacked"} <= got, "pull: %r" % got)
    got = progress_of(packed, room.name())
    expect("layers: 0 of 12 MB, 10 MB unpacked" in got and any(it.startswith("hashed: ") for it in got), "a folder: %r" % got)
    folder = room.name()
    os.mkdir(folder)
    with open(folder + "/a", "wb") as out:
        out.write(bytes(range(256)) * (12 << 12))
    got = progress_of("image", folder, room.name())
    expect({"image: 2 of 12 MB", "image: 7 of 12 MB", "image: 12 of 12 MB"} <= got, "an image: %r" % got)
