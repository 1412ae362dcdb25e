"""Tests of tools/layers.py: layers that must be refused, each with its line. A test is a function of a room."""
from checks.layers.layer_room import GNU
from checks.shared.layer_files import (archive, block, character, directory, entry, fifo, file, hard,
                                       layout_of, symlink)


def test_refused_entries(room):
    most = "layer 0: %s: "
    for line, *entries in [
            ("layer 0: ../a: no path within a layer", file("../a")),
            ("layer 0: a/../../b: no path within a layer", file("a/../../b")),
            ("layer 0: /..: no path within a layer", directory("/..")),
            ("layer 0: ../../etc/passwd: no path within a layer", hard("x", "../../etc/passwd")),
            ("layer 0: '': no path within a layer", file("")),
            ("layer 0: the root must be a directory", file("./")),
            ("layer 0: the root must be a directory", symlink("/", "x")),
            (most % ("n" * 200 + "..") + "a name of 256 bytes, at most 255 are held", file("n" * 256)),
            (most % ("d/" * 100 + "..") + "a path of 513 names, at most 512 are held", file("/".join("d" * 513))),
            ("layer 0: l: a link's target of 4096 bytes, at most 4095 are held", symlink("l", "t" * 4096)),
            ("layer 0: c: a device of major number 4096, at most 4095 is held", character("c", 4096, 0)),
            ("layer 0: c: a device of minor number 65536, at most 65535 is held", block("c", 0, 65536)),
            ("layer 0: a: not a directory, but has files below it", file("a"), file("a/b")),
            ("layer 0: d/l: not a directory, but has files below it", directory("d"), symlink("d/l", "."), file("d/l/b/c")),
            ("layer 0: h: not a directory, but has files below it", file("a"), hard("h", "a"), directory("h/d")),
            ("layer 0: h: a hard link to nothing in its layer: lower", hard("h", "lower")),
            ("layer 0: a: a hard link to nothing in its layer: a", hard("a", "a")),
            ("layer 0: h: a hard link to the directory d", directory("d"), hard("h", "d")),
            ("layer 0: h: a hard link to the directory /", hard("h", "/")),
            ("layer 0: h: a hard link to the directory d", hard("h", "d"), directory("d")),
            ("layer 0: h: a hard link to nothing in its layer: d/x", file("d/x"), fifo("d"), hard("h", "d/x")),
            ("layer 0: v: an entry of the unknown type 'V'", entry(b"V", "v"))]:
        room.refuse(line, archive(entries))
    room.refuse("layer 1: h: a hard link to nothing in its layer: f", archive([file("f", b"1")]), archive([hard("h", "f")]))
    room.refuse("layer 0: a\\00b: no image holds the name 'a\\00b'", archive([file("x", pax_headers={"path": "a\0b"})]))
    room.refuse("layer 0: l: no link holds the target 'a\\00b'", archive([symlink("l", "x", pax_headers={"linkpath": "a\0b"})]))


def test_large(room):
    """A file larger than an image is refused before its data come."""
    info, _ = file("large")
    # behind the volume's header, the root's two, and its own; a trailer with two rows has to end below 2^32
    info.size = 2 ** 32 - 16 - 96 - 64 - 32 - 80
    room.refuse("layer 0: the archive is truncated", info.tobuf(GNU))
    info.size += 1
    room.refuse("layer 0: large: the image would be larger than 4294967280 bytes with its attributes; "
                 "make images of parts, each with the same paths from its root, and mount them together", info.tobuf(GNU))
    info.size = 2 ** 40
    room.refused(layout_of(room.name(), [info.tobuf(GNU)]).path,
                 "layer 0: large: a file of 1099511627776 bytes, at most 4294967280 are held",
                 "layer 0: the archive is truncated")


def test_many_faults(room):
    """One bad entry hides none of the others; of more than ten the others are counted."""
    nothing = "layer 0: %s: a hard link to nothing in its layer: %s"
    room.refused(layout_of(room.name(), [archive([hard("a", "b"), hard("b", "a")])]).path,
                 nothing % ("a", "b"), nothing % ("b", "b"))
    bad = [file("../x"), character("c", 0, 65536), symlink("l", "t" * 4096), file("good", b"1"), block("b", 4096, 0)]
    lines = ["layer 0: ../x: no path within a layer",
             "layer 0: c: a device of minor number 65536, at most 65535 is held",
             "layer 0: l: a link's target of 4096 bytes, at most 4095 are held",
             "layer 0: b: a device of major number 4096, at most 4095 is held"]
    room.refused(layout_of(room.name(), [archive(bad)]).path, *lines)
    made = archive([*bad, *(file("d/../%d" % number) for number in range(10))])
    more = ["layer 0: d/../%d: no path within a layer" % number for number in range(6)]
    room.refused(layout_of(room.name(), [made]).path, *lines, *more, "layer 0: .. and 4 more")
    # hard links that lead nowhere are among them, but not those to an entry that is refused itself
    links = [hard("a", "b"), hard("b", "none"), hard("d", "dir"), directory("dir"), hard("h", "good"), hard("r", "c"), hard("s", "r")]
    room.refused(layout_of(room.name(), [archive([*links, *bad])]).path, *lines, nothing % ("a", "none"), nothing % ("b", "none"),
                 "layer 0: d: a hard link to the directory dir")
    cut = archive([hard("h", "z"), file("../x"), file("y", b"1" * 600)])
    room.refused(layout_of(room.name(), [cut[:2112]]).path, lines[0], "layer 0: the archive is truncated")


def test_broken_archives(room):
    good = archive([file("a", b"1" * 600), file("b" * 120, b"2")])
    for size in (1, 511, 513, 1100, 1111, 2047, 2048, 2559, 3072):
        room.refuse("layer 0: the archive is truncated", good[:size])
    room.refuse("layer 0: the archive is broken: a header's checksum", good[:10] + b"x" + good[11:])
    room.refuse("layer 0: the archive is broken: a header's checksum", good[:1536] + b"7" * 512 + good[2048:])
    room.refuse("layer 0: the archive is broken: a header after its end", bytes(512) + good)
    room.refuse("layer 0: the archive is broken: size 'xyz'", with_field(good, 124, b"xyz".ljust(12, b"\0")))
    room.refuse("layer 0: the archive is broken: size '118'", with_field(good, 124, b"118".ljust(12)))
    room.refuse("layer 0: the archive is broken: a size of -1", with_field(good, 124, b"\xff" * 12))
    room.refuse("layer 0: the archive is broken: an extended header of 1048577 bytes", entry(b"x", "p", size=1048577)[0].tobuf(GNU))
    for record in (b"9 path=a", b"0 path=a\n", b"11 path=a\n", b"99 path=a\n", b"path=a\n", b"8 patha\n", b"5 =a\n",
                   b"-9 path=a\n", b"4 a=\n"):
        line = "layer 0: the archive is broken: an extended header"
        room.refuse(line, archive([entry(b"x", "p", record), file("a")], GNU))
    room.refuse("layer 0: the archive is broken: size '1_0'", archive([file("x", pax_headers={"size": "1_0"})]))
    room.refuse("layer 0: the archive is broken: a size of -4", archive([file("x", pax_headers={"size": "-4"})]))


def with_field(data, at, value):
    """The archive with another field in its first header, and that header's checksum."""
    head = bytearray(data[:512])
    head[at:at + len(value)] = value
    head[148:156] = b" " * 8
    head[148:156] = b"%06o\0 " % sum(head)
    return bytes(head) + data[512:]
