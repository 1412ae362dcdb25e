"""Tests of tools/layers.py: layers that must be taken, and what is reported about them. A test is a function of a room."""
import random
import struct

from checks.layers.layer_room import GNU, PAX, USTAR, expect, expect_lines
from checks.plain import plain_layers
from checks.shared.layer_files import archive, block, character, directory, entry, fifo, file, hard, layout_of, symlink


def test_kinds(room):
    room.take(archive([
        directory("bin"), file("bin/sh", b"#!", mode=0o755), file("bin/all", b"1", mode=0o611), file("none", b"12", mode=0o600),
        directory("closed", mode=0o600), symlink("l", "bin/sh"), symlink("long", "t" * 4095), character("null", 1, 3),
        character("most", 4095, 65535), block("sda", 8, 1), fifo("pipe"), file("empty"), file("sixteen", bytes(range(16))),
        hard("bin/ash", "bin/sh"), hard("l2", "l"), hard("null2", "null"), hard("ash", "bin/ash"), file("n" * 255, b"1"),
        file("large", bytes(range(256)) * 9000), file("after", b"after")]))


def test_forms(room):
    names = ["a" * 90 + "/" + "b" * 200, "c/" * 60 + "c" * 100, b"not \xff utf-8 \x01\\", "\u00e4\u00f6",
             "d" * 154 + "/" + "e" * 99]
    for form in (GNU, PAX):
        room.take(archive([file(name, b"1") for name in names] + [symlink("l", "s" * 300), hard("h", names[0])], form))
    room.take(archive([file("d" * 154 + "/" + "e" * 99, b"1"), file("s", b"12")], USTAR))


def test_forms_of_numbers(room):
    room.take(archive([file("a", b"1", mtime=-5, uid=3 << 40), file("b", b"2", mtime=1.5)], GNU), archive([
        file("a", b"1", mtime=0.25, uid=3 << 40), file("b", b"2", mtime=-1.5)], PAX))


def test_old_forms(room):
    old = bytearray(archive([entry(b"\0", "d/"), entry(b"\0", "d/f", b"1"), entry(b"7", "c", b"12")], USTAR))
    for at in range(0, 5 * 512, 512):
        if old[at + 257:at + 262] == b"ustar":
            # a header as it was before POSIX, with the sum that some programs made of bytes with a sign
            old[at + 257:at + 265] = bytes(8)
            old[at + 500:at + 504] = b"\xff" * 4
            old[at + 148:at + 156] = b" " * 8
            old[at + 148:at + 156] = b"%06o\0 " % sum(struct.unpack_from("512b", old, at))
    room.take(bytes(old))
    # a hard link or directory may say a size, and has no data
    sized = [info.tobuf(GNU) for info, _ in (hard("h", "a", size=700), directory("d", size=1))]
    room.take(archive([file("a", b"1" * 700)])[:512 + 1024] + b"".join(sized) + archive([file("b", b"2")]))


def test_names(room):
    room.take(archive([directory("./"), file("./a", b"1"), file("/b/c", b"2"), directory("b//d/./"), file("b//d/.e", b"3"),
                       file("././b/f", b"4"), hard("/g", "./b//c"), directory("..."), file("..a", b"5")]))
    room.take(archive([file("x"), directory("./", mode=0o600)]))
    room.take(archive([directory(".", mode=0o600)]), archive([directory("/", mode=0o644), file("x")]), archive([]))


def test_missing_parents(room):
    room.take(archive([file("a/b/c", b"1"), directory("a/b", mode=0o600), symlink("x/y/z", "t"), hard("p/q", "a/b/c"),
                       fifo("f/g")]))
    room.take(archive([file("/".join("d" * 512), b"1")]), archive([file("/".join("d" * 511) + "/.wh.d")]))


def test_last_of_a_name(room):
    room.take(archive([
        file("a", b"first"), file("a", b"second", mode=0o755), directory("d"), file("d/x", b"1"), directory("d", mode=0o600),
        directory("gone"), file("gone/x", b"1"), directory("gone/y"), file("gone/y/z", b"2"), symlink("gone", "d"),
        file("f", b"1"), directory("f"), file("f/g", b"12"), fifo("p"), character("p", 1, 3), block("p", 1, 4), file("p", b"p")]))


def test_hard_links(room):
    # what a link leads to stays, when its other name gets another file; a link to itself says nothing
    room.take(archive([file("a", b"old"), hard("b", "a"), file("a", b"new"), hard("c", "b"), hard("d", "a"), hard("a", "a"),
                       hard("b", "c"), hard("e", "d"), hard("d", "b")]))
    # before what they lead to, by another such link, and in a directory that goes
    room.take(archive([hard("b", "a"), hard("c", "b"), hard("d/e", "f/g"), file("f/g", b"2"), file("a", b"1"), file("b2"),
                       hard("b2", "c")]))
    room.take(archive([hard("b", "a"), hard("c", "b"), file("b", b"3"), file("a", b"1"), hard("x", "nothing"), file("x", b"2")]))
    room.take(archive([file("d/x", b"1"), hard("e", "d/x"), fifo("d"), hard("d2/y", "z"), hard("y", "d2/y"),
                       file("d2", b"2"), file("z", b"z")]))
    # to a marker, and by one
    room.take(archive([file("x", b"1")]), archive([file(".wh.x"), hard("m", ".wh.x"), file("y", b"2"), hard(".wh.z", "y")]))


def test_whiteouts(room):
    low = archive([file("a/x", b"1"), file("a/y", b"2"), file("b/c/d", b"3"), file("e", b"4"), symlink("l", "e"), hard("h", "a/x")])
    room.take(low, archive([file("a/.wh.x"), file(".wh.b"), file(".wh.none")]))
    room.take(low, archive([directory("a"), file("a/.wh..wh..opq"), file("a/z", b"9")]), archive([file("a/x", b"again")]))
    room.take(low, archive([file(".wh..wh..opq"), file("new", b"n")]))
    room.take(low, archive([file("a/z", b"before"), file("a/.wh..wh..opq"), directory("a/w"), file("b/.wh.c"),
                            file("b/c/n", b"c")]))
    room.take(low, archive([file("b", b"no directory")]), archive([file("b/n", b"a new one")]))
    room.take(low, archive([directory("e"), file("e/f", b"5"), file(".wh.e"), file("l", b"6")]),
              archive([file("e/.wh.f"), file(".wh.l")]))
    room.take(low, archive([directory(".wh.a"), file(".wh.a/x"), symlink(".wh..wh..opq", "x"), fifo("b/c/.wh.d")]))


def test_whiteouts_below_files(room):
    """Where something replaces a directory, umoci also removes what was in it; that says nothing more."""
    low = archive([file("a/x", b"1"), file("b/y/z", b"2"), file("c/x", b"3")])
    room.take(low, archive([file("a", b"1"), file("a/.wh.x"), symlink("b", "c"), file("b/y/.wh.z"), fifo("c"),
                            file("c/.wh..wh..opq")]))
    room.take(low, archive([file("a/.wh.x"), file("a", b"1"), hard("c/.wh.x", "a"), hard("c", "a"), file("c/.wh.x")]))


def test_many_layers(room):
    room.take(*(archive([file("f%d" % (number % 40), b"%d" % number), file(".wh.f%d" % (number * 7 % 40))])
                for number in range(100)))


def test_ends(room):
    room.take(bytes(1024), bytes(512 * 20), bytes(512), b"")
    # without an end, and without the zeros behind the last file, as umoci insert leaves it
    whole = archive([file("a", b"1"), file("b", b"2" * 512)])
    room.take(whole[:2048], whole[:513], archive([file("a")])[:512], archive([file("a", b"1" * 700)])[:512 + 700])


def test_random(room):
    """Layers of entries that often meet, some of which romfs cannot hold."""
    rng, refused = random.Random(7), 0
    for _ in range(80):
        made = [random_archive(rng) for _ in range(rng.randrange(1, 5))]
        place = layout_of(room.name(), made).path
        try:
            plain_layers.shown_by(made)
        except plain_layers.Impossible:
            status, output, told = room.convert(place, room.name())
            expect_lines(status, output, told, ["layer .."] * max(1, len(told)))
            refused += 1
            continue
        room.taken(place, made)
    expect(10 < refused < 60, "%d of 80 were refused" % refused)


def random_entry(rng, paths):
    def path():
        above = ["d", "d", "e", "e", ".wh.d", "a"][:6 if rng.random() < 0.1 else 4]
        names = [rng.choice(above) for _ in range(rng.choice([0, 0, 1, 1, 2]))]
        return "/".join([*names, rng.choice(["a", "b", "c", "f", ".wh.a", ".wh.d", ".wh.e", ".wh..wh..opq", "d"])])
    kind, name = rng.randrange(8), path()
    target = rng.choice(paths) if paths and rng.random() < 0.95 else path()
    if kind < 2 or name.endswith("d") and ".wh" not in name:
        return directory(name.replace("a", "d"), mode=rng.choice([0o755, 0o600]))
    paths.append(name)
    if kind < 5:
        return file(name, bytes(rng.randrange(40)) + b"%d" % rng.randrange(100), mode=rng.choice([0o644, 0o755]))
    if kind == 5:
        return rng.choice([symlink(name, path()), fifo(name), character(name, 1, rng.randrange(9))])
    return hard(name, target)


def random_archive(rng):
    paths = []
    return archive([random_entry(rng, paths) for _ in range(rng.randrange(14))], rng.choice([GNU, PAX]))



def test_lost(room):
    told = room.take(archive([directory("d", mode=0o1777, mtime=0), file("a", mode=0o4755, mtime=7), file("b", mode=0o444, uid=5)]),
                     archive([file("c", gid=7, pax_headers={"SCHILY.xattr.user.x": "1", "SCHILY.xattr.security.capability": "1"}), symlink("l", "x", mode=0o700, mtime=9)]))
    expect(told == ["extended attributes are not kept: 1 entry (1 capability)", "  layer 1: c: security.capability"], "told %r" % told)
    kept = archive([file("a"), directory("d"), file("x", mode=0o755), hard("h", "a"), file(".wh.y", mode=0, uid=5, mtime=7)])
    expect(room.take(kept) == [], "something was lost")



def test_pax_everywhere(room):
    """What a global header says holds for all that follow, unless they say otherwise."""
    made = archive([
        entry(b"g", "g", b"15 comment=abc\n"), file("a", b"1"), entry(b"g", "g", b"8 uid=7\n"), file("b", b"2"),
        file("c", b"3", pax_headers={"uid": "0"}), file("d", pax_headers={"uid": "", "path": "e"})])
    expect(room.take(made) == [], "something was lost")
