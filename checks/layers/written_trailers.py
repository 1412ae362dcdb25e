"""Tests of the attribute trailers that tools/layers.py writes, read plainly. A test is a function of a room."""
import os
import shutil
import struct
import subprocess

from checks.layers.layer_room import GNU, PAX, LeftOut, expect
from checks.layers.shown_trees import read
from checks.plain import plain, plain_attributes
from checks.shared import other_kernel
from checks.shared.layer_files import (archive, block, character, directory, fifo, file, hard, images_in, layout_of,
                                       symlink)

MOST = 2 ** 32 - 1


def shown(room, *archives):
    """What the trailers of the images of some archives show, by path, and the lines that were printed."""
    folder = room.name()
    status, _, told = room.convert(layout_of(room.name(), archives).path, folder)
    expect(status == 0, "status %d: %s" % (status, told))
    images = images_in(folder)
    room.hold(images, archives)
    stack = plain.stack_of([read(path) for path in images], True, True)
    return {b"/".join(path).decode(): stack.attributes(number) for path, number in stack.paths.items()}, told


def hold(what, wanted, got):
    expect(wanted == got, "%s: wanted %r, got %r" % (what, wanted, got))


def test_rows(room):
    """Every kind, with modes, owners and times at their bounds."""
    got, _ = shown(room, archive([
        directory("./", mode=0o750, uid=1, gid=2, mtime=3), directory("tmp", mode=0o1777, mtime=2 ** 31),
        file("su", b"1", mode=0o4755, mtime=5), file("sg", mode=0o2750, gid=MOST), file("none", mode=0, uid=MOST, gid=MOST),
        symlink("l", "su", mode=0o600, uid=8, mtime=9), character("null", 1, 3, mode=0o666, mtime=2 ** 33 - 1),
        block("sda", 8, 1, mode=0o660, gid=6), fifo("pipe", mode=0o7777)]))
    hold("shown", {
        "": (0o040750, 1, 2, 3, 0), "tmp": (0o041777, 0, 0, 2 ** 31, 0), "su": (0o104755, 0, 0, 5, 0),
        "sg": (0o102750, 0, MOST, 0, 0), "none": (0o100000, MOST, MOST, 0, 0), "l": (0o120777, 8, 0, 9, 0),
        "null": (0o020666, 0, 0, 2 ** 33 - 1, 0), "sda": (0o060660, 0, 6, 0, 0), "pipe": (0o017777, 0, 0, 0, 0)}, got)


def test_bytes_of_a_trailer(room):
    """A trailer of two rows, as the table of its format has it."""
    folder = room.name()
    made = archive([directory("./", mode=0o1777), file("a", b"1", uid=7, gid=8, mode=0o600, pax_headers={"mtime": "-1.25"})])
    room.convert(layout_of(room.name(), [made]).path, folder)
    data = read(folder + "/00.romfs")
    full, = struct.unpack_from(">I", data, 8)
    # behind the volume's header, whose name has 71 letters, stand the root's two headers and then the file
    words = [2, 0, 96, 0o1777, 0, 0, 0, 0, 0, 0, 160, 0o600, 7, 8, MOST, MOST - 1, 750000000, 0]
    words[1] = -(0x2d617474 + 0x7230312d + sum(words)) % 2 ** 32
    hold("the full size", 208, full)
    hold("the trailer", b"-attr01-" + struct.pack(">18I", *words), data[full:full + 80])
    hold("what stands behind it", bytes(1024 - 208 - 80), data[full + 80:])


def test_bytes_before_a_trailer(room):
    """Up to its full size an image has the bytes that it had without a trailer, for any rows."""
    def image(**fields):
        folder = room.name()
        made = archive([directory("d", **fields), file("d/a", b"1" * 100, **fields), symlink("l", "d/a", **fields)], GNU)
        layout = layout_of(room.name(), [made])
        room.convert(layout.path, folder)
        data = read(folder + "/00.romfs")
        return data[96:plain_attributes.place(data)], data[plain_attributes.place(data):]
    one, other = image(mode=0o755), image(mode=0o4711, uid=5, gid=MOST, mtime=77)
    expect(one[0] == other[0] and one[1] != other[1], "the bytes of an image change with its attributes")


def test_times(room):
    """Fractions from extended headers, before and after 1970; digits behind the ninth are cut off."""
    wanted = {"-1.25": (-2, 750000000), "1.25": (1, 250000000), "-0.5": (-1, 500000000), "0.5": (0, 500000000), "-0": (0, 0),
              "7.": (7, 0), "-7.": (-7, 0), "0.0000000019": (0, 1), "-0.0000000019": (-1, 999999999), "-1.9999999999": (-2, 1),
              "1.99999999999999999999": (1, 999999999), "-1.0000000009": (-1, 0), "-1.000000001": (-2, 999999999),
              "999999999999999999.123456789": (10 ** 18 - 1, 123456789), "-999999999999999999": (1 - 10 ** 18, 0),
              "00000000000000001.5": (1, 500000000)}
    got, told = shown(room, archive([file(text, pax_headers={"mtime": text}) for text in wanted]))
    hold("times", wanted, {path: it[3:] for path, it in got.items() if path})
    hold("told", [], told)
    got, told = shown(room, archive([file("a", mtime=-5), file("b", mtime=2 ** 62), file("c", mtime=2 ** 63 - 1),
                                     file("d", mtime=-2 ** 63), file("e", mtime=2 ** 33), file("f", mtime=-1)], GNU))
    hold("times of GNU", [-5, 2 ** 62, 2 ** 63 - 1, -2 ** 63, 2 ** 33, -1], [got[name][3] for name in "abcdef"])
    hold("told", [], told)
    got, told = shown_far(room)
    hold("far times", [2 ** 63 - 1, -2 ** 63], [got[name][3] for name in "ab"])
    hold("told", ["times beyond 64 bits are kept as the nearest that fit: 2 entries", "  layer 0: a", "  layer 0: b"],
         told)
    for text in ("1e5", "x", "1.5.5", "-", "+1", "1 ", "1.x", "9" * 19, ".5"):
        room.refuse("layer 0: the archive is broken: time '%s'" % text.replace(" ", "\\20"),
                    archive([file("a", pax_headers={"mtime": text})]))


def shown_far(room):
    """Times of more than 64 bits, which tarfile doesn't read."""
    folder, made = room.name(), archive([file("a", mtime=2 ** 63), file("b", mtime=-2 ** 80)], GNU)
    _, _, told = room.convert(layout_of(room.name(), [made]).path, folder)
    stack = plain.stack_of([read(folder + "/00.romfs")], True, True)
    return {b"/".join(path).decode(): stack.attributes(number) for path, number in stack.paths.items()}, told


def test_owners(room):
    """Owners of 32 bits and more, as numbers of GNU and as those of extended headers."""
    for form in (GNU, PAX):
        got, told = shown(room, archive([file("a", uid=MOST, gid=MOST - 1), file("b", uid=MOST + 1, gid=1),
                                         file("c", uid=1, gid=3 << 40), file("d", uid=2097152, gid=2097151)], form))
        hold("owners", [(MOST, MOST - 1), (65534, 1), (1, 65534), (2097152, 2097151)], [got[name][1:3] for name in "abcd"])
        hold("told", ["owners that are not numbers from 0 to 4294967295 are kept as 65534: 2 entries", "  layer 0: b",
                      "  layer 0: c"], told)


def test_extended_attributes(room):
    """What no trailer holds is reported with the names of the files."""
    many = [file("f%03d" % number, pax_headers={"LIBARCHIVE.xattr.security.capability": "1"}) for number in range(250)]
    _, told = shown(room, archive([
        file("ping", mode=0o755, pax_headers={"SCHILY.xattr.security.capability": "\x01", "SCHILY.xattr.user.x": "1"}),
        directory("d d", pax_headers={"RHT.security.selinux": "x"}), file("acl", pax_headers={"SCHILY.acl.access": "user::rw-"}),
        file("no", pax_headers={"SCHILY.dev": "1", "attributes": "x"})]), archive(many))
    hold("told", ["extended attributes are not kept: 252 entries (251 capabilities, 1 ACL)", "  layer 0: ping: security.capability",
                  "  layer 0: acl: system.posix_acl_access"], told[:3])
    hold("the last", ["  layer 1: f197: security.capability", "  .. and 52 more"], told[-2:])


def test_hard_links(room):
    """The names of a file have one row, whatever the entry of a link says, in any order."""
    got, _ = shown(room, archive([
        file("a", b"1", mode=0o600, uid=3, mtime=4), hard("b", "a", mode=0o777, uid=5, mtime=6), hard("c", "d", uid=9),
        file("d", b"2", mode=0o640, gid=2), file("a", b"new", mode=0o4711), hard("m", ".wh.m"), file(".wh.m", b"3", mode=0o440)]))
    old = (0o100600, 3, 0, 4, 0)
    hold("shown", {"b": old, "a": (0o104711, 0, 0, 0, 0), "c": (0o100640, 0, 2, 0, 0), "d": (0o100640, 0, 2, 0, 0),
                   "m": (0o100440, 0, 0, 0, 0)}, {name: got[name] for name in got if name})


def test_repeated_entries(room):
    """The last entry of a name counts; of what was replaced no row stays."""
    folder = room.name()
    made = archive([directory("d", mode=0o700, uid=1), file("d/a", mode=0o600, uid=2), directory("d", mode=0o711, mtime=5),
                    file("d/a", mode=0o604)])
    room.convert(layout_of(room.name(), [made]).path, folder)
    found = plain_attributes.rows(read(folder + "/00.romfs"))
    hold("rows", [(0o711, 0, 0, 5, 0), (0o604, 0, 0, 0, 0)], sorted(map(tuple, found.values()), reverse=True))


LOW = [directory("./", mode=0o751, uid=1, mtime=11), directory("etc", mode=0o700, uid=2, mtime=12),
       directory("etc/deep", mode=0o1777, mtime=13), file("etc/shadow", b"x", mode=0o640, gid=42), symlink("lib", "usr/lib"),
       directory("usr", mode=0o2755, gid=50, mtime=14), file("plain", b"1", mode=0o600)]


def test_implied_folders(room):
    """A folder without an entry is as the layers below show it; one that they don't show, or that is removed, is a new one."""
    root, etc, deep = (0o040751, 1, 0, 11, 0), (0o040700, 2, 0, 12, 0), (0o041777, 0, 0, 13, 0)
    new = (0o040755, 0, 0, 0, 0)

    def hold_over(entries, wanted, *between):
        got, _ = shown(room, archive(LOW), *between, archive(entries))
        hold("shown", wanted, {path: got.get(path) for path in wanted})
    hold_over([file("etc/deep/x"), file("etc/new/y")], {"": root, "etc": etc, "etc/deep": deep, "etc/new": new,
                                                        "etc/shadow": (0o100640, 0, 42, 0, 0)})
    # through a layer between that implies it too, and one that says otherwise
    hold_over([file("etc/deep/x")], {"": root, "etc": etc, "etc/deep": deep}, archive([file("etc/deep/z")]), archive([]))
    hold_over([file("etc/deep/x")], {"etc": (0o040711, 5, 0, 6, 0), "etc/deep": deep},
              archive([directory("etc", mode=0o711, uid=5, mtime=6)]))
    # its own entry may come behind what is in it
    hold_over([file("etc/x"), directory("etc", mode=0o500, mtime=1)], {"etc": (0o040500, 0, 0, 1, 0)})
    # removed and made again: in this layer, before or behind, by a marker of what is above; in one between; and by a file
    for entries in ([file(".wh.etc"), file("etc/deep/x")], [file("etc/deep/x"), file(".wh.etc")]):
        hold_over(entries, {"": root, "etc": new, "etc/deep": new})
    hold_over([file("etc/.wh..wh..opq"), file("etc/deep/x")], {"etc": etc, "etc/deep": new})
    hold_over([file(".wh..wh..opq"), file("etc/deep/x")], {"": root, "etc": new, "etc/deep": new})
    hold_over([file("etc/deep/x")], {"etc": new, "etc/deep": new}, archive([file(".wh.etc")]))
    hold_over([file("etc/deep/x")], {"etc": etc, "etc/deep": new}, archive([file("etc/.wh.deep")]))
    hold_over([file("etc/deep/x")], {"etc": etc, "etc/deep": new}, archive([file("etc/.wh..wh..opq")]))
    hold_over([file("etc/deep/x")], {"etc": new, "etc/deep": new}, archive([file("etc", b"a file")]), archive([file(".wh.etc")]))
    # where no folder is shown below
    hold_over([file(".wh.plain"), file("plain/x"), file(".wh.lib"), file("lib/y")],
              {"plain": new, "lib": new, "usr": (0o042755, 0, 50, 14, 0)})


def test_markers(room):
    """The row of a whiteout says nothing, nor does that of what stands below one."""
    got, _ = shown(room, archive([file("a", mode=0o600), directory("d", mode=0o700), file("d/x", mode=0o640)]),
                   archive([file(".wh.a", mode=0o4777, uid=5, mtime=7), file("d/.wh..wh..opq", uid=5), directory(".wh.y", uid=5),
                            file(".wh.y/z", uid=5)]))
    hold("shown", {"": (0o040755, 0, 0, 0, 0), "d": (0o040700, 0, 0, 0, 0)}, got)


def test_mixed_layers(room):
    """Layers with and without trailers: a node without a row belongs to the given owner, and is dated 1970."""
    folder = room.name()
    made = [archive(LOW), archive([file("etc/name", b"2", uid=6, mode=0o600, mtime=7)])]
    room.convert(layout_of(room.name(), made).path, folder)
    lower, upper = (read(folder + "/%02d.romfs" % number) for number in range(2))
    bare = upper[:plain_attributes.place(upper)]
    expect(plain_attributes.trailer(bare) is None, "cut off at its full size an image has a trailer")
    stack = plain.stack_of([lower, bare], True, True, (8, 9))
    got = {b"/".join(path).decode(): stack.attributes(number) for path, number in stack.paths.items()}
    hold("shown", {"": (0o040755, 8, 9, 0, 0), "etc": (0o040755, 8, 9, 0, 0), "etc/name": (0o100644, 8, 9, 0, 0),
                   "etc/shadow": (0o100640, 0, 42, 0, 0), "etc/deep": (0o041777, 0, 0, 13, 0)},
         {path: got[path] for path in ("", "etc", "etc/name", "etc/shadow", "etc/deep")})
    without = plain.stack_of([lower, upper], True, False, (8, 9))
    hold("without attributes", {(0o040755, 8, 9, 0, 0), (0o100644, 8, 9, 0, 0), (0o120777, 8, 9, 0, 0)},
         {without.attributes(number) for number in without.paths.values()})


LINUX = """
mount -t romfs -o loop,ro "$1" "$3" && mount -t romfs -o loop,ro "$2" "$4" || exit 99
for at in "$3" "$4"; do (cd "$at" && find . -printf '%p %y %m %U:%G %s %T@ %n %l\\n' | LC_ALL=C sort); done
diff -r "$3" "$4"; umount "$3" "$4"
"""


def with_and_without(room):
    """An image with a trailer, of version 2, and the same without."""
    folder, bare = room.name(), room.name()
    marked = file("marked", b"2", pax_headers={"SCHILY.xattr.user.x": "1"})
    room.convert(layout_of(room.name(), [archive([*LOW[:2], *LOW[4:], marked])]).path, folder)
    data = read(folder + "/00.romfs")
    expect(b"-attr02-" in data, "there is no second part")
    place = plain_attributes.place(data)
    with open(bare, "wb") as out:
        out.write(data[:place] + bytes(-place % 1024))
    return folder + "/00.romfs", bare


def hold_halves(lines):
    """What was printed of both images is the same."""
    hold("a mount by Linux", lines[:len(lines) // 2], lines[len(lines) // 2:])
    expect(len(lines) >= 12, "Linux shows %r" % lines)


def test_linux(room):
    """Linux's own driver shows of an image with a trailer what it shows of the same one without."""
    images, places = with_and_without(room), [room.name(), room.name()]
    for it in places:
        os.mkdir(it)
    if os.geteuid() != 0 or shutil.which("unshare") is None:
        raise LeftOut("Linux's own romfs: it takes root and unshare to mount it")
    done = subprocess.run(["unshare", "-m", "sh", "-c", LINUX, "sh", *images, *places], stdin=subprocess.DEVNULL,
                          capture_output=True, text=True, check=False)
    if done.returncode == 99 or "unshare" in done.stderr:
        raise LeftOut("Linux's own romfs can't be mounted here: %s" % done.stderr.strip().splitlines()[0])
    hold("its status", 0, done.returncode)
    hold_halves(done.stdout.splitlines())


OTHER_LINUX = r"""
mkdir /a /b
mount -t romfs -o loop,ro /with /a && mount -t romfs -o loop,ro /without /b
for at in /a /b; do
    cd $at
    find . | sort | while read -r it; do
        stat -c '%n %F %a %u:%g %h %s %t,%T %Y' "$it"
        if [ -L "$it" ]; then readlink "$it"; elif [ -f "$it" ]; then md5sum "$it"; fi
    done
done
"""


def test_other_linux(room):
    """The same in another kernel, where its package is named."""
    missing = other_kernel.what_is_missing()
    if missing:
        raise LeftOut("another kernel's romfs: %s" % missing)
    image, bare = with_and_without(room)
    place = room.name()
    os.mkdir(place)
    hold_halves(other_kernel.run_in(place, ("loop", "romfs"), {"with": image, "without": bare}, OTHER_LINUX))


# an image of 64 bytes with a root that holds nothing, as a dump prints it
BARE = bytes.fromhex("2d726f6d3166732d000000402b271d2676000000000000000000000000000000"
                     "000000090000002000000000d1ffffd72e000000000000000000000000000000")


def with_words(*words, letters=b"-attr01-", count=None):
    """The bare image with a trailer of rows of these words each, whose sum is right."""
    words = [len(words) // 8 if count is None else count, 0, *words]
    words[1] = -sum(struct.unpack(">2I", letters.ljust(8, b"\0")[:8]), sum(words)) % 2 ** 32
    return BARE + letters + struct.pack(">%dI" % len(words), *words)


def test_plain_reading(room):
    """The plain reading of the rule itself, on both sides of each of its bounds."""
    def row(at=32, mode=0o755, nanoseconds=0, last=0):
        return at, mode, 1, 2, MOST, MOST, nanoseconds, last
    none = [BARE, BARE + b"-attr01", with_words(*row(mode=2 ** 31), letters=b"-attr02-"), BARE + bytes(32)]
    right = [with_words(), with_words() + b"\1", with_words(*row()) + b"more", with_words(*row(48)), with_words(*row(0), *row(16)),
             with_words(*row(mode=0o7777)), with_words(*row(nanoseconds=999999999))]
    broken = [BARE + b"-attr01-", with_words()[:-1], with_words(*row())[:-1], with_words(count=1), with_words(*row(), count=2),
              with_words(*row(33)), with_words(*row(40)), with_words(*row(64)), with_words(*row(16), *row(16)),
              with_words(*row(32), *row(16)), with_words(*row(mode=0o10000)), with_words(*row(nanoseconds=10 ** 9)),
              with_words(*row(last=1)), right[2][:87] + b"\xec" + right[2][88:]]
    hold("without a trailer", [None] * len(none), [plain.fault(data, True, True) for data in none])
    hold("right ones", [None] * len(right), [plain.fault(data, True, True) for data in right])
    hold("broken ones", [("Attributes", 64)] * len(broken), [plain.fault(data, True, True) for data in broken])
    hold("not asked", [None] * len(broken), [plain.fault(data, True) for data in broken])
    # of an image whose full size is no multiple of 16 it begins behind that
    odd = BARE[:11] + b"\x3e" + BARE[12:15] + b"\x28" + BARE[16:] + with_words(*row(48), *row(64))[64:]
    hold("an odd full size", ("Attributes", 64), plain.fault(odd, False, True))
    expect(plain_attributes.rows(right[2]) == {32: (0o755, 1, 2, -1, 0)}, "what a row says")
    stack = plain.stack_of([right[2]], False, True, (8, 9))
    expect(stack.attributes(1) == (0o040755, 1, 2, -1, 0), "what is shown")
