"""Tests of images that keep extended attributes, in version 2 of the trailer: they are held against
the plain reading of it. A test is a function of a room."""
import base64
import json
import os
import shutil
import struct
import subprocess

from checks.layers.folder_images import image_of, put, set_mark
from checks.layers.layer_room import GNU, LeftOut, expect, run_tool
from checks.layers.lost_attributes import ACCESS, CLOSED, CLOSED_TEXT, GROUP, MASK, OTHER, OWNER, USER, acl, texts
from checks.layers.shown_trees import read
from checks.plain import plain, plain_attributes
from checks.shared.layer_files import archive, directory, entry, file, hard, images_in, layout_of, symlink
from checks.shared.pulled import pulled_line
from strata_format.read_romfs import ReadImage

CAPABILITY = struct.pack("<5I", 0x02000001, 1 << 13, 0, 0, 0)


def kept(image):
    """The extended attributes and low mode bits in an image, by path, by the plain reading and by ours, which must agree."""
    data, found = read(image), {}
    expect(not plain_attributes.is_broken(data), "a broken trailer")
    rows, lists = plain_attributes.rows(data), plain_attributes.extended(data)
    with open(image, "rb") as it:
        ours = ReadImage(it.fileno())
    todo = [((), ours.root)]
    while todo:
        path, at = todo.pop()
        expect(tuple(map(tuple, lists.get(at, ()))) == ours.list_of(at), "%r: read otherwise" % (path,))
        mode = rows[at].mode if at in rows else None
        found[b"/".join(path).decode()] = mode, dict(lists.get(at, ()))
        if ours.is_folder(at):
            todo += [((*path, name), ours.end(header)) for name, header in ours.members(at).items()]
    return found


def test_kept_of_archives(room):
    """Capabilities, lists of rights in each form, labels and users' own come into the image; an overlay's own and what no
    image holds are reported."""
    packed = base64.b64encode(CLOSED).decode()
    shuffled = acl((OTHER, 0), (USER, 4, 1234), (MASK, 4), (OWNER, 6), (GROUP, 0))
    rights = {ACCESS.encode(): CLOSED}
    made = [
        ("ping", 0o755, {"SCHILY.xattr.security.capability": texts(CAPABILITY)}, 0o755, {b"security.capability": CAPABILITY}),
        ("binary", 0o640, {"SCHILY.xattr." + ACCESS: texts(CLOSED)}, 0o640, rights),
        ("other mode", 0o4777, {"SCHILY.xattr." + ACCESS: texts(shuffled)}, 0o4640, rights),
        ("text", 0o640, {"SCHILY.acl.access": CLOSED_TEXT.replace("1234", "joe", 1).replace("r--", "r--:1234", 1)}, 0o640, rights),
        ("base64", 0o640, {"LIBARCHIVE.xattr.system.posix_acl_access": packed}, 0o640, rights),
        ("both", 0o640, {"SCHILY.acl.access": "u::rwx,g::rwx,o::rwx", "SCHILY.xattr." + ACCESS: texts(CLOSED)}, 0o640, rights),
        ("a mode", 0o777, {"SCHILY.acl.access": "u::rw-,g::r--,o::---"}, 0o640, {}),
        ("own", 0o644, {"SCHILY.xattr.user.overlay.opaque": "y", "SCHILY.xattr.user.b": "2", "SCHILY.xattr.user.a": "1\n=",
                        "RHT.security.selinux": "x"}, 0o644, {b"user.a": b"1\n=", b"user.b": b"2", b"security.selinux": b"x"}),
        ("names", 0o640, {"SCHILY.acl.access": "user::rw-,user:joe:r--,group::---,mask::r--,other::---"}, 0o600, {}),
        ("broken", 0o664, {"SCHILY.xattr." + ACCESS: "\2\0\0\0x", "SCHILY.xattr.security.capability": "x"}, 0o604, {})]
    entries = [file(name, b"1", mode=mode, pax_headers=said) for name, mode, said, _, _ in made]
    entries += [directory("d", pax_headers={"SCHILY.acl.default": CLOSED_TEXT}), hard("ping2", "ping"),
                symlink("l", "x", pax_headers={"SCHILY.xattr.trusted.x": "1", "SCHILY.acl.access": CLOSED_TEXT})]
    wanted = {name: (mode, there) for name, _, _, mode, there in made}
    wanted.update({"": (None, {}), "ping2": wanted["ping"], "l": (0o777, {b"trusted.x": b"1"}),
                   "d": (0o755, {b"system.posix_acl_default": CLOSED})})
    layout = layout_of(room.name(), [archive(entries)]).path
    told = ["extended attributes are not kept: 3 entries (1 capability, 3 ACLs)", "  layer 0: names: acl.access"]
    out, place = room.name(), room.name()
    for words in ([layout, out], ["convert", "--store", place, layout, room.name() + ":1"]):
        status, _, lines = run_tool(*words)
        expect((status, lines[:2]) == (0, told), "told %r" % lines)
        expect(lines[4:] == ["attributes of overlayfs's own are left out: 1 entry", "  layer 0: own: user.overlay.opaque"],
               "told %r" % lines)
    image = images_in(out)[0]
    got = kept(image)
    expect({name: it for name, it in got.items() if name in wanted} == {**got, **wanted}, "kept %r" % got)
    # a store has both, one by the other, and counts again
    for words, line in (([], told[0]), (["--no-xattrs"], "extended attributes are not kept: 12 entries"), ([], told[0])):
        status, _, lines = run_tool("pull", "--store", place, *words, "oci:" + layout, "x:1")
        expect(status == 0 and lines[0].startswith(line), "%r: told %r" % (words, lines))
    # readers of version 1 see the same modes as ever
    stack = plain.stack_of([read(image)], True, True)
    expect(stack.attributes(stack.paths[(b"ping",)])[0] == 0o100755, "the mode")


def test_empty_records(room):
    """The last record of an attribute counts, and an empty one takes it back, a global header's too: pax, "extended header
    keywords"."""
    front = "SCHILY.xattr.user."
    made = archive([
        entry(b"x", "x", records((front + "a", "1"), (front + "b", "2"), (front + "a", ""))), file("first"),
        entry(b"x", "x", records((front + "a", ""), (front + "a", "1"), (front + "a", "3"))), file("last"),
        entry(b"g", "g", records((front + "a", "1"))), file("all"), entry(b"x", "x", records((front + "a", ""))), file("none")], GNU)
    out = room.name()
    expect(room.convert(layout_of(room.name(), [made]).path, out)[0] == 0, "it was refused")
    got = {path: items for path, (_, items) in kept(out + "/00.romfs").items() if items}
    wanted = {"first": {b"user.b": b"2"}, "last": {b"user.a": b"3"}, "all": {b"user.a": b"1"}}
    expect(got == wanted, "kept: %r" % got)


def records(*said):
    """Records of an extended header: the length of each counts itself."""
    found = b""
    for keyword, value in said:
        text = (" %s=%s\n" % (keyword, value)).encode()
        size = len(text) + len(str(len(text) + len(str(len(text)))))
        found += b"%d" % size + text
    return found


def test_kept_of_folders(room):
    """The same of folders, by `image` and `attributes`, and of equal lists one."""
    folder = room.name()
    for number in range(20):
        path = put(folder, "d/f%02d" % number, b"%d" % number, 0o640)
        set_mark(path, ACCESS, CLOSED)
        set_mark(path, "user.x", b"y" * 1000)
    os.symlink("f", folder + "/l")
    both = {ACCESS.encode(): CLOSED, b"user.x": b"y" * 1000}
    image, told = image_of(room, folder)
    got = kept(image)
    expect(told == [] and all(got["d/f%02d" % number] == (0o640, both) for number in range(20)), "kept %r" % got)
    expect(os.path.getsize(image) < 8000, "lists stand there many times")
    expect(read(image_of(room, folder)[0]) == read(image), "other bytes")
    bare, told = image_of(room, "--no-xattrs", folder)
    expect(kept(bare)["d/f00"] == (0o600, {}) and told[0].endswith("(20 ACLs, 20 user attributes)"), "told %r" % told)
    if shutil.which("genromfs") is None:
        raise LeftOut("genromfs: there is no such program")
    made = room.name()
    subprocess.run(["genromfs", "-d", folder, "-f", made, "-V", "x"], check=True)
    status, _, told = run_tool("attributes", folder, made)
    expect((status, told) == (0, []) and kept(made) == got, "told %r" % told)


def test_kept_of_implied_folders(room):
    """A folder that a layer only implies has the attributes that it has below, also of a store that has the layer already."""
    low = archive([directory("d", mode=0o750, pax_headers={"SCHILY.xattr.user.x": "1"}), file("d/a", b"1")])
    other = archive([directory("d", mode=0o700, pax_headers={"SCHILY.xattr.user.x": "2"})])
    high, place = archive([file("d/b", b"2")]), room.name()
    for number, (below, mode, value) in enumerate(((low, 0o750, b"1"), (other, 0o700, b"2"), (low, 0o750, b"1"))):
        layout = layout_of(room.name(), [below, high], ("",)).path
        out = room.name()
        run_tool(layout, out)
        expect(kept(images_in(out)[1])["d"] == (mode, {b"user.x": value}), "converted")
        status, _, told = run_tool("convert", "--store", place, layout, room.name() + ":%d" % number)
        expect((status, told) == (0, []), "told %r" % told)
        names = [os.path.join(place, "blobs", "sha256", it) for it in os.listdir(place + "/blobs/sha256")]
        expect(read(images_in(out)[1]) in map(read, names), "a store has another")


def test_kept_of_older_stores(room):
    """A store of older rules, by which attributes were lost, makes the layers anew that lost some, and no other."""
    made = [archive([file("a", b"1", pax_headers={"SCHILY.xattr.user.x": "1"})]), archive([file("b", b"2")])]
    layout, place = layout_of(room.name(), made).path, room.name()
    run_tool("pull", "--store", place, "--no-xattrs", "oci:" + layout, "x:1")
    records = os.path.join(place, "made")
    for name in os.listdir(records):
        front, is_bare, _ = name.partition("-bare")
        if is_bare:
            value = json.loads(read(os.path.join(records, name)))
            os.unlink(os.path.join(records, name))
            with open(os.path.join(records, front), "w", encoding="utf-8") as out:
                json.dump({**value, "maker": 4}, out)
    status, said, told = run_tool("pull", "--store", place, "oci:" + layout, "x:2")
    expect((status, said, told) == (0, pulled_line("x:2", 2, 1, place), []), "printed %r, told %r" % (said, told))


def test_room_for_lists(room):
    """An image that would be too large with its attributes is refused."""
    from strata_format import image, trailer
    from strata_format.refused import Refused
    for value, is_refused in ((b"x" * 4000, False), (b"x" * 60000, True)):
        with open(room.name(), "w+b", 0) as out:
            made = image.Image(lambda out=out: out, b"x", 1 << 15)
            it = made.file((b"a",), False, 1, iter([b"1"]))
            it.said = trailer.said(0o644, 0, 0, 0, 0)
            made.extend(it, ((b"user.x", value),))
            try:
                made.finish()
                expect(not is_refused and os.fstat(out.fileno()).st_size <= 1 << 15, "too large")
            except Refused:
                expect(is_refused, "refused")


def test_hostile_lists(room):
    """Of a stranger's image a list that leads nowhere, or has very many names, is none."""
    folder = room.name()
    set_mark(put(folder, "a", b"1"), "user.x", b"1")
    image = image_of(room, folder)[0]
    data = bytearray(read(image))
    place = data.index(b"-attr02-")
    for at in range(place, len(data) - 4, 4):
        for word in (0, 1, 2 ** 31, 2 ** 32 - 1):
            changed = room.path + "/changed"
            with open(changed, "wb") as out:
                out.write(data[:at] + struct.pack(">I", word) + data[at + 4:])
            with open(changed, "rb") as it:
                found = ReadImage(it.fileno())
            found.list_of(found.found((b"a",)))
