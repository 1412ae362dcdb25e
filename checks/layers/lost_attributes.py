"""Tests of what is lost of extended attributes: that it harms nobody, and is reported. A test is a
function of a room."""
import base64
import os
import shutil
import struct
import subprocess

from checks.layers.folder_images import image_of, put, refuse_image, set_mark, shown_of
from checks.layers.layer_room import PAX, LeftOut, expect, run_tool
from checks.plain import plain_layers
from checks.shared.layer_files import archive, directory, file, images_in, layout_of

ACCESS = "system.posix_acl_access"
# acl(5): who may be named, the owner, a user, the file's group, a group, the mask, and others
OWNER, USER, GROUP, NAMED, MASK, OTHER = 1, 2, 4, 8, 16, 32


def acl(*entries):
    """A list of rights as Linux has it in an attribute."""
    rows = (struct.pack("<HHI", tag, perms, *(number or [2 ** 32 - 1])) for tag, perms, *number in entries)
    return struct.pack("<I", 2) + b"".join(rows)


# of the file's group nobody may read, but user 1234
CLOSED = acl((OWNER, 6), (USER, 4, 1234), (GROUP, 0), (MASK, 4), (OTHER, 0))
CLOSED_TEXT = "user::rw-,user:1234:r--,group::---,mask::r--,other::---"


def texts(data):
    return data.decode("utf-8", "surrogateescape")


def modes_of(image):
    return {b"/".join(path).decode(): row[0][0] & 0o7777 for path, row in shown_of(image).items()}



def test_group_of_an_acl(room):
    """A list that is lost leaves the rights of the group's own entry, in each form that archives have."""
    packed = base64.b64encode(CLOSED).decode().rstrip("=")
    named = "user::rw-\nuser:bin:rwx\t#effective:r--\nuser:joe:r--:1001\ngroup::r-x\nmask::r--\nother::r--\n"
    wanted = {
        "binary": (0o640, {"SCHILY.xattr." + ACCESS: texts(CLOSED)}, 0o600),
        "text": (0o640, {"SCHILY.acl.access": CLOSED_TEXT}, 0o600),
        "names": (0o4644, {"SCHILY.acl.access": named}, 0o4644),
        "base64": (0o640, {"LIBARCHIVE.xattr.system.posix%5facl%5Faccess": packed}, 0o600),
        "both": (0o674, {"SCHILY.xattr." + ACCESS: texts(acl((OWNER, 6), (GROUP, 6), (MASK, 6), (OTHER, 4))),
                         "SCHILY.acl.access": "u::rw-,g::r--,m::rwx,o::r--"}, 0o644),
        # bsdtar's modes have the group's own bits
        "bsdtar": (0o604, {"SCHILY.acl.access": "user::rw-,group::---,other::r--,user:bin:rwx:2,user:7:r--,mask::r--"}, 0o604),
        "no mask": (0o654, {"SCHILY.acl.access": "user::rw-,group::r-x,other::r--"}, 0o654),
        # whoever is refused by name has no rights as one of the others
        "refused": (0o655, {"SCHILY.acl.access": "user::rw-,user:7:---,group::r-x,mask::r-x,other::r-x"}, 0o650),
        "a group": (0o655, {"SCHILY.acl.access": "user::rw-,group::r-x,group:9:r--,mask::r-x,other::r-x"}, 0o654),
        # nobody knows what these say
        "broken": (0o664, {"SCHILY.xattr." + ACCESS: "\2\0\0\0x"}, 0o604),
        "version": (0o664, {"SCHILY.xattr." + ACCESS: texts(CLOSED).replace("\2", "\3", 1)}, 0o604),
        "words": (0o664, {"SCHILY.acl.access": "user::rw-,group=r"}, 0o604),
        "default": (0o775, {"SCHILY.acl.default": CLOSED_TEXT}, 0o775)}
    made = archive([file(name, b"1", mode=mode, pax_headers=headers) for name, (mode, headers, _) in wanted.items()])
    image = room.name()
    layout = layout_of(room.name(), [made]).path
    status, _, told = run_tool("--no-xattrs", layout, image)
    lines = ["extended attributes are not kept: 13 entries (14 ACLs)"]
    expect((status, told[:1]) == (0, lines), "told %r" % told)
    got = modes_of(images_in(image)[0])
    expect(got == {"": 0o755, **{name: it[2] for name, it in wanted.items()}},
           {name: "%o" % mode for name, mode in got.items()})
    # the plain reading of the same archive
    good = [name for name in wanted if name not in ("broken", "version", "words", "base64")]
    plainly = plain_layers.shown_by([made_of(wanted, good)])
    expect({name: plainly[(name.encode(),)].row[0] for name in good} == {name: wanted[name][2] for name in good}, "plain")


def made_of(wanted, names):
    return archive([file(name, b"1", mode=wanted[name][0], pax_headers=wanted[name][1]) for name in names])


def test_acls_of_folders(room):
    """The same of a folder, by `image` and by `attributes`, and of what tar makes of it."""
    folder = room.name()
    for name, mode, value in (("closed", 0o640, CLOSED), ("plain", 0o664, None)):
        path = put(folder, name, b"1", mode)
        if value is not None:
            set_mark(path, ACCESS, value)
    expect(os.stat(folder + "/closed").st_mode & 0o777 == 0o640, "the mask is no mode here")
    wanted = {"": os.stat(folder).st_mode & 0o777, "closed": 0o600, "plain": 0o664}
    lines = ["extended attributes are not kept: 1 entry (1 ACL)", "  closed: " + ACCESS]
    image, told = image_of(room, "--no-xattrs", folder)
    expect((modes_of(image), told) == (wanted, lines), "shown %r, told %r" % (modes_of(image), told))
    if shutil.which("genromfs") is None:
        raise LeftOut("genromfs: there is no such program")
    image = room.name()
    subprocess.run(["genromfs", "-d", folder, "-f", image, "-V", "x"], check=True)
    status, _, told = run_tool("attributes", "--no-xattrs", folder, image)
    lines[1] = "  %s/closed: %s" % (folder, ACCESS)
    expect((status, modes_of(image), told) == (0, wanted, lines), "shown %r, told %r" % (modes_of(image), told))
    for words in (["--acls"], ["--xattrs", "--xattrs-include=*"]):
        made = subprocess.run(["tar", "-C", folder, *words, "-c", "closed", "plain"], check=True, capture_output=True).stdout
        image = room.name()
        status, _, told = run_tool("--no-xattrs", layout_of(room.name(), [made]).path, image)
        got = modes_of(images_in(image)[0])
        expect((status, got) == (0, {**wanted, "": 0o755}), "tar %s: %r" % (words, got))
        expect(told[0] == lines[0], "told %r" % told)


def test_counts(room):
    """What is lost is reported in one line with counts, also of a layer that was made before."""
    made = [archive([file("ping", mode=0o755, pax_headers={"SCHILY.xattr.security.capability": "1"}),
                     file("l", pax_headers={"RHT.security.selinux": "x", "SCHILY.xattr.trusted.x": "1"})]),
            archive([file("o", pax_headers={"SCHILY.xattr.user.overlay.opaque": "y", "SCHILY.xattr.user.y": "1"})])]
    line = "extended attributes are not kept: 3 entries (1 capability, 1 label, 1 user attribute, 1 other attribute)"
    own = "attributes of overlayfs's own are left out: 1 entry"
    whole = [line, "  layer 0: ping: security.capability", "  layer 0: l: security.selinux,trusted.x",
             "  layer 1: o: user.y", own, "  layer 1: o: user.overlay.opaque"]
    layout, place = layout_of(room.name(), made).path, room.name()
    for words in (["pull", "--no-xattrs", "--store", place, "oci:" + layout, "x:1"],
                  ["convert", "--no-xattrs", "--store", place, layout, room.name() + ":1"],
                  ["pull", "--no-xattrs", "--store", place, "oci:" + layout, "x:2"]):
        status, _, told = run_tool(*words)
        expect((status, told) == (0, whole), "%r: %d, told %r" % (words, status, told))
        whole = [line, own]
    # a layer that several images have is reported once
    new = layout_of(room.name(), [made[0], made[0]], ("gzip",)).path
    status, _, told = run_tool("convert", "--no-xattrs", "--store", place, new, room.name() + ":1")
    expect(told == [line.replace("3 entries", "2 entries").replace(", 1 user attribute", "")], "told %r" % told)


def test_fails_on_lost(room):
    """With --fail-on-lost nothing is made, in a store, a layout, a folder or an image."""
    made = archive([file("a", pax_headers={"SCHILY.xattr.user.y": "1"})])
    layout, place, out = layout_of(room.name(), [made]).path, room.name(), room.name()
    line = "--fail-on-lost: extended attributes are not kept: 1 entry (1 user attribute)"
    for words in (["convert", "--fail-on-lost", "--no-xattrs", "--store", place, layout, out],
                  ["convert", "--fail-on-lost", "--no-xattrs", "--store", place, layout, out],
                  ["pull", "--store", place, "--no-xattrs", "--fail-on-lost", "oci:" + layout, "x:1"],
                  ["--no-xattrs", "--fail-on-lost", layout, out]):
        status, output, told = run_tool(*words)
        expect((status, output, told[0]) == (1, "", line), "%r: %d, told %r" % (words, status, told))
        expect(told[1:] in ([], ["layer 0: a: user.y"]), "told %r" % told)
        expect(not os.path.exists(out), "%r made something" % words)
    expect(run_tool("images", "--store", place)[1] == "", "there is an image")
    folder = room.name()
    set_mark(put(folder, "a", b"1"), "user.y", b"1")
    refuse_image(room, ("--fail-on-lost", "--no-xattrs", folder, room.name()), line, "a: user.y")
    os.removexattr(folder + "/a", "user.y")
    expect(image_of(room, "--fail-on-lost", folder)[1] == [], "nothing is lost")
    good = layout_of(room.name(), [archive([directory("d")], PAX)]).path
    for words in (["--fail-on-lost", good, out], ["pull", "--fail-on-lost", "--store", place, "oci:" + good, "x:1"]):
        expect(run_tool(*words)[0] == 0, "%r is refused" % words)
