"""Tests of tools/layers.py: the folder that it writes, its words, and the demo's layout. A test is a function of a room."""
import gzip
import hashlib
import os
import subprocess

from checks import ROOT, TOOLS
from checks.layers.layer_room import expect
from checks.shared.layer_files import BESIDE, archive, directory, file, hard, layout_of, symlink
from strata_layers import layouts


def test_folder(room):
    """Existing images are never overwritten, nor is anything that a name in the folder leads to."""
    data = archive([file("a", b"1")])
    parts = layout_of(room.name(), [data])
    folder = room.name()
    os.mkdir(folder)
    with open(os.path.join(folder, "other"), "w", encoding="ascii") as out:
        out.write("x")
    broken = layout_of(room.name(), [data, data[:100]])
    expect(room.convert(broken.path, folder)[2] == ["layer 1: the archive is truncated"], "a broken layer")
    expect(os.listdir(folder) == ["other"], "left: %r" % os.listdir(folder))
    expect(room.convert(parts.path, folder)[0] == 0, "an existing folder")
    with open(os.path.join(folder, "00.romfs"), "rb") as it:
        written = it.read()
    status, output, told = room.convert(parts.path, folder)
    expect((status, output, told) == (1, "", ["%s: there is a 00.romfs already" % folder]), "told %r" % told)
    with open(os.path.join(folder, "00.romfs"), "rb") as it:
        expect(it.read() == written, "it was written over")
    expect(sorted(os.listdir(folder)) == ["00.romfs", "other"], "left: %r" % os.listdir(folder))
    for name in ("00.romfs", "7.romfs"):
        folder = room.name()
        os.mkdir(folder)
        os.symlink(room.path + "/aim", os.path.join(folder, name))
        expect(room.convert(parts.path, folder)[2] == ["%s: there is a %s already" % (folder, name)], name)
        expect(not os.path.exists(room.path + "/aim"), "a link was followed")
    missing = room.name() + "/in/it"
    expect(room.convert(parts.path, missing)[2] == ["%s: no such file or directory" % missing], "a missing folder")
    used = room.path + "/used"
    with open(used, "w", encoding="ascii"):
        expect(room.convert(parts.path, used)[2] == ["%s: file exists" % used], "a file is no folder")


def test_names_of_images(room):
    """With more than 100 layers all names have three digits, so that their order stays that of the layers."""
    made = [archive([file("f", b"%d" % number)]) for number in range(128)]
    folder = room.name()
    status, output, _ = room.convert(layout_of(room.name(), made).path, folder)
    names = ["%03d.romfs" % number for number in range(128)]
    expect(status == 0 and sorted(os.listdir(folder)) == [BESIDE, *names], "the folder")
    expect(output.split() == ["tools/mount.py", *(os.path.join(folder, name) for name in names), "DIR"], "printed %r" % output)
    room.hold([os.path.join(folder, name) for name in names], made)


def test_same_bytes(room):
    """The same layer always gives the same image."""
    made = archive([file("a/b", b"1"), directory("c"), hard("d", "a/b"), file("a/b", b"2"), symlink("c", "d")])
    images = []
    for packed in ("gzip", ""):
        folder = room.name()
        room.convert(layout_of(room.name(), [made], (packed,)).path, folder)
        with open(os.path.join(folder, "00.romfs"), "rb") as it:
            images.append(it.read())
    expect(images[0] == images[1] and images[0][:8] == b"-rom1fs-", "the images differ")
    # the volume's name is the digest of the archive
    name = b"sha256:" + hashlib.sha256(made).hexdigest().encode() + b"\0"
    expect(images[0][16:16 + len(name)] == name and len(images[0]) % 1024 == 0, "its name differs")


def test_command(room):
    """The command itself, from another folder, and its words."""
    parts = layout_of(room.name(), [archive([file("a", b"1")])])
    tool = TOOLS + "/layers.py"
    folder = "it's here"
    done = subprocess.run([tool, parts.path, folder], cwd=room.path, capture_output=True, check=False)
    line = "tools/mount.py 'it'\"'\"'s here/00.romfs' DIR\n"
    expect((done.returncode, done.stdout.decode(), done.stderr) == (0, line, b""), "ended with %r" % (done,))
    for word in ("-h", "--help"):
        done = subprocess.run([tool, word], cwd=room.path, capture_output=True, check=False)
        usage = b"usage: tools/layers.py [OPTIONS] LAYOUT[:TAG] FOLDER\n"
        expect((done.returncode, done.stderr) == (0, b"") and done.stdout.startswith(usage), "ended with %r" % (done,))


def test_wrong_words(room):
    """Wrong arguments are reported in one line, which says what is wrong with them, with status 2."""
    place = layout_of(room.name(), [archive([file("a", b"1")])]).path
    verbs = "neither a directory nor a verb; the verbs are image, convert, pull, images, verify, remove, prune, config, attributes, seal, podman"
    for line, *words in (
            ("a verb or LAYOUT[:TAG] FOLDER is missing",),
            ("FOLDER for the images of %s is missing" % place, place),
            ("b: unexpected after LAYOUT[:TAG] FOLDER", place, "a", "b"),
            ("--fail-on-lost: options stand before LAYOUT[:TAG]", place, "a", "--fail-on-lost"),
            ("--no-xattrs: options stand before LAYOUT[:TAG]", place, "--no-xattrs", "a"),
            ("a verb or LAYOUT[:TAG] FOLDER is missing", "--fail-on-lost"),
            ("--store: an option before the verb", "--store", "X", "images"),
            ("pul: " + verbs, "pul", "oci:x"),
            ("convrt: " + verbs, "convrt", "a", "b")):
        done = subprocess.run([TOOLS + "/layers.py", *words], cwd=room.path, capture_output=True, check=False, text=True)
        wanted = (2, "", "tools/layers.py: %s; see --help\n" % line)
        expect((done.returncode, done.stdout, done.stderr) == wanted, "ended with %r" % (done,))


def test_demo(room):
    """The layout that stands in the repository, whose layers are read from it for the plain reading."""
    place = ROOT + "/demo/layout"
    archives = []
    for it in layouts.Layout(place).layers("lantern"):
        with open(os.path.join(place, "blobs", it.algorithm, it.digits), "rb") as file_:
            data = file_.read()
        archives.append(gzip.decompress(data) if data.startswith(b"\x1f\x8b") else data)
    room.taken(place + ":lantern", archives)
