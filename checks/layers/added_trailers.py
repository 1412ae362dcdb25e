"""Tests of `tools/layers.py attributes FOLDER IMAGE`. A test is a function of a room."""
import errno
import os
import shutil
import stat
import subprocess
from unittest import mock

from checks.layers.layer_room import LeftOut, expect, run_tool
from checks.layers.shown_trees import read
from checks.plain import plain, plain_attributes
from checks.shared.images import MOST_FULL, Item, laid_out, write_spread


def added(folder, image, *words):
    """Runs the verb: its status, output and lines of standard error."""
    return run_tool("attributes", *words, folder, image)


def make_folder(at):
    """A folder with all that this user can make, with modes and times of their own."""
    os.makedirs(at + "/d/closed")
    for name, data, mode in (("a", b"1", 0o600), ("d/run", b"#!/bin/sh\n", 0o4711), ("d/closed/x", bytes(700), 0o640)):
        with open(os.path.join(at, name), "wb") as out:
            out.write(data)
        os.chmod(os.path.join(at, name), mode)
    os.link(at + "/a", at + "/d/other")
    os.symlink("a", at + "/l")
    os.mkfifo(at + "/pipe", 0o622)
    os.chmod(at + "/d", 0o1777)
    if os.geteuid() == 0:
        os.chown(at + "/a", 2 ** 32 - 2, 77)
        os.mknod(at + "/null", stat.S_IFCHR | 0o666, os.makedev(1, 3))
        os.chmod(at + "/null", 0o666)
    times = {"a": -1250000000, "d/run": 10 ** 18 + 1, "l": 5, "d": 1500000000, "": 77 * 10 ** 9}
    for name, time in times.items():
        os.utime(os.path.join(at, name), ns=(time, time), follow_symlinks=False)


def items_of(at):
    """The same as items of an image, links last."""
    found = [Item((b"a",), "regular", False, data=b"1"), Item((b"d",), "directory", True),
             Item((b"d", b"run"), "regular", True, data=b"#!/bin/sh\n"), Item((b"d", b"closed"), "directory", True),
             Item((b"d", b"closed", b"x"), "regular", False, data=bytes(700)), Item((b"l",), "symlink", False, data=b"a"),
             Item((b"pipe",), "fifo", False), Item((b"d", b"other"), "hard", False, target=(b"a",))]
    return found + [Item((b"null",), "character", False, spec=1 << 16 | 3)] * os.path.exists(at + "/null")


def facts(path):
    it = os.lstat(path)
    return (it.st_mode, it.st_uid, it.st_gid, *divmod(it.st_mtime_ns, 10 ** 9))


def hold_like(folder, image):
    """Holds what the trailer of an image shows against the folder; the paths."""
    stack = plain.stack_of([read(image)], True, True)
    for path, number in stack.paths.items():
        wanted, got = facts(os.path.join(os.fsencode(folder), *path)), stack.attributes(number)
        expect(wanted == got, "%r: wanted %r, got %r" % (path, wanted, got))
    return stack.paths


def write(path, data):
    with open(path, "wb") as out:
        out.write(data)


def test_added(room):
    """What an image shows with its trailer is what the folder is like; its own bytes stay, and a second run adds nothing."""
    folder, image = room.name(), room.name()
    make_folder(folder)
    for tail in (b"", bytes(5000)):
        data = laid_out(b"v", items_of(folder))
        write(image, data + tail)
        files = len(items_of(folder))
        expect(added(folder, image) == (0, "%s: attributes of %d files\n" % (image, files), []), "the run")
        paths = hold_like(folder, image)
        expect(len(paths) == files + 1, "paths: %r" % paths)
        with_it = read(image)
        expect(with_it[:len(data)] == data and len(with_it) % 1024 == 0, "the image's own bytes")
        os.chmod(folder + "/d/run", 0o700)
        added(folder, image)
        hold_like(folder, image)
        os.chmod(folder + "/d/run", 0o4711)
        added(folder, image)
        expect(read(image) == with_it, "a third run")


def test_genromfs(room):
    """An image of genromfs."""
    if shutil.which("genromfs") is None:
        raise LeftOut("no genromfs")
    folder, image = room.name(), room.name()
    make_folder(folder)
    subprocess.run(["genromfs", "-d", folder, "-f", image, "-V", "v"], check=True)
    before = read(image)
    status, _, told = added(folder, image)
    expect((status, told) == (0, []), "told %r" % told)
    hold_like(folder, image)
    full = int.from_bytes(before[8:12], "big")
    expect(read(image)[:full] == before[:full], "the image's own bytes")


def test_devices_of_genromfs(room):
    """A device that genromfs makes of a plain file's name is as it was, since nothing says what it is like."""
    folder, image = room.name(), room.name()
    os.mkdir(folder)
    write(folder + "/@tty,c,5,0", b"")
    write(image, laid_out(b"v", [Item((b"tty",), "character", False, spec=5 << 16)]))
    expect(added(folder, image)[0] == 0, "the run")
    expect(len(plain_attributes.rows(read(image))) == 1, "rows")


def test_no_room(room):
    """Behind the largest image no trailer ends below 2^32, as strata asks of an image in its file."""
    folder, image = room.name(), room.name()
    os.mkdir(folder)
    for name, size in (("big", write_spread(image)), ("end", 31)):
        with open(os.path.join(folder, name), "wb") as out:
            out.truncate(size)
    line = "%s: with its attributes it would be larger than 4294967280 bytes" % image
    expect(added(folder, image) == (1, "", [line]), "the run")
    expect(os.stat(image).st_size == MOST_FULL, "the image has changed")


def test_refused(room):
    """What can't be done leaves the image as it was."""
    folder, image = room.name(), room.name()
    make_folder(folder)
    data = laid_out(b"v", items_of(folder))

    def refuse(line, data=data):
        write(image, data)
        status, output, told = added(folder, image)
        expect((status, output, told) == (1, "", [line]), "told %r, and %r is wanted" % (told, line))
        expect(read(image) == data, "the image has changed")
    refuse("%s: something other than a trailer follows its full size" % image, data + bytes(2000) + b"x")
    refuse("%s: not a romfs image" % image, b"\x1f\x8b" + bytes(100))
    refuse("%s: not a romfs image" % image, b"")
    refuse("%s: not a romfs image" % image, data[:100])
    write(folder + "/d/closed/x", b"12")
    refuse("%s: %s/d/closed/x: has 2 bytes, and 700 in the image" % (image, folder))
    write(folder + "/d/closed/x", bytes(700))
    os.unlink(folder + "/d/run")
    refuse("%s/d/run: no such file or directory" % folder)
    os.mkdir(folder + "/d/run")
    refuse("%s: %s/d/run: is of another kind in the image" % (image, folder))
    missing = room.name()
    expect(added(folder, missing)[2] == ["%s: no such file or directory" % missing], "no image")


def test_lost(room):
    """Extended attributes are reported with the names of the files."""
    folder, image = room.name(), room.name()
    make_folder(folder)
    write(image, laid_out(b"v", items_of(folder)))
    try:
        os.setxattr(folder + "/d/run", "user.x", b"1")
        os.setxattr(folder + "/d/run", "user.y", b"1")
    except OSError as fault:
        raise LeftOut("extended attributes: %s" % fault.strerror) from None
    told = added(folder, image, "--no-xattrs")[2]
    expect(told == ["extended attributes are not kept: 1 entry (2 user attributes)", "  %s/d/run: user.x,user.y" % folder], "told %r" % told)


def test_no_extended_attributes(room):
    """A folder whose file system knows no extended attributes, as a mount of strata, has none; another fault is reported."""
    folder, image = room.name(), room.name()
    make_folder(folder)
    write(image, laid_out(b"v", items_of(folder)))
    for number, wanted in ((errno.ENOTSUP, (0, [])), (errno.EACCES, (1, ["%s: permission denied" % folder]))):
        fault = OSError(number, os.strerror(number), folder)
        with mock.patch.object(os, "listxattr", side_effect=fault):
            status, _, told = added(folder, image)
        expect((status, told) == wanted, "status %d, told %r" % (status, told))


def test_more_in_the_folder(room):
    """Files that only the folder has are reported by name."""
    folder, image = room.name(), room.name()
    make_folder(folder)
    write(image, laid_out(b"v", items_of(folder)))
    write(folder + "/d/new", b"")
    status, _, told = added(folder, image)
    expect((status, told) == (0, ["files that only the folder has are not in the image: 1 entry", "  %s/d/new" % folder]),
           "status %d, told %r" % (status, told))
