"""Tests of `tools/layers.py image`: images of folders and of archives on standard input. What they
show is held against what the system says of the folder. A test is a function of a room."""
import bz2
import contextlib
import errno
import functools
import gzip
import io
import lzma
import os
import resource
import shlex
import shutil
import signal
import socket
import stat
import subprocess
import sys
import time

from checks import TOOLS
from checks.layers.layer_room import GNU, LeftOut, expect, expect_lines, run_tool
from checks.layers.shown_trees import read, shown_tree
from checks.plain import plain, plain_images
from checks.shared.layer_files import archive, directory, file, hard, symlink
from strata_format.files import open_folder
from strata_format.refused import Refused
from strata_layers.image_maker import image_of_folder
from strata_layers.lost import Lost

LARGE = 1 << 17
# so many bytes of an archive are held before the image begins
HELD_MOST = 32 << 20


# --- folders ---

def put(folder, name, data=b"", mode=0o644):
    path = os.path.join(folder, name)
    os.makedirs(os.path.dirname(path), exist_ok=True)
    with open(path, "wb") as out:
        out.write(data)
    os.chmod(path, mode)
    return path


def made_folder(room):
    """A folder with every kind of file that this user can make."""
    folder = room.name()
    for number in range(20):
        put(folder, "d%d/large" % number, bytes([number]) * (LARGE + number))
        put(folder, "d%d/s/small" % number, b"%d" % number)
    put(folder, "su", b"#!", 0o4755)
    put(folder, "none", b"12", 0o600 if os.geteuid() else 0)
    put(folder, os.fsdecode(b"not \xff utf-8 \x01\\"), b"1")
    put(folder, "n" * 255, b"1")
    put(folder, ".wh.gone")
    os.mkdir(folder + "/d1/closed", 0o700)
    os.link(folder + "/su", folder + "/d1/su2")
    os.symlink("d1/su2", folder + "/link")
    os.link(folder + "/link", folder + "/link2", follow_symlinks=False)
    os.mkfifo(folder + "/pipe", 0o640)
    with socket.socket(socket.AF_UNIX) as end:
        end.bind(os.path.relpath(folder + "/socket"))
    with open(folder + "/sparse", "wb") as out:
        out.seek(3 << 20)
        out.write(b"in the middle")
        out.truncate(5 << 20)
    if os.geteuid() == 0:
        os.mknod(folder + "/null", 0o666 | stat.S_IFCHR, os.makedev(1, 3))
        os.mknod(folder + "/disk", 0o660 | stat.S_IFBLK, os.makedev(4095, 65535))
        os.chown(folder + "/d2", 5, 4000000000)
    os.utime(folder + "/d2", ns=(0, 1234567890123456789))
    os.utime(folder + "/link", ns=(0, 10 ** 9 + 7), follow_symlinks=False)
    return folder


def data_of(path, found):
    if stat.S_ISLNK(found.st_mode):
        return os.fsencode(os.readlink(path))
    return read(path) if stat.S_ISREG(found.st_mode) else b""


def wanted_of(folder):
    """What must be shown of a folder: by path the mode, owner and time, the device, the data, and
    which other paths are the same file."""
    paths = [folder, *(os.path.join(place, name) for place, folders, files in os.walk(folder)
                       for name in folders + files)]
    found = {}
    for path in paths:
        it = os.lstat(path)
        name = os.fsencode(os.path.relpath(path, folder))
        rest = () if path == folder else tuple(name.split(b"/"))
        row = it.st_mode, it.st_uid, it.st_gid, *divmod(it.st_mtime_ns, 10 ** 9)
        found[rest] = (row, it.st_rdev, data_of(path, it),
                       rest if stat.S_ISDIR(it.st_mode) else it.st_ino)
    first = {}
    for path in sorted(found):
        first.setdefault(found[path][3], path)
    return {path: (*it[:3], first[it[3]]) for path, it in found.items() if not is_marker(path)}


def is_marker(path):
    return path != () and path[-1].startswith(b".wh.")


def shown_of(image):
    """The same of an image, by the plain reading of it."""
    stack, first = plain.stack_of([read(image)], True, True), {}
    for path in sorted(stack.paths):
        first.setdefault(stack.paths[path], path)
    return {path: (stack.attributes(number), stack.rdev(number), stack.body(number), first[number])
            for path, number in stack.paths.items()}


def image_of(room, *words):
    """Makes an image; its path, and the lines that were printed."""
    image = room.name() + " '.romfs"
    status, output, told = run_tool("image", *words, image)
    expect(status == 0, "status %d: %s" % (status, told))
    expect(output == "tools/mount.py %s DIR\n" % shlex.quote(image), "printed %r" % output)
    return image, told


def hold_image(room, folder, image):
    wanted, got = wanted_of(folder), shown_of(image)
    for path in sorted({*wanted, *got}):
        both = wanted.get(path), got.get(path)
        expect(both[0] == both[1], "%r should be %.300s, and is %.300s" % (path, *both))
    if room.strata is not None:
        shown = shown_tree(room.strata, [image])
        expect({*shown} == {*wanted}, "strata shows other paths")
        for path, it in shown.items():
            expect((it.rdev, it.data) == wanted[path][1:3], "strata shows %r otherwise" % (path,))


# --- tests ---

def test_image_of_a_folder(room):
    folder = made_folder(room)
    image, told = image_of(room, folder)
    expect(told == [], "told %r" % told)
    hold_image(room, folder, image)
    expect(os.stat(image).st_blocks * 512 < os.stat(image).st_size - (3 << 20), "holes were filled")


def test_image_is_replaced(room):
    """The same folder gives the same bytes, instead of an existing image."""
    folder = made_folder(room)
    image, _ = image_of(room, folder)
    before = read(image)
    put(folder, "more")
    expect(run_tool("image", folder, image)[0] == 0 and read(image) != before, "it is as before")
    os.unlink(folder + "/more")
    os.utime(folder, ns=(7, 7))
    status = run_tool("image", folder, image)[0]
    again, _ = image_of(room, folder)
    expect(status == 0 and read(image) == read(again), "the same folder gives other bytes")


def test_same_image_of_a_copy(room):
    """Names give the order, not the way in which the system has them."""
    names = ["%s%d" % (letter, number) for number in range(40) for letter in "Zaä.é"]
    images = []
    for order in (names, names[::-1], sorted(names)):
        folder = room.name()
        for name in order:
            path = put(folder, "d/" + name, name.encode() * (len(name) * 700))
            os.utime(path, ns=(1, 1))
        for name in ("d", "."):
            os.utime(os.path.join(folder, name), ns=(2, 2))
        images.append(read(image_of(room, folder)[0]))
    expect(images[0] == images[1] == images[2], "the images differ")


def test_headers_stand_together(room):
    """Folders, links and small files stand before the headers of large files, the largest last."""
    folder = made_folder(room)
    for number in range(5):
        put(folder, "d%d/middle" % number, b"m" * (8193 + number * 10000))
    image = plain_images.Image(read(image_of(room, folder)[0]))
    sizes = {h: image.size(h) * (image.kind(h) == 2)
             for d in image.directories() for h in image.members(d)}
    order = [sizes[h] for h in sorted(sizes)]
    classes = [(size > 8192) + (size > 65536) for size in order]
    expect(classes == sorted(classes) and {*classes} == {0, 1, 2}, "in this order: %r" % order)


@contextlib.contextmanager
def opened(room, folder):
    """An open folder, and a new file for its image."""
    number = open_folder(folder)
    try:
        with open(room.name(), "w+b", 0) as out:
            yield number, out
    finally:
        os.close(number)


class Meddler:
    """Somebody who changes a folder between the two times that it is read."""

    def __init__(self, change):
        self.change = change

    def add(self, _):
        pass

    @property
    def total(self):
        return None

    @total.setter
    def total(self, _):
        # times of files have some milliseconds between them
        time.sleep(0.03)
        self.change()


# --- changes between the two times that a folder is read ---

def grown(folder):
    put(folder, "d1/large", b"1" * (LARGE + 2))


def shrunk(folder):
    os.truncate(folder + "/d1/large", 5)


def other(folder):
    put(folder, "new", read(folder + "/d1/large"))
    os.rename(folder + "/new", folder + "/d1/large")


def link(folder):
    os.unlink(folder + "/none")
    os.symlink("/etc/passwd", folder + "/none")


def pipe(folder):
    os.unlink(folder + "/none")
    os.mkfifo(folder + "/none")


def gone(folder):
    os.unlink(folder + "/d1/large")


def linked_folder(folder):
    os.rename(folder + "/d1", folder + ".elsewhere")
    os.symlink(folder + ".elsewhere", folder + "/d1")


def one_more(folder):
    put(folder, "d1/s/more")


CHANGES = ((grown, "d1/large"), (shrunk, "d1/large"), (other, "d1"), (link, "none"), (pipe, "none"),
           (gone, "d1"), (linked_folder, "d1/s/small"), (one_more, "d1/s"))


def test_folder_that_changes(room):
    """What is changed meanwhile is reported, and what a link leads to is not read instead of it."""
    for change, name in CHANGES:
        folder = made_folder(room)
        line = None
        with opened(room, folder) as (number, out):
            try:
                meddler = Meddler(functools.partial(change, folder))
                image_of_folder(number, out, Lost(), folder, progress=meddler)
            except Refused as refused:
                line = str(refused)
        expect(line == name + ": was changed while it was read",
               "%s: told %r" % (change.__name__, line))
        shutil.rmtree(folder)


def refuse_image(room, words, *lines):
    expect_lines(*run_tool("image", *words), lines)
    found = [name for name in os.listdir(room.path) if name.startswith(".strata-")]
    expect(found == [], "there is %r" % found)


def test_refused_images(room):
    folder, image, none = made_folder(room), room.name(), room.path + "/none"
    refuse_image(room, (none, image), none + ": no such file or directory")
    refuse_image(room, (folder + "/su", image), "%s/su: not a directory; a tar archive goes to standard input: "
                 "`strata-layers image - IMAGE < ARCHIVE`" % folder)
    refuse_image(room, (folder, folder), "%s: exists and is not a file" % folder)
    refuse_image(room, (folder, "/dev/null"), "/dev/null: exists and is not a file")
    put(room.path, "aim.romfs", b"1")
    os.symlink("aim.romfs", room.path + "/link")
    refuse_image(room, (folder, room.path + "/link"), room.path + "/link: is a symbolic link: name the file that is to be replaced")
    refuse_image(room, (folder, "-"), "an image cannot be written to standard output; ./- is a file of that name")
    refuse_image(room, (folder, none + "/x"), none + ": no such file or directory")
    line = "the image must be outside the folder that it is made from"
    refuse_image(room, (folder, folder + "/d1/x.romfs"), line)
    expect({*os.listdir(folder + "/d1")} == {"large", "s", "closed", "su2"}, "something was left")
    if os.geteuid() != 0:
        put(folder, "d1/locked", b"1", 0)
        refuse_image(room, (folder, image), "%s/d1/locked: permission denied" % folder)
        os.chmod(folder + "/d0", 0)
        refuse_image(room, (folder, image), "%s/d0: permission denied" % folder)
        os.chmod(folder + "/d0", 0o700)


def test_what_no_image_holds(room):
    """Files above 4 GiB, large numbers and deep paths are reported by name, or left out."""
    folder, image = made_folder(room), room.name()
    with open(folder + "/huge", "wb") as out:
        out.truncate(2 ** 32)
    lines = ["huge: a file of 4294967296 bytes, at most 4294967280 are held"]
    if os.geteuid() == 0:
        os.mknod(folder + "/minor", 0o600 | stat.S_IFCHR, os.makedev(1, 65536))
        os.link(folder + "/minor", folder + "/minor2")
        lines.append("minor: a device of minor number 65536, at most 65535 is held")
        lines.append("minor2: a hard link to nothing in its layer: minor")
    deep = os.path.join(*"d" * 512)
    at = folder
    for _ in range(512):
        at += "/d"
        os.mkdir(at)
    number = os.open(at, os.O_RDONLY)
    os.mkdir("e", dir_fd=number)
    os.close(number)
    lines.insert(0, "%.200s..: a path of 513 names, at most 512 are held" % (deep + "/e"))
    # a link to what can't be held is not told beside it
    refuse_image(room, (folder, image), *(line for line in lines if "to nothing" not in line))
    image, told = image_of(room, "--leave-out", folder)
    names = [line.partition(":")[0] for line in lines]
    wanted = ["entries that romfs cannot hold are left out: %d entries" % len(names)]
    expect(told == wanted + ["  " + name for name in names], "told %r" % told)
    shown = shown_of(image)
    expect((b"d",) * 512 in shown, "too much was left out")
    expect((b"huge",) not in shown and (b"minor2",) not in shown, "too little was left out")


def test_name_like_an_option(room):
    """The command that is printed takes an image whose name begins with - as one."""
    folder = made_folder(room)
    done = subprocess.run([sys.executable, "-B", TOOLS + "/layers.py", "image", folder, "--", "-y.romfs"], cwd=room.path,
                          capture_output=True, check=False, text=True)
    expect((done.returncode, done.stdout.split()[1:]) == (0, ["./-y.romfs", "DIR"]), "ended with %r" % (done,))


def test_closed_terminal(room):
    """SIGHUP ends it as SIGTERM does, and leaves nothing; under nohup it does not."""
    made = archive([file("large", bytes(HELD_MOST + LARGE))])
    for action, wanted in ((signal.SIG_DFL, 129), (signal.SIG_IGN, 1)):
        words = [sys.executable, "-B", TOOLS + "/layers.py", "image", "-", room.name()]
        run = subprocess.Popen(words, stdin=subprocess.PIPE, stdout=subprocess.DEVNULL, stderr=subprocess.DEVNULL,
                               preexec_fn=functools.partial(signal.signal, signal.SIGHUP, action))
        run.stdin.write(made[:-LARGE])
        run.stdin.flush()
        while not any(it.startswith(".strata-") for it in os.listdir(room.path)):
            expect(run.poll() is None, "it has ended")
            time.sleep(0.01)
        run.send_signal(signal.SIGHUP)
        if action == signal.SIG_IGN:
            run.stdin.close()
        status = run.wait()
        run.stdin.close()
        left = [it for it in os.listdir(room.path) if it.startswith(".strata-")]
        expect((status, left) == (wanted, []), "ended with %d, and left %r" % (status, left))


def test_image_of_a_large_folder(room):
    """An image that would have 4 GiB is refused in one line before anything is read."""
    folder, image = room.name(), room.name()
    os.mkdir(folder)
    for name in ("a", "b", "c"):
        with open(os.path.join(folder, name), "wb") as out:
            out.truncate(2 ** 31 - 200)
    refuse_image(room, (folder, image),
                 "c: the image would be larger than 4294967280 bytes with its attributes; "
                 "make images of parts, each with the same paths from its root, and mount them together")


def test_image_of_an_archive(room):
    """An archive on standard input gives the image that a layer of it has."""
    made = archive([directory("bin"), file("bin/sh", b"#!" * 40000, mode=0o755, uid=7, mtime=9),
                    symlink("l", "bin/sh"), hard("bin/ash", "bin/sh"), file("small", b"1"),
                    file(".wh.x")], GNU)
    words, image = [TOOLS + "/layers.py", "image", "-"], room.name()
    cut_off = b"tools/layers.py: the archive is truncated\n"
    empty = b"tools/layers.py: standard input is empty\n"
    none = b"tools/layers.py: standard input is no tar archive\n"
    other = "tools/layers.py: standard input is compressed with %s: pass it through `%s -dc` first\n"
    others = {name: (1, (other % (name, name)).encode()) for name in ("xz", "bzip2")}
    for given, wanted in ((made, (0, b"")), (made[:2000], (1, cut_off)), (b"", (1, empty)),
                          (b"x" * 5000, (1, none)), (b"x", (1, none)), (made[:300], (1, none)),
                          (lzma.compress(made), others["xz"]), (bz2.compress(made), others["bzip2"]),
                          (bz2.compress(b"", 1), others["bzip2"]), (gzip.compress(made), (0, b""))):
        done = subprocess.run([*words, image], input=given, capture_output=True, check=False)
        expect((done.returncode, done.stderr) == wanted, "ended with %r" % (done,))
        room.hold([image], [made])


def test_replaced_image(room):
    """A tree of the image that is replaced goes with it; only a file is removed."""
    folder, image = made_folder(room), room.name()
    expect(run_tool("image", folder, image)[0] == 0, "no image")
    expect(run_tool("seal", image)[0] == 0, "no tree")
    expect(os.path.exists(image + ".verity"), "no tree")
    expect(run_tool("image", folder, image)[0] == 0, "not replaced")
    expect(not os.path.lexists(image + ".verity"), "the old tree is there")
    os.symlink("none", image + ".verity")
    expect(run_tool("image", folder, image)[0] == 0, "not replaced")
    expect(os.path.islink(image + ".verity"), "a link was removed")


def set_mark(path, name, value):
    try:
        os.setxattr(path, name, value, follow_symlinks=False)
    except OSError as fault:
        if fault.errno in (errno.ENOTSUP, errno.EPERM):
            raise LeftOut("extended attributes can't be set here") from None
        raise


def test_upper_folder(room):
    """The upper folder of a mount of overlayfs, over a folder that it was mounted over."""
    low, upper = room.name(), room.name()
    for name in ("a/x", "a/y", "b/x", "c", "d/x", "e"):
        put(low, name, name.encode())
    put(upper, "a/z", b"z")
    put(upper, "b/new", b"n")
    put(upper, "empty", b"")
    kind = "trusted" if os.geteuid() == 0 else "user"
    set_mark(upper + "/b", kind + ".overlay.opaque", b"y")
    set_mark(upper + "/a", kind + ".overlay.impure", b"y")
    set_mark(upper + "/empty", "user.note", b"1")
    with contextlib.suppress(PermissionError):
        os.mknod(upper + "/a/x", stat.S_IFCHR, 0)
        os.link(upper + "/a/x", upper + "/c")
        os.link(upper + "/a/x", upper + "/d")
    below, above = image_of(room, low)[0], image_of(room, "--upper", upper)
    expect(above[1] == [], "told %r" % above[1])
    stack = plain.stack_of([read(below), read(above[0])], True, True)
    paths = {b"/".join(path).decode() for path in stack.paths}
    hidden = {"a/x", "c", "d", "d/x"} if os.path.exists(upper + "/d") else set()
    wanted = {"", "a", "a/x", "a/y", "a/z", "b", "b/new", "c", "d", "d/x", "e", "empty"} - hidden
    expect(paths == wanted, "shown: %r" % sorted(paths))
    # without the option devices are devices, and the marks are lost
    told = image_of(room, upper)[1]
    marks = ["attributes of overlayfs's own are left out: 2 entries",
             "  a: %s.overlay.impure" % kind, "  b: %s.overlay.opaque" % kind]
    expect(told == marks, "told %r" % told)
    put(upper, ".wh.name")
    set_mark(upper + "/a", kind + ".overlay.redirect", b"/b")
    refuse_image(room, ("--upper", upper, room.name()),
                 ".wh.name: a layer takes a name that begins with .wh. as a whiteout",
                 "a: overlayfs shows another folder of the layers below there, which a layer"
                 " cannot express")


def test_full_disk(room):
    """No room for an image is said of the image's folder, and nothing is left there."""
    folder, before = made_folder(room), resource.getrlimit(resource.RLIMIT_FSIZE)
    handler = signal.signal(signal.SIGXFSZ, signal.SIG_IGN)
    resource.setrlimit(resource.RLIMIT_FSIZE, (1 << 20, before[1]))
    try:
        refuse_image(room, (folder, room.name()), "%s: file too large" % room.path)
    finally:
        resource.setrlimit(resource.RLIMIT_FSIZE, before)
        signal.signal(signal.SIGXFSZ, handler)


def test_memory_of_an_image(room):
    """Data are not held, however large they are."""
    folder = room.name()
    for number in range(6):
        put(folder, "f%d" % number, bytes(64 << 20))
    before = resource.getrlimit(resource.RLIMIT_AS)
    with open("/proc/self/statm", encoding="ascii") as it:
        size = int(it.read().split()[0]) * resource.getpagesize()
    resource.setrlimit(resource.RLIMIT_AS, (size + (48 << 20), before[1]))
    try:
        with opened(room, folder) as (number, out):
            image_of_folder(number, out, Lost())
    finally:
        resource.setrlimit(resource.RLIMIT_AS, before)


LOADED = """
import sys
sys.path.insert(0, sys.argv[1])
from strata_layers.command import main
main(["image", *sys.argv[2:]])
sys.stderr.write(" ".join(sys.modules))
"""


def test_little_is_loaded(room):
    """A small image takes little more than Python's start: what loads longer than that is not
    loaded."""
    words = [sys.executable, "-IBS", "-c", LOADED, TOOLS, "--leave-out", made_folder(room), room.name()]
    done = subprocess.run(words, capture_output=True, check=True, text=True)
    many = {"argparse", "re", "subprocess", "hashlib", "json", "shutil", "threading", "contextlib",
            "enum", "shlex", "strata_layers.tars", "strata_layers.store"}
    found = sorted(many.intersection(done.stderr.split()))
    expect(found == [], "loaded: %s" % " ".join(found))


def test_words_of_image(room):
    for words in ((), ("x",), ("x", "y", "z"), ("--other", "x", "y")):
        errors = io.StringIO()
        with contextlib.redirect_stderr(errors), contextlib.suppress(SystemExit):
            run_tool("image", *words)
            expect(False, "no end")
