"""Checks of checks/mounts/mounted.py: what a mount shows, that nothing can be written to it, and what the kernel asks for twice."""
import errno
import mmap
import os
import random
import shutil
import stat
import subprocess
from collections import Counter

from checks.plain import plain
from checks.plain.plain_images import SYMLINK
from checks.shared.images import Item, flat, sample
from checks.shared.mounting import fails, hold, hold_tree, rows, shown
from checks.shared.random_inputs import random_stack
from strata_format.system import called, libc

MIB = 1 << 20
# by kind: the mode without and with the bit of executables
MODES = {"directory": (0o040644, 0o040755), "regular": (0o100644, 0o100755), "symlink": (0o120777, 0o120777),
         "block": (0o060600, 0o060600), "character": (0o020600, 0o020600), "socket": (0o140644, 0o140644),
         "fifo": (0o010644, 0o010644)}


def file(path, data=b"", executable=False):
    return Item(tuple(path.encode().split(b"/")), "regular", executable, data=data)


def folder(path, executable=True):
    return Item(tuple(path.encode().split(b"/")), "directory", executable)


# --- what went in ---

def wanted_of(layers):
    """The facts of every path of layers of items that have no markers and put no file on a directory."""
    ends, items = {(): Item((), "directory", True)}, {(): Item((), "directory", True)}
    for layer in layers:
        here = {item.path: item for item in layer}
        for path, item in here.items():
            while item.kind == "hard":
                item = here[item.target]
            ends[path] = items[path] = item
    names = Counter(id(item) for item in ends.values())
    folders = Counter(path[:-1] for path, item in items.items() if path and item.kind == "directory")
    return {path: facts_of(item, 2 + folders[path] if item.kind == "directory" else names[id(item)])
            for path, item in items.items()}


def facts_of(item, links):
    device = os.makedev(item.spec >> 16, item.spec & 0xffff) if item.kind in ("block", "character") else 0
    return MODES[item.kind][item.executable], links, len(item.data), device, item.data


def lower_items():
    """Every kind, sizes around pages, device numbers at their limits, names of every byte, and 60 directories deep."""
    rng = random.Random(1)
    items = [file("size%d" % size, rng.randbytes(size)) for size in (0, 1, 15, 16, 17, 4095, 4096, 4097, 131071, 131073)]
    items += [file("large", rng.randbytes(3 * MIB + 13)), file("run", b"#!/bin/sh\necho run\n", True), folder("d"),
              folder("d/plain", False), file("d/plain/x", b"x"), folder("d/empty"), file("d/replaced", b"lower")]
    items += [Item((b"link",), "symlink", False, data=b"d/x"), Item((b"long",), "symlink", False, data=b"t" * 4095),
              Item((b"hard",), "hard", False, target=(b"large",)), Item((b"d", b"harder"), "hard", False, target=(b"hard",)),
              Item((b"hardlink",), "hard", False, target=(b"link",)), Item((b"fifo",), "fifo", False),
              Item((b"socket",), "socket", True)]
    items += [Item((b"dev%d" % at,), ("block", "character")[at % 2], False, spec=major << 16 | minor)
              for at, (major, minor) in enumerate([(0, 0), (1, 3), (8, 255), (255, 256), (4095, 65535), (4095, 0)])]
    items += [Item((b"b" + bytes([byte]),), "regular", False, data=bytes([byte])) for byte in range(1, 256) if byte != 47]
    items += [Item((b"deep",) + (b"e",) * depth, "directory", True) for depth in range(60)]
    return items


def upper_items():
    return [folder("d"), file("d/replaced", b"upper, and longer"), folder("new"), file("new/x", b"new", True),
            Item((b"new", b"hard"), "hard", False, target=(b"new", b"x"))]


def tree(room):
    """Every path of a stack, as it went in."""
    layers = [lower_items(), upper_items()]
    mount = room.mount([room.layer(items) for items in layers])
    wanted, got = wanted_of(layers), shown(mount.at)
    hold_tree("two layers", wanted, got)
    mount.end()
    return "%d paths of two layers, as they went in" % len(got)


def whiteouts(room):
    """Random stacks with markers of all kinds, against the plain reading."""
    rng, stacks, paths = random.Random(7), 0, 0
    while stacks < 12:
        images = random_stack(rng, [sample()])
        try:
            stack = plain.stack_of(images)
        except plain.Stop:
            continue
        if not any(b".wh." in image for image in images):
            continue
        mount = room.mount([room.write(image) for image in images])
        hold_tree("stack %d" % stacks, {path: read_plainly(stack, n) for path, n in stack.paths.items()}, shown(mount.at))
        for path, number in stack.paths.items():
            hold("the number of %r" % (path,), number, os.lstat(mount.path(*path)).st_ino)
        fails("a marker", errno.ENOENT, os.lstat, mount.path(b".wh.a"))
        mount.end()
        stacks, paths = stacks + 1, paths + len(stack.paths)
    return "%d stacks with markers, %d paths, as the plain reading has them" % (stacks, paths)


def read_plainly(stack, number):
    """The facts of a node; the kernel shows of a link's target what stands before a zero byte."""
    body = stack.body(number)
    if stack.kind(number) == SYMLINK:
        body = body.partition(b"\0")[0]
    return stack.mode(number), stack.nlink(number), stack.size(number), stack.rdev(number), body


def directory(room):
    """A directory of 20,000 names, by getdents64 with room of all sizes."""
    kinds = ("regular", "symlink", "directory", "fifo")
    items = [Item((b"%05d%s" % (at, b"n" * (at % 199)),), kinds[at % 4], False) for at in range(20000)]
    mount = room.mount([room.layer(items)])
    numbers = [(1, 4, b"."), (1, 4, b"..")]
    numbers += [(at + 2, {"regular": 8, "symlink": 10, "directory": 4, "fifo": 1}[item.kind], item.path[-1])
                for at, item in enumerate(items)]
    sizes = [232, 233, 511, 512, 1000, 4095, 4096, 4097, 10000, 32768, 65536, 131072, 131073, MIB]
    for size in sizes:
        opened = os.open(mount.at, os.O_RDONLY)
        got = rows(opened, size)
        hold("rows with %d bytes of room" % size, True, [(number, kind, name) for number, _, kind, name in got] == numbers)
        for at in (0, 1, 2, 9999, 19999, 20001):
            hold("rows after row %d" % at, True, rows(opened, size if at > 19000 else MIB, got[at][1]) == got[at + 1:])
        fails("no room for a row", errno.EINVAL, rows, opened, 24, got[100][1])
        os.close(opened)
    mount.end()
    return "20,000 names by getdents64 with %d sizes of room, and again from places in the middle" % len(sizes)


def spans(rng, size):
    """Places and lengths to read at: around pages and the end, and anywhere."""
    edges = [0, 1, 4095, 4096, 4097, 131071, 131072, 131073, size - 1, size, size + 1, size + MIB]
    yield from ((at, count) for at in edges for count in (0, 1, 4095, 4097, 131073, MIB + 1))
    for _ in range(400):
        yield rng.randrange(size), rng.choice([rng.randrange(1, 100), rng.randrange(1, 300000)])


def reads(room):
    """Reads at odd offsets, through the kernel's pages and past them."""
    rng, count = random.Random(3), 0
    data = rng.randbytes(5 * MIB + 4099)
    mount = room.mount([room.layer([file("small", data[:5]), file("x", data)])])
    for flags in (0, os.O_DIRECT):
        opened = os.open(mount.path(b"x"), os.O_RDONLY | flags)
        for at, size in spans(rng, len(data)):
            hold("%d bytes at %d" % (size, at), True, os.pread(opened, size, at) == data[at:at + size])
            count += 1
        os.close(opened)
    for size in (7, 4093, 131071):
        with open(mount.path(b"x"), "rb", buffering=0) as it:
            parts = iter(lambda: it.read(size), b"")
            part_of = data[:size * 3000]
            hold("pieces of %d bytes" % size, True, b"".join(next(parts, b"") for _ in range(3000)) == part_of)
    mount.end()
    return "%d reads at odd places, of the kernel's pages and of the server itself (O_DIRECT)" % count


def mapped(room):
    """mmap, and programs run from the mount."""
    data = random.Random(4).randbytes(MIB + 5)
    with open(shutil.which("sh"), "rb") as it:
        shell = it.read()
    mount = room.mount([room.layer([file("x", data), folder("bin"), file("bin/sh", shell, True), file("bin/data", shell),
                                    file("bin/say", b"#!/bin/sh\necho $((6 * 7))\n", True)])])
    with open(mount.path(b"x"), "rb") as it:
        for at, size in ((0, 0), (0, 1), (4096, 4097), (MIB, 5), (12288, 500000)):
            with mmap.mmap(it.fileno(), size, prot=mmap.PROT_READ, offset=at) as view:
                hold("mapped at %d" % at, True, view[:] == (data[at:at + size] if size else data))
        with mmap.mmap(it.fileno(), 0, flags=mmap.MAP_PRIVATE, prot=mmap.PROT_READ | mmap.PROT_WRITE) as view:
            view[:3] = b"own"
        hold("the file below a private mapping", data[:3], os.pread(it.fileno(), 3, 0))
        fails("a mapping that writes", errno.EACCES, mmap.mmap, it.fileno(), 0)
    says = [([mount.path(b"bin/sh"), "-c", "echo $((6 * 7))"]), ([mount.path(b"bin/say")])]
    for words in says:
        hold("what a program says", b"42\n", subprocess.run(words, stdout=subprocess.PIPE).stdout)
    fails("a file that is not executable", errno.EACCES, subprocess.run, [mount.path(b"bin/data")])
    mount.end()
    mount = room.mount([room.layer([file("sh", shell, True)])], "-o", "noexec")
    fails("a program on a mount with noexec", errno.EACCES, subprocess.run, [mount.path(b"sh")])
    mount.end()
    return "mmap at 5 places, private and refused to write; 2 programs run, refused without the bit and with noexec"


def many(room):
    """16 processes that read at the same time."""
    rng = random.Random(5)
    wanted = {b"f%03d" % at: rng.randbytes(rng.choice([0, 100, 5000, 70000])) for at in range(300)}
    mount = room.mount([room.write(flat(b"v", [(name, False, data) for name, data in wanted.items()]))])
    waits, go = os.pipe()
    readers = [reader_of(mount, wanted, number, waits, go) for number in range(16)]
    os.close(waits)
    os.close(go)
    for reader in readers:
        hold("the status of a reader", 0, os.waitstatus_to_exitcode(os.waitpid(reader, 0)[1]))
    mount.end()
    return "16 processes at the same time, 300 files each"


def reader_of(mount, wanted, number, waits, go):
    """Starts a process that reads all files in an order of its own, once nobody holds the pipe `go` open any more."""
    child = os.fork()
    if child:
        return child
    os.close(go)
    os.read(waits, 1)
    names = list(wanted)
    random.Random(number).shuffle(names)
    well = True
    for name in names:
        with open(mount.path(name), "rb") as it:
            well = well and it.read() == wanted[name]
        well = well and not os.path.exists(mount.path(name + b"x"))
    os._exit(0 if well and sorted(os.listdir(mount.path())) == sorted(wanted) else 1)


def calls_that_write(mount):
    """Each kind of write: what it is, and the call."""
    x, d, new = mount.path(b"x"), mount.path(b"d"), mount.path(b"new")
    yield from ((name, lambda flags=flags: os.open(x, flags)) for name, flags in (
        ("open to write", os.O_WRONLY), ("open to read and write", os.O_RDWR), ("open to append", os.O_WRONLY | os.O_APPEND),
        ("open to truncate", os.O_WRONLY | os.O_TRUNC)))
    yield "create", lambda: os.open(new, os.O_CREAT | os.O_WRONLY)
    yield "create to read", lambda: os.open(new, os.O_CREAT | os.O_RDONLY)
    yield "mkdir", lambda: os.mkdir(new)
    yield "unlink", lambda: os.unlink(x)
    yield "rmdir", lambda: os.rmdir(d)
    yield "rename", lambda: os.rename(x, new)
    yield "rename over a name", lambda: os.rename(x, mount.path(b"y"))
    yield "exchange", lambda: called(libc.renameat2(-100, x, -100, mount.path(b"y"), 2))
    yield "link", lambda: os.link(x, new)
    yield "symlink", lambda: os.symlink("x", new)
    yield "mknod of a fifo", lambda: os.mknod(new, stat.S_IFIFO | 0o600)
    yield "mknod of a file", lambda: os.mknod(new, stat.S_IFREG | 0o600)
    yield "chmod", lambda: os.chmod(x, 0o600)
    yield "chown", lambda: os.chown(x, 0, 0)
    yield "utimes", lambda: os.utime(x, (1, 1))
    yield "utimes of now", lambda: os.utime(x)
    yield "truncate", lambda: os.truncate(x, 1)
    yield "setxattr", lambda: os.setxattr(x, "user.a", b"1")
    yield "removexattr", lambda: os.removexattr(x, "user.a")


def writes(room):
    """Each kind of write is refused: by the kernel, as the mount is read-only, and by strata on one that is not."""
    items = [file("x", b"data"), file("y"), folder("d")]
    image, count = room.layer(items), 0
    for words in ([], ["-o", "rw"]):
        mount = room.mount([image], *words)
        hold("flags", 0 if words else os.ST_RDONLY, os.statvfs(mount.at).f_flag & os.ST_RDONLY)
        for name, call in calls_that_write(mount):
            fails("%s %s" % (name, words), errno.EROFS, call)
            count += 1
        with open(mount.path(b"x"), "rb") as it:
            for name, call in (("write", lambda: os.write(it.fileno(), b"1")),
                               ("fallocate", lambda: os.posix_fallocate(it.fileno(), 0, 1))):
                fails("%s to what is open to read" % name, errno.EBADF, call)
            os.fsync(it.fileno())
        hold_tree("after all", wanted_of([items]), shown(mount.at))
        mount.end()
    return "%d calls of %d kinds refused with EROFS, on a mount ro and on one rw, where strata refuses them" % (count, count // 2)


def names(room):
    """Names at the limit of their length, and above it."""
    longest = "n" * 255
    mount = room.mount([room.layer([folder(longest), file(longest + "/" + longest, b"x")])])
    for name in (longest, longest + "/" + longest):
        os.lstat(mount.path(name.encode()))
    with open(mount.path(longest.encode(), longest.encode()), "rb") as it:
        hold("data below names of 255 bytes", b"x", it.read())
    fails("a name of 255 bytes that is not there", errno.ENOENT, os.lstat, mount.path(b"m" * 255))
    for size in (256, 1024, 1025, 4000):
        fails("a name of %d bytes" % size, errno.ENAMETOOLONG, os.lstat, mount.path(b"n" * size))
    hold("the limit that is reported", 255, os.statvfs(mount.at).f_namemax)
    mount.end()
    return "255 bytes found, or not there; 256 and more too long"


# --- what the kernel keeps ---

def wide_items():
    """4,000 names in 200 directories: half of them files of all sizes around pages, links, and empty directories."""
    rng, items = random.Random(9), []
    for at in range(200):
        here = (b"d%03d" % at,)
        items.append(Item(here, "directory", True))
        sizes = [rng.choice([0, 1, 4095, 4096, 4097, 20000]) for _ in range(10)]
        items += [Item(here + (b"f%02d" % number,), "regular", False, data=rng.randbytes(size)) for number, size in enumerate(sizes)]
        items += [Item(here + (b"l%02d" % number,), "symlink", False, data=b"../d%03d/f%02d" % (at, number)) for number in range(5)]
        items += [Item(here + (b"e%02d" % number,), "directory", True) for number in range(4)]
    return items


def walk(root):
    """Looks at all that a folder shows: rows, attributes, targets, names that are not there, and data; how many paths."""
    count, todo = 0, [os.fsencode(root)]
    while todo:
        folder_of_it = todo.pop()
        fails("a name that is not there", errno.ENOENT, os.lstat, folder_of_it + b"/missing")
        for name in os.listdir(folder_of_it):
            path, count = os.path.join(folder_of_it, name), count + 1
            kind = os.lstat(path).st_mode & 0o170000
            fails("a name that is not there", errno.ENOENT, os.stat, path + b"-missing")
            if kind == 0o040000:
                todo.append(path)
            elif kind == 0o120000:
                os.readlink(path)
            elif kind == 0o100000:
                read_all(path)
    return count


def read_all(path):
    """Reads a file to its end by plain calls: open() asks each file whether it is a terminal, which reaches the server."""
    opened = os.open(path, os.O_RDONLY)
    while os.read(opened, 131072):
        pass
    os.close(opened)


def silent(room):
    """A second walk over a whole tree asks the server for nothing that the first one got."""
    mount = room.mount([room.layer(wide_items()), room.layer(upper_items())])
    reads_before = reads_of(mount.server)
    count = walk(mount.at)
    first = reads_of(mount.server) - reads_before
    hold("paths at the second walk", count, walk(mount.at))
    second = reads_of(mount.server) - reads_before - first
    hold("%d reads for the first walk, %d for the second: next to nothing" % (first, second), True, second * 100 <= first)
    mount.end()
    return "%d paths looked at and read, for %d reads of the server; once more, for %d" % (count, first, second)


def reads_of(process):
    """How many reads a process has made."""
    with open("/proc/%d/io" % process, encoding="ascii") as it:
        return int(dict(line.split(": ") for line in it)["syscr"])
