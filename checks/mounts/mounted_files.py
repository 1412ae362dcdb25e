"""Checks of checks/mounts/mounted.py: images that stay in their files, while something happens to these."""
import errno
import mmap
import os
import random
import signal
import time

from checks.mounts.mounted_readers import statuses
from checks.mounts.mounted_trees import MIB, file, folder
from checks.shared.images import Item, laid_out, write_spread
from checks.shared.mounting import MOUNT_READERS, READER_SIZE, SECONDS, LeftOut, hold, wait_until
from checks.shared.watched_file import CUT, FAIL, SERVE, TURN, WAIT, WatchedFile, turned
from strata_format.trailer import said, trailer_of
from strata_mount import read_ahead

PAGE = 4096
READERS = 8
FILES = 24
NODES = 1000


def items_of(seed):
    """A folder of large files, each of other bytes, and a link."""
    rng = random.Random(seed)
    return [folder("d"), *[file("d/%02d" % number, rng.randbytes(MIB // 4 + number)) for number in range(FILES)]]


def part(path, offset, size):
    """Some of a file's bytes, past what the kernel has kept of them; or the error instead."""
    opened = os.open(path, os.O_RDONLY)
    try:
        os.posix_fadvise(opened, 0, 0, os.POSIX_FADV_DONTNEED)
        os.posix_fadvise(opened, 0, 0, os.POSIX_FADV_RANDOM)
        return os.pread(opened, size, offset)
    except OSError as fault:
        return fault.errno
    finally:
        os.close(opened)


def read_until_told(mount, wanted, told):
    """What one process does: it reads parts of files until it must end; each is of those wanted, or EIO."""
    rng = random.Random(os.getpid())
    while not os.path.exists(told):
        number, offset = rng.randrange(FILES), rng.randrange(MIB // 4 // PAGE) * PAGE
        got = part(mount.path(b"d", b"%02d" % number), offset, PAGE)
        if got != errno.EIO and not is_of(got, [items[number + 1].data[offset:offset + PAGE] for items in wanted]):
            os._exit(3)
        os.lstat(mount.path(b"d", b"%02d" % rng.randrange(FILES)))


def is_of(got, ways):
    """Whether each byte is one of those that may stand there: what is read while a file is written over may be of both."""
    return len(got) == len(ways[0]) and all(set(bytes) & {byte} for byte, *bytes in zip(got, *ways))


def reading(mount, wanted, told):
    child = os.fork()
    if child == 0:
        status = 1
        try:
            signal.alarm(SECONDS - 10)
            read_until_told(mount, wanted, told)
            status = 0
        finally:
            os._exit(status)
    return child


def while_read(room, change, *others):
    """What is seen once something has happened to an image, while 8 processes read: right bytes or EIO, and the tree as it was."""
    items = items_of(1)
    image = room.write(laid_out(b"v", items))
    mount, told = room.mount([image]), room.folder + "/told%d" % len(os.listdir(room.folder))
    children = [reading(mount, [items, *others], told) for _ in range(READERS)]
    time.sleep(0.1)
    change(image)
    time.sleep(0.1)
    names = sorted(os.listdir(mount.path(b"d")))
    hold("names", [b"%02d" % number for number in range(FILES)], names)
    sizes = [os.lstat(mount.path(b"d", name)).st_size for name in names]
    hold("sizes", [len(item.data) for item in items[1:]], sizes)
    with open(told, "wb"):
        hold("processes that read", {0}, statuses(children))
    return mount, items


def cut(room):
    """An image that is cut off: what lies before the cut can be read, what lies behind it is EIO, and the server goes on."""
    mount, items = while_read(room, lambda image: os.truncate(image, 3 * MIB))
    first, last = mount.path(b"d", b"00"), mount.path(b"d", b"%02d" % (FILES - 1))
    hold("data before the cut", items[1].data[:PAGE], part(first, 0, PAGE))
    hold("data behind it", errno.EIO, part(last, 0, PAGE))
    mount.end()
    return "right bytes before the cut, EIO behind it, names and sizes as they were"


def signal_at(view, at):
    """The signal that ends a process which reads a byte of a mapping; None if it reads it."""
    child = os.fork()
    if child == 0:
        os._exit(0 * view[at])
    status = os.waitpid(child, 0)[1]
    return os.WTERMSIG(status) if os.WIFSIGNALED(status) else None


def mapped_cut(room):
    """A file that is mapped when its image is cut off: cached pages stay, another ends its reader by SIGBUS."""
    data = random.Random(5).randbytes(8 * MIB)
    image = room.write(laid_out(b"v", [file("x", data)]))
    mount = room.mount([image])
    with open(mount.path(b"x"), "rb") as it, mmap.mmap(it.fileno(), 0, prot=mmap.PROT_READ) as view:
        hold("the first page", data[:PAGE], view[:PAGE])
        os.truncate(image, PAGE)
        hold("a cached page", None, signal_at(view, 0))
        hold("a page that is not cached", signal.SIGBUS, signal_at(view, 7 * MIB))
        hold("the same, read", errno.EIO, part(mount.path(b"x"), 7 * MIB, PAGE))
    mount.end()
    return "a mapped page that is cached, SIGBUS at one that is not"


def stale(room):
    """An image that is written over: what the kernel has cached stays old until it is dropped, also for who opens it anew."""
    old, new = (laid_out(b"v", [file("x", byte * PAGE), file("y", byte * PAGE)]) for byte in (b"o", b"n"))
    image = room.write(old)
    mount = room.mount([image])

    def seen(name):
        with open(mount.path(name), "rb") as it:
            return it.read(1)
    hold("before", b"o", seen(b"x"))
    with open(image, "r+b") as out:
        out.write(new)
    hold("cached, and not", (b"o", b"n"), (seen(b"x"), seen(b"y")))
    hold("past the cache", b"n" * PAGE, part(mount.path(b"x"), 0, PAGE))
    mount.end()
    return "old data while they are cached, new data else"


def overwritten(room):
    """An image that another is written over: headers stay what they were, data are what the file has."""
    others = items_of(2)
    data = laid_out(b"v", others)

    def change(image):
        first = data.index(others[1].data)
        with open(image, "r+b") as out:
            out.write(bytes(first))
            out.seek(first)
            out.write(data[first:])
    mount, _ = while_read(room, change, others)
    hold("data", others[5].data[PAGE:2 * PAGE], part(mount.path(b"d", b"04"), PAGE, PAGE))
    mount.end()
    return "the new data, names and sizes as they were"


def deleted(room):
    """An image that is deleted, and one that another takes the place of: both go on."""
    def replace(image):
        os.rename(room.write(laid_out(b"v", items_of(3))), image)
    for change in (os.unlink, replace):
        mount, items = while_read(room, change)
        hold("data", items[9].data, part(mount.path(b"d", b"08"), 0, MIB))
        mount.end()
    return "a deleted image, and one that was replaced, are read to their ends"


def kept(room):
    """With -o whole nothing that happens to an image matters."""
    items = items_of(1)
    image = room.write(laid_out(b"v", items))
    mount = room.mount([image], "-o", "whole")
    os.truncate(image, 0)
    for number in range(FILES):
        hold("data", items[number + 1].data, part(mount.path(b"d", b"%02d" % number), 0, MIB))
    mount.end()
    return "-o whole: an image that is emptied is read to its end"


def failing(room):
    """An image on a file system that fails: EIO for what can't be read, all else goes on; headers are not read again."""
    items = items_of(4)
    data = laid_out(b"v", items)
    disk = WatchedFile(room, data)
    at = data.index(items[6].data)
    mount = room.mount([disk.image])
    path, other = mount.path(b"d", b"05"), mount.path(b"d", b"06")
    disk.order(FAIL, at + 2 * PAGE, at + 3 * PAGE)
    hold("data that fail", errno.EIO, part(path, 2 * PAGE, PAGE))
    hold("data before them", items[6].data[:PAGE], part(path, 0, PAGE))
    hold("another file", items[7].data[:PAGE], part(other, 0, PAGE))
    disk.order(FAIL)
    before = disk.reads()
    hold("names", FILES, len(os.listdir(mount.path(b"d"))))
    hold("sizes", [len(item.data) for item in items[1:]],
         [os.lstat(mount.path(b"d", b"%02d" % number)).st_size for number in range(FILES)])
    hold("reads of the image for names and sizes", before, disk.reads())
    disk.order(SERVE)
    hold("data once they can be read", items[6].data[2 * PAGE:3 * PAGE], part(path, 2 * PAGE, PAGE))
    mount.end()
    disk.end()
    return "EIO for what fails, for as long as it does; no header is read again"


def lying(room):
    """An image whose file gives few bytes a read, and then other ones: data are what it tells, all else what it told first."""
    items = [*items_of(6), Item((b"l",), "symlink", False, data=b"d/00")]
    disk = WatchedFile(room, laid_out(b"v", items))
    disk.order(CUT)
    mount = room.mount([disk.image])
    first, second = mount.path(b"d", b"00"), mount.path(b"d", b"01")
    hold("data of few bytes a read", items[1].data[:PAGE], part(first, 0, PAGE))
    disk.order(TURN)
    before = disk.reads()
    hold("names", FILES, len(os.listdir(mount.path(b"d"))))
    hold("target", b"d/00", os.readlink(mount.path(b"l")))
    hold("size", len(items[2].data), os.lstat(second).st_size)
    hold("reads of the image for these", before, disk.reads())
    hold("other data", turned(items[2].data[PAGE:2 * PAGE]), part(second, PAGE, PAGE))
    mount.end()
    disk.end()
    return "few bytes a read are all; other bytes change data, and no name, size or target"


def stalled(room):
    """An image whose reads wait: one reader waits with them, and of four another one answers."""
    items = items_of(5)
    data = laid_out(b"v", items)
    at = data.index(items[3].data)
    for count in (1, 4):
        disk = WatchedFile(room, data)
        mount = room.mount([disk.image], "-o", "readers=%d" % count)
        disk.order(WAIT, at, at + MIB // 4)
        slow = asking(lambda: hold("slow data", items[3].data[:PAGE], part(mount.path(b"d", b"02"), 0, PAGE)))
        wait_until("a read of the image waits", lambda: disk.held_back() > 0)
        quick = asking(lambda: os.lstat(mount.path(b"d", b"07")))
        if count > 1:
            hold("a look beside the read that waits", {0}, statuses([quick]))
            hold("the read waits still", (True, (0, 0)), (disk.held_back() > 0, os.waitpid(slow, os.WNOHANG)))
        else:
            time.sleep(0.2)
            hold("a look beside the read that waits", (0, 0), os.waitpid(quick, os.WNOHANG))
        disk.order(SERVE)
        hold("both, once the read goes on", {0}, statuses([slow] if count > 1 else [slow, quick]))
        mount.end()
        disk.end()
    return "one reader waits for a read that waits, four go on beside it"


def asking(function):
    """A process that calls a function; its status is 0 where that raised nothing."""
    child = os.fork()
    if child == 0:
        status = 1
        try:
            signal.alarm(SECONDS - 10)
            function()
            status = 0
        finally:
            os._exit(status)
    return child


def anonymous(process):
    """The memory of its own that a process has, in bytes."""
    with open("/proc/%d/status" % process, encoding="ascii") as lines:
        return sum(int(line.split()[1]) << 10 for line in lines if line.startswith("RssAnon"))


def fifty(room):
    """50 mounts of one image of 64 MiB hold names, not data."""
    data = random.Random(7).randbytes(64 * MIB)
    items = [file("big", data), *[file("%03d" % number, b"x") for number in range(NODES)]]
    image = room.write(laid_out(b"v", items))
    most = 3 * MIB // 2 + 250 * (NODES + 2) + (MOUNT_READERS - 1) * READER_SIZE
    mounts = [room.mount([image]) for _ in range(50)]
    for mount in mounts:
        hold("data", data[MIB:MIB + PAGE], part(mount.path(b"big"), MIB, PAGE))
    held = sum(anonymous(mount.server) for mount in mounts)
    hold("memory is below %d" % (50 * most), True, held < 50 * most)
    for mount in mounts:
        mount.end()
    return "50 mounts of an image of 64 MiB hold %.1f MiB together" % (held / MIB)


def spread(room):
    """An image of 2^32 - 1 bytes with headers at both ends, in a sparse file, holds its names alone."""
    image = room.write(b"")
    size = write_spread(image)
    mount = room.mount([image])
    hold("names", [b"big", b"end"], sorted(os.listdir(mount.path())))
    hold("size", size, os.lstat(mount.path(b"big")).st_size)
    for path, offset, data in ((b"big", 0, bytes(PAGE)), (b"big", size - 3, bytes(3)), (b"end", 0, b"e" * 31)):
        hold("data", data, part(mount.path(path), offset, PAGE))
    most = 6 * MIB + (MOUNT_READERS - 1) * READER_SIZE
    hold("memory is below %d" % most, True, anonymous(mount.server) < most)
    mount.end()
    return "an image of 2^32 - 1 bytes with headers at both ends holds names alone"


def is_cached(number, at):
    """Whether the page cache has the byte at a place of an open file."""
    try:
        return os.preadv(number, [bytearray(1)], at, os.RWF_NOWAIT) == 1
    except BlockingIOError:
        return False


def uncached(path):
    """The same file, open, without pages in the cache if requested."""
    number = os.open(path, os.O_RDONLY)
    os.fsync(number)
    os.posix_fadvise(number, 0, 0, os.POSIX_FADV_DONTNEED)
    try:
        cached = is_cached(number, 0)
    except OSError:
        cached = True
    if cached:
        raise LeftOut("this file system does not give up pages, or does not tell")
    return number


def ahead(room):
    """The headers of an image that is in no cache are asked for at once, and nothing between them;
    what is no such image is left alone."""
    names = [b"%02d" % number for number in range(FILES)]
    data = laid_out(b"v", [file(name.decode(), bytes(MIB)) for name in names])
    places = [data.index(name + b"\0") - 16 for name in names]
    rows = trailer_of({at: said(0o644, 0, 0, 0, 0) for at in places}, {})
    image = room.write(data + bytes(-len(data) % 16) + rows)
    number = uncached(image)
    fifo = os.path.join(room.folder, "fifo")
    os.mkfifo(fifo)
    short = room.write(b"-rom1fs-")
    cold = read_ahead.cold_ones([image, room.folder, fifo, short, image + ".none"])
    hold("images in no cache", 1, len(cold))
    hold("headers", sorted(places), list(cold[0].places()))
    cold[0].ask()
    wait_until("all headers", lambda: all(is_cached(number, at) for at in places))
    hold("data", [False] * FILES, [is_cached(number, at + MIB // 2) for at in places])
    mount = room.mount([image])
    hold("a file", bytes(PAGE), part(mount.path(b"00"), 0, PAGE))
    mount.end()
    hold("images in no cache", 0, len(read_ahead.cold_ones([image])))
    return "the headers of an image in no cache are asked for, and none of its data"


CHECKS = (cut, mapped_cut, overwritten, stale, deleted, kept, failing, lying, stalled, fifty, spread, ahead)
