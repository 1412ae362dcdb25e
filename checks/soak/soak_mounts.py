"""Parts of checks/soak/soak.py with mounts: many of one image at once, and one after another; one of several readers; and one
over a file that fails."""
import errno
import mmap
import os
import random
import signal
import struct
import subprocess
import time

from checks.shared import mounting
from checks.shared.images import Item, flat
from checks.shared.mounting import Failed, LeftOut, Room, apart, children, fails, go_on, hold, places, try_mount
from checks.shared.watched_file import CUT, FAIL, SERVE, TURN, WAIT, WatchedFile, turned
from checks.soak.soak_streams import Memory, call_once
from strata_mount.device import DEVICE

# the processes that read in each mount, and how often each reads all files
READERS, ROUNDS = 8, 4
# the processes that use a mount of several readers, and how many readers that has
BUSY, SERVING = 16, 4
# KiB of memory of its own that a mount of this image may hold: its names are few
MOST_EACH = 6 << 10


def inside(program, folder, function):
    """What a function of a room tells that is called in a namespace of its own. It goes on after each step, so that it may
    take long on a slow machine, but no step may."""
    why = apart(lambda: try_mount(folder))
    if why != "yes":
        raise LeftOut(why.replace("FAILED: ", ""))
    usage = subprocess.run([program, "serve", "--device"], stdin=subprocess.DEVNULL, stderr=subprocess.PIPE, check=False)
    if b"unexpected argument" in usage.stderr:
        raise LeftOut("the program serves no %s" % DEVICE)
    mounting.adopt()
    told = apart(lambda: function(Room(program, folder)))
    if told.startswith("FAILED: "):
        raise Failed(told[8:])
    return told


def files_of(rng):
    return {b"f%03d" % at: rng.randbytes(rng.choice([0, 1, 5000, 300000])) for at in range(200)}


def image_of(room, files):
    items = [Item((b"d",), "directory", True), *[Item((b"d", b"n%04d" % at), "fifo", False) for at in range(2000)]]
    return [room.layer(items), room.write(flat(b"v", [(name, False, data) for name, data in files.items()]))]


# --- at once ---

def crowd(program, folder, count):
    """So many mounts of the same images at once, in each of which eight processes read all files."""
    return inside(program, folder, lambda room: crowded(room, count))


def crowded(room, count):
    files = files_of(random.Random(19))
    images = image_of(room, files)
    mounts = [mounted_next(room, images) for _ in range(count)]
    opened = [descriptors(mounted.server) for mounted in mounts]
    readers = [reader(mounted, files, number) for mounted in mounts for number in range(READERS)]
    for child in readers:
        hold("a process that reads", 0, os.waitstatus_to_exitcode(os.waitpid(child, 0)[1]))
    hold("descriptors", opened, [descriptors(mounted.server) for mounted in mounts])
    most = max(own_memory(mounted.server) for mounted in mounts)
    hold("a mount holds %d KiB of its own" % most, True, most <= MOST_EACH)
    for mounted in mounts:
        mounted.end()
    return "%d mounts, %d processes: each mount %d KiB of its own and %d descriptors at the most" % (
        count, len(readers), most, max(opened))


def mounted_next(room, images):
    go_on()
    return room.mount(images)


def reader(mounted, files, number):
    """A process that reads all files some times, in an order of its own; its status is 0 where all data are right."""
    child = os.fork()
    if child == 0:
        status = 1
        try:
            names = list(files)
            random.Random(number).shuffle(names)
            status = 0 if all(all_right(mounted, names, files) for _ in range(ROUNDS)) else 2
        finally:
            os._exit(status)
    return child


def all_right(mounted, names, files):
    go_on()
    return all(is_right(mounted, name, files[name]) for name in names)


def is_right(mounted, name, data):
    with open(mounted.path(name), "rb") as it:
        return it.read() == data


def descriptors(process):
    return len(os.listdir("/proc/%d/fd" % process))


def own_memory(process):
    """The memory of a process that is no file's, in KiB."""
    with open("/proc/%d/smaps_rollup" % process, encoding="ascii") as lines:
        told = dict(line.split(":", 1) for line in lines if line.endswith("kB\n"))
    return int(told["Anonymous"].split()[0])


# --- one after another ---

def again(program, folder, count):
    """This many mounts one after another, each looked at and unmounted."""
    return inside(program, folder, lambda room: mounted_again(room, count))


def mounted_again(room, count):
    files = files_of(random.Random(20))
    images, name = image_of(room, files), max(files)
    before, own = places(), descriptors(os.getpid())
    for _ in range(count):
        mounted = mounted_next(room, images)
        hold("data", True, is_right(mounted, name, files[name]))
        mounted.end()
    hold("what is mounted", before, places())
    hold("descriptors", own, descriptors(os.getpid()))
    hold("processes", set(), children())
    return "%d mounts one after another, none left" % count


# --- several readers ---

def readers(program, folder, seconds):
    """Processes that read, walk and ask in a mount of several readers, and are killed in all they do."""
    return inside(program, folder, lambda room: killed_in(room, seconds))


def killed_in(room, seconds):
    files, rng, killed = files_of(random.Random(21)), random.Random(22), 0
    mounted = room.mount(image_of(room, files), "-o", "readers=%d" % SERVING)
    opened, memory = descriptors(mounted.server), Memory(mounted.server, seconds)
    busy = [user(mounted, files, number) for number in range(BUSY)]
    while not memory.is_over():
        go_on()
        time.sleep(rng.uniform(0, 0.05))
        end_user(busy.pop(rng.randrange(BUSY)))
        killed += 1
        busy.append(user(mounted, files, BUSY + killed))
    for child in busy:
        end_user(child)
    hold("the data behind all of them", True, all(is_right(mounted, name, data) for name, data in files.items()))
    hold("descriptors", opened, descriptors(mounted.server))
    mounted.end()
    return "%d processes killed over %d readers; %s" % (killed, SERVING, memory.told())


def user(mounted, files, number):
    """A process that calls a mount at random until it is killed; what is wrong ends it before."""
    child = os.fork()
    if child == 0:
        try:
            rng = random.Random(number)
            while True:
                call_once(rng, mounted, files)
        finally:
            os._exit(2)
    return child


def end_user(child):
    os.kill(child, signal.SIGKILL)
    hold("a process that is killed", -signal.SIGKILL, os.waitstatus_to_exitcode(os.waitpid(child, 0)[1]))


# --- a file that fails ---

class Counts:
    """How many calls each of some processes made, and how many of them failed, where all of them see it."""
    SLOT = struct.Struct("=QQ")

    def __init__(self, processes):
        self.shared = mmap.mmap(-1, self.SLOT.size * processes)

    def add(self, process, has_failed):
        calls, failed = self.SLOT.unpack_from(self.shared, process * self.SLOT.size)
        self.SLOT.pack_into(self.shared, process * self.SLOT.size, calls + 1, failed + has_failed)

    def sums(self):
        return [sum(each) for each in zip(*self.SLOT.iter_unpack(self.shared))]


def failing(program, folder, seconds):
    """Processes that read and ask in a mount whose image fails, waits, and tells few or other bytes, by turns."""
    return inside(program, folder, lambda room: failed_over(room, seconds))


def failed_over(room, seconds):
    files, rng = files_of(random.Random(23)), random.Random(24)
    names, data = image_of(room, files)
    with open(data, "rb") as it:
        disk = WatchedFile(room, it.read())
    mounted = room.mount([names, disk.image], "-o", "readers=%d" % SERVING)
    opened, memory, counts = descriptors(mounted.server), Memory(mounted.server, seconds), Counts(READERS)
    asking = [asker(mounted, files, number, counts) for number in range(READERS)]
    while not memory.is_over():
        go_on()
        first = rng.randrange(len(disk.data))
        disk.order(rng.choice([SERVE, WAIT, FAIL, CUT, TURN]), first, first + rng.choice([1, 4096, 1 << 20, 1 << 40]))
        time.sleep(rng.uniform(0, 0.1))
    disk.order(SERVE)
    for child in asking:
        end_user(child)
    path = mounted.path(max(files))
    disk.order(FAIL)
    fails("data that can't be read", errno.EIO, directly, path, 0, 1)
    disk.order(SERVE)
    hold("data, once they can be read", True, all(directly(mounted.path(name), 0, 1 << 20) == files[name] for name in files))
    hold("descriptors", opened, descriptors(mounted.server))
    mounted.end()
    told = "%d calls, of which %d failed" % tuple(counts.sums())
    told += ", over %d reads of an image that failed by turns; %s" % (disk.reads(), memory.told())
    disk.end()
    return told


def asker(mounted, files, number, counts):
    """A process that asks until it is killed: data are what the image tells, or EIO; names and sizes never fail."""
    child = os.fork()
    if child == 0:
        try:
            rng = random.Random(number)
            while True:
                counts.add(number, ask_once(rng, mounted, files))
        finally:
            os._exit(2)
    return child


def ask_once(rng, mounted, files):
    """Whether a call failed as it may."""
    name = rng.choice(list(files))
    hold("a name that is not there", False, os.path.lexists(mounted.path(b"d", rng.randbytes(8).hex().encode())))
    hold("the size of a file", len(files[name]), os.lstat(mounted.path(name)).st_size)
    if rng.randrange(100) == 0:
        hold("the names of a directory", 2000, len(os.listdir(mounted.path(b"d"))))
    at, size = rng.randrange(len(files[name]) + 2), rng.randrange(300000)
    try:
        got = directly(mounted.path(name), at, size)
    except OSError as fault:
        hold("a read that fails", errno.EIO, fault.errno)
        return True
    wanted = files[name][at:at + size]
    hold("data, or the front of it", True, bool(got) == bool(wanted) and is_front(got, wanted))
    return len(got) < len(wanted)


def directly(path, at, size):
    """Some of a file's bytes, past the kernel's pages."""
    opened = os.open(path, os.O_RDONLY | os.O_DIRECT)
    try:
        return os.pread(opened, size, at)
    finally:
        os.close(opened)


def is_front(got, wanted):
    """Whether data are the first of these bytes, each of which may have been told as the other one."""
    if wanted.startswith(got):
        return True
    others = turned(wanted)
    return len(got) <= len(wanted) and all(byte in pair for byte, *pair in zip(got, wanted, others))
