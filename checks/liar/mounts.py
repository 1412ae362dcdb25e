"""Mounts of sealed images whose files lie while 8 processes read."""
import errno
import mmap
import os
import random
import signal
import struct
import subprocess

from checks.liar.lies import NEVER, Lie, LyingFiles
from checks.liar.stacks import SealedStack
from checks.mounts.mounted_readers import statuses
from checks.plain.plain_images import DIRECTORY, REGULAR, SYMLINK
from checks.plain.plain_verity import BLOCK
from checks.shared.mounting import SECONDS, Failed, children, hold, places
from strata_format.system import called, libc

# so many processes, and how many reads each makes while files lie
PROCESSES, READS = 8, 120
LENGTHS = (1, 100, 4096, 4096, 16384, 65536, 131072)
ALIGNED = 4096
COUNTS = struct.Struct("=QQ")


class Shown:
    """What a mount of a stack must show: the facts of each path, and the data of regular files."""

    def __init__(self, stack):
        self.facts, self.files = {}, {}
        for path, number in stack.paths.items():
            mode, user, group, seconds, nanoseconds = stack.attributes(number)
            self.facts[path] = (mode, user, group, stack.size(number), seconds * 10 ** 9 + nanoseconds)
            if stack.kind(number) == REGULAR:
                self.files[path] = stack.body(number)
        self.names = {path: sorted(name for name, _ in stack.children(number)) for path, number in stack.paths.items()
                      if stack.kind(number) == DIRECTORY}
        self.targets = {path: stack.body(number) for path, number in stack.paths.items() if stack.kind(number) == SYMLINK}

    def hold_tree(self, at):
        """Holds names, attributes and targets, none of which needs data."""
        for path, names in self.names.items():
            hold("names in %r" % (path,), names, sorted(os.listdir(full(at, path))))
        for path, target in self.targets.items():
            hold("target of %r" % (path,), target, os.readlink(full(at, path)))
        for path, facts in self.facts.items():
            it = os.lstat(full(at, path))
            size = it.st_size if path in self.files or path in self.targets else 0
            hold("attributes of %r" % (path,), facts, (it.st_mode, it.st_uid, it.st_gid, size, it.st_mtime_ns))

    def hold_data(self, at):
        """Holds all data, past what the kernel keeps."""
        for path, data in self.files.items():
            got = b"".join(read_part(full(at, path), offset, 1 << 20, False) for offset in range(0, len(data), 1 << 20))
            hold("data of %r" % (path,), True, got == data)


def full(at, path):
    return os.path.join(os.fsencode(at), *path)


def read_part(path, offset, length, is_direct):
    """Some of a file's bytes, asked of the server anew; or the error instead."""
    file = os.open(path, os.O_RDONLY | (os.O_DIRECT if is_direct else 0))
    try:
        if is_direct:
            with mmap.mmap(-1, max(length, ALIGNED)) as room:
                count = os.preadv(file, [memoryview(room)[:length]], offset)
                return room[:count]
        os.posix_fadvise(file, 0, 0, os.POSIX_FADV_DONTNEED)
        os.posix_fadvise(file, 0, 0, os.POSIX_FADV_RANDOM)
        return os.pread(file, length, offset)
    except OSError as fault:
        return fault.errno
    finally:
        os.close(file)


def read_on(shown, at, rng, counts):
    """What one process does: each read is of the sealed bytes, all or the first of them, or EIO."""
    paths = [path for path, data in shown.files.items() if data]
    reads = lost = 0
    for _ in range(READS):
        path = rng.choice(paths)
        data, length, step = shown.files[path], rng.choice(LENGTHS), rng.choice([1, BLOCK])
        offset, is_direct = rng.randrange(len(data)) // step * step, rng.random() < 0.5
        got, right = read_part(full(at, path), offset, length, is_direct), data[offset:offset + length]
        # whoever reads through the page cache gets the pages before one that is lost
        is_front = not is_direct and got != errno.EIO and got != b"" and right.startswith(got)
        if got != right and got != errno.EIO and not is_front:
            raise Failed("%r at %d, %d bytes: wanted %.40r, got %.40r" % (path, offset, length, right, got))
        reads, lost = reads + 1, lost + (got != right)
    COUNTS.pack_into(counts, 0, reads, lost)


def reading(shown, at, seed):
    """A process that does that: its status is 0 where each read was right; and where it counts."""
    counts = mmap.mmap(-1, COUNTS.size)
    child = os.fork()
    if child == 0:
        status = 1
        try:
            signal.alarm(SECONDS - 10)
            read_on(shown, at, random.Random(seed), counts)
            status = 0
        except Failed as wrong:
            os.write(2, b"%s\n" % str(wrong).encode())
        finally:
            os._exit(status)
    return child, counts


def mounted(room, stack, disk, rng, may_refuse):
    """Mounts; where, and the process that serves, or None where the images were refused."""
    at, before = room.place(), children()
    options = "readers=%d" % rng.choice([1, 2, 4])
    done = subprocess.run([*room.words(), "--background", "-o", options, *stack.words(disk.path), at], stdin=subprocess.DEVNULL,
                          stderr=subprocess.PIPE)
    line = done.stderr.decode(errors="replace")
    if done.returncode == 0:
        server, = children() - before
        return at, server
    is_told = any("image %d: not as sealed\n" % number in line for number in range(len(stack.images)))
    if not (may_refuse and done.returncode == 3 and is_told):
        raise Failed("mount.py: status %d, %r" % (done.returncode, line))
    hold("mounted where images were refused", False, at in places())
    return at, None


def try_mount(room, seed, seen):
    rng = random.Random("mounts %d" % seed)
    stack = SealedStack(rng)
    lie, first = Lie(rng, stack.images), rng.choice([NEVER, NEVER, NEVER, 0, rng.randrange(100)])
    disk = LyingFiles(room, lie, first)
    try:
        at, server = mounted(room, stack, disk, rng, first != NEVER)
        if server is None:
            seen["refused"] += 1
            return
        try_mounted(room, Shown(stack.stack), (at, server), disk, rng, seen)
    finally:
        seen["lies"] += disk.counts()[1]
        disk.end()


def try_mounted(room, shown, mount, disk, rng, seen):
    """What a mount shows while its files lie, and once they tell the truth again."""
    at, server = mount
    shown.hold_tree(at)
    disk.begin()
    if any(shown.files.values()):
        found = [reading(shown, at, rng.random()) for _ in range(PROCESSES)]
        hold("%s: processes that read" % disk.lie.told(), {0}, statuses([child for child, _ in found]))
        for _, counts in found:
            reads, lost = COUNTS.unpack_from(counts)
            seen["READs"] += reads
            seen["EIO"] += lost
    shown.hold_tree(at)
    disk.begin(NEVER)
    hold("the server, while it is mounted", (0, 0), os.waitpid(server, os.WNOHANG))
    shown.hold_data(at)
    seen["mounts"] += 1
    called(libc.umount2(os.fsencode(at), 0))
    hold("the server's status", 0, os.waitstatus_to_exitcode(os.waitpid(server, 0)[1]))
