"""Checks of checks/mounts/mounted.py: mounts that several readers serve at the same time."""
import errno
import os
import random
import signal
import sys
import time

from checks.mounts.mounted_ends import abort, connections
from checks.mounts.mounted_trees import MIB, file, folder
from checks.shared.mounting import Failed, hold, wait_until
from strata_mount.device import MNT_DETACH

# so many processes look at a mount at the same time
CLIENTS = 16
NAMES = 200
# what a look at a mount answers whose server has ended, or which is not there any more
GONE = (errno.ENOENT, errno.ENOTCONN, errno.ECONNABORTED, errno.ENODEV, errno.EIO)


def threads_of(process):
    return len(os.listdir("/proc/%d/task" % process))


def image_of(room):
    """An image with a file of 4 MiB, and a folder with many small files; and the bytes of the large one."""
    data = random.Random(8).randbytes(4 * MIB)
    small = [file("d/%03d" % number, b"%d" % number) for number in range(NAMES)]
    return room.layer([file("big", data), folder("d"), *small]), data


def look(mount, data, number):
    """What one process does: it reads the large file from a place of its own on, lists the folder, and reads small files."""
    at = number * (len(data) // CLIENTS)
    with open(mount.path(b"big"), "rb") as it:
        it.seek(at)
        hold("data", True, it.read() == data[at:])
    hold("names", NAMES, len(os.listdir(mount.path(b"d"))))
    for name in range(number, NAMES, CLIENTS):
        with open(mount.path(b"d", b"%03d" % name), "rb") as it:
            hold("small data", b"%d" % name, it.read())


def read_on(mount):
    """Reads past what the kernel has kept, until that fails."""
    while True:
        for name in (b"big", b"d/007"):
            with open(mount.path(name), "rb") as it:
                os.posix_fadvise(it.fileno(), 0, 0, os.POSIX_FADV_DONTNEED)
                it.read()


def started(function, *words):
    """A process that calls a function; its status is 1 where that raised anything but an error of the system."""
    child = os.fork()
    if child == 0:
        status = 1
        try:
            function(*words)
            status = 0
        except OSError as fault:
            status = 0 if fault.errno in GONE else 2
        except Failed as wrong:
            sys.stderr.write("%s\n" % wrong)
        finally:
            os._exit(status)
    return child


def statuses(processes):
    return {os.waitstatus_to_exitcode(os.waitpid(it, 0)[1]) for it in processes}


def readers(room):
    """As many threads serve as readers are asked for, and 16 processes at the same time see what went in."""
    image, data = image_of(room)
    for count in (1, 2, 4, 64):
        mount = room.mount([image], "-o", "readers=%d,workers=1" % count)
        wait_until("%d threads" % count, lambda: threads_of(mount.server) >= count)
        hold("threads", count, threads_of(mount.server))
        hold("processes that look", {0}, statuses([started(look, mount, data, number) for number in range(CLIENTS)]))
        mount.end()
    return "1, 2, 4 and 64 threads; %d processes see what went in" % CLIENTS


def busy(room):
    """A mount that is unmounted, whose connection is aborted, or whose server is killed while all readers are busy."""
    image, _ = image_of(room)
    for end in (take_away, kill, cut):
        mount = room.mount([image], "-o", "readers=4")
        looking = [started(read_on, mount) for _ in range(CLIENTS)]
        time.sleep(0.3)
        end(room, mount)
        hold("processes that look", {0}, statuses(looking))
    return "lazily unmounted, killed and aborted: no process hangs, and strata ends"


def take_away(room, mount):
    mount.take_away(MNT_DETACH)
    mount.ended()


def kill(room, mount):
    os.kill(mount.server, signal.SIGKILL)
    mount.ended(-signal.SIGKILL)
    mount.take_away(MNT_DETACH)


def cut(room, mount):
    abort(connections(room), mount.at)
    mount.ended()
    mount.take_away(MNT_DETACH)
