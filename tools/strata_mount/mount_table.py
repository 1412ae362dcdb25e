"""What is mounted in this namespace, as the kernel's table tells it."""
import os

KIND = "fuse.strata"


class Mount:
    """A row of the table: its number, the device number of its file system (`0:53`), which folder
    of that it shows, where it is mounted, its type and source, and the file system's own
    options."""
    __slots__ = ("number", "device", "root", "place", "kind", "source", "options")

    def __init__(self, line):
        front, _, back = line.rstrip(b"\n").partition(b" - ")
        words, more = front.split(b" "), back.split(b" ")
        self.number, self.device = int(words[0]), words[2].decode()
        self.root, self.place = plain(words[3]), plain(words[4])
        self.kind, self.source = plain(more[0]), plain(more[1])
        self.options = more[-1].decode(errors="replace").split(",")

    def is_of(self, user):
        """Whether a user mounted it, which the kernel itself says of a mount of FUSE."""
        return "user_id=%d" % user in self.options


def plain(word):
    """The text of a word of the table, in which a backslash and three digits stand for some
    bytes."""
    first, *parts = word.split(b"\\")
    return os.fsdecode(first + b"".join(bytes([int(part[:3], 8)]) + part[3:] for part in parts))


def mounts(kind=None):
    """What is mounted, of one type or of all, in the order of mounting."""
    mark = b" - %s " % os.fsencode(kind or "")
    with open("/proc/self/mountinfo", "rb") as lines:
        return [Mount(line) for line in lines if kind is None or mark in line]


def mount_at(folder):
    """The uppermost mount of strata at a folder; None where another, or none, stands there."""
    found = None
    for mount in mounts():
        if mount.place == folder:
            found = mount
    return found if found is not None and found.kind == KIND else None
