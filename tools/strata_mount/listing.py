"""Which mounts of strata there are in this namespace: --list, as text or as JSON.

A server is found by what it is called with, where it was mounted among it, or, of a shared mount,
by its note.
"""
import os

from strata_format import image_files
from strata_format.refused import one_line
from strata_mount import kernel_seals
from strata_mount.mount_table import KIND, mounts
from strata_mount.options import NOT_SEALED
from strata_mount.runtime import start_of
from strata_mount.sharing import noted_servers

TICKS = os.sysconf("SC_CLK_TCK")
# of `strata serve`, the options with a value behind them
VALUED = ("--workers", "--readers", "--owner", "--digest")
# how an image is named that the kernel holds to its digest
DESCRIPTOR = kernel_seals.OPENED.removesuffix("%d")


# what is said of a server
FACTS = ("images", "digests", "sealed_by", "process", "memory", "age")


class Server:
    """A process that serves a mount: its number, the folder that it was mounted on first, the images
    as it names them, and the digests to which it holds them."""

    def __init__(self, process, words):
        self.process, self.images, self.digests = process, [], []
        self.folder = words[0].partition("@")[2]
        left = iter(words[1:])
        for word in left:
            if word in VALUED:
                value = next(left, None)
                self.digests += [value] * (word == "--digest")
            elif not word.startswith("--") and word != "serve":
                self.images.append(word)

    def sealed_images(self):
        """The images' names, their digests, and who holds them to these; no digests where no image
        has one."""
        digests = self.digests or [NOT_SEALED] * len(self.images)
        rows = [self.sealed_image(*both) for both in zip(self.images, digests)]
        images, digests, holders = map(list, zip(*rows)) if rows else ([], [], [])
        return (images, digests, holders) if any(holders) else (images, [], [])

    def sealed_image(self, image, digest):
        """The same of one image. Of a descriptor, the kernel says what it is."""
        if not image.startswith(DESCRIPTOR):
            return image, digest, None if digest == NOT_SEALED else "strata"
        link = "/proc/%d/fd/%s" % (self.process, image[len(DESCRIPTOR):])
        try:
            name, file = os.readlink(link), image_files.opened(link)
            if file is not None:
                with file:
                    digest = kernel_seals.measured(file.fileno()) or digest
            return name, digest, None if digest == NOT_SEALED else "kernel"
        except OSError:
            return image, digest, None

    def memory(self):
        """The bytes of memory that it holds, those that it shares by parts; None where that can't
        be seen."""
        try:
            with open("/proc/%d/smaps_rollup" % self.process, encoding="ascii") as it:
                return next(int(line.split()[1]) << 10 for line in it if line.startswith("Pss:"))
        except (OSError, StopIteration):
            return None

    def age(self):
        """How many seconds ago it began; None where it has ended."""
        start = start_of(self.process)
        with open("/proc/uptime", encoding="ascii") as it:
            now = float(it.read().split()[0])
        return None if start is None else max(0, int(now - start / TICKS))


def servers():
    """The processes that serve mounts, with their users."""
    for name in filter(str.isdigit, os.listdir("/proc")):
        try:
            with open("/proc/%s/cmdline" % name, "rb") as it:
                words = [os.fsdecode(word) for word in it.read().split(b"\0")[:-1]]
            user = os.stat("/proc/" + name).st_uid
        except OSError:
            continue
        if words[1:3] == ["serve", "--device"] and "@" in words[0]:
            yield user, Server(int(name), words)


def server_of(mount, known, noted):
    """The process that serves a mount, among those that are known; None where it isn't found. A
    process whose user is another than the mount's is none, whatever it says."""
    ours = [server for user, server in known if mount.is_of(user)]
    by_note = [it for it in ours if it.process == noted.get(mount.device)]
    return (by_note or [it for it in ours if it.folder == mount.place] or [None])[-1]


def rows():
    """What there is to say of each mount, in the order of mounting."""
    found = mounts(KIND)
    known, noted = list(servers()), noted_servers()
    # a mount that is bound to other folders has one server
    by_device = {}
    for mount in found:
        by_device[mount.device] = by_device.get(mount.device) or server_of(mount, known, noted)
    for mount in found:
        it = by_device[mount.device]
        facts = (None,) * len(FACTS) if it is None else (
            *it.sealed_images(), it.process, it.memory(), it.age())
        yield {"folder": mount.place, "source": mount.source, **dict(zip(FACTS, facts))}


def words_of(row):
    """A row of text: what is not known is a `-`."""
    memory = "-" if row["memory"] is None else "%.1f" % (row["memory"] / (1 << 20))
    images = [row["source"]] if row["images"] is None else row["images"]
    process, age = ("-" if row[name] is None else str(row[name]) for name in ("process", "age"))
    return [process, memory, age, one_line(row["folder"]), " ".join(map(one_line, images))]


def text(is_json):
    """All mounts."""
    found = list(rows())
    if is_json:
        import json
        return json.dumps(found, indent=1) + "\n"
    lines = [["PROCESS", "MIB", "SECONDS", "FOLDER", "IMAGES"], *map(words_of, found)]
    process, memory, age, folder = (max(map(len, column)) for column in list(zip(*lines))[:4])
    form = "%%%ds  %%%ds  %%%ds  %%-%ds  %%s\n" % (process, memory, age, folder)
    return "".join(form % tuple(line) for line in lines)
