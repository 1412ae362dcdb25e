"""Checks of checks/mounts/mounted.py: images that are mounted under their digests."""
import errno
import json
import os
import random
import shutil
import subprocess
import sys
import time

from checks import ROOT, TOOLS
from checks.mounts.mounted_ends import hold_refused
from checks.mounts.mounted_files import PAGE, READERS, items_of, part, reading
from checks.mounts.mounted_readers import statuses
from checks.mounts.mounted_sharing import alive, own_runtime, run, share, umount
from checks.mounts.mounted_trees import MIB, file, folder, wanted_of
from checks.registry.made import fsverity_digest
from checks.shared.images import laid_out
from checks.shared.mounting import LeftOut, Mount, hold, hold_tree, shown, wait_until

# so many blocks have their digests in one block of the tree
LEAVES = {"sha256": 128, "sha512": 64}
# of the pages of a file, each so manyth is read
APART = 61


def sealed(image, algorithm="sha256"):
    """Writes an image's tree; the image's digest."""
    words = [sys.executable, "-B", TOOLS + "/layers.py", "seal", "--hash-alg", algorithm, image]
    done = subprocess.run(words, stdin=subprocess.DEVNULL, stdout=subprocess.PIPE, check=True, text=True)
    return done.stdout.split(" ")[0]


def options_of(digests):
    """The options that name digests, one way and another."""
    yield [word for digest in digests for word in ("--digest", digest)]
    yield ["-o", ",".join("digest=%s" % digest for digest in digests)]


def large(room, seed):
    """An image with a file of 2 MiB and some bytes, where these begin in it, and the bytes."""
    data = random.Random(seed).randbytes(2 * MIB + 77)
    whole = laid_out(b"v", [file("x", data), folder("d"), file("d/y", b"y")])
    return room.write(whole), whole.index(data[:64]), data


def write_at(path, place, data):
    with open(path, "r+b") as out:
        out.seek(place)
        out.write(data)


def byte_at(path, place):
    with open(path, "rb") as it:
        it.seek(place)
        return it.read(1)[0]


def pages_at(place, data, lost):
    """Where pages begin that are read: at the ends of what is lost, and some others."""
    ends = [block * PAGE - place for block in (min(lost), max(lost))] if lost else []
    near = {at // PAGE + more for at in ends for more in (-1, 0, 1, 2)}
    last = (len(data) - 1) // PAGE
    return [page * PAGE for page in sorted({*range(0, last, APART), last, *near}) if 0 <= page <= last]


def hold_pages(mount, place, data, lost):
    """Holds pages of the file `x`: the right bytes, or EIO where one lies in a lost block."""
    told = 0
    for at in pages_at(place, data, lost):
        wanted = data[at:at + PAGE]
        is_lost = not lost.isdisjoint({(place + at) // PAGE, (place + at + len(wanted) - 1) // PAGE})
        hold("the page at %d" % at, errno.EIO if is_lost else wanted, part(mount.path(b"x"), at, PAGE))
        told += is_lost
    return told


def sealed_tree(room):
    """A mount of sealed images shows what one of unsealed images shows, by --digest and -o digest."""
    stack = [items_of(1), [folder("d"), file("d/00", b"upper"), file("d/new", b"new")], [file("z", b"unsealed")]]
    images = [room.layer(items) for items in stack]
    digests = [sealed(images[0]), sealed(images[1], "sha512"), "-"]
    for words in options_of(digests):
        for more in ([], ["--strict"]):
            mount = room.mount(images, *words, *more)
            hold_tree("sealed", wanted_of(stack), shown(mount.at))
            mount.end()
    mount = room.mount(images[:2], "-o", "sealed,whole,readers=4,digest=%s,digest=%s" % tuple(digests[:2]))
    for image in images[:2]:
        os.unlink(image + ".verity")
    hold_tree("sealed and whole", wanted_of(stack[:2]), shown(mount.at))
    mount.end()
    return "the same tree with two digests, of either algorithm, and an image without one"


def sealed_block(room):
    """A block that is changed in the image's file is EIO for the reads that touch it, and right again once it is mended."""
    image, place, data = large(room, 7)
    with open(image, "rb") as it:
        whole = it.read()
    lost = 0
    for algorithm in LEAVES:
        mount = room.mount([image], "--digest", sealed(image, algorithm))
        for at in (place + 5 * PAGE, place + MIB + 1, place + len(data) - 1):
            was = byte_at(image, at)
            write_at(image, at, bytes([was ^ 1]))
            lost += hold_pages(mount, place, data, {at // PAGE})
            write_at(image, at, bytes([was]))
        hold("pages that are mended", 0, hold_pages(mount, place, data, set()))
        os.truncate(image, place + MIB)
        last = (place + len(data) - 1) // PAGE
        hold_pages(mount, place, data, set(range((place + MIB) // PAGE, last + 1)))
        write_at(image, 0, whole)
        hold("pages of a whole image", 0, hold_pages(mount, place, data, set()))
        mount.end()
    return "of six changed bytes %d pages are EIO, all others right, and so is each when it is mended" % lost


def sealed_leaf(room):
    """A digest that is changed in the tree is EIO for the blocks whose digests lie in its block."""
    image, place, data = large(room, 8)
    for algorithm, leaves in LEAVES.items():
        mount = room.mount([image], "--digest", sealed(image, algorithm))
        for block in (0, 2):
            # the root's block is the first
            at = (1 + block) * PAGE + 70
            was = byte_at(image + ".verity", at)
            write_at(image + ".verity", at, bytes([was ^ 128]))
            hold_pages(mount, place, data, set(range(block * leaves, (block + 1) * leaves)))
            write_at(image + ".verity", at, bytes([was]))
            hold("pages of a mended tree", 0, hold_pages(mount, place, data, set()))
        mount.end()
    return "of a changed tree the blocks below the change are EIO, all others right"


def sealed_under_readers(room):
    """While a sealed image is written over and mended, 8 processes read right bytes or EIO."""
    items, others = items_of(1), items_of(2)
    right, wrong = laid_out(b"v", items), laid_out(b"v", others)
    image = room.write(right)
    mount, told = room.mount([image], "-o", "readers=2", "--digest", sealed(image)), room.folder + "/told"
    children = [reading(mount, [items], told) for _ in range(READERS)]
    for _ in range(10):
        time.sleep(0.05)
        write_at(image, 0, wrong)
        time.sleep(0.05)
        write_at(image, 0, right)
    with open(told, "wb"):
        hold("processes that read", {0}, statuses(children))
    hold_tree("mended", wanted_of([items]), shown(mount.at))
    mount.end()
    return "no wrong byte while an image was written over ten times"


def sealed_refused(room):
    """What is not as sealed, or not sealed where that is demanded: a line, a status, and no mount."""
    image, other, at = room.layer(items_of(1)), room.layer(items_of(2)), room.place()
    digest, theirs = sealed(image), sealed(other)
    changed = shutil.copy(image, room.folder + "/changed")
    write_at(changed, 20, b"V")
    shutil.copy(image + ".verity", changed + ".verity")
    alone = shutil.copy(image, room.folder + "/alone")
    form = "argument %s: a digest is sha256: with 64 hex digits, sha512: with 128, or -\n"
    not_sealed, none = "image %d: not as sealed\n", "mount.py: %s: has no digest, and with -o sealed each layer needs one\n"
    counts = "mount.py: digests: %d, and layers: %d; each layer needs one, or `-`, the lowest first\n"
    wanted = [
        (["--digest", theirs, image], 3, not_sealed % 0), (["--digest", digest, changed], 3, not_sealed % 0),
        (["--digest", digest, alone], 3, not_sealed % 0),
        (["-o", "digest=-,digest=" + digest, other, changed], 3, not_sealed % 1),
        (["--digest", digest, "--digest", theirs, other, image], 3, not_sealed % 0),
        (["--digest", digest, "-o", "whole", changed], 3, not_sealed % 0),
        (["-o", "sealed", image], 1, none % image),
        (["-o", "sealed", "--digest", digest, "--digest", "-", image, other], 1, none % other),
        (["--digest", digest, image, other], 1, counts % (1, 2)),
        (["--digest", digest, "--digest", theirs, image], 1, counts % (2, 1))]
    for words, status, line in wanted:
        hold_refused(room, ["--background", *words, at], status, line)
    for words in (["--digest", digest[:-1]], ["--digest", "md5:" + digest[7:]], ["-o", "digest=" + digest + "0"], ["-o", "digest"]):
        status, _, told = run(room, *words, image, at)
        said = "--digest" if words[0] == "--digest" else "-o"
        hold("mount.py %s" % words, (2, True), (status, told.endswith(form % said)))
    status, _, told = run(room, "--digest", digest, "-o", "digest=" + digest, image, at)
    hold("both", (2, True), (status, told.endswith("argument --digest: not with -o digest\n")))
    _, _, told = run(room, "--digest", digest, alone, at)
    hold("why", True, "alone.verity: no such file or directory" in told)
    return "%d faults, each with its line and status, and no mount left" % (len(wanted) + 5)


def sealed_sharing(room):
    """Who names other digests shares no mount; --list tells the digests."""
    if not room.is_root:
        raise LeftOut("only root can share a mount at a folder")
    image = room.layer(items_of(1))
    digest = sealed(image)
    words = ["--digest", digest], ["-o", "digest=" + digest], []
    found = [share(room, [image], *it) for it in words]
    hold("the same mount", True, os.stat(found[0]).st_dev == os.stat(found[1]).st_dev)
    hold("another", False, os.stat(found[0]).st_dev == os.stat(found[2]).st_dev)
    rows = {row["folder"]: row for row in json.loads(run(room, "--list", "--json")[1])}
    hold("--list --json", [([image], [digest])] * 2 + [([image], [])],
         [(rows[at]["images"], rows[at]["digests"]) for at in found])
    for at in found:
        umount(at)
    wait_until("all servers' end", lambda: not alive())
    return "one mount for a digest, another without; --list tells it"


EXT4, FUSE = "ef53", "65735546"


def few(seed):
    """A file of more than two blocks of an image, and another in a folder."""
    return [file("x", random.Random(seed).randbytes(3 * PAGE)), folder("d"), file("d/y", b"y")]


class Measured:
    """A room in which files are on a file system of some kind, whose kernel measures them; and what then takes their name."""

    def __init__(self, room, kind, other="-"):
        self.room, self.kind, self.other = room, kind, other

    def words(self):
        python, flag, _, *words = self.room.words()
        return [python, flag, os.path.join(ROOT, "checks", "mounts", "measuring.py"), self.kind, self.other, *words]

    def place(self):
        return self.room.place()


def measured(room, kind, images, *words, other="-"):
    """A mount in such a room, and the words of its server."""
    mount = Mount(Measured(room, kind, other), images, words, b"")
    with open("/proc/%d/cmdline" % mount.server, "rb") as it:
        return mount, it.read().decode().split("\0")[:-1]


def sealed_by_kernel(room):
    """Of an image that the kernel holds to its digest, strata reads the file that was measured, without a tree, and hashes none."""
    stack = [few(1), [folder("d"), file("d/y", b"upper")]]
    images = [room.layer(items) for items in stack]
    digests = [sealed(image) for image in images]
    named = [word for it in digests for word in ("--digest", it)]
    for kind, holder in ((EXT4, "the kernel"), (FUSE, "strata")):
        mount, words = measured(room, kind, images, *named)
        hold("images that strata opens", kind == EXT4, all(it.startswith("/proc/self/fd/") for it in words[-2:]))
        hold("digests that strata holds", [] if kind == EXT4 else digests, [it for it in words if it.startswith("sha256:")])
        hold_tree(holder, wanted_of(stack), shown(mount.at))
        rows = json.loads(subprocess.run([*Measured(room, kind).words(), "--list", "--json"], stdout=subprocess.PIPE,
                                         check=True).stdout)
        row, = (it for it in rows if it["folder"] == mount.at)
        hold("--list", (images, digests, [holder.replace("the ", "")] * 2), (row["images"], row["digests"], row["sealed_by"]))
        hold("the source", images[0] + "+1 (sealed%s)" % (" by the kernel" * (kind == EXT4)), row["source"])
        mount.end()
    counts = room.place() + "/counts"
    for image in images:
        os.unlink(image + ".verity")
    mount, _ = measured(room, EXT4, images, *named, "--stats", counts)
    hold_tree("without trees", wanted_of(stack), shown(mount.at))
    with open(counts, encoding="utf-8") as it:
        told = it.read().splitlines()[1:3]
    hold("--stats", ["# layer %d: sealed by the kernel: %s" % both for both in enumerate(digests)], told)
    mount.end()
    return "a tree by the kernel's word alone; FUSE's word is not taken; --list and --stats tell it"


def sealed_exchanged(room):
    """Another file that takes the name of an image once the kernel has measured it is not shown; a file of another digest is
    strata's to refuse."""
    items, others = few(1), few(2)
    image, other = room.layer(items), room.layer(others)
    digest, theirs = sealed(image), sealed(other)
    mount, words = measured(room, EXT4, [image], "--digest", digest, other=other)
    hold("exchanged", (True, False), (words[-1].startswith("/proc/self/fd/"), os.path.exists(other)))
    hold_tree("the file that was measured", wanted_of([items]), shown(mount.at))
    mount.end()
    at = room.place()
    done = subprocess.run([*Measured(room, EXT4).words(), "--background", "--digest", digest, image, at], stderr=subprocess.PIPE,
                          check=False)
    hold("the other file", (3, True), (done.returncode, b"image 0: not as sealed\n" in done.stderr))
    mount, words = measured(room, EXT4, [image], "--digest", theirs)
    hold("by its own digest", [], [it for it in words if it.startswith("sha256:")])
    hold_tree("the other file", wanted_of([others]), shown(mount.at))
    mount.end()
    return "the measured file is shown, whatever takes its name"


def sealed_store(room):
    """Who mounts an image of a store by its name, and who mounts its files under their digests, share a mount; who mounts it
    unsealed has another."""
    if not room.is_root:
        raise LeftOut("only root can share a mount at a folder")
    own_runtime()
    store = room.place()
    layers = [sys.executable, "-B", TOOLS + "/layers.py", "pull", "--store", store, "oci:%s/demo/layout" % ROOT, "lantern:1"]
    subprocess.run(layers, stdin=subprocess.DEVNULL, stdout=subprocess.DEVNULL, check=True)
    with open(store + "/images/lantern:1", encoding="utf-8") as it:
        described = json.load(it)["layers"]
    images = [os.path.join(store, "blobs", *it["digest"].split(":")) for it in described]
    digests = [fsverity_digest(open(it, "rb").read()) for it in images]
    named = [word for it in digests for word in ("--digest", it)]
    ways = (["lantern:1"], ["--store", store]), (["lantern"], ["--store", store]), (images, named)
    one, two, three = (share(room, names, *words) for names, words in ways)
    hold("one mount", 1, len({os.stat(it).st_dev for it in (one, two, three)}))
    other = share(room, ["lantern:1"], "--store", store, "-o", "unsealed")
    hold("another", False, os.stat(one).st_dev == os.stat(other).st_dev)
    hold("the same tree", sorted(os.listdir(one)), sorted(os.listdir(other)))
    rows = {row["folder"]: row for row in json.loads(run(room, "--list", "--json")[1])}
    hold("digests", [digests, []], [rows[it]["digests"] for it in (one, other)])
    hold("sealed", [True, False], [rows[it]["source"].endswith(" (sealed)") for it in (one, other)])
    for at in (one, two, three, other):
        umount(at)
    wait_until("all servers' end", lambda: not alive())
    return "one mount by a name and by digests, another that is unsealed"


CHECKS = (sealed_by_kernel, sealed_exchanged, sealed_store, sealed_tree, sealed_block, sealed_leaf, sealed_under_readers, sealed_refused, sealed_sharing)
