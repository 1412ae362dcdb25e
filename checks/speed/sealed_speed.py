"""Times sealed images beside unsealed ones and beside sha256sum: python3 checks sealed_speed PROGRAM [--runs N] [--quick] [PART..]

Each PART is one of reads, readers, start, memory; without one all are measured. Printed are the rows of the
table of docs/SPEED.md, by SHA-256 and by SHA-512, and what each is computed from:

- `reads`: processor time of `serve` for READs of all of a file of 256 MiB, 128 KiB and 4 KiB each, beside that of `sha256sum` or
  `sha512sum` of the image: 1.0 is their pace, 0.5 half of it. Unsealed, the same for comparison.
- `readers`: seconds by the clock in which 4 processes read a mount of the image past the page cache, by one reader over those by
  four.
- `start`: processor time until the first request is answered, for 14,496 paths with 4 KiB a file, sealed over unsealed; and
  seconds of the command strata-mount by the clock.
- `memory`: what a server of that mount has of its own, beside an unsealed one, and what of that are digests that it holds.

All files are in memory, programs are run in turns, and of N runs (5) the least counts. `--quick` takes small inputs, to try the
script: its figures mean nothing. `readers`, and the mounts of `start` and `memory`, take /dev/fuse and a namespace; without them
they are left out. It judges nothing.
"""
import argparse
import os
import random
import subprocess
import sys
import tempfile
import time

from checks.mounts.mounted_files import anonymous
from checks.plain import plain_verity
from checks.shared import runs
from checks.shared.build import init, request
from checks.shared.images import Item, laid_out
from checks.shared.mounting import Room, adopt, apart, enter, try_mount
from checks.shared.random_inputs import read_body
from checks.shared.runs import add_parts
from checks.speed.mounts import two_digits

MIB, KIB = 1 << 20, 1 << 10
READ, NODE = 15, 2
ALGORITHMS = ("sha256", "sha512")
SIZE, FOLDERS, FILES = 256 * MIB, 1208, 11
CLIENTS, LENGTH = 4, 128 * KIB


def write(path, data):
    with open(path, "wb") as out:
        out.write(data)


class Image:
    """An image, its digests and their trees; one algorithm's tree stands beside it at a time."""

    def __init__(self, path, items):
        self.path, data = path, laid_out(b"v", items)
        write(path, data)
        self.digests = {it: plain_verity.digest(it, data) for it in ALGORITHMS}
        self.trees = {it: plain_verity.tree(it, data) for it in ALGORITHMS}
        self.held = {it: held(it, len(data)) for it in ALGORITHMS}

    def words(self, algorithm):
        """The words that name it, under a digest or, for None, without one."""
        if algorithm is None:
            return [self.path]
        write(self.path + ".verity", self.trees[algorithm])
        return ["--digest", self.digests[algorithm], self.path]


def held(algorithm, size):
    """How many bytes of digests stand in the level above the lowest."""
    fan = 4096 // len(plain_verity.root_hash(algorithm, b""))
    lowest = -(-(-(-size // 4096)) // fan)
    return -(-lowest // fan) * 4096


def large(folder, size):
    rng = random.Random(1)
    data = b"".join(rng.randbytes(min(MIB, size - at)) for at in range(0, size, MIB))
    return Image(folder + "/large", [Item((b"x",), "regular", False, data=data)])


def many(folder, count):
    """A tree of directories of files of 4 KiB each."""
    rng, items = random.Random(2), []
    for number in range(count):
        here = (b"d%04d" % number,)
        items.append(Item(here, "directory", True))
        items += [Item((*here, b"f%02d" % at), "regular", False, data=rng.randbytes(4096)) for at in range(FILES)]
    return Image(folder + "/many", items)


def clock(taken):
    return two_digits(taken * 1000) + " ms"


def seconds(words, **named):
    """The processor time of a program."""
    done = runs.ended(subprocess.Popen(words, stdin=subprocess.DEVNULL, stdout=subprocess.DEVNULL, stderr=subprocess.PIPE, **named))
    if done.status != 0:
        sys.exit("%s: %r" % (" ".join(words)[:300], done.errors))
    return done.seconds


def least(count, *functions):
    """The least of some runs of each of these, in turns."""
    found = [[function() for function in functions] for _ in range(count)]
    return [min(times) for times in zip(*found)]


class Speed:
    """The program, a folder, and how often and how large is measured."""

    def __init__(self, room, asked, has_mounts):
        self.room, self.has_mounts, is_quick = room, has_mounts, asked.quick
        self.count, self.is_quick = 1 if is_quick else asked.runs, is_quick
        self.large = large(room.folder, SIZE // 16 if is_quick else SIZE)
        self.many = many(room.folder, FOLDERS // 10 if is_quick else FOLDERS)

    def requests(self, size, length):
        """A file of READs of so many bytes each."""
        path = "%s/requests-%d" % (self.room.folder, length)
        if not os.path.exists(path):
            reads = [request(READ, number, NODE, read_body(at, length)) for number, at in enumerate(range(0, size, length), 2)]
            write(path, init(1) + b"".join(reads))
        return path

    def serving(self, image, algorithm, requests):
        return lambda: seconds([self.room.program, "serve", "--in-files", "--requests", requests, *image.words(algorithm)])

    def reads(self):
        size = os.path.getsize(self.large.path) - 200
        for length in (128 * KIB, 4 * KIB):
            requests = self.requests(size // length * length, length)
            cells = []
            for algorithm in ALGORITHMS:
                sums = lambda: seconds([algorithm + "sum", self.large.path])
                summed, sealed, plain = least(self.count, sums, self.serving(self.large, algorithm, requests),
                                              self.serving(self.large, None, requests))
                print("%s: %s s; %ssum %s s; unsealed %s s" % (algorithm, two_digits(sealed), algorithm, two_digits(summed),
                                                               two_digits(plain)))
                cells.append(two_digits(summed / sealed))
            yield "READs of %d KiB, pace" % (length // KIB), cells

    def readers(self):
        cells = []
        for algorithm in ALGORITHMS:
            one, four = least(self.count, *(lambda it=it: self.read_mount(algorithm, it) for it in (1, 4)))
            print("%s: one reader %s MiB/s, four %s" % (algorithm, *(two_digits(self.size() / MIB / it) for it in (one, four))))
            cells.append(two_digits(one / four))
        yield "four readers beside one, by the clock", cells

    def size(self):
        return os.path.getsize(self.large.path)

    def read_mount(self, algorithm, readers):
        """Seconds in which processes read a mount, each a part of the file."""
        mount = self.room.mount([self.large.path], "-o", "readers=%d" % readers, *self.large.words(algorithm)[:-1])
        start, share = time.monotonic(), self.size() // CLIENTS // LENGTH
        children = [subprocess.Popen(["dd", "if=%s/x" % mount.at, "of=/dev/null", "bs=%d" % LENGTH, "iflag=direct", "status=none",
                                      "skip=%d" % (part * share), "count=%d" % share]) for part in range(CLIENTS)]
        for child in children:
            if child.wait() != 0:
                sys.exit("a read failed")
        taken = time.monotonic() - start
        mount.end()
        return taken

    def start(self):
        first = self.room.folder + "/first"
        write(first, init(1))
        kinds = [None, *ALGORITHMS]
        plain, *sealed = least(self.count, *(self.serving(self.many, it, first) for it in kinds))
        yield "until requests are served, %s paths (unsealed %s)" % (format(self.paths(), ","), clock(plain)), map(clock, sealed)
        if self.has_mounts:
            plain, *sealed = least(self.count, *(lambda it=it: self.mount_seconds(it) for it in kinds))
            yield "the same with strata-mount, by the clock (unsealed %s)" % clock(plain), map(clock, sealed)

    def paths(self):
        return (FOLDERS // 10 if self.is_quick else FOLDERS) * (FILES + 1)

    def mount_seconds(self, algorithm):
        words, start = self.many.words(algorithm)[:-1], time.monotonic()
        mount = self.room.mount([self.many.path], *words)
        taken = time.monotonic() - start
        mount.end()
        return taken

    def memory(self):
        found = {it: min(self.mount_memory(self.many, it) for _ in range(3)) for it in (None, *ALGORITHMS)}
        yield "memory beside that of an unsealed mount", ["%d KiB, digests %d" % (
            (found[it] - found[None]) // KIB, self.many.held[it] // KIB) for it in ALGORITHMS]

    def mount_memory(self, image, algorithm):
        mount = self.room.mount([image.path], *image.words(algorithm)[:-1])
        os.listdir(mount.at)
        taken = anonymous(mount.server)
        mount.end()
        return taken


PARTS = ("reads", "readers", "start", "memory")
MOUNTED = ("readers", "memory")


def measure(room, asked, has_mounts):
    speed = Speed(room, asked, has_mounts)
    print("| | SHA-256 | SHA-512 |\n|---|---|---|", flush=True)
    for part in asked.parts or PARTS:
        for name, cells in getattr(speed, part)() if has_mounts or part not in MOUNTED else ():
            print("| %s | %s |" % (name, " | ".join(cells)), flush=True)


def main(words):
    parser = argparse.ArgumentParser(prog="checks sealed_speed", description=__doc__.partition(":")[0])
    parser.add_argument("program", metavar="PROGRAM")
    parser.add_argument("--runs", metavar="N", type=int, default=5)
    parser.add_argument("--quick", action="store_true")
    add_parts(parser, PARTS)
    asked = parser.parse_intermixed_args(words)
    adopt()
    with tempfile.TemporaryDirectory(prefix="sealed-speed-", dir="/dev/shm" if os.path.isdir("/dev/shm") else None) as folder:
        why = apart(lambda: try_mount(folder))
        if why == "yes":
            enter()
        else:
            print("mounts: left out: %s" % why.replace("FAILED: ", ""))
        measure(Room(os.path.abspath(asked.program), folder), asked, why == "yes")


if __name__ == "__main__":
    main(sys.argv[1:])
