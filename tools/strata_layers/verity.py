"""fs-verity's digest of a file, and its tree (Documentation/filesystems/fsverity.rst): blocks of
4,096 bytes, no salt.

The file comes in pieces, as it is written or read. Threads take the digests of its blocks
meanwhile, since hashlib lets others run.

    with Sealing("sha256") as sealing:
        for data in pieces: sealing.add(data)
        seal = sealing.seal()
"""
import collections
import hashlib
import os
import re
import struct

from strata_format.progress import unheard

BLOCK = 4096
# the algorithms' numbers in a descriptor
ALGORITHMS = {"sha256": 1, "sha512": 2}
# behind an image's name
TREE = ".verity"
# what a digest is that a manifest or a store says
DIGEST = re.compile("sha256:[0-9a-f]{64}")
# so many bytes are worth a thread, and so many pieces wait for one at most
WORTH, WAITING, THREADS = 1 << 16, 16, 4

# the digest of a file, and the levels of its tree, the root's first
Seal = collections.namedtuple("Seal", "digest levels")


def digests_of(algorithm, data):
    """The digests of the blocks of some bytes, the last filled with zeros."""
    made, view = getattr(hashlib, algorithm), memoryview(data)
    whole = len(data) - len(data) % BLOCK
    found = [made(view[at:at + BLOCK]).digest() for at in range(0, whole, BLOCK)]
    if whole < len(data):
        found.append(made(bytes(view[whole:]).ljust(BLOCK, b"\0")).digest())
    return b"".join(found)


def in_blocks(data):
    return data + bytes(-len(data) % BLOCK)


def levels_above(algorithm, digests):
    """The levels of a tree over these digests, the root's first, and the root hash."""
    size, levels = hashlib.new(algorithm).digest_size, []
    while len(digests) > size:
        levels.append(in_blocks(digests))
        digests = digests_of(algorithm, levels[-1])
    return levels[::-1], digests or bytes(size)


def tree_size(algorithm, size):
    """How many bytes the tree of a file of so many has."""
    each, count, found = hashlib.new(algorithm).digest_size, -(-size // BLOCK), 0
    while count > 1:
        count = -(-count * each // BLOCK)
        found += count * BLOCK
    return found


def file_digest(algorithm, size, root):
    """The digest of the descriptor."""
    descriptor = struct.pack("<BBBBIQ64s32s144s", 1, ALGORITHMS[algorithm], 12, 0, 0, size, root, b"", b"")
    return "%s:%s" % (algorithm, hashlib.new(algorithm, descriptor).hexdigest())


class Sealing:
    """Takes the digests of a file's blocks, as long as a `with`."""

    def __init__(self, algorithm="sha256"):
        self.algorithm, self.size, self.pool = algorithm, 0, None
        # what is no whole block yet; what threads are at, each with what it gives; and what they gave
        self.rest, self.waiting, self.found = b"", collections.deque(), []
        self.last = None
        # whether there was no memory for a thread
        self.is_alone = False

    def __enter__(self):
        return self

    def __exit__(self, *_):
        if self.pool is not None:
            self.pool.shutdown(cancel_futures=True)

    def add(self, data):
        """Adds the next bytes of the file."""
        self.size += len(data)
        data = self.rest + data if self.rest else data
        whole = len(data) - len(data) % BLOCK
        self.rest = data[whole:]
        self.begin(data[:whole] if self.rest else data)

    def begin(self, data):
        """Lets a thread take the digests of blocks. A piece that comes again, as those of a hole do,
        has the digests that it had."""
        while len(self.waiting) >= WAITING:
            self.found.append(self.waiting.popleft()())
        if self.last is None or data is not self.last[0]:
            self.last = data, self.begun(data)
        self.waiting.append(self.last[1])

    def begun(self, data):
        if len(data) < WORTH or self.is_alone:
            found = digests_of(self.algorithm, data)
            return lambda: found
        if self.pool is None:
            from concurrent.futures import ThreadPoolExecutor
            self.pool = ThreadPoolExecutor(min(THREADS, os.cpu_count() or 1))
        try:
            return self.pool.submit(digests_of, self.algorithm, data).result
        except RuntimeError:
            self.is_alone = True
            return self.begun(data)

    def seal(self):
        """The digest and the tree of the file, which has no more bytes."""
        self.begin(self.rest)
        digests = b"".join([*self.found, *(it() for it in self.waiting)])
        levels, root = levels_above(self.algorithm, digests)
        return Seal(file_digest(self.algorithm, self.size, root), levels)


def seal_of(pieces):
    """The seal of a file that comes in pieces."""
    with Sealing() as sealing:
        for data in pieces:
            sealing.add(data)
        return sealing.seal()


def sealed_pieces(pieces, heard=unheard):
    """The digits of the SHA-256 of a file that comes in pieces, and its seal."""
    found = hashlib.sha256()
    with Sealing() as sealing:
        for data in pieces:
            sealing.add(data)
            found.update(data)
            heard(len(data))
        return found.hexdigest(), sealing.seal()
