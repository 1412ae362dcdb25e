"""A plain reading of fs-verity: a file's tree of hash blocks and its digest, for blocks of 4,096 bytes and no salt.

Written from the kernel's Documentation/filesystems/fsverity.rst, not from strata's code and not from tools/.
"""
import hashlib
import struct

BLOCK = 4096
# the numbers of the algorithms, as FS_VERITY_HASH_ALG_SHA256
NUMBERS = {"sha256": 1, "sha512": 2}


def in_blocks(data):
    """The blocks of some bytes, the last one filled up with zeros."""
    return [data[at:at + BLOCK].ljust(BLOCK, b"\0") for at in range(0, len(data), BLOCK)]


def hashes(algorithm, data):
    return b"".join(hashlib.new(algorithm, block).digest() for block in in_blocks(data))


def levels(algorithm, data):
    """The levels of hash blocks over some bytes, the highest first. A single block has none."""
    found = []
    while len(data) > BLOCK:
        data = b"".join(in_blocks(hashes(algorithm, data)))
        found.insert(0, data)
    return found


def tree(algorithm, data):
    """The tree, as `fsverity digest --out-merkle-tree` writes it."""
    return b"".join(levels(algorithm, data))


def root_hash(algorithm, data):
    """The hash of the highest block; zeros if there are no bytes."""
    top = (levels(algorithm, data) or [data])[0]
    return hashes(algorithm, top) or bytes(hashlib.new(algorithm).digest_size)


def digest(algorithm, data):
    """The digest of the file's descriptor, as `fsverity digest` prints it."""
    described = struct.pack("<4BIQ64s32s144x", 1, NUMBERS[algorithm], 12, 0, 0, len(data), root_hash(algorithm, data), b"")
    return "%s:%s" % (algorithm, hashlib.new(algorithm, described).hexdigest())
