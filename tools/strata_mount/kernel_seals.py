"""Images that the kernel itself holds to their digests, by fs-verity: then strata needs no tree and
hashes nothing.

Who measures a file must give that very file to the server, since another can take its name. So the
server opens the descriptor that was measured, by its name in /proc.
"""
import fcntl
import os
import struct

from strata_format.image_files import LOOKING, read_once
from strata_format.system import addressof, c_char, c_ulong, libc
from strata_mount.options import NOT_SEALED

# FS_IOC_MEASURE_VERITY of linux/fsverity.h: algorithm, size, digest
MEASURE, MEASURED = 0xC0046686, struct.Struct("=HH64s")
ALGORITHMS = {1: "sha256", 2: "sha512"}
# the file systems that check what they read: ext4, f2fs and btrfs, by their numbers in
# linux/magic.h. FUSE passes the question on to its server, which may say anything
KINDS, STATFS_SIZE = (0xEF53, 0xF2F52010, 0x9123683E), 256
OPENED = "/proc/self/fd/%d"


def kind_of(number):
    """The number of the kind of file system on which an open file is."""
    room = (c_char * STATFS_SIZE)()
    if libc.fstatfs(number, c_ulong(addressof(room))) != 0:
        return None
    return struct.unpack_from("=L", bytes(room))[0]


def measured(number):
    """The digest to which the kernel holds an open file, or None."""
    if kind_of(number) not in KINDS:
        return None
    room = bytearray(MEASURED.pack(0, MEASURED.size - 4, b""))
    try:
        fcntl.ioctl(number, MEASURE, room)
    except OSError:
        return None
    algorithm, size, digest = MEASURED.unpack(room)
    return "%s:%s" % (ALGORITHMS.get(algorithm, algorithm), digest[:size].hex())


def opened(image, digest):
    """An open file of an image, if the kernel holds it to this digest; else None."""
    try:
        if read_once(image) is not None:
            return None
        number = os.open(image, LOOKING)
    except OSError:
        return None  # strata says why
    if measured(number) == digest.lower() and os.path.exists(OPENED % number):
        return number
    os.close(number)
    return None


def settle(plan):
    """Opens the images of a plan that the kernel holds to their digests."""
    for at, (image, digest) in enumerate(zip(plan.images, plan.digests)):
        number = opened(image, digest) if digest != NOT_SEALED else None
        if number is not None:
            plan.by_kernel[at] = number
