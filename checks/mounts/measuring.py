"""strata-mount where the kernel has fs-verity: python3 measuring.py KIND OTHER [WORDS..]

It stands for a kernel that this machine hasn't: of any file it says that it is on a file system of the number KIND, and
FS_IOC_MEASURE_VERITY gives its digest by a plain reading. Once a file is measured, OTHER takes its name, unless that is "-".
"""
import errno
import os
import sys

sys.path.insert(0, os.path.dirname(os.path.dirname(os.path.dirname(os.path.abspath(__file__)))))
from checks.registry.made import fsverity_digest
from strata_mount import kernel_seals
from strata_mount.command import main

# of linux/fsverity.h: _IOWR('f', 134, struct fsverity_digest), whose size is 4
MEASURE = 3 << 30 | 4 << 16 | ord("f") << 8 | 134
SHA256, SHA256_SIZE = 1, 32


class Kernel:
    """What stands for the module `fcntl`."""

    def __init__(self, other):
        self.other = other

    def ioctl(self, number, request, room):
        if request != MEASURE:
            raise OSError(errno.ENOTTY, os.strerror(errno.ENOTTY))
        if int.from_bytes(room[2:4], sys.byteorder) < SHA256_SIZE:
            raise OSError(errno.EOVERFLOW, os.strerror(errno.EOVERFLOW))
        path = os.readlink("/proc/self/fd/%d" % number)
        digest = bytes.fromhex(fsverity_digest(os.pread(number, os.fstat(number).st_size, 0))[7:])
        room[:4 + SHA256_SIZE] = SHA256.to_bytes(2, sys.byteorder) + SHA256_SIZE.to_bytes(2, sys.byteorder) + digest
        if self.other != "-":
            os.rename(self.other, path)


if __name__ == "__main__":
    kind, kernel_seals.fcntl = int(sys.argv[1], 16), Kernel(sys.argv[2])
    kernel_seals.kind_of = lambda _: kind
    sys.exit(main(sys.argv[3:], "mount.py"))
