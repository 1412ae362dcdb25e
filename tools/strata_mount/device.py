"""The kernel's device of FUSE: opened, mounted on a folder, and unmounted."""
import errno
import os
import sys

from strata_format.system import c_ulong, called, get_errno, libc
from strata_mount.mount_table import KIND
from strata_mount.options import CLEARS, SETS
from strata_mount.processes import found_program, start

DEVICE, MTAB = "/dev/fuse", "/etc/mtab"
# the numbers of this device, which never change
NUMBERS = os.makedev(10, 229)
NOT_FUSE = "not FUSE's device, which root makes by `mknod -m 666 %s c 10 229`" % DEVICE
MNT_DETACH, UMOUNT_NOFOLLOW = 2, 8
# of a descriptor that comes through a socket
INT_SIZE = 4


def mounted(plan):
    """An open /dev/fuse that is mounted on a folder: by mount(2) where that may be, and else by
    fusermount3."""
    device = mounted_by_kernel(plan)
    return mounted_by_helper(plan) if device is None else device


def opened_device():
    """The open device. fusermount3, too, opens it with the rights of who calls it alone."""
    device = os.open(DEVICE, os.O_RDWR)
    if os.fstat(device).st_rdev != NUMBERS:
        os.close(device)
        raise OSError(0, NOT_FUSE, DEVICE)
    return device


def mounted_by_kernel(plan):
    """The same by mount(2); None where that may not be."""
    device = opened_device()
    try:
        mount(plan, device)
        return device
    except BaseException as fault:
        os.close(device)
        if isinstance(fault, PermissionError):
            return None
        raise


def mount(plan, device):
    """Mounts an open device on a folder."""
    owner = (os.geteuid(), os.getegid())
    text = ["fd=%d,rootmode=40000,user_id=%d,group_id=%d" % (device, *owner)]
    text += [word for word in plan.words if word not in SETS and word not in CLEARS]
    status = libc.mount(os.fsencode(plan.shown_source()), os.fsencode(plan.folder), os.fsencode(KIND),
                        c_ulong(flags_of(plan.words)), os.fsencode(",".join(text)))
    called(status, plan.folder + ": mount")


def flags_of(words):
    """The flags of mount(2) that words say, the last one of them where they disagree."""
    flags = 0
    for word in words:
        flags = (flags | SETS.get(word, 0)) & ~CLEARS.get(word, 0)
    return flags


def mounted_by_helper(plan):
    """The same by fusermount3, which sends the open device through a socket."""
    import _socket as socket  # all of socket that is needed, without enum and selectors
    helper = found_program("fusermount3")
    if not helper:
        why = "only root may mount, and there is no fusermount3: install fuse3"
        raise OSError(0, why, plan.folder)
    source = plan.shown_source().replace("\\", "\\\\").replace(",", "\\,")
    words = ",".join([*plan.words, "fsname=" + source, "subtype=strata"])
    ours, theirs = socket.socketpair()
    number = theirs.fileno()
    environment = {**os.environ, "_FUSE_COMMFD": str(number)}
    status = started_helper([helper, "-o", words, "--", plan.folder], [number], environment)
    theirs.close()
    if status != 0:
        # it has said why
        sys.exit(1)
    if not os.path.exists(MTAB):
        plan.say("%s is missing, and fusermount3 unmounts nothing without it: `ln -s ../proc/self/mounts %s` as root"
                 % (MTAB, MTAB))
    _, found, _, _ = ours.recvmsg(1, socket.CMSG_SPACE(INT_SIZE), socket.MSG_CMSG_CLOEXEC)
    ours.close()
    if not found:
        raise OSError(0, "fusermount3 has sent no open device", plan.folder)
    return int.from_bytes(found[0][2][:INT_SIZE], sys.byteorder)


def started_helper(words, passed=(), environment=None):
    """The status of fusermount3, which reads no standard input."""
    nothing = os.open(os.devnull, os.O_RDONLY | os.O_CLOEXEC)
    try:
        return start(words, [nothing], passed, environment=environment).wait()
    finally:
        os.close(nothing)


def take_away(folder):
    """Takes a mount away at once, even if it is in use."""
    status = libc.umount2(os.fsencode(folder), MNT_DETACH | UMOUNT_NOFOLLOW)
    if status != 0 and get_errno() in (errno.EPERM, errno.EACCES):
        helper = found_program("fusermount3")
        if helper:
            started_helper([helper, "-u", "-q", "-z", "--", folder])


def answers(folder):
    """Whether a folder answers: a mount does once its server has begun, and does not once that has
    ended."""
    try:
        os.statvfs(folder)
        return True
    except OSError:
        return False
