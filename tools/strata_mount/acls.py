"""Whether a mount enforces the ACLs of its images. That is up to the kernel, which offers it to strata as the mount begins."""
import errno
import os
import struct

from strata_format import image_files
from strata_format.refused import shown
from strata_mount.read_ahead import HEAD_SIZE, MAGIC, ROW, Trailer

LETTERS = b"-attr02-"
# letters, with the number of rows of a trailer, or the size of its second part
HEAD = struct.Struct(">8sI")
# what is read at once, and what two pieces share at least: more than the name of an ACL
PIECE, OVERLAP = 1 << 20, 64


def lists_in(number):
    """Where an open image's extended attributes stand, and where they end; twice the same if it has none."""
    place = Trailer(number).place or 0
    letters, rows = HEAD.unpack(os.pread(number, HEAD.size, place))
    if letters != MAGIC:
        return place, place
    at = place + HEAD_SIZE + ROW.size * rows
    letters, size = HEAD.unpack(os.pread(number, HEAD.size, at))
    return (at, at + size) if letters == LETTERS else (at, at)


def pieces_of(number, at, end):
    """What an open file has between two places, in pieces of which each begins with the end of the one before."""
    before = b""
    while at < end and (read := os.pread(number, min(PIECE, end - at), at)):
        piece = before + read
        yield piece
        before, at = piece[-OVERLAP:], at + len(read)


def has_acls(image):
    """Whether a file of an image has an ACL: right behind its name stands its value, which begins with its version."""
    try:
        file = image_files.opened(image)
        if file is None:
            return False
        with file:
            at, end = lists_in(file.fileno())
            if at == end:
                return False
            from strata_format.xattrs import ACCESS, DEFAULT, VERSION
            return any(name + VERSION in piece for piece in pieces_of(file.fileno(), at, end) for name in (ACCESS, DEFAULT))
    except (OSError, struct.error):
        return False  # strata says what is wrong with it


def with_acls(plan):
    """The images of a plan that have ACLs, unless it is meant that these don't count."""
    return [] if plan.modeless else list(filter(has_acls, plan.images))


def is_without(folder):
    """Whether a mount knows no ACLs. It is the kernel that answers if it enforces them, and else strata."""
    try:
        os.getxattr(folder, "system.posix_acl_access")
    except OSError as fault:
        return fault.errno == errno.EOPNOTSUPP
    return False


def tell(plan, images):
    """Says of a mount of images with ACLs that it enforces none."""
    more = " and %d more" % (len(images) - 1) if len(images) > 1 else ""
    plan.say("%s%s: ACLs are not enforced, modes alone decide: this kernel has none for FUSE, or upper images hide the files "
             "that have them; -o modeless says that this is meant" % (shown(os.fsencode(images[0])), more))
