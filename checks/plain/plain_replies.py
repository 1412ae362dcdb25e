"""A plain reading of the protocol: FUSE messages, the replies to them over a stack, and the lookups that they move.

Written from the public text (linux/fuse.h, 7.31) and docs/DEFINITIONS.md, not from strata's code.
"""
import struct

from checks.plain.plain_images import DIRECTORY, REGULAR, SYMLINK

ERRNOS = {"ENOENT": 2, "EIO": 5, "ENOTDIR": 20, "EISDIR": 21, "EINVAL": 22, "EROFS": 30, "ERANGE": 34, "ENAMETOOLONG": 36,
          "ENOSYS": 38, "ENODATA": 61, "EPROTO": 71, "EOPNOTSUPP": 95, "ESTALE": 116}
(LOOKUP, FORGET, GETATTR, READLINK, OPEN, READ, STATFS, RELEASE, FSYNC, GETXATTR, LISTXATTR, FLUSH, INIT, OPENDIR, READDIR,
 RELEASEDIR, FSYNCDIR, INTERRUPT, DESTROY, BATCH_FORGET, READDIRPLUS) = (
     1, 2, 3, 5, 14, 15, 17, 18, 20, 22, 23, 25, 26, 27, 28, 29, 30, 36, 38, 42, 44)
SILENT = (FORGET, BATCH_FORGET, INTERRUPT)
# SETATTR, SYMLINK, MKNOD, MKDIR, UNLINK, RMDIR, RENAME, LINK, WRITE, SETXATTR, REMOVEXATTR, CREATE, FALLOCATE, RENAME2,
# COPY_FILE_RANGE
MODIFYING = (4, 6, 8, 9, 10, 11, 12, 13, 16, 21, 24, 35, 43, 45, 47)
ACKNOWLEDGED = (RELEASE, RELEASEDIR, FLUSH, FSYNC, FSYNCDIR)
XATTRS = (GETXATTR, LISTXATTR)
AT_NODE = (LOOKUP, GETATTR, READLINK, OPEN, READ, OPENDIR, READDIR, READDIRPLUS, *XATTRS)
SERVED = (INIT, STATFS, DESTROY, *ACKNOWLEDGED, *AT_NODE)
# the least length of a body
BODIES = {INIT: 16, GETATTR: 16, OPEN: 8, OPENDIR: 8, READ: 40, READDIR: 40, READDIRPLUS: 40, GETXATTR: 8, LISTXATTR: 8}
VALID = 3600
MOST = 1048576
EXPORT_SUPPORT, NO_OPEN_SUPPORT, POSIX_ACL, MAX_PAGES, CACHE_SYMLINKS, NO_OPENDIR_SUPPORT = (
    1 << 4, 1 << 17, 1 << 20, 1 << 22, 1 << 23, 1 << 24)
# ASYNC_READ, EXPORT_SUPPORT, DO_READDIRPLUS, READDIRPLUS_AUTO, PARALLEL_DIROPS, MAX_PAGES
FLAGS = 1 << 0 | EXPORT_SUPPORT | 1 << 13 | 1 << 14 | 1 << 18 | MAX_PAGES
# and what tells a client that nothing changes
LASTING_FLAGS = FLAGS | NO_OPEN_SUPPORT | CACHE_SYMLINKS | NO_OPENDIR_SUPPORT
KEEP_CACHE, CACHE_DIR = 1 << 1, 1 << 3
ACL_NAMES = b"system.posix_acl_access", b"system.posix_acl_default"


# --- messages ---

def bad_length(stream, at):
    """The length that the message at this place says, where no message has it; else None."""
    if len(stream) - at < 4:
        return None
    length = struct.unpack_from("<I", stream, at)[0]
    return None if 40 <= length <= 1052672 else length


def split(stream):
    """The messages of a stream, and its rest."""
    messages, at = [], 0
    while len(stream) - at >= 4 and bad_length(stream, at) is None:
        length = struct.unpack_from("<I", stream, at)[0]
        if length > len(stream) - at:
            break
        messages.append(stream[at:at + length])
        at += length
    return messages, stream[at:]


# --- structures of linux/fuse.h ---

def error(unique, number):
    return struct.pack("<IiQ", 16, -number, unique)


def with_data(unique, data):
    return struct.pack("<IiQ", 16 + len(data), 0, unique) + data


def attr(ino, size, attributes, nlink, rdev=0):
    """struct fuse_attr: all three times are the same, flags are 0, blocks are of 512 bytes."""
    mode, user, group, seconds, nanoseconds = attributes
    return struct.pack("<3Q3q10I", ino, size, (size + 511) // 512, *[seconds] * 3, *[nanoseconds] * 3, mode, nlink, user, group,
                       rdev, 4096, 0)


def attr_out(attributes):
    return struct.pack("<Q2I", VALID, 0, 0) + attributes


def entry_out(node, attributes):
    return struct.pack("<4Q2I", node, 0, VALID, VALID, 0, 0) + attributes


def no_entry_out():
    """A negative entry: the node 0, and how long it is valid, and nothing else."""
    return struct.pack("<4Q2I", 0, 0, VALID, 0, 0, 0) + bytes(88)


def open_out(flags):
    return struct.pack("<Q2I", 0, flags, 0)


def getxattr_out(size):
    return struct.pack("<2I", size, 0)


def statfs_out(blocks, files):
    return struct.pack("<5Q4I24x", blocks, 0, 0, files, 0, 512, 255, 512, 0)


def dirent(ino, off, kind, name):
    return struct.pack("<2Q2I", ino, off, len(name), kind) + name + bytes(-len(name) % 8)


def init_out(readahead, flags, pages):
    return struct.pack("<4I2H2I2H", 7, 31, readahead, flags, 12, 9, 131072, 1, pages, 0) + bytes(32)


def version_out():
    """What a client of a later major version gets."""
    return struct.pack("<2I", 7, 31) + bytes(56)


# --- replies ---

class Refused(Exception):
    """A request is answered with an error."""


def refuse_if(condition, name):
    if condition:
        raise Refused(ERRNOS[name])


def ended_name(body):
    """The name at the end of a body: its last byte is its only zero byte, and something stands before it."""
    refuse_if(len(body) < 2 or body.find(b"\0") != len(body) - 1, "EINVAL")
    return body[:-1]


class Session:
    """A session over a stack, lasting or not: whether it has begun, the flags that its client said, and the balance of each
    node's lookups."""

    def __init__(self, stack, is_lasting=False):
        self.stack, self.is_lasting = stack, is_lasting
        self.ready, self.said = False, 0
        self.balances = [0] * (len(stack.places) - 1)
        self.lists = {}  # the rows that were read once, by what was asked for
        names = stack.every_xattr()
        self.has_xattrs, self.has_acls = bool(names), bool(names & set(ACL_NAMES))

    def may_last(self, flag):
        """Whether a lasting session's client said this flag."""
        return self.is_lasting and self.said & flag != 0

    def reply(self, message):
        """The reply to a message, which may be nothing."""
        _, opcode, unique, node = struct.unpack_from("<IIQQ", message)
        body = message[40:]
        if opcode in SILENT:
            self.forget(opcode, node, body)
            return b""
        try:
            refuse_if(not self.ready and opcode != INIT or self.ready and opcode == INIT, "EIO")
            refuse_if(opcode in MODIFYING, "EROFS")
            refuse_if(opcode not in SERVED or opcode in XATTRS and not self.has_xattrs, "ENOSYS")
            return with_data(unique, self.data(opcode, node, body))
        except Refused as refused:
            return error(unique, refused.args[0])

    def move(self, node, amount):
        if self.stack.has(node):
            self.balances[node - 1] += amount

    def forget(self, opcode, node, body):
        if not self.ready or opcode == INTERRUPT or len(body) < 8:
            return
        if opcode == FORGET:
            self.move(node, -struct.unpack_from("<Q", body)[0])
            return
        count = struct.unpack_from("<I", body)[0]
        for at in range(8, len(body) - 15, 16)[:count]:
            forgotten, nlookup = struct.unpack_from("<2Q", body, at)
            self.move(forgotten, -nlookup)

    def data(self, opcode, node, body):
        """What stands behind the header of a reply without an error."""
        name = ended_name(body) if opcode == LOOKUP else None
        refuse_if(len(body) < BODIES.get(opcode, 0), "EINVAL")
        if opcode == GETXATTR:
            name = ended_name(body[8:])
        if opcode == INIT:
            return self.begin(*struct.unpack_from("<4I", body))
        if opcode == DESTROY:
            self.ready = False
            return b""
        refuse_if(self.is_lasting and opcode == FLUSH, "ENOSYS")
        if opcode in ACKNOWLEDGED:
            return b""
        if opcode == STATFS:
            return statfs_out(self.stack.blocks(), len(self.balances))
        refuse_if(not self.stack.has(node), "ESTALE")
        if opcode == LOOKUP:
            return self.look_up(node, name)
        if opcode == GETATTR:
            return attr_out(self.attr(node))
        if opcode in XATTRS:
            return self.xattr_data(node, struct.unpack_from("<I", body)[0], name)
        kind = self.stack.kind(node)
        if opcode == READLINK:
            refuse_if(kind != SYMLINK, "EINVAL")
            return self.stack.body(node)
        if opcode in (OPEN, READ):
            refuse_if(kind == DIRECTORY, "EISDIR")
            refuse_if(kind != REGULAR, "EINVAL")
        else:
            refuse_if(kind != DIRECTORY, "ENOTDIR")
        if opcode == OPEN:
            refuse_if(struct.unpack_from("<I", body)[0] & 3 != 0, "EROFS")
            refuse_if(self.may_last(NO_OPEN_SUPPORT), "ENOSYS")
            return open_out(KEEP_CACHE)
        if opcode == OPENDIR:
            refuse_if(self.may_last(NO_OPENDIR_SUPPORT), "ENOSYS")
            return open_out(KEEP_CACHE | CACHE_DIR if self.is_lasting else 0)
        offset, size = struct.unpack_from("<8xQI", body)
        refuse_if(size > MOST, "EINVAL")
        if opcode == READ:
            return self.stack.body(node)[offset:offset + size]
        return self.read_rows(node, offset, size, opcode == READDIRPLUS)

    def begin(self, major, minor, readahead, flags):
        if major > 7:
            return version_out()
        refuse_if(major < 7 or minor < 12, "EPROTO")
        self.ready, self.said = True, flags
        known, pages = (LASTING_FLAGS, 256) if self.is_lasting else (FLAGS, 32)
        known |= POSIX_ACL if self.has_acls else 0
        out = init_out(min(readahead, MOST), flags & known, pages if flags & MAX_PAGES else 0)
        return out if minor >= 23 else out[:24]

    def attr(self, node):
        stack = self.stack
        return attr(node, stack.size(node), stack.attributes(node), stack.nlink(node), stack.rdev(node))

    def xattr_data(self, node, size, name):
        """The value of the attribute with a name, or all names if there is none; with the size 0 how many bytes they are."""
        enforced = self.has_acls and self.said & POSIX_ACL != 0
        items = [item for item in self.stack.xattrs(node) if enforced or item[0] not in ACL_NAMES]
        if name is None:
            data = b"".join(each + b"\0" for each, _ in items)
        else:
            refuse_if(name in ACL_NAMES and not enforced, "EOPNOTSUPP")
            data = dict(items).get(name)
            refuse_if(data is None, "ENODATA")
        if size == 0:
            return getxattr_out(len(data))
        refuse_if(len(data) > size, "ERANGE")
        return data

    def look_up(self, node, name):
        found = self.found(node, name)
        if found is None and self.is_lasting:
            return no_entry_out()
        refuse_if(found is None, "ENOENT")
        self.move(found, 1)
        return entry_out(found, self.attr(found))

    def found(self, node, name):
        """The number that a name leads to; None where there is none."""
        exports = self.said & EXPORT_SUPPORT != 0
        if exports and name == b".":
            return node
        refuse_if(self.stack.kind(node) != DIRECTORY, "ENOTDIR")
        if exports and name == b"..":
            return self.stack.parent(node)
        refuse_if(len(name) > 255, "ENAMETOOLONG")
        return dict(self.stack.children(node)).get(name)

    def read_rows(self, node, offset, size, plus):
        """The rows after the first `offset` ones, as many as fit whole; each child among those of READDIRPLUS is looked up."""
        asked = node, offset, size, plus
        if asked not in self.lists:
            self.lists[asked] = self.rows_that_fit(*asked)
        data, children = self.lists[asked]
        for number in children if plus else ():
            self.move(number, 1)
        return data

    def rows_that_fit(self, node, offset, size, plus):
        """These rows, and the children among them."""
        rows = [(b".", node), (b"..", self.stack.parent(node)), *self.stack.children(node)]
        parts, length, found = [], 0, []
        for off, (name, number) in enumerate(rows[offset:], offset + 1):
            is_child = off > 2
            row = dirent(number, off, self.stack.mode(number) >> 12, name)
            if plus:
                row = (entry_out(number, self.attr(number)) if is_child else bytes(128)) + row
            if length + len(row) > size:
                refuse_if(not parts, "EINVAL")
                break
            parts.append(row)
            length += len(row)
            found += [number] * is_child
        return b"".join(parts), found
