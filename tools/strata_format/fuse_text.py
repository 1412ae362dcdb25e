"""Requests and replies of FUSE (linux/fuse.h) as lines of text, as `2 LOOKUP 1 etc` and `2 entry node 5 ino 160 ..`.

    text_of(message)            a request as a line, its unique in front
    reply_lines(name, reply)    a reply to a request of this name, as lines, the first with its unique in front
    stream_lines(requests, replies)    a stream of requests, each with its reply below it
"""
import errno
import struct

# enum fuse_opcode
OPCODES = {
    "LOOKUP": 1, "FORGET": 2, "GETATTR": 3, "SETATTR": 4, "READLINK": 5, "SYMLINK": 6, "MKNOD": 8, "MKDIR": 9,
    "UNLINK": 10, "RMDIR": 11, "RENAME": 12, "LINK": 13, "OPEN": 14, "READ": 15, "WRITE": 16, "STATFS": 17,
    "RELEASE": 18, "FSYNC": 20, "SETXATTR": 21, "GETXATTR": 22, "LISTXATTR": 23, "REMOVEXATTR": 24, "FLUSH": 25,
    "INIT": 26, "OPENDIR": 27, "READDIR": 28, "RELEASEDIR": 29, "FSYNCDIR": 30, "ACCESS": 34, "CREATE": 35,
    "INTERRUPT": 36, "DESTROY": 38, "BATCH_FORGET": 42, "FALLOCATE": 43, "READDIRPLUS": 44, "RENAME2": 45,
    "LSEEK": 46, "COPY_FILE_RANGE": 47,
}
NAMES = {number: name for name, number in OPCODES.items()}
NODELESS = ("INIT", "STATFS", "INTERRUPT", "DESTROY", "BATCH_FORGET")
# what a row of a directory says of a file's kind, as readdir(3) does
KINDS = {4: "directory", 8: "regular", 10: "symlink", 6: "block", 2: "character", 12: "socket", 1: "fifo"}
# the bytes of a reply of fixed size
SIZES = {"LOOKUP": 128, "GETATTR": 104, "OPEN": 16, "OPENDIR": 16, "STATFS": 80}
# a negative entry: the node 0, and for how many seconds it is valid
NEGATIVE = struct.pack("<4Q2I", 0, 0, 3600, 0, 0, 0) + bytes(88)
# data up to so many bytes are shown as text
TEXT_MOST = 64


def shown(data):
    """The text of bytes: all but visible characters of ASCII, and the quotation mark and the backslash, as a backslash and
    two digits."""
    return "".join(chr(b) if 0x21 <= b <= 0x7e and b not in b'\\"' else "\\%02x" % b for b in data)


# --- requests ---

def text_of(message):
    """A request as a line, with its unique in front."""
    _, opcode, unique, node = struct.unpack_from("<IIQQ", message)
    name, body = NAMES.get(opcode, "opcode %d" % opcode), message[40:]
    words = ["%d %s" % (unique, name)]
    if name not in NODELESS:
        words.append(str(node))
    if name == "INIT" and len(body) >= 16:
        words.append("%d.%d max_readahead %d flags 0x%x" % struct.unpack_from("<4I", body))
    elif name == "LOOKUP":
        words.append(shown(body.rstrip(b"\0")))
    elif name in ("OPEN", "OPENDIR") and len(body) >= 8:
        words.append("flags %d" % struct.unpack_from("<I", body))
    elif name in ("READ", "READDIR", "READDIRPLUS") and len(body) >= 40:
        words.append("offset %d size %d" % struct.unpack_from("<8xQI", body))
    elif name in ("GETXATTR", "LISTXATTR") and len(body) >= 8:
        words.append("size %d" % struct.unpack_from("<I", body))
        words += [shown(body[8:].rstrip(b"\0"))] * (name == "GETXATTR")
    elif name == "FORGET" and len(body) >= 8:
        words.append("nlookup %d" % struct.unpack_from("<Q", body))
    elif name == "BATCH_FORGET" and len(body) >= 8:
        words.append("count %d" % struct.unpack_from("<I", body))
        words += ["item %d %d" % struct.unpack_from("<2Q", body, at) for at in range(8, len(body) - 15, 16)]
    return " ".join(words)


# --- replies ---

def attr_text(data):
    """Attributes; a device's numbers, the owner and the last change are shown where they are not 0."""
    ino, size = struct.unpack_from("<2Q", data)
    seconds, nanoseconds = struct.unpack_from("<q", data, 32)[0], struct.unpack_from("<I", data, 52)[0]
    mode, nlink, user, group, rdev = struct.unpack_from("<5I", data, 60)
    text = "ino %d size %d mode %o nlink %d" % (ino, size, mode, nlink)
    text += " rdev %d" % rdev if rdev else ""
    text += " owner %d:%d" % (user, group) if user or group else ""
    return text + " time %d.%09d" % (seconds, nanoseconds) if seconds or nanoseconds else text


def row_lines(data, plus):
    lines = []
    while len(data) >= (152 if plus else 24):
        entry, data = (data[:128], data[128:]) if plus else (b"", data)
        ino, off, size, kind = struct.unpack_from("<2Q2I", data)
        line = "  %d ino %d %s %s" % (off, ino, KINDS.get(kind, kind), shown(data[24:24 + size]))
        if entry.strip(b"\0"):
            line += " entry node %d %s" % (struct.unpack_from("<Q", entry)[0], attr_text(entry[40:]))
        lines.append(line)
        data = data[24 + size + -size % 8:]
    return lines + ["  and %d bytes" % len(data)] * bool(data)


def init_text(data):
    if not any(data[8:]):
        return "INIT 7.31" if data[:8] == struct.pack("<2I", 7, 31) else "bytes of an INIT"
    major, minor, readahead, flags = struct.unpack_from("<4I", data)
    text = "INIT %d.%d max_readahead %d flags 0x%x" % (major, minor, readahead, flags)
    return text + (" of 24 bytes" if len(data) == 24 else " max_pages %d" % struct.unpack_from("<H", data, 28)[0])


def reply_lines(name, reply):
    """A reply to a request of this name, as lines."""
    _, code, unique = struct.unpack_from("<IiQ", reply)
    data = reply[16:]
    if code:
        return ["%d %s" % (unique, errno.errorcode.get(-code, "errno %d" % -code))]
    if SIZES.get(name, len(data)) != len(data) or name == "INIT" and len(data) not in (24, 64):
        return ["%d bytes hex %s" % (unique, reply.hex())]
    if name in ("READDIR", "READDIRPLUS") and data:
        plus = name == "READDIRPLUS"
        return ["%d rows%s" % (unique, "_plus" * plus)] + row_lines(data, plus)
    return ["%d %s" % (unique, data_text(name, data))]


def data_text(name, data):
    """What a reply to a request of this name, but for rows, says behind its unique."""
    if name == "INIT":
        return init_text(data)
    if name == "LOOKUP" and data == NEGATIVE:
        return "negative entry"
    if name == "LOOKUP":
        return "entry node %d %s" % (struct.unpack_from("<Q", data)[0], attr_text(data[40:]))
    if name == "GETATTR":
        return "attributes %s" % attr_text(data[16:])
    if name in ("OPEN", "OPENDIR"):
        return "open_flags %d" % struct.unpack_from("<I", data, 8)[0]
    if name == "STATFS":
        blocks, _, _, files = struct.unpack_from("<4Q", data)
        return "statfs blocks %d files %d" % (blocks, files)
    if not data:
        return "empty"
    return 'data "%s"' % shown(data) if len(data) <= TEXT_MOST else "data of %d bytes: hex %s" % (len(data), data.hex())


# --- streams ---

def messages_of(stream):
    """The messages of a stream that came whole."""
    at = 0
    while len(stream) - at >= 40:
        length = struct.unpack_from("<I", stream, at)[0]
        if not 40 <= length <= len(stream) - at:
            return
        yield stream[at:at + length]
        at += length


def stream_lines(requests, replies):
    """Each request of a stream as a line, with the lines of its reply below it, of a stream of replies in the same order."""
    for message in messages_of(requests):
        yield text_of(message)
        _, opcode = struct.unpack_from("<II", message)
        if replies[8:16] != message[8:16]:
            yield "    no reply"
            continue
        size = struct.unpack_from("<I", replies)[0]
        first, *others = reply_lines(NAMES.get(opcode), replies[:size])
        yield "    " + first.partition(" ")[2]
        yield from ("    " + line for line in others)
        replies = replies[size:]
