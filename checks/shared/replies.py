"""Replies as lines, as `2 entry node 2 ino 2 size 43 mode 100755 nlink 1`: their bytes, and the lines of bytes.

A line begins with the request's unique. Valid times and generation are those that strata gives. Behind the number of names may
stand `rdev 259`, `owner 1000:100` and `time -2.750000000`, each of which is 0 where it isn't said.
"""
import struct

from checks.plain import plain_replies as plain
from checks.shared.text import Wrong
from strata_format.fuse_text import KINDS, NAMES, reply_lines

TYPES = {name: number for number, name in KINDS.items()}


def attr_of(words):
    ino, size, mode = words.number_of("ino"), words.number_of("size"), words.number_of("mode", 8)
    nlink = words.number_of("nlink")
    rdev = words.number() if words.take("rdev") else 0
    user, _, group = (words.next() if words.take("owner") else "0:0").partition(":")
    seconds, _, nanoseconds = (words.next() if words.take("time") else "0.0").partition(".")
    try:
        return plain.attr(ino, size, (mode, int(user), int(group), int(seconds), int(nanoseconds)), nlink, rdev)
    except (ValueError, struct.error):
        raise Wrong("no good owner or time") from None


def entry_of(words):
    return plain.entry_out(words.number_of("node"), attr_of(words))


def init_of(words):
    words.expect("7.31")
    if not words.more():
        return plain.version_out()
    readahead, flags = words.number_of("max_readahead"), words.number_of("flags")
    if words.take("of"):
        words.expect("24")
        words.expect("bytes")
        return plain.init_out(readahead, flags, 0)[:24]
    return plain.init_out(readahead, flags, words.number_of("max_pages"))


def row_of(words, plus):
    """A row of READDIR, as `3 ino 2 regular big`, or of READDIRPLUS, which has the entry behind the name."""
    off, ino = words.number(), words.number_of("ino")
    kind = words.next()
    if kind not in TYPES:
        raise Wrong("no kind: %s" % kind)
    name = words.name()
    row = plain.dirent(ino, off, TYPES[kind], name)
    if not plus:
        return row
    return (entry_of(words) if words.take("entry") else bytes(128)) + row


def reply_of(unique, words, rows):
    """The bytes of a reply; rows are the lines below it."""
    kind = words.next()
    if kind in plain.ERRNOS:
        return plain.error(unique, plain.ERRNOS[kind])
    if kind == "INIT":
        return plain.with_data(unique, init_of(words))
    if kind == "entry":
        return plain.with_data(unique, entry_of(words))
    if kind == "negative":
        words.expect("entry")
        return plain.with_data(unique, plain.no_entry_out())
    if kind == "attributes":
        return plain.with_data(unique, plain.attr_out(attr_of(words)))
    if kind == "open_flags":
        return plain.with_data(unique, plain.open_out(words.number()))
    if kind == "statfs":
        return plain.with_data(unique, plain.statfs_out(words.number_of("blocks"), words.number_of("files")))
    if kind == "size":
        return plain.with_data(unique, plain.getxattr_out(words.number()))
    if kind == "names":
        data = b""
        while words.more():
            data += words.name() + b"\0"
        return plain.with_data(unique, data)
    if kind == "empty":
        return plain.with_data(unique, b"")
    if kind == "data":
        return plain.with_data(unique, words.data())
    if kind in ("rows", "rows_plus"):
        data = b""
        while rows:
            row = rows.pop(0)
            data += row_of(row, kind == "rows_plus")
            row.end()
        return plain.with_data(unique, data)
    if kind == "bytes":
        data = words.data()
        if len(data) < 16 or struct.unpack_from("<Q", data, 8)[0] != unique:
            raise Wrong("bytes of a reply with another unique")
        return data
    raise Wrong("no reply: %s" % kind)


def replies_of(lines):
    """The bytes of reply lines, each with the lines below it. `2 to 5001` stands for as many replies of one form."""
    parts = []
    for words, rows in lines:
        first = words.number()
        last = words.number() if words.take("to") else first
        kept = list(words.words)
        for unique in range(first, last + 1):
            words.words = list(kept)
            parts.append(reply_of(unique, words, rows))
            words.end()
            if rows:
                raise Wrong("lines below a reply without rows")
    return b"".join(parts)


def single(data):
    """The single replies of some bytes."""
    parts, at = [], 0
    while at < len(data):
        size = struct.unpack_from("<I", data, at)[0]
        parts.append(data[at:at + size])
        at += size
    return parts


def lines_of(requests, replies):
    """The replies to a stream of requests, as lines."""
    names = {}
    for message in plain.split(requests)[0]:
        _, opcode, unique = struct.unpack_from("<IIQ", message)
        names.setdefault(unique, []).append(NAMES.get(opcode, str(opcode)))
    lines = []
    while len(replies) >= 16:
        size, _, unique = struct.unpack_from("<IiQ", replies)
        if not 16 <= size <= len(replies):
            break
        asked = names.get(unique) or ["?"]
        lines += reply_lines(asked.pop(0), replies[:size])
        replies = replies[size:]
    return lines + ["and %d bytes: %s" % (len(replies), replies[:64].hex())] * bool(replies)
