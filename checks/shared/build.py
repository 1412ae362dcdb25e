"""Lays out romfs images, their attribute trailers and FUSE requests, for the demo, the benchmarks, the cases and the fuzzing."""
import struct

from checks.plain.plain_images import padded

KINDS = {"hard": 0, "directory": 1, "regular": 2, "symlink": 3, "block": 4, "character": 5, "socket": 6, "fifo": 7}


def name_bytes(name):
    return name + bytes(padded(len(name) + 1) - len(name))


def header(next_, kind, executable, spec, size, name):
    first = next_ | KINDS[kind] | (8 if executable else 0)
    data = struct.pack(">4I", first, spec, size, 0) + name_bytes(name)
    total = sum(struct.unpack(">%dI" % (len(data) // 4), data))
    return data[:12] + struct.pack(">I", -total & 0xffffffff) + data[16:]


def seal(data):
    """The same bytes with the volume checksum set."""
    data = bytearray(data)
    data[12:16] = bytes(4)
    full = struct.unpack_from(">I", data, 8)[0]
    summed = bytes(data[:min(full, 512)])
    total = sum(struct.unpack(">%dI" % (len(summed) // 4), summed[:len(summed) // 4 * 4]))
    data[12:16] = struct.pack(">I", -total & 0xffffffff)
    return bytes(data)


def volume(name):
    return b"-rom1fs-" + bytes(8) + name_bytes(name)


def finished(parts):
    data = b"".join(parts)
    return seal(data[:8] + struct.pack(">I", len(data)) + data[12:])


def trailer(rows, count=None):
    """An attribute trailer whose sum is right. A row is an offset, mode, user, group, seconds, nanoseconds and 0."""
    begin = b"-attr01-" + struct.pack(">I", len(rows) if count is None else count)
    body = b"".join(struct.pack(">4Iq2I", *row) for row in rows)
    total = sum(struct.unpack(">%dI" % ((len(begin) + len(body)) // 4), begin + body))
    return begin + struct.pack(">I", -total & 0xffffffff) + body


def part(numbers, lists, changed=()):
    """The second part of a trailer, whose sum is right: the number of each row's list, and the lists, pairs of name and value
    each. Some of its words, by their place behind its head, may differ."""
    firsts, texts = [0], [text for items in lists for item in items for text in item]
    for items in lists:
        firsts.append(firsts[-1] + len(items))
    places = [4 * (2 + len(lists) + len(texts) + 1)]
    for text in texts:
        places.append(places[-1] + len(text))
    words = [*numbers, len(lists), *firsts, *places]
    for at, word in dict(changed).items():
        words[at] = word
    body = struct.pack(">%dI" % len(words), *words) + b"".join(texts)
    body += bytes(-len(body) % 4)
    begin = b"-attr02-" + struct.pack(">I", 16 + len(body))
    total = sum(struct.unpack(">%dI" % ((len(begin) + len(body)) // 4), begin + body))
    return begin + struct.pack(">I", -total & 0xffffffff) + body


def request(opcode, unique, node, body=b""):
    return struct.pack("<IIQQ4I", 40 + len(body), opcode, unique, node, 0, 0, 0, 0) + body


def init(unique, minor=39, readahead=131072, flags=0x73fffffb):
    """INIT as a kernel sends it: 104 bytes."""
    return request(26, unique, 0, struct.pack("<4I", 7, minor, readahead, flags) + bytes(48))


def lookup(unique, node, name):
    return request(1, unique, node, name + b"\0")


def getattr_(unique, node):
    return request(3, unique, node, bytes(16))
