"""Requests by name, as `LOOKUP 1 big`, and their bytes."""
import struct

from checks.shared.text import Wrong
from strata_format.fuse_text import NODELESS, OPCODES

# bodies of fixed sizes of which nothing is looked at
ZEROS = {"GETATTR": 16, "RELEASE": 24, "RELEASEDIR": 24, "FLUSH": 24, "FSYNC": 16, "FSYNCDIR": 16, "INTERRUPT": 8}


def fields(words, **defaults):
    """Numbers by name, in any order."""
    found = dict(defaults)
    while words.more() and words.words[0] in defaults:
        name = words.next()
        found[name] = words.number()
    missing = [name for name, value in found.items() if value is None]
    if missing:
        raise Wrong("no %s" % missing[0])
    return found


def body_of(name, words):
    """The body of a request, after the number of its node; nothing where the line gives the body as bytes."""
    if words.more() and words.words[0] == "body":
        return b""
    if name == "INIT":
        major, _, minor = words.next().partition(".")
        given = fields(words, max_readahead=131072, flags=0x6001)
        return struct.pack("<4I", int(major), int(minor), given["max_readahead"], given["flags"])
    if name == "LOOKUP":
        if words.begins_data():
            return words.data() + b"\0"
        return words.name() + b"\0"
    if name in ("GETXATTR", "LISTXATTR"):
        body = struct.pack("<2I", fields(words, size=None)["size"], 0)
        return body + words.name() + b"\0" if name == "GETXATTR" else body
    if name in ("OPEN", "OPENDIR"):
        return struct.pack("<2I", fields(words, flags=0)["flags"], 0)
    if name in ("READ", "READDIR", "READDIRPLUS"):
        given = fields(words, offset=None, size=None)
        return struct.pack("<2Q2IQ2I", 0, given["offset"], given["size"], 0, 0, 0, 0)
    if name == "FORGET":
        return struct.pack("<Q", fields(words, nlookup=None)["nlookup"])
    if name == "BATCH_FORGET":
        body = struct.pack("<2I", fields(words, count=None)["count"], 0)
        while words.take("item"):
            body += struct.pack("<2Q", words.number(), words.number())
        return body
    return bytes(ZEROS.get(name, 0))


def message_of(words, unique):
    """The bytes of a request, and its unique."""
    name = words.next()
    if name == "bytes":
        data = words.data()
        return data, None
    if name == "opcode":
        opcode, node, body = words.number(), 0, b""
        if words.more() and words.words[0].isdigit():
            node = words.number()
    elif name in OPCODES:
        opcode = OPCODES[name]
        node = 0 if name in NODELESS else words.number()
        body = body_of(name, words)
    else:
        raise Wrong("no request: %s" % name)
    if words.take("body"):
        body = words.data()
    if words.take("short"):
        body = body[:words.number()]
    if words.take("longer"):
        body += bytes(words.number())
    if words.take("unique"):
        unique = words.number()
    words.end()
    return struct.pack("<IIQQ4I", 40 + len(body), opcode, unique, node, 0, 0, 0, 0) + body, unique


def stream_of(lines):
    """The bytes of requests, a line each. Uniques count from 1; `5000 times` before a request repeats it."""
    parts, unique = [], 0
    for words in lines:
        times = 1
        if len(words.words) > 1 and words.words[1] == "times":
            times = words.number()
            words.expect("times")
        kept = list(words.words)
        for _ in range(times):
            words.words = list(kept)
            data, given = message_of(words, unique + 1)
            parts.append(data)
            unique = given if given is not None else unique
        words.end()
    return b"".join(parts)
