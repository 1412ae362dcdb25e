"""Entries of archives and folders: what a name stands for, and all that is said of it.

Each kind has the letter that an archive of tar has for it; archives have none for sockets.
"""
from strata_format import trailer

FILES, HARD, SYMBOLIC = (b"0", b"\0", b"7"), b"1", b"2"
CHARACTER, BLOCK_DEVICE, DIRECTORY, FIFO, SOCKET = b"3", b"4", b"5", b"6", b"socket"
# the whiteouts of layers: an entry with such a name hides what is below
MARKER, OPAQUE = b".wh.", b".wh..wh..opq"
# an owner that no number of 32 bits says, as Linux shows one
NOBODY = 65534
TIME_LEAST, TIME_MOST = -2 ** 63, 2 ** 63 - 1


class Entry:
    """An entry: its name and link as they stand there, when it was last changed, in seconds since
    1970 and nanoseconds, its extended attributes by their names, and its data: pieces, or a source
    that is read later. What is wrong with it alone is a BadEntry."""

    __slots__ = ("kind", "name", "link", "mode", "uid", "gid", "size", "major", "minor", "time",
                 "attributes", "data", "wrong")

    def __init__(self, kind, name, link=b""):
        self.kind, self.name, self.link = kind, name, link
        self.mode = self.uid = self.gid = self.size = self.major = self.minor = 0
        self.time, self.attributes, self.data, self.wrong = (0, 0), {}, iter(()), None


def is_owner(number):
    return 0 <= number <= trailer.OWNER_MOST


def said_by(entry):
    """What the row of an entry's node says. Linux knows one mode of symbolic links."""
    mode = 0o777 if entry.kind == SYMBOLIC else entry.mode
    owners = [it if is_owner(it) else NOBODY for it in (entry.uid, entry.gid)]
    seconds, nanoseconds = entry.time
    return trailer.said(mode, *owners, min(max(seconds, TIME_LEAST), TIME_MOST), nanoseconds)
