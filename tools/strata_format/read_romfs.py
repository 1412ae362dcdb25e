"""Reads romfs images, as Linux's Documentation/filesystems/romfs.rst describes them, with their attribute trailers.

Headers are named by their offsets. Nothing is believed: of a stranger's image what stands outside of it is not found.

    image = ReadImage(file.fileno())
    image.members(image.root)[b"etc"]    the header of /etc
    image.said(image.found((b"etc",)))   what the trailer's row says of it, or None
"""
import mmap
import os
import struct

from strata_format import romfs
from strata_format.refused import Refused
from strata_format.trailer import Rows

HEADER = struct.Struct(">4I")


class ReadImage:
    """The image in an open file; its bytes stay readable when that is closed. Refused where it is none."""

    def __init__(self, number):
        size = os.fstat(number).st_size
        self.data = mmap.mmap(number, 0, prot=mmap.PROT_READ) if size >= 16 else b""
        self.full = struct.unpack_from(">I", self.data, 8)[0] if self.data[:8] == romfs.MAGIC else 0
        # so many headers fit; in a sound image none stands in two folders
        self.opened, self.left = {}, self.full // 16
        name = self.name_at(16)
        if not 16 <= self.full <= size or name is None:
            raise Refused("not a romfs image")
        self.root = 16 + len(romfs.padded_name(name))
        if not self.is_folder(self.root):
            raise Refused("not a romfs image")
        self.rows = Rows(self.data, self.full)

    def name_at(self, at):
        end = self.data[at:at + romfs.NAME_MOST + 1].find(b"\0")
        return None if end < 0 or at + end >= self.full else self.data[at:at + end]

    def header(self, at):
        """The next header, the kind, and the two words behind them; None outside of the image."""
        if at % 16 or not self.root <= at <= self.full - 16:
            return None
        first, spec, size, _ = HEADER.unpack_from(self.data, at)
        return first & ~15, first & 7, spec, size

    def is_folder(self, at):
        found = self.header(at)
        return found is not None and found[1] == romfs.DIRECTORY

    def said(self, at):
        """What the trailer's row says of the node whose header stands there, or None."""
        return self.rows.said(at)

    def list_of(self, at):
        """The extended attributes of that node."""
        return self.rows.list_of(at)

    def members(self, folder):
        """The headers in a folder by their names, but for `.` and `..`."""
        if folder not in self.opened:
            self.opened[folder] = self.chain(folder)
        return self.opened[folder]

    def chain(self, folder):
        at, seen, found = self.header(folder)[2] & ~15, set(), {}
        if at == folder != self.root:
            return found
        while at not in seen:
            seen.add(at)
            header = self.header(at)
            if header is None:
                break
            self.left -= 1
            if self.left < 0:
                raise Refused("not a valid romfs image: a header is in many folders")
            name = self.name_at(at + 16)
            if at != self.root and name not in (None, b".", b".."):
                found.setdefault(name, at)
            at = header[0]
        return found

    def found(self, path):
        """The header at a path through folders, or None."""
        at = self.root
        for name in path:
            at = self.members(at).get(name) if self.is_folder(at) else None
            if at is None:
                return None
        return at

    def data_at(self, at, most):
        """The first bytes of the regular file whose header stands there, `most` of them at most; none
        where no such file stands there."""
        found = self.header(at) if at is not None else None
        if found is None or found[1] != romfs.REGULAR:
            return b""
        start = at + 16 + len(romfs.padded_name(self.name_at(at + 16) or b""))
        return self.data[start:min(start + min(found[3], most), self.full)]

    def pieces(self, at, most):
        """The data of the file, or the target of the link, whose header stands there, in pieces of
        `most` bytes at most."""
        start = at + 16 + len(romfs.padded_name(self.name_at(at + 16) or b""))
        end = min(start + self.header(at)[3], self.full)
        for here in range(start, end, most):
            yield self.data[here:min(here + most, end)]

    def is_executable(self, at):
        return self.data[at + 3] & romfs.EXECUTABLE != 0

    def end(self, at):
        """The header that a hard link leads to in the end, or None; any other header itself."""
        seen = set()
        while at not in seen:
            seen.add(at)
            found = self.header(at)
            if found is None or found[1] != romfs.HARD:
                return at if found is not None else None
            at = found[2] & ~15
        return None
