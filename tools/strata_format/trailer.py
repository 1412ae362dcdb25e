"""The attribute trailer of a romfs image, as strata-attributes(5) describes it: mode, owner and time of its nodes.

It stands behind the image's full size, where no reader of romfs looks. What a row says is 28 bytes here, all of it but
the offset of the header that it is about.
"""
import os
import struct

from strata_format.files import write_at
from strata_format.xattrs import Part, part_of, words_sum
from strata_format.xattrs import is_good as are_good

MAGIC = b"-attr01-"
HEAD_SIZE, ROW_SIZE = 16, 32
SAID = struct.Struct(">3Iq2I")
PLACE = struct.Struct(">I")
MODE_MOST, OWNER_MOST, SECOND = 0o7777, 2 ** 32 - 1, 10 ** 9
# strata reads a trailer of an image in its file that ends below 2^32; all that stands there are multiples of 16
END_MOST = 2 ** 32 - 16
# a block device gives whole blocks only
BLOCK_SIZE = 1024


def said(mode, uid, gid, seconds, nanoseconds):
    """What a row says of a node: the low twelve bits of its mode, its owner, and when it was last changed."""
    return SAID.pack(mode, uid, gid, seconds, nanoseconds, 0)


def is_good(row):
    """Whether a row keeps the rule, but for its offset."""
    mode, _, _, _, nanoseconds, zero = SAID.unpack(row)
    return mode <= MODE_MOST and nanoseconds < SECOND and zero == 0


def place_of(full):
    """Where the trailer of an image of this full size begins."""
    return full + -full % 16


def end_of(full, count):
    """Where the trailer of an image of this full size ends, if it has so many rows."""
    return place_of(full) + HEAD_SIZE + ROW_SIZE * count


def trailer_of(rows, lists):
    """The trailer whose rows say this, by the offsets of headers, and whose files have these extended attributes."""
    body = b"".join([PLACE.pack(at) + row for at, row in sorted(rows.items())])
    begin = MAGIC + PLACE.pack(len(rows))
    part = part_of([lists.get(at, ()) for at in sorted(rows)])
    return begin + PLACE.pack(-words_sum(begin + body) & 0xffffffff) + body + part


def write_trailer(number, full, rows, lists=()):
    """Writes the trailer of an image of this full size, instead of what followed that. Its letters come last, so that
    one that is written by half is none. The lists of extended attributes are by offset too; each of them has a row."""
    data, place = memoryview(trailer_of(rows, dict(lists))), place_of(full)
    end = place + len(data)
    os.ftruncate(number, place)
    os.ftruncate(number, end + -end % BLOCK_SIZE)
    write_at(number, data[len(MAGIC):], place + len(MAGIC))
    write_at(number, data[:len(MAGIC)], place)


class Rows:
    """The rows of an image, of all whose bytes and of whose full size these are. There are none where it has no trailer, or
    one that is cut off."""

    def __init__(self, data, full):
        self.data, self.at, self.count = data, place_of(full) + HEAD_SIZE, 0
        if data[self.at - HEAD_SIZE:self.at - HEAD_SIZE + len(MAGIC)] == MAGIC and self.at <= len(data):
            count, = PLACE.unpack_from(data, self.at - 8)
            self.count = count * (self.at + ROW_SIZE * count <= len(data))

    def row(self, number):
        at = self.at + ROW_SIZE * number
        return PLACE.unpack_from(self.data, at)[0], self.data[at + 4:at + ROW_SIZE]

    def find(self, header):
        """The number of the row of the node whose header stands there, or None."""
        low, high = 0, self.count
        while low < high:
            middle = (low + high) // 2
            place = self.row(middle)[0]
            if place == header:
                return middle
            low, high = (middle + 1, high) if place < header else (low, middle)
        return None

    def said(self, header):
        """What a good row says of the node whose header stands there, or None."""
        number = self.find(header)
        row = self.row(number)[1] if number is not None else None
        return row if row is not None and is_good(row) else None

    def list_of(self, header):
        """The extended attributes of the node whose header stands there; none where they break the rules."""
        row = self.said(header)
        try:
            items = self.part().of_row(self.find(header)) if row is not None else ()
        except struct.error:
            return ()
        return items if items and are_good(items, SAID.unpack(row)[0]) else ()

    def part(self):
        return Part(self.data, self.at + ROW_SIZE * self.count, self.count)

    def every(self):
        """What all rows say, by the offsets of headers."""
        return dict(self.row(number) for number in range(self.count))

    def lists(self):
        """The extended attributes of a good trailer, by the offsets of headers."""
        part = self.part()
        found = ((self.row(number)[0], part.of_row(number)) for number in range(self.count))
        return {at: items for at, items in found if items}
