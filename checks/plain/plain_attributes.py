"""A plain reading of the attribute trailer: where it stands, when it is broken, and what its rows say.

Written from the table of the format (strata-attributes(5)) alone, not from strata's code and not from tools/.
"""
import collections
import struct

from checks.plain import plain_xattrs

LETTERS = b"-attr01-"
Row = collections.namedtuple("Row", "mode uid gid seconds nanoseconds")


def place(data):
    """The first multiple of 16 at or behind the full size."""
    full = int.from_bytes(data[8:12], "big")
    return (full + 15) // 16 * 16


def trailer(data):
    """The bytes from the trailer's beginning on; None where the image has none."""
    at = place(data)
    return data[at:] if at < 2 ** 32 and data[at:at + 8] == LETTERS else None


def rows_of(found):
    """Each row's offset, what it says, and its last word."""
    for number in range(int.from_bytes(found[8:12], "big")):
        at, *said, last = struct.unpack_from(">4Iq2I", found, 16 + 32 * number)
        yield at, Row(*said), last


def is_broken(data):
    """Whether an image, whose full size is right, has a trailer that breaks the rule."""
    found = trailer(data)
    if found is None:
        return False
    size = 16 + 32 * int.from_bytes(found[8:12], "big")
    if len(found) < size:
        return True
    if sum(struct.unpack(">%dI" % (size // 4), found[:size])) % 2 ** 32 != 0:
        return True
    rows = list(rows_of(found))
    places = [at for at, _, _ in rows]
    if any(after <= before for before, after in zip(places, places[1:])):
        return True
    full = int.from_bytes(data[8:12], "big")
    if any(at % 16 != 0 or at >= full or row.mode > 0o7777 or row.nanoseconds >= 10 ** 9 or last != 0
           for at, row, last in rows):
        return True
    part = plain_xattrs.part(size, found)
    return part is not None and plain_xattrs.is_broken(part, [row.mode for _, row, _ in rows])


def rows(data):
    """What the rows of an image say, by offset, where its trailer keeps the rule."""
    found = trailer(data)
    return {} if found is None else {at: row for at, row, _ in rows_of(found)}


def extended(data):
    """The extended attributes that the rows of an image lead to, by offset, as pairs of name and value, in the same case."""
    places = list(rows(data))
    found = plain_xattrs.part(16 + 32 * len(places), trailer(data) or b"")
    return {} if found is None else {at: items for at, items in zip(places, plain_xattrs.lists(found, len(places))) if items}
