"""Maps of sparse files in archives of tar: which bytes of a file follow one another there. All else
of the file is zeros.

GNU tar's own form has them in headers of the type `S`; its three forms within POSIX's (its manual,
"Storing Sparse Files") in extended headers, 0.0 as a pair of records for each part of the data and
0.1 in one record, or, 1.0, as lines of numbers before the data.
"""
import array

from strata_format.image_part import Hole
from strata_format.refused import BadEntry

FRONT = b"GNU.sparse."
OFFSET, NUMBYTES, MAP = FRONT + b"offset", FRONT + b"numbytes", FRONT + b"map"
NAME, MAJOR = FRONT + b"name", FRONT + b"major"
SIZE, REAL_SIZE = FRONT + b"size", FRONT + b"realsize"
# what is heeded of an extended header; and the numbers of its pairs, in order, under their front
KEYWORDS, PAIRS = (NAME, SIZE, REAL_SIZE, MAJOR, MAP), FRONT
# as many parts as the largest file of an image has blocks of 4,096 bytes with one between them
PARTS_MOST = 1 << 19
DIGITS_MOST = 19
BROKEN = "a sparse file with a broken map"
# places in a header of the type `S`, and in a block that follows it
FIRST_PAIRS, IS_MORE, REAL, REAL_END = 386, 482, 483, 495
PAIR, MORE_PAIRS, IS_STILL_MORE = 24, 21, 504


def whole_number(value):
    if not value.isdigit() or len(value) > DIGITS_MOST:
        raise BadEntry(BROKEN)
    return int(value)


class SparseMap:
    """The parts of a file that has `size` bytes: where each begins, and how many bytes it has."""

    def __init__(self, size):
        self.size, self.numbers = size, array.array("Q")

    def add(self, numbers):
        """Adds numbers, of which the first of each two is a place."""
        try:
            self.numbers.extend(numbers)
        except OverflowError:
            raise BadEntry(BROKEN) from None
        if len(self.numbers) > 2 * PARTS_MOST:
            raise BadEntry("a sparse file of more than %d parts" % PARTS_MOST)

    def parts(self):
        return zip(self.numbers[::2], self.numbers[1::2])

    def check(self, stored):
        """Refuses a map unless its parts rise, do not overlap, lie in the file, and have together
        the bytes that are stored."""
        if self.size < 0 or len(self.numbers) % 2:
            raise BadEntry(BROKEN)
        at = total = 0
        for start, size in self.parts():
            if start < at or start + size > self.size:
                raise BadEntry("a sparse file whose parts overlap or lie outside of it")
            at, total = start + size, total + size
        if total != stored:
            raise BadEntry("a sparse file with %d bytes of data, and its map says %d"
                           % (stored, total))

    def pieces(self, data):
        """The file's bytes: holes, and between them what `data(size)` has of so many bytes."""
        at = 0
        for start, size in self.parts():
            yield from hole(start - at)
            yield from data(size)
            at = start + size
        yield from hole(self.size - at)


def hole(size):
    if size:
        yield Hole(size)


def of_header(block, number, next_block):
    """The map of a header of the type `S`, which goes on in blocks behind it."""
    found = SparseMap(number(block[REAL:REAL_END]))
    pairs, is_more = block[FIRST_PAIRS:IS_MORE], block[IS_MORE]
    while True:
        ends = range(0, len(pairs), PAIR)
        # a pair of which nothing is said is the end
        said = [pairs[at:at + PAIR] for at in ends if pairs[at:at + PAIR].strip(b"\0 ")]
        found.add(number(half) for pair in said for half in (pair[:PAIR // 2], pair[PAIR // 2:]))
        if not is_more:
            return found
        block = next_block()
        pairs, is_more = block[:MORE_PAIRS * PAIR], block[IS_STILL_MORE]


def of_fields(fields, data_block):
    """The map that extended headers say, or that begins the data, of which `data_block` gives the
    next block."""
    if fields.get(MAJOR, b"0") != b"0":
        return of_lines(whole_number(fields.get(REAL_SIZE, b"")), data_block)
    found = SparseMap(whole_number(fields.get(SIZE, b"")))
    words = fields[MAP].split(b",") if MAP in fields else fields.get(PAIRS, [])
    found.add(map(whole_number, words))
    return found


def of_lines(size, data_block):
    """The map of the form 1.0: lines of how many parts there are, and of their numbers."""
    found, rest, left = SparseMap(size), b"", None
    while left is None or left > 0:
        *lines, rest = (rest + data_block()).split(b"\n")
        if left is None and lines:
            left = 2 * whole_number(lines.pop(0))
        if left is not None:
            found.add(map(whole_number, lines[:left]))
            left -= min(left, len(lines))
        if left != 0 and len(rest) > DIGITS_MOST:
            raise BadEntry(BROKEN)
    return found
