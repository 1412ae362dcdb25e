"""Reads tar archives as a stream: POSIX pax and ustar, GNU tar and the older forms, as OCI layers may use them.

Python's tarfile would end an archive without a word where a header is broken, and takes any length that an extended
header says; here the first is refused and the second bounded.

    for entry in Tar(source).entries():     source.read(n) gives at most n bytes, and none at the end
        for piece in entry.data: ..         what is left of the data is passed over when the next entry is asked for
"""
import re
import struct

from strata_format import trailer
from strata_format.refused import BadEntry, Refused, shown
from strata_layers import attributes, sparse_maps
from strata_layers.entries import (BLOCK_DEVICE, CHARACTER, DIRECTORY, FIFO, FILES, HARD, SYMBOLIC,
                                   Entry)

BLOCK = 512
PIECE = 1 << 20
# so long may an extended header or a long name be
SPECIAL_MOST = 1 << 20
# so many bytes may the holes of files have together that images hold, as what is unpacked may have
HOLES_MOST = 1 << 34
SPARSE = b"S"
# what says in an extended header that a file is sparse
SPARSE_WORDS = {*sparse_maps.KEYWORDS, sparse_maps.PAIRS}
# entries behind whose header no data stand, whatever size it says
BARE = (HARD, SYMBOLIC, CHARACTER, BLOCK_DEVICE, DIRECTORY, FIFO)
PAX, PAX_GLOBAL, LONG_NAME, LONG_LINK = (b"x", b"X"), b"g", b"L", b"K"
# extended attributes by their names stand under this, which no keyword is
ATTRIBUTES = b""
# what is heeded of all else that an extended header says
KEYWORDS = (b"path", b"linkpath", b"size", b"uid", b"gid", b"mtime")
# the numbers of most headers
NUMBERS = {b"%07o\0" % value: value for value in (0, 0o400, 0o444, 0o555, 0o600, 0o644, 0o700, 0o755, 0o777, 1000)}
DECIMAL = re.compile(rb"(-?)([0-9]{1,18})(?:\.([0-9]*))?")
SECOND = 10 ** 9


def text(field):
    """A field up to its first zero byte."""
    return field.split(b"\0", 1)[0]


def number(field, what):
    """A number of a header: octal digits, or, where the first bit says so, two's complement of the bits behind it."""
    if field in NUMBERS:
        return NUMBERS[field]
    if field[0] & 0x80:
        value = int.from_bytes(field, "big")
        return value - (1 << 8 * len(field)) if field[0] & 0x40 else value - (0x80 << 8 * len(field) - 8)
    digits = field.rstrip(b"\0 ")
    if not digits.isdigit():
        digits = text(field).strip(b" ") or b"0"
    try:
        if digits.isdigit():
            return int(digits, 8)
    except ValueError:
        pass
    raise Refused("the archive is broken: %s '%s'" % (what, shown(digits)))


def parts_of(value, what):
    """A number of an extended header: its sign, its digits, and those of a fraction."""
    found = DECIMAL.fullmatch(value)
    if not found:
        raise Refused("the archive is broken: %s '%s'" % (what, shown(value)))
    return found[1], found[2], found[3] or b""


def decimal(value, what):
    """A whole number of an extended header; a fraction is cut off."""
    sign, digits, _ = parts_of(value, what)
    return int(sign + digits)


def time_of(value):
    """A time of an extended header in whole seconds and nanoseconds; digits behind the ninth are cut off."""
    sign, digits, fraction = parts_of(value, "time")
    count = int(digits) * SECOND + int(fraction[:9].ljust(9, b"0"))
    return divmod(-count if sign else count, SECOND)


def is_sum_right(block):
    """Whether the checksum is that of the bytes, or that of bytes with a sign, as some old programs wrote it."""
    said = number(block[148:156], "checksum")
    if said == sum(block) - sum(block[148:156]) + 8 * 0x20:
        return True
    rest = block[:148] + b" " * 8 + block[156:]
    return said == sum(struct.unpack("512b", rest))


def full_name(block):
    """The name in a header, and the prefix of POSIX before it; star's is shorter, and GNU tar and older ones have none."""
    name = text(block[:100])
    if block[257:263] != b"ustar\0":
        return name
    prefix = text(block[345:345 + (131 if block[508:512] == b"tar\0" else 155)])
    return prefix + b"/" + name if prefix else name


def pax_records(data):
    """The records of an extended header, `<length> <keyword>=<value>` and a new line each."""
    at = 0
    while at < len(data):
        space = data.find(b" ", at, at + 20)
        length = data[at:space] if space > 0 else b""
        end = at + int(length) if length.isdigit() else 0
        keyword, equals, value = data[space + 1:max(end - 1, 0)].partition(b"=")
        if not space < end <= len(data) or data[end - 1:end] != b"\n" or not equals or not keyword:
            raise Refused("the archive is broken: an extended header")
        yield keyword, value
        at = end


def add_attribute(found, name, value):
    """Adds an extended attribute to others. The last record counts, and an empty one takes it back."""
    if value:
        found[name] = value
    else:
        found.pop(name, None)


def read_rest(source):
    """Reads what stands behind an archive: it says nothing, but what is packed has its checksum at
    the end."""
    while source.read(PIECE):
        pass


class Tar:
    """An archive that is read from a source."""

    def __init__(self, source):
        self.source, self.everywhere = source, {}
        # what is left of the data of the entry before, and of the zeros behind them
        self.left = self.zeros = 0
        self.holes_left = HOLES_MOST

    # --- bytes ---

    def taken(self, size):
        """So many bytes, or fewer at the end of the source."""
        first = self.source.read(min(size, PIECE))
        if len(first) == size:
            return first
        parts, count = [first], len(first)
        while first and count < size:
            part = self.source.read(min(size - count, PIECE))
            if not part:
                break
            parts.append(part)
            count += len(part)
        return b"".join(parts)

    def whole(self, size):
        data = self.taken(size)
        if len(data) < size:
            raise Refused("the archive is truncated")
        return data

    def begin_data(self, size):
        self.left, self.zeros = size, -size % BLOCK

    def pieces(self, size):
        """So many of the bytes that are left."""
        end = self.left - size
        while self.left > end:
            data = self.source.read(min(self.left - end, PIECE))
            if not data:
                raise Refused("the archive is truncated")
            self.left -= len(data)
            yield data

    def data_block(self):
        """The next block of the data."""
        if self.left < BLOCK:
            raise BadEntry(sparse_maps.BROKEN)
        return b"".join(self.pieces(BLOCK))

    def pass_over(self):
        for _ in self.pieces(self.left):
            pass
        # an archive that isn't ended, as umoci insert writes it, may lack the last zeros
        if self.zeros:
            self.taken(self.zeros)
            self.zeros = 0

    def special(self, size):
        """The data of an extended header or of a long name."""
        if size > SPECIAL_MOST:
            raise Refused("the archive is broken: an extended header of %d bytes" % size)
        self.begin_data(size)
        data = self.whole(size)
        self.left = 0
        self.pass_over()
        return data

    # --- headers ---

    def block(self):
        """The next header; None at the end of the archive."""
        block = self.taken(BLOCK)
        if block == bytes(BLOCK):
            if self.taken(BLOCK).strip(b"\0"):
                raise Refused("the archive is broken: a header after its end")
            return None
        if not block:
            return None
        if len(block) < BLOCK:
            raise Refused("the archive is truncated")
        if not is_sum_right(block):
            raise Refused("the archive is broken: a header's checksum")
        return block

    def fields_of(self, data):
        """What an extended header says. An empty value takes back what one before it said. A stranger may say no end of
        other things, in header after header."""
        found = {}
        for keyword, value in pax_records(data):
            attribute = attributes.of_record(keyword, value)
            if attribute is not None:
                # even an empty one, since a header's own attributes stand instead of a global header's
                add_attribute(found.setdefault(ATTRIBUTES, attributes.Attributes()), *attribute)
            elif keyword in (sparse_maps.OFFSET, sparse_maps.NUMBYTES):
                found.setdefault(sparse_maps.PAIRS, []).append(value)
            elif keyword in KEYWORDS or keyword in sparse_maps.KEYWORDS:
                found[keyword] = value
        return found

    def entries(self):
        while True:
            entry = self.entry()
            if entry is None:
                return
            yield entry
            self.pass_over()

    def entry(self):
        """The next entry; None at the end of the archive."""
        fields, names, has_begun = {}, {}, False
        while True:
            block = self.block()
            if block is None:
                if has_begun:
                    raise Refused("the archive is truncated")
                return None
            kind, size = block[156:157], number(block[124:136], "size")
            if size < 0:
                raise Refused("the archive is broken: a size of %d" % size)
            if kind in PAX:
                fields.update(self.fields_of(self.special(size)))
            elif kind == PAX_GLOBAL:
                self.everywhere.update(self.fields_of(self.special(size)))
                continue
            elif kind in (LONG_NAME, LONG_LINK):
                names[kind] = text(self.special(size))
            else:
                said = {keyword: value for keyword, value in {**self.everywhere, **fields}.items() if value}
                return self.made(block, kind, said, names)
            has_begun = True

    def made(self, block, kind, fields, names):
        """The entry of a header, with what extended headers and long names before it say."""
        name = names.get(LONG_NAME, fields.get(b"path", full_name(block)))
        link = names.get(LONG_LINK, fields.get(b"linkpath", text(block[157:257])))
        entry = Entry(kind, name, link)
        entry.mode = number(block[100:108], "mode") & 0o7777
        entry.uid = decimal(fields[b"uid"], "owner") if b"uid" in fields else number(block[108:116], "owner")
        entry.gid = decimal(fields[b"gid"], "group") if b"gid" in fields else number(block[116:124], "group")
        entry.time = time_of(fields[b"mtime"]) if b"mtime" in fields else (number(block[136:148], "time"), 0)
        entry.attributes = fields.get(ATTRIBUTES, {})
        if kind == b"\0" and name.endswith(b"/"):
            entry.kind = DIRECTORY
        elif kind in (CHARACTER, BLOCK_DEVICE):
            entry.major, entry.minor = number(block[329:337], "device"), number(block[337:345], "device")
        self.set_data(entry, block, fields)
        return entry

    def set_data(self, entry, block, fields):
        size = decimal(fields[b"size"], "size") if b"size" in fields else number(block[124:136], "size")
        if size < 0:
            raise Refused("the archive is broken: a size of %d" % size)
        found = None
        if entry.kind == SPARSE:
            # what follows the header is no data
            found = self.gnu_map(entry, block)
            entry.kind = FILES[0]
        self.begin_data(0 if entry.kind in BARE else size)
        if found is None and entry.kind in FILES and not SPARSE_WORDS.isdisjoint(fields):
            found = self.pax_map(entry, fields)
        if found is not None:
            self.set_sparse(entry, found)
        elif entry.kind in FILES:
            entry.size, entry.data = size, self.pieces(size)

    # --- sparse files ---

    def gnu_map(self, entry, block):
        try:
            return sparse_maps.of_header(block, lambda field: number(field, "sparse map"),
                                         lambda: self.whole(BLOCK))
        except BadEntry as bad:
            # where the data begin is not known then
            raise Refused("%s: %s" % (shown(entry.name), bad)) from None

    def pax_map(self, entry, fields):
        entry.name = fields.get(sparse_maps.NAME, entry.name)
        try:
            return sparse_maps.of_fields(fields, self.data_block)
        except BadEntry as bad:
            entry.wrong = BadEntry("%s: %s" % (shown(entry.name), bad))
            return None

    def set_sparse(self, entry, found):
        try:
            found.check(self.left)
        except BadEntry as bad:
            entry.wrong = BadEntry("%s: %s" % (shown(entry.name), bad))
            return
        entry.size, entry.data = found.size, found.pieces(self.pieces)
        # a few bytes may say no end of holes, and all of an image is hashed
        self.holes_left -= found.size - self.left if found.size <= trailer.END_MOST else 0
        if self.holes_left < 0:
            raise Refused("%s: with it the holes of sparse files have more than %d bytes"
                          % (shown(entry.name), HOLES_MOST))
