"""A plain reading of version 2 of the attribute trailer: extended attributes, in a part behind the rows.

Written from the tables of the format (strata-attributes(5)), xattr(7), and the kernel's posix_acl_xattr.h and capability.h,
not from strata's code and not from tools/.
"""
import struct

LETTERS = b"-attr02-"
HEAD = 16
ACCESS, DEFAULT, CAPABILITY = b"system.posix_acl_access", b"system.posix_acl_default", b"security.capability"
OVERLAYS = b"trusted.overlay.", b"user.overlay."
# tags of ACL entries, in the order in which they stand
USER_OBJ, USER, GROUP_OBJ, GROUP, MASK, OTHER = 1, 2, 4, 8, 16, 32
NOBODY = 2 ** 32 - 1


def part(rows_end, trailer):
    """The bytes from where the rows end, if the part is there; else None."""
    found = trailer[rows_end:]
    return found if found[:8] == LETTERS else None


class Part:
    """A part whose trailer has so many rows: a word for each row, and then the lists, with tables of where each begins and where
    names and values begin."""

    def __init__(self, found, rows):
        self.bytes, self.rows = found, rows
        self.size, _ = struct.unpack_from(">2I", found, 8)
        self.texts = found[HEAD + 4 * rows:self.size]

    def of_row(self, row):
        """The number of a row's list, from 1 on; 0 for none."""
        return struct.unpack_from(">I", self.bytes, HEAD + 4 * row)[0]

    def word(self, number):
        return struct.unpack_from(">I", self.texts, 4 * number)[0]

    def lists(self):
        return self.word(0)

    def first(self, number):
        """The number of the first attribute of a list, and behind the last list of all of them."""
        return self.word(1 + number)

    def place(self, number):
        """Where a name (even numbers) or value (odd numbers) begins."""
        return self.word(self.lists() + 2 + number)

    def text(self, number):
        return self.texts[self.place(number):self.place(number + 1)]

    def list(self, number):
        """The names and values of a list, from 0 on."""
        return [(self.text(2 * at), self.text(2 * at + 1)) for at in range(self.first(number), self.first(number + 1))]

    def is_whole(self):
        """Whether its size is right and holds its tables, and they lead to nothing outside."""
        if self.size > len(self.bytes) or self.size % 4 or HEAD + 4 * self.rows + 4 > self.size:
            return False
        if 4 * (self.lists() + 2) > len(self.texts):
            return False
        firsts = [self.first(number) for number in range(self.lists() + 1)]
        if firsts[0] != 0 or not rises(firsts):
            return False
        count = 2 * firsts[-1] + 1
        if 4 * (self.lists() + 2 + count) > len(self.texts):
            return False
        places = [self.place(number) for number in range(count)]
        return sorted(places) == places and places[-1] <= len(self.texts) \
            and all(self.of_row(row) <= self.lists() for row in range(self.rows))


def rises(items):
    return all(before < after for before, after in zip(items, items[1:]))


def acl_entries(value):
    """The tag, permissions and id of each entry; None where the value has another form."""
    if len(value) < 4 or len(value) % 8 != 4 or len(value) > 4096 or value[:4] != b"\2\0\0\0":
        return None
    return list(struct.iter_unpack("<2HI", value[4:]))


def is_acl(value):
    entries = acl_entries(value)
    if entries is None or not rises([(tag, number) for tag, _, number in entries]):
        return False
    tags = {tag for tag, _, _ in entries}
    if not tags >= {USER_OBJ, GROUP_OBJ, OTHER} or tags & {USER, GROUP} and MASK not in tags:
        return False
    return all(tag in (USER_OBJ, USER, GROUP_OBJ, GROUP, MASK, OTHER) and bits <= 7
               and (number != NOBODY) == (tag in (USER, GROUP)) for tag, bits, number in entries)


def acl_bits(value):
    """The nine bits of a mode that agree with an access ACL."""
    bits = {tag: bits for tag, bits, _ in acl_entries(value)}
    return bits[USER_OBJ] << 6 | bits.get(MASK, bits[GROUP_OBJ]) << 3 | bits[OTHER]


def is_capability(value):
    """Revision 2 has 20 bytes and revision 3 has 24; the only flag is that the file's process gets them at once."""
    revision = {20: 2, 24: 3}.get(len(value))
    return value[:4] in (bytes([flag, 0, 0, revision or 0]) for flag in (0, 1)) and revision is not None


def is_attribute(name, value):
    if not 1 <= len(name) <= 255 or 0 in name or len(value) > 65536 or name.startswith(OVERLAYS):
        return False
    if name in (ACCESS, DEFAULT):
        return is_acl(value)
    return name != CAPABILITY or is_capability(value)


def is_list(items):
    names = [name for name, _ in items]
    return rises(names) and sum(len(name) + 1 for name in names) <= 65536 and all(is_attribute(*item) for item in items)


def is_broken(found, modes):
    """Whether a part breaks its rule, behind rows of these modes."""
    if len(found) < HEAD:
        return True
    it = Part(found, len(modes))
    if not it.is_whole() or sum(struct.unpack(">%dI" % (it.size // 4), found[:it.size])) % 2 ** 32 != 0:
        return True
    lists = [it.list(number) for number in range(it.lists())]
    if not all(is_list(items) for items in lists):
        return True
    accesses = [dict(items).get(ACCESS) for items in lists]
    numbers = [it.of_row(row) for row in range(len(modes))]
    return any(number and accesses[number - 1] is not None and acl_bits(accesses[number - 1]) != mode % 512
               for number, mode in zip(numbers, modes))


def lists(found, rows):
    """The names and values of each row, in a part that keeps its rule."""
    it = Part(found, rows)
    return [it.list(it.of_row(row) - 1) if it.of_row(row) else [] for row in range(rows)]
