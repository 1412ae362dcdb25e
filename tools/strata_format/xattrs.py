"""Version 2 of the attribute trailer, as strata-attributes(5) describes it: the part behind the rows, with the extended
attributes of their files. A list of them is a tuple of pairs of name and value, in the order of names.
"""
import struct

LETTERS = b"-attr02-"
HEAD = struct.Struct(">8s2I")
WORD = struct.Struct(">I")
ACCESS, DEFAULT, CAPABILITY = b"system.posix_acl_access", b"system.posix_acl_default", b"security.capability"
# what an overlay notes for itself; it would read these as its own
OVERLAYS = b"trusted.overlay.", b"user.overlay."
NAME_MOST, VALUE_MOST, NAMES_MOST, ACL_MOST = 255, 65536, 65536, 4096
PIECE = 1 << 20
ENTRY = struct.Struct("<2HI")
USER_OBJ, USER, GROUP_OBJ, GROUP, MASK, OTHER = 1, 2, 4, 8, 16, 32
# the id of entries that name nobody
NOBODY = 2 ** 32 - 1
# of ACLs, with which their values begin
VERSION = b"\2\0\0\0"


def words(numbers):
    return struct.pack(">%dI" % len(numbers), *numbers)


def words_sum(data):
    pieces = (data[at:at + PIECE] for at in range(0, len(data), PIECE))
    return sum(sum(struct.unpack(">%dI" % (len(piece) // 4), piece)) for piece in pieces)


def list_of(attributes):
    """The list of some attributes, by name."""
    return tuple(sorted(attributes.items()))


def part_of(rows):
    """The part behind rows that have these lists; equal lists are written once. Without any list there is no part."""
    numbers = {}
    for items in rows:
        if items:
            numbers.setdefault(items, len(numbers) + 1)
    if not numbers:
        return b""
    body = words([numbers.get(items, 0) for items in rows]) + block_of(numbers)
    size = HEAD.size + len(body)
    sum_ = words_sum(HEAD.pack(LETTERS, size, 0) + body)
    return HEAD.pack(LETTERS, size, -sum_ & 0xffffffff) + body


def block_of(lists):
    """The lists themselves: how many they are, where each begins, where names and values do, and these."""
    firsts = [0]
    for items in lists:
        firsts.append(firsts[-1] + len(items))
    texts = [text for items in lists for item in items for text in item]
    places = [4 * (1 + len(firsts) + len(texts) + 1)]
    for text in texts:
        places.append(places[-1] + len(text))
    return words([len(lists), *firsts, *places]) + b"".join(texts) + bytes(-places[-1] % 4)


class Part:
    """The part at a place in an image's bytes, behind so many rows. It has no lists if there is none, or one cut off."""

    def __init__(self, data, place, rows):
        self.data, self.rows, self.block, self.lists = data, place + HEAD.size, place + HEAD.size + 4 * rows, 0
        if len(data) - place >= HEAD.size:
            letters, size, _ = HEAD.unpack_from(data, place)
            if letters == LETTERS and size <= len(data) - place and HEAD.size + 4 * rows + 8 <= size:
                self.lists = self.word(0)

    def word(self, number):
        return WORD.unpack_from(self.data, self.block + 4 * number)[0]

    def text(self, number):
        begin, end = self.word(self.lists + 2 + number), self.word(self.lists + 3 + number)
        return bytes(self.data[self.block + begin:self.block + end])

    def of_row(self, number):
        """The list of a row of a good trailer."""
        number = WORD.unpack_from(self.data, self.rows + 4 * number)[0] if self.lists else 0
        if number == 0:
            return ()
        first, end = self.word(number), self.word(number + 1)
        # of a stranger's image no more are read than a good list may have
        end = min(end, first + NAMES_MOST // 2)
        return tuple((self.text(2 * at), self.text(2 * at + 1)) for at in range(first, end))


def acl_entries(value):
    """The entries of an ACL, each a tag, permissions and an id; None if the value has another form."""
    if not 4 <= len(value) <= ACL_MOST or len(value) % ENTRY.size != 4 or value[:4] != VERSION:
        return None
    return list(ENTRY.iter_unpack(value[4:]))


def acl_of(entries):
    """The value of an ACL of these entries, in any order."""
    return VERSION + b"".join(ENTRY.pack(*entry) for entry in sorted(entries, key=lambda entry: (entry[0], entry[2])))


def is_acl(value):
    entries = acl_entries(value)
    if entries is None or not rises([(tag, number) for tag, _, number in entries]):
        return False
    tags = {tag for tag, _, _ in entries}
    return tags >= {USER_OBJ, GROUP_OBJ, OTHER} and (MASK in tags or not tags & {USER, GROUP}) \
        and all(tag in (USER_OBJ, USER, GROUP_OBJ, GROUP, MASK, OTHER) and bits <= 7
                and (tag in (USER, GROUP)) == (number != NOBODY) for tag, bits, number in entries)


def acl_mode(value):
    """The nine permission bits that the mode of a file with this access ACL has."""
    bits = {tag: bits for tag, bits, _ in acl_entries(value)}
    return bits[USER_OBJ] << 6 | bits.get(MASK, bits[GROUP_OBJ]) << 3 | bits[OTHER]


def group_bits(value):
    """The permissions of the group that owns the file, at most: what its mode says where the ACL is lost."""
    bits = {tag: bits for tag, bits, _ in acl_entries(value)}
    return bits[GROUP_OBJ] & bits.get(MASK, 7)


def is_capability(value):
    """Linux takes no others; one with another form makes exec of the file fail."""
    return len(value) in (20, 24) and value[0] in (0, 1) and value[1:4] == bytes([0, 0, 2 if len(value) == 20 else 3])


def is_kept(name, value):
    """Whether a trailer may have this attribute."""
    if not 1 <= len(name) <= NAME_MOST or 0 in name or len(value) > VALUE_MOST or name.startswith(OVERLAYS):
        return False
    if name in (ACCESS, DEFAULT):
        return is_acl(value)
    return name != CAPABILITY or is_capability(value)


def is_good(items, mode):
    """Whether a row of this mode may have this list."""
    names, access = [name for name, _ in items], dict(items).get(ACCESS)
    return rises(names) and sum(len(name) + 1 for name in names) <= NAMES_MOST and all(is_kept(*item) for item in items) \
        and (access is None or acl_mode(access) == mode & 0o777)


def rises(items):
    return all(before < after for before, after in zip(items, items[1:]))
