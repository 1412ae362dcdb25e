"""Lies about sealed images: what their files tell instead of their bytes, and when."""
import errno
from collections import Counter

from checks.plain import plain_verity
from checks.plain.plain_verity import BLOCK
from checks.shared.shared_numbers import shared_numbers
from checks.shared.shown_files import ShownFiles

TREE = ".verity"
# where it stands from which read on the server lies, how many reads there were, and how many lies
FIRST, READS, LIES = 0, 1, 2
NEVER = 2 ** 64 - 1


class SealedImage:
    """An image, its tree and digest; and another image of the same length, with its own."""

    def __init__(self, name, algorithm, right, other):
        self.name, self.algorithm, self.right, self.other = name, algorithm, right, other
        self.digest = plain_verity.digest(algorithm, right)
        self.trees = [plain_verity.tree(algorithm, data) for data in (right, other)]

    def files(self, which=0):
        """The bytes of its two files by name; or of the other's."""
        return {self.name: (self.right, self.other)[which], self.name + TREE: self.trees[which]}


# --- lies: each of these gives the bytes of a read, or an error's number ---

def bit(lie, name, offset, right):
    """One bit is another."""
    data = bytearray(right)
    data[lie.rng.randrange(len(data))] ^= 1 << lie.rng.randrange(8)
    return bytes(data)


def other(lie, name, offset, right):
    """The bytes of the other image, or of its tree."""
    return lie.other[name][offset:offset + len(right)]


def half(lie, name, offset, right):
    """Right bytes up to a place, and others behind it."""
    at = lie.rng.randrange(len(right) + 1)
    return right[:at] + other(lie, name, offset, right)[at:]


def entries(lie, name, offset, right):
    """Of each 32 bytes, the length of a digest, the right or the other ones: so a block and its digest may agree."""
    wrong = other(lie, name, offset, right)
    return b"".join(lie.rng.choice((right, wrong))[at:at + 32] for at in range(0, len(right), 32))


def neighbour(lie, name, offset, right):
    """The bytes a block before or behind."""
    at = max(0, offset + lie.rng.choice((-BLOCK, BLOCK)))
    return lie.right[name][at:at + len(right)].ljust(len(right), b"\0")


def crossed(lie, name, offset, right):
    """Bytes of the tree for those of the image, and of the image for those of the tree."""
    twin = name[:-len(TREE)] if name.endswith(TREE) else name + TREE
    return lie.right[twin][offset:offset + len(right)].ljust(len(right), b"\0")


def layer(lie, name, offset, right):
    """The bytes of another file."""
    data = lie.right[lie.rng.choice(list(lie.right))]
    return data[offset:offset + len(right)].ljust(len(right), b"\0")


def zeros(lie, name, offset, right):
    return bytes(len(right))


def short(lie, name, offset, right):
    return right[:lie.rng.randrange(len(right))]


def failing(lie, name, offset, right):
    return errno.EIO


KINDS = (bit, bit, other, other, half, entries, entries, neighbour, crossed, layer, zeros, short, failing)


# --- when ---

def always(lie, name, offset, size):
    return True


def often(lie, name, offset, size):
    return lie.rng.random() < 0.3


def seldom(lie, name, offset, size):
    return lie.rng.random() < 0.03


def at_second(lie, name, offset, size):
    """At each second read of a block: first it is right, and then wrong."""
    return lie.seen[name, offset // BLOCK] % 2 == 0


def at_first(lie, name, offset, size):
    """First it is wrong, and then right."""
    return lie.seen[name, offset // BLOCK] % 2 == 1


def further(lie, name, offset, size):
    """At reads that go on where the one before them ended, as in a large READ."""
    return offset == lie.end


def at_large(lie, name, offset, size):
    return size >= BLOCK


def at_small(lie, name, offset, size):
    return size < BLOCK


def here(lie, name, offset, size):
    """At reads that touch one block of each file."""
    block = lie.place % (len(lie.right[name]) // BLOCK + 1)
    return offset < (block + 1) * BLOCK and block * BLOCK < offset + size


def at_end(lie, name, offset, size):
    """At reads of the last bytes, where the attribute trailer is."""
    return offset + size >= len(lie.right[name]) - BLOCK


MOMENTS = (always, often, often, seldom, at_second, at_first, further, at_large, at_small, here, here, at_end)


class Lie:
    """How reads of some images' files are answered, at random."""

    def __init__(self, rng, images):
        self.rng = rng
        self.right = {name: data for image in images for name, data in image.files().items()}
        self.other = {name: data for image in images for name, data in image.files(1).items()}
        self.kinds = rng.choice([[rng.choice(KINDS)], KINDS])
        self.moment = rng.choice(MOMENTS)
        self.names = rng.choice([list(self.right), [it.name for it in images], [it.name + TREE for it in images],
                                 [rng.choice(list(self.right))]])
        self.has_sizes = rng.random() < 0.2
        if rng.random() < 0.2:  # another sealed image altogether, whose blocks and digests agree
            self.kinds, self.moment, self.names = [other], rng.choice([always, further]), list(self.right)
        self.place, self.seen, self.end = rng.randrange(1 << 16), Counter(), 0

    def told(self):
        """What it does, for a line."""
        kinds = "any" if len(self.kinds) > 1 else self.kinds[0].__name__
        return "%s, %s, of %s%s" % (kinds, self.moment.__name__, " ".join(self.names), ", sizes" * self.has_sizes)

    def data(self, name, offset, size, is_on):
        """The bytes that a read gives, or an error's number, and whether that is a lie."""
        right = self.right[name][offset:offset + size]
        self.seen[name, offset // BLOCK] += 1
        is_lie = is_on and name in self.names and self.moment(self, name, offset, size)
        self.end = offset + size
        if not is_lie:
            return right, False
        if not right:
            return bytes(size), True
        told = self.rng.choice(self.kinds)(self, name, offset, right)
        return told, told != right

    def size(self, name, is_on):
        """The size that a file has: of some another one, cut or grown."""
        size = len(self.right[name])
        if not (is_on and self.has_sizes and name in self.names):
            return size
        return self.rng.choice([size, 0, 1, max(0, size - 1), size // 2, size - size % BLOCK, size + 1, size + 16, size + BLOCK,
                                len(self.other[name]), size // BLOCK * BLOCK + BLOCK, 2 * size, 2 ** 32 - 1])


class LyingFiles(ShownFiles):
    """The files of some images, shown by a process of its own, which lies from some read on."""

    def __init__(self, room, lie, first=NEVER):
        self.lie, self.shared = lie, shared_numbers(3)
        self.begin(first)
        super().__init__(room, list(lie.right))

    def begin(self, first=0):
        """From this read on it lies."""
        self.shared[FIRST] = first

    def counts(self):
        """How many reads came so far, and how many were answered by lies."""
        return self.shared[READS], self.shared[LIES]

    def is_on(self):
        return self.shared[READS] >= self.shared[FIRST]

    def count(self, reads, lies):
        self.shared[READS] += reads
        self.shared[LIES] += lies

    def size(self, name):
        size = self.lie.size(name, self.is_on())
        self.count(0, size != len(self.lie.right[name]))
        return size

    def answer_read(self, unique, name, offset, size):
        told, is_lie = self.lie.data(name, offset, size, self.is_on())
        self.count(1, is_lie)
        if isinstance(told, int):
            self.reply(unique, error=told)
        else:
            self.reply(unique, told)
        return True
