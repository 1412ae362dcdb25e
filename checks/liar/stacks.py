"""Random stacks of sealed images, and requests for their data."""
from checks.liar.lies import SealedImage
from checks.plain import plain
from checks.plain.plain_images import DIRECTORY, REGULAR, SYMLINK
from checks.plain.plain_replies import GETATTR, LOOKUP, READ, READDIRPLUS, READLINK
from checks.plain.plain_verity import BLOCK
from checks.shared.build import init, request, trailer
from checks.shared.images import Item, laid_out
from checks.shared.random_inputs import near, read_body

# how many bytes of data an image has at most: a tree of no level, of one, two, and by SHA-512 three
SIZES = (2000, 60_000, 60_000, 600_000, 600_000, 600_000, 600_000, 17 << 20)
# of a READ
LENGTHS = (1, 100, 4095, 4096, 4096, 4097, 16384, 65536, 131072, 131072, 300_000)


def items_of(rng, letter, sizes):
    """Files of these sizes in a folder, a link, and a device; every name and byte with a letter of its own."""
    items = [Item((b"d",), "directory", True)]
    for number, size in enumerate(sizes):
        path = (b"d", b"%s%02d" % (letter, number)) if number % 2 else (b"%s%02d" % (letter, number),)
        items.append(Item(path, "regular", rng.random() < 0.5, data=rng.randbytes(size)))
    items.append(Item((letter + b"l",), "symlink", False, data=letter * 20))
    return items


def image_of(rng, letter, sizes):
    """An image of such files with an attribute trailer."""
    items = items_of(rng, letter, sizes)
    data = laid_out(letter, items)
    rows = [(item.at, rng.randrange(0o10000), rng.randrange(1 << 16), rng.randrange(1 << 16), rng.randrange(1 << 31), 0, 0)
            for item in items]
    return data + bytes(-len(data) % 16) + trailer(rows)


def sizes_of(rng, most):
    """Sizes of files, which are not much more than that together."""
    sizes = []
    while sum(sizes) < most * 2 // 3 and len(sizes) < 20:
        sizes.append(rng.choice([0, 1, 4000, near(rng, BLOCK), near(rng, 40 * BLOCK), rng.randrange(most)]) % most)
    return sizes


class SealedStack:
    """One to three images, each under a digest of either algorithm, and what they show."""

    def __init__(self, rng):
        self.images = []
        for number in range(rng.choice([1, 2, 2, 3])):
            sizes, letters = sizes_of(rng, rng.choice(SIZES)), (b"ab", b"cd", b"ef")[number]
            right, other = (image_of(rng, letters[at:at + 1], sizes) for at in (0, 1))
            self.images.append(SealedImage("image-%d" % number, rng.choice(["sha256", "sha512"]), right, other))
        self.stack = plain.stack_of([image.right for image in self.images], attributes=True)
        self.nodes = [node for node in range(1, len(self.stack.places)) if self.stack.kind(node) == REGULAR]

    def words(self, path_of):
        """The words that name the images and their digests."""
        digests = [word for image in self.images for word in ("--digest", image.digest)]
        return [*digests, *[path_of(image.name) for image in self.images]]

    def read(self, rng, unique):
        node = rng.choice(self.nodes)
        size, length = self.stack.size(node), rng.choice(LENGTHS)
        offset = rng.choice([rng.randrange(size + 1), rng.randrange(size + 1) // BLOCK * BLOCK, 0, max(0, size - length)])
        return request(READ, unique, node, read_body(near(rng, offset), length))

    def look(self, rng, unique):
        """A request whose reply needs no data."""
        node = rng.randrange(1, len(self.stack.places))
        opcode = {DIRECTORY: READDIRPLUS, SYMLINK: READLINK}.get(self.stack.kind(node), GETATTR)
        if opcode == READDIRPLUS and rng.random() < 0.3:
            names = [name for name, _ in self.stack.children(node)]
            return request(LOOKUP, unique, node, rng.choice([*names, b"none"]) + b"\0")
        return request(opcode, unique, node, read_body(0, 4096) if opcode == READDIRPLUS else bytes(16))

    def messages(self, rng, count):
        """An INIT, and so many requests, most of them READs."""
        ask = [self.read] * 9 * bool(self.nodes) + [self.look]
        return [init(1, flags=0x6001), *[rng.choice(ask)(rng, unique) for unique in range(2, count + 2)]]
