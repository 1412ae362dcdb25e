"""Sealed images and trees of which a byte is another, or which are cut, grown or exchanged: what each run must come to."""
import os
import random

from checks.liar.lies import TREE, SealedImage
from checks.liar.stacks import image_of
from checks.liar.streams import hold_end, hold_replies
from checks.liar.talk import talk
from checks.liar.writer import write_all
from checks.plain import plain, plain_attributes, plain_verity
from checks.plain.plain_images import DIRECTORY, REGULAR, SYMLINK
from checks.plain.plain_replies import READ
from checks.plain.plain_stacks import paths_of
from checks.plain.plain_verity import BLOCK
from checks.shared.build import init, request
from checks.shared.mounting import hold
from checks.shared.random_inputs import read_body

# a try changes each so manyth byte of one of the samples
STEP = 256
ALGORITHMS = ("sha256", "sha512")
# sizes of files, which make trees of no level, of one, and of two by SHA-512
SIZES = ([9, 1000], [3 * BLOCK, 100, 2 * BLOCK + 5], [BLOCK, 5 * BLOCK], [66 * BLOCK, 9])
SAMPLES = [(sizes, algorithm) for sizes in SIZES for algorithm in ALGORITHMS]


def in_place_of(data, at, new):
    return data[:at] + new + data[at + len(new):]


def block_at(data, number):
    return data[number * BLOCK:(number + 1) * BLOCK]


class Sample:
    """A sealed image, and which of its blocks are looked at when it is opened."""

    def __init__(self, number):
        rng = random.Random("sample %d" % number)
        sizes, algorithm = SAMPLES[number]
        self.image = SealedImage("image", algorithm, image_of(rng, b"a", sizes), image_of(rng, b"b", sizes))
        self.data, self.tree = self.image.right, self.image.trees[0]
        self.stack = plain.stack_of([self.data], attributes=True)
        self.fan = BLOCK // len(bytes.fromhex(self.image.digest[7:]))
        self.levels = [len(level) // BLOCK for level in plain_verity.levels(algorithm, self.data)]
        self.looked_at = set(self.blocks_looked_at())

    def blocks_looked_at(self):
        """The blocks with the first bytes, headers, names, targets and the trailer."""
        image = self.stack.layers[0].image
        spans = [(0, 512), (plain_attributes.place(self.data), len(self.data))]
        for _, h in paths_of(image).items():
            end = image.data_at(h) + (image.size(h) if image.kind(h) == SYMLINK else 0)
            spans.append((h, end))
            if image.kind(h) == DIRECTORY:
                spans += [(member, image.data_at(member)) for member in image.chain(h)]
        return [block for first, last in spans for block in range(first // BLOCK, (last - 1) // BLOCK + 1)]

    def lost(self, data, tree):
        """The blocks that are not as sealed in these files; None where the image is refused whatever is looked at."""
        if len(data) != len(self.data) or tree is None:
            return None
        lowest = sum(self.levels[:-1])
        is_kept = range(sum(self.levels[:-2]), lowest) if len(self.levels) > 1 else range(sum(self.levels))
        if any(block_at(tree, number) != block_at(self.tree, number) for number in is_kept):
            return None
        count = -(-len(data) // BLOCK)
        return {number for number in range(count) if block_at(data, number) != block_at(self.data, number)
                or self.levels and block_at(tree, lowest + number // self.fan) != block_at(self.tree, lowest + number // self.fan)}

    def messages(self):
        """An INIT, and READs of each block of the image that holds data of a file."""
        found = [init(1, flags=0x6001)]
        for node in range(1, len(self.stack.places)):
            image, h = self.stack.header(node)
            if image.kind(h) == REGULAR:
                at, end = image.data_at(h), image.data_at(h) + image.size(h)
                for block in range(at // BLOCK, -(-end // BLOCK)):
                    first, last = max(at, block * BLOCK), min(end, (block + 1) * BLOCK)
                    found.append(request(READ, len(found) + 1, node, read_body(first - at, last - first)))
        return found

    def block_of(self, message):
        """The block that a READ of these asks for."""
        image, h = self.stack.header(int.from_bytes(message[16:24], "little"))
        return (image.data_at(h) + int.from_bytes(message[48:56], "little")) // BLOCK


def structural(sample):
    """Files that are cut, grown or exchanged, with what was done."""
    data, tree, other, its = sample.data, sample.tree, sample.image.other, sample.image.trees[1]
    for size in sorted({0, 1, len(data) // 2, (len(data) - 1) // BLOCK * BLOCK, len(data) - 1}):
        yield "image cut to %d" % size, data[:size], tree
    for more in (b"\0", b"x", bytes(-len(data) % BLOCK), bytes(BLOCK), data):
        if more:
            yield "image grown by %d" % len(more), data + more, tree
    for size in sorted({0, 1, len(tree) // 2, max(0, len(tree) - BLOCK), max(0, len(tree) - 1)}):
        yield "tree cut to %d" % size, data, tree[:size]
    yield "tree grown", data, tree + b"x" * BLOCK
    yield "no tree", data, None
    yield "another image", other, its
    yield "another image with this tree", other, tree
    yield "another's tree", data, its
    yield "exchanged", tree, data
    for algorithm in ALGORITHMS:
        yield "tree by %s" % algorithm, data, plain_verity.tree(algorithm, data)
    # they have the same root hash
    lowest = sum(sample.levels[:-1]) * BLOCK
    yield "hash blocks as data", tree[lowest:], tree[:lowest]
    yield "levels the other way round", data, tree[lowest:] + tree[:lowest]
    yield "digest in place of the tree", data, bytes.fromhex(sample.image.digest[7:]).ljust(BLOCK, b"\0")
    for first in range(0, len(data) - BLOCK, BLOCK):
        pair = data[first:first + 2 * BLOCK]
        yield "blocks at %d exchanged" % first, in_place_of(data, first, pair[BLOCK:] + pair[:BLOCK])[:len(data)], tree


def bytes_changed(sample, number):
    """Each so manyth byte of the image and of its tree, from a number on, changed by one bit."""
    for what, data in (("image", sample.data), ("tree", sample.tree)):
        for at in range(number, len(data), STEP):
            if len(data) > 20 * BLOCK and BLOCK < at < len(data) - BLOCK and at // STEP % 16 != number % 16:
                continue
            new = in_place_of(data, at, bytes([data[at] ^ 1 << at // STEP % 8]))
            yield "byte %d of the %s" % (at, what), *((new, sample.tree) if what == "image" else (sample.data, new))


def try_changed(room, seed, seen):
    """Seeds go through the samples, and then through their bytes: after 2,048 of them each was changed, of large files each
    sixteenth."""
    sample, rng = Sample((seed - 1) % len(SAMPLES)), random.Random(seed)
    path = os.path.join(room.folder, "image")
    messages = sample.messages()
    wanted = plain.Answered(sample.stack, b"".join(messages)).parts
    number = (seed - 1) // len(SAMPLES) % STEP
    changes = list(bytes_changed(sample, number)) + (list(structural(sample)) if number == 0 else [])
    for what, data, tree in changes:
        write_all(path, data)
        if tree is None:
            os.unlink(path + TREE)
        else:
            write_all(path + TREE, tree)
        hold_change(room, sample, (what, data, tree), rng.choice(["--in-files", "--in-files", "--whole", "check"]),
                    messages, wanted, seen)


def hold_change(room, sample, change, way, messages, wanted, seen):
    """Holds what comes of changed files: refused, or EIO for the READs of what was changed."""
    what, data, tree = change
    lost = sample.lost(data, tree)
    # a small image is read in full, unless it must stay in its file
    is_refused = lost is None or bool(lost) and (way != "--in-files" or not sample.looked_at.isdisjoint(lost))
    told, path = "%s, %s, %s" % (sample.image.algorithm, what, way), os.path.join(room.folder, "image")
    words = ["check"] if way == "check" else ["serve", way]
    got, done = talk([room.program, *words, "--attributes", "--digest", sample.image.digest, path],
                     messages if way != "check" else [b""], False, lambda: None)
    hold("%s: refused" % told, is_refused, not hold_end(told, done, 1, is_refused, seen))
    seen["runs"] += 1
    if is_refused or way == "check":
        return
    for message in messages[1:]:
        right = got.get(message[8:16], b"")[4:8] == bytes(4)
        hold("%s: block %d is right" % (told, sample.block_of(message)), sample.block_of(message) not in lost, right)
    hold_replies(told, messages, wanted, got, True, seen)
