"""A plain reading of romfs images: which rule an image breaks, and what a sound one holds.

Written from the public text (romfs.rst) and docs/DEFINITIONS.md, not from strata's code, and for reading rather than
speed.
"""
import struct

from checks.plain import plain_attributes

# the rules in their order: those of the volume header, those of file headers, the depth, and the attribute trailer
TEXTS = {
    "Short": "too short", "Magic": "not romfs", "FullSize": "bad full size", "Sum": "bad sum",
    "VolumeName": "bad volume name", "NoRoot": "no root", "Outside": "header outside",
    "NameOpen": "name not ended", "NameBad": "bad name", "DataOutside": "data outside",
    "TargetLong": "target too long", "Twice": "linked twice", "SameName": "name twice",
    "LinkLoop": "link loop", "LinkDirectory": "link to directory", "MajorLarge": "major too large",
    "HeaderSum": "bad header sum", "Deep": "too deep", "Attributes": "bad attributes",
}
ORDER = list(TEXTS)
HARD, DIRECTORY, REGULAR, SYMLINK, BLOCK, CHARACTER, SOCKET, FIFO = range(8)


def word(data, place):
    return struct.unpack_from(">I", data, place)[0]


def word_sum(data):
    """The sum of whole words, modulo 2^32."""
    return sum(struct.unpack(">%dI" % (len(data) // 4), data[:len(data) // 4 * 4])) % 2 ** 32


def cleared(number):
    return number & ~15


def padded(number):
    return (number + 15) // 16 * 16


def text_at(image, place):
    """The text that begins at a place, up to its first zero byte; None where it or its padding is not ended."""
    end = image[place:place + 256].find(b"\0")
    if end < 0 or place + padded(end + 1) > len(image):
        return None
    return image[place:place + end]


class Image:
    """The accessible bytes of an image that keeps the rules of the volume header. Headers are named by their offset. With
    attributes the rows of its trailer are those of its nodes, which then keeps its rule."""

    def __init__(self, data, attributes=False):
        self.data = data[:word(data, 8)]
        self.root = 16 + padded(len(text_at(self.data, 16)) + 1)
        self.rows = plain_attributes.rows(data) if attributes else {}
        self.xattrs = plain_attributes.extended(data) if attributes else {}

    def inside(self, h):
        return self.root <= h and h + 16 <= len(self.data)

    def kind(self, h):
        return word(self.data, h) & 7

    def executable(self, h):
        return word(self.data, h) & 8 != 0

    def next(self, h):
        return cleared(word(self.data, h))

    def spec(self, h):
        return word(self.data, h + 4)

    def size(self, h):
        return word(self.data, h + 8)

    def name(self, h):
        return text_at(self.data, h + 16)

    def data_at(self, h):
        return h + 16 + padded(len(self.name(h)) + 1)

    def body(self, h):
        """The data of a regular file, the target of a symbolic link."""
        if self.kind(h) not in (REGULAR, SYMLINK):
            return b""
        return self.data[self.data_at(h):self.data_at(h) + self.size(h)]

    def first(self, d):
        """The first header of a directory; 0 where there is none."""
        h = cleared(self.spec(d))
        return 0 if h == d and d != self.root else h

    def chain(self, d):
        """The headers of a directory's chain, each once, the last of them perhaps outside the image."""
        found = {}
        h = self.first(d)
        while h != 0 and h not in found:
            found[h] = True
            if not self.inside(h):
                break
            h = self.next(h)
        return list(found)

    def passed_over(self, d, h):
        if d == self.root and h == self.root:
            return True
        return self.inside(h) and self.name(h) in (b".", b"..")

    def members(self, d):
        return [h for h in self.chain(d) if not self.passed_over(d, h)]

    def directories(self):
        """The directories that are opened, each with its chain."""
        opened = {}
        todo = [self.root]
        while todo:
            d = todo.pop()
            if d not in opened:
                opened[d] = self.chain(d)
                todo += [h for h in self.members(d) if self.inside(h) and self.kind(h) == DIRECTORY]
        return opened

    def hard(self, h):
        return self.inside(h) and self.kind(h) == HARD

    def destinations(self, h):
        """The headers on the destination chain of a hard link, and whether it leaves hard links."""
        found = {}
        while self.hard(h):
            h = cleared(self.spec(h))
            if h in found:
                return list(found), False
            found[h] = True
        return list(found), True

    def final(self, h):
        """Where hard links lead, in a sound image; any other header itself."""
        return self.destinations(h)[0][-1] if self.hard(h) else h


def volume_fault(data):
    if len(data) < 16:
        return "Short", 0
    if data[:8] != b"-rom1fs-":
        return "Magic", 0
    full = word(data, 8)
    if full > len(data) or full < 16:
        return "FullSize", 8
    image = data[:full]
    if word_sum(image[:512]) != 0:
        return "Sum", 12
    name = text_at(image, 16)
    if name is None:
        return "VolumeName", 16
    root = 16 + padded(len(name) + 1)
    if root + 16 > full or word(image, root) & 7 != DIRECTORY:
        return "NoRoot", root
    return None


def links_of(image, opened):
    """The headers that are linked into chains, each with the fields that name it."""
    links = {}
    for d, chain in opened.items():
        if image.first(d) != 0:
            links.setdefault(image.first(d), set()).add(("first", d))
        for h in chain:
            if image.inside(h) and image.next(h) != 0:
                links.setdefault(image.next(h), set()).add(("next", h))
    return links


def field_faults(image, h):
    """The rules that a header breaks, whether it is a member or is led to."""
    kind, name = image.kind(h), image.name(h)
    if kind in (REGULAR, SYMLINK) and name is not None and image.data_at(h) + image.size(h) > len(image.data):
        yield "DataOutside", h
    if kind == SYMLINK and image.size(h) > 4095:
        yield "TargetLong", h
    if kind in (BLOCK, CHARACTER) and image.spec(h) >> 16 > 4095:
        yield "MajorLarge", h


def sum_is_bad(image, h):
    """Whether the words of a header with its name do not sum to 0. Only the root's name may be without an end."""
    if image.name(h) is None:
        return h == image.root
    return word_sum(image.data[h:image.data_at(h)]) != 0


def member_faults(image, d):
    """The rules of names, and of what hard links lead to, that the members of a directory break."""
    members = [h for h in image.members(d) if image.inside(h)]
    named = [(h, image.name(h)) for h in members if image.name(h) is not None]
    lowest = {}
    for h, name in named:
        lowest[name] = min(h, lowest.get(name, h))
        if name == b"" or b"/" in name:
            yield "NameBad", h
    for h, name in named:
        if lowest[name] < h:
            yield "SameName", h
    for h in members:
        if image.hard(h):
            chain, leaves = image.destinations(h)
            if not leaves:
                yield "LinkLoop", h
            elif image.inside(chain[-1]) and image.kind(chain[-1]) == DIRECTORY:
                yield "LinkDirectory", h


def header_faults(image, strict):
    """Every broken rule of a file header with its place, in no order."""
    opened = image.directories()
    links = links_of(image, opened)
    members = {h for d in opened for h in image.members(d)}
    targets = {t for h in members for t in image.destinations(h)[0]}
    for h in {image.root} | set(links) | targets:
        if not image.inside(h):
            yield "Outside", h
            continue
        if h != image.root and image.name(h) is None:
            yield "NameOpen", h
        if strict and sum_is_bad(image, h):
            yield "HeaderSum", h
    for h in members | targets:
        if image.inside(h):
            yield from field_faults(image, h)
    for h, fields in links.items():
        if len(fields) > 1:
            yield "Twice", h
    for d, chain in opened.items():
        yield from member_faults(image, d)
        if d != image.root and image.root in chain:
            yield "Twice", image.root


def deep_faults(image):
    """Members whose path has more than 512 names, in an image that breaks no other rule."""
    todo = [(image.root, 0)]
    while todo:
        d, depth = todo.pop()
        for h in image.members(d):
            if depth + 1 > 512:
                yield "Deep", h
            if image.kind(h) == DIRECTORY:
                todo.append((h, depth + 1))


def least(faults):
    """Of these faults the one at the least place, and there the first."""
    return min(faults, key=lambda it: (it[1], ORDER.index(it[0])), default=None)


def fault(data, strict=False, attributes=False):
    """The fault of some bytes as (rule, place), or None for a sound image. Only strictly are header sums looked at, and only
    with attributes its trailer."""
    found = volume_fault(data)
    if found:
        return found
    image = Image(data)
    found = least(header_faults(image, strict)) or least(deep_faults(image))
    if found is None and attributes and plain_attributes.is_broken(data):
        return "Attributes", plain_attributes.place(data)
    return found
