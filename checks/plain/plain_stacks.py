"""A plain reading of stacks: which paths layers show, the numbers of their nodes, and their attributes.

Written from the public texts (the whiteouts of OCI layers, romfs.rst) and docs/DEFINITIONS.md, not from strata's code.
A path is a tuple of names. A place is a layer, from 0, and a header there after hard links.
"""
from checks.plain.plain_images import BLOCK, CHARACTER, DIRECTORY, FIFO, REGULAR, SOCKET, SYMLINK

MARKER = b".wh."
OPAQUE = b".wh..wh..opq"
# by kind: the mode without and with the bit of executables
MODES = {
    DIRECTORY: (0x41a4, 0x41ed), REGULAR: (0x81a4, 0x81ed), SYMLINK: (0xa1ff, 0xa1ff), BLOCK: (0x6180, 0x6180),
    CHARACTER: (0x2180, 0x2180), SOCKET: (0xc1a4, 0xc1a4), FIFO: (0x11a4, 0x11a4),
}


def is_plain(path):
    return not any(name.startswith(MARKER) for name in path)


def paths_of(image):
    """Every path of a layer, markers too, with its header."""
    found, todo = {(): image.root}, [()]
    while todo:
        path = todo.pop()
        for h in image.members(found[path]):
            below = path + (image.name(h),)
            found[below] = h
            if image.kind(h) == DIRECTORY:
                todo.append(below)
    return found


class Layer:
    """An image, and its paths."""

    def __init__(self, image):
        self.image, self.paths = image, paths_of(image)

    def is_directory(self, path):
        return path in self.paths and self.image.kind(self.paths[path]) == DIRECTORY

    def removes(self, path):
        """Whether the layer removes what lower ones have at exactly this path, not only below it."""
        above, name = path[:-1], path[-1]
        if not self.is_directory(above):
            return False
        if above + (MARKER + name,) in self.paths or above + (OPAQUE,) in self.paths:
            return True
        return path in self.paths and not self.is_directory(path)

    def cuts(self, path):
        """Whether the layer removes what lower ones have at a path without markers: there, or at a path above it."""
        return any(self.removes(path[:length]) for length in range(1, len(path) + 1))


def shown_paths(layers):
    """The paths that a stack shows, in order, each with its layer and its header there."""
    shown = {}
    for number, layer in enumerate(layers):
        for path, h in layer.paths.items():
            if is_plain(path):
                shown[path] = number, h
    # the highest layer that has a path shows it, if no layer above removes it
    return [(path, number, h) for path, (number, h) in sorted(shown.items())
            if not any(above.cuts(path) for above in layers[number + 1:])]


class Stack:
    """The nodes of some images, the lowest layer first, by number. Those without a row of attributes belong to the owner."""

    def __init__(self, images, owner=(0, 0)):
        self.layers, self.owner = [Layer(image) for image in images], owner
        self.places, self.paths = [None], {}
        self.first_path, self.names, self.rows = {}, {}, {}
        numbers = {}
        for path, layer, h in shown_paths(self.layers):
            place = layer, images[layer].final(h)
            if place not in numbers:
                numbers[place] = len(self.places)
                self.places.append(place)
            self.note(path, numbers[place])

    def note(self, path, number):
        """Takes in a path, which comes after the one above it."""
        self.paths[path] = number
        self.first_path.setdefault(number, path)
        self.names[number] = self.names.get(number, 0) + 1
        self.rows.setdefault(number, [])
        if path:
            self.rows[self.paths[path[:-1]]].append((path[-1], number))

    def has(self, number):
        return 1 <= number < len(self.places)

    def header(self, number):
        layer, h = self.places[number]
        return self.layers[layer].image, h

    def kind(self, number):
        image, h = self.header(number)
        return image.kind(h)

    def children(self, number):
        """The names in a directory with their numbers, in order."""
        return self.rows[number]

    def parent(self, number):
        """The number of the directory above a directory; the root's own for the root."""
        return self.paths[self.first_path[number][:-1]]

    def body(self, number):
        image, h = self.header(number)
        return image.body(h)

    def attributes(self, number):
        """A node's mode, user, group, and its last change in seconds and nanoseconds."""
        image, h = self.header(number)
        mode = MODES[image.kind(h)][image.executable(h)]
        if h not in image.rows:
            return (mode, *self.owner, 0, 0)
        row = image.rows[h]
        return (mode & 0o170000 | row.mode, row.uid, row.gid, row.seconds, row.nanoseconds)

    def xattrs(self, number):
        """A node's extended attributes, pairs of name and value in order."""
        image, h = self.header(number)
        return image.xattrs.get(h, [])

    def every_xattr(self):
        """The names that any node has."""
        return {name for number in range(1, len(self.places)) for name, _ in self.xattrs(number)}

    def mode(self, number):
        return self.attributes(number)[0]

    def size(self, number):
        image, h = self.header(number)
        return image.size(h) if image.kind(h) in (REGULAR, SYMLINK) else 0

    def nlink(self, number):
        count = self.names[number]
        if self.kind(number) == DIRECTORY:
            count = 2 + sum(self.kind(child) == DIRECTORY for _, child in self.children(number))
        return min(count, 2 ** 32 - 1)

    def rdev(self, number):
        image, h = self.header(number)
        if image.kind(h) not in (BLOCK, CHARACTER):
            return 0
        major, minor = image.spec(h) >> 16, image.spec(h) & 0xffff
        return minor & 0xff | major << 8 | (minor & 0xfff00) << 12

    def blocks(self):
        return sum((len(layer.image.data) + 511) // 512 for layer in self.layers)

    def lines(self):
        """A line for each path, in order."""
        for path, number in self.paths.items():
            fields = number, self.mode(number), self.nlink(number), self.size(number), self.places[number][0]
            yield "%d %06o %d %d %d %s" % (*fields, path_text(path))


def path_text(path):
    """A path as it is printed: all but visible characters of ASCII, and the backslash, as a backslash and two digits."""
    names = ["".join(chr(b) if 0x21 <= b <= 0x7e and b != 0x5c else "\\%02x" % b for b in name) for name in path]
    return "/" + "/".join(names)
