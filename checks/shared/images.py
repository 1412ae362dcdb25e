"""Images in a text form: what they hold, a line each, or edits of the sample images by offset."""
from checks.plain.plain_images import Image
from checks.plain.plain_stacks import paths_of
from checks.shared.build import finished, header, padded, part, seal, trailer, volume
from checks.shared.text import Wrong, plain_bytes

# the empty image as a dump prints it
EMPTY = bytes.fromhex(
    "2d726f6d3166732d000000602b271d0676000000000000000000000000000000"
    "000000490000002000000000d1ffff972e000000000000000000000000000000"
    "000000000000002000000000d1d1ffe02e2e0000000000000000000000000000")


class Item:
    """What an image holds at a path."""

    def __init__(self, path, kind, executable, spec=0, data=b"", target=None):
        self.path, self.kind, self.executable = path, kind, executable
        self.spec, self.data, self.target = spec, data, target
        self.at = self.next = 0
        self.is_first = False


def laid_out(name, items):
    """The volume header, the root as `.`, its `..`, and then the items in order, each directory with its own two."""
    root = 16 + padded(len(name) + 1)
    at, last, places = root + 64, {(): None}, {(): root}
    for item in items:
        item.at = at
        above = item.path[:-1]
        if above not in last:
            raise Wrong("no directory above %r" % (item.path,))
        item.is_first = last[above] is None
        if not item.is_first:
            last[above].next = at
        last[above] = item
        places[item.path] = at
        at += 16 + padded(len(item.path[-1]) + 1)
        if item.kind == "directory":
            last[item.path] = None
            at += 64
        at += padded(len(item.data))
    firsts = {item.path[:-1]: item.at for item in items if item.is_first}
    parts = [volume(name), header(root + 32, "directory", True, root, 0, b"."),
             header(firsts.get((), 0), "hard", False, root, 0, b"..")]
    for item in items:
        spec = item.spec
        own = item.at + 16 + padded(len(item.path[-1]) + 1)
        if item.kind == "directory":
            spec = own
        if item.kind == "hard":
            if item.target not in places:
                raise Wrong("no item %r" % (item.target,))
            spec = places[item.target]
        parts.append(header(item.next, item.kind, item.executable, spec, len(item.data), item.path[-1]))
        if item.kind == "directory":
            parts.append(header(own + 32, "hard", False, item.at, 0, b"."))
            parts.append(header(firsts.get(item.path, 0), "hard", False, places[item.path[:-1]], 0, b".."))
        parts.append(item.data + bytes(-len(item.data) % 16))
    return finished(parts)


def flat(name, files):
    """An image whose root holds these files, (name, executable, data) each."""
    return laid_out(name, [Item((file,), "regular", executable, data=data) for file, executable, data in files])


# the largest full size
MOST_FULL = 2 ** 32 - 1


def spread():
    """An image of 2^32 - 1 bytes with headers at both ends: its first bytes, the place of its last ones and these. Between
    them are zeros, the data of `big`, whose size comes with them; `end` has 31 bytes of data."""
    last = MOST_FULL - 63
    parts = [volume(b"v"), header(64, "directory", True, 32, 0, b"."), header(96, "hard", False, 32, 0, b"..")]
    size = last - len(b"".join(parts)) - 32
    front = b"".join([*parts, header(last, "regular", False, 0, size, b"big")])
    front = seal(front[:8] + MOST_FULL.to_bytes(4, "big") + front[12:] + bytes(512 - len(front)))
    return front, last, header(0, "regular", False, 0, 31, b"end") + b"e" * 31, size


def write_spread(path):
    """Writes it into a sparse file, and tells the size of `big`."""
    front, last, end, size = spread()
    with open(path, "wb") as out:
        out.write(front)
        out.seek(last)
        out.write(end)
    return size


def path_of(words):
    """A path as `d/x` or, in quotation marks, as bytes: `"d/" then "q" * 255`."""
    if words.begins_text():
        return tuple(words.data().split(b"/"))
    return tuple(plain_bytes(name) for name in words.next().split("/"))


def items_of(words):
    """The items of one line: `+x dir a`, `file a/x "1"`, `link l "d/x"`, `hard m k`, `block b 2 3`, `char c 1 3`,
    `socket s`, `fifo f`; `5000 files f "1"` are f0000 to f4999; `512 dirs d` are each in the one before."""
    executable = words.take("+x")
    kind = words.next()
    if kind == "dir":
        return [Item(path_of(words), "directory", executable)]
    if kind == "file":
        return [Item(path_of(words), "regular", executable, data=words.data())]
    if kind == "link":
        return [Item(path_of(words), "symlink", executable, data=words.data())]
    if kind == "hard":
        return [Item(path_of(words), "hard", executable, target=path_of(words))]
    if kind in ("block", "char"):
        path = path_of(words)
        spec = words.number() << 16 | words.number()
        return [Item(path, {"block": "block", "char": "character"}[kind], executable, spec=spec)]
    if kind in ("socket", "fifo"):
        return [Item(path_of(words), kind, executable)]
    if kind.isdigit() and words.take("files"):
        path, data = path_of(words), words.data()
        return [Item(path[:-1] + (path[-1] + b"%04d" % i,), "regular", executable, data=data) for i in range(int(kind))]
    if kind.isdigit() and words.take("dirs"):
        path = path_of(words)
        return [Item(path[:-1] + path[-1:] * (i + 1), "directory", executable) for i in range(int(kind))]
    raise Wrong("no item: %s" % kind)


def sample():
    """The sample image: a large file, a directory with a file, a symbolic link and a device."""
    return laid_out(b"v", [
        Item((b"big",), "regular", False, data=bytes(i % 251 for i in range(5000))),
        Item((b"d",), "directory", True), Item((b"d", b"x"), "regular", False, data=b"hi"),
        Item((b"l",), "symlink", False, data=b"d/x"), Item((b"null",), "character", False, spec=1 << 16 | 3)])


SAMPLES = {"empty": lambda: EMPTY, "sample": sample}


def row_of(data, words):
    """A row of an attribute trailer: a path, or an offset, and then the mode, the owner, and the last change, as
    `a/x 4755 5:6 -2.750000000`; `/` is the root."""
    if words.words[0][:2] == "0x":
        at = words.number()
    else:
        path = () if words.take("/") else path_of(words)
        at = paths_of(Image(data)).get(path)
        if at is None:
            raise Wrong("no path %r" % (path,))
    mode, owner, time = words.number(8), words.next().split(":"), words.next().split(".")
    return (at, mode, *map(int, owner), *map(int, time), 0)


def edited(data, words):
    """An image after an edit: `at 0x60 word 00001413`, `at 0x14b0 hex 64`, `fill 0x10 0x5f 41`, `keep 15`, `add "more"`, `seal`;
    `trailer` adds an attribute trailer, of the rows that stand behind it, and `part` its second part: the number of each row's
    list, and lists, as `part 1 0 2 list user.a "b" user.b hex 00 list user.c ""`."""
    if words.take("at"):
        at = words.number()
        if words.take("word"):
            new = bytes.fromhex(words.next())
            if len(new) != 4:
                raise Wrong("a word has 8 digits")
        else:
            new = words.data()
    elif words.take("fill"):
        at, last = words.number(), words.number()
        new = bytes.fromhex(words.next()) * (last + 1 - at)
    elif words.take("keep"):
        return data[:words.number()]
    elif words.take("add"):
        return data + words.data()
    elif words.take("trailer"):
        rows = []
        while words.more():
            rows.append(row_of(data, words))
        return data + bytes(-len(data) % 16) + trailer(rows)
    elif words.take("part"):
        numbers, lists = [], []
        while words.more() and words.words[0] != "list":
            numbers.append(words.number())
        while words.take("list"):
            lists.append([])
            while words.more() and words.words[0] != "list":
                name = words.name()
                lists[-1].append((name, words.data()))
        return data + part(numbers, lists)
    else:
        words.expect("seal")
        return seal(data)
    if at + len(new) > len(data) or data[at:at + len(new)] == new:
        raise Wrong("an edit past the end, or one that changes nothing")
    return data[:at] + new + data[at + len(new):]


EDITS = ("at", "fill", "keep", "add", "trailer", "part", "seal")


def image_of(head, lines, known):
    """The bytes of an image: `E = empty`, `twice = F` with edits below, `lower` or `lower volume "name"` with items below."""
    if head.take("="):
        base = head.next()
        if base not in known and base not in SAMPLES:
            raise Wrong("no image: %s" % base)
        data, used = known[base] if base in known else SAMPLES[base](), base
    else:
        name = head.name() if head.take("volume") else b"v"
        items = []
        while lines and lines[0].words[0] not in EDITS:
            items += items_of(lines[0])
            lines.pop(0).end()
        data, used = laid_out(name, items), None
    for line in lines:
        data = edited(data, line)
        line.end()
    head.end()
    return data, used
