"""Random images, layers, stacks and request streams, for checks/fuzz/fuzz.py."""
import struct

from checks.plain.plain_images import DIRECTORY, fault
from checks.shared.build import header, init, name_bytes, request, seal, volume
from checks.shared.images import Item, laid_out
from strata_format.fuse_text import OPCODES

NAMES = [b"a", b"b", b"c", b"d", b".", b"..", b"", b"a/b", b".wh.a", b"fifteen-letters", b"sixteen-letters-", b"x" * 255]
EDGES = [0, 15, 16, 32, 40, 80, 4095, 4096, 0x10000003, 0x0fff0001, 2 ** 31, 2 ** 32 - 1]
KINDS = ["directory", "directory", "hard", "hard", "regular", "regular", "symlink", "block", "character", "socket", "fifo"]
XATTR_NAMES = [b"user.a", b"user.", b"user.abc", b"system.posix_acl_access", b"system.posix_acl_default", b"security.capability", b""]
LAYER_NAMES = [b"a", b"b", b"c", b"aa", b"a b", b"\xff\x01\\", b"seven77", b"eight888", b"front-12345678", b"front-12345679",
               b"n" * 255]
MARKERS = [b".wh.a", b".wh.b", b".wh.aa", b".wh..wh..opq", b".wh.", b".wh..wh.a", b".wh.front-12345678"]


# --- images ---

def random_image(rng):
    """An image of some headers at slots of their own, whose links lead anywhere."""
    names = [rng.choice(NAMES[:6] if rng.random() < 0.8 else NAMES) for _ in range(rng.randrange(1, 14))]
    places, at = [], 32
    for name in names:
        places.append(at)
        at += 16 + len(name_bytes(name)) + rng.choice([0, 0, 16])
    end = at
    parts = [volume(b"v")]
    for index, name in enumerate(names):
        at = places[index]
        after = places[index + 1] if index + 1 < len(places) else 0
        parts.append(random_header(rng, name, at, after, [places, end], index == 0))
        parts.append(bytes((after or end) - at - len(parts[-1])))
    data = b"".join(parts)
    return bytearray(data[:8] + struct.pack(">I", len(data)) + data[12:])


def random_header(rng, name, at, after, image, is_root):
    places, end = image
    anywhere = rng.choice([16, end - 16, end, end + 16, 0]) if rng.random() < 0.03 else rng.choice(places)
    kind = "directory" if is_root else rng.choice(KINDS)
    next_ = rng.choice([0, after, after, after, anywhere])
    spec = rng.choice(places) | rng.randrange(16) if kind in ("directory", "hard") else rng.choice(EDGES)
    if kind == "directory" and rng.random() < 0.3:
        spec = rng.choice([0, at, after])
    size = rng.choice([0, 0, 1, 16, 17, end - at - 32 if end > at + 32 else 0, rng.choice(EDGES)])
    return header(next_ & ~15, kind, rng.random() < 0.5, spec, size, name)


def mutated(rng, data):
    """Some words and bytes changed; the checksum is mostly set again."""
    data = bytearray(data)
    for _ in range(rng.choice([0, 0, 0, 1, 1, 2, 5])):
        kind = rng.randrange(4)
        if kind == 0:
            data[rng.randrange(len(data))] = rng.choice([0, 1, 47, 65, 255, rng.randrange(256)])
        elif kind == 1:
            struct.pack_into(">I", data, rng.randrange(len(data) // 4) * 4, rng.choice(EDGES))
        elif kind == 2:
            slots = range(32, len(data) - 15, 16)
            struct.pack_into(">I", data, rng.choice(slots), rng.choice(slots) | rng.randrange(16))
        else:
            place = rng.randrange(len(data))
            data[place:place + 20] = b"A" * len(data[place:place + 20])
    data = seal(bytes(data)) if rng.random() < 0.95 else bytes(data)
    if rng.random() < 0.03:
        data = data[:rng.randrange(len(data))]
    return data + bytes(rng.choice([0, 0, 0, 7]))


# --- layers and stacks ---

def random_items(rng, path, depth, names):
    """What a directory of a layer holds, in any order."""
    items = []
    for name in rng.sample(names, rng.randrange(len(names) + 1)):
        kind = rng.choice(["directory"] * 5 + ["regular"] * 4 + ["hard"] * 2 + ["symlink", "block", "character", "socket", "fifo"])
        if kind == "directory" and depth == 0:
            kind = "regular"
        data = b""
        if kind in ("regular", "symlink"):
            data = rng.randbytes(rng.choice([0, 1, 2, 15, 16, 17, 600, 4095] + [9000] * 3 * (kind == "regular")))
        spec = rng.choice(EDGES[:9]) & 0x0fffffff
        items.append(Item(path + (name,), kind, rng.random() < 0.5, spec=spec, data=data))
        if kind == "directory":
            items += random_items(rng, path + (name,), depth - 1, names)
    return items


def random_layer(rng):
    """A layer with some names that others have too, markers of all kinds, and hard links."""
    names = rng.sample(LAYER_NAMES, rng.randrange(2, 7)) + rng.sample(MARKERS, rng.choice([0, 0, 1, 2]))
    items = random_items(rng, (), rng.choice([0, 1, 1, 2, 2, 3]), names)
    ends = [item for item in items if item.kind not in ("directory", "hard")]
    for item in items:
        if item.kind == "hard" and not ends:
            item.kind = "fifo"
        elif item.kind == "hard":
            links = [other for other in items[:items.index(item)] if other.kind == "hard"]
            item.target = rng.choice(ends + links).path
    data = laid_out(rng.choice([b"", b"v", b"volume-of-sixteen"]), items)
    return mutated(rng, data) if rng.random() < 0.03 else data


def others_of(rng):
    """Sound images of another layout that may stand in a stack, or none."""
    return [data for data in [mutated(rng, random_image(rng)) for _ in range(4)] if fault(data) is None]


def random_stack(rng, others):
    """Some layers, and sometimes images of another layout among them."""
    return [rng.choice(others) if others and rng.random() < 0.2 else random_layer(rng) for _ in range(rng.randrange(1, 7))]


def long_stack(rng):
    """One to three layers over a folder of hundreds or thousands of names: some are replaced above, some removed."""
    width, here = rng.choice([0, 0, 0, 4, 9, 60, 240]), (b"d",)
    names = [b"%x" % at + b"n" * rng.randrange(width + 1) for at in range(rng.choice([600, 1500, 3000]))]
    layers = []
    for number in range(rng.choice([1, 1, 2, 3])):
        items = [Item(here, "directory", True)]
        shown = names if number == 0 else rng.sample(names, rng.randrange(len(names)))
        for name in shown:
            kind = rng.choice(["fifo", "socket", "regular", "directory", "symlink"])
            items.append(Item(here + (name,), kind, rng.random() < 0.5, data=b"target" * (kind in ("regular", "symlink"))))
        gone = [] if number == 0 else rng.sample([name for name in names if len(name) <= 251], 20)
        items += [Item(here + (b".wh." + name,), "regular", False) for name in gone]
        layers.append(laid_out(b"v", items))
    return layers


# --- requests ---

def near(rng, *numbers):
    """One of these numbers, or one next to it."""
    return max(0, rng.choice(numbers) + rng.choice([-1, 0, 0, 0, 1]))


def random_name(rng, stack, node):
    children = [name for name, _ in stack.children(node)] if stack.has(node) else []
    if children and rng.random() < 0.6:
        return rng.choice(children)
    return rng.choice([rng.choice(LAYER_NAMES), rng.choice(MARKERS), b"missing", b".", b"..", b".", b"..", b"", b"in\0side",
                       b"q" * near(rng, 255, 256), b"q" * rng.randrange(1, 400)])


def rows_body(rng, stack, node, plus):
    """Where and how much to read of a directory: near the ends of rows."""
    names = [b".", b".."] + [name for name, _ in (stack.children(node) if stack.has(node) else [])]
    lengths = [24 + (len(name) + 7) // 8 * 8 + 128 * plus for name in names]
    offset = rng.choice([0, rng.randrange(len(names) + 2), near(rng, len(names)), 2 ** 64 - 1])
    count = rng.randrange(len(names) + 1)
    size = rng.choice([near(rng, sum(lengths[offset:offset + count])), rng.randrange(700), 4096, 2 ** 20])
    return read_body(offset, rng.choice([size] * 9 + [2 ** 20 + 1]))


def xattr_body(rng, stack, node, is_one):
    """A size near that of a value, with its name, or near that of all names."""
    items = stack.xattrs(node) if stack.has(node) else []
    name, value = rng.choice([*items, *items, *[(name, b"") for name in XATTR_NAMES]])
    length = len(value) if is_one else sum(len(each) + 1 for each, _ in items)
    size = rng.choice([0, near(rng, length), near(rng, length), 65536, 2 ** 32 - 1])
    return struct.pack("<2I", size, rng.choice([0, 0, 1])) + (name + rng.choice([b"\0"] * 12 + [b"", b"\0\0"])) * is_one


def read_body(offset, size):
    return struct.pack("<2Q2IQ2I", 7, offset, size, 1, 2, 3, 0)


def init_body(rng):
    major = rng.choice([7] * 12 + [0, 6, 8, 2 ** 32 - 1])
    minor = rng.choice([31, 31, 31, 39, 23, 22, 12, 11, 0, 2 ** 32 - 1, rng.randrange(40)])
    readahead = rng.choice([0, 131072, 1048575, 1048576, 1048577, 2 ** 32 - 1])
    return struct.pack("<4I", major, minor, readahead, random_flags(rng))


def random_flags(rng):
    """Flags of an INIT: a few, most, or any; and a kernel's."""
    return rng.choice([0, 0x10, 0x6001, 0x6011, 0x73fffffb, 2 ** 32 - 1, *[rng.randrange(2 ** 32) for _ in range(3)]])


def random_body(rng, name, stack, node):
    """A body that fits an opcode."""
    if name == "INIT":
        return init_body(rng) + bytes(rng.choice([0, 48]))
    if name == "LOOKUP":
        return random_name(rng, stack, node) + rng.choice([b"\0"] * 12 + [b"", b"\0\0", b"\0x"])
    if name in ("READDIR", "READDIRPLUS"):
        return rows_body(rng, stack, node, name == "READDIRPLUS")
    if name == "READ":
        size = len(stack.body(node)) if stack.has(node) else 0
        return read_body(rng.choice([near(rng, 0, size, 4096), rng.randrange(size + 10), 2 ** 64 - 1, 2 ** 32]),
                         rng.choice([near(rng, 0, size, 4096), 8192, 2 ** 20, 2 ** 20 + 1, 2 ** 32 - 1]))
    if name in ("GETXATTR", "LISTXATTR"):
        return xattr_body(rng, stack, node, name == "GETXATTR")
    if name in ("OPEN", "OPENDIR"):
        return struct.pack("<2I", rng.choice([0, 0, 0, 0x8000, 1, 2, 3, 0x8002, 2 ** 32 - 4, 2 ** 32 - 1]), 0)
    if name == "FORGET":
        return struct.pack("<Q", rng.choice([0, 1, 1, 2, 3, 2 ** 64 - 1]))
    if name == "BATCH_FORGET":
        items = [(random_node(rng, stack), rng.choice([0, 1, 2, 2 ** 64 - 1])) for _ in range(rng.randrange(6))]
        count = rng.choice([len(items), near(rng, len(items)), 2 ** 32 - 1])
        return struct.pack("<2I", count, 0) + b"".join(struct.pack("<2Q", *item) for item in items)
    return bytes(rng.choice([0, 16, 24, 48]))


def random_node(rng, stack):
    count = len(stack.places) - 1
    return rng.choice([1, 1, rng.randrange(1, count + 1), rng.randrange(1, count + 1), near(rng, 0, count), 2 ** 64 - 1])


COMMON = ["LOOKUP"] * 5 + ["READ", "READ", "GETATTR", "READDIR", "READDIRPLUS", "FORGET", "BATCH_FORGET"] * 2 + [
    "READLINK", "OPEN", "OPEN", "OPENDIR", "OPENDIR", "FLUSH", "STATFS", "DESTROY", "INTERRUPT", "RELEASE", "INIT",
    "GETXATTR", "GETXATTR", "LISTXATTR"]


def random_message(rng, unique, stack):
    node = random_node(rng, stack)
    name = rng.choice(COMMON)
    opcode, body = OPCODES[name], random_body(rng, name, stack, node)
    if rng.random() < 0.1:
        opcode = rng.choice([rng.randrange(61), 4096, 2 ** 32 - 1])
    change = rng.random()
    if change < 0.06:
        body = body[:rng.randrange(len(body) + 1)]
    elif change < 0.1:
        body += bytes(rng.randrange(1, 50))
    return request(opcode, unique, node, body)


def random_stream(rng, stack):
    """Requests over a stack; one stream in three breaks off somewhere, or says a bad length."""
    parts = [] if rng.random() < 0.1 else [init(1, minor=rng.choice([31, 39, 12, 22]), flags=random_flags(rng))]
    for unique in range(2, rng.choice([2, 10, 40, 40, 600])):
        parts.append(random_message(rng, unique, stack))
        if rng.random() < 0.02:
            parts.append(init(unique, flags=random_flags(rng)))
    return broken_off(rng, b"".join(parts))


def broken_off(rng, stream):
    """A stream, which in one case of three breaks off somewhere, or says a bad length."""
    ending = rng.randrange(9)
    if ending == 0:
        stream = stream[:rng.randrange(len(stream) + 1)]
    elif ending == 1:
        stream += struct.pack("<I", rng.choice([0, 1, 39, 1052673, 2 ** 32 - 1])) + bytes(rng.randrange(0, 50))
    elif ending == 2:
        stream += rng.choice([bytes(rng.randrange(0, 4)), struct.pack("<I", 1052672) + bytes(rng.randrange(0, 70))])
    return stream


# the most bytes of replies of a long stream
MOST_LONG = 8 << 20


def list_sizes(rng, rows):
    """A few sizes of lists, most of which so many rows fill or nearly fill: only then are workers started."""
    sizes = [32 * rows, 32 * rows, 16 * rows, 60 * rows, 8192, rng.randrange(5000, 140000), 2 ** 20]
    return [max(5000, near(rng, rng.choice(sizes))) for _ in range(rng.choice([1, 1, 2, 4]))]


def long_stream(rng, stack):
    """Requests many of which are for long lists, so many at a time that workers are started for them."""
    node = max(range(1, len(stack.places)), key=lambda number: len(stack.children(number)))
    lengths = [24 + (len(name) + 7) // 8 * 8 for name, _ in stack.children(node)]
    sizes, share = list_sizes(rng, len(lengths)), rng.choice([1.0, 0.97, 0.8, 0.5])
    offsets = [rng.choice([0, 0, 0, len(lengths) // 2, near(rng, len(lengths))]) for _ in range(2)]
    parts, left = [init(1, flags=random_flags(rng))], MOST_LONG
    for unique in range(2, rng.choice([200, 400, 1000])):
        if rng.random() < share and left > 0:
            size = rng.choice(sizes)
            left -= min(size, sum(lengths))
            parts.append(request(OPCODES["READDIR"], unique, node, read_body(rng.choice(offsets), size)))
        else:
            parts.append(random_message(rng, unique, stack))
        if rng.random() < 0.01:
            parts.append(init(unique, flags=random_flags(rng)))
    return broken_off(rng, b"".join(parts))


def kinds_of(stack):
    """How many directories and other nodes a stack has."""
    kinds = [stack.kind(number) == DIRECTORY for number in range(1, len(stack.places))]
    return sum(kinds), len(kinds) - sum(kinds)
