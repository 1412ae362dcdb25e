"""Honest and hostile images, stacks and request streams, for checks/speed/bench.py."""
import os
import random
import struct
from collections import namedtuple

from checks.shared.build import finished, getattr_, header, init, lookup, padded, request, volume
from checks.shared.images import flat

MIB = 1 << 20
# what the counts of stacks and streams are divided by
DIVIDED = 1


def divided(make):
    """What a function makes of its count, which is its one default."""
    return make(max(2, make.__defaults__[0] // DIVIDED))


# --- images ---

def laid_out(heads, least=0):
    """An image of these headers, (kind, next, spec, size, name, extra bytes) each, links by number and -1 for none; it has
    at least so many bytes."""
    places, at = [], 32 + 32
    for _, _, _, _, name, extra in heads:
        places.append(at)
        at += 16 + padded(len(name) + 1) + extra
    parts = [volume(b"bench"), header(places[0], "directory", True, 32, 0, b".")]
    for kind, next_, spec, size, name, extra in heads:
        links = kind in ("directory", "hard")
        parts.append(header(places[next_] if next_ >= 0 else 0, kind, False,
                            (places[spec] if spec >= 0 else 0) if links else 0, size, name))
        parts.append(bytes(extra))
    data = finished(parts)
    return data + bytes(max(0, least - len(data)))


def chained(kind, names, first=0, spec=-1, extra=0):
    """Headers of one directory, that stand one after another from number `first` on."""
    last = first + len(names) - 1
    return [(kind, first + at + 1 if first + at < last else -1, spec, extra if kind == "regular" else 0, name, extra)
            for at, name in enumerate(names)]


def folders(count, files, extra=0, mark=b"", end=b""):
    """Headers of so many directories in the root with so many files each, whose names end with some bytes."""
    heads, each = [], files + 1
    for number in range(count):
        here = number * each
        heads.append(("directory", here + each if number < count - 1 else -1, here + 1, 0, b"d%s%d" % (mark, number), extra))
        heads += chained("regular", [b"f%s%d%s" % (mark, file, end) for file in range(files)], here + 1, extra=extra)
    return heads


# images of 16 MiB with 200,000 headers, for the check
HEADERS = 200_000
SIZE = 16 * MIB


def divide(by):
    """Makes all inputs that are written from here on smaller."""
    global HEADERS, SIZE, DIVIDED
    HEADERS, SIZE, DIVIDED = HEADERS // by, SIZE // by, by


def spread(count):
    """Bytes beside each of so many headers of 32 bytes, so that the image has about 16 MiB."""
    return max(0, (SIZE - 100) // count // 16 * 16 - 32)


def honest():
    """200 directories of 999 files each."""
    return laid_out(folders(HEADERS // 1000, 999, spread(HEADERS)), SIZE)


def shared_tail():
    """200,000 directories whose chains are one chain of 1,000 files."""
    extra = spread(HEADERS + 1000)
    directories = chained("directory", [b"d%d" % number for number in range(HEADERS)], spec=HEADERS, extra=extra)
    return laid_out(directories + chained("regular", [b"f%d" % file for file in range(1000)], HEADERS, extra=extra), SIZE)


def nested_merges():
    """100,000 directories, the chain of each beginning one file later in one chain of 100,000 files."""
    extra, half = spread(HEADERS), HEADERS // 2
    heads = [("directory", number + 1 if number < half - 1 else -1, half + number, 0, b"d%d" % number, extra)
             for number in range(half)]
    return laid_out(heads + chained("regular", [b"f%d" % file for file in range(half)], half, extra=extra), SIZE)


def hard_links():
    """A chain of 200,000 hard links, each to the next one."""
    extra = spread(HEADERS)
    heads = [("hard", link + 1, link + 1, 0, b"h%d" % link, extra) for link in range(HEADERS - 1)]
    return laid_out(heads + [("regular", -1, -1, 0, b"end", extra)], SIZE)


def one_directory():
    """200,000 names in the root."""
    return laid_out(chained("regular", [b"f%d" % file for file in range(HEADERS)], extra=spread(HEADERS)), SIZE)


def deep():
    """200,000 directories, each in the one before."""
    extra = spread(HEADERS)
    return laid_out([("directory", -1, place + 1 if place < HEADERS - 1 else -1, 0, b"d", extra) for place in range(HEADERS)], SIZE)


IMAGES = {it.__name__: it for it in (honest, shared_tail, nested_merges, hard_links, one_directory, deep)}


# --- stacks: the lowest layer first; how many headers a layer has, the bytes of its names, and how often it stands ---

Layer = namedtuple("Layer", "image headers names times")


def layer(heads, times=1):
    return Layer(laid_out(heads), len(heads) + 1, sum(len(head[4]) for head in heads), times)


def in_folder(heads, times=1):
    """A layer with one directory, which holds these headers; their numbers begin with 1."""
    return layer([("directory", -1, 1, 0, b"d", 0), *heads], times)


def names(form, count, kind="regular", first=0, spec=-1):
    return chained(kind, [form % number for number in range(count)], first, spec)


def honest_stack(stack):
    """As many layers, headers, bytes of names and bytes in all as another stack, each layer with directories of up to 1,000
    files of its own. Names are read and kept, and data are not."""
    layers, headers = sum(it.times for it in stack), sum(it.headers * it.times for it in stack)
    name = sum(it.names * it.times for it in stack) // headers
    each = headers // layers
    count = (each + 999) // 1000
    extra = max(0, sum(len(it.image) * it.times for it in stack) // headers // 16 * 16 - 16 - padded(name + 1))
    marks = [b"-%d-" % number for number in range(layers)]
    return [layer(folders(count, each // count - 1, extra, mark, b"q" * (name - len(b"f%s999" % mark)))) for mark in marks]


def names_and_markers(count=200_000):
    """One directory with many names, and as many markers over it."""
    return [in_folder(names(b"name-%d", count, first=1)), in_folder(names(b".wh.name-%d", count, first=1))]


def layers_of_markers(count=2000):
    """127 layers of as many markers, over the same names."""
    return [in_folder(names(b"name-%d", count, first=1)), in_folder(names(b".wh.name-%d", count, first=1), 127)]


def hidden_and_back(count=2000):
    """128 layers, of names and of markers for them by turns."""
    return names_and_markers(count) * 64


def opaque_layers(count=2000):
    """128 layers of the same names in an opaque directory."""
    return [in_folder(chained("regular", [*[b"name-%d" % number for number in range(count)], b".wh..wh..opq"], 1), 128)]


def same_paths(count=10_000):
    """128 layers of the same paths."""
    return [layer(folders((count + 999) // 1000, min(999, count - 1)), 128)]


def many_links(count=65_000):
    """One file with many names in one directory."""
    return [layer([("regular", 1, -1, 0, b"a", 0), *names(b"h%d", count, "hard", 1, 0)])]


def links_in_folders(count=65_000):
    """One file with many names in many directories."""
    each, heads = min(1000, count), [("regular", 1, -1, 0, b"a", 0)]
    for number in range(count // each):
        here, is_last = len(heads), number == count // each - 1
        heads.append(("directory", -1 if is_last else here + each + 1, here + 1, 0, b"d%d" % number, 0))
        heads += names(b"h%d", each, "hard", here + 1, 0)
    return [layer(heads)]


def links_to_links(count=65_000):
    """A chain of hard links, each to the next one."""
    heads = [("hard", link + 1, link + 1, 0, b"h%d" % link, 0) for link in range(count)]
    return [layer([*heads, ("regular", -1, -1, 0, b"end", 0)])]


def deep_folders(count=100_000):
    """Chains of directories, each in the one before, 512 deep."""
    depth, heads = min(512, count), []
    for number in range(count // depth):
        here, is_last = len(heads), number == count // depth - 1
        heads.append(("directory", -1 if is_last else here + depth, here + 1, 0, b"d%d" % number, 0))
        heads += [("directory", -1, here + level + 1 if level < depth - 1 else -1, 0, b"d", 0) for level in range(1, depth)]
    return [layer(heads)]


def long_names(count=65_000):
    """Names of 255 bytes that begin with the same 249."""
    return [layer(names(b"q" * 249 + b"%06d", count))]


def names_of_two_keys(count=65_000):
    """Names of 255 bytes that begin with one of two texts of 249, in no order."""
    numbers = list(range(count))
    random.Random(1).shuffle(numbers)
    return [layer(chained("regular", [(b"p", b"q")[number % 2] * 249 + b"%06d" % number for number in numbers]))]


# what the words of a name of 24 bytes are multiplied by before their sum is its hash (`hashed` of layer_names)
FIRST, MIDDLE, LAST = 0xff51_afd7_ed55_8ccd, 0xc4ce_b9fe_1a85_ec53, 0xd6e8_feb8_6659_fd93


def names_of_one_hash(count):
    """Names of 24 bytes, each with the last word that makes this sum 0."""
    found, number, undone = [], 0, pow(LAST, -1, 1 << 64)
    while len(found) < count:
        word = b"%08d" % number
        last = -int.from_bytes(word, "little") * (FIRST + MIDDLE) * undone % (1 << 64)
        name = word * 2 + last.to_bytes(8, "little")
        if b"\0" not in name and b"/" not in name:
            found.append(name)
        number += 1
    return found


def names_alike_by_hash(count=65_000):
    """Names of 24 bytes that have one hash."""
    return [layer(chained("regular", names_of_one_hash(count)))]


STACKS = {it.__name__: it for it in (
    names_and_markers, layers_of_markers, hidden_and_back, opaque_layers, same_paths, many_links, links_in_folders,
    links_to_links, deep_folders, long_names, names_of_two_keys, names_alike_by_hash)}


# --- streams of dear requests: an image, an honest stream and a hostile one of the same size ---

def read_request(opcode, unique, node, offset, size):
    return request(opcode, unique, node, struct.pack("<2Q2IQ2I", 0, offset, size, 0, 0, 0, 0))


def of_requests(make, values):
    return init(1) + b"".join(make(unique, value) for unique, value in enumerate(values, 2))


def rows_from_each_offset(count=100_000):
    """READDIRPLUS of one row of a large directory, from the first offsets; from each offset, last ones first."""
    image = laid_out(names(b"f%06d", count))
    def make(unique, offset):
        return read_request(44, unique, 1, offset, 200)
    return image, of_requests(make, [number % 100 for number in range(count)]), of_requests(make, range(count, 0, -1))


def lookups_of_long_names(count=65_000):
    """LOOKUPs of names of 255 bytes that differ at their beginning; at their end."""
    rng = random.Random(1)
    heads = names(b"%06d" + b"q" * 249, count) + names(b"q" * 249 + b"%06d", count, first=count)
    heads[count - 1] = ("regular", count, *heads[count - 1][2:])
    wanted = [rng.randrange(count) for _ in range(3 * count)]
    return (laid_out(heads), of_requests(lambda unique, it: lookup(unique, 1, b"%06d" % it + b"q" * 249), wanted),
            of_requests(lambda unique, it: lookup(unique, 1, b"q" * 249 + b"%06d" % it), wanted))


def lookups_of_one_hash(count=65_000):
    """LOOKUPs of names of 24 bytes; of as many that have one hash."""
    rng = random.Random(1)
    others, alike = [b"%08d" % number * 3 for number in range(count)], names_of_one_hash(count)
    wanted = [rng.randrange(count) for _ in range(3 * count)]
    return (laid_out(chained("regular", others + alike)), of_requests(lambda unique, it: lookup(unique, 1, others[it]), wanted),
            of_requests(lambda unique, it: lookup(unique, 1, alike[it]), wanted))


def reads_at_odd_offsets(count=2000):
    """READs of 1 MiB at multiples of 4,096; at odd offsets."""
    rng = random.Random(1)
    image = laid_out([("regular", -1, -1, 8 * MIB, b"a", 8 * MIB)])
    offsets = [rng.randrange(7 * MIB // 4096) * 4096 for _ in range(count)]
    def make(unique, offset):
        return read_request(15, unique, 2, offset, MIB)
    return image, of_requests(make, offsets), of_requests(make, [offset + 4095 for offset in offsets])


def batches_of_forgets(count=20):
    """FORGETs of many nodes; as many bytes of BATCH_FORGETs with 65,789 items of the same nodes each."""
    rng = random.Random(1)
    nodes = [rng.randrange(1, 70_000) for _ in range(65_789)]
    batch = request(42, 2, 0, struct.pack("<2I", 65_789, 0) + b"".join(struct.pack("<2Q", node, 1) for node in nodes))
    forgets = of_requests(lambda unique, it: request(2, unique, nodes[it % 65_789], struct.pack("<Q", 1)),
                          range(count * len(batch) // 48))
    return laid_out(names(b"f%06d", 65_000)), forgets, init(1) + batch * count


def smallest_messages(count=1_000_000):
    """GETATTRs; as many messages of an opcode that is not served, without a body."""
    return (laid_out(names(b"f%06d", 1000)), of_requests(lambda unique, it: getattr_(unique, it % 1000 + 1), range(count)),
            of_requests(lambda unique, it: request(4096, unique, it), range(count)))


STREAMS = {it.__name__: it for it in (
    rows_from_each_offset, lookups_of_long_names, lookups_of_one_hash, reads_at_odd_offsets, batches_of_forgets,
    smallest_messages)}


# --- files of them ---

def written(folder, name, data):
    path = os.path.join(folder, name)
    with open(path, "wb") as out:
        out.write(data)
    return path


def write_image(name, folder):
    return written(folder, "image", IMAGES[name]())


def write_begin(folder):
    """A stream of one INIT."""
    return written(folder, "requests", init(1))


def write_stacks(name, folder):
    """How many headers a stack has, the paths of its layers, and those of an honest stack of its size."""
    stack = divided(STACKS[name])
    paths = [[path for number, it in enumerate(made) for path in [written(folder, "%s-%d" % (mark, number), it.image)] * it.times]
             for mark, made in (("hostile", stack), ("honest", honest_stack(stack)))]
    return sum(it.headers * it.times for it in stack), *paths


def write_streams(name, folder):
    image, honest_, hostile = divided(STREAMS[name])
    return written(folder, "image", image), written(folder, "honest", honest_), written(folder, "hostile", hostile)


def write_million(folder):
    """An image of 5,000 files, and a million LOOKUPs and GETATTRs."""
    names_, rng = [b"file-%04d" % number for number in range(5000)], random.Random(1)
    wanted = [rng.randrange(5000) for _ in range(1_000_000)]
    requests = of_requests(lambda unique, it: getattr_(unique, it + 1) if unique % 2 else lookup(unique, 1, names_[it]), wanted)
    return written(folder, "image", flat(b"bench", [(name, False, name) for name in names_])), written(folder, "requests", requests)


def read(unique, node, offset, size):
    return request(15, unique, node, struct.pack("<QQIIQII", 0, offset, size, 0, 0, 0, 0))


def readdirplus(unique, node, offset, size):
    return request(44, unique, node, struct.pack("<QQIIQII", 0, offset, size, 0, 0, 0, 0))


def bulk_reads():
    """A file of 16 MiB in READs of 128 KiB, sixty times."""
    size = 131_072
    return [read(unique, 2, unique % 128 * size, size) for unique in range(60 * 128)]


def bulk_rows():
    """A directory of 20,000 names in READDIRPLUSes of 128 KiB, 819 rows of 160 bytes each, sixty times."""
    return [readdirplus(unique, 3, unique % 25 * 819, 131_072) for unique in range(60 * 25)]


def bulk_mix():
    """READs of 16 KiB, READDIRPLUSes of 16 KiB and GETATTRs, in turn."""
    kinds = (lambda unique: read(unique, 2, unique % 1024 * 16_384, 16_384),
             lambda unique: readdirplus(unique, 3, unique % 196 * 102, 16_384), lambda unique: getattr_(unique, 4 + unique % 20_000))
    return [kinds[unique % 3](unique) for unique in range(60_000)]


def bulk_lists():
    """The same directory in READDIRs of 128 KiB, 4,096 rows of 32 bytes each: rounds that are worth workers."""
    return [request(28, unique, 3, struct.pack("<QQIIQII", 0, unique % 4 * 4096, 131_072, 0, 0, 0, 0)) for unique in range(1500)]


BULK = {it.__name__: it for it in (bulk_reads, bulk_rows, bulk_mix, bulk_lists)}


def write_bulk(name, folder):
    """An image of a large file and a large directory, and a stream whose replies are long."""
    size, names_ = 16 * MIB, [b"%05d" % number for number in range(20_000)]
    heads = [("regular", 1, -1, size, b"a", size), ("directory", -1, 2, 0, b"d", 0), *chained("regular", names_, 2)]
    image = laid_out(heads)
    return written(folder, "image", image), written(folder, "requests", b"".join([init(1), *BULK[name]()]))


def write_lookups(folder):
    """Images and streams: a million LOOKUPs over 100,000 files, and a million GETATTRs over 1,000."""
    rng = random.Random(2)
    wanted = [rng.randrange(100_000) for _ in range(1_000_000)]
    large, small = laid_out(names(b"file-%06d", 100_000)), laid_out(names(b"f%06d", 1000))
    return ((written(folder, "large", large), written(folder, "lookups", of_requests(
                lambda unique, it: lookup(unique, 1, b"file-%06d" % it), wanted))),
            (written(folder, "small", small), written(folder, "attributes", of_requests(
                lambda unique, it: getattr_(unique, it % 1000 + 1), wanted))))


def write_packets(folder):
    """An image of one file, and 500,000 bytes of GETATTRs."""
    return (written(folder, "image", flat(b"bench", [(b"file", False, b"1")])),
            written(folder, "packets", of_requests(lambda unique, it: getattr_(unique, it), [1] * (8927 // DIVIDED))))
