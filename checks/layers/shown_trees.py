"""What strata shows of stacked images, path by path: what `list` prints, and what `serve` answers for each node."""
import collections
import struct
import subprocess

from checks.plain import plain
from checks.shared.build import getattr_, init, request
from checks.shared.text import plain_bytes

READLINK, READ = 5, 15
READ_MOST = 1 << 20
FILE, LINK = 0o100000, 0o120000
Shown = collections.namedtuple("Shown", "number mode nlink size layer rdev data")


class Unlike(Exception):
    """What is shown is not what should be."""


def ran(strata, words, given=b""):
    done = subprocess.run([strata, *words], input=given, stdout=subprocess.PIPE, stderr=subprocess.PIPE, check=False)
    if done.returncode != 0:
        raise Unlike("strata %s: status %d: %s" % (words[0], done.returncode, done.stderr.decode(errors="replace").strip()))
    return done.stdout


def read_request(unique, number, offset):
    return request(READ, unique, number, struct.pack("<2Q2IQ2I", 0, offset, READ_MOST, 0, 0, 0, 0))


def requests_of(rows):
    """The requests that read each node once: its attributes, and the data of a file or the target of a link."""
    parts, asked = [init(0)], []
    for number, (mode, size) in sorted(rows.items()):
        parts.append(getattr_(len(parts), number))
        asked.append((number, "attributes"))
        if mode & 0o170000 == LINK:
            parts.append(request(READLINK, len(parts), number))
            asked.append((number, "data"))
        if mode & 0o170000 == FILE:
            for offset in range(0, size + 1, READ_MOST):
                parts.append(read_request(len(parts), number, offset))
                asked.append((number, "data"))
    return b"".join(parts), asked


def replies_in(stream):
    """The data of the replies, one after another; the unique of each must be its place."""
    at, found = 0, []
    while at < len(stream):
        length, error, unique = struct.unpack_from("<IiQ", stream, at)
        if error or unique != len(found):
            raise Unlike("reply %d is of request %d, with error %d" % (len(found), unique, error))
        found.append(stream[at + 16:at + length])
        at += length
    return found


def shown_tree(strata, images):
    """The paths that a stack of images shows, each a tuple of names."""
    ran(strata, ["check", "--strict", *images])
    lines = [line.split(" ", 5) for line in ran(strata, ["list", "--strict", *images]).decode("ascii").splitlines()]
    rows = {int(line[0]): (int(line[1], 8), int(line[3])) for line in lines}
    stream, asked = requests_of(rows)
    answers = replies_in(ran(strata, ["serve", *images], stream))[1:]
    data, attributes = collections.defaultdict(bytes), {}
    if len(answers) != len(asked):
        raise Unlike("%d replies to %d requests" % (len(answers), len(asked)))
    for (number, what), answer in zip(asked, answers):
        if what == "data":
            data[number] += answer
        else:
            attributes[number] = struct.unpack_from("<QQ", answer, 16)[:2] + struct.unpack_from("<5I", answer, 76)
    return {path_of(line[5]): shown_of(line, data, attributes) for line in lines}


def shown_of(line, data, attributes):
    number, mode, nlink, size, layer = int(line[0]), int(line[1], 8), *map(int, line[2:5])
    if attributes[number][:4] != (number, size, mode, nlink):
        raise Unlike("node %d: its attributes are %r" % (number, attributes[number]))
    return Shown(number, mode, nlink, size, layer, attributes[number][6], data[number])


def path_of(text):
    return tuple(plain_bytes(name) for name in text.split("/") if name)


def wanted_tree(nodes):
    """What must be shown of nodes by path, which are in order (checks/plain/plain_layers.py)."""
    numbers, names = {}, collections.Counter()
    for path, node in nodes.items():
        numbers.setdefault(id(node), len(numbers) + 1)
        names[id(node)] += 1
        if path and node.mode() & 0o170000 == 0o040000:
            names[id(nodes[path[:-1]])] += 1
    wanted = {}
    for path, node in nodes.items():
        # a directory has a name, its own `.`, and the `..` of those in it
        nlink = names[id(node)] + (node.mode() & 0o170000 == 0o040000)
        wanted[path] = Shown(numbers[id(node)], node.mode(), nlink, len(node.data), node.layer, node.rdev, node.data)
    return wanted


def read(path):
    with open(path, "rb") as it:
        return it.read()


def compare_attributes(nodes, images):
    """Holds what the trailers of images say, by the plain reading of these, against nodes by path."""
    stack = plain.stack_of([read(path) for path in images], True, True)
    wanted = {path: node.attributes() for path, node in nodes.items()}
    compare(wanted, {path: stack.attributes(number) for path, number in stack.paths.items()})


def compare(wanted, got):
    for path in sorted({*wanted, *got}):
        if wanted.get(path) != got.get(path):
            raise Unlike("%r should be %s, and is %s" % (b"/".join(path), *(str(tree.get(path))[:400] for tree in (wanted, got))))
