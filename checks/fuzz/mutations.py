"""Real images and real requests, changed a little, for checks/fuzz/fuzz.py.

The images are genromfs's of small folders that are made on the spot. The requests are those of demo/kernel.fuse, which a
kernel made of a mount of the demo's two layers (checks/demo/record.py), and those of demo/requests.fuse.
"""
import os
import random
import shutil
import struct
import subprocess
import tempfile

from checks import ROOT
from checks.plain.plain_replies import split
from checks.shared.build import request, seal
from checks.shared.random_inputs import EDGES, LAYER_NAMES, MARKERS, broken_off
from strata_format.fuse_text import OPCODES

DEMO = ROOT + "/demo"
FOLDERS = 24


# --- images of genromfs ---

class Made:
    """Images that genromfs makes of random folders, each once."""

    def __init__(self):
        self.images = {}

    def image(self, rng):
        number = rng.randrange(FOLDERS)
        if number not in self.images:
            self.images[number] = image_of(random.Random("folder %d" % number))
        return self.images[number]


def has_genromfs():
    return shutil.which("genromfs") is not None


def image_of(rng):
    """genromfs's image of a random folder."""
    with tempfile.TemporaryDirectory(prefix="strata-folder-") as place:
        root = os.path.join(place, "root").encode()
        os.mkdir(root)
        fill(rng, root, rng.choice([1, 2, 3]))
        out = os.path.join(place, "image")
        subprocess.run(["genromfs", "-d", root, "-f", out, "-V", rng.choice(["v", "fifteen-letters", "volume-of-sixteen"])],
                       stdin=subprocess.DEVNULL, stderr=subprocess.DEVNULL, check=True)
        with open(out, "rb") as it:
            return it.read()


def fill(rng, folder, depth):
    """Puts random entries into a folder; some of them are markers, links, fifos and hard links."""
    names = rng.sample([name for name in LAYER_NAMES + MARKERS if name != b".wh."], rng.randrange(1, 9))
    files = []
    for name in names:
        path, kind = folder + b"/" + name, rng.choice(["file", "file", "file", "link", "fifo", "hard", "folder", "folder"])
        if kind == "folder" and depth > 0:
            os.mkdir(path)
            fill(rng, path, depth - 1)
        elif kind == "link":
            os.symlink(rng.choice([b"a", b"../b", b"x" * 300]), path)
        elif kind == "fifo":
            os.mkfifo(path)
        elif kind == "hard" and files:
            os.link(rng.choice(files), path)
        else:
            with open(path, "wb") as out:
                out.write(rng.randbytes(rng.choice([0, 1, 15, 16, 17, 700, 5000])))
            os.chmod(path, rng.choice([0o644, 0o755]))
            files.append(path)


def mutated_image(rng, data):
    """An image with some bits flipped, records swapped, or words of headers changed; its sum is mostly set again."""
    data = bytearray(data)
    heads = [at for at in range(32, len(data) - 31, 16) if looks_like_head(data, at)] or [32]
    for _ in range(rng.choice([0, 1, 1, 1, 2, 3, 8])):
        rng.choice([flip, swap, change_word, copy_word])(rng, data, heads)
    data = bytes(data) if rng.random() < 0.1 else seal(bytes(data))
    return data[:rng.randrange(len(data))] if rng.random() < 0.03 else data


def looks_like_head(data, at):
    """Whether the words of 32 bytes sum to 0, as those of a header with a short name do."""
    return sum(struct.unpack_from(">8I", data, at)) % 2 ** 32 == 0 and any(data[at:at + 32])


def flip(rng, data, heads):
    """Flips a bit: of a header mostly."""
    at = rng.choice(heads) + rng.randrange(32) if rng.random() < 0.8 else rng.randrange(len(data))
    data[min(at, len(data) - 1)] ^= 1 << rng.randrange(8)


def swap(rng, data, heads):
    """Swaps two headers with their names, or all of them but where they lead."""
    one, other = rng.choice(heads), rng.choice(heads)
    front = rng.choice([0, 4, 16])
    one, other, size = one + front, other + front, 32 - front
    data[one:one + size], data[other:other + size] = data[other:other + size], data[one:one + size]


def change_word(rng, data, heads):
    """Changes a word of a header: to a number at an edge, or a little."""
    at = rng.choice(heads) + rng.choice([0, 4, 4, 8, 8, 12])
    before = struct.unpack_from(">I", data, at)[0]
    near = before + rng.choice([-16, -1, 1, 8, 16, 32]) & 0xffffffff
    struct.pack_into(">I", data, at, rng.choice([near, near, rng.choice(EDGES), len(data), len(data) - at]) & 0xffffffff)


def copy_word(rng, data, heads):
    """Lets a header lead to where another one stands or leads."""
    one, other = rng.choice(heads), rng.choice(heads)
    word = rng.choice([other, struct.unpack_from(">I", data, other)[0], struct.unpack_from(">I", data, other + 4)[0]])
    place = one + rng.choice([0, 4])
    kind = data[one + 3] & 15 if place == one else word & 15
    struct.pack_into(">I", data, place, word & 0xfffffff0 | kind)


# --- requests of a kernel ---

def demo_images():
    return [read("lower.romfs"), read("upper.romfs")]


def recorded():
    """The messages of each recorded stream."""
    return [split(read(name))[0] for name in ("kernel.fuse", "requests.fuse")]


def read(name):
    with open(os.path.join(DEMO, name), "rb") as it:
        return it.read()


def mutated_stream(rng, streams):
    """A recorded stream whose messages are changed, moved, left out or doubled."""
    messages = list(rng.choice(streams))
    first = rng.randrange(len(messages)) if rng.random() < 0.5 else 0
    messages = messages[:1] * (rng.random() < 0.9) + messages[first + 1:first + 1 + rng.choice([5, 40, 400])]
    for _ in range(rng.choice([0, 1, 2, 5, 20, len(messages)])):
        if messages:
            rng.choice([flip_one, flip_one, swap_two, leave_out, double, lengthen, shorten, lie, retell, splice])(
                rng, messages, streams)
    return broken_off(rng, b"".join(messages))


def flip_one(rng, messages, _):
    """Flips a bit of a message, but of its length."""
    at = rng.randrange(len(messages))
    data = bytearray(messages[at])
    data[rng.randrange(4, len(data))] ^= 1 << rng.randrange(8)
    messages[at] = bytes(data)


def swap_two(rng, messages, _):
    one, other = rng.randrange(len(messages)), rng.randrange(len(messages))
    messages[one], messages[other] = messages[other], messages[one]


def leave_out(rng, messages, _):
    del messages[rng.randrange(len(messages))]


def double(rng, messages, _):
    messages.insert(rng.randrange(len(messages)), rng.choice(messages))


def with_body(message, body):
    """The same request with another body, and the length of that."""
    return struct.pack("<I", 40 + len(body)) + message[4:40] + body


def lengthen(rng, messages, _):
    at = rng.randrange(len(messages))
    messages[at] = with_body(messages[at], messages[at][40:] + rng.randbytes(rng.choice([1, 8, 16, 4096])))


def shorten(rng, messages, _):
    at = rng.randrange(len(messages))
    body = messages[at][40:]
    messages[at] = with_body(messages[at], body[:rng.randrange(len(body) + 1)])


def lie(rng, messages, _):
    """Changes the length that a message says, and nothing else."""
    at = rng.randrange(len(messages))
    length = len(messages[at]) + rng.choice([-8, -1, 1, 8, 40, 4096, 1 << 20])
    messages[at] = struct.pack("<I", rng.choice([length, length, 39, 40]) & 0xffffffff) + messages[at][4:]


def retell(rng, messages, _):
    """Gives a message another opcode, or another node."""
    at = rng.randrange(len(messages))
    _, opcode, unique, node = struct.unpack_from("<IIQQ", messages[at])
    if rng.random() < 0.5:
        opcode = rng.choice(list(OPCODES.values()))
    else:
        node = rng.choice([0, 1, 2, 6, 10, 12, 13, 99, 2 ** 32 + 1, 2 ** 64 - 1])
    messages[at] = request(opcode, unique, node, messages[at][40:])


def splice(rng, messages, streams):
    """Puts in some messages of a recorded stream."""
    other = rng.choice(streams)
    first = rng.randrange(len(other))
    at = rng.randrange(len(messages) + 1)
    messages[at:at] = other[first:first + rng.randrange(1, 6)]
