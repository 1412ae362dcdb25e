"""Runs the built program for long, at its limits and with little memory.

python3 checks soak PROGRAM [--minutes N] [--quick] [PART..]

The parts are `memory` (from too little address space to enough, by steps of 1 MiB), `nodes` (more than one thread fills
attributes of), `largest` (an image of 2^32 - 1 bytes), `pipe`, `mount` and `socket` (random requests for so many minutes, held
against the plain reading, while the memory of strata must not grow), `kills` (2,000 clients of a socket that are killed),
`crowd` (100 mounts of the same images at once, eight processes in each), `again` (1,000 mounts one after another),
`readers` (for so many minutes 16 processes that use a mount of four readers, each killed in what it does) and `failing` (as
long, eight processes in a mount whose image fails, waits, and tells few or other bytes by turns).
`--quick` takes fewer steps, and some seconds instead of minutes. A part may take long on a slow machine, but none of its steps:
with mounts three minutes, times STRATA_SLOWER, at a pipe or a socket one. Each part prints a line, or says what is missing for it
here: mounts need /dev/fuse, `largest` 10,000 MiB of free memory for what it reads in full. The status is 0 where no
part fails.
"""
import argparse
import os
import resource
import shutil
import subprocess
import sys
import tempfile

from checks.plain import plain
from checks.plain.plain_replies import with_data
from checks.shared import runs
from checks.shared.build import init, lookup, request
from checks.shared.images import MOST_FULL, Item, laid_out, write_spread
from checks.shared.mounting import Failed, LeftOut, hold
from checks.shared.random_inputs import read_body
from checks.soak import soak_mounts, soak_sockets, soak_streams

MIB = 1 << 20
READ, READDIRPLUS, BATCH_FORGET = 15, 44, 42


class Soak:
    """The program, a folder for files, and how long to run."""

    def __init__(self, program, folder, seconds, is_quick):
        self.program, self.folder, self.seconds, self.is_quick = program, folder, seconds, is_quick

    def write(self, name, data):
        path = os.path.join(self.folder, name)
        with open(path, "wb") as out:
            out.write(data)
        return path

    def run(self, words, mebibytes=None, source=os.devnull):
        """How a run ends, with so much address space."""
        def limit():
            if mebibytes:
                resource.setrlimit(resource.RLIMIT_AS, (mebibytes * MIB, mebibytes * MIB))
        with open(source, "rb") as requests:
            return runs.ended(subprocess.Popen([self.program, *words], stdin=requests, stdout=subprocess.PIPE,
                                               stderr=subprocess.PIPE, preexec_fn=limit, cwd=self.folder))


# --- little memory ---

def layers_of():
    """Two layers: 3,000 files in 30 directories and one of 1.5 MB; whiteouts of some, and others."""
    lower = [Item((b"large",), "regular", False, data=bytes(1_500_000))]
    upper = []
    for number in range(30):
        here = (b"d%02d" % number,)
        lower.append(Item(here, "directory", True))
        lower += [Item(here + (b"file-%03d" % at,), "regular", False, data=b"%d" % at) for at in range(100)]
        upper += [Item(here, "directory", True), Item(here + (b".wh.file-%03d" % number,), "fifo", False),
                  Item(here + (b"new",), "regular", False, data=b"new")]
    return [laid_out(b"v", lower), laid_out(b"v", upper)]


def stream_of():
    """Large replies and small ones, and more requests than a round has."""
    parts = [init(1)]
    for unique in range(2, 602):
        parts.append(lookup(unique, 1, b"d%02d" % (unique % 40)))
    parts += [request(READDIRPLUS, 700 + node, node, read_body(0, MIB)) for node in (1, 2, 200)]
    parts += [request(READ, 800 + at, 3032, read_body(at, MIB)) for at in range(8)]
    batch = b"".join(bytes([node]) + bytes(7) + b"\1" + bytes(7) for node in range(1, 200)) * 300
    parts.append(request(BATCH_FORGET, 900, 0, (len(batch) // 16).to_bytes(8, "little") + batch))
    return b"".join(parts)


class Command:
    """Words, and what must come of them: the output, whether a front of it may stand, and the file of balances."""

    def __init__(self, words, output, is_served=False, balances=None):
        self.words, self.output, self.is_served, self.balances = words, output, is_served, balances

    def judged(self, soak, mebibytes):
        """Whether a run with so much address space gives the right answer; else it is out of memory, or not as it must be."""
        told = "strata %s with %d MiB" % (" ".join(self.words[:5]), mebibytes)
        soak.write("balances", b"")
        done = soak.run(self.words, mebibytes, soak.folder + "/requests")
        left = b""
        if self.balances is not None:
            with open(soak.folder + "/balances", "rb") as it:
                left = it.read()
        if done.status == 0:
            hold(told + ": standard error", b"", done.errors)
            hold(told + ": all of the output", True, done.output == self.output)
            hold(told + ": the balances", True, left == (self.balances or b""))
            return True
        hold(told + ": how it ends", (5, b"out of memory\n"), (done.status, done.errors))
        front = self.output[:len(done.output)] if self.is_served else b""
        hold(told + ": what stands", True, done.output == front and not left)
        return False


def commands_of(soak):
    images = layers_of()
    names = [os.path.basename(soak.write("layer-%d" % at, data)) for at, data in enumerate(images)]
    served = plain.Served(images, stream_of())
    soak.write("requests", stream_of())
    balances = "".join(it + "\n" for it in served.balance_lines()).encode()
    yield Command(["check", *names], "".join(it + "\n" for it in plain.check(images)).encode())
    yield Command(["list", *names], "".join(it + "\n" for it in plain.list_(images)).encode())
    for workers in ("1", "64"):
        words = ["serve", "--workers", workers, "--batch", "3", "--balances", "balances", *names]
        yield Command(words, served.replies, True, balances)


def least(soak):
    """The least address space with which the program begins: it refuses a command that there is not."""
    for mebibytes in range(1, 1000):
        if soak.run(["mount"], mebibytes).status == 2:
            return mebibytes
    raise Failed("no command line is refused with 1,000 MiB")


def memory(soak):
    """Each command with too little address space, with enough, and with all between: out of memory, or the right answer."""
    first, refused, right = least(soak), 0, 0
    steps = [0, 1, 2, 3, 4, 6, 8, 12, 16, 24, 200] if soak.is_quick else range(0, 400)
    enough = []
    for command in commands_of(soak):
        judged = [command.judged(soak, first + step) for step in steps]
        hold("strata %s with %d MiB has enough" % (command.words[0], first + steps[-1]), True, judged[-1])
        enough.append(first + steps[judged.index(True)])
        refused, right = refused + judged.count(False), right + judged.count(True)
    return "from %d MiB on, %d runs out of memory and %d right ones; enough are %s MiB" % (
        first, refused, right, ", ".join(map(str, enough)))


# --- many nodes, large images ---

def nodes(soak):
    """140,141 nodes of all kinds, more than threads are spared for, against the plain reading."""
    kinds = ("regular", "symlink", "character", "block", "fifo", "socket", "regular")
    items = []
    for folder in range(140):
        here = (b"d%03d" % folder,)
        items.append(Item(here, "directory", folder % 2 == 0))
        for at in range(1000):
            kind = kinds[at % 7]
            device = (at << 16 | folder) * (kind in ("character", "block"))
            data = b"x" * (at % 17) * (kind in ("regular", "symlink"))
            items.append(Item(here + (b"%06d" % at,), kind, at % 3 == 0, spec=device, data=data))
        items.append(Item(here + (b"hard",), "hard", False, target=(b"d%03d" % (folder // 2), b"%06d" % folder)))
    image = laid_out(b"v", items)
    soak.write("image", image)
    wanted = "".join(it + "\n" for it in plain.list_([image])).encode()
    done = soak.run(["list", "image"])
    hold("strata list", (0, True, b""), (done.status, done.output == wanted, done.errors))
    return "a listing of %d lines as the plain reading has it" % wanted.count(b"\n")


def available():
    """MiB of memory that are available."""
    with open("/proc/meminfo", encoding="ascii") as lines:
        return int(dict(line.split(":") for line in lines)["MemAvailable"].split()[0]) // 1024


def largest(soak):
    """An image of 2^32 - 1 bytes with headers at both ends, left in its file with 105 MiB in all; and in memory with 105
    MiB more."""
    size = write_spread(soak.folder + "/image")
    reads = [(2, size - 2, b"\0\0"), (2, size - 1, b"\0"), (2, size, b""), (2, 2 ** 31, bytes(4096)), (2, 0, bytes(4096)),
             (3, 0, b"e" * 31)]
    stream = init(1, minor=22, flags=0) + b"".join(request(READ, 2, at, read_body(offset, 4096)) for at, offset, _ in reads)
    replies = plain.Served([laid_out(b"v", [])], init(1, minor=22, flags=0)).replies
    replies += b"".join(with_data(2, data) for _, _, data in reads)
    soak.write("requests", stream)
    wanted = {"check": b"layer 0: 4294967295 bytes\n", "serve": replies,
              "list": b"1 040755 2 0 0 /\n2 100644 1 %d 0 /big\n3 100644 1 31 0 /end\n" % size}
    ways = [((), 105), (("--whole",), MOST_FULL // MIB + 105)]
    if available() < 10000:
        ways.pop()
    for words, mebibytes in ways:
        for command, output in wanted.items():
            done = soak.run([command, *words, "image"], mebibytes, soak.folder + "/requests")
            hold("strata %s" % " ".join([command, *words]), (0, output, b""), (done.status, done.output, done.errors))
    return "checked, listed and served in %s MiB of address space" % " and ".join(str(most) for _, most in ways)


# --- all parts ---

def pipe(soak):
    """Random requests through pipes."""
    return soak_streams.pipe(soak.program, soak.folder, soak.seconds)


def mount(soak):
    """Random calls on a mount."""
    return soak_streams.mount(soak.program, soak.folder, soak.seconds)


def socket(soak):
    """Random requests through sessions of a socket."""
    return soak_sockets.sessions(soak.program, soak.folder, soak.seconds)


def kills(soak):
    """Clients of a socket that are killed in all they do."""
    return soak_sockets.kills(soak.program, soak.folder, 100 if soak.is_quick else 2000)


def crowd(soak):
    """Many mounts of the same images at once."""
    return soak_mounts.crowd(soak.program, soak.folder, 5 if soak.is_quick else 100)


def again(soak):
    """Many mounts one after another."""
    return soak_mounts.again(soak.program, soak.folder, 20 if soak.is_quick else 1000)


def readers(soak):
    """A mount of several readers, whose users are killed."""
    return soak_mounts.readers(soak.program, soak.folder, soak.seconds)


def failing(soak):
    """A mount over a file that fails."""
    return soak_mounts.failing(soak.program, soak.folder, soak.seconds)


PARTS = {it.__name__: it for it in (memory, nodes, largest, pipe, mount, socket, kills, crowd, again, readers, failing)}


def told_of(part, program, seconds, is_quick):
    folder = tempfile.mkdtemp(prefix="soak-")
    try:
        return part(Soak(program, folder, seconds, is_quick))
    except LeftOut as missing:
        return "left out: %s" % missing
    except Failed as wrong:
        return "FAILED: %s" % wrong
    finally:
        shutil.rmtree(folder)


def main(words):
    parser = argparse.ArgumentParser(description="Runs strata for long, at its limits and with little memory.")
    parser.add_argument("program")
    parser.add_argument("--minutes", type=float, default=20)
    parser.add_argument("--quick", action="store_true")
    runs.add_parts(parser, PARTS)
    asked = parser.parse_intermixed_args(words)
    is_well = True
    for name in asked.parts or PARTS:
        told = told_of(PARTS[name], os.path.abspath(asked.program), 5 if asked.quick else asked.minutes * 60, asked.quick)
        print("%-8s %s" % (name, told), flush=True)
        is_well = is_well and not told.startswith("FAILED")
    return 0 if is_well else 1


if __name__ == "__main__":
    sys.exit(main(sys.argv[1:]))
