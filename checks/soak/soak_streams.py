"""Parts of checks/soak/soak.py that run for long: random requests through pipes, and random calls on a mount."""
import os
import random
import select
import subprocess
import threading
import time

from checks.plain import plain
from checks.plain.plain_replies import Session
from checks.shared import mounting, random_inputs
from checks.shared.build import init
from checks.shared.images import Item, flat
from checks.shared.mounting import Failed, LeftOut, Room, apart, go_on, hold, try_mount
from checks.shared.runs import MINUTE
from strata_mount.device import DEVICE

KIB = 1 << 10
MIB = 1 << 20
# what the memory of strata may vary by, in KiB
SWAY = 2048


class Memory:
    """The memory of a process, looked at twice a second: it must not grow once a tenth of the time is over."""

    def __init__(self, process, seconds):
        self.process, self.begun, self.seconds = process, time.monotonic(), seconds
        self.first, self.most, self.looked = 0, 0, 0

    def is_over(self):
        """Looks, and tells whether the time is over."""
        passed = time.monotonic() - self.begun
        if passed - self.looked >= 0.5:
            self.looked, now = passed, resident(self.process)
            if passed * 10 <= self.seconds:
                self.first = max(self.first, now)
            self.most = max(self.most, now)
        return passed >= self.seconds

    def told(self):
        first = self.first or self.most
        hold("memory grows from %d to %d KiB" % (first, self.most), True, self.most <= first + SWAY)
        return "%d KiB of memory at first, %d at the most" % (first, self.most)


def resident(process):
    with open("/proc/%d/status" % process, encoding="ascii") as lines:
        return int(dict(line.split(":", 1) for line in lines)["VmRSS"].split()[0])


# --- requests ---

class Client:
    """Random requests over random images, and the replies that must come to them."""

    def __init__(self, rng, folder, is_lasting=False):
        self.rng, self.is_lasting, self.unique, self.requests, self.paths = rng, is_lasting, 1, 0, []
        while not self.paths:
            images = random_inputs.random_stack(rng, [])
            try:
                self.stack = plain.stack_of(images)
            except plain.Stop:
                continue
            for number, data in enumerate(images):
                self.paths.append(os.path.join(folder, "image-%d" % number))
                with open(self.paths[-1], "wb") as out:
                    out.write(data)
        self.begin()

    def begin(self):
        self.session = Session(self.stack, self.is_lasting)

    def ask(self, sink, source):
        """Some requests, written to a descriptor while the replies are read from another."""
        messages, wanted = [], b""
        for _ in range(self.rng.choice([1, 10, 300])):
            self.unique += 1
            # a DESTROY ends the session soon: few requests come before the next one begins
            if not self.session.ready and self.rng.random() < 0.5:
                messages.append(init(self.unique, flags=random_inputs.random_flags(self.rng)))
            else:
                messages.append(random_inputs.random_message(self.rng, self.unique, self.stack))
            wanted += self.session.reply(messages[-1])
        writing = threading.Thread(target=try_to_write, args=(sink, b"".join(messages)))
        writing.start()
        got = read_whole(source, len(wanted))
        writing.join()
        hold("replies to requests up to %d" % self.unique, True, got == wanted)
        self.requests += len(messages)


def write_all(sink, data):
    while data:
        data = data[os.write(sink, data):]


def try_to_write(sink, data):
    """The same, where who reads the replies tells that they end early."""
    try:
        write_all(sink, data)
    except OSError:
        pass


def read_whole(source, size):
    """So many bytes of a descriptor, each part of which comes within a minute."""
    parts = []
    while size:
        if not select.select([source], [], [], MINUTE)[0]:
            raise Failed("no replies come")
        parts.append(os.read(source, min(size, MIB)))
        if not parts[-1]:
            raise Failed("replies end early")
        size -= len(parts[-1])
    return b"".join(parts)


def pipe(program, folder, seconds):
    """Requests in both manners, half of the time each."""
    return "; lastingly ".join(piped(program, folder, seconds / 2, is_lasting) for is_lasting in (False, True))


def piped(program, folder, seconds, is_lasting):
    client = Client(random.Random(11), folder, is_lasting)
    words = [program, "serve", *["--lasting"] * is_lasting, *client.paths]
    with subprocess.Popen(words, stdin=subprocess.PIPE, stdout=subprocess.PIPE, stderr=subprocess.PIPE) as served:
        memory = Memory(served.pid, seconds)
        try:
            while not memory.is_over():
                client.ask(served.stdin.fileno(), served.stdout.fileno())
            served.stdin.close()
            hold("the end", (0, b"", b""), (served.wait(), served.stdout.read(), served.stderr.read()))
        except Failed as wrong:
            served.kill()
            raise Failed("%s; strata says %r" % (wrong, served.stderr.read())) from None
    return "%d requests as the plain reading has them; %s" % (client.requests, memory.told())


# --- calls ---

def mount(program, folder, seconds):
    why = apart(lambda: try_mount(folder))
    if why != "yes":
        raise LeftOut(why.replace("FAILED: ", ""))
    usage = subprocess.run([program, "serve", "--device"], stdin=subprocess.DEVNULL, stderr=subprocess.PIPE)
    if b"unexpected argument" in usage.stderr:
        raise LeftOut("the program serves no %s" % DEVICE)
    mounting.adopt()
    told = apart(lambda: called_at_random(Room(program, folder), seconds))
    if told.startswith("FAILED: "):
        raise Failed(told[8:])
    return told


def called_at_random(room, seconds):
    """Calls that reach the server again and again: names that were never asked for, data past the kernel's pages."""
    rng = random.Random(12)
    files = {b"f%03d" % at: rng.randbytes(rng.choice([0, 1, 5000, 300000])) for at in range(200)}
    items = [Item((b"d",), "directory", True), *[Item((b"d", b"n%04d" % at), "fifo", False) for at in range(2000)]]
    mounted = room.mount([room.layer(items), room.write(flat(b"v", [(name, False, data) for name, data in files.items()]))])
    memory, calls = Memory(mounted.server, seconds), 0
    while not memory.is_over():
        go_on()
        for _ in range(100):
            call_once(rng, mounted, files)
            calls += 1
    mounted.end()
    return "%d calls on a mount; %s" % (calls, memory.told())


def call_once(rng, mounted, files):
    kind = rng.randrange(5)
    if kind == 0:
        name = rng.randbytes(8).hex().encode()
        hold("a name that is not there", False, os.path.lexists(mounted.path(b"d", name)))
    elif kind == 1:
        hold("the names of a directory", 2000, len(os.listdir(mounted.path(b"d"))))
    elif kind == 2:
        hold("the limit of names", 255, os.statvfs(mounted.at).f_namemax)
    else:
        name = rng.choice(list(files))
        at, size = rng.randrange(len(files[name]) + 2), rng.randrange(300000)
        opened = os.open(mounted.path(name), os.O_RDONLY | os.O_DIRECT * (kind == 3))
        hold("data", True, os.pread(opened, size, at) == files[name][at:at + size])
        os.close(opened)
