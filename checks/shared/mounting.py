"""What checks/mounts/mounted.py uses: a namespace for each check, mounts in it, and the processes that serve them."""
import ctypes
import errno
import os
import signal
import subprocess
import sys
import tempfile
import time

from checks import TOOLS
from checks.shared.images import laid_out
from strata_format.system import called, libc
from strata_mount.device import DEVICE

SCRIPT = TOOLS + "/mount.py"
# a check that does not end, nor goes on, is ended after so many seconds; STRATA_SLOWER says how many times as many
SLOWER = int(os.environ.get("STRATA_SLOWER", "1"))
SECONDS = 180 * SLOWER
# how many readers serve a mount for which a check says nothing of that; and the most memory that each but the first takes
MOUNT_READERS = int(os.environ.get("STRATA_READERS", "1"))
READER_SIZE = 400 << 10
CLONE_NEWNS, CLONE_NEWUSER = 0x20000, 0x10000000
MS_REC, MS_PRIVATE = 0x4000, 0x40000
PR_SET_CHILD_SUBREAPER = 36


class Failed(Exception):
    """What is not as it must be."""


class LeftOut(Exception):
    """What is missing here for a check."""


def hold(what, wanted, got):
    if wanted != got:
        raise Failed("%s: wanted %.500r, got %.500r" % (what, wanted, got))


def name_of(number):
    return errno.errorcode.get(number, number) if number else "no error"


def fails(what, wanted, function, *words, **named):
    """Holds a call that must fail with this errno."""
    number = 0
    try:
        function(*words, **named)
    except OSError as fault:
        number = fault.errno
    hold(what, name_of(wanted), name_of(number))


# --- namespaces and processes ---

# the process that waits for what was called apart
waiting = 0


def enter():
    """Goes into a mount namespace of its own; unprivileged users also into a user namespace, in which they are root."""
    user, group = os.geteuid(), os.getegid()
    called(libc.unshare(CLONE_NEWNS | (CLONE_NEWUSER if user else 0)))
    if user:
        for name, text in (("setgroups", "deny"), ("uid_map", "0 %d 1" % user), ("gid_map", "0 %d 1" % group)):
            with open("/proc/self/" + name, "w", encoding="ascii") as out:
                out.write(text)
    called(libc.mount(b"none", b"/", None, MS_REC | MS_PRIVATE, None))


def adopt():
    """Makes processes below this one its own children once their parents have ended."""
    called(libc.prctl(PR_SET_CHILD_SUBREAPER, 1, 0, 0, 0))


def children():
    """The processes whose parent this one is."""
    found = set()
    for name in filter(str.isdigit, os.listdir("/proc")):
        try:
            with open("/proc/%s/stat" % name, "rb") as it:
                parent = int(it.read().rpartition(b")")[2].split()[1])
        except OSError:
            continue
        if parent == os.getpid():
            found.add(int(name))
    return found


def end_children():
    """Ends what was started and is still there."""
    while children():
        for child in children():
            os.kill(child, signal.SIGKILL)
            os.waitpid(child, 0)


def go_on():
    """Gives what was called apart its seconds anew: a long check says so after each step, also in a child of its own."""
    os.kill(waiting, signal.SIGUSR1)


def apart(function, is_inside=True):
    """Calls a function in a process and a namespace of its own; what it gave back, or the exception that it ended with."""
    global waiting
    waiting, (source, told) = os.getpid(), os.pipe()
    signal.signal(signal.SIGUSR1, lambda *_: signal.alarm(SECONDS))
    child = os.fork()
    if child == 0:
        try:
            os.close(source)
            os.write(told, told_by(function, is_inside).encode(errors="replace")[:60000])
        finally:
            os._exit(0)
    os.close(told)
    signal.signal(signal.SIGALRM, lambda *_: os.kill(child, signal.SIGKILL))
    signal.alarm(SECONDS)
    status = os.waitstatus_to_exitcode(os.waitpid(child, 0)[1])
    signal.signal(signal.SIGUSR1, lambda *_: None)
    signal.alarm(0)
    end_children()
    with os.fdopen(source, "rb") as it:
        text = it.read().decode()
    return text or "FAILED: ended by signal %d, which is sent after %d seconds if it is 9" % (-status, SECONDS)


def told_by(function, is_inside):
    """What a function gave back, or why it did not."""
    try:
        adopt()
        if is_inside:
            enter()
        text = function()
        hold("the processes that are left", set(), children())
        return text
    except LeftOut as missing:
        return "left out: %s" % missing
    except Exception as wrong:
        return "FAILED: %s" % (wrong if isinstance(wrong, Failed) else repr(wrong))
    finally:
        end_children()


# --- mounts ---

def places():
    """Where something is mounted."""
    with open("/proc/self/mounts", encoding="utf-8", errors="surrogateescape") as lines:
        return [line.split()[1] for line in lines]


def wait_for(process, at):
    """Waits until a process has mounted something at a place."""
    while at not in places():
        if process.poll() is not None:
            raise Failed("mount.py ended with %d: %r" % (process.wait(), process.stderr.read()))
        time.sleep(0.005)


def wait_until(what, test):
    """Waits for what comes at last; half of the time that a check has at most."""
    until = time.monotonic() + SECONDS / 2
    while not test():
        if time.monotonic() > until:
            raise Failed("never: %s" % what)
        time.sleep(0.005)


def try_mount(folder):
    """Whether mounts can be made here: `yes`, or why not."""
    try:
        device = os.open(DEVICE, os.O_RDWR)
        text = "fd=%d,rootmode=40000,user_id=0,group_id=0" % device
        called(libc.mount(b"strata", folder.encode(), b"fuse", 1, text.encode()))
        return "yes"
    except OSError as fault:
        return "%s can't be mounted here: %s" % (DEVICE, fault.strerror)


def with_readers(words):
    """The words of a mount, with as many readers as STRATA_READERS says where they say nothing of that."""
    options = words[words.index("-o") + 1] if "-o" in words else ""
    if MOUNT_READERS == 1 or "readers=" in options:
        return words
    return *words, "-o", ",".join([*filter(None, [options]), "readers=%d" % MOUNT_READERS])


class Room:
    """The program, and a folder for images and mounts."""

    def __init__(self, program, folder):
        self.program, self.folder, self.is_root = program, folder, os.geteuid() == 0
        os.chmod(folder, 0o755)

    def write(self, data):
        """The path of a new file that holds some bytes."""
        number, path = tempfile.mkstemp(dir=self.folder)
        with os.fdopen(number, "wb") as out:
            out.write(data)
        return path

    def layer(self, items):
        return self.write(laid_out(b"v", items))

    def place(self):
        return tempfile.mkdtemp(dir=self.folder)

    def words(self):
        """How mount.py is called."""
        return [sys.executable, "-B", SCRIPT, "--strata", self.program]

    def mount(self, images, *words, told=b""):
        return Mount(self, images, words, told)

    def start(self, images, *words):
        """A mount that is waited for: where it is, and the process of mount.py."""
        at = self.place()
        process = subprocess.Popen([*self.words(), *with_readers(words), *images, at], stdin=subprocess.DEVNULL,
                                   stderr=subprocess.PIPE)
        wait_for(process, at)
        os.statvfs(at)
        return at, process


class Mount:
    """Images mounted in the background, and the process that serves them."""

    def __init__(self, room, images, words, told):
        self.at, before = room.place(), children()
        done = subprocess.run([*room.words(), "--background", *with_readers(words), *images, self.at],
                              stdin=subprocess.DEVNULL, stderr=subprocess.PIPE)
        hold("mount.py", (0, told), (done.returncode, done.stderr))
        servers = children() - before
        hold("processes that serve", 1, len(servers))
        self.server, = servers

    def path(self, *names):
        return os.path.join(os.fsencode(self.at), *names)

    def ended(self, wanted=0):
        """Waits for the end of the server."""
        hold("the server's status", wanted, os.waitstatus_to_exitcode(os.waitpid(self.server, 0)[1]))

    def take_away(self, flags=0):
        called(libc.umount2(os.fsencode(self.at), flags))
        hold("mounted still", False, self.at in places())

    def end(self):
        self.take_away()
        self.ended()


# --- what a mount shows ---

def body_of(path, kind):
    """The data of a regular file, the target of a symbolic link."""
    if kind == 0o120000:
        return os.readlink(path)
    if kind != 0o100000:
        return b""
    with open(path, "rb") as it:
        return it.read()


def facts(path):
    """What the kernel says of a path: its mode, links, size, device number and data, and what is the same everywhere."""
    it = os.lstat(path)
    always = it.st_uid, it.st_gid, it.st_mtime_ns, it.st_ctime_ns, it.st_atime_ns, it.st_blksize
    hold("owner, times and block size of %r" % path, (0, 0, 0, 0, 0, 4096), always)
    hold("blocks of %r" % path, (it.st_size + 511) // 512, it.st_blocks)
    return it.st_mode, it.st_nlink, it.st_size, it.st_rdev, body_of(path, it.st_mode & 0o170000)


def shown(root):
    """Every path below a folder, as a tuple of names, with its facts."""
    found, todo = {}, [()]
    while todo:
        path = todo.pop()
        full = os.path.join(os.fsencode(root), *path)
        found[path] = facts(full)
        if found[path][0] & 0o170000 == 0o040000:
            todo += [path + (name,) for name in os.listdir(full)]
    return found


def hold_tree(what, wanted, got):
    """Holds the paths of a tree with their facts."""
    hold("%s: paths" % what, sorted(wanted), sorted(got))
    for path, facts_of_it in wanted.items():
        hold("%s: %r" % (what, path), facts_of_it, got[path])


def rows(folder, size, start=0):
    """The rows of a directory by getdents64 with so many bytes of room, from a place on: number, next place, kind, name."""
    found, room = [], ctypes.create_string_buffer(size)
    libc.getdents64.restype = ctypes.c_ssize_t
    if start:
        os.lseek(folder, start, os.SEEK_SET)
    while True:
        count = libc.getdents64(folder, room, ctypes.c_size_t(size))
        called(min(count, 0))
        if count == 0:
            return found
        data, at = room.raw[:count], 0
        while at < count:
            length = int.from_bytes(data[at + 16:at + 18], "little")
            name = data[at + 19:at + length].partition(b"\0")[0]
            found.append((int.from_bytes(data[at:at + 8], "little"), int.from_bytes(data[at + 8:at + 16], "little"),
                          data[at + 18], name))
            at += length
