"""A fresh root for each check: the system's own files under a folder in memory, without the repository, and a pid namespace.

What a check writes is in memory and goes with it, as do the processes that it leaves. It takes root: the system's files are
root's, so that in a user namespace nothing could be installed among them.
"""
import collections
import ctypes
import os
import signal
import subprocess
import sys
import tempfile
import traceback

from checks import ROOT

NEWNS, NEWPID = 0x20000, 0x20000000
DEATH_SIGNAL = 1
BIND, REC, PRIVATE = 0x1000, 0x4000, 0x40000
DETACH = 2
# a check, and a command of it, that does not end is ended after so many seconds
CHECK_SECONDS, SECONDS = 1200, 300
PATH = "/usr/local/sbin:/usr/local/bin:/usr/sbin:/usr/bin:/sbin:/bin"
# what dpkg and man write of their own accord
SYSTEMS_OWN = ("/var/cache/", "/var/lib/dpkg/", "/var/log/", "/var/lib/systemd/", "/etc/ld.so.cache")
libc = ctypes.CDLL(None, use_errno=True)
Done = collections.namedtuple("Done", "status out err")


class Failed(Exception):
    """What is not as it must be."""


class LeftOut(Exception):
    """What is missing here for a check."""


def hold(what, wanted, got):
    if wanted != got:
        raise Failed("%s: wanted %.600r, got %.600r" % (what, wanted, got))


def hold_in(what, part, text):
    if part not in text:
        raise Failed("%s: %r should stand in %.900r" % (what, part, text))


def called(status, what):
    if status != 0:
        raise LeftOut("%s: %s" % (what, os.strerror(ctypes.get_errno())))


def mount(source, place, kind=None, flags=0, words=None):
    parts = [None if it is None else os.fsencode(it) for it in (source, place, kind)]
    called(libc.mount(*parts, ctypes.c_ulong(flags), None if words is None else words.encode()), "mount of %s" % place)


class Root:
    """A root in which strata can be installed, and then everything is run."""

    def __init__(self, program, scratch):
        self.program, self.is_entered = program, False
        mount(None, "/", None, REC | PRIVATE)
        mount("tmpfs", scratch, "tmpfs", 0, "mode=755")
        for name in ("upper", "work", "root"):
            os.mkdir(os.path.join(scratch, name))
        self.top = os.path.join(scratch, "root")
        self.upper = os.open(os.path.join(scratch, "upper"), os.O_RDONLY | os.O_DIRECTORY)
        words = "lowerdir=/,upperdir=%s/upper,workdir=%s/work" % (scratch, scratch)
        mount("overlay", self.top, "overlay", 0, words)
        if not any(os.path.exists(self.top + path) for path in ("/usr/bin/python3", os.path.realpath(sys.executable))):
            raise LeftOut("no python3 in the system's root")
        # what stands above the repository hides it
        os.makedirs(self.top + ROOT, exist_ok=True)
        mount("tmpfs", self.top + ROOT, "tmpfs", 0, "mode=755")
        # without what others have mounted below it, but with terminals
        mount("/dev", self.top + "/dev", None, BIND)
        if os.path.ismount("/dev/pts"):
            mount("/dev/pts", self.top + "/dev/pts", None, BIND)
        mount("proc", self.top + "/proc", "proc")
        mount("tmpfs", self.top + "/tmp", "tmpfs", 0, "mode=1777")
        mount("tmpfs", self.top + "/run", "tmpfs", 0, "mode=755")
        for name in ("lower", "upper"):
            self.copy(os.path.join(ROOT, "demo", name + ".romfs"), "/srv/%s.romfs" % name)

    def copy(self, source, place):
        os.makedirs(os.path.dirname(self.top + place), exist_ok=True)
        with open(source, "rb") as it, open(self.top + place, "wb") as out:
            out.write(it.read())
        os.chmod(self.top + place, 0o644)

    def written(self):
        """The files that were written into this root, and the folders that are named for strata."""
        found = set()
        for folder, names, files, _ in os.fwalk(".", dir_fd=self.upper):
            found |= {os.path.join(folder, name)[1:] for name in files}
            found |= {os.path.join(folder, name)[1:] for name in names if "strata" in name}
        return {path for path in found if not path.startswith(SYSTEMS_OWN)}

    def make(self, *words):
        """A target of the Makefile, over this root."""
        done = subprocess.run(["make", "-C", ROOT, "--no-print-directory", "STRATA=" + self.program, "DESTDIR=" + self.top, *words],
                              stdin=subprocess.DEVNULL, stdout=subprocess.PIPE, stderr=subprocess.PIPE, text=True)
        hold("make %s" % " ".join(words), (0, ""), (done.returncode, done.stderr))
        return done.stdout

    def install(self):
        """Installs into /usr/local, and goes in."""
        self.make("install", "PREFIX=/usr/local")
        self.enter()

    def enter(self):
        os.chdir(self.top)
        # in a chroot no user namespace can be made: this root becomes that of the mount namespace
        done = subprocess.run(["pivot_root", ".", "."], stderr=subprocess.PIPE, text=True, env={"PATH": PATH})
        if done.returncode != 0:
            raise LeftOut(done.stderr.strip())
        called(libc.umount2(b".", DETACH), "umount of the old root")
        os.chdir("/")
        os.environ.clear()
        os.environ.update(PATH=PATH, HOME="/root", LC_ALL="C.UTF-8", TERM="dumb")
        os.umask(0o022)

    def run(self, *words, **named):
        """Runs a command; its status and what it wrote."""
        done = subprocess.run(words, **{"stdin": subprocess.DEVNULL, "stdout": subprocess.PIPE, "stderr": subprocess.PIPE,
                                        "text": True, "errors": "replace", "timeout": SECONDS, **named})
        return Done(done.returncode, done.stdout, done.stderr)

    def good(self, *words, **named):
        """What a command wrote, which must end well and without a word on standard error."""
        done = self.run(*words, **named)
        hold(" ".join(words), (0, ""), (done.status, done.err))
        return done.out

    def needs(self, *programs):
        for name in programs:
            if not any(os.access(os.path.join(folder, name), os.X_OK) for folder in PATH.split(":")):
                raise LeftOut("no %s" % name)


def text_of(function):
    """What a function gives back, or why it does not."""
    try:
        return function()
    except LeftOut as missing:
        return "left out: %s" % missing
    except BaseException as wrong:
        return "FAILED: %s" % (wrong if isinstance(wrong, Failed) else traceback.format_exc())


def forked(function):
    """The text that a function gives back in a process of its own, which ends with this one, or in time."""
    source, told = os.pipe()
    child = os.fork()
    if child == 0:
        try:
            os.close(source)
            libc.prctl(DEATH_SIGNAL, signal.SIGKILL, 0, 0, 0)
            os.write(told, text_of(function).encode(errors="replace")[:60000])
        finally:
            os._exit(0)
    os.close(told)
    signal.signal(signal.SIGALRM, lambda *_: os.kill(child, signal.SIGKILL))
    signal.alarm(CHECK_SECONDS)
    with os.fdopen(source, "rb") as it:
        text = it.read().decode()
    _, status = os.waitpid(child, 0)
    signal.alarm(0)
    if os.waitstatus_to_exitcode(status):
        return "FAILED: it was ended, after %d seconds at most" % CHECK_SECONDS
    return text


def apart(check, program, scratch):
    """What a check says of itself as the first process of a namespace, with whose end all others end."""
    def inside():
        called(libc.unshare(NEWNS | NEWPID), "namespaces")
        return forked(lambda: check(Root(program, tempfile.mkdtemp(dir=scratch))))
    return forked(inside)
