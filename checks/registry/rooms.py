"""What these checks use: a folder for each, the programs that users run, and how a check
fails."""
import io
import os
import shutil
import signal
import subprocess
import sys
import tempfile
from collections import namedtuple

from checks import TOOLS
from strata_layers import command

LAYERS = os.path.join(TOOLS, "layers.py")
MOUNT = os.path.join(TOOLS, "mount.py")
# a fault's line begins so
NAME = "tools/layers.py: "
# behind a layer's name, the name of its tree
TREE = ".verity"
# what hangs is ended after so many seconds
SECONDS = 300

Done = namedtuple("Done", "returncode stdout stderr")


class Failed(Exception):
    """What is not as it must be."""


class LeftOut(Exception):
    """What is missing here for a check."""


def hold(what, wanted, got):
    if wanted != got:
        raise Failed("%s: wanted %.900r, got %.900r" % (what, wanted, got))


def needs(*programs):
    missing = [it for it in programs if shutil.which(it) is None]
    if missing:
        raise LeftOut("no %s here" % ", no ".join(missing))


class Room:
    """A folder for one check, with a home and a store."""

    def __init__(self, strata):
        self.strata, self.path, self.count = strata, tempfile.mkdtemp(prefix="registry-"), 0
        self.store, self.home = os.path.join(self.path, "store"), os.path.join(self.path, "home")
        os.mkdir(self.home)
        self.environment = {**os.environ, "HOME": self.home, "XDG_RUNTIME_DIR": self.home,
                            "PYTHONDONTWRITEBYTECODE": "1"}
        self.ends = []

    def name(self):
        self.count += 1
        return os.path.join(self.path, str(self.count))

    def run(self, *words, **more):
        return subprocess.run(words, stdin=subprocess.DEVNULL, stdout=subprocess.PIPE, stderr=subprocess.PIPE,
                              text=True, timeout=SECONDS, check=False, cwd=self.path,
                              **{"env": self.environment, **more})

    def ran(self, *words, **more):
        """What a program prints that must end well."""
        done = self.run(*words, **more)
        if done.returncode != 0:
            raise Failed("%s: status %d: %s" % (" ".join(words), done.returncode, done.stderr[-900:]))
        return done.stdout

    def words(self, verb, *words, store=None):
        return [sys.executable, "-B", LAYERS, verb, "--store", store or self.store, *words]

    def tried(self, verb, *words, store=None):
        """The tool as it is run by its name, but that Python has begun already."""
        return self.measured(verb, *words, store=store)[0]

    def measured(self, verb, *words, store=None):
        """The same, and the most memory that it held."""
        words = [verb, "--store", store or self.store, *words]
        with tempfile.TemporaryFile() as out, tempfile.TemporaryFile() as errors:
            status, resident = self.forked(words, out, errors)
            told = [os.pread(it.fileno(), 1 << 20, 0).decode() for it in (out, errors)]
        return Done(status, *told), resident

    def forked(self, words, out, errors):
        """The status of the tool, with open files as its ends, and the most memory that it held."""
        child = os.fork()
        if child == 0:
            self.become_tool(words, out.fileno(), errors.fileno())
        _, status, usage = os.wait4(child, 0)
        return os.waitstatus_to_exitcode(status), usage.ru_maxrss << 10

    def become_tool(self, words, out, errors):
        status = 99
        try:
            os.environ.update(self.environment)
            os.chdir(self.path)
            os.dup2(out, 1)
            os.dup2(errors, 2)
            sys.stdout, sys.stderr = (io.TextIOWrapper(io.FileIO(it, "w"), write_through=True) for it in (1, 2))
            status = command.main(words)
        except SystemExit as ended:
            status = ended.code
        finally:
            os._exit(status)

    def layers(self, verb, *words, store=None):
        """What the tool prints, which must end well."""
        done = self.tried(verb, *words, store=store)
        if done.returncode != 0:
            raise Failed("%s %s: status %d: %s" % (verb, words, done.returncode, done.stderr[-900:]))
        return done.stdout

    def refused(self, line, verb, *words, store=None):
        """The tool must end with this line alone, where `..` stands for anything, and status 1."""
        done = self.tried(verb, *words, store=store)
        begin, dots, end = (NAME + line).partition("..")
        told = done.stderr.rstrip("\n")
        is_said = told.startswith(begin) and told.endswith(end) if dots else told == begin
        if done.returncode != 1 or not is_said or "\n" in told:
            raise Failed("%s %s: status %d, told %r, and %r is wanted" % (verb, words, done.returncode,
                                                                          done.stderr[-600:], line))

    def blobs(self, store=None):
        """The layers of a store, each of which must have a tree, but for those set aside."""
        found = set(os.listdir(os.path.join(store or self.store, "blobs", "sha256")))
        layers = {it for it in found if not it.endswith(TREE)}
        hold("layers without a tree", set(), {it for it in layers if not it.endswith(".damaged") and it + TREE not in found})
        return sorted(layers)

    def trees(self, store=None):
        """The layers of a store that have a tree, or had one when they were there."""
        found = os.listdir(os.path.join(store or self.store, "blobs", "sha256"))
        return sorted(it[:-len(TREE)] for it in found if it.endswith(TREE))

    def close(self):
        for end in reversed(self.ends):
            end()
        shutil.rmtree(self.path, ignore_errors=True)


def shown_by(room, paths):
    """What `list` prints of images: by path the mode, the layer and the size."""
    found = {}
    for line in room.ran(room.strata, "list", *paths).splitlines():
        _, mode, _, size, layer, path = line.split(" ")
        found[path] = mode, int(layer), int(size)
    return found


def snapshot(folder, but):
    """Every path below a folder, but those below one of it, with its kind, mode, size and time."""
    found = {}
    for place, folders, files in os.walk(folder):
        folders[:] = [it for it in folders if os.path.join(place, it) != but]
        for name in folders + files:
            it = os.lstat(os.path.join(place, name))
            found[os.path.join(place, name)] = it.st_mode, it.st_size, it.st_mtime_ns
    return found


def said(wrong):
    return wrong if isinstance(wrong, Failed) else repr(wrong)


def run_checks(checks, strata, what):
    """Runs checks, each in a room of its own, and prints a line for each that fails or is left
    out."""
    failed, left = 0, 0
    for check in checks:
        room, name = Room(strata), check.__name__.replace("check_", "").replace("_", " ")
        signal.alarm(2 * SECONDS)
        try:
            check(room)
        except LeftOut as missing:
            print("registry: %s: left out: %s" % (name, missing), flush=True)
            left += 1
        except Exception as wrong:
            print("registry: %s: FAILED: %s" % (name, said(wrong)), flush=True)
            failed += 1
        finally:
            signal.alarm(0)
            room.close()
    print("registry: %s: %d passed, %d failed, %d left out" % (what, len(checks) - failed - left, failed, left))
    return failed == 0
