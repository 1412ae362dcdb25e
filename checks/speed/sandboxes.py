"""From the command to a sandbox's first output, one and fifty at once: python3 checks sandboxes
PROGRAM [WORDS..]

    python3 checks sandboxes PROGRAM [--tree FOLDER] [--paths N] [--count N] [--runs N] [--rounds N]

A sandbox is `bwrap` with a mount at /image, of which it prints a file. For each kind of mount, in
turns: the clock from the mount command to that output and the processor time of all that was
started, servers included, for one sandbox (the median of N runs, 9); for N at once (50), each with a
mount of its own, the clock in the median and for the last one, the processor time and the memory of
their servers (PSS), each the median of N rounds (3). On a machine that does other work the clock
says little: then compare processor time, which, by the number of processors, is also the least that
the last sandbox can take. Beside strata, and strata with --share: squashfuse_ll on an image that mksquashfs makes,
fuse-overlayfs and the kernel's overlayfs on the folder itself, and bwrap without a mount. Those
that are not here are left out, by name.

Printed is the table of docs/SPEED.md, and below it when the last of N sandboxes printed and what
python takes by itself. strata is installed into a folder of its own, so its modules are compiled; the
image is made by strata-layers. The tree is FOLDER, or one of N paths (14,496) with 4 KiB a file. It
judges nothing: the status is 0 if all sandboxes print the file. It takes root.
"""
import argparse
import os
import resource
import selectors
import shutil
import statistics
import subprocess
import sys
import tempfile
import time

from checks import ROOT
from checks.shared.mounting import Failed, adopt, children, enter
from checks.speed.mounts import two_digits

NAME, DATA = "first", b"a sandbox has begun\n"
FILES_EACH, FILE_SIZE = 11, 4096
SANDBOX = ("bwrap --ro-bind /usr /usr --symlink usr/bin /bin --symlink usr/lib /lib "
           "--symlink usr/lib64 /lib64 --dev /dev --proc /proc --unshare-all %s cat %s")
PREFIX = "/usr/local"
HEAD = "First ms", "Processor ms", "%d: median s", "Processor s", "MiB (PSS)"


class Kind:
    """A kind of mount: its name, and the command that mounts at a folder, or None where a program
    is missing."""

    def __init__(self, name, command, *programs):
        missing = [it for it in programs if shutil.which(it) is None]
        self.name, self.command, self.missing = name, command, missing

    def line(self, at, source):
        """The shell's line from the mount to the sandbox's output."""
        if self.command is None:
            return "exec " + SANDBOX % ("--ro-bind %s /image" % source, "/image/" + NAME)
        mount = self.command.replace("DIR", at)
        return "%s && exec %s" % (mount, SANDBOX % ("--ro-bind %s /image" % at, "/image/" + NAME))


def make_tree(folder, paths):
    """A tree of so many paths."""
    for number in range(paths // (FILES_EACH + 1)):
        below = os.path.join(folder, "d%d" % (number // 64), "d%d" % number)
        os.makedirs(below)
        for file in range(FILES_EACH):
            with open("%s/file%d" % (below, file), "wb") as out:
                out.write(b"%d" % file * (FILE_SIZE // len(b"%d" % file)))
    return folder


def kinds(scratch, program, folder):
    """The kinds of mounts, with the images and folders that they want."""
    installed, empty = scratch + "/installed", scratch + "/empty"
    install = [sys.executable, "-B", ROOT + "/packaging/install.py"]
    subprocess.run([*install, program, installed, PREFIX, ""], check=True)
    os.mkdir(empty)
    image, packed = scratch + "/tree.romfs", scratch + "/tree.squashfs"
    layers = installed + PREFIX + "/bin/strata-layers"
    subprocess.run([layers, "image", folder, image], check=True, stdout=subprocess.DEVNULL,
                   stderr=subprocess.DEVNULL)
    if shutil.which("mksquashfs"):
        subprocess.run(["mksquashfs", folder, packed, "-quiet", "-no-progress"], check=True)
    mount = installed + PREFIX + "/bin/strata-mount"
    below = "lowerdir=%s:%s" % (empty, folder)
    return (Kind("strata", "%s --background %s DIR" % (mount, image)),
            Kind("strata `--share`", "%s --share %s DIR" % (mount, image)),
            Kind("squashfuse_ll", "squashfuse_ll %s DIR" % packed, "squashfuse_ll", "mksquashfs"),
            Kind("fuse-overlayfs", "fuse-overlayfs -o %s DIR 2>/dev/null" % below,
                 "fuse-overlayfs"),
            Kind("overlayfs (kernel)", "mount -t overlay overlay -o %s DIR" % below),
            Kind("no mount", None))


class Measured:
    """What some sandboxes took: the clock until each printed, in order, the processor's seconds,
    and the servers' memory."""

    def __init__(self, clock, processor, memory):
        self.clock, self.processor, self.memory = sorted(clock), processor, memory


def used():
    it = resource.getrusage(resource.RUSAGE_CHILDREN)
    return it.ru_utime + it.ru_stime


def memory_of(process):
    try:
        with open("/proc/%d/smaps_rollup" % process, encoding="ascii") as it:
            return next(int(line.split()[1]) for line in it if line.startswith("Pss:")) / 1024
    except (OSError, StopIteration):
        return 0.0


def printed(kind, runs, start):
    """The seconds after which each of these sandboxes has printed the file."""
    waiting, clock = selectors.DefaultSelector(), []
    for run in runs:
        waiting.register(run.stdout, selectors.EVENT_READ)
    while len(clock) < len(runs):
        for key, _ in waiting.select():
            if os.read(key.fd, 1 << 12) != DATA:
                raise Failed("%s: the sandbox did not print the file" % kind.name)
            clock.append(time.monotonic() - start)
            waiting.unregister(key.fileobj)
    return clock


def sandboxes(scratch, kind, source, count):
    """What so many sandboxes at once take, each with a mount of its own."""
    places = [tempfile.mkdtemp(dir=scratch) for _ in range(count)]
    before, start = used(), time.monotonic()
    runs = [subprocess.Popen(["sh", "-c", kind.line(at, source)], stdin=subprocess.DEVNULL,
                             stdout=subprocess.PIPE) for at in places]
    try:
        clock = printed(kind, runs, start)
        for run in runs:
            run.wait()
            run.stdout.close()
        memory = sum(map(memory_of, children()))
    finally:
        for at in places:
            if kind.command is not None:
                subprocess.run(["umount", at])
            os.rmdir(at)
    while children():
        os.waitpid(-1, 0)
    return Measured(clock, used() - before, memory)


def in_turns(scratch, every, source, count, runs):
    """What so many sandboxes at once take of each kind, run by run."""
    found = {kind.name: [] for kind in every}
    for _ in range(runs):
        for kind in every:
            found[kind.name].append(sandboxes(scratch, kind, source, count))
    return found


def python_alone(count):
    """The same of python without a module, started by a shell as well."""
    before, start = used(), time.monotonic()
    words = ["sh", "-c", "exec %s -I -S -c pass" % sys.executable]
    runs = [subprocess.Popen(words, stdin=subprocess.DEVNULL) for _ in range(count)]
    for run in runs:
        run.wait()
    return time.monotonic() - start, used() - before


def middle(figure, runs):
    return statistics.median(map(figure, runs))


def row(name, ones, many):
    """The row of a kind of mount."""
    first, processor = middle(lambda it: it.clock[0], ones), middle(lambda it: it.processor, ones)
    cells = [first * 1e3, processor * 1e3, middle(lambda it: statistics.median(it.clock), many),
             middle(lambda it: it.processor, many), middle(lambda it: it.memory, many)]
    return "| %s | %s |" % (name, " | ".join("0" if it < 0.01 else two_digits(it) for it in cells))


def measure(scratch, asked):
    folder = asked.tree or make_tree(tempfile.mkdtemp(dir=scratch), asked.paths)
    with open(os.path.join(folder, NAME), "wb") as out:
        out.write(DATA)
    every = kinds(scratch, os.path.abspath(asked.program), folder)
    here = [kind for kind in every if not kind.missing]
    for kind in every:
        if kind.missing:
            print("%s: left out: no %s" % (kind.name, ", ".join(kind.missing)))
    ones = in_turns(scratch, here, folder, 1, asked.runs)
    many = in_turns(scratch, here, folder, asked.count, asked.rounds)
    print("| | %s |\n|---|%s" % (" | ".join(HEAD) % asked.count, "---|" * len(HEAD)))
    for kind in here:
        print(row(kind.name, ones[kind.name], many[kind.name]))
    for kind in here:
        print("%s: the last of %d after %.2f s" % (kind.name, asked.count, middle(lambda it: it.clock[-1], many[kind.name])))
    one = [python_alone(1) for _ in range(asked.runs)]
    clock, processor = (statistics.median(column) * 1e3 for column in zip(*one))
    print("python3 -I -S -c pass: %.0f ms, %.0f ms of processor; %d at once %.2f s, %.2f s" % (
        clock, processor, asked.count, *python_alone(asked.count)))


def main():
    parser = argparse.ArgumentParser(
        prog="checks sandboxes", description="From the mount command to a sandbox's first output.")
    parser.add_argument("program", metavar="PROGRAM")
    parser.add_argument("--tree", metavar="FOLDER", help="a folder, into which a file is written")
    parser.add_argument("--paths", metavar="N", type=int, default=14_496)
    parser.add_argument("--count", metavar="N", type=int, default=50)
    parser.add_argument("--runs", metavar="N", type=int, default=9)
    parser.add_argument("--rounds", metavar="N", type=int, default=3)
    asked = parser.parse_args()
    if shutil.which("bwrap") is None or os.geteuid() != 0:
        print("sandboxes: left out: " + ("it takes root" if os.geteuid() else "no bwrap"))
        return
    adopt()
    enter()
    with tempfile.TemporaryDirectory(prefix="sandboxes-") as scratch:
        os.chmod(scratch, 0o755)
        try:
            measure(scratch, asked)
        except Failed as wrong:
            sys.exit("sandboxes: %s" % wrong)


if __name__ == "__main__":
    main()
