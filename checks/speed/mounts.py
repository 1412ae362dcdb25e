"""Times common work on a mount, beside other servers: python3 checks mounts PROGRAM [--runs N] [--quick]

The tree has two layers: /usr/include and a Python library of this machine, and above them 300 new
files, a changed one and some whiteouts. Beside strata: squashfuse_ll on one uncompressed squashfs
image of the merged tree, fuse-overlayfs and the kernel's overlayfs on two directories. Servers that
are missing are left out, by name. Each workload runs on a fresh mount, and once more on the same
one. Printed is the table of docs/SPEED.md: seconds by the clock, the least of N runs (3), the
servers in turn. All files are in memory. Takes root. `--quick` runs three workloads once.
"""
import argparse
import os
import random
import shutil
import subprocess
import sys
import tempfile
import time

from checks.shared.mounting import Failed, adopt, enter

INCLUDES = "stdio stdlib string pthread sys/socket netinet/in sys/stat math signal time new/n001"
IMPORTS = ("json, email.mime.multipart, http.client, unittest, asyncio, sqlite3, xml.dom.minidom, "
           "concurrent.futures, argparse, csv, decimal, ctypes")
STAT = """import os, sys
os.chdir(sys.argv[1])
for path in open(sys.argv[2]):
    try:
        os.stat(path.rstrip("\\n"))
    except OSError:
        pass
"""
UNITS, READERS, PYTHONS, NAMES = 40, 8, 5, 20_000
QUICK = ("find", "tar", "stat, 20,000 names")


def shell(line):
    subprocess.run(["bash", "-c", line], check=True, stdout=subprocess.DEVNULL,
                   stderr=subprocess.DEVNULL)


def write(path, text):
    os.makedirs(os.path.dirname(path), exist_ok=True)
    with open(path, "w", encoding="utf-8") as out:
        out.write(text)


def library():
    """The Python library that is copied: that of this interpreter."""
    return os.path.dirname(os.__file__)


def make_trees(folder):
    """The layers as directories, the upper one with OCI and with overlayfs whiteouts; and images."""
    lower, upper, over, merged = ("%s/%s" % (folder, it) for it in ("lower", "upper", "over", "merged"))
    os.makedirs(lower + "/usr/lib")
    shell("cp -a /usr/include %s/usr/include && cp -a %s %s/usr/lib/python3" % (lower, library(), lower))
    shell("find %s -name __pycache__ -prune -exec rm -rf {} +" % lower)
    shell("find %s -type l ! -exec test -e {} \\; -delete" % lower)
    hidden = sorted(os.listdir(lower + "/usr/include"))[5:40:5]
    for layer in (upper, over):
        for number in range(300):
            write("%s/usr/include/new/n%03d.h" % (layer, number), ("#define N%d %d\n" % (number, number)) * 20)
        write(layer + "/usr/include/errno.h", "/* replaced */\n")
    shell("cp -a %s %s && cp -a %s/. %s" % (lower, merged, over, merged))
    for name in hidden:
        write("%s/usr/include/.wh.%s" % (upper, name), "")
        os.mknod("%s/usr/include/%s" % (over, name), 0o20000, 0)
        shell("rm -rf %s/usr/include/%s" % (merged, name))
    for layer in (lower, upper):
        shell("genromfs -d %s -f %s.romfs -V layer" % (layer, layer))
    if shutil.which("mksquashfs"):
        shell("mksquashfs %s %s.squashfs -noI -noD -noF -noX -quiet -no-progress" % (merged, merged))
    return lower, over, merged


class Server:
    """A server: its name, and the command that mounts at a directory."""

    def __init__(self, name, start, *programs):
        self.name, self.start = name, start
        self.missing = [it for it in programs if shutil.which(it) is None]

    def mounted(self, at):
        """Mounts, and returns the process that serves, or None for the kernel."""
        process = self.start(at)
        for _ in range(1000):
            if os.path.isdir(at + "/usr"):
                return process
            time.sleep(0.01)
        raise Failed("%s did not mount" % self.name)


def unmount(at, process):
    for _ in range(100):
        if subprocess.run(["umount", at], stderr=subprocess.DEVNULL).returncode == 0:
            break
        time.sleep(0.02)
    if process is not None:
        process.wait()


def begun(*words, **named):
    quiet = {"stdout": subprocess.DEVNULL, "stderr": subprocess.DEVNULL, **named}
    return subprocess.Popen(words, **quiet)


def by_strata(program, images):
    """Starts strata on /dev/fuse itself, with the options that strata-mount gives the kernel."""
    def start(at):
        device = os.open("/dev/fuse", os.O_RDWR)
        options = "ro,nosuid,nodev,default_permissions,fd=%d,rootmode=40000,user_id=0,group_id=0" % device
        subprocess.run(["mount", "-i", "-t", "fuse", "-o", options, "strata", at], check=True,
                       pass_fds=[device])
        process = begun(program, "serve", "--device", *images, stdin=device, stdout=device)
        os.close(device)
        return process

    return start


def overlayfs(below):
    def start(at):
        shell("mount -t overlay -o ro,%s overlay %s" % (below, at))

    return start


def servers(program, lower, over, merged):
    images = [os.path.dirname(lower) + "/%s.romfs" % it for it in ("lower", "upper")]
    below = "lowerdir=%s:%s" % (over, lower)
    return [Server("strata", by_strata(program, images)),
            Server("squashfuse_ll", lambda at: begun("squashfuse_ll", "-f", merged + ".squashfs", at),
                   "squashfuse_ll", "mksquashfs"),
            Server("fuse-overlayfs", lambda at: begun("fuse-overlayfs", "-f", "-o", below, at),
                   "fuse-overlayfs"),
            Server("overlayfs (kernel)", overlayfs(below))]


def lists(folder, merged):
    """Lists of paths, and the sources that are compiled."""
    rng = random.Random(5)
    paths = [os.path.relpath(os.path.join(at, name), merged)
             for at, _, names in sorted(os.walk(merged)) for name in sorted(names)]
    sample = [rng.choice(paths) + ("" if rng.random() < 0.7 else ".none") for _ in range(NAMES)]
    write(folder + "/sample", "\n".join(sample))
    write(folder + "/stat.py", STAT)
    for part in range(READERS):
        write("%s/part%d" % (folder, part), "\n".join(paths[part::READERS]) + "\n")
    head = "".join("#include <%s.h>\n" % it for it in INCLUDES.split())
    for unit in range(UNITS):
        write("%s/units/u%d.c" % (folder, unit), head + "int f%d(void) { return N1; }\n" % unit)


def workloads(folder, at):
    """The commands, by their names in the table."""
    include = "%s/usr/include" % at
    compiled = "cc -fsyntax-only -nostdinc -I %s -I %s/x86_64-linux-gnu -I $(cc -print-file-name=include)" % (
        include, include)
    readers = " ".join(map(str, range(READERS)))
    python = "PYTHONDONTWRITEBYTECODE=1 PYTHONPATH=%s/usr/lib/python3 %s -S -c 'import %s'" % (
        at, sys.executable, IMPORTS)
    return {
        "find": "find %s -printf '%%s %%m %%p\\n'" % at,
        "tar": "tar -C %s -cf - . | cat" % at,
        "grep": "grep -rc zzzqzzz %s || true" % at,
        "stat, 20,000 names": "%s -S %s/stat.py %s %s/sample" % (sys.executable, folder, at, folder),
        "%d compiles" % UNITS: "for unit in %s/units/*.c; do %s $unit; done" % (folder, compiled),
        "eight readers": "for k in %s; do (cd %s && xargs cat < %s/part$k) & done; wait" % (readers, at, folder),
        "Python, 12 modules": "for k in $(seq %d); do %s; done" % (PYTHONS, python),
    }


def seconds(line):
    start = time.monotonic()
    shell(line)
    return time.monotonic() - start


def measured(folder, program, runs, is_quick):
    """The names of the servers, and for each workload the least seconds of each: fresh, and again."""
    every = servers(os.path.abspath(program), *make_trees(folder))
    here = [it for it in every if not it.missing]
    for it in every:
        if it.missing:
            print("%s: left out: no %s" % (it.name, ", ".join(it.missing)))
    at = folder + "/at"
    os.mkdir(at)
    lists(folder, folder + "/merged")
    rows = []
    for name, line in workloads(folder, at).items():
        if is_quick and name not in QUICK:
            continue
        least = [(float("inf"),) * 2 for _ in here]
        for _ in range(runs):
            for number, server in enumerate(here):
                process = server.mounted(at)
                try:
                    least[number] = tuple(map(min, zip(least[number], (seconds(line), seconds(line)))))
                finally:
                    unmount(at, process)
        rows.append((name, least))
    return [it.name for it in here], rows


def two_digits(value):
    """A number in two digits: 0.037, 0.40, 2.6, 12, 130."""
    return "%#.2g" % value if value < 9.95 else "%d" % float("%.2g" % value)


def table(names, rows):
    """The lines of the table of docs/SPEED.md."""
    yield "| Workload | %s |" % " | ".join(names)
    yield "|---|%s" % ("---|" * len(names))
    for name, times in rows:
        cells = ["%s; %s" % (two_digits(fresh), two_digits(again)) for fresh, again in times]
        yield "| %s | %s |" % (name, " | ".join(cells))


def measure(program, runs, is_quick):
    """The same as `measured`, in a mount namespace and a memory file system of its own."""
    adopt()
    enter()
    with tempfile.TemporaryDirectory(prefix="mounts-") as folder:
        subprocess.run(["mount", "-t", "tmpfs", "-o", "size=4g", "tmpfs", folder], check=True)
        try:
            return measured(folder, program, runs, is_quick)
        finally:
            subprocess.run(["umount", "-l", folder], check=True)


def main():
    parser = argparse.ArgumentParser(prog="checks mounts", description=__doc__.partition("\n")[0])
    parser.add_argument("program", metavar="PROGRAM")
    parser.add_argument("--runs", metavar="N", type=int, default=3)
    parser.add_argument("--quick", action="store_true")
    asked = parser.parse_args()
    if os.geteuid() != 0 or shutil.which("genromfs") is None:
        print("mounts: left out: takes root and genromfs")
        return
    try:
        names, rows = measure(asked.program, 1 if asked.quick else asked.runs, asked.quick)
    except Failed as wrong:
        sys.exit("mounts: %s" % wrong)
    print("\n".join(table(names, rows)))


if __name__ == "__main__":
    main()
