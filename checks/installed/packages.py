"""The Debian package, the archive of dist, and that what is removed leaves nothing."""
import hashlib
import os
import re
import subprocess
import sys

from checks import ROOT
from checks.installed.mounts import STACK, fstab, hold_stack
from checks.installed.pages import hold_links
from checks.installed.programs import version
from checks.installed.roots import LeftOut, hold, hold_in

PATHS = ("bin/strata", "bin/strata-mount", "bin/strata-layers", "sbin/mount.strata", "sbin/mount.fuse.strata",
         "lib/strata/strata_mount/command.py", "lib/strata/strata_layers/command.py", "lib/strata/strata_format/romfs.py",
         "share/man/man1/strata.1", "share/man/man1/strata-mount.1", "share/man/man1/strata-layers.1",
         "share/man/man5/strata-attributes.5", "share/man/man8/mount.strata.8",
         "share/man/man8/mount.fuse.strata.8", "share/doc/strata/README.md", "share/doc/strata/USE.md",
         "share/doc/strata/MOUNTING.md", "share/doc/strata/LIMITS.md", "share/doc/strata/ENGINES.md",
         "share/doc/strata/PROMISES.md", "share/doc/strata/SPEED.md", "share/doc/strata/demo/lower.romfs",
         "share/doc/strata/demo/layout/index.json")


# the package of the snapshotter, which is made beside that of strata
SNAPSHOTTER = "strata-snapshotter_"
POLICY = "/usr/sbin/policy-rc.d"
# where it mounts a chain of layers
CHAIN = "/var/lib/strata-snapshotter/mounts/7"
# where `systemctl enable` links its units
WANTED = (("multi-user.target", "strata-snapshotter.service"), ("sockets.target", "strata-snapshotter.socket"))


def made(root, target, suffix):
    """What a target of the Makefile makes, in a folder of the root."""
    if target == "deb":
        root.needs("dpkg-deb", "strip")
    os.makedirs(root.top + "/tmp/made", exist_ok=True)
    root.make(target, "PACKAGES=%s/tmp/made" % root.top)
    name, = [name for name in os.listdir(root.top + "/tmp/made") if name.endswith(suffix) and not name.startswith(SNAPSHOTTER)]
    return "/tmp/made/" + name


def package(root):
    """The package installs, mounts by fstab to who has nothing else, is clean to lintian, and goes without a trace."""
    root.needs("dpkg", "dpkg-deb", "strip")
    path, number = made(root, "deb", ".deb"), version()
    root.enter()
    if root.run("dpkg", "-s", "python3").status != 0:
        raise LeftOut("no package python3, which this one asks for")
    said = root.good("dpkg-deb", "-f", path, "Version", "Depends", "Recommends", "Suggests")
    for part in ("Version: %s\n" % number, "Depends: python3", "Recommends: fuse3", "Suggests: skopeo"):
        hold_in("the package's control", part, said)
    before = root.written()
    done = root.run("dpkg", "-i", path)
    hold("dpkg -i: %s" % done.err, 0, done.status)
    for name in PATHS:
        name = "/usr/" + name + (".gz" if name.startswith("share/man") else "")
        hold(name, True, os.path.exists(name))
    hold("compiled modules", True, any(os.scandir("/usr/lib/strata/strata_mount/__pycache__")))
    hold_links("/usr/share/")
    os.mkdir("/srv/tree")
    fstab(STACK + " /srv/tree strata ro,nofail 0 0")
    root.good("mount", "-a")
    hold_stack(root, "/srv/tree")
    root.good("umount", "/srv/tree")
    root.good("dpkg", "--verify", "strata")
    done = root.run("dpkg", "-P", "strata")
    hold("dpkg -P: %s" % done.err, 0, done.status)
    hold("what is left", {"/etc/fstab"}, root.written() - before)
    return "installed, mounted by fstab, removed without a trace; " + linted(root, path)


def service(root):
    """The snapshotter's service is started anew when its package is upgraded, and stopped when it is removed; then it stays
    enabled nowhere, and none of its mounts is left."""
    root.needs("dpkg", "dpkg-deb", "strip", "deb-systemd-invoke")
    made(root, "deb", ".deb")
    root.enter()
    path, = ["/tmp/made/" + name for name in os.listdir("/tmp/made") if name.startswith(SNAPSHOTTER)]
    os.makedirs("/run/systemd/system")
    # as in images of containers it may forbid all starts
    if os.path.exists(POLICY):
        os.unlink(POLICY)
    # instead of systemd's own; it notes its words, and says of each unit that it is enabled
    with open("/usr/local/sbin/systemctl", "w", encoding="ascii") as out:
        out.write("#!/bin/sh\necho \"$*\" >> /tmp/told\necho enabled\n")
    os.chmod("/usr/local/sbin/systemctl", 0o755)
    links = ["/etc/systemd/system/%s.wants/%s" % it for it in WANTED]
    for link in links:
        os.makedirs(os.path.dirname(link), exist_ok=True)
        os.symlink("/lib/systemd/system/" + os.path.basename(link), link)
    os.makedirs(CHAIN)
    root.good("mount", "-t", "tmpfs", "tmpfs", CHAIN)
    install, restart = ("--force-depends", "-i", path), "--quiet --system restart strata-snapshotter.service"
    stop = "stop strata-snapshotter.service strata-snapshotter.socket"
    for words, told, is_mounted in ((install, [], True), (install, [restart], True), (("-r", "strata-snapshotter"), [stop], False)):
        done = root.run("dpkg", *words)
        hold("dpkg %s: %s" % (words[0], done.err), 0, done.status)
        hold(" ".join(words), told, list(told_by("/tmp/told")))
        hold("a mount after dpkg %s" % words[0], is_mounted, os.path.ismount(CHAIN))
    hold("links that are left", [], [link for link in links if os.path.lexists(link)])
    return "started anew, stopped, nowhere enabled, and without a mount"


def told_by(path):
    """The words of systemctl that start or stop, of a file that ends with that."""
    if not os.path.exists(path):
        return
    with open(path, encoding="ascii") as lines:
        yield from (line.rstrip() for line in lines if {"start", "restart", "stop"} & set(line.split()))
    os.unlink(path)


def beside(root):
    """make install and make uninstall leave the helpers of a package alone, and say so."""
    root.needs("dpkg-deb", "strip")
    subprocess.run(["dpkg-deb", "-x", root.top + made(root, "deb", ".deb"), root.top], check=True)
    helpers = [root.top + "/sbin/" + name for name in ("mount.strata", "mount.fuse.strata")]
    before = [(sum_of(path), os.path.islink(path)) for path in helpers]
    for target in ("install", "uninstall"):
        said = root.make(target, "PREFIX=/usr/local")
        hold(target, "".join("%s: is not of this install, and stays as it is\n" % path for path in helpers), said)
        hold("helpers", before, [(sum_of(path), os.path.islink(path)) for path in helpers])
    root.enter()
    os.mkdir("/mnt/beside")
    root.good("mount", "-t", "strata", STACK, "/mnt/beside")
    hold_stack(root, "/mnt/beside")
    root.good("umount", "/mnt/beside")
    return "the helpers of a package stay as they are, and mount"


def unbuilt(root):
    """What packs or installs says in a line that the program is not built."""
    for words in (("install.py", "/none", "", "/usr", ""), ("deb.py", "/none", "/tmp"), ("dist.py", "/none", "/tmp")):
        done = root.run(sys.executable, "-B", os.path.join(ROOT, "packaging", words[0]), *words[1:])
        hold(words[0], (1, "", "/none is not there: make build, first\n"), tuple(done))
    return "said by make install, deb and dist"


def linted(root, path):
    """What lintian finds in this package and the snapshotter's: neither errors and warnings, nor what it only informs of."""
    try:
        root.needs("lintian")
    except LeftOut as missing:
        return "left out: %s" % missing
    folder = os.path.dirname(path)
    paths = [os.path.join(folder, name) for name in sorted(os.listdir(folder)) if name.endswith(".deb")]
    done = root.run("lintian", "--display-info", "--pedantic", "--fail-on", "error,warning,info,pedantic", *paths)
    found = [line for line in done.out.splitlines() if line.startswith(("E:", "W:", "I:", "P:"))]
    hold("lintian", (2, 0, []), (len(paths), done.status, found))
    return "lintian finds nothing"


def sum_of(path):
    with open(path, "rb") as it:
        return hashlib.sha256(it.read()).hexdigest()


def same_bytes(root):
    """The package and the archive are the same bytes each time."""
    sums = []
    for _ in range(2):
        targets = [made(root, "dist", ".tar.gz")]
        try:
            targets.append(made(root, "deb", ".deb"))
        except LeftOut:
            pass
        sums.append([sum_of(root.top + path) for path in targets])
        for path in targets:
            os.unlink(root.top + path)
    hold("sums", sums[0], sums[1])
    return "%d files, made twice" % len(sums[0])


def archive(root):
    """What dist packs is what is installed, and runs where it is unpacked."""
    path = made(root, "dist", ".tar.gz")
    root.make("install", "PREFIX=/opt/installed", "HELPERS=")
    root.enter()
    os.makedirs("/opt/unpacked")
    root.good("tar", "xf", path, "--strip-components=1", "-C", "/opt/unpacked")
    root.good("diff", "-r", "--no-dereference", "/opt/unpacked", "/opt/installed")
    root.good("/opt/unpacked/bin/strata-mount", "--background", "/srv/lower.romfs", "/mnt")
    hold("a file", "lantern\n", root.good("cat", "/mnt/etc/hostname"))
    root.good("umount", "/mnt")
    owners = root.good("tar", "--numeric-owner", "-tvf", path)
    hold("owners", set(), set(re.findall(r"^\S+ (\S+)", owners, re.M)) - {"0/0"})
    return "the same files as make install, and they run"


def uninstalled(root):
    """make uninstall leaves no file of make install, in /sbin neither."""
    before = root.written()
    root.make("install", "PREFIX=/usr/local")
    for name in ("mount.strata", "mount.fuse.strata"):
        hold("/sbin/" + name, "/usr/local/sbin/" + name, os.readlink(root.top + "/sbin/" + name))
    hold_in("what is installed", "/usr/local/lib/strata/strata_mount/command.py", root.written())
    root.make("uninstall", "PREFIX=/usr/local")
    hold("what is left", set(), root.written() - before)
    return "no file is left"
