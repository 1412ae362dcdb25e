"""The installed programs run by their names, whatever stands around them."""
import os
import re
import shutil
import signal

from checks import ROOT
from checks.installed.mounts import OTHER, STACK, hold_stack, places, servers, user
from checks.installed.roots import LeftOut, hold, hold_in

SOURCE = os.path.join(ROOT, "crates", "strata_words", "src", "version.rt")
LOGIC = "dac8208d650f15bf"
# what takes longer to load than to mount
HEAVY = ("argparse", "collections", "contextlib", "ctypes", "enum", "hashlib", "json", "re", "shutil", "signal", "socket", "subprocess",
         "tempfile", "threading")
EVIL = "raise SystemExit('a stranger was imported')\n"


def version():
    """The version that stands in the program's sources."""
    with open(SOURCE, encoding="utf-8") as it:
        return re.search(r'^pub const VERSION: &str = "([^"]+)";$', it.read(), re.M)[1]


def named(root):
    """Each program says its version and its options by its name."""
    number = version()
    root.install()
    hold("strata", "strata %s (logic %s)\n" % (number, LOGIC), root.good("strata", "--version"))
    for name in ("strata-mount", "strata-layers"):
        hold(name, "%s %s\n" % (name, number), root.good(name, "--version"))
    hold("-V", "strata-layers %s\n" % number, root.good("strata-layers", "-V"))
    for name in ("mount.strata", "mount.fuse.strata"):
        hold(name, "mount.strata %s\n" % number, root.good("/sbin/" + name, "--version"))
    for name in ("strata-mount", "strata-layers", "mount.strata"):
        hold_in(name, "usage: " + name, root.good(name, "--help"))
    return "strata, strata-mount, strata-layers and mount.strata say version %s" % number


def early(root):
    """SIGINT while a program still loads its modules ends it without a word."""
    root.install()
    with open("/usr/local/lib/strata/strata_format/ends.py", "w", encoding="ascii") as out:
        out.write("import signal\nsignal.raise_signal(signal.SIGINT)\n")
    for name in ("strata-layers", "strata-mount", "mount.strata"):
        hold(name, (-signal.SIGINT, "", ""), tuple(root.run(name, "--version")))
    return "strata-layers, strata-mount and mount.strata end by it, without a word"


def alone(root):
    """Neither the working folder nor the environment decides what is executed or imported."""
    root.install()
    folder = "/tmp/stranger"
    os.mkdir(folder)
    for name in ("strata_mount", "strata_layers", "strata_format", "os", "argparse", "ctypes", "sitecustomize", "mount", "layers"):
        with open("%s/%s.py" % (folder, name), "w", encoding="ascii") as out:
            out.write(EVIL)
    for name in ("strata", "fusermount3", "python3", "umount", "skopeo", "zstd"):
        with open("%s/%s" % (folder, name), "w", encoding="ascii") as out:
            out.write("#!/bin/sh\necho a stranger was started >&2\nexit 9\n")
        os.chmod("%s/%s" % (folder, name), 0o755)
    env = dict(os.environ, PYTHONPATH=folder, PYTHONHOME=folder, PYTHONSTARTUP=folder + "/mount.py", PATH=folder,
               HOME=folder, PYTHONINSPECT="1")
    for name in ("/usr/local/bin/strata-mount", "/usr/local/bin/strata-layers", "/usr/local/sbin/mount.strata"):
        hold_in(name, version_of(name), root.good(name, "--version", cwd=folder, env=env))
    os.mkdir("/mnt/alone")
    hold_programs_of_root(root, folder, env)
    words = ("/usr/local/sbin/mount.strata", STACK, "/mnt/alone")
    hold("the mount helper", "", root.good(*words, cwd=folder, env=env))
    hold_stack(root, "/mnt/alone")
    server, = servers()
    with open("/proc/%d/environ" % server, "rb") as it:
        # older loaders cut GLIBC_TUNABLES in place
        parts = [part for part in it.read().split(b"\0") if not part.startswith(b"glibc.")]
        names = [part.partition(b"=")[0] for part in parts]
        hold("the server's environment", [b"MALLOC_MMAP_THRESHOLD_", b"GLIBC_TUNABLES", b"PATH", b""], names)
    root.good("umount", "/mnt/alone")
    return "modules and programs of strangers in the working folder, PYTHONPATH and PATH are not met" + other_alone(root, words, env)


def hold_programs_of_root(root, folder, env):
    """Root's programs are those of the system: skopeo, zstd, and fusermount3, which a root without the right to mount needs."""
    with open("/tmp/packed", "wb") as out:
        out.write(bytes.fromhex("28b52ffd0400010000"))
    for words in (("strata-layers", "pull", "docker://localhost:1/a"), ("strata-layers", "image", "-", "/tmp/a.romfs"),
                  ("strata-mount", "--background", "/srv/lower.romfs", "/mnt/alone")):
        with open("/tmp/packed", "rb") as packed:
            done = root.run("/usr/bin/setpriv", "--bounding-set", "-sys_admin", "/usr/local/bin/" + words[0], *words[1:], cwd=folder,
                            env=env, stdin=packed)
        hold("%s: %s" % (words, done.err), (True, False), (done.status in (0, 1), "a stranger" in done.err))


def other_alone(root, words, env):
    """The same for an unprivileged user, for whom the helper starts fusermount3."""
    try:
        root.needs("fusermount3", "setpriv")
        other = user(root)
    except LeftOut as missing:
        return "; left out for others than root: %s" % missing
    os.chown("/mnt/alone", OTHER, OTHER)
    command = ["/usr/bin/" + other[0], *other[1:], *words]
    hold("the mount helper, for an unprivileged user", "", root.good(*command, cwd="/tmp/stranger", env=env))
    hold("mounts", [("/mnt/alone", STACK)], places())
    root.good(*other, "umount", "/mnt/alone")
    return ", by root and by others"


def version_of(path):
    return os.path.basename(path) + " "


def lean(root):
    """A mount, by files or by a name of the store, loads no module that takes longer than it, and no module is compiled."""
    shutil.copytree(os.path.join(ROOT, "demo", "layout"), root.top + "/srv/layout")
    root.install()
    hold("pull", 0, root.run("strata-layers", "pull", "oci:/srv/layout", "lantern").status)
    hold("images", 0, root.run("strata-layers", "/srv/layout", "/srv/images").status)
    images = sorted("/srv/images/" + it for it in os.listdir("/srv/images") if it.endswith(".romfs"))
    os.mkdir("/mnt/lean")
    with open("/usr/local/bin/strata-mount", encoding="utf-8") as it:
        python = it.readline().split()[-2]
    for words in (("bin/strata-mount", "--background", "/srv/lower.romfs"), ("bin/strata-mount", "--share", "image:lantern"),
                  ("bin/strata-mount", "--background", *images),
                  ("sbin/mount.strata", "/srv/lower.romfs"), ("sbin/mount.strata", "image:lantern")):
        told = root.run(python, "-IBS", "-v", "/usr/local/" + words[0], *words[1:], "/mnt/lean")
        hold("the status of %s" % (words,), 0, told.status)
        root.good("umount", "/mnt/lean")
        loaded = set(re.findall(r"^import '([\w.]+)'", told.err, re.M))
        hold("modules of %s" % (words,), set(), loaded & set(HEAVY))
        ours = re.findall(r"^# code object from /usr/local/lib/strata/.*", told.err, re.M)
        hold("modules that are compiled anew", [], ours)
        hold("compiled modules", True, "strata_mount/__pycache__/" in told.err)
    return "%d modules are not loaded, and none is compiled" % len(HEAVY)


def links(root):
    """However a link leads to a program, it finds what belongs to it; and so does what was moved as a whole."""
    root.install()
    os.makedirs("/opt/a/b")
    os.symlink("/usr/local/bin/strata-mount", "/opt/a/one")
    os.symlink("../one", "/opt/a/b/two")
    hold_in("a link to a link", "mount", root.good("./two", "--version", cwd="/opt/a/b"))
    root.good("cp", "-a", "/usr/local", "/opt/moved")
    root.good("rm", "-r", "/usr/local/lib/strata", "/usr/local/bin/strata")
    os.mkdir("/mnt/links")
    root.good("/opt/moved/bin/strata-mount", "--background", "/srv/lower.romfs", "/mnt/links")
    hold("what is mounted", "lantern\n", root.good("cat", "/mnt/links/etc/hostname"))
    root.good("umount", "/mnt/links")
    return "links to links, and the whole moved elsewhere"
