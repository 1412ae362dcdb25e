"""Mounts by mount(8) and by lines of /etc/fstab; dead mounts; units of systemd."""
import os
import re
import shutil
import signal
import time

from checks import ROOT
from checks.installed.roots import LeftOut, hold, hold_in, mount

STACK = "/srv/lower.romfs:/srv/upper.romfs"
MOUNTING = os.path.join(ROOT, "docs", "MOUNTING.md")
DEVICE = "/dev/fuse"
NOT_MOUNTED, WRONG_WORDS, SOME_MOUNTED = 32, 1, 64
OTHER = 65534
# every word of fstab(5) and mount(8) that says when, by whom, or how a file system of the usual kind is mounted
FSTAB_WORDS = ("defaults,auto,nouser,nofail,_netdev,nonempty,async,relatime,nodiratime,lazytime,x-systemd.automount,"
               "x-systemd.requires=srv.mount,x-systemd.requires-mounts-for=/data2,X-mount.mkdir,comment=of a tree,strict,whole,"
               "workers=2,noexec,nosuid,nodev,allow_other,modeless")


def tried(root):
    """Nothing where /dev/fuse can be mounted here."""
    try:
        device = os.open(DEVICE, os.O_RDWR)
    except OSError as fault:
        raise LeftOut("%s: %s" % (DEVICE, fault.strerror)) from None
    mount("strata", root.top + "/mnt", "fuse", 1, "fd=%d,rootmode=40000,user_id=0,group_id=0" % device)
    return ""


def places(kind="fuse.strata"):
    """Where something of a type is mounted, with its source."""
    with open("/proc/self/mountinfo", encoding="utf-8") as lines:
        halves = [line.split(" - ") for line in lines]
    return [(front.split()[4], back.split()[1]) for front, back in halves if back.split()[0] == kind]


def servers():
    """The processes of strata."""
    found = []
    for name in filter(str.isdigit, os.listdir("/proc")):
        try:
            with open("/proc/%s/comm" % name, encoding="ascii", errors="replace") as it, open("/proc/%s/stat" % name, "rb") as stat:
                if it.read() == "strata\n" and stat.read().rpartition(b")")[2].split()[0] != b"Z":
                    found.append(int(name))
        except OSError:
            continue
    return found


def settle(what, wanted, function):
    """Waits until something is so; a check that waits for ever is ended from outside."""
    while function() != wanted:
        time.sleep(0.01)
    return what


def hold_stack(root, place):
    """Holds what a mount of the demo's two layers shows."""
    hold("a file of the upper layer", "beacon\n", root.good("cat", place + "/etc/hostname"))
    hold("a file that is whited out", 2, root.run("ls", place + "/etc/motd").status)


def kill_server():
    """Kills the one process of strata, and leaves a dead mount."""
    server, = servers()
    os.kill(server, signal.SIGKILL)
    settle("the server is gone", [], servers)


def fstab(*lines):
    with open("/etc/fstab", "w", encoding="ascii") as out:
        out.write("".join(line + "\n" for line in lines))


def typed(root):
    """`mount -t strata` and `mount -t fuse.strata`, by the helper where mount(8) finds it; `umount` ends the server."""
    root.install()
    os.mkdir("/mnt/tree")
    for kind in ("strata", "fuse.strata"):
        hold("mount -t " + kind, "", root.good("mount", "-t", kind, STACK, "/mnt/tree"))
        hold_stack(root, "/mnt/tree")
        hold("findmnt", "%s fuse.strata\n" % STACK, root.good("findmnt", "-rno", "SOURCE,FSTYPE", "/mnt/tree"))
        hold("ro", "ro", root.good("findmnt", "-rno", "OPTIONS", "/mnt/tree").split(",")[0])
        hold("a write", 1, root.run("touch", "/mnt/tree/x").status)
        hold("servers", 1, len(servers()))
        hold("umount", "", root.good("umount", "/mnt/tree"))
        settle("no server is left", [], servers)
    hold_in("-v", STACK, root.good("mount", "-v", "-t", "strata", STACK, "/mnt/tree", "-o", "ro"))
    return "mount -t strata and -t fuse.strata, -v, umount; the server ends with the mount"


def by_fstab(root):
    """Lines of fstab: mount -a, twice; a line by its folder alone; umount."""
    root.install()
    os.makedirs("/srv/tree")
    os.mkdir("/srv/other")
    fstab(STACK + " /srv/tree strata ro,nofail 0 0", "/srv/lower.romfs /srv/other fuse.strata ro,noauto 0 0")
    for _ in range(2):
        root.good("mount", "-a")
        hold("mounts", [("/srv/tree", STACK)], places())
    hold_stack(root, "/srv/tree")
    root.good("mount", "/srv/other")
    hold("the line with noauto", "lantern\n", root.good("cat", "/srv/other/etc/hostname"))
    root.good("umount", "/srv/other")
    root.good("umount", "-a", "-t", "fuse.strata")
    hold("mounts", [], places())
    for lines, status in (([], NOT_MOUNTED), ([STACK + " /srv/tree strata ro 0 0"], SOME_MOUNTED)):
        fstab("/srv/none.romfs /srv/other strata ro,nofail 0 0", *lines)
        done = root.run("mount", "-a")
        hold("mount -a without an image", (status, 2, len(lines)), (done.status, done.err.count("\n"), len(places())))
    fstab(STACK + " /srv/tree strata ro 0 0")
    kill_server()
    root.good("mount", "-a")
    hold("mounts over a dead one", 1, len(places()))
    return "mount -a twice mounts once; mount DIR; umount -a; an image that is missing, a dead mount"


def words(root):
    """Every word that fstab knows is taken; one that nobody knows is named, and nothing is mounted."""
    root.install()
    fstab(STACK + " /srv/made strata " + FSTAB_WORDS.replace(" ", "\\040") + " 0 0")
    root.good("mount", "-a")
    hold_stack(root, "/srv/made")
    shown = root.good("findmnt", "-rno", "OPTIONS", "/srv/made").strip().split(",")
    hold("options of the mount", {"ro", "noexec", "nosuid", "nodev", "allow_other"},
         {"ro", "noexec", "nosuid", "nodev", "allow_other"} & set(shown))
    done = root.run("mount", "-o", "remount,exec", "/srv/made")
    hold("remount", (WRONG_WORDS, "mount.strata: /srv/made: a mount of strata cannot be changed (remount): unmount it and mount again\n"),
         (done.status, done.err))
    root.good("umount", "/srv/made")
    for said in ("nonsense", "ro,nonsense=3", "defaults,nonsense"):
        done = root.run("mount", "-t", "strata", STACK, "/srv/made", "-o", said)
        hold("the status of -o %s" % said, WRONG_WORDS, done.status)
        hold_in("-o " + said, "mount.strata: /srv/made: -o: unknown: nonsense", done.err)
    for said in ("workers=many", "strict=yes", "whole=yes", "fd=3", "uid=-1"):
        hold("the status of -o %s" % said, WRONG_WORDS, root.run("mount", "-t", "strata", STACK, "/srv/made", "-o", said).status)
    hold("mounts", [], places())
    owner(root)
    root.good("mount", "-s", "-t", "strata", STACK, "/srv/made", "-o", "nonsense")
    hold_stack(root, "/srv/made")
    return "%d words of fstab are taken, others are named" % (FSTAB_WORDS.count(",") + 1)


def owner(root):
    """uid= and gid= own all files for which no image names an owner."""
    root.good("mount", "-t", "strata", STACK, "/srv/made", "-o", "uid=7,gid=4294967295")
    hold("whose a file is", 7, os.stat("/srv/made/etc/hostname").st_uid)
    root.good("umount", "/srv/made")
    for said in ("uid=4294967296", "gid=4294967296"):
        done = root.run("mount", "-t", "strata", STACK, "/srv/made", "-o", said)
        hold("the status of -o %s" % said, WRONG_WORDS, done.status)
        hold_in("-o " + said, "mount.strata: /srv/made: %s=N is a number from 0 to 4294967295" % said[:3], done.err)


def colons(root):
    """A colon, a space, a comma and a backslash in the names of images."""
    root.install()
    os.mkdir("/mnt/colons")
    os.rename("/srv/lower.romfs", "/srv/l:o w\\e,r.romfs")
    spec = "/srv/l\\:o w\\\\e,r.romfs:/srv/upper.romfs"
    root.good("mount", "-t", "strata", spec, "/mnt/colons")
    hold_stack(root, "/mnt/colons")
    root.good("umount", "/mnt/colons")
    fstab(spec.replace(" ", "\\040") + " /mnt/colons strata ro 0 0")
    for _ in range(2):
        root.good("mount", "-a")
        hold("mounts", 1, len(places()))
    hold_stack(root, "/mnt/colons")
    root.good("umount", "/mnt/colons")
    os.chdir("/srv")
    os.rename("/srv/l:o w\\e,r.romfs", "/srv/lower.romfs")
    root.good("mount", "-t", "strata", "lower.romfs:upper.romfs", "/mnt/colons")
    hold("the source of relative names", [("/mnt/colons", STACK)], places())
    hold("an empty name", WRONG_WORDS, root.run("mount", "-t", "strata", "lower.romfs:", "/mnt/colons").status)
    return "\\: is a colon, \\\\ a backslash, fstab's \\040 a space; names from the working folder"


def stored(root):
    """A container image of the store by fstab; its layers are in use as long as it is mounted."""
    shutil.copytree(os.path.join(ROOT, "demo", "layout"), root.top + "/srv/layout")
    root.install()
    os.mkdir("/srv/tree")
    hold("pull", 0, root.run("strata-layers", "pull", "oci:/srv/layout", "lantern").status)
    fstab("image:lantern /srv/tree strata ro 0 0")
    for _ in range(2):
        root.good("mount", "-a")
        hold("mounts", [("/srv/tree", "image:lantern")], places())
    hold("a file", "beacon\n", root.good("cat", "/srv/tree/etc/hostname"))
    root.good("strata-layers", "remove", "lantern")
    hold_in("prune while it is mounted", "3 are in use by a mount", root.good("strata-layers", "prune"))
    hold("a file", "beacon\n", root.good("cat", "/srv/tree/etc/hostname"))
    root.good("umount", "/srv/tree")
    settle("no server is left", [], servers)
    hold_in("prune", "3 layers removed", root.good("strata-layers", "prune"))
    done = root.run("mount", "-a")
    hold("an image that is gone", NOT_MOUNTED, done.status)
    hold_in("an image that is gone", "mount.strata: ", done.err)
    return "image:NAME by fstab; prune leaves its layers while it is mounted"


def faked(root):
    """`mount -f` mounts nothing, and says what would not do."""
    root.install()
    os.mkdir("/mnt/faked")
    root.good("mount", "-f", "-t", "strata", STACK, "/mnt/faked")
    root.good("/sbin/mount.strata", STACK, "/mnt/faked", "-fn", "-o", "rw,nofail")
    done = root.run("/sbin/mount.strata", "/srv/none.romfs", "/mnt/faked", "-f")
    hold("an image that is missing", (NOT_MOUNTED, "mount.strata: /srv/none.romfs: No such file or directory\n"),
         (done.status, done.err))
    hold("mounts", [], places())
    return "nothing is mounted, a missing image is said"


def user(root):
    """The words that start a command as an unprivileged user, who may open /dev/fuse, as udev lets all."""
    if os.stat("/dev/fuse").st_mode & 0o006 != 0o006:
        os.mknod("/tmp/fuse", 0o20666, os.stat("/dev/fuse").st_rdev)
        os.chmod("/tmp/fuse", 0o666)
        root.good("mount", "--bind", "/tmp/fuse", "/dev/fuse")
    other = ("setpriv", "--reuid=%d" % OTHER, "--regid=%d" % OTHER, "--clear-groups")
    if root.run(*other, "sh", "-c", "exec 3<>/dev/fuse").status != 0:
        raise LeftOut("an unprivileged user cannot open /dev/fuse here")
    return other


def for_others(root):
    """allow_other by an unprivileged user, as fuse.conf(5) has it: only with user_allow_other, or in a user namespace."""
    root.needs("fusermount3", "setpriv", "unshare")
    root.install()
    other, third = user(root), ("setpriv", "--reuid=%d" % (OTHER + 1), "--regid=%d" % (OTHER + 1), "--clear-groups")
    os.mkdir("/mnt/other")
    os.chown("/mnt/other", OTHER, OTHER)
    words = (*other, "strata-mount", "--background", "-o", "allow_other,modeless", "/srv/lower.romfs", "/mnt/other")
    open("/etc/fuse.conf", "w").close()
    script = "strata-mount --background -o allow_other,modeless,suid,dev /srv/lower.romfs /mnt/other && cat /mnt/other/etc/hostname"
    hold("in a user namespace", "lantern\n", root.good(*other, "unshare", "-rm", "sh", "-c", script + "; umount /mnt/other"))
    for line in ("", "user_allow_other\n"):
        with open("/etc/fuse.conf", "w", encoding="ascii") as out:
            out.write(line)
        done = root.run(*words)
        hold("status with %r" % line, int(not line), done.status)
        hold("the word that is missing", not line, "user_allow_other" in done.err)
    for who in (third, ()):
        hold("a file", "lantern\n", root.good(*who, "cat", "/mnt/other/etc/hostname"))
    root.good(*other, "fusermount3", "-u", "/mnt/other")
    hold("mounts", [], places())
    return "allow_other by a user, with user_allow_other in fuse.conf alone, or in a user namespace"


def podman_by_user(root):
    """`strata-layers podman` tells users what the command that it prints takes of them; root can run it as it is."""
    root.needs("setpriv")
    shutil.copytree(os.path.join(ROOT, "demo", "layout"), root.top + "/srv/layout")
    root.install()
    other = ("setpriv", "--reuid=%d" % OTHER, "--regid=%d" % OTHER, "--clear-groups")
    told = "run this in `podman unshare`; elsewhere allow_other needs a line user_allow_other in /etc/fuse.conf\n"
    for who, wanted in (((), ""), (other, told)):
        store = "/tmp/store%d" % len(who)
        hold("pull", 0, root.run(*who, "strata-layers", "pull", "--store", store, "oci:/srv/layout", "app").status)
        done = root.run(*who, "strata-layers", "podman", "--store", store, "app", store + "-podman")
        hold("podman", (0, wanted), (done.status, done.err))
        hold_in("podman", "strata-mount --background -o allow_other,suid,dev", done.out)
    return "users are sent to podman unshare or to fuse.conf, root isn't"


def in_namespace(root):
    """Root of a user namespace, where the system's root owns /var/lib, has its user's store; what is missing is sought there."""
    root.needs("setpriv", "unshare")
    shutil.copytree(os.path.join(ROOT, "demo", "layout"), root.top + "/srv/layout")
    root.install()
    other, named = user(root), {"env": dict(os.environ, HOME="/tmp/home")}
    for place in ("/tmp/home", "/mnt/other"):
        os.mkdir(place)
        os.chown(place, OTHER, OTHER)
    inside, store = (*other, "unshare", "-rm"), "/tmp/home/.local/share/strata"
    for who, name in ((other, "one:1"), (inside, "two:1")):
        hold("pull", 0, root.run(*who, "strata-layers", "pull", "oci:/srv/layout", name, **named).status)
    hold("images", ["one:1", "two:1"], [it.split()[0] for it in root.good(*other, "strata-layers", "images", **named).splitlines()])
    script = "strata-mount --background one:1 /mnt/other && cat /mnt/other/etc/hostname; umount /mnt/other"
    hold("a file", "beacon\n", root.good(*inside, "sh", "-c", script, **named))
    for who in (other, inside):
        done = root.run(*who, "strata-mount", "image:none", "/mnt/other", **named)
        hold("a missing image", (1, "strata-mount: none: no such image in %s; `strata-layers pull SOURCE none` brings it there\n" % store),
             (done.status, done.err))
    hold("root's store", False, os.path.exists("/var/lib/strata"))
    return "pulled, mounted and sought in the user's store, inside and outside"


def by_user(root):
    """A line with `user`: an unprivileged user mounts and unmounts, by fusermount3."""
    root.needs("fusermount3", "setpriv")
    root.install()
    other = user(root)
    os.mkdir("/mnt/user")
    os.chown("/mnt/user", OTHER, OTHER)
    fstab(STACK + " /mnt/user strata user,noauto,ro 0 0")
    root.good(*other, "mount", "/mnt/user")
    hold("mounts", [("/mnt/user", STACK)], places())
    hold_in("options", "noexec", root.good("findmnt", "-rno", "OPTIONS", "/mnt/user"))
    hold("a look", "beacon\n", root.good(*other, "cat", "/mnt/user/etc/hostname"))
    hold("root's look", 1, root.run("cat", "/mnt/user/etc/hostname").status)
    done = root.run(*other, "strata-mount", "--background", "/srv/lower.romfs", "/mnt/user")
    hold("the status of a second mount", 1, done.status)
    hold_in("a second mount", "strata-mount: /mnt/user: something is mounted here already: `fusermount3 -u /mnt/user` unmounts "
                              "it, and so does --replace; `-o stack` mounts over it\n", done.err)
    root.good(*other, "umount", "/mnt/user")
    hold("mounts", [], places())
    os.remove(shutil.which("fusermount3"))
    done = root.run(*other, "strata-mount", "/srv/lower.romfs", "/mnt/user")
    hold("without fusermount3", (1, "strata-mount: /mnt/user: only root may mount, and there is no fusermount3: install fuse3\n"),
         (done.status, done.err))
    return "mount DIR and umount DIR by a user whom fstab lets"


def killed(root, place, *front):
    """A dead mount of the demo's stack, which the kernel still knows the root of."""
    root.good(*front, "/srv/lower.romfs", "/srv/upper.romfs", place)
    os.stat(place)
    kill_server()


def dead(root):
    """A dead mount is reported by each program, with the command that unmounts it; --replace does it."""
    root.install()
    place = "/mnt/dead"
    os.mkdir(place)
    background = ("strata-mount", "--background")
    killed(root, place, *background)
    said = "a dead mount, whose server has ended (fuse.strata): `umount %s` unmounts it" % place
    done = root.run(*background, "/srv/lower.romfs", place)
    hold("strata-mount", (1, "strata-mount: %s: %s, and so does --replace\n" % (place, said)), (done.status, done.err))
    done = root.run("mount", "-t", "strata", STACK, place)
    hold("mount", (NOT_MOUNTED, "mount.strata: %s: %s\n" % (place, said)), (done.status, done.err))
    hold("mounts", 1, len(places()))
    root.good(*background, "--replace", "/srv/lower.romfs", "/srv/upper.romfs", place)
    hold_stack(root, place)
    hold("mounts", 1, len(places()))
    root.good("umount", place)
    settle("no server is left", [], servers)
    killed(root, place, *background)
    hold_in("a folder below", "`umount %s` unmounts it\n" % place, root.run(*background, "/srv/lower.romfs", place + "/var").err)
    os.mkdir("/srv/other")
    done = root.run(*background, place + "/image.romfs", "/srv/other")
    hold("an image in a dead mount", (1, "image 0: cannot be read\nstrata-mount: image 0 is %s/image.romfs: %s\n" % (place, said)),
         (done.status, done.err))
    root.good("umount", place)
    root.good(*background, "--replace", "/srv/lower.romfs", place)
    root.good("umount", place)
    return "reported by strata-mount and by mount, with the command; --replace unmounts it"


def unit_texts():
    """The units that stand in MOUNTING, by the names of their files."""
    with open(MOUNTING, encoding="utf-8") as it:
        blocks = re.findall(r"```ini\n# (\S+)\n(.*?)```", it.read(), re.S)
    return {os.path.basename(name): text for name, text in blocks}


def units(root):
    """The units of MOUNTING are what systemd takes, and the mount that a unit says can be made."""
    texts = unit_texts()
    hold("units of MOUNTING", {"srv-tree.mount", "tree.service"}, set(texts))
    root.needs("systemd-analyze")
    root.install()
    os.makedirs("/tmp/units")
    for name, text in texts.items():
        with open("/tmp/units/" + name, "w", encoding="ascii") as out:
            out.write(text)
    for words_of_it, name in ((["--system"], "srv-tree.mount"), (["--user"], "tree.service")):
        done = root.run("systemd-analyze", *words_of_it, "--man=no", "verify", "/tmp/units/" + name,
                        env=dict(os.environ, XDG_RUNTIME_DIR="/tmp"))
        told = [line for line in (done.err + done.out).splitlines() if name in line or "tree" in line]
        hold("systemd-analyze verify %s: %s" % (name, done.err), (0, []), (done.status, told))
    said = dict(re.findall(r"^(What|Where|Type|Options)=(.*)$", texts["srv-tree.mount"], re.M))
    os.makedirs(said["Where"])
    done = root.run("mount", "-t", said["Type"], said["What"], said["Where"], "-o", said["Options"])
    hold("the unit's mount: " + done.err, (0, 1), (done.status, done.err.count("\n")))
    # others are let in to images that keep no modes
    hold_in("what is reported", "without modes and owners", done.err)
    hold_stack(root, said["Where"])
    return "both units of MOUNTING pass systemd-analyze verify"
