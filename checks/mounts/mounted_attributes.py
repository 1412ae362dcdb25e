"""Checks of checks/mounts/mounted.py: modes, owners and times of files as layers have them, and what the kernel makes of them."""
import compileall
import errno
import io
import os
import random
import shutil
import stat
import subprocess
import sys
import tarfile
import time

from checks import TOOLS
from checks.mounts.mounted_ends import OTHER, as_other
from checks.mounts.mounted_trees import file
from checks.plain import plain, plain_attributes
from checks.shared.images import sample
from checks.shared.layer_files import archive, directory, images_in, layout_of, symlink
from checks.shared.layer_files import file as entry
from checks.shared.mounting import Failed, LeftOut, fails, hold
from checks.shared.random_inputs import random_stack
from checks.shared.random_trailers import with_trailer
from strata_format.system import called, libc

ALL = ("-o", "allow_other,modeless")
# what the kernel shows of an owner that it takes for none
NO_OWNER, SHOWN = 2 ** 32 - 1, 65534
PR_GET_NO_NEW_PRIVS, MS_BIND = 39, 0x1000
MODULES = ("argparse", "calendar", "csv", "difflib", "textwrap")
# another tree than the system's own, as debootstrap makes one, which is then taken whole
TREE = os.environ.get("STRATA_TREE")
# of the system's own tree these files and folders, these with all that is in them, and so many bytes of a file at the most
ALONE = ("/", "/root", "/tmp", "/home", "/usr", "/var", "/var/lib", "/var/lib/dpkg", "/var/tmp", "/var/mail")
WHOLE, FILE_MOST = ("/etc", "/usr/bin", "/usr/sbin", "/var/lib/dpkg/info"), 100000


def need_root(room):
    """In a user namespace of one's own there are no other users."""
    with open("/proc/self/uid_map", encoding="ascii") as it:
        if not room.is_root or it.read().split() != ["0", "0", str(NO_OWNER)]:
            raise LeftOut("it takes root of the machine")


def read(path):
    with open(path, "rb") as it:
        return it.read()


def layers_of(room, *archives):
    """The images that tools/layers.py makes of archives."""
    layout, folder = layout_of(room.place() + "/layout", archives, ("",)).path, room.place() + "/images"
    done = subprocess.run([sys.executable, "-B", TOOLS + "/layers.py", layout, folder], stdin=subprocess.DEVNULL,
                          stdout=subprocess.DEVNULL, stderr=subprocess.PIPE)
    hold("layers.py", (0, b""), (done.returncode, done.stderr))
    return images_in(folder)


def without_trailer(room, image):
    """The same image without its trailer."""
    data = read(image)
    return room.write(data[:plain_attributes.place(data)])


def facts(path):
    """A file's mode, owner and time; the three times of a mount are the same."""
    it = os.lstat(path)
    return it.st_mode, it.st_uid, it.st_gid, *divmod(it.st_mtime_ns, 10 ** 9)


def shown(attributes):
    mode, user, group, *time = attributes
    return (mode, *(SHOWN if it == NO_OWNER else it for it in (user, group)), *time)


# --- what is shown ---

def is_closed(of):
    """Whether a directory of an owner or a group that the kernel does not know is closed to root, too."""
    mode, user, group, *_ = of
    bits = mode >> 3 if group in {os.getegid(), *os.getgroups()} else mode
    return NO_OWNER in (user, group) and not bits & 1


def attributes(room):
    """Random stacks, some of whose layers have trailers, against the plain reading."""
    need_root(room)
    rng, stacks, paths, rows = random.Random(3), 0, 0, 0
    while stacks < 20:
        images = [with_trailer(rng, data) if rng.random() < 0.7 else data for data in random_stack(rng, [sample()])]
        try:
            stack = plain.stack_of(images, False, True, (7, 8))
        except plain.Stop:
            continue
        # some stacks hide all files that have ACLs
        mount = room.mount([room.write(data) for data in images], "-o", "uid=7,gid=8,modeless")
        for path, number in stack.paths.items():
            if any(is_closed(stack.attributes(stack.paths[path[:n]])) for n in range(len(path))):
                continue
            wanted, it = shown(stack.attributes(number)), os.lstat(mount.path(*path))
            hold("stack %d: %r" % (stacks, path), wanted, facts(mount.path(*path)))
            hold("times of %r" % (path,), {it.st_mtime_ns}, {it.st_atime_ns, it.st_ctime_ns})
            image, header = stack.header(number)
            rows += header in image.rows
        mount.end()
        stacks, paths = stacks + 1, paths + len(stack.paths)
    hold("%d rows for %d paths: there are some" % (rows, paths), True, rows > 20)
    return "%d stacks, %d paths, %d of them with a row, as the plain reading has them" % (stacks, paths, rows)


def system_paths():
    """The paths of the tree that is looked at, those above before those below."""
    yield from (path for path in ALONE if TREE is None and os.path.lexists(path))
    for top in [TREE] if TREE is not None else WHOLE:
        yield top
        for place, folders, files in os.walk(top):
            yield from (os.path.join(place, name) for name in sorted(folders + files))


def add(tar, found, path):
    """Puts a file of the tree into an archive, with the whole of its time, and notes its facts."""
    name = os.path.relpath(path, TREE or "/")
    try:
        it = os.lstat(path)
        is_large = stat.S_ISREG(it.st_mode) and it.st_size > FILE_MOST and TREE is None
        info = tar.gettarinfo(path, name) if not is_large else None
        if info is None:
            return
        info.pax_headers = {"mtime": "%d.%09d" % divmod(it.st_mtime_ns, 10 ** 9)}
        data = io.BytesIO(read(path)) if info.isreg() else None
        info.size = len(data.getvalue()) if data else 0
    except OSError:
        return
    tar.addfile(info, data)
    found[name] = facts(path)


def system(room):
    """The system's own tree, as far as it is small, or that of STRATA_TREE: an archive of it by tarfile, its image, and the mount
    of that."""
    need_root(room)
    out, found = io.BytesIO(), {}
    with tarfile.open(fileobj=out, mode="w", format=tarfile.PAX_FORMAT) as tar:
        for path in system_paths():
            add(tar, found, path)
    mount = room.mount(layers_of(room, out.getvalue()))
    for name, wanted in found.items():
        hold(name, wanted, facts(mount.path(os.fsencode(name))))
    mount.end()
    kinds = {wanted[0] & 0o7000 for wanted in found.values()}
    return "%d paths of %s, as they are: %d of them not root's, with setuid or sticky bits: %s" % (
        len(found), TREE or "this system", sum(it[1:3] != (0, 0) for it in found.values()), kinds != {0})


# --- what the kernel makes of it ---

SECRETS = archive([
    directory("./"), directory("etc"), entry("etc/shadow", b"secret", mode=0o640, gid=42), entry("etc/name", b"name"),
    directory("root", mode=0o700), entry("root/key", b"key", mode=0o644), directory("tmp", mode=0o1777),
    directory("home"), directory("home/other", mode=0o700, uid=OTHER, gid=OTHER),
    entry("home/other/own", b"own", mode=0o600, uid=OTHER),
    symlink("link", "root/key")])


def secrets(room):
    """An unprivileged user reads what is theirs or everybody's, and nothing else."""
    need_root(room)
    image, = layers_of(room, SECRETS)
    mount = room.mount([image], *ALL)
    for name in (b"etc/shadow", b"root/key", b"link"):
        hold("another user reads %r" % name, errno.EACCES, as_other(room, lambda: read(mount.path(name))))
    hold("another user enters /root", errno.EACCES, as_other(room, lambda: os.listdir(mount.path(b"root"))))
    for name in (b"etc/name", b"home/other/own"):
        hold("another user reads %r" % name, 0, as_other(room, lambda: read(mount.path(name))))
    hold("root reads", b"secretkey", read(mount.path(b"etc/shadow")) + read(mount.path(b"link")))
    mount.end()
    mount = room.mount([without_trailer(room, image)], *ALL)
    hold("without a trailer", 0, as_other(room, lambda: read(mount.path(b"etc/shadow"))))
    mount.end()
    return "/etc/shadow, /root and links into it are closed to others; without a trailer they are open"


def overlay_over(room, mount, is_in_memory=True):
    """An overlay over a mount, on top of which a folder in memory lies, or one of the disk."""
    top, at = room.place(), room.place()
    os.chmod(top, 0o755)
    if is_in_memory:
        called(libc.mount(b"tmpfs", top.encode(), b"tmpfs", 0, None))
    else:
        called(libc.mount(top.encode(), top.encode(), None, MS_BIND, None))
    for name in ("upper", "work"):
        os.mkdir(os.path.join(top, name))
    words = "lowerdir=%s,upperdir=%s/upper,workdir=%s/work" % (mount.at, top, top)
    try:
        called(libc.mount(b"overlay", at.encode(), b"overlay", 0, words.encode()))
    except OSError as fault:
        called(libc.umount2(top.encode(), 0))
        mount.end()
        raise LeftOut("an overlay: %s" % fault.strerror) from None
    return top, at


def overlaid(room):
    """In an overlay over a mount a user makes files in /tmp and in their own folder alone."""
    need_root(room)
    mount = room.mount(layers_of(room, SECRETS), *ALL)
    top, at = overlay_over(room, mount)

    def make(name):
        done = subprocess.run(["mktemp", "-p", os.path.join(at, name)], stdout=subprocess.DEVNULL, stderr=subprocess.PIPE)
        if done.returncode != 0:
            raise Failed("mktemp in %s: %s" % (name, done.stderr))
    for name in ("tmp", "home/other"):
        hold("mktemp in " + name, 0, as_other(room, lambda: make(name)))
    for name in ("etc", "root"):
        hold("a file in " + name, errno.EACCES, as_other(room, lambda: os.close(os.open(at + "/%s/x" % name, os.O_CREAT))))
    with open(at + "/tmp/roots", "wb"):
        os.chmod(at + "/tmp", 0o1777)
    hold("another's file in /tmp", errno.EPERM, as_other(room, lambda: os.unlink(at + "/tmp/roots")))
    hold("in the overlay", (0o041777, 0, 0), facts(at + "/tmp")[:3])
    for place in (at, top):
        called(libc.umount2(place.encode(), 0))
    mount.end()
    return "mktemp in /tmp, which is sticky, and in a user's own folder; not elsewhere"


def setuid(room):
    """A program with setuid runs as its owner where root mounts with suid, and else not."""
    need_root(room)
    if libc.prctl(PR_GET_NO_NEW_PRIVS, 0, 0, 0, 0) != 0:
        raise LeftOut("no program gets rights here (no_new_privs)")
    image, = layers_of(room, archive([directory("./"), entry("id", read(shutil.which("id")), mode=0o4755)]))

    def say(at, wanted):
        hold("id", wanted, subprocess.run([at, "-u"], stdout=subprocess.PIPE).stdout)
    for words, wanted in ((ALL, b"%d\n" % OTHER), (("-o", "allow_other,suid"), b"0\n")):
        mount = room.mount([image], *words)
        hold("mode", 0o104755, facts(mount.path(b"id"))[0])
        hold("with %s" % (words,), 0, as_other(room, lambda: say(mount.path(b"id"), wanted)))
        mount.end()
    return "setuid shows, does nothing without -o suid, and makes who runs it root with it"


def tree_entries(root):
    """What stands below a folder, as entries of an archive."""
    for place, folders, files in os.walk(root):
        for name in ["."] + sorted(files):
            path = os.path.join(place, name)
            info = tarfile.TarInfo(os.path.relpath(path, root))
            it = os.lstat(path)
            info.type = tarfile.DIRTYPE if stat.S_ISDIR(it.st_mode) else tarfile.REGTYPE
            info.mode, info.uid, info.gid = stat.S_IMODE(it.st_mode), it.st_uid, it.st_gid
            info.pax_headers = {"mtime": "%d.%09d" % divmod(it.st_mtime_ns, 10 ** 9)}
            data = b"" if info.isdir() else read(path)
            info.size = len(data)
            yield info, data


def imported(at, *options):
    """Runs Python, which imports the modules of a folder: what it says on standard error."""
    script = "import sys; sys.path.insert(0, %r); import %s" % (at, ", ".join(MODULES))
    done = subprocess.run([sys.executable, "-IBS", *options, "-c", script], stdin=subprocess.DEVNULL, stdout=subprocess.PIPE,
                          stderr=subprocess.PIPE)
    hold("python", 0, done.returncode)
    return done.stderr.decode().splitlines()


def slower(*folders):
    """How many times as long it takes to import the modules of the second folder as of the first, by the least of some runs."""
    found = ([], [])
    for _ in range(9):
        for at, times in zip(folders, found):
            begin = time.monotonic()
            imported(at)
            times.append(time.monotonic() - begin)
    return min(found[1]) / min(found[0])


def bytecode(room):
    """Python takes the bytecode that stands beside modules, since their times are as they were. How long it takes is only printed."""
    root = room.place()
    for name in MODULES:
        shutil.copy(sys.modules["os"].__file__.replace("os.py", name + ".py"), root)
        changed = 1600000000123456789 + len(name)
        os.utime(os.path.join(root, name + ".py"), ns=(changed, changed))
    compileall.compile_dir(root, quiet=2)
    image, = layers_of(room, archive(list(tree_entries(root))))
    told, times = [], []
    for it in (image, without_trailer(room, image)):
        mount = room.mount([it])
        lines = imported(mount.at, "-v")
        told.append((sum(" matches " + mount.at in line for line in lines),
                     sum("bytecode is stale for '%s'" % name in line for line in lines for name in MODULES)))
        times.append(slower(root, mount.at))
        mount.end()
    hold("bytecode that matches, and that is stale", [(len(MODULES), 0), (0, len(MODULES))], told)
    return "%d modules with bytecode that is not stale: %.2f times as long as from a folder; without a trailer it is stale: %.2f" % (
        len(MODULES), *times)


GIT = {"PATH": os.environ.get("PATH", ""), "HOME": "/nonexistent", "GIT_CONFIG_NOSYSTEM": "1", "GIT_CONFIG_GLOBAL": "/dev/null",
       "GIT_OPTIONAL_LOCKS": "0"}
COMMIT = ("git init -q . && echo x >x && git add x && git -c user.name=a -c user.email=a@b commit -qm one && "
          "chown -R %d:%d ." % (OTHER, OTHER))


def repository(room):
    """git trusts a repository that is the user's own."""
    need_root(room)
    if not shutil.which("git"):
        raise LeftOut("no git")
    root = room.place()
    subprocess.run(["sh", "-c", COMMIT], cwd=root, env=GIT, check=True, stdin=subprocess.DEVNULL)
    image, = layers_of(room, archive(list(tree_entries(root))))

    def look(at, status, words):
        done = subprocess.run(["git", "-C", at, "log", "--format=%s"], env=GIT, stdin=subprocess.DEVNULL, stdout=subprocess.PIPE,
                              stderr=subprocess.STDOUT)
        hold("git: %r" % done.stdout, (status, True), (done.returncode, words in done.stdout))
    for it, status, words in ((image, 0, b"one\n"), (without_trailer(room, image), 128, b"dubious ownership")):
        mount = room.mount([it], *ALL)
        hold("git", 0, as_other(room, lambda: look(mount.at, status, words)))
        mount.end()
    return "git reads a user's own repository; without a trailer it says dubious ownership"


def owned(room):
    """The owner of files for which no image names one: root, or the one of -o."""
    need_root(room)
    bare = room.layer([file("x", b"1")])
    image, = layers_of(room, archive([entry("y", b"2", uid=5, gid=6, mode=0o600, mtime=9)]))
    for words, user, group in (((), 0, 0), (("-o", "uid=1000"), 1000, 0), (("-o", "gid=5,uid=4294967294"), 2 ** 32 - 2, 5)):
        mount = room.mount([bare, image], *words)
        hold("without a row", {(0o100644, user, group, 0, 0)}, {facts(mount.path(b"x"))})
        hold("the root, without a row", (0o040755, user, group, 0, 0), facts(mount.path()))
        hold("with a row", (0o100600, 5, 6, 9, 0), facts(mount.path(b"y")))
        mount.end()
    for words in (["-o", "uid=4294967296"], ["-o", "gid=-1"], ["-o", "uid=x"]):
        done = subprocess.run([*room.words(), *words, bare, room.place()], stdin=subprocess.DEVNULL, stderr=subprocess.PIPE)
        hold(words, 2, done.returncode)
    broken = bytearray(read(image))
    broken[plain_attributes.place(broken) + 15] ^= 1
    at = room.place()
    done = subprocess.run([*room.words(), room.write(broken), at], stdin=subprocess.DEVNULL, stderr=subprocess.PIPE)
    hold("a broken trailer", (3, True), (done.returncode, b"bad attributes" in done.stderr))
    fails("its folder", errno.ENOENT, os.lstat, at + "/y")
    return "root's, or the owner of -o uid=, gid=; rows stay as they are; a broken trailer is refused"


CHECKS = (attributes, system, secrets, overlaid, setuid, bytecode, repository, owned)
