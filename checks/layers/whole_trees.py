"""Holds mounts of a folder, such as a Debian, against it at each path: python3 checks whole_trees PROGRAM FOLDER [--marked]

The folder is mounted as an image of it, and as a layer that GNU tar makes of it; this mount is held against what umoci and
buildah unpack of the same layout, too. At each path these must be equal: kind, mode, owner, time, size, device, data or
target, which names are one file, and all extended attributes. Programs that print or copy attributes must do with the first
mount as with the folder. In an overlay on it each file that has attributes is copied up, and keeps them. The mount's own ping
runs in it as a user. --marked first gives some paths of FOLDER attributes of each kind. Such a folder is

    debootstrap --variant=minbase --include=python3,gcc,git,nodejs,vim,iputils-ping,libcap2-bin,attr,acl bookworm FOLDER

It takes root, getfattr, getcap, getfacl, rsync, and eight times the folder's room in TMPDIR. The status is 0 if nothing
differs but what a line names.
"""
import argparse
import collections
import contextlib
import errno
import hashlib
import os
import shutil
import stat
import subprocess
import sys
import tempfile

from checks import TOOLS
from checks.mounts.mounted_attributes import overlay_over
from checks.mounts.mounted_xattrs import (ACCESS, CAPABILITY, CLOSED, COPIES, DEFAULT, LABEL, LOOKS, RAW, found, image_of,
                                          lines, said, unmount)
from checks.shared.layer_files import images_in, layout_of
from checks.shared.mounting import Failed, Room, adopt, end_children, enter, hold, places
from strata_format.system import called, libc

Facts = collections.namedtuple("Facts", "mode owner time size device body name attributes")
TAR = ("tar", "--format=pax", "--xattrs", "--xattrs-include=*", "--acls", "--numeric-owner", "--sort=name", "-c", "-f")
SHOWN = ("-o", "suid,allow_other,modeless")
USER = 1000
MNT_DETACH = 2
# of the folder's regular files and directories each so many is marked
EACH = 40
MARKS = (
    {ACCESS: CLOSED}, {"user.comment": b"one of many"}, {"user.a": b"", "user.ab": b"1", "user.b": b"a\0b\nc="},
    {"user.large": bytes(range(256)) * 12}, {LABEL: b"system_u:object_r:etc_t:s0\0"}, {"trusted.x": b"y"},
    {ACCESS: CLOSED, "user.comment": b"one of many", LABEL: b"system_u:object_r:usr_t:s0\0"}, {CAPABILITY: RAW})
OF_FOLDERS = ({DEFAULT: CLOSED}, {ACCESS: CLOSED, DEFAULT: CLOSED}, {"user.comment": b"one of many"})


# --- what stands in a folder ---

def paths_below(root):
    """Every path of a folder, itself as `.`, in order."""
    todo = [b"."]
    while todo:
        path = todo.pop()
        yield path
        whole = os.path.join(os.fsencode(root), path)
        if stat.S_ISDIR(os.lstat(whole).st_mode):
            names = sorted(os.listdir(whole), reverse=True)
            todo += [os.path.normpath(os.path.join(path, name)) for name in names]


def body_of(path, kind):
    """The target of a link, a digest of a file's data."""
    if kind == stat.S_IFLNK:
        return os.readlink(path)
    digest = hashlib.sha256()
    if kind == stat.S_IFREG:
        with open(path, "rb") as source:
            for data in iter(lambda: source.read(1 << 20), b""):
                digest.update(data)
    return digest.hexdigest()


def attributes_of(path):
    """Those of a path; none where nothing has any, as on a mount of images without them."""
    try:
        return found(path)
    except OSError as fault:
        if fault.errno != errno.ENOTSUP:
            raise
        return {}


def facts_of(root):
    """What the system says of each path of a folder."""
    facts, names = {}, {}
    for path in paths_below(root):
        whole = os.path.join(os.fsencode(root), path)
        it = os.lstat(whole)
        kind = stat.S_IFMT(it.st_mode)
        facts[path] = Facts(it.st_mode, (it.st_uid, it.st_gid), it.st_mtime_ns, it.st_size if kind != stat.S_IFDIR else 0,
                            it.st_rdev, body_of(whole, kind), names.setdefault((it.st_dev, it.st_ino), path),
                            attributes_of(whole))
    return facts


def without(facts, is_lost):
    """The same without some attributes."""
    def kept(path, attributes):
        return {name: value for name, value in attributes.items() if not is_lost(path, name, value)}
    return {path: it._replace(attributes=kept(path, it.attributes)) for path, it in facts.items()}


def count_of(facts):
    """How many paths there are, and how many have attributes, in words."""
    return "%d paths, %d of them with attributes" % (len(facts), sum(bool(it.attributes) for it in facts.values()))


def hold_facts(what, wanted, got):
    """Prints how many paths there are; fails with some of those that differ."""
    differ = [path for path in sorted({*wanted, *got}) if wanted.get(path) != got.get(path)]
    told = ["%r: %s" % (path, words_of(wanted.get(path), got.get(path))) for path in differ[:5]]
    print("whole_trees: %s: %s, %d differ" % (what, count_of(got), len(differ)), flush=True)
    if differ:
        raise Failed("%s: %s" % (what, "; ".join(told)))


def words_of(wanted, got):
    """In what two paths differ."""
    if wanted is None or got is None:
        return "there is none" if got is None else "there is one"
    return ", ".join("%s %.120r, not %.120r" % (name, mine, theirs) for name, theirs, mine in zip(Facts._fields, wanted, got)
                     if mine != theirs)


# --- marks ---

def mark_some(root):
    """Gives some paths of a folder attributes of each kind."""
    files, folders = [], []
    for path in paths_below(root):
        whole = os.path.join(os.fsencode(root), path)
        kind = stat.S_IFMT(os.lstat(whole).st_mode)
        if kind in (stat.S_IFREG, stat.S_IFDIR) and not os.listxattr(whole):
            (files if kind == stat.S_IFREG else folders).append(whole)
    for chosen, marks in ((files, MARKS), (folders, OF_FOLDERS)):
        for number, whole in enumerate(chosen[::EACH]):
            for name, value in marks[number % len(marks)].items():
                os.setxattr(whole, name, value)


# --- what is made of a folder ---

def layout_by_tar(room, root):
    """A layout of one layer, which GNU tar made of a folder."""
    packed = room.place() + "/layer.tar"
    done = subprocess.run([*TAR, packed, "-C", root, "."], stdin=subprocess.DEVNULL, stderr=subprocess.PIPE)
    hold("tar", (0, b""), (done.returncode, done.stderr))
    with open(packed, "rb") as it:
        layout = layout_of(room.place() + "/layout", [it.read()], ("",)).path
    os.unlink(packed)
    return layout


def images_of_layout(room, layout):
    folder = room.place() + "/images"
    done = subprocess.run([sys.executable, "-B", TOOLS + "/layers.py", layout, folder], stdin=subprocess.DEVNULL,
                          stdout=subprocess.DEVNULL, stderr=subprocess.PIPE)
    hold("layers.py", (0, b""), (done.returncode, done.stderr))
    return images_in(folder)


@contextlib.contextmanager
def by_umoci(room, layout):
    """Where umoci unpacked a layout."""
    bundle = room.place() + "/bundle"
    said(room.folder, "umoci", "unpack", "--image", layout + ":latest", bundle)
    yield bundle + "/rootfs"


@contextlib.contextmanager
def by_buildah(room, layout):
    """The same of buildah, which keeps all that it makes in two new folders."""
    words = ["buildah", "--root", room.place(), "--runroot", room.place(), "--storage-driver", "overlay"]
    folder, name = os.path.split(layout)
    name = said(folder, *words, "from", "--pull-never", "oci:%s:latest" % name).decode().split()[-1]
    yield said(room.folder, *words, "mount", name).decode().strip()
    said(room.folder, *words, "umount", name)
    for place in [it for it in places() if it.startswith(words[2])]:
        called(libc.umount2(place.encode(), 0))


# --- what a mount is held against ---

def hold_programs(room, root, mount):
    """Programs that print attributes say the same of both; copies of the mount have those of the folder."""
    wanted = {path: it.attributes for path, it in facts_of(root).items()}
    for words in LOOKS:
        hold(" ".join(words), lines(said(root, *words)), lines(said(mount.at, *words)))
    for name, script in COPIES:
        copy = room.place()
        said(mount.at, "sh", "-c", script, copy)
        got = {path: it.attributes for path, it in facts_of(copy).items()}
        hold("copied by " + name, [], [path for path in wanted if wanted[path] != got.get(path)])
        shutil.rmtree(copy)
    print("whole_trees: %s as of the folder; copies by %s have all attributes" % (
        ", ".join(it[0] for it in LOOKS), ", ".join(it[0] for it in COPIES)), flush=True)


def hold_overlay(room, wanted, mount):
    """What is changed in an overlay on a mount keeps its attributes; its root is the upper folder."""
    top, at = overlay_over(room, mount)
    wanted = {path: it for path, it in wanted.items() if path != b"."}
    try:
        changed = [path for path, it in wanted.items() if it.attributes]
        for path in changed:
            os.utime(os.path.join(os.fsencode(at), path), ns=(0, 7), follow_symlinks=False)
        for path, it in wanted.items():
            whole = os.path.join(os.fsencode(at), path)
            hold("in an overlay, %r" % path, it.attributes, found(whole))
        upper = sum(os.path.lexists(os.path.join(os.fsencode(top), b"upper", path)) for path in changed)
        hold("copied up", len(changed), upper)
        print("whole_trees: an overlay keeps the attributes of %d paths that were copied up" % upper, flush=True)
    finally:
        unmount(at, top)


def hold_ping(mount):
    """The mount's own ping, in it, as a user."""
    if not os.path.exists(mount.at + "/bin/ping"):
        print("whole_trees: ping: the folder has none")
        return
    words = ("chroot", "--userspec=%d:%d" % (USER, USER), mount.at, "/bin/ping", "-c", "1", "-W", "1", "127.0.0.1")
    told = said("/", *words).decode()
    hold("ping", True, "1 received" in told)
    print("whole_trees: ping as user %d: %s" % (USER, told.splitlines()[-2]), flush=True)


def hold_image(room, root):
    """The mount of the folder's own image; what the folder says."""
    wanted, mount = facts_of(root), room.mount([image_of(room, root)], *SHOWN)
    hold_facts("image of the folder", wanted, facts_of(mount.at))
    hold_ping(mount)
    if any(it.attributes for it in wanted.values()):
        hold_programs(room, root, mount)
        hold_overlay(room, wanted, mount)
    mount.end()
    return wanted


def by_archives(facts):
    """What an archive can say: of attributes without a value nothing (pax(1))."""
    return without(facts, lambda path, name, value: not value)


def known_to_umoci(facts):
    """It leaves out labels."""
    return without(facts, lambda path, name, value: name == LABEL)


def known_to_buildah(facts):
    """It leaves out labels and the root's entry, and what stands below a default ACL inherits it."""
    inherited = {path for path, it in facts.items() if DEFAULT in it.attributes}

    def is_lost(path, name, _):
        parts = path.split(b"/")
        above = (b"/".join(parts[:at]) for at in range(1, len(parts)))
        return name == LABEL or name in (ACCESS, DEFAULT) and any(it in inherited for it in above)
    return {path: it for path, it in without(facts, is_lost).items() if path != b"."}


def hold_layer(room, root, wanted):
    """The mount of a layer that tar made of the folder, beside what others unpack of it."""
    layout = layout_by_tar(room, root)
    mount = room.mount(images_of_layout(room, layout), *SHOWN)
    shown = facts_of(mount.at)
    hold_facts("layer, but for attributes without a value", by_archives(wanted), shown)
    for name, unpack, known in (("umoci", by_umoci, known_to_umoci), ("buildah", by_buildah, known_to_buildah)):
        if shutil.which(name) is None:
            print("whole_trees: %s: there is none" % name)
            continue
        with unpack(room, layout) as at:
            unpacked = facts_of(at)
        print("whole_trees: %s has %s" % (name, count_of(unpacked)))
        hold_facts("layer beside %s: %s" % (name, known.__doc__), known(unpacked), known(shown))
    mount.end()


def main(program, root, is_marked):
    if os.geteuid() != 0:
        print("whole_trees: left out: it takes root")
        return True
    adopt()
    enter()
    if is_marked:
        mark_some(root)
    with tempfile.TemporaryDirectory(prefix="whole-trees-") as scratch:
        room = Room(program, scratch)
        try:
            hold_layer(room, root, hold_image(room, root))
            return True
        except Failed as wrong:
            print("whole_trees: FAILED: %s" % wrong)
            return False
        finally:
            end_children()
            for place in reversed([it for it in places() if it.startswith(scratch)]):
                called(libc.umount2(place.encode(), MNT_DETACH))


if __name__ == "__main__":
    parser = argparse.ArgumentParser(prog="checks whole_trees", description="Holds mounts of a folder against it.")
    parser.add_argument("program", metavar="PROGRAM")
    parser.add_argument("folder", metavar="FOLDER")
    parser.add_argument("--marked", action="store_true", help="first gives some paths of FOLDER attributes")
    asked = parser.parse_args()
    sys.exit(0 if main(os.path.abspath(asked.program), os.path.abspath(asked.folder), asked.marked) else 1)
