"""Checks of checks/mounts/mounted.py: extended attributes, as folders, archives and layers have them, through the programs that
read them, and what the kernel makes of capabilities and ACLs. What programs are missing is said."""
import errno
import os
import shutil
import stat
import struct
import subprocess
import sys

from checks import TOOLS
from checks.mounts.mounted_attributes import ALL, layers_of, need_root, overlay_over, read
from checks.mounts.mounted_ends import OTHER, as_other
from checks.mounts.mounted_sharing import own_runtime, run
from checks.shared.layer_files import archive, directory
from checks.shared.layer_files import file as entry
from checks.shared.mounting import LeftOut, Room, children, fails, hold
from strata_format.system import called, libc
from strata_mount import acls

ACCESS, DEFAULT, CAPABILITY = "system.posix_acl_access", "system.posix_acl_default", "security.capability"
# a label as setfiles(8) writes it, with its zero byte
LABEL, LABELED = "security.selinux", b"system_u:object_r:etc_t:s0\0"
# capability(7): CAP_NET_RAW, permitted and effective, of revision 2 (linux/capability.h)
NET_RAW = 1 << 13
RAW = struct.pack("<5I", 0x02000001, NET_RAW, 0, 0, 0)
# acl(5): the user 1234 reads, and of the file's group nobody
NAMED = 1234
CLOSED = struct.pack("<I" + "HHI" * 5, 2, 1, 6, 2 ** 32 - 1, 2, 4, NAMED, 4, 0, 2 ** 32 - 1, 16, 4, 2 ** 32 - 1,
                     32, 0, 2 ** 32 - 1)
PR_GET_NO_NEW_PRIVS = 39
# a program that stands between the kernel and strata, and takes POSIX_ACL (bit 20) from the flags of each INIT (26)
WITHOUT_ACLS = """#!%s -IBS
import sys
sys.path.insert(0, %r)
from strata_mount import relay
asked = relay.next_request


def next_request(device):
    message = asked(device)
    if message[4:8] == (26).to_bytes(4, "little"):
        flags = int.from_bytes(message[52:56], "little") & ~(1 << 20)
        message = message[:52] + flags.to_bytes(4, "little") + message[56:]
    return message


relay.next_request = next_request
relay.main(["--", %r, *sys.argv[1:]])
"""
# mount.strata with another program
HELPER = """
import sys
sys.path.insert(0, %r)
from strata_format import version
from strata_mount import helper
version.program = lambda: %r
sys.exit(helper.main(sys.argv[1:]))
"""


def found(path):
    """The extended attributes of a file by their names."""
    names = os.listxattr(path, follow_symlinks=False)
    hold("names of %r, of which each is another" % path, len(names), len(set(names)))
    return {name: os.getxattr(path, name, follow_symlinks=False) for name in names}


def paths(root):
    for place, folders, files in os.walk(root):
        yield os.path.relpath(place, root)
        yield from (os.path.relpath(os.path.join(place, it), root) for it in files)
        yield from (os.path.relpath(os.path.join(place, it), root) for it in folders
                    if os.path.islink(os.path.join(place, it)))


def every(root):
    return {path: found(os.path.join(root, path)) for path in paths(root)}


def hold_each(what, wanted, got):
    hold(what, sorted(wanted), sorted(got))
    for path, it in wanted.items():
        hold("%s: %s" % (what, path), it, got[path])


def put(root, path, data=b"", mode=0o644, **attributes):
    whole = os.path.join(root, path)
    os.makedirs(os.path.dirname(whole), exist_ok=True)
    with open(whole, "wb") as out:
        out.write(data)
    os.chmod(whole, mode)
    for name, value in attributes.items():
        mark(whole, name.replace("__", "."), value)
    return whole


def mark(path, name, value):
    try:
        os.setxattr(path, name, value, follow_symlinks=False)
    except OSError as fault:
        raise LeftOut("%s is not kept in %s: %s" % (name, os.path.dirname(path), fault.strerror)) from None


def marked(room):
    """A folder with attributes of each kind."""
    root = room.place()
    os.chmod(root, 0o755)
    put(root, "bin/ping", read(shutil.which("cat")), 0o755, security__capability=RAW)
    os.link(root + "/bin/ping", root + "/bin/ping4")
    put(root, "etc/closed", b"secret", 0o640, system__posix_acl_access=CLOSED, user__comment=b"who may\0read")
    mark(root + "/etc", DEFAULT, CLOSED)
    put(root, "home/notes", b"notes", 0o644, user__a=b"", user__ab=b"1", user__large=bytes(range(256)) * 12, trusted__x=b"y")
    put(root, "home/plain", b"plain")
    put(root, "home/labeled", b"labeled", 0o644, security__selinux=LABELED)
    for number in range(30):
        put(root, "many/f%02d" % number, b"%d" % number, user__kind=b"one of many")
    os.symlink("notes", root + "/home/link")
    mark(root + "/home/link", "trusted.link", b"of the link")
    os.chown(root + "/etc/closed", 0, 77)
    return root


def image_of(room, root):
    image = room.place() + "/image"
    done = subprocess.run([sys.executable, "-B", TOOLS + "/layers.py", "image", "--fail-on-lost", root, image],
                          stdin=subprocess.DEVNULL, stdout=subprocess.DEVNULL, stderr=subprocess.PIPE)
    hold("layers.py", (0, b""), (done.returncode, done.stderr))
    return image


def said(at, *words):
    """What a program says of the folder in which it stands."""
    done = subprocess.run(words, cwd=at, stdin=subprocess.DEVNULL, stdout=subprocess.PIPE, stderr=subprocess.PIPE)
    hold("%s: %r" % (" ".join(words), done.stderr), 0, done.returncode)
    return done.stdout


# what must say the same of a folder and of the mount of its image
LOOKS = (("getfattr", "-R", "-h", "-d", "-m", "-", "-e", "hex", "."), ("getcap", "-r", "."), ("getfacl", "-R", "-n", "-p", "."))
# what must make the same of both in a new folder
COPIES = (("cp", "cp -a . \"$0\""), ("tar", "tar --xattrs --xattrs-include='*' --acls -cf - . | "
                                     "tar --xattrs --xattrs-include='*' --acls -xf - -C \"$0\""),
          ("rsync", "rsync -aHAX ./ \"$0\"/"))


def lines(text):
    """Programs walk folders in any order: the lines of each file, in one of ours."""
    return sorted(text.split(b"\n\n") if b"\n\n" in text else text.splitlines())


def extended(room):
    """A folder with attributes of each kind: its image shows the same, name by name and through programs; copies have them."""
    need_root(room)
    root = marked(room)
    wanted = every(root)
    hold("a folder's", ({CAPABILITY: RAW}, {LABEL: LABELED}), (wanted["bin/ping4"], wanted["home/labeled"]))
    mount = room.mount([image_of(room, root)], *ALL)
    hold_each("mounted", wanted, every(mount.at))
    notes = mount.path(b"home/notes")
    fails("no such name", errno.ENODATA, os.getxattr, notes, "user.b")
    fails("a name's front", errno.ENODATA, os.getxattr, notes, "user.larg")
    fails("to set one", errno.EROFS, os.setxattr, notes, "user.a", b"2")
    fails("to remove one", errno.EROFS, os.removexattr, notes, "user.a")
    missing = [words[0] for words in (*LOOKS, *COPIES) if not shutil.which(words[0])]
    for words in LOOKS:
        if words[0] not in missing:
            hold(" ".join(words), lines(said(root, *words)), lines(said(mount.at, *words)))
    for name, script in COPIES:
        if name not in missing:
            copy = room.place()
            said(mount.at, "sh", "-c", script, copy)
            hold_each("copied by " + name, wanted, every(copy))
    mount.end()
    return "%d paths, %d of them with attributes, as the folder has them, and by %s%s" % (
        len(wanted), sum(map(bool, wanted.values())),
        ", ".join(it[0] for it in (*LOOKS, *COPIES) if it[0] not in missing),
        "; missing: %s" % ", ".join(missing) if missing else "")


def stacked_extended(room):
    """Of a folder that several layers have, the upper one's alone; a file's label as GNU tar writes it; a stack without any has no
    such calls at all."""
    need_root(room)
    lower = archive([directory("d", pax_headers={"SCHILY.xattr.user.low": "1", "SCHILY.xattr.user.both": "1"}),
                     entry("d/f", b"1", pax_headers={"SCHILY.xattr.user.low": "1", "RHT." + LABEL: LABELED.decode()}),
                     entry("plain", b"1")])
    upper = archive([directory("d", pax_headers={"SCHILY.xattr.user.both": "2"}), entry("d/g", b"2")])
    mount = room.mount(layers_of(room, lower, upper))
    hold("a folder of both", {"user.both": b"2"}, found(mount.path(b"d")))
    hold("a file below, with its label", {"user.low": b"1", LABEL: LABELED}, found(mount.path(b"d/f")))
    hold("without any", ({}, {}), (found(mount.path(b"plain")), found(mount.path(b"d/g"))))
    mount.end()
    mount = room.mount(layers_of(room, archive([entry("plain", b"1")])))
    for function, words in ((os.listxattr, ()), (os.getxattr, ("user.x",))):
        fails("a stack without any", errno.ENOTSUP, function, mount.path(b"plain"), *words)
    mount.end()
    return "a folder of two layers has the upper one's alone; over a stack without any both calls are ENOTSUP"


def largest(room):
    """The longest value, and names of the greatest length together, as Linux bounds them, each in one reply."""
    value = bytes(range(256)) * 256
    names = ["user.%03d" % number + "n" * 247 for number in range(256)]
    image, = layers_of(room, archive([
        entry("value", b"1", pax_headers={"SCHILY.xattr.user.x": value.decode("utf-8", "surrogateescape")}),
        entry("names", b"2", pax_headers={"SCHILY.xattr." + name: "v" for name in names})]))
    mount = room.mount([image])
    hold("the value", {"user.x": value}, found(mount.path(b"value")))
    hold("the names", (names, 65536), (os.listxattr(mount.path(b"names")), sum(len(name) + 1 for name in names)))
    hold("the last one's value", b"v", os.getxattr(mount.path(b"names"), names[-1]))
    mount.end()
    return "a value of %d bytes; %d names of 65,536 bytes" % (len(value), len(names))


def asked_of(path):
    """How often each request came, as --stats counts them."""
    with open(path, encoding="ascii") as it:
        rows = [line.split() for line in it if not line.startswith("#")][1:]
    return {name: int(count) for name, count, *_ in rows}


def walked(root):
    """Looks at all that stands in a folder, and reads it."""
    for path in paths(root):
        whole = os.path.join(root, path)
        if stat.S_ISREG(os.lstat(whole).st_mode):
            read(whole)


def listed(root):
    """Lists the attributes of all that stands in a folder, if it has such."""
    for path in paths(root):
        try:
            os.listxattr(os.path.join(root, path), follow_symlinks=False)
        except OSError as fault:
            hold("to list", errno.ENOTSUP, fault.errno)


def asked(room):
    """Walks and reads, of others than the owner too, ask for no attributes, also where two files of 300 have some."""
    need_root(room)
    told = []
    for marks in ({}, {"user__x": b"1"}):
        root, count = room.place(), room.place() + "/count"
        os.chmod(root, 0o755)
        for number in range(300):
            put(root, "d%d/f%d" % (number % 3, number), b"%d" % number, **(marks if number in (17, 42) else {}))
        image = image_of(room, root)
        for look in (walked, listed):
            mount = room.mount([image], *ALL, "--stats", count)
            hold("another user", 0, as_other(room, lambda look=look, at=mount.at: look(at)))
            mount.end()
            told.append(asked_of(count))
    bare, once, some, each = told
    hold("requests of a walk", bare, some)
    hold("for attributes", set(), {"GETXATTR", "LISTXATTR"} & {*some})
    hold("listed", (1, True), (once["LISTXATTR"], each["LISTXATTR"] >= 304))
    return "a walk over 300 files asks %d times, with attributes or without; listing those asks %d times, or once" % (
        some["all"], each["LISTXATTR"])


def effective(at):
    """The effective capabilities of a program that copies what it reads."""
    text = subprocess.run([at, "/proc/self/status"], stdout=subprocess.PIPE, check=True).stdout
    return int(next(it for it in text.splitlines() if it.startswith(b"CapEff:")).split()[1], 16)


def capable(room):
    """A program with a capability has it for an unprivileged user where root mounts with suid, and else not; ping works."""
    need_root(room)
    if libc.prctl(PR_GET_NO_NEW_PRIVS, 0, 0, 0, 0) != 0:
        raise LeftOut("no program gets rights here (no_new_privs)")
    root, ping = marked(room), shutil.which("ping")
    if ping:
        put(root, "ping", read(ping), 0o755, security__capability=RAW)
    image = image_of(room, root)
    for words, wanted in ((ALL, 0), (("-o", "allow_other,modeless,suid"), NET_RAW)):
        mount = room.mount([image], *words)
        for name in (b"bin/ping", b"bin/ping4"):
            hold("%r with %s" % (name, words), 0,
                 as_other(room, lambda name=name: hold("CapEff", wanted, effective(mount.path(name)))))
        if ping and wanted:
            hold("ping", 0, as_other(room, lambda: hold("ping", 0, pinged(mount.path(b"ping")))))
        mount.end()
    return "a capability counts with -o suid alone, for both names of a file%s" % (
        "; ping as user %d" % OTHER if ping else "; missing: ping")


def pinged(at):
    """Whether ping can ask this machine: status 2 says that it may not."""
    done = subprocess.run([at, "-c", "1", "-W", "1", "127.0.0.1"], stdin=subprocess.DEVNULL, stdout=subprocess.DEVNULL,
                          stderr=subprocess.PIPE)
    return 2 if done.stderr else 0


def as_user(user, group, function):
    """The errno of a call as a user of one group, or 0."""
    child = os.fork()
    if child == 0:
        number = 0
        try:
            os.setgroups([])
            os.setgid(group)
            os.setuid(user)
            function()
        except OSError as fault:
            number = fault.errno
        finally:
            os._exit(number)
    return os.waitstatus_to_exitcode(os.waitpid(child, 0)[1])


def enforced(room):
    """The kernel heeds ACLs: a named user reads, a member of the file's group does not, though the mode's group bits say so. Where
    they are lost, the group's own entry is the mode's."""
    need_root(room)
    root = marked(room)
    mount = room.mount([image_of(room, root)], *ALL)
    closed = mount.path(b"etc/closed")
    hold("the mode", 0o640, os.lstat(closed).st_mode & 0o777)
    for who, user, group, wanted in (("the named user", NAMED, 5, 0), ("a member of the group", 5, 77, errno.EACCES),
                                     ("another", 5, 5, errno.EACCES)):
        hold(who, wanted, as_user(user, group, lambda: read(closed)))
    mount.end()
    image = room.place() + "/image"
    subprocess.run([sys.executable, "-B", TOOLS + "/layers.py", "image", "--no-xattrs", root, image], check=True,
                   stdin=subprocess.DEVNULL, stdout=subprocess.DEVNULL, stderr=subprocess.DEVNULL)
    mount = room.mount([image], *ALL)
    hold("without ACLs", 0o600, os.lstat(mount.path(b"etc/closed")).st_mode & 0o777)
    for user, group in ((NAMED, 5), (5, 77), (5, 5)):
        hold("anybody", errno.EACCES, as_user(user, group, lambda: read(mount.path(b"etc/closed"))))
    mount.end()
    return "a user that an ACL names reads, a member of the group does not; with --no-xattrs neither does"


def overlay_with_attributes(room, mount):
    """An overlay whose upper folder has users' attributes, as one in memory has from Linux 6.6 on."""
    top, at = overlay_over(room, mount)
    try:
        mark(top, "user.x", b"1")
    except LeftOut:
        unmount(at, top)
        top, at = overlay_over(room, mount, is_in_memory=False)
        mark(top, "user.x", b"1")
    return top, at


def unmount(*places):
    for place in places:
        called(libc.umount2(place.encode(), 0))


def copied_up(room):
    """An overlay over a mount shows the attributes, and what is written in it keeps them."""
    need_root(room)
    root = marked(room)
    wanted = every(root)
    mount = room.mount([image_of(room, root)], *ALL)
    top, at = overlay_with_attributes(room, mount)
    try:
        hold_each("below", wanted, every(at))
        for name in ("home/notes", "etc/closed", "many/f00"):
            with open(os.path.join(at, name), "ab") as out:
                out.write(b" more")
        hold("data", b"secret more", read(at + "/etc/closed"))
        hold_each("copied up", wanted, every(at))
        hold("in the upper folder", wanted["etc/closed"],
             {name: it for name, it in found(top + "/upper/etc/closed").items() if not name.startswith("trusted.overlay.")})
    finally:
        unmount(at, top)
    mount.end()
    return "%d paths in an overlay, three of them copied up with theirs" % len(wanted)


def without_acls(room):
    """A script in the program's place: a client between it and the kernel that offers no ACLs."""
    script = room.write((WITHOUT_ACLS % (sys.executable, TOOLS, room.program)).encode())
    os.chmod(script, 0o755)
    return Room(script, room.folder)


def started(room, script, words):
    """What a script says of the mount that it makes in the background, which is then unmounted."""
    at = room.place()
    done = subprocess.run([sys.executable, "-IBS", "-c", script, *words, at], stdin=subprocess.DEVNULL, stderr=subprocess.PIPE)
    hold("its status", 0, done.returncode)
    unmount(at)
    for server in children():
        os.waitpid(server, 0)
    return done.stderr.decode()


def unheeded(room):
    """A mount that enforces no ACLs of its images says so, unless that is meant: over a client that offers none, where modes
    alone decide and ACLs are not listed, and if all files that have them are hidden."""
    need_root(room)
    image, other = image_of(room, marked(room)), without_acls(room)
    hidden, = layers_of(room, archive([entry(".wh.etc", b"")]))
    told = ("mount.py: %s: ACLs are not enforced, modes alone decide: this kernel has none for FUSE, or upper images hide the "
            "files that have them; -o modeless says that this is meant\n" % image)
    mount = other.mount([image], "-o", "allow_other", told=told.encode())
    closed = mount.path(b"etc/closed")
    fails("an ACL", errno.EOPNOTSUPP, os.getxattr, closed, ACCESS)
    hold("names", ["user.comment"], os.listxattr(closed))
    hold("a member of the group", 0, as_user(5, 77, lambda: read(closed)))
    mount.end()
    other.mount([image], *ALL).end()
    room.mount([image, hidden], "-o", "allow_other", told=told.encode()).end()
    room.mount([hidden, image], "-o", "allow_other").end()
    at, process = other.start([image, image])
    line = process.stderr.readline().decode()
    unmount(at)
    hold("in the foreground", (told.replace(image, image + " and 1 more"), b""), (line, process.communicate()[1]))
    own_runtime()
    shared = other.place(), other.place()
    hold("shared", (0, "", told), run(other, "--share", image, shared[0]))
    hold("shared again", (0, "", ""), run(other, "--share", image, shared[1]))
    unmount(*shared)
    os.waitpid(*children(), 0)
    hold("mount.strata", told.replace("mount.py", "mount.strata"), started(room, HELPER % (TOOLS, other.program), [image]))
    hold("a folder without ACLs", (True, False), (acls.is_without("/proc"), acls.is_without(room.folder)))
    bare, = layers_of(room, archive([entry("f", b"1", pax_headers={"SCHILY.xattr.user.x": ACCESS + "y" * 99})]))
    for size in (1, 27, 64, 1 << 20):
        acls.PIECE = size
        hold("ACLs, read in pieces of %d" % size, [True, False, False], list(map(acls.has_acls, (image, hidden, bare))))
    return "a line of a mount that enforces no ACLs, also shared, in the foreground and by mount.strata; none with modeless"


CHECKS = (extended, stacked_extended, largest, asked, capable, enforced, unheeded, copied_up)
