"""Checks of checks/mounts/mounted.py: how mounts begin and end, and what tools/mount.py says."""
import errno
import os
import random
import shutil
import signal
import stat
import subprocess
import sys

from checks.mounts.mounted_trees import MIB, file, folder, wanted_of
from checks.shared.build import seal
from checks.shared.mounting import SCRIPT, Failed, LeftOut, children, fails, hold, hold_tree, name_of, places, rows, shown, wait_for
from strata_format.system import called, libc
from strata_mount.device import DEVICE, MNT_DETACH

MS_BIND = 0x1000
# an unprivileged user
OTHER = 65534


def what_is_open():
    """This process's descriptors and children, and what is mounted."""
    return sorted(os.listdir("/proc/self/fd")), children(), places()


def again(room):
    """50 mounts one after another leave nothing behind."""
    image = room.layer([file("x", b"data")])
    before = what_is_open()
    for _ in range(50):
        mount = room.mount([image])
        with open(mount.path(b"x"), "rb") as it:
            hold("data", b"data", it.read())
        mount.end()
    hold("descriptors, processes and mounts", before, what_is_open())
    return "50 mounts one after another, without a descriptor, process or mount left"


def dead(mount, opened):
    """Holds what a mount says whose server has ended."""
    fails("statvfs", errno.ENOTCONN, os.statvfs, mount.at)
    fails("a name not asked for before", errno.ENOTCONN, os.lstat, mount.path(b"y"))
    unread("a file opened anew", read_anew, mount.path(b"x"))
    unread("a read", os.pread, opened, 4096, 4 * MIB)
    close_dead(opened)


def unread(what, function, *words):
    """Holds a read whose data no server gives any more. Newer kernels (7.3) say EIO of all data that could not be read."""
    try:
        function(*words)
        number = 0
    except OSError as fault:
        number = fault.errno
    hold("%s: %s" % (what, name_of(number)), True, number in (errno.ENOTCONN, errno.EIO))


def read_anew(path):
    """Opens a file, for which a kernel may not ask the server, and reads at a place that was not read before."""
    opened = os.open(path, os.O_RDONLY)
    try:
        os.pread(opened, 4096, 4 * MIB)
    finally:
        close_dead(opened)


def close_dead(opened):
    """Closes a file, where the kernel may say that it could not tell the server."""
    try:
        os.close(opened)
    except OSError as fault:
        hold("close", errno.ENOTCONN, fault.errno)


def big_image(room):
    return room.layer([file("x", random.Random(6).randbytes(5 * MIB)), file("y")])


def killed(room):
    """The server is killed: the mount says ENOTCONN and can be unmounted; mount.py unmounts it by itself."""
    image = big_image(room)
    mount = room.mount([image])
    opened = os.open(mount.path(b"x"), os.O_RDONLY)
    os.pread(opened, 10, 0)
    os.kill(mount.server, signal.SIGKILL)
    mount.ended(-signal.SIGKILL)
    dead(mount, opened)
    mount.take_away()
    at, process = room.start([image])
    os.kill(server_of(process), signal.SIGKILL)
    told = process.communicate()[1]
    hold("mount.py", (128 + signal.SIGKILL, True, False), (process.returncode, b"killed by signal 9" in told, at in places()))
    return "ENOTCONN, and then unmounted: by umount, and by mount.py where it waits"


def server_of(process):
    """The process that mount.py started."""
    with open("/proc/%d/task/%d/children" % (process.pid, process.pid), encoding="ascii") as it:
        return int(it.read().split()[0])


def connections(room):
    """The folder of the kernel's FUSE connections."""
    at = room.place()
    try:
        called(libc.mount(b"fusectl", at.encode(), b"fusectl", 0, None))
        return at
    except OSError:
        at = "/sys/fs/fuse/connections"
    if not os.path.isdir(at) or not os.listdir(at):
        raise LeftOut("no /sys/fs/fuse/connections here, to abort a connection by")
    return at


def aborted(room):
    """The connection is aborted: the server ends with 0, the mount says ENOTCONN."""
    image, folder_of = big_image(room), connections(room)
    mount = room.mount([image])
    opened = os.open(mount.path(b"x"), os.O_RDONLY)
    abort(folder_of, mount.at)
    mount.ended()
    dead(mount, opened)
    mount.take_away()
    at, process = room.start([image])
    abort(folder_of, at)
    hold("mount.py", (b"", 0, False), (process.communicate()[1], process.returncode, at in places()))
    return "strata and mount.py end with 0, ENOTCONN until it is unmounted"


def abort(folder_of, at):
    with open("%s/%d/abort" % (folder_of, os.minor(os.stat(at).st_dev)), "w", encoding="ascii") as out:
        out.write("1")


def lazily(room):
    """A mount that is unmounted while it is read serves what is open, and then ends with 0."""
    data = random.Random(6).randbytes(5 * MIB)
    mount = room.mount([big_image(room)])
    opened, top = os.open(mount.path(b"x"), os.O_RDONLY), os.open(mount.at, os.O_RDONLY)
    hold("data before", True, os.pread(opened, MIB + 1, 0) == data[:MIB + 1])
    fails("umount while it is read", errno.EBUSY, mount.take_away)
    mount.take_away(MNT_DETACH)
    hold("the folder", [], os.listdir(mount.at))
    hold("data after", True, os.pread(opened, 5 * MIB, MIB + 1) == data[MIB + 1:])
    hold("names after", [b"x", b"y"], [name for _, _, _, name in rows(top, 4096)][2:])
    hold("the server", (0, 0), os.waitpid(mount.server, os.WNOHANG))
    os.close(opened)
    os.close(top)
    mount.ended()
    return "EBUSY, and lazily: what is open is read to its end, and then strata ends with 0"


def waiting(room):
    """mount.py in the foreground ends well, however it is unmounted."""
    image = big_image(room)
    for number in (signal.SIGINT, signal.SIGTERM, signal.SIGHUP, None):
        at, process = room.start([image])
        opened = os.open(at + "/x", os.O_RDONLY) if number == signal.SIGTERM else None
        if number is None:
            called(libc.umount2(at.encode(), 0))
        else:
            process.send_signal(number)
        hold("mount.py", (b"", 0, False), (process.communicate()[1], process.returncode, at in places()))
        if opened is not None:
            unread("a file that was open", os.pread, opened, 10, 2 * MIB)
            close_dead(opened)
    return "SIGINT, SIGTERM while a file is open, SIGHUP and umount: status 0 each"


def refused(room):
    """What can't be mounted: a line, a status, and no mount."""
    image, at = room.layer([file("x")]), room.place()
    with open(image, "rb") as it:
        data = it.read()
    # a file's header stands behind the volume's, the root's and its own
    broken, unsummed = room.write(data[:-40]), room.write(seal(data[:108] + b"sums" + data[112:]))
    missing, text = room.folder + "/missing", room.write(b"text")
    os.chmod(text, 0o755)
    wanted = [
        ([broken, at], 3, "layer 0 at 00000008: bad full size\n"),
        ([image, broken, at], 3, "layer 1 at 00000008: bad full size\n"),
        (["--strict", unsummed, at], 3, "layer 0 at 00000060: bad header sum\n"),
        ([missing, at], 1, "image 0: cannot be read\n"),
        ([image, missing], 1, "mount.py: %s/: No such file or directory\n" % missing),
        (["--strata", text, image, at], 1, "mount.py: %s: Exec format error\n" % text),
        ([image, image], 1, "mount.py: %s/: Not a directory\n" % image),
        (["--strata", missing, image, at], 1, "mount.py: %s: no such program\n" % missing),
        (["-o", "nonsense", image, at], 1, "mount.py: -o: unknown: nonsense\n"),
        (["-o", "fd=3", image, at], 2, None), (["-o", "remount", image, at], 2, None), ([at], 2, None),
        (["--nonsense", image, at], 2, None)]
    for background in ([], ["--background"]):
        for words, status, line in wanted:
            hold_refused(room, background + words, status, line)
    hold_refused(room, ["--background", "--strata", "/bin/true", image, at], 1,
                 "mount.py: /bin/true ended before the mount answered\n")
    if room.is_root:
        hide_device()
        hold_refused(room, [image, at], 1, "mount.py: %s: No such file or directory\n" % DEVICE)
    return "%d faults%s, each with its line and status, and no mount left" % (
        len(wanted), ", and no /dev/fuse" if room.is_root else "")


def hold_refused(room, words, status, line):
    """Holds a run of mount.py that must end with this status and line, behind which one more may say why, or any lines."""
    done = subprocess.run([*room.words(), *words], stdin=subprocess.DEVNULL, stderr=subprocess.PIPE)
    told = done.stderr.decode().splitlines(True)
    hold("mount.py %s" % words, (status, told[:1] if line is None else [line]), (done.returncode, told[:1]))
    hold("lines that say why", True, line is None or len(told) == 1 or len(told) == 2 and told[1].startswith("mount.py: "))
    hold("mounts left", [], [place for place in places() if place.startswith(room.folder)])


def hide_device():
    """Leaves nothing of /dev but /dev/null, in this namespace."""
    called(libc.mount(b"tmpfs", b"/dev", b"tmpfs", 0, None))
    os.mknod("/dev/null", stat.S_IFCHR | 0o666, os.makedev(1, 3))


def shared(room):
    """Options of the mount: only with allow_other do others get in; max_read."""
    if not room.is_root:
        raise LeftOut("only root can become another user")
    items = [file("x", random.Random(8).randbytes(MIB + 3)), folder("d"), file("d/y", b"y")]
    image = room.layer(items)
    told = ("mount.py: %s: without modes and owners, so with allow_other everybody can read all files; "
            "`strata-layers image` keeps them, and -o modeless says that this is meant\n" % image)
    for option, number, line in (("", errno.EACCES, ""), ("allow_other", 0, told), ("allow_other,modeless", 0, ""),
                                 ("max_read=4096,noatime", errno.EACCES, "")):
        words = ["-o", option] if option else []
        mount = room.mount([image], *words, told=line.encode())
        hold_tree("mounted with %s" % words, wanted_of([items]), shown(mount.at))
        opened = os.open(mount.path(b"x"), os.O_RDONLY | os.O_DIRECT)
        hold("data past the pages", True, os.pread(opened, 300000, 5) == items[0].data[5:300005])
        os.close(opened)
        hold("another user's errno", number, as_other(room, lambda: os.listdir(mount.at)))
        mount.end()
    return "others get in with allow_other alone; max_read=4096 reads the same"


def as_other(room, function):
    """Calls a function as an unprivileged user; the errno that it ended with, or 0."""
    child = os.fork()
    if child == 0:
        number = 255
        try:
            if room.is_root:
                os.setgroups([])
                os.setgid(OTHER)
                os.setuid(OTHER)
            function()
            number = 0
        except OSError as fault:
            number = fault.errno
        except Failed as wrong:
            print(wrong, file=sys.stderr)
        finally:
            os._exit(number)
    return os.waitstatus_to_exitcode(os.waitpid(child, 0)[1])


def open_to_all(room):
    """Lets all users open /dev/fuse, as udev does; where that was not so, only this namespace sees it."""
    if as_other(room, lambda: os.close(os.open(DEVICE, os.O_RDWR))) == 0:
        return
    if not room.is_root:
        raise LeftOut("%s is not open to this user" % DEVICE)
    at = room.place()
    called(libc.mount(b"tmpfs", at.encode(), b"tmpfs", 0, None))
    os.mknod(at + "/fuse", stat.S_IFCHR, os.stat(DEVICE).st_rdev)
    os.chmod(at + "/fuse", 0o666)
    called(libc.mount(at.encode() + b"/fuse", DEVICE.encode(), None, MS_BIND, None))


def python_of(room):
    """A python3 that the other user can run."""
    for path in (sys.executable, "/usr/bin/python3"):
        if as_other(room, lambda: subprocess.run([path, "-c", ""])) == 0:
            return path
    raise LeftOut("no python3 that an unprivileged user can run")


def helped(room):
    """By fusermount3, for an unprivileged user."""
    if not shutil.which("fusermount3"):
        raise LeftOut("no fusermount3")
    open_to_all(room)
    who = {"user": OTHER, "group": OTHER, "extra_groups": []} if room.is_root else {}
    items = [file("x", b"data"), folder("d"), file("d/y", b"y")]
    image, at = room.layer(items), room.place()
    script = os.path.join(shutil.copytree(os.path.dirname(SCRIPT), room.folder + "/scripts"), os.path.basename(SCRIPT))
    words = [python_of(room), "-B", script, "--strata", shutil.copy(room.program, room.folder)]
    if room.is_root:
        os.chown(image, OTHER, OTHER)
        os.chown(at, OTHER, OTHER)
        done = subprocess.run([*words, image, room.place()], stdin=subprocess.DEVNULL, stderr=subprocess.PIPE, **who)
        hold("mount.py on a folder of root", (1, 1), (done.returncode, done.stderr.count(b"\n")))
    for number in (signal.SIGTERM, None):
        process = subprocess.Popen([*words, image, at], stdin=subprocess.DEVNULL, stderr=subprocess.PIPE, **who)
        wait_for(process, at)
        hold("a look", 0, as_other(room, lambda: hold_tree("by fusermount3", wanted_of([items]), shown(at))))
        if room.is_root:
            fails("root's look", errno.EACCES, os.listdir, at)
        if number:
            process.send_signal(number)
        else:
            hold("fusermount3 -u", 0, subprocess.run(["fusermount3", "-u", at], **who).returncode)
        hold("mount.py", (b"", 0, False), (process.communicate()[1], process.returncode, at in places()))
    done = subprocess.run([*words, "--background", image, at], stdin=subprocess.DEVNULL, stderr=subprocess.PIPE, **who)
    hold("mount.py", (0, b""), (done.returncode, done.stderr))
    server, = children()
    hold("fusermount3 -u", 0, subprocess.run(["fusermount3", "-u", at], **who).returncode)
    hold("the server's status", 0, os.waitstatus_to_exitcode(os.waitpid(server, 0)[1]))
    return "for an unprivileged user; unmounted by SIGTERM and fusermount3 -u; other users are kept out"
