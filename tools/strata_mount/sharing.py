"""One mount for all who ask for the same images with the same options: --share.

Who comes first mounts as always, and notes the mount's device number and its server in a file,
which is named by what the images and options are. Who comes later finds a mount of that device in
this namespace, and binds it to their own folder. So nothing watches: the kernel ends a file system
with its last mount, in any namespace, and its server with it.

A mount is joined only if its server is the process that was noted and serves it still, and if the
kernel says that it is this user's. A device number alone says nothing: it is given to another mount
at once, while the server of the one that had it may still be about to end.
"""
import errno
import fcntl
import os
import stat

from strata_format import ends
from strata_format.files import names_in
from strata_format.system import c_ulong
from strata_mount import dead_mounts, mounting
from strata_mount.device import flags_of, take_away
from strata_mount.landlock import call
from strata_mount.mount_table import KIND, mounts
from strata_mount.preconditions import hold_images
from strata_mount.privileges import is_elf
from strata_mount.runtime import bind, opened_notes, start_of

NOTE = os.O_RDWR | os.O_CREAT | os.O_NOFOLLOW | os.O_CLOEXEC
# what stands there instead of a note, as a pipe, is not waited for
LOOKED_AT = os.O_RDONLY | os.O_NOFOLLOW | os.O_NONBLOCK | os.O_CLOEXEC
NAME_SIZE, HEX = 16, frozenset("0123456789abcdef")
# the end of the name of a folder that --print tells
PRINTED = ".tree"
# numbers of calls, the same on all machines
PIDFD_OPEN, PIDFD_GETFD = 434, 438
ANY_PLACE = os.O_PATH | os.O_DIRECTORY | os.O_NOFOLLOW | os.O_CLOEXEC


# --- what a stack is ---

def files_of(plan):
    """The images' files and their trees', by device, inode, size and times; None where one is no
    file, or is missing."""
    files = []
    for path in plan.files():
        try:
            it = os.stat(path)
        except OSError:
            return None
        if not stat.S_ISREG(it.st_mode):
            return None
        files.append((it.st_dev, it.st_ino, it.st_size, it.st_mtime_ns, it.st_ctime_ns))
    return files


def identity_of(plan, files):
    """What a plan would show, as bytes: these files, and all options, the digests among them, whatever
    the images are called."""
    program = os.stat(plan.program)
    options = mounting.option_words(plan), plan.seals(), plan.words, plan.keeps_privileges
    return repr((files, options, program.st_dev, program.st_ino, program.st_mtime_ns, processes())).encode()


def name_of(identity):
    """The name of a stack among those of this machine."""
    try:
        from _blake2 import blake2b  # hashlib has it too, but loads OpenSSL first
    except ImportError:
        from hashlib import blake2b
    return blake2b(identity, digest_size=NAME_SIZE).hexdigest()


def is_name(text):
    """Whether a file is named as a stack."""
    return len(text) == 2 * NAME_SIZE and HEX.issuperset(text)


# --- notes ---

def processes():
    """Which namespace of processes this is: the numbers of another one's say nothing here."""
    try:
        return str(os.stat("/proc/self/ns/pid").st_ino)
    except OSError:
        return "0"  # the kernel has but one


def noted_servers():
    """The servers of this user's shared mounts by device number."""
    try:
        folder, _ = opened_notes(makes=False)
    except OSError:
        return {}
    found = {}
    for name in filter(is_name, names_in(folder)):
        try:
            number = os.open(name, LOOKED_AT, dir_fd=folder)
            with open(number, encoding="utf-8", errors="replace") as lines:
                found.update(live_rows(lines))
        except OSError:
            continue  # it has just gone
    os.close(folder)
    return found


def live_rows(lines):
    """The device numbers of noted mounts whose servers are there, with the servers."""
    for row in map(str.split, lines):
        if len(row) == 4 and row[3] == processes() and row[1].isdigit() and str(start_of(int(row[1]))) == row[2]:
            yield row[0], int(row[1])


class Note:
    """The file in which the mounts of one stack are noted: a line for each, of the device number,
    the server, when that began, and the namespace of its number. It is locked for this run alone
    until it is closed."""

    def __init__(self, folder, name, is_waited_for=True):
        while True:
            self.file = os.open(name, NOTE, 0o600, dir_fd=folder)
            try:
                fcntl.flock(self.file, fcntl.LOCK_EX | (0 if is_waited_for else fcntl.LOCK_NB))
            except OSError:
                os.close(self.file)
                raise
            # a sweep may have removed it before it was locked
            if os.fstat(self.file).st_nlink:
                break
            os.close(self.file)

    def lines(self):
        os.lseek(self.file, 0, os.SEEK_SET)
        with open(self.file, encoding="utf-8", errors="replace", closefd=False) as lines:
            return list(lines)

    def live(self):
        """The device numbers of noted mounts whose servers are there, with the servers."""
        return list(live_rows(self.lines()))

    def is_of_others(self):
        """Whether the servers are of another namespace, so that nothing is known of them here."""
        return any(line.split()[3:] not in ([], [processes()]) for line in self.lines())

    def add(self, device, server):
        """Notes a mount beside those whose servers are there; OSError, with the path, if that can't be."""
        rows = [*self.live(), (device, server)]
        os.ftruncate(self.file, 0)
        text = "".join("%s %d %s %s\n" % (it, number, start_of(number), processes()) for it, number in rows)
        try:
            os.pwrite(self.file, text.encode(), 0)
        except OSError as fault:
            raise OSError(fault.errno, fault.strerror, os.readlink("/proc/self/fd/%d" % self.file)) from None

    def close(self):
        os.close(self.file)


def sweep(folder):
    """Removes notes of mounts that are all gone, with the folders that were printed for them. A folder
    where another namespace may have something mounted stays: removed, it would be unmounted there."""
    names = names_in(folder)
    for name in filter(is_name, names):
        try:
            note = Note(folder, name, is_waited_for=False)
        except OSError:
            continue  # another run has locked it, or it has just gone
        is_others = name + PRINTED in names and note.is_of_others()
        if not is_others and not note.live() and is_removed(folder, name + PRINTED):
            os.unlink(name, dir_fd=folder)
        note.close()


def is_removed(folder, name):
    """Whether a folder below an open one is gone, if it had to be removed or not."""
    try:
        os.rmdir(name, dir_fd=folder)
        return True
    except OSError as fault:
        return fault.errno == errno.ENOENT


# --- joining ---

def joinable(plan, note):
    """The mounts in this namespace that show what a plan would show."""
    devices = [device for device, _ in note.live()]
    for it in mounts(KIND) if devices else ():
        if it.root == "/" and it.is_of(os.geteuid()) and it.device in devices:
            yield it


def is_served(note, device):
    """Whether a server that is noted for a device number serves a mount still."""
    return any(is_serving(note, row) for row in note.live() if row[0] == device)


def is_serving(note, row):
    """The same of the server in a row. Its own descriptor says so, since that fails once the mount has
    gone; where it may not be asked, that the server is there."""
    try:
        process = call(PIDFD_OPEN, c_ulong(row[1]), c_ulong(0))
    except OSError as fault:
        return fault.errno != errno.ESRCH
    try:
        # the process with this number is still the one that was noted
        return row in note.live() and not has_failed(process)
    finally:
        os.close(process)


def has_failed(process):
    """Whether the standard input of a process has failed, or is closed; not where that may not be
    asked."""
    import select
    try:
        number = call(PIDFD_GETFD, c_ulong(process), c_ulong(0), c_ulong(0))
    except OSError as fault:
        return fault.errno not in (errno.EPERM, errno.ENOSYS)
    try:
        asked = select.poll()
        asked.register(number, 0)
        return bool(asked.poll(0))
    finally:
        os.close(number)


def mount_number(number):
    """The number of the mount that an open file is of."""
    with open("/proc/self/fdinfo/%d" % number, encoding="utf-8") as lines:
        return next(int(line.split()[1]) for line in lines if line.startswith("mnt_id:"))


def is_joined(plan, note, found):
    """Binds a mount to a plan's folder, if its place still leads to it, and if it is the one that was
    noted; whether it did."""
    try:
        number = os.open(found.place, ANY_PLACE)
    except OSError:
        return False
    try:
        # while it is open nothing else gets its number or that of its device
        opened = mount_number(number), found.device
        if opened not in ((it.number, it.device) for it in joinable(plan, note)) or not is_served(note, found.device):
            return False
        return bind(number, plan.folder, flags_of(plan.words))
    finally:
        os.close(number)


# --- from the plan to the mount ---

def printed_folder(folder, place, name):
    """The folder that --print tells of a stack, which is made where it isn't there; a dead mount is
    unmounted."""
    try:
        os.mkdir(name + PRINTED, 0o700, dir_fd=folder)
    except FileExistsError:
        pass
    found = os.path.join(place, name + PRINTED)
    if dead_mounts.is_dead(found) and not dead_mounts.replace(found, take_away):
        raise OSError(0, dead_mounts.told(found, False), found)
    return found


def hold_unshared(plan):
    """Looks that a stack may be mounted that is not shared: strata says what is wrong with an
    image, and what is no file can be read by one mount alone. Without a folder it may not."""
    if plan.is_printed:
        *lower, last = plan.images
        if lower and os.path.isdir(last):
            raise OSError(0, "is a directory; --print takes no DIR, and prints one", last)
        for path in plan.files():
            if not stat.S_ISREG(os.stat(path).st_mode):
                raise OSError(0, "is not a file and cannot be shared", path)


def attempt(plan):
    """Mounts by a plan, or joins a mount that shows the same; the status to end with."""
    files = files_of(plan)
    if files is None:
        hold_unshared(plan)
        return mounting.run(plan)
    if not plan.is_printed and os.geteuid() != 0:
        why = ("only root can share a mount at a directory; `strata-mount --share --print IMAGE..` "
               "prints one for other users")
        raise OSError(0, why, plan.folder)
    folder, place = opened_notes()
    identity = identity_of(plan, files)
    name = name_of(identity)
    note = Note(folder, name)
    try:
        if plan.is_printed:
            plan.folder = printed_folder(folder, place, name)
            hold_images(plan)
        status, is_new = joined_or_mounted(plan, note, identity)
        if is_new:
            sweep(folder)
        if status == 0 and plan.is_printed:
            tell(plan, is_new)
        return status
    finally:
        note.close()
        os.close(folder)


def tell(plan, is_new):
    """Prints the folder. A new mount that nobody learns of is unmounted."""
    try:
        ends.put(os.fsencode(plan.folder) + b"\n")
    except OSError:
        if is_new:
            take_away(plan.folder)
        raise


def joined_or_mounted(plan, note, identity):
    """The status to end with, and whether a mount was made."""
    found = list(joinable(plan, note))
    if plan.is_printed and any(it.place == plan.folder for it in found):
        return 0, False
    if os.geteuid() == 0 and any(is_joined(plan, note, it) for it in found):
        return 0, False
    before = {it.number for it in standing_at(plan.folder)}
    return mounting.run(plan, None, lambda server: noted(plan, note, identity, server, before)), True


def standing_at(folder):
    """All that is mounted at a folder."""
    return [it for it in mounts() if it.place == folder]


def noted(plan, note, identity, server, before):
    """Notes a mount that answers, if the images are still the files that they were. Where another
    has mounted there meanwhile nothing tells which is whose, and none is noted."""
    new = [it for it in standing_at(plan.folder) if it.number not in before]
    files = files_of(plan)
    if len(new) != 1 or new[0].kind != KIND or files is None or identity_of(plan, files) != identity:
        return
    if has_open(plan, server.pid, files):
        note.add(new[0].device, server.pid)


def has_open(plan, process, files):
    """Whether a server has these files open, so that no image's path led elsewhere meanwhile and back
    again; so also where that may not be seen, as of a script's. It keeps no image open that it read in
    full, which its digest then holds to what was asked for."""
    if plan.whole:
        return bool(plan.seals()) and None not in plan.seals()
    if not is_elf(plan.program):
        return True
    folder = "/proc/%d/fd" % process
    try:
        opened = [os.stat(os.path.join(folder, it)) for it in os.listdir(folder)]
    except OSError as fault:
        return fault.errno == errno.EACCES
    return {(it.st_dev, it.st_ino) for it in opened}.issuperset(it[:2] for it in files)
