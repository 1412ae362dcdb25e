"""The folder of this boot in which a user's shared mounts are noted, and what is known of
processes."""
import errno
import os

from strata_format.refused import one_line
from strata_format.system import called, libc
from strata_format.words import quoted
from strata_mount.device import take_away

NAME = "strata"
OTHERS_WRITE = 0o022
SET_ANOTHER = ("; without a login session, set XDG_RUNTIME_DIR to a directory of your own, in which nobody"
               " else may write")
# of the flags of a process
EXITING = 4
FOLDER = os.O_RDONLY | os.O_DIRECTORY | os.O_NOFOLLOW | os.O_CLOEXEC


def runtime_folder():
    """The folder for what lasts until the machine goes off: /run for root, who owns it, and else
    the user's own."""
    if os.stat("/run").st_uid == os.geteuid():
        return "/run"
    # a link with a slash behind it would be followed
    said = os.environ.get("XDG_RUNTIME_DIR", "").rstrip("/")
    return said if os.path.isabs(said) else "/run/user/%d" % os.geteuid()


def opened_own(place, name, above=None):
    """An open folder, below an open one; it must be this user's, and nobody else may write in
    it."""
    number = os.open(name, FOLDER, dir_fd=above)
    found = os.fstat(number)
    if found.st_uid != os.geteuid() or found.st_mode & OTHERS_WRITE:
        os.close(number)
        why = "shared mounts are noted here, so it must be your own, and nobody else may write in it"
        raise OSError(0, why + closed_by(found, place), place)
    return number


def closed_by(found, place):
    """What closes this user's own folder to others' writes; nothing of another's."""
    mode = "755" if place == "/run" else "700"
    return "; `chmod %s %s` sees to that" % (mode, one_line(quoted([place]))) if found.st_uid == os.geteuid() else ""


def opened_notes(makes=True):
    """The open folder of notes, which is made where it isn't there if `makes` says so, and its
    path."""
    top = runtime_folder()
    place = os.path.join(top, NAME)
    above = None
    try:
        above = opened_own(top, top)
        try:
            if makes:
                os.mkdir(NAME, 0o700, dir_fd=above)
        except FileExistsError:
            pass
        return opened_own(place, NAME, above), place
    except OSError as fault:
        if fault.errno == 0:
            raise
        where = top if above is None else place
        is_link = fault.errno in (errno.ELOOP, errno.ENOTDIR) and os.path.islink(where)
        what = "is a symbolic link" if is_link else fault.strerror
        other = SET_ANOTHER * (above is None and top != "/run")
        raise OSError(0, "%s; shared mounts are noted there%s" % (what, other), where) from None
    finally:
        if above is not None:
            os.close(above)


def start_of(process):
    """When a process has begun, in ticks of the clock since the machine did; None where there is
    none, or it has ended or is about to."""
    try:
        with open("/proc/%d/stat" % process, "rb") as it:
            state, *words = it.read().rpartition(b")")[2].split()
    except OSError:
        return None
    return None if state in (b"Z", b"X") or int(words[5]) & EXITING else int(words[18])


MS_REMOUNT, MS_BIND, MS_PRIVATE = 0x20, 0x1000, 0x40000


def bind(number, folder, flags):
    """Shows the mount that a descriptor is open of at a folder, with these flags; what is mounted
    below the one is not seen below the other. Whether it does: the mount may have gone, and this
    process may lack the right."""
    source, place = b"/proc/self/fd/%d" % number, os.fsencode(folder)
    if libc.mount(source, place, None, MS_BIND, None) != 0:
        return False
    try:
        for flag in (MS_PRIVATE, MS_REMOUNT | MS_BIND | flags):
            called(libc.mount(None, place, None, flag, None), folder + ": bind")
    except OSError:
        take_away(folder)
        raise
    return True
