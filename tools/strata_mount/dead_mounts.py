"""What is mounted at a folder; mounts whose server has ended, and how they are unmounted."""
import errno
import os

from strata_mount.mount_table import KIND, mount_at, mounts

# what a folder answers whose mount has lost its server
GONE = (errno.ENOTCONN, errno.ECONNABORTED)


def mount_over(folder):
    """The place and the type of the mount that a folder lies in."""
    found = "/", "?"
    for it in mounts():
        if len(it.place) >= len(found[0]) and (folder + "/").startswith(it.place.rstrip("/") + "/"):
            found = it.place, it.kind
    return found


def is_dead(folder):
    """Whether the mount that a folder lies in has lost its server. The kernel keeps attributes, but
    asks for STATFS each time."""
    try:
        os.statvfs(folder)
        return False
    except OSError as fault:
        return fault.errno in GONE


def away(place):
    """How a mount is unmounted, as text."""
    import shlex
    command = ["umount"] if os.geteuid() == 0 else ["fusermount3", "-u"]
    return "`%s` unmounts it" % " ".join([*command, shlex.quote(place)])


def is_mount(folder):
    """Whether something is mounted at an existing folder."""
    return os.lstat(folder).st_dev != os.lstat(os.path.dirname(folder)).st_dev


def standing(folder, may_replace):
    """What is said of a mount of strata at a folder, where it could be replaced or only covered;
    None where none is there."""
    if not is_mount(folder) or mount_at(folder) is None:
        return None
    replaced = ", and so does --replace" * may_replace
    told = "something is mounted here already: %s%s; `-o stack` mounts over it"
    return told % (away(folder), replaced)


def told(folder, may_replace):
    """What is said of a dead mount."""
    place, kind = mount_over(folder)
    taken_away = away(place)
    if may_replace and place == folder and kind == KIND:
        taken_away += ", and so does --replace"
    return "a dead mount, whose server has ended (%s): %s" % (kind, taken_away)


def replace(folder, take_away):
    """Unmounts the dead mounts of strata at a folder; whether none is left."""
    for _ in range(sum(it.place == folder for it in mounts())):
        if not is_dead(folder):
            return True
        if mount_over(folder) != (folder, KIND):
            return False
        take_away(folder)
    return not is_dead(folder)
