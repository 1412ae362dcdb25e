"""What must hold before a mount: the folder is there, the images can be named, and strata needs
nothing below the folder."""
import os

from strata_format.refused import one_line
from strata_format.version import PACKAGES, TOP
from strata_layers import layer_order
from strata_mount import dead_mounts
from strata_mount.device import take_away
from strata_mount.mount_table import mount_at
from strata_mount.options import NOT_SEALED

# what strata opens at startup, besides its program and its libraries: the loader and its lists,
# the standard ends, and what tells how many processors there are; python looks for open files in
# the last folder
OPENED = ("/lib64/ld-linux-x86-64.so.2", "/etc/ld.so.preload", "/etc/ld.so.cache", "/dev/null",
          "/sys/devices/system/cpu/online", "/sys/fs/cgroup/cpu.max", "/proc/self/fd")
# what gives a digest to the layers of an image that was pulled before there were any
PULL_AGAIN = "; pull the image again"
# as many links as the kernel follows on the way to a file
LINKS_MOST = 40
# where open files have numbers for names
NUMBERED = "/proc/", "/dev/"
NOT_GIVEN = "strata does not inherit the caller's open files; "


def hold_here(names):
    """Looks that this folder is there still, where a name begins at it."""
    try:
        if not all(name.startswith(("/", "image:")) for name in names):
            os.getcwd()
    except OSError as fault:
        raise OSError(fault.errno, fault.strerror, "the working folder") from None


def has_lost_server(folder):
    """Whether a mount stands at a folder whose server has ended; OSError where the folder is not
    there. It is statvfs that asks, since the kernel keeps a root's attributes."""
    try:
        os.statvfs(os.path.join(folder, ""))
        return False
    except OSError as fault:
        if fault.errno not in dead_mounts.GONE:
            raise
        return True


def hold_folder(plan):
    """Looks whether a folder is there, and whether a mount of strata stands there. With --replace a
    dead one is unmounted, and one that lives later, when all else is known to be right."""
    is_dead, folder = has_lost_server(plan.folder), os.path.realpath(plan.folder)
    if is_dead:
        if not plan.replace or not dead_mounts.replace(folder, take_away):
            raise OSError(0, dead_mounts.told(folder, plan.may_replace), plan.folder)
    elif not plan.replace and not plan.is_stacked:
        told = dead_mounts.standing(folder, plan.may_replace)
        if told is not None:
            raise OSError(0, told, plan.folder)


def clear(plan):
    """Takes the mounts of strata away that stand at a folder, if the images are there."""
    for image in plan.images:
        os.stat(image)
    while dead_mounts.is_mount(plan.folder) and mount_at(plan.folder) is not None:
        before = mount_at(plan.folder).number
        take_away(plan.folder)
        found = mount_at(plan.folder)
        if found is not None and found.number == before:
            raise OSError(0, "the mount here could not be unmounted", plan.folder)


def find_images(plan):
    """Puts the layers of the store's images instead of their names, with their digests, and says
    where one lies on another than it was made for."""
    parents, digests = {}, []
    if plan.store is not None or plan.verify or not all(map(os.path.lexists, plan.images)):
        from strata_layers import store_images
        from strata_mount import meant
        meant.hold_names(plan.images, plan.store)
        found = store_images.mounted_words(plan.images, plan.store, plan.verify)
        if plan.is_unsealed:
            meant.hold_unpinned(plan.images)
        plan.images, plan.marks, parents, digests = found
        if plan.word is not None:
            meant.hold_split(plan.word, plan.images)
    take_digests(plan, digests)
    if layer_order.is_known(plan.images):
        for line in layer_order.wrong_order(plan.images, parents, plan.joined):
            plan.say(line)


def take_digests(plan, noted):
    """Takes the digests over that the store says of its layers, but with -o unsealed. One that was
    named for such a layer must be the same."""
    if plan.is_unsealed or not any(noted) or plan.digests and len(plan.digests) != len(noted):
        return
    named = plan.digests or [NOT_SEALED] * len(noted)
    for image, word, digest in zip(plan.images, named, noted):
        if digest and word not in (NOT_SEALED, digest) and word.lower() != digest:
            raise OSError(0, "has the digest %s, and %s was named" % (digest, word), image)
    plan.digests = [digest or word for word, digest in zip(named, noted)]


def hold_digests(plan):
    """Looks that each layer has its word of a digest, or none has; and with -o sealed that it is a
    digest."""
    digests = plan.digests or [NOT_SEALED] * len(plan.images)
    if len(digests) != len(plan.images):
        raise OSError(0, "digests: %d, and layers: %d; each layer needs one, or `-`, the lowest first"
                      % (len(digests), len(plan.images)))
    for image, digest in zip(plan.images, digests):
        if plan.is_sealed and digest == NOT_SEALED:
            why = "has no digest, and with -o sealed each layer needs one"
            raise OSError(0, why + PULL_AGAIN * (layer_order.split_blob(image)[0] is not None), image)
    if plan.digests:
        from strata_mount import kernel_seals
        kernel_seals.settle(plan)


def hold_names(plan):
    """Looks that strata, which takes text alone, can be told the images' names."""
    for image in plan.images:
        try:
            os.fsencode(os.path.abspath(image)).decode("utf-8")
        except UnicodeDecodeError:
            why = "the name is not UTF-8, which strata needs; a link with another name will do"
            raise OSError(0, why, image) from None


def hold_by_path(plan):
    """Looks that no image is named by the number of a file that a process has open: the server doesn't
    get the caller's, and may not look at those of others."""
    for image in plan.images:
        # a way that begins elsewhere ends there only by a link
        if os.path.abspath(image).startswith(NUMBERED) or os.path.islink(image):
            open_file = next(filter(is_open_file, way_to(image)), None)
            if open_file is not None and os.path.lexists(open_file):
                raise OSError(0, NOT_GIVEN + path_instead(open_file), image)


def is_open_file(path):
    """Whether a path without links is the number of a file that a process has open."""
    folder, number = os.path.split(path)
    return number.isdigit() and folder.startswith("/proc/") and os.path.basename(folder) == "fd"


def path_instead(open_file):
    """What to name instead of an open file."""
    try:
        path = os.readlink(open_file)
        if os.path.samefile(path, open_file):
            return "name %s" % one_line(path)
    except OSError:
        pass
    return "name a file by its path, or a pipe that mkfifo makes"


def way_to(path):
    """What the kernel looks at on the way to a file, links among it, each without links above
    it."""
    place, names, links = "/", os.path.abspath(path).split("/"), 0
    while names:
        name = names.pop(0)
        if name == "..":
            place = os.path.dirname(place)
        elif name not in ("", "."):
            found = os.path.join(place, name)
            yield found
            if links < LINKS_MOST and os.path.islink(found):
                links += 1
                target = os.readlink(found)
                names = target.split("/") + names
                place = "/" if target.startswith("/") else place
            else:
                place = found


def lies_in(path, folder):
    """Whether the way to a file leads through a folder."""
    above = os.path.join(os.path.realpath(folder), "")
    return any(found.startswith(above) for found in way_to(path))


def libraries():
    """The files of this process, among which are those that strata begins with."""
    try:
        with open("/proc/self/maps", "rb") as lines:
            found = [line.split(None, 5) for line in lines]
    except OSError:
        return set()
    return {os.fsdecode(it[5].strip()) for it in found if len(it) == 6 and it[5].startswith(b"/")}


def packages():
    """A file of each of these packages, whose modules are loaded when they are needed."""
    return [os.path.join(TOP, package, "__init__.py") for package in PACKAGES]


def is_empty(folder):
    """Whether nothing can lie below a folder."""
    try:
        with os.scandir(folder) as found:
            return next(found, None) is None
    except OSError:
        return False


def missing(paths):
    """Those of some paths where nothing is."""
    return [path for path in paths if not os.path.exists(path)]


def hold_images(plan):
    """Looks that no image lies below the folder, nor strata itself: it would wait for itself to
    open it."""
    if is_empty(plan.folder):
        # what is there does not lie in it
        files, needed = missing(plan.files()), missing(OPENED)
    else:
        files, needed = plan.files(), [plan.program, *packages(), *sorted(libraries()), *OPENED]
    for file in files:
        if lies_in(file, plan.folder):
            why = "this image is in the directory that it would be mounted on"
            raise OSError(0, why.replace("image", "tree") if file in plan.trees() else why, file)
    for path in needed:
        if lies_in(path, plan.folder):
            why = "strata needs this file, which is in the directory that it would mount on"
            raise OSError(0, why, path)
