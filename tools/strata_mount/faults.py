"""What stands behind a fault line of strata: which file it is about, and why, with what to do.

`strata` numbers images; who started it knows their names, and can look into the files.
"""
import os
import re
import resource
import shlex
import struct

from strata_format import image_files, romfs
from strata_format.refused import Refused, shown
from strata_layers import tars
from strata_layers.layer_order import split_blob
from strata_layers.store import MARK, default_place, told_verb
from strata_layers.store_images import brought, may_be_stored
from strata_mount import dead_mounts, packed_files
from strata_mount.meant import SOURCES, pulled
from strata_mount.plan import TREE

UNREADABLE = re.compile(r"image (\d+): cannot be read")
UNSEALED = re.compile(r"image (\d+): not as sealed")
FAR = re.compile(r"image (\d+): trailer ends beyond 4 GiB")
BROKEN = re.compile(r"layer (\d+) at [0-9a-f]{8,}: (.*)")
TOO_MANY = re.compile(r"layers: (\d+), allowed 1 to 128")
FRONT = 36 << 10
TAR_MOST = 10000
# so many files strata may have open besides its images
FILES_BESIDE = 16
MAKE = "`strata-layers image FOLDER IMAGE` makes an image from a directory"
OF_LAYOUT = "`strata-layers LAYOUT FOLDER` makes images of its layers"
MENDED = "; %s makes a tree again, or sets a damaged image aside for %s to bring"
BROKEN_IMAGE = "the file is damaged or was badly made: make it again"
# what each rule means, in the order in which rules are named
RULES = {
    "too short": "an image has at least 16 bytes",
    "not romfs": "a romfs image begins with `-rom1fs-`",
    "bad full size": "the size recorded in the image is below 16 or above that of the file",
    "bad sum": "the checksum of the first 512 bytes is wrong: they were changed after the image was made",
    "bad volume name": "the volume name does not end within the image",
    "no root": "no directory follows the volume name, as the root of the tree must",
    "header outside": "a directory or a link points outside the image",
    "name not ended": "a name does not end within 255 bytes and within the image",
    "bad name": "a name is empty or contains `/`",
    "data outside": "the data of a file or link extend past the end of the image",
    "target too long": "a symbolic link's target is longer than 4,095 bytes",
    "linked twice": "a directory or file appears twice in the tree without a hard link",
    "name twice": "a directory contains a name twice; genromfs does that for a device file `@NAME,..` beside `NAME`",
    "link loop": "hard links point only to each other",
    "link to directory": "a hard link points to a directory; genromfs makes one for a directory that is bind-mounted "
                         "into another",
    "major too large": "a device's major number is above 4,095",
    "bad header sum": "the checksum of a header is wrong; only --strict verifies it",
    "too deep": "a path has more than 512 names",
    "bad attributes": "the owners, modes and times behind the image are truncated or were changed",
}


def romfs_again(unpack):
    return "strata serves romfs: %s, then `strata-layers image FOLDER IMAGE`" % unpack


# where the letters stand by which a file is known, and what it then is, with what to do
KINDS = (
    (0, b"hsqs", "a squashfs image; " + romfs_again("`unsquashfs -d FOLDER {0}`")),
    (1024, b"\xe2\xe1\xf5\xe0", "an erofs image; " + romfs_again("`fsck.erofs --extract=FOLDER {0}`")),
    (1080, b"\x53\xef", "an ext4 image; " + romfs_again("mount it, or `debugfs -R 'rdump / FOLDER' {0}`")),
    (0, b"\x7fELF", "a program or library (ELF), not an image"),
    (0, b"PK\x03\x04", "a zip archive: unpack it; " + MAKE),
    (32769, b"CD001", "an ISO 9660 image; " + romfs_again("`xorriso -osirrox on -indev {0} -extract / FOLDER`")),
)


def explained(text, images, store):
    """The lines that stand behind strata's own. A word that is no file was sought in the store at a place, or its usual one."""
    return [line for said in text.splitlines() for line in explained_line(said, images, store)]


def explained_line(said, images, store):
    found = UNREADABLE.fullmatch(said) or BROKEN.fullmatch(said)
    if found and int(found[1]) < len(images):
        number, rule = int(found[1]), found[2] if found.re is BROKEN else None
        path = images[number]
        why = broken(path, rule) if rule else unreadable(path, len(images), store)
        return ["%s %d is %s: %s" % ("layer" if rule else "image", number, shown(os.fsencode(path)), why)]
    found = UNSEALED.fullmatch(said)
    if found and int(found[1]) < len(images):
        path = images[int(found[1])]
        return ["image %s is %s: %s" % (found[1], shown(os.fsencode(path)), unsealed(path))]
    found = FAR.fullmatch(said)
    if found and int(found[1]) < len(images):
        path = images[int(found[1])]
        return ["image %s is %s: -o whole reads it, into %d MiB of memory; images that `strata-layers` makes have their trailer "
                "below 4 GiB" % (found[1], shown(os.fsencode(path)), image_files.size_of(path) >> 20)]
    if TOO_MANY.fullmatch(said):
        return ["%d images were named, and at most 128 can be stacked: unpack some adjacent ones into one directory; %s" % (
            len(images), MAKE)]
    if said == "out of memory":
        return ["the images have %d MiB together: check `ulimit -v` and the free memory" % (
            sum(map(image_files.size_of, images)) >> 20)]
    return []


def unreadable(path, count, store):
    """Why a file can't be read, which is one of so many images."""
    fault = None
    try:
        kind = image_files.read_once(path)
        if kind is not None:
            return "it is %s, not a file" % kind
        front_of(path, 1)
    except OSError as found:
        fault = found
    return not_open(count) if fault is None else fault_told(path, fault, store)


def store_of(path):
    """The place of the store that a file is a layer of, or None."""
    folder, _ = split_blob(path)
    return folder if folder is not None and os.path.exists(os.path.join(folder, MARK)) else None


def unsealed(path):
    """Why an image is not the one that its digest names."""
    store = store_of(path)
    verify, pull = (told_verb(it, store) if store else "" for it in ("verify", "pull"))
    try:
        front_of(path + TREE, 1)
    except OSError as fault:
        how = verify + " makes it again" if store else "`strata-layers seal` makes the tree of an image"
        return "its tree %s: %s; %s" % (shown(os.fsencode(path + TREE)), fault.strerror.lower(), how)
    how = MENDED % (verify, pull) if store else ""
    return "the image or its tree was changed, or the digest is another image's" + how


def fault_told(path, fault, store):
    """What a fault of reading a file says."""
    if isinstance(fault, FileNotFoundError):
        return not_there(path, store)
    if isinstance(fault, IsADirectoryError):
        return "it is %s" % ("an OCI layout; " + OF_LAYOUT if is_layout(path) else "a directory; " + MAKE)
    if fault.errno in dead_mounts.GONE:
        return dead_mounts.told(os.path.realpath(path), False)
    return fault.strerror.lower()


def is_layout(folder):
    return os.path.exists(os.path.join(folder, "oci-layout"))


def not_there(path, store):
    """What is said of a word that names no file: it may mean an image of the store, or one to
    bring there."""
    store = store or default_place()
    if path.startswith(SOURCES):
        return "no such file; " + pulled(path, store)
    folder, colon, _ = path.rpartition(":")
    if colon and is_layout(folder):
        return "no such file; %s is an OCI layout: %s" % (shown(folder), OF_LAYOUT.replace("LAYOUT", shown(path)))
    if path.endswith(".romfs"):
        return "no such file or directory"
    if may_be_stored(path):
        return "no such file, and no such image in %s; %s" % (shown(store), brought(path, store))
    return "no such file or directory"


def not_open(count):
    """Why strata, with so many images, could not open what can be opened here."""
    most = resource.getrlimit(resource.RLIMIT_NOFILE)[0]
    if 0 <= most < count + FILES_BESIDE:
        return "too many open files: strata keeps one open for each of %d images, and a few more; `ulimit -n` allows %d" % (
            count, most)
    return "it can be read now"


def front_of(path, size):
    """The first bytes of a file, and its size; none of what is not opened only to look at it. Of a file of /proc, which
    says that it is empty, all that is read counts."""
    file = image_files.opened(path)
    if file is None:
        return b"", 0
    with file:
        front = file.read(size) or b""
        return front, max(len(front), os.fstat(file.fileno()).st_size, end_of(file))


def end_of(file):
    try:
        return file.seek(0, os.SEEK_END)
    except OSError:
        return 0


def broken(path, rule):
    """Why a file breaks a rule of images."""
    try:
        front, size = front_of(path, FRONT)
    except OSError as fault:
        return fault.strerror.lower()
    if front.startswith(romfs.MAGIC) and len(front) >= 12:
        full, = struct.unpack_from(">I", front, 8)
        if full > size and rule == "bad full size":
            return "it is truncated: %d of %d bytes; copy or fetch it again" % (size, full)
        return "%s; %s" % (RULES.get(rule, rule), BROKEN_IMAGE)
    return kind_of(path, front, size) or RULES.get(rule, rule)


def kind_of(path, front, size):
    """What a file is that is not a romfs image, and what to do; nothing where that isn't known."""
    name = shlex.quote(path if not path.startswith("-") else "./" + path) if path.isprintable() else "FILE"
    if size == 0:
        return None if image_files.read_once(path) else "the file is empty"
    packing = packed_files.packing_of(front)
    if packing is not None:
        return packed_files.told(path, name, packing)
    if front[257:262] == b"ustar":
        return archive(path, name)
    for place, letters, words in KINDS:
        if front[place:place + len(letters)] == letters:
            return words.format(name)
    return None


def archive(path, name):
    """What to do with an archive of tar, by the names in it."""
    names = set(names_in(path))
    kinds = (("oci-layout", "oci-archive"), ("manifest.json", "docker-archive"))
    for member, kind in kinds:
        if member in names:
            return ("an archived container image: `skopeo copy %s:%s oci:LAYOUT:TAG`, then `strata-layers LAYOUT:TAG IMAGES` "
                    "makes an image of each layer" % (kind, name))
    return "a tar archive: `strata-layers image - IMAGE < %s` makes an image of it" % name


def names_in(path):
    """The first names in an archive, as far as it can be read. Headers alone are, whatever lies between them."""
    try:
        file = image_files.opened(path)
        if file is None:
            return
        with file:
            at = 0
            for _ in range(TAR_MOST):
                block = os.pread(file.fileno(), tars.BLOCK, at)
                if len(block) < tars.BLOCK or not tars.is_sum_right(block):
                    return
                yield os.fsdecode(tars.full_name(block)).removeprefix("./")
                size = max(tars.number(block[124:136], "size"), 0)
                at += tars.BLOCK + size + -size % tars.BLOCK
    except (OSError, OverflowError, Refused):
        return
