"""Faults that help: behind strata's line stands which file it is about, and why."""
import bz2
import gzip
import io
import lzma
import os
import re
import shutil
import stat
import struct
import subprocess
import tarfile

from checks import ROOT
from checks.installed.mounts import OTHER, places, user
from checks.installed.roots import BIND, Failed, hold, hold_in, mount
from strata_mount.faults import RULES

RULE = os.path.join(ROOT, "crates", "romfs_format", "src", "rule.rt")
NOT_ROMFS = "layer 1 at 00000000: not romfs\n"


def refused(root, path, *front):
    """The status and the lines of strata-mount over the lower image and this file, for which a mount must not be left."""
    done = root.run("strata-mount", "--background", *front, "/srv/lower.romfs", path, "/mnt")
    hold("mounts over %s" % path, [], places())
    return done.status, done.err


def put(path, data):
    with open(path, "wb") as out:
        out.write(data)
    return path


def images(root):
    """Files that can't be read, are no images, or are cut off; too many; by mount(8) too."""
    root.install()
    os.mkdir("/srv/folder")
    os.mkdir("/srv/layout")
    put("/srv/layout/oci-layout", b"{}")
    with open("/srv/lower.romfs", "rb") as it:
        data = it.read()
    full, = struct.unpack_from(">I", data, 8)
    put("/srv/cut.romfs", data[:full - 100])
    put("/srv/empty.romfs", b"")
    cut = "it is truncated: %d of %d bytes; copy or fetch it again" % (full - 100, full)
    front = "strata-mount: %s 1 is /srv/%s: %s\n"
    wanted = (
        ("none.romfs", 1, "image 1: cannot be read\n" + front % ("image", "none.romfs", "no such file or directory")),
        ("folder", 1, "image 1: cannot be read\n" + front % ("image", "folder", "it is a directory; "
                                                             "`strata-layers image FOLDER IMAGE` makes an image from a directory")),
        ("layout", 1, "image 1: cannot be read\n" + front % ("image", "layout", "it is an OCI layout; "
                                                             "`strata-layers LAYOUT FOLDER` makes images of its layers")),
        ("cut.romfs", 3, "layer 1 at 00000008: bad full size\n" + front % ("layer", "cut.romfs", cut)),
        ("empty.romfs", 3, "layer 1 at 00000000: too short\n" + front % ("layer", "empty.romfs", "the file is empty")))
    for name, status, lines in wanted:
        hold("of " + name, (status, lines), refused(root, "/srv/" + name))
        done = root.run("mount", "-t", "strata", "/srv/lower.romfs:/srv/" + name, "/mnt")
        hold("by mount, of " + name, (32, lines.replace("strata-mount", "mount.strata")), (done.status, done.err))
    brought = "`strata-layers pull SOURCE %s` brings it there"
    far = "no such file; `strata-layers pull %s NAME` brings it into the store as image:NAME"
    copied = ("no such file; `skopeo copy %s oci:LAYOUT:TAG` makes a layout of it, and `strata-layers pull oci:LAYOUT:TAG NAME` "
              "brings it into the store as image:NAME")
    of_layout = "no such file; /srv/layout is an OCI layout: `strata-layers /srv/layout:1 FOLDER` makes images of its layers"
    for name, why in (("none:1", "no such file, and no such image in /var/lib/strata; " + brought % "none:1"),
                      ("none.romfs", "no such file or directory"), ("/srv/layout:1", of_layout),
                      ("docker://host/app:1", far % "docker://host/app:1"), ("oci:none:1", far % "oci:none:1"),
                      ("docker-daemon:app:1", copied % "docker-daemon:app:1"), ("dir:/srv/folder", copied % "dir:/srv/folder")):
        hold("no file and no image", (1, "image 1: cannot be read\nstrata-mount: image 1 is %s: %s\n" % (name, why)),
             refused(root, name))
    hold_meant(root, far, copied)
    hold("no image of a name", (1, "strata-mount: none: no such image in /var/lib/strata; %s\n" % brought % "none"),
         refused(root, "image:none"))
    done = root.run("prlimit", "--nofile=20", "strata-mount", *["/srv/lower.romfs"] * 30, "/mnt")
    hold("the status of many files", 1, done.status)
    hold_in("many files", "too many open files: strata keeps one open for each of 30 images, and a few more; `ulimit -n` "
                          "allows 20\n", done.err)
    done = root.run("strata-mount", *["/srv/lower.romfs"] * 129, "/mnt")
    hold("129 images", (3, "layers: 129, allowed 1 to 128"), (done.status, done.err.splitlines()[0]))
    hold_in("129 images", "strata-mount: 129 images were named, and at most 128 can be stacked", done.err)
    done = root.run("strata-mount", "/srv/lower.romfs", "/srv")
    hold("an image below the folder", (1, "strata-mount: /srv/lower.romfs: this image is in the directory that it would be mounted "
                                          "on\n"), (done.status, done.err))
    return ("missing, no image of the store, a folder, cut off, empty, too many open, 129 images, one below the folder; by "
            "strata-mount and by mount")


def hold_meant(root, far, copied):
    """Holds what is said of a word of mount(8) that was split at its colons, and of `image:` before what is pulled."""
    split = "no such files (colons separate images); for an image of the store say image:%s"
    archive = "docker-archive:/srv/lower.romfs"
    for word, why in (("docker://host/app:1", far % "docker://host/app:1"), ("oci:none:1", far % "oci:none:1"),
                      (archive, copied % archive), ("none:1", split % "none:1")):
        done = root.run("mount", "-t", "strata", word, "/mnt")
        hold("mount " + word, (32, "mount.strata: %s: %s\n" % (word, why)), (done.status, done.err))
    named = far.replace("no such file", "no name of an image") % "docker://host/app:1"
    hold("image:docker://", (1, "strata-mount: docker://host/app:1: %s\n" % named), refused(root, "image:docker://host/app:1"))
    done = root.run("mount", "-t", "strata", "/srv/none.romfs:none:1", "/mnt")
    hold("files that are missing", (32, "image 0: cannot be read"), (done.status, done.err.splitlines()[0]))


def not_permitted(root):
    """A file that the user may not read."""
    root.needs("fusermount3", "setpriv")
    root.install()
    other = user(root)
    os.chmod("/srv/upper.romfs", 0o600)
    os.mkdir("/mnt/other")
    os.chown("/mnt/other", OTHER, OTHER)
    done = root.run(*other, "strata-mount", "/srv/lower.romfs", "/srv/upper.romfs", "/mnt/other")
    hold("not permitted", (1, "image 1: cannot be read\nstrata-mount: image 1 is /srv/upper.romfs: permission denied\n"),
         (done.status, done.err))
    put("/etc/fuse.conf", b"")
    done = root.run(*other, "strata-mount", "-o", "allow_other", "/srv/lower.romfs", "/mnt/other")
    hold("the status of allow_other", 1, done.status)
    hold_in("allow_other", "user_allow_other", done.err.splitlines()[0])
    if "without modes" in done.err:
        raise Failed("what is refused is warned of: %s" % done.err)
    hold("mounts", [], places())
    return "said to a user who may not read an image, or may not let others in"


def device(root):
    """A device that the user may not open: a device file of mode 600 over it; and another device over it."""
    root.needs("fusermount3", "setpriv", "unshare")
    root.install()
    other = user(root)
    os.mkdir("/mnt/other")
    os.chown("/mnt/other", OTHER, OTHER)
    os.mknod("/tmp/closed", 0o600 | stat.S_IFCHR, os.stat("/dev/fuse").st_rdev)
    mount("/tmp/closed", "/dev/fuse", None, BIND)
    words = (*other, "strata-mount", "/srv/lower.romfs", "/mnt/other")
    hold_closed(root.run(*words))
    hold_closed(root.run(*other, "unshare", "-rm", *words[len(other):]))
    while helper := shutil.which("fusermount3"):
        os.unlink(helper)
    hold_closed(root.run(*words))
    mount("/dev/null", "/dev/fuse", None, BIND)
    line = "strata-mount: /dev/fuse: not FUSE's device, which root makes by `mknod -m 666 /dev/fuse c 10 229`\n"
    for who in ((), other):
        done = root.run(*who, "strata-mount", "/srv/lower.romfs", "/mnt/other")
        hold("another device", (1, line), (done.status, done.err))
    return "said to a user who may not open /dev/fuse, with and without fusermount3, and where it is another device"


def hold_closed(done):
    """Holds what is said to a user who may not open the device."""
    hint = ("this user may not open it, nor may fusermount3 for this user: `chmod 666 /dev/fuse` as root lets all users "
            "mount, as udev does")
    lines = "strata-mount: /dev/fuse: Permission denied\nstrata-mount: %s\n" % hint
    hold("the device", (1, lines), (done.status, done.err))


def archive(names):
    """The bytes of an archive of tar with files of these names."""
    held = io.BytesIO()
    with tarfile.open(fileobj=held, mode="w") as out:
        for name in names:
            out.addfile(tarfile.TarInfo(name))
    return held.getvalue()


# how archives become images, by their packing
UNPACKS = {"gzip": "gzip -dc %s | strata-layers image - IMAGE", "zstd": "strata-layers image - IMAGE < %s",
           "xz": "xz -dc %s | strata-layers image - IMAGE", "bzip2": "bzip2 -dc %s | strata-layers image - IMAGE"}


def packed(how, data):
    """Data compressed."""
    module = {"gzip": gzip, "xz": lzma, "bzip2": bz2}.get(how)
    if module is not None:
        return module.compress(data)
    return subprocess.run([how, "-c"], input=data, stdout=subprocess.PIPE, check=True).stdout


def at(place, letters):
    """Bytes with these letters at a place."""
    return bytes(place) + letters + bytes(2048)


def kinds(root):
    """Files of other kinds, by the letters that their formats put at their places, are named, each with what to do."""
    root.install()
    with open("/srv/lower.romfs", "rb") as it:
        romfs = it.read()
    packings = [how for how in UNPACKS if how != "zstd" or shutil.which(how)]
    # gzip: RFC 1952; zstd: RFC 8878; squashfs, erofs, ext4: the kernel's include/uapi/linux/magic.h and its places of
    # superblocks; ELF: elf(5); containers: the OCI image layout and what `docker save` writes
    wanted = (
        *((packed(how, romfs), "compressed with %s: unpack it with `%s -dc %%s > IMAGE`, which is a romfs image\n" % (how, how))
          for how in packings),
        *((packed(how, archive(["a"])), "compressed with %s: it contains a tar archive: `%s` makes an image of it\n"
           % (how, UNPACKS[how])) for how in packings),
        (at(0, bytes.fromhex("28b52ffd")), "compressed with zstd: unpack it with `zstd -dc %s > IMAGE`"),
        (at(0, b"hsqs"), "a squashfs image; strata serves romfs: `unsquashfs -d FOLDER %s`"),
        (at(1024, struct.pack("<I", 0xE0F5E1E2)), "an erofs image; strata serves romfs: `fsck.erofs --extract=FOLDER %s`"),
        (at(1024 + 56, struct.pack("<H", 0xEF53)), "an ext4 image; strata serves romfs: "),
        (archive(["bin/sh"]), "a tar archive: `strata-layers image - IMAGE < %s` makes an image of it"),
        (archive(["oci-layout", "index.json"]), "an archived container image: `skopeo copy oci-archive:%s oci:LAYOUT:TAG`"),
        (archive(["a/layer.tar", "manifest.json"]), "an archived container image: `skopeo copy docker-archive:%s "),
        (at(0, b"\x7fELF"), "a program or library (ELF), not an image"),
        (at(0, b"Hello"), "a romfs image begins with `-rom1fs-`"))
    path = "/srv/a file"
    for data, words in wanted:
        put(path, data)
        status, told = refused(root, path)
        hold("the status and strata's line: %s" % words, (3, NOT_ROMFS), (status, told.splitlines(True)[0]))
        hold_in("a file", "strata-mount: layer 1 is /srv/a\\20file: ", told)
        hold_in("a file", words.replace("%s", "'/srv/a file'"), told)
    return "%d kinds of files, each named with what to do" % len(wanted)


def rules(root):
    """Each rule of images has a sentence, and the one that is broken stands behind its line."""
    with open(RULE, encoding="utf-8") as it:
        texts = re.findall(r'Rule::\w+ => "([^"]+)"', it.read())
    hold("rules with a sentence", texts, list(RULES))
    root.install()
    with open("/srv/lower.romfs", "rb") as it:
        data = bytearray(it.read())
    place = data.find(b"hostname")
    changed = bytes(data[:place + 3]) + b"X" + bytes(data[place + 4:])
    status, told = refused(root, put("/srv/changed.romfs", changed))
    hold("a sum", (3, "layer 1 at 0000000c: bad sum\nstrata-mount: layer 1 is /srv/changed.romfs: the checksum of the first "
                      "512 bytes is wrong: they were changed after the image was made; the file is damaged or was badly made: "
                      "make it again\n"), (status, told))
    return "%d rules, each with a sentence" % len(texts)


def dashes(root):
    """Names that begin with a dash, behind `--`."""
    root.install()
    os.rename("/srv/lower.romfs", "/srv/-x.romfs")
    os.mkdir("/srv/-mnt")
    root.good("strata-mount", "--background", "--", "-x.romfs", "upper.romfs", "-mnt", cwd="/srv")
    hold("a file", "beacon\n", root.good("cat", "/srv/-mnt/etc/hostname"))
    root.good("umount", "/srv/-mnt")
    hold("nothing but an image", 2, root.run("strata-mount", "--", "-x.romfs", cwd="/srv").status)
    if "-x.romfs" in root.run("strata-mount", "-x.romfs", "-mnt", cwd="/srv").out:
        raise Failed("taken as a name without --")
    return "-x.romfs and a folder -mnt behind --"
