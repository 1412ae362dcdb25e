"""Mounts as mount(8) asks for it: mount.strata LOWER[:UPPER].. DIR [-sfnv] [-o OPTIONS] [-t TYPE]

`mount -t strata`, `mount -t fuse.strata` and lines of /etc/fstab come by here. The images stand in
one word, the lowest first, with a colon between them; `\\:` is a colon in a name, and `\\\\` a
backslash. `image:NAME:TAG` is a container image of the store of strata-layers. The mount is as
strata-mount makes it in the background, always read-only, and its source is that word, so that
mount(8) sees that it is mounted already.

It runs as root: what it starts are the program beside which it is installed, and fusermount3 in the
system's own folders. Nothing of the environment is left for them. Status, as mount(8) has it: 0, 1
for the words, 8 for an interrupt, 32 where nothing was mounted.
"""
import _signal as signal
import os

from strata_format import ends
from strata_format.refused import one_line
from strata_format.version import version
from strata_mount import mounting
from strata_mount.options import Options, Wrong
from strata_mount.plan import Plan
from strata_mount.preconditions import find_images, hold_digests, hold_folder, hold_here, hold_images, hold_names
from strata_format.words import Reader, WrongWords

PATH = "/usr/sbin:/usr/bin:/sbin:/bin"
SOURCE_MOST = 4095
WRONG_WORDS, INTERRUPTED, NOT_MOUNTED = 1, 8, 32


FLAGS = {"-h": "help", "--help": "help", "-s": "sloppy", "-f": "fake", "-n": "n", "-v": "verbose",
         "--version": "version"}
VALUED = {"-o": "o", "-t": "t"}
HELP = """\
usage: %s LOWER[:UPPER].. DIR [-sfnv]
                    [-o OPTIONS] [-t TYPE]

Mounts romfs images for mount(8).

positional arguments:
  LOWER[:UPPER].. DIR  images and directory

options:
  -h, --help           show this help message and exit
  -s                   ignore unknown options
  -f                   only check that the images exist
  -n                   no effect
  -v                   print what is mounted
  -o OPTIONS           strict, whole, workers=N, .., and
                       options of fstab
  -t TYPE              strata or fuse.strata
  --version            print the version
"""


def names_of(word):
    """The paths in a word, between which colons stand."""
    names, name, at = [], "", 0
    while at < len(word):
        if word[at] == "\\" and word[at + 1:at + 2] in (":", "\\"):
            at += 1
            name += word[at]
        elif word[at] == ":":
            names.append(name)
            name = ""
        else:
            name += word[at]
        at += 1
    names.append(name)
    if "" in names:
        raise Wrong("%s: an image's name is empty" % word)
    return names


def word_of(names):
    """The word that says these paths, absolute."""
    hold_here(names)
    return ":".join(os.path.abspath(name).replace("\\", "\\\\").replace(":", "\\:") for name in names)


def plan_of(read, name):
    """The plan that mount(8)'s words say."""
    if len(read.names) != 2:
        raise WrongWords("LOWER[:UPPER].. and DIR are required")
    spec, folder = read.names
    try:
        options = Options(",".join(read.said.get("o", [])))
        if options.unknown and "sloppy" not in read.said:
            raise Wrong("-o: unknown: %s" % ", ".join(options.unknown))
    except Wrong as wrong:
        # by that `mount -a` tells which line it is
        raise Wrong("%s: %s" % (folder, wrong)) from None
    # mount(8) says rw wherever no ro was said; the tree is never written
    options.mount = [word for word in options.mount if word != "rw" and word not in options.unknown]
    is_stored = spec.startswith("image:")
    names = [spec] if is_stored else names_of(spec)
    source = spec if is_stored or all(map(os.path.isabs, names)) else word_of(names)
    if len(os.fsencode(source)) > SOURCE_MOST:
        raise Wrong("the images' names have more than %d bytes together, the limit for the source of a mount" % SOURCE_MOST)
    plan = Plan(name=name, images=names, folder=folder, background=True, may_replace=False, source=source, is_of_fstab=True,
                word=None if is_stored else spec, joined=word_of)
    plan.settle(options)
    return plan


def looked_at(plan):
    """Looks at all that a mount needs, and mounts nothing."""
    from strata_format import image_files
    try:
        hold_folder(plan)
        find_images(plan)
        hold_digests(plan)
        hold_names(plan)
        hold_images(plan)
        for path in plan.files():
            file = image_files.opened(path)
            if file is not None:
                file.close()
        return 0
    except OSError as fault:
        plan.say_fault(fault)
        return NOT_MOUNTED


def mounted(plan):
    """Mounts by a plan; the status in mount(8)'s manner."""
    try:
        status = mounting.attempt(plan)
    except KeyboardInterrupt:
        return INTERRUPTED
    except SystemExit:
        return NOT_MOUNTED
    return {0: 0, mounting.INTERRUPTED: INTERRUPTED}.get(status, NOT_MOUNTED)


def main(words, name="mount.strata"):
    # until it mounts there is nothing to unmount
    signal.signal(signal.SIGINT, lambda *_: os._exit(INTERRUPTED))
    ends.begin()
    os.environ.clear()
    os.environ["PATH"] = PATH
    try:
        read = Reader(FLAGS, VALUED).read(words)
        if "help" in read.said:
            return ends.tell(name, HELP % name)
        if "version" in read.said:
            return ends.tell(name, "%s %s\n" % (name, version()))
        plan = plan_of(read, name)
    except (Wrong, WrongWords) as wrong:
        ends.write("%s: %s\n" % (name, one_line(str(wrong))))
        return WRONG_WORDS
    except OSError as fault:
        Plan(name=name).say_fault(fault)
        return NOT_MOUNTED
    if "fake" in read.said:
        return looked_at(plan)
    status = mounted(plan)
    if status == 0 and "verbose" in read.said:
        ends.tell(name, "%s: %s on %s\n" % (name, one_line(plan.source), one_line(plan.folder)), "it is mounted")
    return ends.leave(status)
