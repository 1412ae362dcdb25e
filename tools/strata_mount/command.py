"""Mounts romfs images, the lowest first: tools/mount.py [OPTIONS] IMAGE.. DIR, installed as
strata-mount

An IMAGE is a file, or else the name of a container image in the store of strata-layers
(image:NAME:TAG, or NAME:TAG where no such file is there), which stands for its layers.

It mounts an open /dev/fuse on DIR, by mount(2) where it may and else by fusermount3, and starts
`strata serve --device` with it as standard input and output: no byte of a request or reply comes by
here, but with --debug or --stats. The mount is ro, nosuid, nodev and default_permissions; the words
of -o come after these. It waits for the unmount (umount DIR, fusermount3 -u DIR), or
returns once the mount answers (--background). SIGINT and SIGTERM take the mount away, and so does
strata's end.

Status: 0 after an unmount, 1 if nothing can be mounted, 2 for wrong arguments, 130 if
--background was interrupted before the mount answered; else strata's own, with its line.
"""
import _signal as signal
import os

from strata_format import ends
from strata_format.refused import one_line
from strata_format.version import version
from strata_mount.mounting import attempt
from strata_mount.options import Options, Wrong, digest_of
from strata_mount.plan import Plan
from strata_format.words import Reader, WrongWords

FLAGS = {"-h": "help", "--help": "help", "--background": "background", "--strict": "strict",
         "--replace": "replace", "--share": "share", "--print": "is_printed", "--list": "list",
         "--json": "json", "--verify": "verify", "-d": "debug", "--debug": "debug",
         "--version": "version"}
VALUED = {"-o": "o", "--digest": "digests", "--store": "store", "--stats": "stats", "--strata": "program"}
REPEATED = ("o", "digests")
USAGE = "usage: %s [OPTIONS] IMAGE.. DIR\n"
HELP = """
Mounts stacked romfs images, lowest first.

positional arguments:
  IMAGE.. DIR       images, lowest first, or image:NAME:TAG
                    or image:NAME@sha256:MANIFEST, and a
                    directory; after -- names may begin
                    with -

options:
  -h, --help        show this help message and exit
  --background      return once the mount answers
  -o OPTIONS        mount options: allow_other, noexec,
                    max_read=N, ..; strata's: strict, whole,
                    workers=N, readers=N, uid=N, gid=N,
                    share, stack, caps, modeless, sealed,
                    unsealed, digest=DIGEST
  --digest DIGEST   accept an image only with this fs-verity
                    digest; one for each layer in order, or
                    none; - accepts any image
  --strict          verify the checksum of every header, too
  --replace         unmount a mount of strata at DIR first
  --share           one mount for all who ask for the same
                    images and options, in the background;
                    DIR shows it
  --print           with --share and without DIR: print a
                    directory that shows it
  --list            print all mounts with images, process,
                    memory and age
  --json            with --list: print JSON
  --store DIR       look for container images in this store
  --verify          first verify the digests of the store's
                    layers
  -d, --debug       print each request and reply on standard
                    error
  --stats FILE      count requests; FILE is written on
                    SIGUSR1 and at the end
  --strata PROGRAM  start PROGRAM instead of the installed
                    strata
  --version         print the version

DIR shows the stacked tree until `umount DIR`, or
`fusermount3 -u DIR` for users who are not root.
"""
WRONG_WORDS = 2
# so many characters of a name stand in the table of mounts
SOURCE_MOST = 1000


def plan_of(read, name):
    """The plan that arguments as they were read say."""
    if "json" in read.said:
        raise WrongWords("argument --json: only with --list")
    said = {field: it if it is True else it[-1] for field, it in read.said.items() if field not in REPEATED}
    plan = Plan(name=name, digests=digests_of(read.said.get("digests", [])), **said)
    try:
        options = Options(",".join(read.said.get("o", [])))
    except Wrong as wrong:
        raise WrongWords("argument -o: %s" % wrong) from None
    if plan.digests and options.digests:
        raise WrongWords("argument --digest: not with -o digest")
    plan.settle(options)
    if plan.share and plan.is_relayed():
        raise WrongWords("argument --share: not with --debug or --stats")
    if plan.debug and plan.background:
        raise WrongWords("argument -d/--debug: not with --background")
    if plan.is_printed:
        hold_printed(plan, read.names)
        plan.images = read.names
    else:
        if len(read.names) < 2:
            missing = "DIR or an image is" if read.names else "IMAGE.. and DIR are"
            raise WrongWords(missing + " missing")
        plan.images, plan.folder = read.names[:-1], read.names[-1]
    plan.source = source_of(plan.images)
    return plan


def digests_of(words):
    """The digests that --digest says."""
    try:
        return [digest_of(word) for word in words]
    except Wrong as wrong:
        raise WrongWords("argument --digest: %s" % wrong) from None


def hold_printed(plan, names):
    """Looks that --print stands where it says something."""
    if not plan.share:
        raise WrongWords("argument --print: only with --share")
    if not names:
        raise WrongWords("IMAGE.. are missing")


def source_of(names):
    """What the table of mounts says of images: the lowest one's name, and how many lie on it."""
    first, *upper = names
    if not first.startswith("image:") and os.path.lexists(first):
        try:
            first = os.path.abspath(first)
        except OSError:
            # a working folder that has no path here, as after umount -l; attempt says so
            pass
    return first[:SOURCE_MOST] + ("+%d" % len(upper) if upper else "")


def main(words, name):
    # until it mounts there is nothing to unmount
    signal.signal(signal.SIGINT, signal.SIG_DFL)
    ends.begin()
    try:
        read = Reader(FLAGS, VALUED).read(words)
        if "help" in read.said:
            return ends.tell(name, USAGE % name + HELP)
        if "version" in read.said:
            return ends.tell(name, "%s %s\n" % (name, version()))
        if "list" in read.said:
            if read.names:
                raise WrongWords("argument --list: not with IMAGE.. or DIR")
            from strata_mount import listing
            return ends.tell(name, listing.text("json" in read.said))
        plan = plan_of(read, name)
    except WrongWords as wrong:
        ends.write(USAGE % name + "%s: error: %s\n" % (name, one_line(str(wrong))))
        return WRONG_WORDS
    return ends.leave(attempt(plan))
