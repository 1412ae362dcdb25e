"""What is mounted where, and how."""
import os

from strata_format import ends, version
from strata_format.refused import one_line
from strata_format.words import quoted
from strata_mount.options import NOT_SEALED

WORDS = ("ro", "nosuid", "nodev", "default_permissions")
# the most that is read at once where a relay passes replies on in packets
RELAYED_READ = "max_read=131072"
# behind an image's name, the name of its tree
TREE = ".verity"


class Plan:
    """What the words of strata-mount say, or those of the mount helper."""

    # who is called, in messages; the source of the mount
    name, source = "strata-mount", "strata"
    # strata's own program, unless another is named
    program, images, folder = None, (), None
    # what mount(8) was given, where the images are between its colons
    word = None
    words, owner, workers, readers = (), None, None, None
    # of each image in order, or of none; whether each must have one; and whether those that the
    # store says are left out
    digests, is_sealed, is_unsealed = (), False, False
    background = strict = whole = modeless = replace = debug = verify = False
    may_replace, store = True, None
    # one mount for all who ask for the same, of which --print tells the folder; over a mount that
    # stands there; with all that root may do
    share = is_printed = is_stacked = keeps_privileges = False
    # the name of the file in which requests are counted
    stats = None
    # whether a line of fstab says the source, by which mount(8) finds the mount again
    is_of_fstab = False
    # how several images are said
    joined = staticmethod(quoted)
    # open files that mark layers of the store as in use while strata runs
    marks = ()

    def __init__(self, **said):
        # open files of images that the kernel holds to their digests, by the images' numbers
        self.by_kernel = {}
        self.__dict__.update(said)

    def say(self, line):
        ends.write("%s: %s\n" % (self.name, line))

    def say_fault(self, fault):
        """Says what failed, and of which file where one is to blame."""
        where = [] if fault.filename is None else [one_line(os.fsdecode(fault.filename))]
        self.say(": ".join([*where, fault.strerror or str(fault)]))

    def is_relayed(self):
        return self.debug or self.stats is not None

    def hashed(self):
        """The digests to which strata itself holds images, in order; none where it holds no image to
        one."""
        found = [NOT_SEALED if at in self.by_kernel else it for at, it in enumerate(self.digests)]
        return found if any(it != NOT_SEALED for it in found) else []

    def trees(self):
        """The files beside those images that strata holds to a digest, with their trees."""
        return [image + TREE for image, digest in zip(self.images, self.hashed()) if digest != NOT_SEALED]

    def files(self):
        """All files that strata reads."""
        return [*self.images, *self.trees()]

    def opened(self):
        """The names by which strata opens these files: of what the kernel holds to a digest, that of
        the descriptor that was measured."""
        names = map(os.path.abspath, self.files())
        return ["/proc/self/fd/%d" % self.by_kernel[at] if at in self.by_kernel else name
                for at, name in enumerate(names)]

    def passed(self):
        """The descriptors that the server gets."""
        return [*self.marks, *self.by_kernel.values()]

    def seals(self):
        """Of each image by whom it is held to a digest, and to which; None where it isn't."""
        return [None if it == NOT_SEALED else ("the kernel" if at in self.by_kernel else "strata", it)
                for at, it in enumerate(self.digests)]

    def shown_source(self):
        """What the table of mounts shows as the source: with a word if each image is sealed."""
        holders = {None if it is None else it[0] for it in self.seals()}
        if self.is_of_fstab or not holders or None in holders:
            return self.source
        return self.source + (" (sealed by the kernel)" if holders == {"the kernel"} else " (sealed)")

    def settle(self, options):
        """Takes over what -o says."""
        is_said = any(word.partition("=")[0] == "max_read" for word in options.mount)
        relayed = [RELAYED_READ] * (self.is_relayed() and not is_said)
        self.words = [*WORDS, *relayed, *options.mount]
        self.strict = self.strict or "strict" in options.strata
        self.whole = "whole" in options.strata
        self.share = self.share or "share" in options.strata
        # it lasts as long as anybody's folder shows it
        self.background = self.background or self.share
        self.is_stacked, self.keeps_privileges = "stack" in options.strata, "caps" in options.strata
        # whether it is meant that others see images that keep no modes
        self.modeless = "modeless" in options.strata
        self.digests = self.digests or options.digests
        self.is_sealed, self.is_unsealed = "sealed" in options.strata, "unsealed" in options.strata
        self.workers = options.strata.get("workers")
        self.readers = options.strata.get("readers")
        self.owner = options.owner()
        if self.program is None:
            self.program = version.program()
