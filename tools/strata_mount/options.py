"""The words of `-o`: those of fstab and mount(8), which say nothing of a mount, those of the kernel, and those of strata."""
# what is set and cleared among the flags of mount(2); the kernel takes its other words as text
SETS = {"ro": 1, "nosuid": 2, "nodev": 4, "noexec": 8, "noatime": 1024}
CLEARS = {"rw": 1, "suid": 2, "dev": 4, "exec": 8, "atime": 1024}
KERNEL = ("allow_other", "default_permissions", "max_read", "context", "fscontext", "defcontext", "rootcontext")
# when and by whom a line of fstab is mounted is said to mount(8) and to systemd; what is said of writes and of times of
# access says nothing of a tree that is never written
IGNORED = (
    "defaults", "auto", "noauto", "user", "nouser", "users", "nousers", "owner", "noowner", "group", "nogroup", "nofail",
    "_netdev", "nonempty", "comment", "uhelper", "helper", "async", "sync", "dirsync", "relatime", "norelatime",
    "strictatime", "nostrictatime", "diratime", "nodiratime", "lazytime", "nolazytime", "iversion", "noiversion", "mand",
    "nomand", "silent", "loud")
IGNORED_FRONTS = ("x-", "X-")
# what is no word of -o, since strata-mount says it itself, or it is fusermount3's own affair
OWN = ("fd", "rootmode", "user_id", "group_id", "fsname", "subtype", "auto_unmount")
# strata's own words, each with the least and the most of the number behind it, or None where it stands alone
SEVERAL, OWNERS = (1, 64), (0, 2 ** 32 - 1)
STRATA = {"strict": None, "whole": None, "modeless": None, "workers": SEVERAL, "readers": SEVERAL,
          "uid": OWNERS, "gid": OWNERS, "share": None, "stack": None, "caps": None,
          "sealed": None, "unsealed": None}
# the hex digits of a digest by its algorithm; and what stands for one
DIGITS = {"sha256": 64, "sha512": 128}
HEX = frozenset("0123456789abcdefABCDEF")
NOT_SEALED = "-"


class Wrong(Exception):
    """What is wrong with a word, as one line."""


class Options:
    """What `-o` says: words for mount(2), strata's own with their numbers, the images' digests in order, and words that nobody
    knows."""

    def __init__(self, text):
        self.mount, self.strata, self.digests, self.unknown = [], {}, [], []
        for word in words_in(text):
            self.add(word)
        if "sealed" in self.strata and "unsealed" in self.strata:
            raise Wrong("sealed: not with unsealed")

    def add(self, word):
        name, equals, value = word.partition("=")
        if name == "remount":
            raise Wrong("a mount of strata cannot be changed (remount): unmount it and mount again")
        if name in OWN:
            raise Wrong("not allowed: %s" % ", ".join(OWN))
        if name == "digest":
            self.digests.append(digest_of(value))
        elif name in STRATA:
            self.strata[name] = number_of(name, value, *STRATA[name]) if STRATA[name] else bare(name, equals)
        elif name not in IGNORED and not name.startswith(IGNORED_FRONTS):
            self.mount.append(word)
            if name not in (*SETS, *CLEARS, *KERNEL):
                self.unknown.append(word)

    def owner(self):
        """`UID:GID` where one of them is said."""
        if not {"uid", "gid"} & set(self.strata):
            return None
        return "%d:%d" % (self.strata.get("uid", 0), self.strata.get("gid", 0))


def words_in(text):
    """The words that stand between commas, but for those in quotation marks."""
    front, *parts = text.split('"')
    found = front.split(",")
    for at, part in enumerate(parts):
        if at % 2 == 0:
            # within quotation marks, of which the last may be missing
            found[-1] += '"' + part + '"' * (at + 1 < len(parts))
        else:
            first, *others = part.split(",")
            found[-1] += first
            found += others
    return [word for word in found if word]


def digest_of(word):
    """A word that is a digest, or says that an image has none."""
    algorithm, _, digits = word.partition(":")
    is_digest = len(digits) == DIGITS.get(algorithm) and HEX.issuperset(digits)
    if not is_digest and word != NOT_SEALED:
        raise Wrong("a digest is sha256: with 64 hex digits, sha512: with 128, or -")
    return word


def bare(name, equals):
    """A word that must stand alone."""
    if equals:
        raise Wrong("%s takes no value" % name)
    return True


def number_of(name, value, least, most):
    """The number behind a word. Python reads no number of very many digits."""
    digits = value.lstrip("0") or "0"
    is_number = value.isascii() and value.isdigit() and len(digits) <= len(str(most))
    if not is_number or not least <= int(digits) <= most:
        raise Wrong("%s=N is a number from %d to %d" % (name, least, most))
    return int(digits)
