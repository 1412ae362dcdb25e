"""What each verb of strata-layers is asked: tables of words, as argparse takes them, and a reader
of what users mostly write, without argparse, which takes longer to load than a small image."""
from strata_format.refused import Refused
from strata_format.words import Reader, WrongWords


def platform_asked(text):
    """The platform that a word says."""
    from strata_layers.layouts import platform_said
    return platform_said(text)


def platform_or_all(text):
    return text if text == "all" else platform_asked(text)


SWITCH = "store_true"
PLATFORM = "linux/ARCHITECTURE[/VARIANT]; by default this machine's"
LEAVE_OUT = ("--leave-out", {
    "action": SWITCH, "help": "leave out entries that romfs cannot hold, and name them"})
FAIL_ON_LOST = ("--fail-on-lost", {
    "action": SWITCH, "help": "fail if anything is lost"})
NO_XATTRS = ("--no-xattrs", {
    "action": SWITCH, "help": "leave out extended attributes, with a line that counts them"})
STORE = ("--store", {"metavar": "DIR", "help": "where layers are kept (default: %(default)s)"})
NAME = ("name", {"metavar": "NAME[:TAG]"})
# options, and behind them what has no name of its own
WORDS = {
    "image": [LEAVE_OUT, FAIL_ON_LOST, NO_XATTRS, ("--upper", {
        "action": SWITCH, "help": "FOLDER is the upper directory of an overlayfs mount: convert its"
                                  " whiteouts and opaque directories"}),
        ("folder", {"metavar": "FOLDER|-"}), ("image", {"metavar": "IMAGE"})],
    "convert": [STORE, LEAVE_OUT, FAIL_ON_LOST, NO_XATTRS, ("--platform", {
        "metavar": "PLATFORM", "type": platform_or_all, "help": PLATFORM + "; all for every one"}),
        ("--compress", {"dest": "packing", "choices": ("gzip", "zstd"), "default": "",
                        "help": "compress layers; pull decompresses them once"}),
        ("--tar", {"action": SWITCH,
                   "help": "write each layer as a tar archive of its image, which containerd pulls"
                           " and strata-snapshotter takes"}),
        ("layout", {"metavar": "LAYOUT[:TAG]"}), ("new_layout", {"metavar": "LAYOUT2[:TAG2]"})],
    "pull": [STORE, LEAVE_OUT, FAIL_ON_LOST, NO_XATTRS, ("--platform", {
        "metavar": "PLATFORM", "type": platform_asked, "help": PLATFORM}),
        ("source", {"metavar": "SOURCE", "help": "oci:LAYOUT[:TAG] or docker://HOST/NAME[:TAG]"}),
        ("name", {"metavar": "NAME[:TAG]", "nargs": "?"})],
    "images": [STORE], "verify": [STORE], "prune": [STORE], "remove": [STORE, NAME],
    "config": [STORE, NAME, ("--bwrap", {
        "dest": "form", "action": "store_const", "const": "bwrap",
        "help": "print a command of bwrap, with the OPTIONs after NAME, and the command after --"
                " instead of the image's own"}),
        ("--podman", {"dest": "form", "action": "store_const", "const": "podman",
                      "help": "print podman run's arguments, before --rootfs"}),
        ("--as-caller", {
            "action": SWITCH, "help": "with --bwrap: keep your own rights, under the number of the"
                                      " image's user"}),
        ("options", {"metavar": "OPTION", "nargs": "...",
                     "help": "an option of bwrap, such as --ro-bind /mnt /"})],
    "attributes": [FAIL_ON_LOST, NO_XATTRS, ("folder", {"metavar": "FOLDER"}),
                   ("image", {"metavar": "IMAGE"})],
    "seal": [("--hash-alg", {
        "dest": "algorithm", "choices": ("sha256", "sha512"), "default": "sha256",
        "help": "the algorithm of the digests (default: %(default)s)"}),
        ("images", {"metavar": "IMAGE", "nargs": "+"})],
    "podman": [STORE, NAME, ("folder", {"metavar": "DIR"}), ("--layers", {
        "action": SWITCH, "help": "make an additional layer store: podman pull then fetches no layer"
                                  " of the image"})],
}
SEVERAL, MAYBE = ("...", "+"), "?"


def field_of(name, how):
    return how.get("dest", name.lstrip("-").replace("-", "_"))


class Asked:
    """What a verb is asked, by fields."""

    def __init__(self, words):
        for name, how in words:
            unsaid = False if "action" in how else None
            setattr(self, field_of(name, how), how.get("default", unsaid))


def read(verb, words):
    """What words ask of a verb; None where argparse is to say what is wrong with them, or to help:
    to load it takes longer than a small image."""
    options = [it for it in WORDS[verb] if it[0].startswith("-")]
    others = [it for it in WORDS[verb] if not it[0].startswith("-")]
    least = sum(how.get("nargs") != MAYBE for _, how in others)
    try:
        reader = reader_of(options).read(words)
        if any(how.get("nargs") in SEVERAL for _, how in others):
            return None
        if not least <= len(reader.names) <= len(others):
            return None
        return filled(Asked(WORDS[verb]), reader, options, others)
    except (WrongWords, Refused):
        return None


def reader_of(options):
    flags = {name: field_of(name, how) for name, how in options if "action" in how}
    valued = {name: field_of(name, how) for name, how in options if "action" not in how}
    return Reader(flags, valued)


def has_name(options, words):
    """Whether a name is among words: what is no option of the verb stands behind one."""
    try:
        return bool(reader_of(options).read(words).names)
    except WrongWords:
        return True


def filled(asked, reader, options, others):
    """The same with what was read; Refused where a value is none that an option takes."""
    for (name, how), value in zip(others, reader.names):
        setattr(asked, field_of(name, how), value)
    for name, how in options:
        said = reader.said.get(field_of(name, how))
        if said is True:
            setattr(asked, field_of(name, how), True)
        elif said is not None:
            setattr(asked, field_of(name, how), checked(how, said[-1]))
    return asked


def checked(how, value):
    if value not in how.get("choices", [value]):
        raise Refused(value)
    return how.get("type", str)(value)
