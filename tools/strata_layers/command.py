"""Makes a romfs image of each layer of a container image: tools/layers.py LAYOUT[:TAG] FOLDER

LAYOUT is an OCI image layout, as `skopeo copy docker://IMAGE oci:LAYOUT:TAG` or umoci writes it.
FOLDER is created if necessary. It gets 00.romfs, 01.romfs and so on, the lowest layer first, or
nothing; existing images are never overwritten. The command that mounts them is printed. What
romfs cannot hold is reported on standard error, once for each kind. A layout that would lose data
is refused with one line and status 1. Status 2 means a wrong command line.

OPTIONS are --fail-on-lost, to refuse a layout of which anything is lost, --no-xattrs, to leave out
extended attributes, and --leave-out, to leave out entries that romfs cannot hold.

It needs no root and unpacks nothing: file data goes straight from the archive into the image.
Modes, owners and times follow each image, as in strata-attributes(5).
"""
import _signal as signal  # without enum, which takes longer to load than all of this
import itertools
import os
import sys

from strata_format import ends
from strata_format.refused import Refused, shown
from strata_format.version import command, version
from strata_format.words import no_option, quoted

VERBS = ("image", "convert", "pull", "images", "verify", "remove", "prune", "config", "attributes",
         "seal", "podman")
# what may stand before a layout, by the fields of Lost
OPTIONS = {"--fail-on-lost": "fails", "--no-xattrs": "bare", "--leave-out": "leaves_out"}
LEFT_OUT = "--leave-out makes it without the entries that romfs cannot hold, and names them"
# a verb that makes no image leaves nothing out
HOLDING_ALL = "attributes", "seal"


def say(line):
    ends.write(line + "\n")


def say_fault(line):
    say("%s: %s" % (command("layers"), line))


def help_text():
    import textwrap
    from strata_layers.verb_help import width_of_help
    name = command("layers")
    lines = ["usage: %s [OPTIONS] LAYOUT[:TAG] FOLDER" % name, "       %s VERB .." % name,
             "       %s -h|--help|-V|--version" % name]
    width = width_of_help()
    verbs = "Each VERB has a --help: %s." % ", ".join(VERBS)
    parts = [verbs, *__doc__.split("\n\n")[1:]]
    text = (textwrap.fill(it, width, break_on_hyphens=False) for it in parts)
    return "\n".join(lines) + "\n\n" + "\n\n".join(text) + "\n"


def wrong_words(words):
    """What is wrong with words that neither begin with a verb nor are a layout and a folder; None where nothing is."""
    if not words:
        return "a verb or LAYOUT[:TAG] FOLDER is missing"
    first, is_there = shown(os.fsencode(words[0])), os.path.lexists(words[0])
    if first.startswith("-") and not is_there:
        return "%s: an option before the verb" % first
    # a path, or a name with a tag, is a layout's that isn't there
    if not {":", "/"} & {*words[0]} and not is_there:
        return "%s: neither a directory nor a verb; the verbs are %s" % (first, ", ".join(VERBS))
    for option in OPTIONS:
        if option in words[1:]:
            return "%s: options stand before LAYOUT[:TAG]" % option
    if len(words) == 1:
        return "FOLDER for the images of %s is missing" % first
    return "%s: unexpected after LAYOUT[:TAG] FOLDER" % shown(os.fsencode(words[2])) if len(words) > 2 else None


def images_of_layout(words, options):
    """`LAYOUT[:TAG] FOLDER`."""
    from strata_layers.image_folder import write_images
    from strata_layers.lost import Lost
    lost = Lost(**{OPTIONS[it]: True for it in options})
    paths = write_images(*words, lost)
    for line in lost.lines():
        say(line)
    ends.put(os.fsencode(quoted([command("mount"), *map(no_option, paths), "DIR"])) + b"\n", "the images are made")
    return 0


def run(words):
    first = words[0] if words else None
    if first in ("-V", "--version"):
        ends.put(b"strata-layers %s\n" % version().encode())
        return 0
    if first in ("-h", "--help"):
        ends.put(help_text().encode())
        return 0
    if first in VERBS:
        from strata_layers import verbs
        return verbs.run(first, words[1:])
    options = list(itertools.takewhile(OPTIONS.__contains__, words))
    words = words[len(options):]
    wrong = wrong_words(words)
    if wrong is not None:
        say_fault("%s; see --help" % wrong)
        return 2
    return images_of_layout(words, options)


def main(words):
    ends.begin()
    # an end by a signal removes what was begun; under nohup the end of a terminal is none
    ending = [signal.SIGTERM] + [signal.SIGHUP] * (signal.getsignal(signal.SIGHUP) != signal.SIG_IGN)
    for number in ending:
        signal.signal(number, lambda number, _: sys.exit(128 + number))
    try:
        return run(words)
    except Refused as refused:
        for line in refused.lines():
            say_fault(line)
        if refused.not_held and words[0] not in HOLDING_ALL:
            say_fault(LEFT_OUT)
    except OSError as fault:
        where = shown(fault.filename if isinstance(fault.filename, (str, bytes)) else words[-1])
        say_fault("%s: %s" % (where, (fault.strerror or str(fault)).lower()))
    except MemoryError:
        # names are held, and a small archive may have very many
        say_fault("out of memory")
    except KeyboardInterrupt:
        return 130
    return 1
