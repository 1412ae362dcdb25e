"""Help for each verb of strata-layers, and what is wrong with words, by argparse."""
import argparse
import shutil
import sys

from strata_format import ends
from strata_format.refused import Refused, one_line
from strata_format.version import command
from strata_layers.store import default_place
from strata_layers.verb_words import WORDS, has_name

HELP = {
    "image": "Makes a romfs image of a directory, or of a tar archive on standard input (-), with"
             " modes, owners, times, hard links and special files, and prints the command that mounts"
             " it. Replaces an image of that name. The same directory gives the same bytes.",
    "convert": "Writes an image layout whose layers are romfs images, made from those of LAYOUT in"
               " the same order. Layers are made in the store, each once, and copied from there."
               " Prints the name of the new layout in skopeo's form.",
    "pull": "Brings an image into the store, from a layout or, with skopeo, from a registry: only"
            " the missing layers. Layers may be romfs images or archives, which are converted; each"
            " gets an fs-verity tree, and must have the digest that the manifest says."
            " NAME is by default that of the layout's folder, or the image's name in the registry"
            " without the host.",
    "images": "Prints a line for each image: its name, number of layers, their bytes, and the digest"
              " of its manifest.",
    "verify": "Reads all layers and prints a line for each that is missing or has a wrong digest,"
              " which is set aside as DIGEST.damaged, or a wrong tree, which is made again; the status"
              " is then 1.",
    "remove": "Removes the name of an image; prune removes its layers.",
    "prune": "Removes the layers that no image names and no mount uses.",
    "config": "Prints entry point, command, environment, working directory and user of an image,"
              " quoted for the shell; or, for eval, a command of bwrap that runs it as its user,"
              " with these options of bwrap; or arguments for podman run.",
    "attributes": "Adds the modes, owners and times of all files in FOLDER to the image that"
                  " genromfs made of it, or replaces those that were added before.",
    "seal": "Writes the fs-verity tree of each image to IMAGE.verity, as"
            " fsverity digest --out-merkle-tree does, and prints the image's fs-verity digest.",
    "podman": "Makes DIR, which must be new or empty, an additional image store for podman, with one"
              " image of the store; prints the command that mounts its files there, for root or"
              " `podman unshare`; elsewhere it needs user_allow_other in /etc/fuse.conf. With"
              " --layers it becomes an additional layer store, with a mount for each layer.",
}

# no line is wider, as in the help of strata-mount
HELP_WIDTH = 60
# options of one field: of these at most one may be said
CHOSEN = "store_const"
# behind it stands a command
END = "--"


def width_of_help():
    """How wide a help is: at most as the terminal."""
    return min(HELP_WIDTH, shutil.get_terminal_size().columns)


class Parser(argparse.ArgumentParser):
    """Says in one line what is wrong with the words, and helps, or says that nobody takes it."""

    def print_help(self, file=None):
        ends.put(self.format_help().encode())

    def error(self, message):
        ends.write("%s: %s; see --help\n" % (self.prog, one_line(message)))
        sys.exit(2)


def refusing(read):
    """A reader of a value whose Refused argparse tells."""
    def refused_as_wrong(text):
        try:
            return read(text)
        except Refused as refused:
            raise argparse.ArgumentTypeError(str(refused)) from None
    return refused_as_wrong


def parsed(verb, words):
    """What words ask of a verb; an end with help, or with what is wrong."""
    it = Parser(prog="%s %s" % (command("layers"), verb), description=HELP[verb],
                formatter_class=lambda prog: argparse.HelpFormatter(prog, width=width_of_help()))
    table = WORDS[verb]
    is_chosen = any(how.get("action") == CHOSEN for _, how in table)
    chosen = it.add_mutually_exclusive_group() if is_chosen else None
    for name, how in table:
        more = {"type": refusing(how["type"])} if "type" in how else {}
        if name == "--store":
            more["default"] = default_place()
        (chosen if how.get("action") == CHOSEN else it).add_argument(name, **{**how, **more})
    if not is_chosen:
        return it.parse_args(words)
    front, behind = split_command([it for it in table if it[0].startswith("-")], words)
    asked = it.parse_args(front)
    asked.command = behind[1:]
    hold_options(it, asked, behind[:1])
    hold_own(it, asked.options, [name for name, _ in table])
    return asked


def split_command(options, words):
    """The words before the `--` that stands behind a name, and those from there on."""
    ends = (at for at, word in enumerate(words) if word == END)
    at = next((at for at in ends if has_name(options, words[:at])), len(words))
    return words[:at], words[at:]


def hold_options(parser, asked, end):
    """Looks that options of bwrap and a command, and what says how it runs, stand where bwrap is
    asked for."""
    if asked.form == "bwrap":
        if end and not asked.command:
            parser.error("the command after -- is missing")
        return
    behind = asked.options + end
    if behind:
        parser.error("%s: after NAME[:TAG] only options of bwrap are allowed, with --bwrap before it" % behind[0])
    if asked.as_caller:
        parser.error("argument --as-caller: only with --bwrap")


def hold_own(parser, options, names):
    """Looks that none of the verb's own options stands among those of bwrap, nor a command."""
    for word in options:
        if word.partition("=")[0] in ("-h", "--help", *names):
            parser.error("%s: stands before NAME[:TAG], after which are options of bwrap" % word)
    if options and not options[0].startswith("-"):
        parser.error("%s: no option of bwrap; a command stands after --" % options[0])
