"""The verbs of strata-layers: image, convert, pull, images, verify, remove, prune, config,
attributes, seal, podman."""
import _signal as signal
import collections
import os

from strata_format import ends
from strata_format.refused import Refused, bytes_of, seen
from strata_format.version import command
from strata_format.words import no_option, quoted
from strata_layers.lost import Lost
from strata_layers.verb_words import read


# what users other than root need for a mount of podman's
NOT_ROOT = ("run this in `podman unshare`; elsewhere allow_other needs a line user_allow_other in"
            " /etc/fuse.conf\n")


def print_line(text, done=""):
    """Prints a line of what was asked for, or of what is done; OSError where it isn't taken."""
    ends.put(bytes_of(text) + b"\n", done)


def print_strange(text):
    """The same of a stranger's words. On a terminal, which might act on them, what can't be seen is
    shown."""
    print_line(seen(text, "\n\t") if os.isatty(1) else text)


def told(lost):
    for line in lost.lines():
        ends.write(line + "\n")


def store_of(asked, make=False):
    """The store that is meant."""
    from strata_layers.store import Store, default_place
    return Store(asked.store or default_place(), make)


def name_there(store, word):
    """The whole name of an image that is read; where there is none, with what to do."""
    from strata_layers.store import told_verb
    from strata_layers.store_images import NoImage, brought, full_name
    try:
        return full_name(store, word)
    except NoImage as refused:
        why = "%s; %s, and %s prints those there"
        raise Refused(why % (refused, brought(word, store.place), told_verb("images", store.place))) from None


# --- what each verb does: it loads what it needs, as all loads longer than a small image takes ---

def run_image(asked):
    from strata_layers.image_file import write_image_file
    lost = Lost(asked.leave_out, asked.fail_on_lost, asked.no_xattrs)
    write_image_file(asked.folder, asked.image, lost, asked.upper)
    told(lost)
    print_line(quoted([command("mount"), no_option(asked.image), "DIR"]), "the image is made")
    return 0


def run_convert(asked):
    from strata_layers.convert import convert
    from strata_layers.open_layout import open_layout
    layout, tag = open_layout(asked.layout)
    lost, store = Lost(asked.leave_out, asked.fail_on_lost, asked.no_xattrs), store_of(asked, make=True)
    folder, tag = convert(store, layout, tag, asked.new_layout, asked, lost)
    told(lost)
    print_line("oci:%s:%s" % (folder, tag), "the layout is written")
    return 0


def run_pull(asked):
    from strata_layers.layer_order import wrong_order_of
    from strata_layers.pull import pull
    from strata_layers.store import told_verb
    from strata_layers.store_images import image_in, layers_text
    lost, store = Lost(asked.leave_out, asked.fail_on_lost, asked.no_xattrs), store_of(asked, make=True)
    name, count, new = pull(store, asked.source, asked.name, asked.platform, lost)
    told(lost)
    for line in wrong_order_of(image_in(store, name).layers):
        ends.write(line + "\n")
    line = "%s: %s, %d of them new" % (name, layers_text(count), new)
    if new < count:
        line += ", %d not read again (%s does that)" % (count - new, told_verb("verify", store.place))
    print_line(line, "the image is in the store")
    return 0


def run_images(asked):
    from strata_layers.store_upkeep import image_lines
    for line in image_lines(store_of(asked)):
        print_line(line)
    return 0


def run_verify(asked):
    from strata_layers.store_upkeep import verified
    is_right = True
    lines = verified(store_of(asked))
    for line in lines:
        is_right = False
        try:
            print_line(line, "all is verified")
        except OSError:
            # what is damaged is set aside nevertheless
            collections.deque(lines, 0)
            raise
    return 0 if is_right else 1


def run_remove(asked):
    from strata_layers.store_images import remove_image
    store = store_of(asked)
    with store.locked():
        remove_image(store, asked.name)
    return 0


def run_prune(asked):
    from strata_layers.store_images import layers_text
    from strata_layers.store_upkeep import prune
    store = store_of(asked)
    with store.locked():
        count, size, used = prune(store)
    print_line("%s removed, %d bytes; %d %s in use by a mount"
               % (layers_text(count), size, used, "is" if used == 1 else "are"), "the layers are removed")
    return 0


def run_config(asked):
    from strata_layers.image_config import config_lines
    from strata_layers.store_images import image_in
    store = store_of(asked)
    name = name_there(store, asked.name)
    config = image_in(store, name).config
    if asked.form is None:
        for line in config_lines(config):
            print_strange(line)
        return 0
    from strata_layers.image_config import RunConfig
    it = RunConfig(config)
    words, left_out = sandbox_words(store, name, it, asked), it.no_variables()
    if left_out is not None:
        ends.write(left_out + "\n")
    print_strange(quoted(words))
    return 0


def sandbox_words(store, name, it, asked):
    """The words by which bwrap or podman runs an image."""
    from strata_layers.image_config import bwrap_words, podman_words
    from strata_layers.image_users import image_user
    if asked.form == "podman":
        return podman_words(it)
    caller = os.geteuid(), os.getegid()
    user = image_user(store, name, it.user, caller)
    return bwrap_words(it, user, caller, asked)


def run_attributes(asked):
    from strata_layers.folder_attributes import add_attributes
    lost = Lost(False, asked.fail_on_lost, asked.no_xattrs)
    count = add_attributes(asked.folder, asked.image, lost)
    told(lost)
    print_line("%s: attributes of %d files" % (asked.image, count), "the image has them")
    return 0


def run_seal(asked):
    from strata_layers.seal import seal_image
    for image in asked.images:
        print_line("%s %s" % (seal_image(image, asked.algorithm), image), "its tree is written")
    return 0


def run_podman(asked):
    from strata_layers.podman_layers import LayerStore
    from strata_layers.podman_store import ImageStore, new_or_empty
    from strata_layers.store_images import image_in
    store = store_of(asked)
    name = name_there(store, asked.name)
    kind = LayerStore if asked.layers else ImageStore
    folder = os.path.abspath(asked.folder)
    with new_or_empty(folder):
        written = kind(folder, name, image_in(store, name), store).write()
    for images, place in written:
        words = [command("mount"), "--background", "-o", "allow_other,suid,dev", *images, place]
        print_line(quoted(words), "all is written")
    if os.geteuid() != 0:
        ends.write(NOT_ROOT)
    return 0


RUNS = {"image": run_image, "convert": run_convert, "pull": run_pull, "images": run_images,
        "verify": run_verify, "remove": run_remove, "prune": run_prune, "config": run_config,
        "attributes": run_attributes, "seal": run_seal, "podman": run_podman}
# those that only print
PRINTING = "images", "config"


def run(verb, words):
    if verb in PRINTING:
        # who reads no more of what is printed ends it, as he does any other program
        signal.signal(signal.SIGPIPE, signal.SIG_DFL)
    asked = read(verb, words)
    if asked is None:
        from strata_layers.verb_help import parsed
        asked = parsed(verb, words)
    return RUNS[verb](asked)
