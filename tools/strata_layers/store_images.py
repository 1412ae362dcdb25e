"""The images of a store by their names, and the layers of an image for a mount."""
import fcntl
import os

from strata_format.files import names_in
from strata_format.json_text import value_of
from strata_format.progress import Progress
from strata_format.records import record
from strata_format.refused import Refused, shown
from strata_layers.store import DIGEST, Shared, Store, are_digits, default_place, digits_of, file_digits, told_verb

# the letters of names and tags, and which of them don't begin one
ALPHABET = frozenset("ABCDEFGHIJKLMNOPQRSTUVWXYZabcdefghijklmnopqrstuvwxyz0123456789._-")
NOT_FIRST_OF_NAME, NOT_FIRST_OF_TAG = "._-", ".-"
NAME_MOST, TAG_MOST = 120, 128
LATEST = "latest"

# what is known of an image: where it came from, its manifest's digest there, its layers from the
# lowest up, its configuration, and the text of that manifest, if it says the fs-verity digest of
# each layer; else None
StoredImage = record("StoredImage", "source manifest layers config text", defaults=(None,))
# an image of a layer; where a layer takes several, the higher ones are its parts from 1 on. `parent`
# has the digits of the image that it was made to lie on; None where it is the lowest, or not known.
# `verity` is its fs-verity digest; None where it was brought before there were any
StoredLayer = record("StoredLayer", "digits size part parent verity", defaults=(0, None, None))


# before the digest of a manifest
PIN = "@"
# the annotation of a layer in a manifest that says the fs-verity digest of its image
VERITY = "vnd.strata.layer.verity"


# why a manifest says no digests for a mount
UNSEALED = ("says no fs-verity digest of each layer, or was pulled before these were noted; pull again an image"
            " that `strata-layers convert` wrote")
CHANGED = "was changed in the store; pull the image again"


class NoImage(Refused):
    """A store has no image of a name."""


def brought(name, place):
    """What is said of how an image is brought into the store at a place."""
    return "%s brings it there" % told_verb("pull", place, "SOURCE", shown(name))


def is_word(text, not_first):
    """Whether text has letters of names alone, and none of some as its first."""
    return text != "" and ALPHABET.issuperset(text) and text[0] not in not_first


def split_image(word):
    """The name and the tag of `NAME[:TAG]`; the tag is None where there is none."""
    name, colon, tag = word.partition(":")
    is_name = all(is_word(part, NOT_FIRST_OF_NAME) for part in name.split("/"))
    is_tag = is_word(tag, NOT_FIRST_OF_TAG) and len(tag) <= TAG_MOST
    if not is_name or ".." in name or len(name) > NAME_MOST or colon and not is_tag:
        raise Refused("%s: no name of an image; NAME[:TAG] is wanted, of letters, digits, `.`, `_`"
                      " and `-`, and `/` within NAME" % shown(word))
    return name, tag if colon else None


def split_pin(word):
    """The name, and the digest of the manifest, of `NAME[:TAG][@sha256:DIGITS]`; None where there is
    none."""
    name, at, digest = word.partition(PIN)
    if at and not (digest.startswith(DIGEST) and are_digits(digest[len(DIGEST):])):
        raise Refused("%s: behind @ the digest of a manifest is wanted, sha256: with 64 hex digits" % shown(word))
    return name, digest if at else None


def file_name(name, tag):
    return "%s:%s" % (name.replace("/", "%"), tag)


def names(store):
    """The names of all images, as NAME:TAG, in order."""
    found = [it.replace("%", "/") for it in names_in(store.images)]
    return sorted(it for it in found if ":" in it)


def full_name(store, word):
    """The whole name that is meant: without a tag `latest`, or the only tag that there is."""
    name, tag = split_image(word)
    there = [it.rpartition(":")[2] for it in names(store) if it.rpartition(":")[0] == name]
    if tag is None and len(there) > 1 and LATEST not in there:
        raise Refused("%s: which tag? There is %s" % (word, ", ".join(there)))
    if tag is None:
        tag = there[0] if len(there) == 1 else LATEST
    if tag not in there:
        raise NoImage("%s: no such image in %s" % (word, store.name))
    return "%s:%s" % (name, tag)


def image_in(store, word):
    """The image of a name."""
    name, tag = split_image(full_name(store, word))
    value = store.small_json(store.images, file_name(name, tag))
    if value is None:
        raise Refused("%s: no such image in %s" % (word, store.name))
    return image_of_json(value, "%s: %s:%s" % (store.name, name, tag))


def digest_of_text(text):
    """The digest of a manifest by its text."""
    try:
        from _sha256 import sha256  # hashlib has it too, but loads OpenSSL first
    except ImportError:
        try:
            from _sha2 import sha256  # of a newer Python
        except ImportError:
            from hashlib import sha256
    return DIGEST + sha256(text.encode("utf-8", "surrogatepass")).hexdigest()


def pinned_image(store, word):
    """The image that `NAME[:TAG]@DIGEST` means: its manifest has this digest, and its layers have
    the fs-verity digests that this manifest says, whatever else the store says of it."""
    front, digest = split_pin(word)
    name, tag = split_image(front)
    every = [it.rpartition(":") for it in names(store)]
    there = [it for its_name, _, it in every if its_name == name and tag in (None, it)]
    if not there:
        raise NoImage("%s: no such image in %s" % (front, store.name))
    for image in (image_in(store, "%s:%s" % (name, it)) for it in there):
        if image.text is not None and digest_of_text(image.text) == digest:
            return with_digests(image, word)
        if image.manifest == digest:
            raise Refused("%s: its manifest %s" % (word, CHANGED if image.text else UNSEALED))
    raise Refused("%s: the manifest in %s is another, %s" % (word, store.name, image.manifest))


def with_digests(image, word):
    """An image with the fs-verity digests of its layers as its manifest says them."""
    try:
        layers = value_of(image.text.encode())["layers"]
        digests = [DIGEST + digits_of(it["annotations"][VERITY], word) for it in layers]
    except (ValueError, LookupError, TypeError, RecursionError):
        digests = []
    if len(digests) != len(image.layers):
        raise Refused("%s: not a valid manifest" % word)
    return image._replace(layers=[it._replace(verity=digest) for it, digest in zip(image.layers, digests)])


def image_of_json(value, where):
    layers, config = value.get("layers"), value.get("config")
    if not isinstance(layers, list) or not layers or not isinstance(config, dict):
        raise Refused("%s: not a valid description of an image" % where)
    found = [layer_of_json(it, where) for it in layers]
    text = value.get("text")
    return StoredImage(str(value.get("source")), str(value.get("manifest")), found, config,
                       text if isinstance(text, str) else None)


def layer_of_json(value, where):
    said = value if isinstance(value, dict) else {}
    size, part = said.get("size"), said.get("part", 0)
    if not isinstance(size, int) or not isinstance(part, int):
        raise Refused("%s: not a valid description of a layer" % where)
    parent = digits_of(said["parent"], where) if "parent" in said else None
    verity = said.get("verity")
    if verity is not None:
        digits_of(verity, where)
    return StoredLayer(digits_of(said.get("digest"), where), size, part, parent, verity)


def layer_json(layer):
    value = {"digest": "sha256:" + layer.digits, "size": layer.size}
    if layer.part:
        value["part"] = layer.part
    if layer.parent:
        value["parent"] = "sha256:" + layer.parent
    if layer.verity:
        value["verity"] = layer.verity
    return value


def count_of(layers):
    """How many layers these images are of."""
    return sum(it.part == 0 for it in layers)


def layers_text(count):
    return "1 layer" if count == 1 else "%d layers" % count


def put_image(store, word, image):
    """Gives an image its name in the store; one of this name that was there is replaced."""
    name, tag = split_image(word)
    import json
    value = {**image._asdict(), "layers": [layer_json(it) for it in image.layers]}
    if image.text is None:
        del value["text"]
    data = json.dumps(value, indent=1).encode()
    store.write_small(store.images, file_name(name, tag or LATEST), data)


def remove_image(store, word):
    name, tag = split_image(full_name(store, word))
    os.unlink(file_name(name, tag), dir_fd=store.images)


# --- mounts ---

def held_layer(store, layer, word, heard):
    """An open file of a layer, with a lock on it that lasts as long as any process has this file
    open. Its digest is looked at where `heard` is given."""
    number = store.open_layer(layer.digits)
    missing = "%s: its layer sha256:%s is missing; pull it again" % (word, layer.digits)
    if number is None:
        raise Refused(missing)
    try:
        fcntl.flock(number, fcntl.LOCK_SH)
        found = os.fstat(number)
        # prune may have removed it before it was locked
        if found.st_nlink == 0:
            raise Refused(missing)
        if found.st_size != layer.size or heard and file_digits(number, heard) != layer.digits:
            where = shown(os.fsencode(store.path_of(layer.digits)))
            raise Refused("%s: its layer %s has other bytes than its digest says; run %s, and pull it again"
                          % (word, where, told_verb("verify", store.place)))
    except BaseException:
        os.close(number)
        raise
    return number


def layers_of(store, word, is_verified=False):
    """An image's layers, the lowest first, and open files of them: prune leaves a layer as long as
    any process has such a file, which the server of a mount is given."""
    image, marks = pinned_image(store, word) if PIN in word else image_in(store, word), []
    with Progress("verified", sum(it.size for it in image.layers)) as progress:
        for layer in image.layers:
            marks.append(held_layer(store, layer, word, progress.add if is_verified else None))
    return image.layers, marks


def is_file(word):
    """Whether a word names something that exists, but no folder."""
    return os.path.lexists(word) and not os.path.isdir(word)


def image_meant(word, store):
    """The image that a word of a mount means, or None where it is a file. `image:NAME:TAG` always
    is an image; else an existing file comes before an image."""
    if word.startswith("image:"):
        return word.partition(":")[2]
    if is_file(word):
        return None
    if PIN + DIGEST in word:
        split_pin(word)
    if store is None:
        return None
    try:
        name, digest = split_pin(word)
        if digest is None:
            return full_name(store, name)
        return word if has_name(store, name) else None
    except Refused:
        return None


def has_name(store, word):
    """Whether a store has an image of a name, under whatever tag."""
    name, _ = split_image(word)
    return any(it.rpartition(":")[0] == name for it in names(store))


def may_be_stored(word):
    """Whether a word can be the name of an image of a store."""
    try:
        split_image(split_pin(word)[0])
        return True
    except Refused:
        return False


def store_for(words, place):
    """The store at a place, where words of a mount may mean one of its images; else None. One that
    others may write to is refused as soon as it might be meant."""
    asked = [word.partition(":")[2] for word in words if word.startswith("image:")]
    others = [it for it in words if not is_file(it)]
    if not asked and not others:
        return None
    try:
        os.stat(place)
        if os.path.isdir(place):
            return Store(place)
    except PermissionError:
        if asked or any(may_be_stored(it) and not it.endswith(".romfs") for it in others):
            raise OSError(0, "permission denied", place) from None
        return None
    except (FileNotFoundError, NotADirectoryError):
        pass
    except (Refused, OSError) as fault:
        if asked or any(map(may_be_stored, others)) and isinstance(fault, Shared):
            raise
        return None
    if asked:
        raise NoImage("%s: no such image in %s" % (asked[0], shown(place)))
    return None


def mounted_words(words, place=None, is_verified=False):
    """The paths that the words of a mount mean, files and images of the store at a place; the open
    files that mark layers of the store as in use; by the path of a layer the digits of the images
    that it was made to lie on; and of each path the fs-verity digest that the store says, or None.
    OSError if an image can't be opened."""
    paths, marks, parents, digests = [], [], {}, []
    place = place or default_place()
    try:
        store = store_for(words, place)
        for word in words:
            image = image_meant(word, store)
            if image is None:
                paths.append(word)
                digests.append(None)
                continue
            layers, held = layers_of(store, image, is_verified)
            marks += held
            for it in layers:
                paths.append(store.path_of(it.digits))
                digests.append(it.verity)
                parents.setdefault(paths[-1], set()).add(it.parent)
    except Refused as refused:
        where, _, why = str(refused).partition(": ")
        hint = "; " + brought(where.partition(PIN)[0], place) if isinstance(refused, NoImage) else ""
        raise OSError(0, why + hint, where) from None
    return paths, marks, parents, digests
