"""`pull`: brings an image into a store, from a layout or from a registry."""
import contextlib
import os

from strata_format.progress import Progress
from strata_format.refused import Refused, shown
from strata_layers.fetch import TAG, TRANSPORT, fetched, split_reference
from strata_layers.layout_images import digests_in, image_of
from strata_layers.layouts import digest_of, parsed
from strata_layers.open_layout import open_layout
from strata_layers.store_images import LATEST, StoredImage, count_of, image_in, names, put_image, split_image
from strata_layers.store_layers import Maker
from strata_layers.transports import layout_hint

LAYOUT = "oci:"
# so long may a manifest be that is kept; one of 128 layers has a quarter of that
TEXT_MOST = 1 << 18


def name_of(source, tag):
    """The name that an image gets where none is said: the last name of the layout's path, with its
    tag; of an image of a registry its name there, without the host."""
    if source.startswith(TRANSPORT):
        name, said = registry_name(source)
        return "%s:%s" % (name, said or LATEST)
    return "%s:%s" % (os.path.basename(os.path.realpath(source)), tag or LATEST)


def registry_name(source):
    """The name of an image in a registry, without the host, and its tag, which may stand before a
    digest; None where there is none."""
    name, rest = split_reference(source[len(TRANSPORT):].partition("@")[0])
    _, slash, path = name.partition("/")
    return path if slash else name, rest[1:] or None


def is_bare_digest(source):
    """Whether a digest alone says which image of a registry is meant."""
    return source.startswith(TRANSPORT) and "@" in source and registry_name(source)[1] is None


def hold_name(store, name, digest, source):
    """Looks that a name which nobody said takes the place of no other image."""
    if name in names(store) and image_in(store, name).manifest != digest:
        raise Refused("%s: the store has another image of this name; say one: `strata-layers pull %s NAME`"
                      % (name, shown(os.fsencode(source))))


def checked_name(word):
    name, tag = split_image(word)
    return "%s:%s" % (name, tag or LATEST)


@contextlib.contextmanager
def opened(maker, source, platform):
    """The layout that an image is read from, its descriptor there, and the digest that it is known
    by, with the bytes that have it."""
    if source.startswith(TRANSPORT):
        reference = source[len(TRANSPORT):]
        with fetched(maker.store, reference, platform, maker.has_made) as (layout, digest, data):
            yield layout, layout.descriptor(TAG, platform), digest, data
        return
    layout, tag = open_layout(source[len(LAYOUT):])
    found = layout.descriptor(tag, platform)
    yield layout, found, digest_of(found), layout.small_blob(found)


def sealed_text(data, layers):
    """The text of a manifest that says the fs-verity digests of all these layers; else None, as of a
    very long one. Without them it says nothing of what is mounted."""
    if len(data) > TEXT_MOST:
        return None
    digests = digests_in(parsed(data, "manifest"))
    return data.decode() if digests == [it.verity for it in layers] else None


def pull(store, source, name, platform, lost):
    """Brings an image into a store under a name; its whole name, how many layers it has, and how
    many of them are new."""
    if not source.startswith((LAYOUT, TRANSPORT)):
        raise Refused("%s: oci:LAYOUT[:TAG] or docker://HOST/NAME[:TAG] is wanted%s"
                      % (shown(os.fsencode(source)), layout_hint(source)))
    is_unsaid = name is None and is_bare_digest(source)
    name = checked_name(name or name_said(source))
    with store.locked():
        maker = Maker(store, lost, checks_archives=True)
        with opened(maker, source, platform) as (layout, found, digest, data):
            if is_unsaid:
                hold_name(store, name, digest, source)
            image = image_of(layout, found, platform)
            with Progress("layers", sum(it.size for it in image.layers)) as progress:
                layout.heard, layout.unpacked = progress.add, progress.unpack
                layers = [it for found in maker.layers(layout, image) for it in found]
        lost.settle()
        text = sealed_text(data, layers)
        put_image(store, name, StoredImage(source, digest, layers, image.config, text))
    return name, count_of(layers), count_new(layers, maker.new)


def count_new(layers, new):
    """How many layers have an image that is among new ones."""
    found = []
    for it in layers:
        found += [False] * (it.part == 0 or not found)
        found[-1] |= it.digits in new
    return sum(found)


def name_said(source):
    if source.startswith(TRANSPORT):
        return name_of(source, None)
    layout, tag = open_layout(source[len(LAYOUT):])
    return name_of(layout.folder, layout.reference(tag))
