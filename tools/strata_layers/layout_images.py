"""The images of a layout as convert and pull read them: manifest, configuration and layers
together.

    image = image_of(layout, descriptor)
    image.layers[0]      the lowest layer
    image.archives[0]    the digest of what it was before it was packed
"""
import collections
import re

from strata_format.refused import Refused, shown
from strata_layers.layouts import INDEXES, LAYERS_MOST, MANIFESTS, NESTED_MOST, PACKED, ROMFS, descriptor_of, field
from strata_layers.store_images import VERITY
from strata_layers.verity import DIGEST

# media types of layers that are images of romfs, each with how it is packed
PACKED_ROMFS = {ROMFS: "", ROMFS + "+gzip": "gzip", ROMFS + "+zstd": "zstd"}

# where a layer takes several images, the higher ones say their place among them, from 2 on
PART = "vnd.strata.layer.part"
PARTS = re.compile("[2-9]|[1-9][0-9]{1,2}")
# the digest of the image that an image of romfs was made to lie on, both before they were packed
PARENT = "vnd.strata.layer.parent"
PARENTS = re.compile("sha256:[0-9a-f]{64}")

# so many images of platforms are converted at once
IMAGES_MOST = 256

Image = collections.namedtuple("Image", "descriptor manifest config media layers archives parts parents digests")


def layers_in(manifest, where):
    """The descriptors of a manifest's layers, the lowest first."""
    found = [descriptor_of(it, where) for it in field(manifest, "layers", list, where)]
    if not 1 <= len(found) <= LAYERS_MOST:
        raise Refused("%s: %d layers, allowed 1 to %d" % (where, len(found), LAYERS_MOST))
    for it in found:
        if it.media not in PACKED and it.media not in PACKED_ROMFS:
            raise Refused("%s: no layer of files, but %s" % (where, shown(it.media)))
    return found


def archives_in(config, count, where):
    """The digests that a configuration names its layers by, as they were before they were
    packed."""
    found = field(field(config, "rootfs", dict, where), "diff_ids", list, where)
    if len(found) != count or not all(isinstance(it, str) for it in found):
        raise Refused("%s: no digest for each of %d layers in 'diff_ids'" % (where, count))
    return found


def parts_in(manifest):
    """Of each layer of a manifest which part of a layer it is, from 0 on; what is not a romfs image
    has no parts."""
    found = notes_in(manifest, PART)
    return [int(it) - 1 if isinstance(it, str) and PARTS.fullmatch(it) else 0 for it in found]


def parents_in(manifest):
    """Of each layer of a manifest the digits of the image that it was made to lie on; None where
    that isn't said."""
    found = notes_in(manifest, PARENT)
    return [it.partition(":")[2] if isinstance(it, str) and PARENTS.fullmatch(it) else None for it in found]


def digests_in(manifest):
    """Of each layer of a manifest the fs-verity digest of its image, which an archive of one says,
    too; None where it isn't said."""
    found = [it.get("annotations", {}).get(VERITY) for it in manifest["layers"]]
    return [it if isinstance(it, str) and DIGEST.fullmatch(it) else None for it in found]


def notes_in(manifest, key):
    """What the annotations of each layer of a manifest say under a key; None of what is no image of
    romfs."""
    return [it.get("annotations", {}).get(key) if it["mediaType"] in PACKED_ROMFS else None
            for it in manifest["layers"]]


def image_of(layout, descriptor, asked=None, read=None):
    """The image of a manifest; where a platform is asked for, it must be of it. `read` has documents
    that were read, by their descriptors: very many images may name the same."""
    read = {} if read is None else read
    manifest, where = document_of(layout, descriptor, read)
    layers = layers_in(manifest, where)
    described = descriptor_of(field(manifest, "config", dict, where), where)
    config, where = document_of(layout, described, read, is_config=True)
    if asked and config.get("architecture", asked[0]) != asked[0]:
        raise Refused("%s: is for %s" % (where, shown(str(config["architecture"]))))
    archives = archives_in(config, len(layers), where)
    parts, parents = parts_in(manifest), parents_in(manifest)
    return Image(descriptor, manifest, config, described.media, layers, archives, parts, parents,
                 digests_in(manifest))


def document_of(layout, it, read, is_config=False):
    """A document of a layout, and what it is called; it is read once."""
    key = it.media, it.algorithm, it.digits, it.size, is_config
    if key not in read:
        read[key] = layout.document(it, is_config)
    return read[key]


def all_images(layout, tag):
    """The images of all platforms, through nested indexes; what builders attest is left out."""
    todo, where = layout.found(tag)
    found = {}
    for _ in range(NESTED_MOST + 1):
        images = [it for it in todo if it.media in MANIFESTS and not it.is_note]
        for it in images:
            found.setdefault((it.digits, it.size, it.media, it.platform, str(it.reference)), it)
        # an index that is named many times is read once
        indexes = {it.digits: it for it in todo if it.media in INDEXES}
        inner = [layout.manifests(*layout.document(it)) for it in indexes.values()]
        todo = [below for found_there in inner for below in found_there]
        if not todo:
            break
    if not found:
        raise Refused("%s: no image" % where)
    if len(found) > IMAGES_MOST:
        raise Refused("%s: %d images, allowed 1 to %d" % (where, len(found), IMAGES_MOST))
    read = {}
    return [image_of(layout, it, read=read) for it in found.values()]
