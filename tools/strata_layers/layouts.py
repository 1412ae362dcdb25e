"""Reads OCI image layouts: which manifest is meant, and its layers.

Nothing is believed: a blob is a file of LAYOUT/blobs named by its digest alone, and what is read of it is held against
the size and the digest that name it.

    layout = Layout("alpine")
    for layer in layout.layers("3.20"):
        blob = layout.open(layer)
        .. blob.read(n) ..
        blob.settle()
"""
import collections
import errno
import hashlib
import json
import os
import platform
import re
import stat

from strata_format.files import READING
from strata_format.progress import unheard
from strata_format.refused import Refused, shown
from strata_layers.transports import layout_hint

Descriptor = collections.namedtuple("Descriptor", "media algorithm digits size reference platform is_note")

OCI, DOCKER = "application/vnd.oci.image.", "application/vnd.docker."
INDEXES = (OCI + "index.v1+json", DOCKER + "distribution.manifest.list.v2+json")
MANIFESTS = (OCI + "manifest.v1+json", DOCKER + "distribution.manifest.v2+json")
# media types of layers, each with how it is packed
PACKED = {
    OCI + "layer.v1.tar": "", OCI + "layer.v1.tar+gzip": "gzip", OCI + "layer.v1.tar+zstd": "zstd",
    OCI + "layer.nondistributable.v1.tar": "", OCI + "layer.nondistributable.v1.tar+gzip": "gzip",
    OCI + "layer.nondistributable.v1.tar+zstd": "zstd",
    DOCKER + "image.rootfs.diff.tar": "", DOCKER + "image.rootfs.diff.tar.gzip": "gzip",
    DOCKER + "image.rootfs.diff.tar.zstd": "zstd", DOCKER + "image.rootfs.foreign.diff.tar.gzip": "gzip",
}
# layers that are images of romfs, packed or not
ROMFS = "application/vnd.strata.layer.v1.romfs"
DIGESTS = {"sha256": 64, "sha512": 128}
REFERENCE = "org.opencontainers.image.ref.name"
JSON_MOST, NESTED_MOST, LAYERS_MOST = 4 << 20, 16, 128
# so deep may JSON be, and so large a file
DEPTH_MOST, SIZE_MOST = 100, 2 ** 63 - 1
# at most this many names are printed
TOLD_MOST = 20
# the machines' names as OCI says them, each with its variants, the best one first
MACHINES = {
    "x86_64": ("amd64", "v1"), "i386": ("386",), "i686": ("386",), "aarch64": ("arm64", "v8"),
    "armv7l": ("arm", "v7", "v6", "v5"), "armv6l": ("arm", "v6", "v5"), "ppc64le": ("ppc64le",), "s390x": ("s390x",),
    "riscv64": ("riscv64",), "loongarch64": ("loong64",), "mips64": ("mips64le",),
}


# --- JSON of strangers ---

def has_type(value, kind):
    """Whether a value has exactly this type: a truth value is no number."""
    return type(value) is kind


def field(value, name, kind, where, default=None):
    """A field of an object; it must have this type, and stand there where there is no default."""
    found = value.get(name, default)
    if not has_type(found, kind):
        raise Refused("%s: no valid '%s'" % (where, name))
    return found


def is_shallow(value):
    """Whether a value can be written as JSON again, by calls within calls."""
    todo = [value]
    for _ in range(DEPTH_MOST):
        inner = [it.values() if has_type(it, dict) else it for it in todo if type(it) in (dict, list)]
        todo = [below for found in inner for below in found]
    return not todo


def parsed(data, where):
    try:
        value = json.loads(data.decode("utf-8"))
    except (ValueError, RecursionError):
        raise Refused("%s: no JSON" % where) from None
    if not is_shallow(value):
        raise Refused("%s: JSON within JSON, more than %d deep" % (where, DEPTH_MOST))
    if not has_type(value, dict):
        raise Refused("%s: no JSON object" % where)
    return value


def descriptor_of(value, where):
    if not has_type(value, dict):
        raise Refused("%s: a descriptor is no object" % where)
    digest, size = field(value, "digest", str, where), field(value, "size", int, where)
    algorithm, _, digits = digest.partition(":")
    if len(digits) != DIGESTS.get(algorithm) or not re.fullmatch("[0-9a-f]+", digits):
        raise Refused("%s: the digest '%s', where sha256 or sha512 is wanted" % (where, shown(digest)))
    if not 0 <= size <= SIZE_MOST:
        raise Refused("%s: a size of %s" % (where, shown(str(size))))
    notes = field(value, "annotations", dict, where, {})
    own = field(value, "platform", dict, where, {})
    words = [own.get(name, "") for name in ("os", "architecture", "variant")]
    if not all(has_type(word, str) for word in words):
        raise Refused("%s: no valid 'platform'" % where)
    # what a builder attests stands beside the images, under a platform that is none
    is_note = words[0] == "unknown"
    media = field(value, "mediaType", str, where)
    return Descriptor(media, algorithm, digits, size, notes.get(REFERENCE), tuple(words), is_note)


def digest_of(it):
    return "%s:%s" % (it.algorithm, it.digits)


# --- blobs ---

def why_not(fault):
    return "is a symbolic link" if fault.errno == errno.ELOOP else os.strerror(fault.errno).lower()


class Blob:
    """The bytes of a blob, which are counted and hashed as they are read; `heard` gets how many."""

    def __init__(self, path, it, heard=unheard):
        self.descriptor, self.count, self.heard = it, 0, heard
        self.hash = hashlib.new(it.algorithm)
        try:
            self.file = os.fdopen(os.open(path, READING), "rb", 0)
        except OSError as fault:
            raise Refused("blob %s: %s" % (digest_of(it), why_not(fault))) from None
        found = os.fstat(self.file.fileno())
        if not stat.S_ISREG(found.st_mode):
            self.close()
            raise Refused("blob %s: no file" % digest_of(it))
        if found.st_size != it.size:
            self.close()
            raise Refused(self.said(it, found.st_size))

    @staticmethod
    def said(it, size):
        return "blob %s: %d bytes, and its descriptor says %d" % (digest_of(it), size, it.size)

    def read(self, size):
        """At most so many bytes; and no more than one behind those that there should be, if the file grows."""
        try:
            data = self.file.read(min(size, self.descriptor.size + 1 - self.count))
        except OSError as fault:
            raise Refused("blob %s: %s" % (digest_of(self.descriptor), os.strerror(fault.errno).lower())) from None
        self.count += len(data)
        self.hash.update(data)
        self.heard(len(data))
        return data

    def settle(self):
        """Reads the rest, and refuses the blob where its size or digest is wrong."""
        while self.read(1 << 20):
            pass
        if self.count != self.descriptor.size:
            raise Refused(self.said(self.descriptor, self.count))
        if self.hash.hexdigest() != self.descriptor.digits:
            raise Refused("blob %s: its digest is %s" % (digest_of(self.descriptor), self.hash.hexdigest()))

    def close(self):
        self.file.close()


# --- which manifest ---

def own_platform():
    return MACHINES.get(platform.machine(), (platform.machine(),))


def platform_text(it):
    return shown("/".join(word for word in it.platform if word)) or "no platform"


def runs_here(it, own):
    """Whether this machine runs it; an image that names no variant runs on all of them."""
    name, architecture, variant = it.platform
    return name == "linux" and architecture == own[0] and (not variant or variant in own[1:])


def platform_said(text):
    """The platform that `linux/ARCHITECTURE[/VARIANT]` says, as own_platform has it."""
    parts = text.split("/")
    if len(parts) not in (2, 3) or parts[0] != "linux" or not all(parts):
        raise Refused("%s: no platform; linux/ARCHITECTURE[/VARIANT] is wanted" % shown(text))
    return tuple(parts[1:])


def told(names):
    """Names in one line, in order; the first of them where they are many."""
    found = sorted(names)
    return ", ".join(found[:TOLD_MOST]) + ", .." * (len(found) > TOLD_MOST)


def chosen(found, where, asked=None):
    """The first manifest that this machine runs, or the only one; where a platform is asked for, the
    first one of it."""
    images = [it for it in found if not it.is_note] or found
    own = asked or own_platform()
    here = [it for it in images if runs_here(it, own)]
    if here:
        return here[0]
    if len(images) == 1 and not (asked and any(images[0].platform)):
        return images[0]
    there = told({platform_text(it) for it in images}) or "nothing"
    raise Refused("%s: nothing for linux/%s; there is %s" % (where, "/".join(own[:2]), there))


def tagged(found, tag, where):
    """The manifests of a layout that a tag names; without a tag all, where they have one tag at most."""
    tags = {it.reference for it in found if has_type(it.reference, str)}
    there = told(map(shown, tags)) or "none"
    if tag is None:
        if len(tags) > 1:
            raise Refused("%s: which tag? There is %s" % (where, there))
        return found
    named = [it for it in found if it.reference == tag]
    if not named:
        raise Refused("%s: no tag '%s'; there is %s" % (where, shown(tag), there))
    return named


class Layout:
    """An image layout in a folder. `heard` gets how many bytes of its blobs are read, and
    `unpacked` how many come of those that are packed."""

    def __init__(self, folder):
        self.folder, self.name = folder, shown(os.fsencode(folder))
        self.heard = self.unpacked = unheard
        said = parsed(self.small_file("oci-layout"), self.name + "/oci-layout")
        if said.get("imageLayoutVersion") != "1.0.0":
            raise Refused("%s/oci-layout: no version 1.0.0" % self.name)

    def small_file(self, name):
        try:
            number = os.open(os.path.join(self.folder, name), READING)
            with os.fdopen(number, "rb") as file:
                if not stat.S_ISREG(os.fstat(number).st_mode):
                    raise Refused("%s/%s: no file" % (self.name, name))
                data = file.read(JSON_MOST + 1)
        except OSError as fault:
            raise Refused("%s/%s: %s" % (self.name, name, why_not(fault))) from None
        if len(data) > JSON_MOST:
            raise Refused("%s/%s: above %d bytes" % (self.name, name, JSON_MOST))
        return data

    def open(self, it):
        return Blob(os.path.join(self.folder, "blobs", it.algorithm, it.digits), it, self.heard)

    def small_blob(self, it):
        """The bytes of a blob that may be no larger than a JSON object."""
        if it.size > JSON_MOST:
            raise Refused("blob %s: above %d bytes" % (digest_of(it), JSON_MOST))
        blob = self.open(it)
        try:
            data = blob.read(it.size)
            blob.settle()
        finally:
            blob.close()
        return data

    def document(self, it, is_config=False):
        """A blob that is a JSON object, and what it is called. A configuration says no media type."""
        where = "blob " + digest_of(it)
        value = parsed(self.small_blob(it), where)
        if not is_config and value.get("mediaType", it.media) != it.media:
            raise Refused("%s: its media type is %s" % (where, shown(str(value["mediaType"]))))
        return value, where

    def manifests(self, value, where):
        return [descriptor_of(it, where) for it in field(value, "manifests", list, where)]

    def descriptors(self):
        """The descriptors of the index."""
        where = self.name + "/index.json"
        return self.manifests(parsed(self.small_file("index.json"), where), where)

    def found(self, tag):
        """The manifests and indexes that a tag names, and where they stand."""
        where = self.name + "/index.json"
        return tagged(self.descriptors(), tag, where), where

    def reference(self, tag):
        """The tag of the image that is meant, where it has one."""
        return tag if tag is not None else self.found(None)[0][0].reference

    def has_tag(self, tag):
        return any(it.reference == tag for it in self.descriptors())

    def descriptor(self, tag, asked=None):
        """The descriptor of the manifest that is meant, through nested indexes."""
        found, where = self.found(tag)
        it = chosen(found, where, asked)
        for _ in range(NESTED_MOST):
            if it.media not in INDEXES:
                break
            value, where = self.document(it)
            it = chosen(self.manifests(value, where), where, asked)
        if it.media not in MANIFESTS:
            raise Refused("%s: no image manifest, but %s" % (where, shown(it.media)))
        return it

    def manifest(self, tag):
        return self.document(self.descriptor(tag))

    def layers(self, tag):
        """The layers of an image, the lowest first, as descriptors."""
        value, where = self.manifest(tag)
        found = [descriptor_of(it, where) for it in field(value, "layers", list, where)]
        if not 1 <= len(found) <= LAYERS_MOST:
            raise Refused("%s: %d layers, allowed 1 to %d" % (where, len(found), LAYERS_MOST))
        for it in found:
            if it.media not in PACKED:
                raise Refused("%s: no layer of files, but %s%s" % (where, shown(it.media), self.pulled(it)))
        return found

    def pulled(self, it):
        """What helps if a layer is an image already, or nothing."""
        if not it.media.startswith(ROMFS):
            return ""
        return "; `strata-layers pull oci:%s NAME` brings such an image into the store, and strata-mount mounts NAME" % shown(
            os.fsencode(self.folder))


def split_at_folder(word):
    """The longest folder that there is at the beginning of `LAYOUT[:TAG]`, and what stands behind it, None for nothing; or
    None where there is no folder."""
    end = len(word)
    while end > 0:
        if os.path.isdir(word[:end]):
            return word[:end], word[end + 1:] if end < len(word) else None
        end = word.rfind(":", 0, end)
    return None


def split_name(word):
    """The folder and the tag of `LAYOUT[:TAG]`, where LAYOUT must be there."""
    found = split_at_folder(word)
    if found is None:
        raise Refused("%s: no such folder%s" % (shown(os.fsencode(word)), hint_of(word)))
    return found


def hint_of(word):
    """What helps where a word was meant as what `pull` and skopeo take."""
    if word.startswith("docker://"):
        return "; `strata-layers pull` brings images of a registry, and `skopeo copy` makes a layout of one"
    return "; name the folder without oci:" if word.startswith("oci:") else layout_hint(word)
