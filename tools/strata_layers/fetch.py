"""Fetches an image from a registry by skopeo: only the layers that a store lacks.

skopeo copies the image into a layout in the store's folder of new files. It doesn't fetch a blob
that exists already; so for each layer that the store has, an empty file of its name and size
stands there.
"""
import contextlib
import hashlib
import os
import re
import resource
import secrets
import shutil
import signal
import subprocess
import sys

from strata_format.refused import Refused, faults_below, shown
from strata_format.system import libc
from strata_layers.layout_images import layers_in
from strata_layers.layout_writer import LAYOUT, LAYOUT_FILE, json_bytes
from strata_layers.layouts import INDEXES, JSON_MOST, Layout, chosen, descriptor_of, field, parsed

TRANSPORT = "docker://"
TAG = "pulled"
PR_SET_PDEATHSIG = 1
# files that are no blobs
OWN_MOST = 1 << 28
MESSAGE = re.compile(r'level=fatal msg="((?:[^"\\]|\\.)*)"')
# a path in a message that begins in the folder where skopeo writes
BELOW = re.compile(r"(?<![\w./])\./")


def end_with_parent():
    """Lets a program end with the run that started it."""
    libc.prctl(PR_SET_PDEATHSIG, signal.SIGKILL)


def skopeo(*words, folder=None, most=resource.RLIM_INFINITY):
    """What skopeo prints; Refused with what it says where it fails. On a terminal it tells what it
    does. It writes in a folder, and no file of it is larger than the most, whatever a registry
    sends."""
    program = shutil.which("skopeo")
    if program is None:
        raise Refused("docker:// needs the program skopeo: install the package skopeo")
    is_shown = words[0] == "copy" and sys.stderr is not None and sys.stderr.isatty()
    done = subprocess.run([program, *words], stdin=subprocess.DEVNULL, stderr=subprocess.PIPE,
                          stdout=sys.stderr if is_shown else subprocess.PIPE,
                          preexec_fn=lambda: (end_with_parent(), bound_files(most)), cwd=folder, check=False)
    if done.returncode != 0:
        said = done.stderr.decode(errors="replace").strip()
        found = MESSAGE.search(said)
        said = found[1].replace('\\"', '"') if found else " ".join(said.split())
        if folder is not None:
            said = BELOW.sub(lambda _: shown(folder) + "/", said)
        raise Refused("skopeo: %s" % (said or "status %d" % done.returncode))
    return done.stdout


def bound_files(most):
    """Lets a process write no file that is larger."""
    limits = [it for it in (most, *resource.getrlimit(resource.RLIMIT_FSIZE)) if it >= 0]
    if limits:
        resource.setrlimit(resource.RLIMIT_FSIZE, (min(limits), min(limits)))


def largest(manifest, where):
    """The size of the largest file that skopeo may write for an image; it has files of its own, too."""
    return max(OWN_MOST, *(it.size for it in layers_in(manifest, where)))


def split_reference(reference):
    """`HOST/NAME`, and what is behind it: `:TAG`, `@DIGEST`, or nothing."""
    name, at, digest = reference.partition("@")
    if at:
        return name.rpartition(":")[0] if ":" in name.rpartition("/")[2] else name, at + digest
    slash = name.rfind("/")
    colon = name.find(":", slash + 1)
    return (name[:colon], name[colon:]) if colon > 0 else (name, "")


class Reference:
    """An image of a registry, as `HOST/NAME[:TAG]` or `HOST/NAME@DIGEST` says it."""

    def __init__(self, reference):
        self.name, self.rest = split_reference(reference)

    def raw_manifest(self, rest):
        """The manifest or index as the registry has it, and its digest."""
        data = skopeo("inspect", "--raw", TRANSPORT + self.name + rest)
        if len(data) > JSON_MOST:
            raise Refused("%s: above %d bytes" % (shown(self.name + rest), JSON_MOST))
        return data, "sha256:" + hashlib.sha256(data).hexdigest()

    def manifest(self, asked):
        """The manifest that is meant, its bytes, their digest, and what it is called."""
        where = shown(self.name + self.rest)
        data, digest = self.raw_manifest(self.rest)
        value = parsed(data, where)
        if value.get("mediaType") in INDEXES or "manifests" in value:
            found = [descriptor_of(it, where) for it in field(value, "manifests", list, where)]
            it = chosen(found, where, asked)
            data, digest = self.raw_manifest("@%s:%s" % (it.algorithm, it.digits))
            value = parsed(data, where)
        return value, data, digest, where


def write_known(folder, known):
    """Writes a layout for skopeo, in which the layers that are known stand as empty files of their sizes."""
    blobs = os.path.join(folder, "blobs", "sha256")
    os.makedirs(blobs)
    for layer in known:
        with open(os.path.join(blobs, layer.digits), "wb") as out:
            out.truncate(layer.size)
    with open(os.path.join(folder, LAYOUT_FILE), "wb") as out:
        out.write(json_bytes(LAYOUT))


@contextlib.contextmanager
def fetched(store, reference, asked, is_known):
    """A layout with an image of a registry, the digest of its manifest there, and that manifest's
    bytes. `is_known` tells of a layer's descriptor whether the store has it; such a layer is an
    empty file of its size."""
    it = Reference(reference)
    manifest, data, digest, where = it.manifest(asked)
    folder = os.path.join(store.place, "new", secrets.token_hex(8))
    try:
        with faults_below(store.place):
            known = [it for it in layers_in(manifest, where) if it.algorithm == "sha256" and is_known(it)]
            write_known(folder, known)
        # a folder's name with a colon would be another to skopeo
        skopeo("copy", TRANSPORT + it.name + "@" + digest, "oci:.:" + TAG, folder=folder, most=largest(manifest, where))
        yield Layout(folder), digest, data
    finally:
        shutil.rmtree(folder, ignore_errors=True)
