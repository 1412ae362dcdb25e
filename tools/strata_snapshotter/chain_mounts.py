"""The mounts of strata: one for each chain of layers, shared by all that lie on it.

strata-mount makes them (launcher.py), by --share: chains of the same images have one server, and so
has whoever else shares these images with the same options. The server is a process of its own,
which goes on when this one ends. A mount whose server has ended is unmounted and made anew when it
is needed again.

A mount that nothing lies on any more is kept for some seconds: the next container finds it there.
"""
import collections
import contextlib
import os
import threading
import time

from strata_mount.device import answers, take_away
from strata_mount.mount_table import mounts
from strata_mount.options import NOT_SEALED
from strata_snapshotter.faults import Unavailable
from strata_snapshotter.launcher import Launcher

# fixed, so that whoever says the same shares the server: as many readers as most machines can use
WORDS = "suid,dev,allow_other,modeless,readers=4"


def digest_words(digests):
    """The words that name the digests of images, where one is known."""
    known = [it or NOT_SEALED for it in digests] if any(digests) else []
    return [word for it in known for word in ("--digest", it)]


def is_served(place):
    return answers(place) and os.path.ismount(place)


def clear(place):
    """Unmounts the mounts that stand at a place. Their servers are not asked: one may hang."""
    for _ in range(sum(it.place == place for it in mounts())):
        take_away(place)


class ChainMounts:
    """The mounts of a snapshotter, by the number of the highest layer of each."""

    def __init__(self, places, program, keep):
        self.places, self.program, self.launcher = places, program, Launcher()
        # so many seconds a mount is kept that nothing lies on, and since when each is
        self.keep, self.unused = keep, {}
        self.lock = threading.Lock()
        # who is about to use a mount holds it: until then nothing says that it is used
        self.held, self.locks = collections.Counter(), collections.defaultdict(threading.Lock)

    def close(self):
        """Ends the use of mounts, which stay."""
        self.launcher.close()

    @contextlib.contextmanager
    def holding(self, layers):
        """Keeps the mounts of layers from being removed as unused."""
        with self.lock:
            self.held.update(layers)
        try:
            yield
        finally:
            with self.lock:
                self.held.subtract(layers)

    def mount(self, layer, images, digests):
        """The folder at which a layer is mounted, with the images of all below it."""
        place = self.places.mount(layer)
        with self.lock:
            own = self.locks[layer]
            self.unused.pop(layer, None)
        with own:
            with contextlib.suppress(FileExistsError):
                os.mkdir(place, 0o700)
            if not is_served(place):
                clear(place)
                self.show(images, digests, place)
        return place

    def show(self, images, digests, place):
        """Shows images, the lowest first, at a place, under their digests as far as these are
        known. Unavailable with strata's own line where that can't be."""
        words = ["--share", "-o", WORDS, "--strata", self.program, *digest_words(digests)]
        status, said = self.launcher.run([*words, *images, place])
        # what an earlier snapshotter has begun may have come first
        if status != 0 and not is_served(place):
            raise Unavailable("strata doesn't serve %s: %s" % (images[-1], said or status))

    def release(self, used, kept):
        """Unmounts the mounts of all layers but those that are used or held, and those of layers
        `kept` that have not been unused for long; after how many seconds there is one more to
        unmount, or None. A server whose mount is still part of a container's root goes on until
        that is gone, too."""
        now = time.monotonic()
        with self.lock:
            unused = self.places.numbers("mounts") - used - {*+self.held}
            self.unused = {it: self.unused.get(it, now) for it in unused}
            left = {it: self.unused[it] + self.keep - now for it in unused & kept}
            owns = [(it, self.locks[it]) for it in unused if left.get(it, 0) <= 0]
        for layer, own in owns:
            with own:
                self.take_away(layer)
        return min((it for it in left.values() if it > 0), default=None)

    def take_away(self, layer):
        place = self.places.mount(layer)
        with self.lock:
            if self.held[layer] > 0:
                return
        clear(place)
        with contextlib.suppress(OSError):
            os.rmdir(place)
