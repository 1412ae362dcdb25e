"""Mounts layers ahead of the first container that lies on them.

A layer that no other one comes over is mounted, with all below it, once it is an image. A client
that says which layer is the highest waits for that, and its pull ends with the mount; else it is
done a moment later. A mount that nothing lies on is kept as long as any other.
"""
import contextlib
import threading

from strata_snapshotter.background import begin_after, told_as_warning
from strata_snapshotter.state import Lower

# so many seconds after a layer was made an image it is mounted, if no other one comes over it
AHEAD = 0.02


class Ahead:
    """What is mounted ahead, of the snapshots of a root."""

    def __init__(self, snapshots):
        self.snapshots = snapshots
        # held while a layer is mounted in the background, one at a time; the numbers of layers over
        # which others are about to be unpacked
        self.lock, self.coming = threading.Lock(), []

    @contextlib.contextmanager
    def coming_over(self, snapshot):
        """Notes that a layer is about to be unpacked over a snapshot (or None)."""
        number = None if snapshot is None else snapshot.id
        with self.snapshots.lock:
            self.coming.append(number)
        try:
            yield
        finally:
            with self.snapshots.lock:
                self.coming.remove(number)

    def begin(self, number):
        """Begins to mount a layer that has become an image, in the background."""
        if self.is_wanted():
            begin_after(AHEAD, self.mount_in_turn, number)

    def mount(self, snapshot):
        """Mounts a layer that is an image; None is one that was removed."""
        if self.is_wanted() and snapshot is not None:
            self.mount_unused(snapshot.id)

    def is_wanted(self):
        return self.snapshots.mounts_of.keep > 0

    def mount_in_turn(self, number):
        with self.lock:
            self.mount_unused(number)

    def mount_unused(self, number):
        snapshots = self.snapshots
        with told_as_warning("layer %d is not mounted ahead" % number):
            try:
                with snapshots.mounts_of.holding([number]):
                    if self.is_top(number):
                        snapshots.folder_of(Lower(number, True))
            finally:
                # the layer may have been removed meanwhile
                snapshots.tidy()

    def is_top(self, number):
        """Whether a layer is there, and no other one lies on it or is about to."""
        with self.snapshots.lock:
            snapshot = self.snapshots.state.by_id(number)
            return (snapshot is not None and number not in self.coming
                    and not self.snapshots.has_layers(snapshot))
