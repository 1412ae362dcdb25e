"""Makes images of committed layers, one after another, in a thread of its own. Those that a call
waits for come first; over others it rests for a moment after each call, so that they take no
processor from a container that starts.

A layer becomes an image if all below it are images. One that an image doesn't hold, or that is
above the most layers that strata stacks, stays a folder, and so does all above it; each is logged
with the reason. A layer whose image is not made yet is found at the next start.

A layer may also be given as an image: an archive of one file, `.strata.romfs`.
"""
import logging
import os
import secrets
import sqlite3
import threading
import time

from strata_format.refused import Refused
from strata_layers.verity import TREE
from strata_snapshotter import places
from strata_snapshotter.faults import InvalidArgument, Unavailable, why_of
from strata_snapshotter.folder_image import write_folder_image
from strata_snapshotter.given_image import hold_image
from strata_snapshotter.state import Form

LAYERS_MOST = 128
# seconds until it is looked whether who waits is still there, and until a fault is tried again
LOOKING, AGAIN = 1, 5
# seconds of rest after a call, and the most of them over one image
RESTING, RESTING_MOST = 0.3, 10


def below_reason(lower):
    """Why a layer stays a folder that lies on one."""
    return "%s below it is a folder" % lower.name


def tell_folder(name, why):
    logging.warning("%s stays a folder, with all above it: %s", name, why)


class ImageMaker:
    """What makes images for the snapshots of a root."""

    def __init__(self, snapshots, program):
        self.snapshots, self.program = snapshots, program
        self.state, self.places = snapshots.state, snapshots.places
        self.changed = threading.Condition(snapshots.lock)
        # the number of the layer of which an image is being made, and of those that calls wait for
        self.making, self.waited_for = None, []
        # when the last call came of an import or a container's start; seconds of rest after that, and
        # those that are left over this image
        self.asked, self.resting = time.monotonic(), 0 if snapshots.is_waiting else RESTING
        self.left = RESTING_MOST

    def start(self):
        threading.Thread(target=self.run, daemon=True).start()

    # --- what may be an image ---

    def folder_reason(self, snapshot):
        """Why a snapshot will stay a folder; None where an image may be made of it. The lock must be
        held."""
        chain = self.state.chain(snapshot)
        lower = next((it for it in chain[1:] if it.form == Form.FOLDER), None)
        if lower is not None:
            return below_reason(lower)
        if len(chain) > LAYERS_MOST:
            return "layer %d, and strata stacks %d" % (len(chain), LAYERS_MOST)
        return None

    def wait(self, number, is_wanted=lambda: True):
        """Waits until it is settled for a layer and all below it whether they are images."""
        with self.changed:
            self.waited_for.append(number)
            self.changed.notify_all()
            try:
                while any(it.form == Form.PENDING for it in self.chain_of(number)):
                    self.changed.wait(LOOKING)
                    if not is_wanted():
                        raise Unavailable("nobody waits for it any more")
            finally:
                self.waited_for.remove(number)

    def chain_of(self, number):
        return self.state.chain(self.state.by_id(number))

    def note_call(self):
        """Notes a call of an import or a container's start."""
        self.asked = time.monotonic()

    def notice(self):
        """Lets the thread know of a new layer."""
        with self.changed:
            self.changed.notify_all()

    # --- making ---

    def run(self):
        while True:
            try:
                self.make(self.next())
                self.snapshots.tidy()
            except (sqlite3.Error, OSError) as fault:
                logging.error("an image can't be kept now: %s", fault)
                with self.changed:
                    self.making = None
                    self.changed.wait(AGAIN)

    def next(self):
        """Waits for a layer of which an image is to be made."""
        with self.changed:
            snapshot = None
            while snapshot is None:
                while self.first() is None:
                    self.changed.wait()
                self.left = RESTING_MOST
                self.rest()
                # it may have been removed meanwhile
                snapshot = self.first()
            self.making = snapshot.id
            return snapshot

    def rest(self, _=0):
        """Rests until the last call is a moment ago, unless a call waits for an image. Called before
        an image is begun, and for each piece of it."""
        if time.monotonic() >= self.asked + self.resting:
            return
        with self.changed:
            while not self.waited_for:
                now = time.monotonic()
                seconds = min(self.asked + self.resting - now, self.left)
                if seconds <= 0:
                    break
                self.changed.wait(seconds)
                self.left -= time.monotonic() - now

    def first(self):
        """The layer of which an image is to be made first, or None. The lock must be held."""
        if self.state.is_lost:
            return None
        for number in self.waited_for:
            pending = [it for it in self.chain_of(number) if it.form == Form.PENDING]
            if pending:
                return pending[-1]
        return self.state.pending()

    def make(self, snapshot):
        """Makes the image of a layer, and settles what its files are in."""
        try:
            with self.places.new_image() as (file, path):
                self.write(snapshot, file)
                digest = self.places.seal(path, self.rest)
                self.settle(snapshot, lambda: self.replace(snapshot, path, digest))
        except (Refused, OSError, MemoryError) as fault:
            # what was begun is gone by now, and leaves its room on a full disk
            why = why_of(fault).encode(errors="replace").decode()
            taken = places.usage(self.places.files(snapshot.id))
            self.settle(snapshot, lambda: self.stay(snapshot, why, taken))

    def write(self, snapshot, file):
        with self.snapshots.lock:
            chain = self.chain_of(snapshot.id)
        for it in chain[1:]:
            if it.form != Form.IMAGE:
                raise Refused(below_reason(it))
        write_folder_image(self.places.files(snapshot.id), file, self.rest)
        os.fsync(file.fileno())

    def settle(self, snapshot, change):
        """Makes a change to a layer if it is still there; else removes what is left of it."""
        aside = None
        with self.changed:
            self.making = None
            if self.state.by_id(snapshot.id) is None:
                aside = self.places.set_aside(self.places.snapshot(snapshot.id))
            else:
                change()
            self.changed.notify_all()
        places.remove(aside)

    def stay(self, snapshot, why, taken):
        """Lets a layer that is no image yet stay a folder."""
        places.remove(self.places.image(snapshot.id))
        tell_folder(snapshot.name, why)
        with self.state.transaction():
            self.state.settle(snapshot.id, Form.FOLDER, taken, why=why)

    def replace(self, snapshot, path, digest):
        """Puts an image into the place of a layer's folder, which is removed once nothing lies on
        it."""
        self.places.keep_image(path, snapshot.id)
        with self.state.transaction():
            self.state.settle(snapshot.id, Form.IMAGE,
                              places.usage(self.places.image(snapshot.id)), digest)
        self.snapshots.spare.add(snapshot.id)
        self.snapshots.replaced[snapshot.id] = time.monotonic()
        self.snapshots.ahead.begin(snapshot.id)

    # --- layers that are given as images ---

    def take_given(self, snapshot, given, name, labels):
        """Commits the image that a snapshot holds at a path, once it is checked."""
        if snapshot.parent is not None:
            self.wait(snapshot.parent)
        path = self.places.at("new", secrets.token_hex(8))
        os.link(given, path, follow_symlinks=False)
        try:
            self.hold_checked(path, name)
            digest = self.places.seal(path)
            with self.changed:
                self.commit_given(snapshot, path, name, labels, digest)
        finally:
            places.remove(path)
            places.remove(path + TREE)

    def hold_checked(self, path, name):
        """Sees that a file is an image that strata mounts, and puts it on the disk."""
        try:
            hold_image(self.program, path)
        except Refused as refused:
            raise InvalidArgument("snapshot %s: %s" % (name, refused)) from None
        with open(path, "rb", 0) as file:
            os.fsync(file.fileno())

    def commit_given(self, snapshot, path, name, labels, digest):
        """Commits an image that is checked. The lock must be held."""
        self.snapshots.committable(name, snapshot.name)
        if any(it.form != Form.IMAGE for it in self.chain_of(snapshot.id)[1:]):
            raise InvalidArgument("snapshot %s: an image cannot lie on a folder" % name)
        with self.state.transaction():
            self.state.commit(snapshot, name, labels, Form.IMAGE)
            self.places.keep_image(path, snapshot.id)
            self.state.settle(snapshot.id, Form.IMAGE,
                              places.usage(self.places.image(snapshot.id)), digest)
        self.snapshots.spare.add(snapshot.id)
        self.snapshots.ahead.begin(snapshot.id)
