"""The snapshots: what containerd asks of a snapshotter, over folders, images and mounts.

A layer is committed as the folder into which containerd unpacked it, at once; its image is made
behind that, and then takes the folder's place (image_maker.py). A container lies on one mount of
strata for its chain of layers; overlayfs puts what is written over it. Before the last image of
the chain is made it lies on folders, and also on those that images have just replaced, as
unpacking does: so it waits neither for an image nor for a mount. An option lets it wait.

What an overlay lies on is noted with it and stays the same; folders and mounts that nothing
lies on are removed.
"""
import collections
import contextlib
import itertools
import os
import threading
import time

from strata_snapshotter import places
from strata_snapshotter.ahead import Ahead
from strata_snapshotter.background import begin_after, told_as_warning
from strata_snapshotter.chain_mounts import ChainMounts
from strata_snapshotter.faults import (
    AlreadyExists, FailedPrecondition, InvalidArgument, NotFound)
from strata_snapshotter.filters import matches, parsed
from strata_snapshotter.given_image import given_image
from strata_snapshotter.image_maker import LAYERS_MOST, ImageMaker, tell_folder
from strata_snapshotter.ready_layers import REFERENCE, is_highest
from strata_snapshotter.state import Form, Kind, Lower, State

# a mount as containerd makes it: its type, source, and options
Mount = collections.namedtuple("Mount", "type source options")
# the names of snapshots into which layers are unpacked begin so, behind containerd's own front
UNPACKED = "extract-"
LABEL_PATH = "labels."
# the label that tells why a layer stays a folder, and the most characters of it: containerd's own
# labels have at most 4,096 bytes
FOLDER, WHY_MOST = "strata/folder", 1000
OVERLAY_INDEX = "/sys/module/overlay/parameters/index"


def is_unpacked_to(name):
    return name.rpartition("/")[2].startswith(UNPACKED)


def labels_of(snapshot):
    """The labels of a snapshot, among them why it stays a folder."""
    if snapshot.why is None:
        return snapshot.labels
    return {**snapshot.labels, FOLDER: snapshot.why[:WHY_MOST]}


def fields_of(snapshot):
    """The fields of a snapshot for filters."""
    return {"name": snapshot.name, "parent": snapshot.parent_name,
            "kind": snapshot.kind.name.lower(), "labels": labels_of(snapshot)}


class Snapshots:
    """All snapshots of a root; every call may come from any thread."""

    def __init__(self, held, program, ready, keep, is_waiting=False):
        self.places, self.ready = held, ready
        self.state = State(held.at("state.db"), bool(held.numbers("snapshots")))
        # whether containers wait until all that they lie on are images
        self.is_waiting = is_waiting
        self.mounts_of = ChainMounts(held, program, keep)
        self.ahead = Ahead(self)
        # whether it will be tidied once more, since a mount is kept until then
        self.is_due = False
        # over the state, and over folders as the state has them
        self.lock = threading.RLock()
        # layers that are images, and whose folders are there still; and since when those are that
        # hold the same files
        self.spare, self.replaced = set(), {}
        self.maker = ImageMaker(self, program)
        held.clear()
        self.cleanup()
        self.maker.start()

    def close(self):
        """Unmounts what is only kept, and ends the use of the state, so that it stands in one
        file."""
        with self.ahead.lock, self.lock:
            with told_as_warning("mounts stay"):
                self.mounts_of.release(self.state.used(True), set())
            self.mounts_of.close()
            self.state.close()

    # --- what is there ---

    def found(self, name):
        snapshot = self.state.find(name)
        if snapshot is None:
            raise NotFound("snapshot %s: not found" % name)
        return snapshot

    def stat(self, name):
        with self.lock:
            return self.found(name)

    def list(self, filters):
        """The snapshots that match any of some filters."""
        filters = parsed(filters)
        with self.lock:
            every = self.state.every()
        return list(itertools.compress(every, matches(filters, [*map(fields_of, every)])))

    def usage(self, name):
        """The bytes and inodes that a snapshot takes itself."""
        snapshot = self.stat(name)
        if snapshot.kind == Kind.COMMITTED and snapshot.form != Form.PENDING:
            return snapshot.size, snapshot.inodes
        return places.usage(self.places.files(snapshot.id))

    # --- Prepare and View ---

    def create(self, name, parent_name, kind, labels, is_wanted=lambda: True):
        """Makes a snapshot; its mounts. AlreadyExists where the layer for which it is made stands
        ready. `is_wanted` says whether anybody still waits for it."""
        with self.lock:
            parent = self.parent_of(name, parent_name)
        is_unpacked = is_unpacked_to(name)
        self.maker.note_call()
        with self.ahead.coming_over(parent if is_unpacked else None):
            if kind == Kind.ACTIVE and REFERENCE in labels:
                self.take_ready(name, parent, labels)
            if self.is_waiting and parent is not None and not is_unpacked:
                self.maker.wait(parent.id, is_wanted)
            with self.lock:
                is_early = is_unpacked or self.is_pending(parent)
            return self.created(name, parent_name, kind, labels, is_early)

    def is_pending(self, parent):
        """Whether images are still to be made of a parent (or None) or of what it lies on, by now. The
        lock must be held."""
        return parent is not None and any(it.form == Form.PENDING for it in self.maker.chain_of(parent.id))

    def created(self, name, parent_name, kind, labels, is_early):
        """Makes a snapshot, over what its parent's files are in by now; its mounts."""
        while True:
            with self.lock:
                lowers = self.lowers_on(self.parent_of(name, parent_name), is_early)
            with self.mounts_of.holding([it.layer for it in lowers if it.is_mount]):
                folders = [self.folder_of(it) for it in lowers]
                with self.lock:
                    # an image may have taken a folder's place meanwhile
                    parent = self.parent_of(name, parent_name)
                    if self.lowers_on(parent, is_early) == lowers:
                        snapshot = self.insert(name, parent, kind, labels, lowers, folders)
                        return self.mounts_over(snapshot, folders)

    def parent_of(self, name, parent_name):
        """The snapshot on which a new one of a name is to stand, or None."""
        if not name:
            raise InvalidArgument("a snapshot needs a key")
        if self.state.find(name) is not None:
            raise AlreadyExists("snapshot %s: already exists" % name)
        if not parent_name:
            return None
        parent = self.found(parent_name)
        if parent.kind != Kind.COMMITTED:
            raise InvalidArgument("parent %s is not committed" % parent_name)
        return parent

    def lowers_on(self, parent, is_early):
        """What a snapshot over a parent (or None) lies on: folders, and the mount of all images
        below them. One that comes before the images lies on folders as far as these are there."""
        chain = self.state.chain(parent)
        folders = list(itertools.takewhile(
            lambda it: it.form != Form.IMAGE or is_early and it.id in self.replaced, chain))
        images = chain[len(folders):]
        return [Lower(it.id, False) for it in folders] + [Lower(it.id, True) for it in images[:1]]

    def folder_of(self, lower):
        """The folder of a layer, or that at which it is mounted."""
        if not lower.is_mount:
            return self.places.files(lower.layer)
        with self.lock:
            chain = self.state.chain(self.state.by_id(lower.layer))
            digests = [self.state.digest(it.id) for it in reversed(chain)]
        if not chain:
            raise NotFound("layer %d: not found" % lower.layer)
        images = [self.places.image(it.id) for it in reversed(chain)]
        return self.mounts_of.mount(lower.layer, images, digests)

    def insert(self, name, parent, kind, labels, lowers, folders):
        """Makes the folders of a snapshot, and then the snapshot."""
        top = os.stat(folders[0]) if folders else None
        with contextlib.ExitStack() as undone:
            with self.state.transaction():
                number = self.state.insert(name, parent, kind, labels)
                self.state.insert_lowers(number, lowers)
                undone.callback(places.remove, self.places.snapshot(number))
                self.places.make(number, (top.st_uid, top.st_gid) if top else None)
            undone.pop_all()
        return self.state.by_id(number)

    def take_ready(self, name, parent, labels):
        """Commits the layer that a snapshot is prepared for, where it stands ready: then it is
        neither fetched nor unpacked."""
        chain = labels[REFERENCE]
        with self.lock:
            is_there = self.state.ready(parent, REFERENCE, chain) is not None
        if not is_there and not self.commit_ready(name, parent, labels):
            return
        if is_highest(labels):
            with self.lock:
                found = self.state.ready(parent, REFERENCE, chain)
            self.ahead.mount(found)
        raise AlreadyExists("target snapshot %s: already exists" % chain)

    def commit_ready(self, name, parent, labels):
        """Whether a layer stands ready, which is committed over its parent."""
        if not self.ready.is_there(labels):
            return False
        if parent is not None:
            self.maker.wait(parent.id)
        with self.lock:
            chain = [] if parent is None else self.state.chain(self.state.by_id(parent.id))
        if len(chain) >= LAYERS_MOST or any(it.form != Form.IMAGE for it in chain):
            return False
        with self.places.new_image() as (file, path):
            images = [self.places.image(it.id) for it in reversed(chain)]
            digest = self.ready.write(labels, parent, images, file, path)
            if digest is None:
                return False
            os.fsync(file.fileno())
            with self.lock, self.state.transaction():
                again = self.parent_of(name, "" if parent is None else parent.name)
                if self.state.ready(again, REFERENCE, labels[REFERENCE]) is None:
                    number = self.state.insert(name, again, Kind.COMMITTED, labels, Form.IMAGE,
                                               is_ready=True)
                    self.places.forget(number)
                    self.places.keep_image(path, number)
                    self.state.settle(number, Form.IMAGE,
                                      places.usage(self.places.image(number)), digest)
                    if is_highest(labels) is None:
                        self.ahead.begin(number)
        return True

    # --- Mounts ---

    def mounts(self, name):
        """The mounts of a snapshot that is not committed."""
        self.maker.note_call()
        with self.lock:
            snapshot = self.found(name)
            if snapshot.kind == Kind.COMMITTED:
                raise FailedPrecondition("snapshot %s is committed, and has no mounts" % name)
            lowers = self.state.lowers(snapshot)
        return self.mounts_over(snapshot, [self.folder_of(it) for it in lowers])

    def mounts_over(self, snapshot, folders):
        """The mounts of a snapshot over folders, the highest first."""
        files = self.places.files(snapshot.id)
        is_view = snapshot.kind == Kind.VIEW
        if not folders or is_view and len(folders) == 1:
            source = folders[0] if folders else files
            return [Mount("bind", source, ["ro" if is_view else "rw", "rbind"])]
        options = ["index=off"] * os.path.exists(OVERLAY_INDEX)
        if not is_view:
            options += ["workdir=" + self.places.work(snapshot.id), "upperdir=" + files]
        return [Mount("overlay", "overlay", [*options, "lowerdir=" + ":".join(folders)])]

    # --- Commit, Update, Remove ---

    def commit(self, name, key, labels):
        """Makes a committed snapshot of an active one, under a new name."""
        self.maker.note_call()
        with self.lock:
            snapshot = self.committable(name, key)
            given = given_image(self.places.files(snapshot.id))
        if given is not None:
            self.maker.take_given(snapshot, given, name, labels)
        else:
            self.commit_folder(key, name, labels)
        places.remove(self.places.set_aside(self.places.work(snapshot.id)))
        self.tidy()

    def committable(self, name, key):
        """The active snapshot of a key, which may be committed under a name. The lock must be
        held."""
        snapshot = self.found(key)
        if snapshot.kind != Kind.ACTIVE:
            raise FailedPrecondition("snapshot %s is not active" % key)
        if not name:
            raise InvalidArgument("a committed snapshot needs a name")
        if self.state.find(name) is not None:
            raise AlreadyExists("snapshot %s: already exists" % name)
        return snapshot

    def commit_folder(self, key, name, labels):
        """Commits a snapshot as the folder that it is, of which an image may be made."""
        with self.lock:
            snapshot = self.committable(name, key)
            why = self.maker.folder_reason(snapshot)
        form, taken = Form.PENDING, (0, 0)
        if why is not None:
            form, taken = Form.FOLDER, places.usage(self.places.files(snapshot.id))
            tell_folder(name, why)
        with self.lock:
            if self.committable(name, key).id != snapshot.id:
                raise NotFound("snapshot %s: not found" % key)
            with self.state.transaction():
                self.state.commit(snapshot, name, labels, form)
                self.state.settle(snapshot.id, form, taken, why=why)
        self.maker.notice()

    def update(self, name, labels, paths):
        """Changes labels: those that paths name, or without paths all; the snapshot."""
        with self.lock:
            snapshot = self.found(name)
            now = snapshot.labels
            for path in paths or ["labels"]:
                key = path[len(LABEL_PATH):]
                if path == "labels":
                    now = labels
                elif path.startswith(LABEL_PATH) and key:
                    now = {**now, key: labels.get(key, "")}
                else:
                    raise InvalidArgument("snapshot %s: %r can't be changed" % (name, path))
            with self.state.transaction():
                # a label that is empty is none
                self.state.set_labels(snapshot, {key: it for key, it in now.items() if it})
            return self.found(name)

    def remove(self, name):
        """Removes a snapshot on which nothing stands."""
        with self.lock:
            snapshot = self.found(name)
            if self.state.children(snapshot):
                raise FailedPrecondition("snapshot %s: has children" % name)
            with self.state.transaction():
                self.state.delete(snapshot)
            aside = None
            if self.maker.making != snapshot.id:
                aside = self.places.set_aside(self.places.snapshot(snapshot.id))
        places.remove(aside)
        self.tidy()

    def has_layers(self, snapshot):
        """Whether layers lie on a snapshot, or are unpacked over it. The lock must be held."""
        return any(it.kind == Kind.COMMITTED or is_unpacked_to(it.name)
                   for it in self.state.children(snapshot))

    # --- what nothing lies on ---

    def tidy(self):
        """Unmounts the mounts that nothing lies on, and removes the folders of images. What
        can't be removed now is logged, and found at the next start: what was asked for is
        done."""
        aside = []
        with told_as_warning("what is not needed stays for now", OSError):
            with self.lock:
                numbers = self.state.numbers()
                self.tidy_after(self.mounts_of.release(self.state.used(True), numbers))
                self.tidy_after(self.release_folders(numbers))
                found = (self.spare & numbers) - self.state.used(False) - self.replaced.keys()
                self.spare -= found
                aside = [self.places.set_aside(path) for number in found
                         for path in (self.places.files(number), self.places.work(number))]
        for path in aside:
            places.remove(path)

    def release_folders(self, numbers):
        """Lets nothing more be unpacked over folders that images have replaced for long; after how
        many seconds there is one more, or None. The lock must be held."""
        until = time.monotonic() - self.mounts_of.keep
        self.replaced = {number: since for number, since in self.replaced.items()
                         if number in numbers and since > until}
        return min((since - until for since in self.replaced.values()), default=None)

    def tidy_after(self, seconds):
        """Sees that it is tidied again after so many seconds, or not if that is None. The lock must
        be held."""
        if seconds is not None and not self.is_due:
            self.is_due = True
            begin_after(seconds, self.tidy_again)

    def tidy_again(self):
        with self.lock:
            self.is_due = False
        with told_as_warning("what is not needed stays for now"):
            self.tidy()

    def cleanup(self):
        """Removes all that no snapshot needs, as a snapshotter that was killed has left it."""
        with self.lock:
            unknown = self.places.numbers("snapshots") - self.state.numbers()
            aside = [self.places.set_aside(self.places.snapshot(number)) for number in unknown
                     if self.maker.making != number]
            self.spare |= self.state.images()
        for path in aside:
            places.remove(path)
        self.tidy()
