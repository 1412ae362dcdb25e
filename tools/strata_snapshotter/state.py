"""What is known of the snapshots, in a database of SQLite: ROOT/state.db.

A change is one transaction, which comes after all that it needs on disk. So a snapshotter that is
killed at any moment leaves folders that no row names at worst, and those are removed at startup.

Whoever calls State holds the one lock over it.
"""
import collections
import contextlib
import enum
import json
import logging
import os
import sqlite3
import time

from strata_format.refused import Refused, one_line, shown

VERSION = 1
# the ends of the names of files: of what SQLite has beside a database, and of a copy of one that is lost
BESIDE, KEPT = ("-wal", "-shm"), ".kept"
SCHEMA = """
CREATE TABLE snapshots(
  id INTEGER PRIMARY KEY AUTOINCREMENT, name TEXT NOT NULL UNIQUE,
  parent INTEGER REFERENCES snapshots(id), kind INTEGER NOT NULL, form TEXT NOT NULL,
  is_ready INTEGER NOT NULL, labels TEXT NOT NULL, created INTEGER NOT NULL,
  updated INTEGER NOT NULL, size INTEGER NOT NULL, inodes INTEGER NOT NULL);
CREATE INDEX by_parent ON snapshots(parent);
CREATE TABLE lowers(
  snapshot INTEGER NOT NULL REFERENCES snapshots(id) ON DELETE CASCADE, place INTEGER NOT NULL,
  layer INTEGER NOT NULL REFERENCES snapshots(id), is_mount INTEGER NOT NULL,
  PRIMARY KEY(snapshot, place));
CREATE INDEX by_layer ON lowers(layer, is_mount);
PRAGMA user_version = 1;
"""
# the fs-verity digests of images; those of layers that were made by an older snapshotter are not known
SEALS = """
CREATE TABLE IF NOT EXISTS seals(
  snapshot INTEGER PRIMARY KEY REFERENCES snapshots(id) ON DELETE CASCADE, digest TEXT NOT NULL)
"""
# why layers stay folders; not known of those that an older snapshotter has left as they are
REASONS = """
CREATE TABLE IF NOT EXISTS reasons(
  snapshot INTEGER PRIMARY KEY REFERENCES snapshots(id) ON DELETE CASCADE, why TEXT NOT NULL)
"""
COLUMNS = "s.id, s.name, s.parent, p.name, s.kind, s.form, s.labels, s.created, s.updated, " \
          "s.size, s.inodes, r.why"
FOUND = "SELECT %s FROM snapshots s LEFT JOIN snapshots p ON p.id = s.parent " \
        "LEFT JOIN reasons r ON r.snapshot = s.id " % COLUMNS


class Kind(enum.IntEnum):
    """The kinds of snapshots, by containerd's numbers."""

    VIEW = 1
    ACTIVE = 2
    COMMITTED = 3


class Form(enum.Enum):
    """What the files of a snapshot are in: a folder; a folder of which an image is to be made; or a
    romfs image."""

    FOLDER = "folder"
    PENDING = "pending"
    IMAGE = "image"


# parent: the number of the snapshot that this one lies on, or None; parent_name: its name, or "".
# Times are nanoseconds since 1970; size (bytes) and inodes are those of a folder that stays or of
# an image; why: why a layer stays a folder, or None.
Snapshot = collections.namedtuple("Snapshot", "id name parent parent_name kind form labels created "
                                  "updated size inodes why")
# a folder that an overlay lies on: that of a layer, or the mount of a layer with all below it
Lower = collections.namedtuple("Lower", "layer is_mount")


def snapshot_of(row):
    """The snapshot of a row; DatabaseError where it is damaged. What a snapshot lies on has a lower
    number, so no chain is a ring."""
    at, name, parent, parent_name, kind, form, labels, *rest = row
    try:
        found = Snapshot(at, name, parent, parent_name or "", Kind(kind), Form(form),
                         json.loads(labels), *rest)
        labels = [*found.labels, *found.labels.values()]
        is_good = all(isinstance(it, str) for it in (name, *labels)) and (parent is None or parent < at)
    except (ValueError, TypeError, AttributeError, RecursionError):
        is_good = False
    if not is_good:
        raise sqlite3.DatabaseError("damaged: snapshot %s" % at)
    return found


def has_bytes(path):
    """Whether a database is there, and not empty."""
    try:
        return os.stat(path).st_size > 0
    except FileNotFoundError:
        return False


class State:
    """The open database, which is made where none is there. Refused where it is damaged, of another
    version, or missing beside snapshots: by a new one these would be removed."""

    def __init__(self, path, has_snapshots=False):
        self.path, self.has_snapshots, self.is_lost = path, has_snapshots, False
        try:
            if has_snapshots and not has_bytes(path):
                raise sqlite3.DatabaseError("missing or empty, and there are snapshots")
            self.base = sqlite3.connect(path, check_same_thread=False, isolation_level=None)
            self.prepare()
            self.opened = os.stat(path)
        except sqlite3.Error as fault:
            raise Refused("%s: %s; restore it, or remove it with the folder that it is in, and "
                          "pull the images again" % (shown(path), one_line(str(fault)))) from None

    def prepare(self):
        self.base.execute("PRAGMA journal_mode = WAL")
        self.base.execute("PRAGMA synchronous = FULL")
        self.base.execute("PRAGMA foreign_keys = ON")
        checked = self.base.execute("PRAGMA quick_check(1)").fetchone()[0]
        if checked != "ok":
            raise sqlite3.DatabaseError("damaged: " + checked.splitlines()[-1])
        version, = self.base.execute("PRAGMA user_version").fetchone()
        if version == 0 and not self.has_snapshots:
            self.base.executescript("BEGIN;" + SCHEMA + "COMMIT;")
        elif version != VERSION:
            raise sqlite3.DatabaseError("has version %d instead of %d" % (version, VERSION))
        self.base.execute(SEALS)
        self.base.execute(REASONS)
        self.every()

    def close(self):
        with contextlib.suppress(sqlite3.Error):
            self.hold_there()
        self.base.close()

    @contextlib.contextmanager
    def transaction(self):
        """Makes all changes within it, or none."""
        self.hold_there()
        self.base.execute("BEGIN IMMEDIATE")
        try:
            yield
            self.base.execute("COMMIT")
        finally:
            if self.base.in_transaction:
                self.base.execute("ROLLBACK")

    def hold_there(self):
        """Sees that the open file still has its name: changes of another one would be lost. What it
        holds is kept in a file beside it then."""
        if not self.is_lost and not self.is_there():
            self.keep()
            self.is_lost = True
            logging.error("%s was removed or replaced: stop the service, and rename %s, which has what it held",
                          self.path, self.path + KEPT)
        if self.is_lost:
            raise sqlite3.DatabaseError("%s was removed or replaced" % self.path)

    def is_there(self):
        try:
            return os.path.samestat(os.stat(self.path), self.opened)
        except FileNotFoundError:
            return False

    def keep(self):
        """Copies what the database holds. What SQLite has beside it is no other database's."""
        with contextlib.closing(sqlite3.connect(self.path + KEPT)) as kept:
            self.base.backup(kept)
        for end in BESIDE:
            with contextlib.suppress(FileNotFoundError):
                os.unlink(self.path + end)

    # --- what is there ---

    def one(self, condition, *values):
        row = self.base.execute(FOUND + condition, values).fetchone()
        return None if row is None else snapshot_of(row)

    def find(self, name):
        """The snapshot of a name, or None."""
        return self.one("WHERE s.name = ?", name)

    def by_id(self, number):
        return self.one("WHERE s.id = ?", number)

    def pending(self):
        """The first snapshot of which an image is to be made, or None. What it lies on was
        committed before it, and comes first."""
        return self.one("WHERE s.form = 'pending' AND s.kind = 3 ORDER BY s.id LIMIT 1")

    def every(self):
        return [snapshot_of(row) for row in self.base.execute(FOUND + "ORDER BY s.id")]

    def chain(self, snapshot):
        """A snapshot and all that it lies on, the highest first."""
        found = []
        while snapshot is not None:
            found.append(snapshot)
            snapshot = None if snapshot.parent is None else self.by_id(snapshot.parent)
        return found

    def children(self, snapshot):
        """The snapshots that lie on one."""
        found = self.base.execute(FOUND + "WHERE s.parent = ?", (snapshot.id,))
        return [snapshot_of(row) for row in found]

    def ready(self, parent, key, value):
        """The layer over a parent that was committed without being unpacked and has a label, or
        None."""
        found = self.base.execute(FOUND + "WHERE s.is_ready AND s.parent IS ?",
                                  (None if parent is None else parent.id,))
        return next((it for it in map(snapshot_of, found) if it.labels.get(key) == value), None)

    def numbers(self):
        return {number for number, in self.base.execute("SELECT id FROM snapshots")}

    def digest(self, number):
        """The fs-verity digest of a layer's image, or None if it isn't known."""
        found = self.base.execute("SELECT digest FROM seals WHERE snapshot = ?", (number,))
        return next((digest for digest, in found), None)

    # --- what lies on what ---

    def lowers(self, snapshot):
        """What an overlay lies on, the highest first, as it was said when it was made."""
        found = self.base.execute("SELECT layer, is_mount FROM lowers WHERE snapshot = ? "
                                  "ORDER BY place", (snapshot.id,))
        return [Lower(layer, bool(is_mount)) for layer, is_mount in found]

    def used(self, is_mount):
        """The layers whose mounts, or whose folders, something lies on."""
        found = self.base.execute("SELECT DISTINCT layer FROM lowers WHERE is_mount = ?",
                                  (is_mount,))
        return {layer for layer, in found}

    def images(self):
        """The layers that are images."""
        found = self.base.execute("SELECT id FROM snapshots WHERE form = 'image'")
        return {number for number, in found}

    # --- changes ---

    def insert(self, name, parent, kind, labels, form=Form.FOLDER, is_ready=False):
        """A new snapshot's number."""
        now = time.time_ns()
        return self.base.execute(
            "INSERT INTO snapshots(name, parent, kind, form, is_ready, labels, created, updated, "
            "size, inodes) VALUES(?, ?, ?, ?, ?, ?, ?, ?, 0, 0)",
            (name, None if parent is None else parent.id, kind, form.value, is_ready,
             json.dumps(labels), now, now)).lastrowid

    def insert_lowers(self, number, lowers):
        self.base.executemany(
            "INSERT INTO lowers(snapshot, place, layer, is_mount) VALUES(?, ?, ?, ?)",
            [(number, place, *it) for place, it in enumerate(lowers)])

    def commit(self, snapshot, name, labels, form):
        """Makes a committed snapshot of an active one."""
        now = time.time_ns()
        self.base.execute("DELETE FROM lowers WHERE snapshot = ?", (snapshot.id,))
        self.base.execute(
            "UPDATE snapshots SET name = ?, kind = ?, form = ?, labels = ?, created = ?, "
            "updated = ? WHERE id = ?",
            (name, Kind.COMMITTED, form.value, json.dumps(labels), now, now, snapshot.id))

    def settle(self, number, form, usage, digest=None, why=None):
        """Says what the files of a committed snapshot are in from now on, what they take, the
        fs-verity digest of an image, and why they stay in a folder."""
        self.base.execute("UPDATE snapshots SET form = ?, size = ?, inodes = ? WHERE id = ?",
                          (form.value, *usage, number))
        if digest is not None:
            self.base.execute("INSERT OR REPLACE INTO seals VALUES(?, ?)", (number, digest))
        if why is not None:
            self.base.execute("INSERT OR REPLACE INTO reasons VALUES(?, ?)", (number, why))

    def set_labels(self, snapshot, labels):
        self.base.execute("UPDATE snapshots SET labels = ?, updated = ? WHERE id = ?",
                          (json.dumps(labels), time.time_ns(), snapshot.id))

    def delete(self, snapshot):
        self.base.execute("DELETE FROM snapshots WHERE id = ?", (snapshot.id,))
