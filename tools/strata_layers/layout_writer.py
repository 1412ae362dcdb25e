"""Writes images into an OCI image layout, which is made where it isn't there.

Blobs are written beside their place and renamed; the index, which names them, comes last. What a
run that fails has brought is removed, so no half layout stays. Two runs over one layout
wait for one another. Nothing is waited for until it is on the disk, as in a store: a program that copies a
layout looks at the digests, and it can be written again.
"""
import contextlib
import fcntl
import hashlib
import json
import os
import re
import stat

from strata_format.files import copy_front, make_folder, names_in, new_file, write_all
from strata_format.refused import Refused, shown
from strata_layers.layouts import REFERENCE, Layout, has_type, parsed, split_at_folder

NEW = ".strata-"
# the file that makes a folder a layout, and what it says
LAYOUT_FILE, LAYOUT = "oci-layout", {"imageLayoutVersion": "1.0.0"}
TAG = re.compile(r"[A-Za-z0-9](-?[A-Za-z0-9._:@/+-])*")
FICLONE = 0x40049409


def split_new_name(word):
    """The folder and the tag of `LAYOUT[:TAG]`, where LAYOUT need not be there: a tag has no
    slash."""
    found = split_at_folder(word)
    if found is not None:
        return found
    folder, colon, tag = word.rpartition(":")
    return (folder, tag) if colon and folder and "/" not in tag else (word, None)


def check_tag(tag):
    if not has_type(tag, str) or not TAG.fullmatch(tag) or len(tag) > 128:
        raise Refused("%s: not a valid tag" % shown(str(tag)))


def copy_file(source, out, heard):
    """Copies an open file into a new one; where the file system can, the two share their blocks."""
    with contextlib.suppress(OSError):
        fcntl.ioctl(out, FICLONE, source)
        return
    copy_front(source, out, os.fstat(source).st_size, heard)


def take_away(remove, name, above):
    """Removes a file or folder that a run has brought; a folder in which others are stays."""
    with contextlib.suppress(OSError):
        remove(name, dir_fd=above)


class LayoutWriter:
    """A layout that is written to, by one run at a time: from the beginning of a `with` to its end.
    `brought` removes what this run has brought; once the index names it, nothing."""

    def __init__(self, folder):
        self.folder, self.name = folder, shown(os.fsencode(folder))

    def __enter__(self):
        with contextlib.ExitStack() as self.brought:
            self.root = self.locked_root()
            self.begin()
            self.blobs = self.made_folder("sha256", self.made_folder("blobs", self.root))
            self.brought = self.brought.pop_all()
        return self

    def __exit__(self, *_):
        self.brought.close()

    def locked_root(self):
        """The layout's own folder, for this run alone. The run that held it may have
        removed it."""
        while True:
            root = self.made_folder(self.folder)
            fcntl.flock(root, fcntl.LOCK_EX)
            if os.fstat(root).st_nlink > 0:
                return root
            os.close(root)

    def begin(self):
        """Removes what an interrupted run has left, and sees that the folder is a layout or
        empty."""
        for name in names_in(self.root):
            if name.startswith(NEW):
                os.unlink(name, dir_fd=self.root)
        if names_in(self.root):
            Layout(self.folder)
        else:
            self.write(self.root, LAYOUT_FILE, json_bytes(LAYOUT))

    # --- files ---

    def made_folder(self, name, above=None):
        """An open folder. One that is made for this run is removed if the run fails."""
        return make_folder(name, above, 0o777,
                           lambda: self.brought.callback(take_away, os.rmdir, name, above))

    def keep(self, new, folder, name):
        """Gives a file, which is whole, its name."""
        is_new = not os.access(name, os.F_OK, dir_fd=folder, follow_symlinks=False)
        new.keep(folder, name)
        if is_new:
            self.brought.callback(take_away, os.unlink, name, folder)

    def new_file(self):
        """A new file beside the layout's own, where it doesn't stay."""
        return new_file(self.root, os.path.abspath(self.folder), 0o666, NEW)

    def write(self, folder, name, data):
        with self.new_file() as new:
            write_all(new.file, data)
            self.keep(new, folder, name)

    def has(self, digits, size):
        """Whether there is a blob of this size."""
        try:
            found = os.stat(digits, dir_fd=self.blobs, follow_symlinks=False)
        except FileNotFoundError:
            return False
        return stat.S_ISREG(found.st_mode) and found.st_size == size

    # --- blobs ---

    def document(self, media, value, **more):
        """Writes an object as a blob; its descriptor."""
        data = json_bytes(value)
        digits = hashlib.sha256(data).hexdigest()
        if not self.has(digits, len(data)):
            self.write(self.blobs, digits, data)
        return {"mediaType": media, "digest": "sha256:" + digits, "size": len(data), **more}

    def copy_of(self, number, digits, heard):
        """Writes a blob that is an open file, whose digest has these digits; `heard` gets how many
        bytes are copied."""
        with self.new_file() as new:
            copy_file(number, new.file.fileno(), heard)
            self.keep(new, self.blobs, digits)

    def blob(self, pieces):
        """Writes a blob; its digits and its size."""
        found, size = hashlib.sha256(), 0
        with self.new_file() as new:
            for data in pieces:
                found.update(data)
                size += len(data)
                write_all(new.file, data)
            self.keep(new, self.blobs, found.hexdigest())
        return found.hexdigest(), size

    # --- the index ---

    def put_index(self, descriptor, tag):
        """Names an image in the index, instead of what had this tag."""
        name = self.name + "/index.json"
        try:
            value = parsed(Layout(self.folder).small_file("index.json"), name)
        except Refused:
            if os.path.lexists(os.path.join(self.folder, "index.json")):
                raise
            value = {"schemaVersion": 2}
        there = value.get("manifests", [])
        notes = [it.get("annotations") or {} for it in there if has_type(it, dict)] if has_type(there, list) else [None]
        if len(notes) != len(there) or not all(has_type(it, dict) for it in notes):
            raise Refused("%s: no valid 'manifests'" % name)
        others = [it for it, its_notes in zip(there, notes) if its_notes.get(REFERENCE) != tag]
        named = {**descriptor, "annotations": {REFERENCE: tag}}
        with self.new_file() as new:
            write_all(new.file, json_bytes({**value, "manifests": [*others, named]}))
            # an index never names what is removed
            self.brought.pop_all()
            new.keep(self.root, "index.json")


def json_bytes(value):
    """The same bytes for the same value."""
    return json.dumps(value, separators=(",", ":"), ensure_ascii=True).encode()
