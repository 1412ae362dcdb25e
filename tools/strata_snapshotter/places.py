"""Where a snapshotter keeps what.

    ROOT/state.db            what is known of the snapshots
    ROOT/snapshots/N/fs      the folder of snapshot N: what containerd unpacks or a container writes
    ROOT/snapshots/N/work    overlayfs's own folder beside it
    ROOT/snapshots/N/layer.romfs    the image of a layer
    ROOT/snapshots/N/layer.romfs.verity    its fs-verity tree
    ROOT/mounts/N            the mount of layer N with all below it
    ROOT/new/                images that are being made
    ROOT/trash/              folders that are being removed
    ROOT/lock                held by the one snapshotter that runs
"""
import contextlib
import fcntl
import logging
import os
import secrets
import shutil
import stat
import subprocess

from strata_format.files import copy_front, write_all
from strata_format.progress import unheard
from strata_format.refused import Refused, one_line, shown
from strata_layers.store import heard_pieces
from strata_layers.verity import TREE, seal_of

FOLDERS = ("snapshots", "mounts", "new", "trash")


def sync_folder(path):
    """Waits until the names in a folder are on the disk."""
    number = os.open(path, os.O_RDONLY | os.O_DIRECTORY | os.O_CLOEXEC)
    try:
        os.fsync(number)
    finally:
        os.close(number)


class Places:
    """The folder of a snapshotter, which is made where it isn't there. Refused where others may
    write in it, or where another snapshotter holds it."""

    def __init__(self, root):
        self.root = os.path.realpath(root)
        os.makedirs(self.root, 0o700, exist_ok=True)
        self.folder = os.open(self.root, os.O_RDONLY | os.O_DIRECTORY | os.O_CLOEXEC)
        found = os.fstat(self.folder)
        if found.st_uid != os.geteuid() or stat.S_IMODE(found.st_mode) & 0o077:
            raise Refused("%s: must belong to the user who runs this, with the mode 700"
                          % shown(self.root))
        flags = os.O_RDWR | os.O_CREAT | os.O_NOFOLLOW | os.O_CLOEXEC
        self.lock = os.open("lock", flags, 0o600, dir_fd=self.folder)
        try:
            fcntl.flock(self.lock, fcntl.LOCK_EX | fcntl.LOCK_NB)
        except BlockingIOError:
            raise Refused("%s: another snapshotter runs here" % shown(self.root)) from None
        for name in FOLDERS:
            os.makedirs(self.at(name), 0o700, exist_ok=True)

    def at(self, *names):
        return os.path.join(self.root, *names)

    def snapshot(self, number):
        return self.at("snapshots", str(number))

    def files(self, number):
        return self.at("snapshots", str(number), "fs")

    def work(self, number):
        return self.at("snapshots", str(number), "work")

    def image(self, number):
        return self.at("snapshots", str(number), "layer.romfs")

    def mount(self, number):
        return self.at("mounts", str(number))

    def numbers(self, name):
        """The numbers that the folders `snapshots` or `mounts` have."""
        return {int(it) for it in os.listdir(self.at(name)) if it.isascii() and it.isdigit()}

    # --- what is made and removed ---

    def make(self, number, owner):
        """Makes the folders of a snapshot that is written to."""
        self.forget(number)
        os.mkdir(self.snapshot(number), 0o711)
        os.mkdir(self.work(number), 0o711)
        os.mkdir(self.files(number), 0o755)
        os.chmod(self.files(number), 0o755)
        if owner is not None:
            os.chown(self.files(number), *owner)

    def forget(self, number):
        """Removes what has the number of a snapshot that is new: another call may have failed after
        it had been given this number."""
        remove(self.set_aside(self.snapshot(number)))

    @contextlib.contextmanager
    def new_image(self):
        """A new file, open without a buffer, and its path; unless it is renamed it is removed, and so
        is its tree."""
        path = self.at("new", secrets.token_hex(8))
        try:
            with open(path, "x+b", 0) as file:
                yield file, path
        finally:
            for name in (path, path + TREE):
                with contextlib.suppress(FileNotFoundError):
                    os.unlink(name)

    def seal(self, path, heard=unheard):
        """Writes the fs-verity tree of a new image that is whole; its digest. `heard` is called for
        each piece."""
        with open(path, "rb", 0) as image, open(path + TREE, "xb", 0) as tree:
            found = seal_of(heard_pieces(image.fileno(), heard))
            for level in found.levels:
                write_all(tree, level)
            os.fsync(tree.fileno())
        return found.digest

    def take(self, number, file, path):
        """Puts an open file that nobody writes into the place of a new one: by another name, or, if
        that can't be, by a copy."""
        name = os.path.relpath(path, self.root)
        try:
            # with a folder's descriptor the link in /proc is followed
            os.link("/proc/self/fd/%d" % number, name + "-", dst_dir_fd=self.folder)
            os.rename(name + "-", name, src_dir_fd=self.folder, dst_dir_fd=self.folder)
        except OSError:
            copy_front(number, file.fileno(), os.fstat(number).st_size, unheard)

    def keep_image(self, path, number):
        """Gives an image that is whole, and on the disk with its tree, its place."""
        os.makedirs(self.snapshot(number), 0o711, exist_ok=True)
        os.rename(path + TREE, self.image(number) + TREE)
        os.rename(path, self.image(number))
        sync_folder(self.snapshot(number))
        sync_folder(self.at("snapshots"))

    def set_aside(self, path):
        """Takes a folder away at once; its new path, where it waits to be removed, or None where
        there is none or it can't be removed, which is logged."""
        aside = self.at("trash", secrets.token_hex(8))
        try:
            os.rename(path, aside)
            return aside
        except FileNotFoundError:
            pass
        except OSError as fault:
            logging.warning("%s stays for now: %s", path, fault.strerror)
        return None

    def clear(self):
        """Removes what an earlier snapshotter was about to make or to remove."""
        for name in ("new", "trash"):
            for it in os.listdir(self.at(name)):
                remove(self.at(name, it))


def remove(path):
    """Removes a file, or a folder with all in it; None is nothing. What can't be removed is logged:
    it is found again at the next start."""
    if path is None:
        return
    try:
        if os.path.isdir(path) and not os.path.islink(path):
            remove_folder(path)
        else:
            os.unlink(path)
    except FileNotFoundError:
        pass
    except OSError as fault:
        logging.warning("%s stays for now: %s", path, fault.strerror)


def remove_folder(path):
    """Removes a folder with all in it. Python's own function goes so deep only, and a container may have
    made folders within folders without end."""
    try:
        shutil.rmtree(path)
    except RecursionError:
        done = subprocess.run(["rm", "-rf", "--", path], stdin=subprocess.DEVNULL,
                              stdout=subprocess.DEVNULL, stderr=subprocess.PIPE, check=False)
        if done.returncode != 0:
            raise OSError(0, one_line(done.stderr.decode(errors="replace").strip())) from None


def found_in(path):
    """What a file is, or a folder and all in it. What vanishes meanwhile is left out, and so is what lies
    so deep that no path leads there."""
    todo = [path]
    with contextlib.suppress(FileNotFoundError):
        yield os.lstat(path)
    while todo:
        with contextlib.suppress(OSError), os.scandir(todo.pop()) as entries:
            for it in entries:
                with contextlib.suppress(OSError):
                    found = it.stat(follow_symlinks=False)
                    if stat.S_ISDIR(found.st_mode):
                        todo.append(it.path)
                    yield found


def usage(path):
    """The bytes on disk and the inodes of a file, or of a folder with all in it, each hard link
    once."""
    size, count, linked = 0, 0, set()
    for found in found_in(path):
        key = found.st_dev, found.st_ino
        if found.st_nlink > 1 and not stat.S_ISDIR(found.st_mode):
            if key in linked:
                continue
            linked.add(key)
        size += found.st_blocks * 512
        count += 1
    return size, count
