"""A store of layers: each layer once, as an image of romfs in a file that its digest names.

    STORE/blobs/sha256/DIGITS   layers, which are never written to once they have this name
    STORE/blobs/sha256/DIGITS.verity    the fs-verity tree of one
    STORE/blobs/sha256/DIGITS.damaged   one that had other bytes than its name says
    STORE/images/NAME:TAG       images, as JSON; a slash of the name is a % here
    STORE/made/DIGEST           which layer was made of a blob of this digest
    STORE/made/DIGEST.verity    the fs-verity digest of a layer
    STORE/new/                  what is being written; who holds the lock may clear it
    STORE/lock                  held by the one run that writes

Files are written in STORE/new, and renamed when they are complete and on the disk. A reader
thus sees only complete files, and needs no lock.
"""
import errno
import fcntl
import os
import stat

from strata_format import ends
from strata_format.files import READING, data_parts, make_folder, names_in, new_file, open_folder, write_all
from strata_format.json_text import value_of
from strata_format.progress import unheard
from strata_format.refused import Refused, faults_below, one_line, shown
from strata_format.words import quoted

SYSTEM = "/var/lib"
MARK, MARK_TEXT = "strata-store", b"1\n"
DIGEST, DIGITS, DIGITS_COUNT = "sha256:", frozenset("0123456789abcdef"), 64
NO_STORE = "%s: no store of layers"
# the folders of a store, each behind the one that it is in
FOLDERS = "blobs", "blobs/sha256", "images", "made", "new"
# the end of the name of a layer that is set aside, and of that of a layer's tree
DAMAGED, TREE = ".damaged", ".verity"
PIECE = 1 << 18
ZEROS = bytes(PIECE)
SMALL_MOST = 8 << 20


def is_system_root():
    """Whether this user is root, and not of a user namespace alone, where others own /var/lib."""
    try:
        return os.geteuid() == 0 and os.stat(SYSTEM).st_uid == 0
    except OSError:
        return os.geteuid() == 0


def default_place():
    """Where the store is if nobody says."""
    if is_system_root():
        return SYSTEM + "/strata"
    home = os.environ.get("XDG_DATA_HOME", "")
    if not os.path.isabs(home):
        home = os.path.join(os.path.expanduser("~"), ".local", "share")
    return os.path.join(home, "strata")


def told_verb(verb, place, *names):
    """How a verb of strata-layers is called for the store at a place, which is named unless it is the usual one."""
    where = ["--store " + one_line(quoted([place]))] * (os.path.abspath(place) != os.path.abspath(default_place()))
    return "`%s`" % " ".join(["strata-layers", verb, *where, *names])


def are_digits(text):
    """Whether text is the digits of a digest."""
    return len(text) == DIGITS_COUNT and DIGITS.issuperset(text)


def digits_of(digest, where):
    """The digits of a digest that a file of the store says."""
    if not isinstance(digest, str) or not digest.startswith(DIGEST) or not are_digits(digest[len(DIGEST):]):
        raise Refused("%s: not a valid digest of a layer" % where)
    return digest.partition(":")[2]


def pieces_of(number):
    """The bytes of an open file, in pieces. Its holes are not read."""
    size, at = os.fstat(number).st_size, 0
    for start, end in data_parts(number, size):
        yield from zeros(start - at)
        at = start
        while at < end:
            data = os.pread(number, min(PIECE, end - at), at)
            if not data:
                return
            yield data
            at += len(data)
    yield from zeros(size - at)


def heard_pieces(number, heard):
    """The same; `heard` gets the size of each piece."""
    for data in pieces_of(number):
        heard(len(data))
        yield data


def zeros(size):
    for _ in range(size // PIECE):
        yield ZEROS
    if size % PIECE:
        yield ZEROS[:size % PIECE]


def file_digits(number, heard=unheard):
    """The digits of the digest of an open file."""
    import hashlib  # here, as shutil below: a mount by name needs neither, and they load longer
    found = hashlib.sha256()
    for data in pieces_of(number):
        found.update(data)
        heard(len(data))
    return found.hexdigest()


def is_locked_at_once(number):
    """Locks an open file for this run alone, if no other run has it locked; whether it did."""
    try:
        fcntl.flock(number, fcntl.LOCK_EX | fcntl.LOCK_NB)
        return True
    except BlockingIOError:
        return False


class Locked:
    """A store in which no other run writes: it is waited for, and what an interrupted one has left is removed."""

    def __init__(self, store):
        flags = os.O_RDWR | os.O_CREAT | os.O_NOFOLLOW | os.O_CLOEXEC
        with faults_below(store.place):
            self.number = os.open("lock", flags, 0o600, dir_fd=store.root)
        try:
            if not is_locked_at_once(self.number):
                ends.write("%s: waiting for another run\n" % store.name)
                fcntl.flock(self.number, fcntl.LOCK_EX)
            store.clear()
        except BaseException:
            os.close(self.number)
            raise

    def __enter__(self):
        return self

    def __exit__(self, *_):
        os.close(self.number)


class Shared(Refused):
    """A store that others may write to, or that is another user's."""


class Store:
    """The store in a folder, which is made where `make` says so; none but its owner may look into
    it. Refused where there is none, where the folder holds something else, and where others may
    write."""

    def __init__(self, place, make=False):
        self.place, self.name = os.path.abspath(place), shown(os.fsencode(place))
        if make:
            os.makedirs(self.place, 0o700, exist_ok=True)
        try:
            self.root = open_folder(self.place)
        except FileNotFoundError:
            raise self.none_yet() from None
        except NotADirectoryError:
            raise Refused(NO_STORE % self.name) from None
        # its open folders, by their names within the store
        self.folders = {"": self.root}
        self.hold_own()
        with faults_below(self.place):
            self.mark(make)
            self.open_folders(make_folder if make else open_folder)
        self.hold_own()

    def open_folders(self, opened):
        """Opens the store's own folders; without the right to write, it can be read."""
        try:
            for name in FOLDERS:
                above, _, last = name.rpartition("/")
                self.folders[name] = opened(last, self.folders[above])
        except FileNotFoundError:
            # the run that made it was killed before it brought anything
            raise self.none_yet() from None
        self.blobs, self.images, self.records, self.new = map(self.folders.get, FOLDERS[1:])

    def none_yet(self):
        """Why there is no store where one could be made."""
        return Refused("%s; %s makes one" % (NO_STORE % self.name, told_verb("pull", self.place, "SOURCE", "NAME")))

    def hold_own(self):
        """Sees that nobody else may write in the store's folders: who may could lead what is
        written, and what is removed, elsewhere, and gives mounts other bytes."""
        for name, number in self.folders.items():
            found = os.fstat(number)
            is_shared = found.st_mode & 0o002 or found.st_mode & 0o020 and found.st_gid != os.getegid()
            if is_shared or found.st_uid not in (0, os.geteuid()):
                raise Shared("%s: a store must be its user's own, and others may write in this folder"
                             % (self.name + "/" * (name != "") + name))

    def mark(self, make):
        """Sees that the folder is a store, or, where it is empty, makes it one: the mark comes
        first."""
        if make:
            fcntl.flock(self.root, fcntl.LOCK_EX)
        found = self.small_file(self.root, MARK)
        if found is None and make and not names_in(self.root):
            flags = os.O_WRONLY | os.O_CREAT | os.O_EXCL | os.O_CLOEXEC
            number = os.open(MARK, flags, 0o644, dir_fd=self.root)
            os.write(number, MARK_TEXT)
            os.close(number)
            found = MARK_TEXT
        if make:
            fcntl.flock(self.root, fcntl.LOCK_UN)
        # a run that was killed may have left an empty mark
        if found not in (MARK_TEXT, b""):
            raise Refused(NO_STORE % self.name) if names_in(self.root) else self.none_yet()

    def locked(self):
        """Waits until no other run writes; then removes what an interrupted one has left."""
        return Locked(self)

    def clear(self):
        import shutil
        for name in names_in(self.new):
            if stat.S_ISDIR(os.stat(name, dir_fd=self.new, follow_symlinks=False).st_mode):
                shutil.rmtree("/proc/self/fd/%d/%s" % (self.new, name), ignore_errors=True)
            else:
                os.unlink(name, dir_fd=self.new)

    # --- files ---

    def new_file(self):
        """A new file in STORE/new, where it doesn't stay."""
        return new_file(self.new, self.place, 0o600, is_lasting=True)

    def write_small(self, folder, name, data):
        with self.new_file() as new:
            write_all(new.file, data)
            new.keep(folder, name)

    def small_file(self, folder, name):
        """The bytes of a small file, or None where there is none."""
        try:
            number = os.open(name, READING, dir_fd=folder)
        except FileNotFoundError:
            return None
        except OSError as fault:
            if fault.errno == errno.ELOOP:
                raise Refused("%s: %s: is a symbolic link" % (self.name, shown(name))) from None
            raise
        with os.fdopen(number, "rb") as file:
            if not stat.S_ISREG(os.fstat(number).st_mode):
                raise Refused("%s: %s: no file" % (self.name, shown(name)))
            return file.read(SMALL_MOST)

    def small_json(self, folder, name):
        """The object in a small file, or None where there is none."""
        data = self.small_file(folder, name)
        if data is None:
            return None
        try:
            value = value_of(data)
        except (ValueError, RecursionError):
            value = None
        if not isinstance(value, dict):
            raise Refused("%s: %s: no JSON object" % (self.name, shown(name)))
        return value

    # --- layers ---

    def path_of(self, digits):
        return os.path.join(self.place, "blobs", "sha256", digits)

    def open_layer(self, digits):
        """An open file of a layer, or None where it is missing."""
        try:
            number = os.open(digits, READING, dir_fd=self.blobs)
        except FileNotFoundError:
            return None
        if not stat.S_ISREG(os.fstat(number).st_mode):
            os.close(number)
            raise Refused("%s: no file" % shown(os.fsencode(self.path_of(digits))))
        return number

    def size_of(self, digits):
        """The size of a layer, or None where it is missing."""
        number = self.open_layer(digits)
        if number is None:
            return None
        try:
            return os.fstat(number).st_size
        finally:
            os.close(number)

    def keep_layer(self, new, digits):
        """Gives a layer that is written its name; it can be read only."""
        os.fchmod(new.file.fileno(), 0o444)
        new.keep(self.blobs, digits)

    def keep_tree(self, levels, digits):
        """Keeps the tree of a layer."""
        with self.new_file() as new:
            for level in levels:
                write_all(new.file, level)
            self.keep_layer(new, digits + TREE)

    def set_aside(self, number, digits):
        """Takes the layer in an open file, whose bytes are wrong, out of use; whether it still had its
        name. The store must be locked."""
        found = os.fstat(number)
        try:
            named = os.stat(digits, dir_fd=self.blobs, follow_symlinks=False)
        except FileNotFoundError:
            return False
        if (named.st_dev, named.st_ino) != (found.st_dev, found.st_ino):
            return False
        os.rename(digits, digits + DAMAGED, src_dir_fd=self.blobs, dst_dir_fd=self.blobs)
        os.fsync(self.blobs)
        return True

    def layers(self, ending=""):
        """The digits of all layers, in order; with the ending DAMAGED, of those set aside, and with
        TREE of those that have a tree."""
        names = (it[:len(it) - len(ending)] for it in names_in(self.blobs) if it.endswith(ending))
        return sorted(filter(are_digits, names))
