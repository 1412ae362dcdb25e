"""Files and folders that are made. A file is written under a passing name, and gets its own when it
is whole.

    with new_file(folder, place, 0o644) as new:       folder: an open one, whose path is place
        write_all(new.file, data)
        new.keep(folder, "name")                      without this nothing stays
"""
import errno
import os

from strata_format.refused import faults_below

# how a stranger's file is opened: no link is followed, and no pipe is waited for
READING = os.O_RDONLY | os.O_NOFOLLOW | os.O_NONBLOCK | os.O_CLOEXEC
# so many bytes are copied at once
PIECE = 1 << 26


# --- folders ---

def open_folder(name, above=None):
    """An open folder; below an open one no link is followed."""
    flags = os.O_RDONLY | os.O_DIRECTORY | os.O_CLOEXEC
    return os.open(name, flags | (os.O_NOFOLLOW if above is not None else 0), dir_fd=above)


def make_folder(name, above=None, mode=0o755, made=None):
    """The same, which is made where it isn't there, and then told by a call of `made`."""
    try:
        os.mkdir(name, mode, dir_fd=above)
    except FileExistsError:
        pass
    else:
        if made:
            made()
    return open_folder(name, above)


def names_in(folder):
    """The names that an open folder holds now: btrfs lists only what it held when it was opened."""
    number = open_folder(".", folder)
    try:
        return os.listdir(number)
    finally:
        os.close(number)


# --- new files ---

class new_file:
    """A new file of a mode, open for writing and reading without a buffer, in an open folder, where
    it stays only under a name that it is given. Its passing name begins with `front`; faults name
    the folder's place."""

    def __init__(self, folder, place, mode, front="", is_lasting=False):
        self.folder, self.is_lasting, self.faults = folder, is_lasting, faults_below(place)
        self.passing = front + os.urandom(8).hex()
        flags = os.O_RDWR | os.O_CREAT | os.O_EXCL | os.O_NOFOLLOW | os.O_CLOEXEC
        with self.faults:
            self.file = os.fdopen(os.open(self.passing, flags, mode, dir_fd=folder), "w+b", 0)

    def __enter__(self):
        return self

    def __exit__(self, *fault):
        with self.faults:
            self.close()
        return self.faults.__exit__(*fault)

    def keep(self, folder, name):
        """Gives the file, which is whole, its name in an open folder of the same file system, instead
        of what had this name. One that is lasting is on the disk before, and its name behind."""
        if self.is_lasting:
            os.fsync(self.file.fileno())
        os.rename(self.passing, name, src_dir_fd=self.folder, dst_dir_fd=folder)
        if self.is_lasting:
            os.fsync(folder)

    def close(self):
        """Closes the file, and removes it if it got no name."""
        self.file.close()
        try:
            os.unlink(self.passing, dir_fd=self.folder)
        except FileNotFoundError:
            pass


# --- bytes ---

def write_all(file, data):
    """Writes bytes to an open file without a buffer."""
    left = memoryview(data)
    while left:
        left = left[file.write(left):]


def is_zeros(data):
    """Whether bytes, of which there are some, are zeros."""
    return data[0] == data[-1] == 0 and data == bytes(len(data))


def write_at(number, data, at):
    """Writes bytes over those at a place of an open file."""
    while data:
        count = os.pwrite(number, data, at)
        at, data = at + count, data[count:]


def data_parts(number, size):
    """Where data of the first `size` bytes of an open file begin and end. Between them are holes."""
    end = 0
    while end < size:
        try:
            start = os.lseek(number, end, os.SEEK_DATA)
        except OSError as fault:
            if fault.errno != errno.ENXIO:
                raise
            return
        end = min(os.lseek(number, start, os.SEEK_HOLE), size)
        if start < end:
            yield start, end


def copy_front(source, out, size, heard):
    """Copies the first bytes of an open file into a new one, with their holes; an error where there
    are fewer. `heard` gets how many are copied."""
    os.ftruncate(out, size)
    done = 0
    for at, end in data_parts(source, size):
        os.lseek(out, at, os.SEEK_SET)
        heard(at - done)
        done = end
        while at < end:
            count = os.sendfile(out, source, at, min(PIECE, end - at))
            if count == 0:
                raise OSError(errno.EIO, os.strerror(errno.EIO))
            at += count
            heard(count)
    heard(size - done)
    if os.fstat(source).st_size < size:
        raise OSError(errno.EIO, os.strerror(errno.EIO))
