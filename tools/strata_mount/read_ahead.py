"""Asks for the headers of images that the page cache does not hold, all at once.

A server that begins looks at one header after another. From a disk each of them is a wait, and the
kernel reads on behind each, since it takes what lies there for wanted. But the attribute trailer of
an image names the places of its headers. Who asks for these, and for nothing between them, gives
the disk many reads to do at a time, and the cache no data of files.
"""
import _thread
import os
import stat
import struct

from strata_format.image_files import LOOKING, read_once

MAGIC, HEAD_SIZE = b"-attr01-", 16
SIZE, ROW = struct.Struct(">8xI"), struct.Struct(">I28x")
# so many rows are read at once, and of a trailer at most so many that a stranger's takes no time
ROWS, ROWS_MOST = 1 << 12, 1 << 20
# a header with most names, and how far apart those are that one read brings, of so many bytes
HEADER, APART, MOST = 64, 4096, 1 << 17


class Trailer:
    """The attribute trailer of an image: where it begins, and where the image ends."""

    def __init__(self, number):
        self.number, self.place = number, None
        try:
            full, = SIZE.unpack(os.pread(number, SIZE.size, 0))
            self.place = full + -full % HEAD_SIZE
        except (OSError, struct.error):
            pass  # strata says what is wrong with it

    def is_cold(self):
        """Whether it has to be fetched."""
        if self.place is None:
            return False
        try:
            os.preadv(self.number, [bytearray(1)], self.place, os.RWF_NOWAIT)
            return False
        except BlockingIOError:
            return True
        except OSError:
            return False  # this file system does not tell

    def places(self):
        """The places of headers, as far as they rise."""
        if os.pread(self.number, len(MAGIC), self.place) != MAGIC:
            return
        last = -1
        for first in range(0, ROWS_MOST, ROWS):
            at = self.place + HEAD_SIZE + first * ROW.size
            data = os.pread(self.number, ROWS * ROW.size, at)
            for place, in ROW.iter_unpack(data[:len(data) // ROW.size * ROW.size]):
                if not last < place < self.place:
                    return
                last = place
                yield place
            if len(data) < ROWS * ROW.size:
                return

    def ask(self):
        """Asks for the headers."""
        start = end = 0
        for place in self.places():
            if place - end > APART or place - start > MOST:
                os.posix_fadvise(self.number, start, end - start, os.POSIX_FADV_WILLNEED)
                start = place
            end = place + HEADER
        os.posix_fadvise(self.number, start, end - start, os.POSIX_FADV_WILLNEED)


def cold_ones(images):
    """The trailers of those images, open, that the page cache does not hold. Whatever is no file is
    left out; a pipe is not even opened, since its writer would take that for its reader."""
    found = []
    for image in images:
        try:
            if read_once(image) is not None:
                continue
            number = os.open(image, LOOKING)
        except OSError:
            continue
        trailer = Trailer(number) if stat.S_ISREG(os.fstat(number).st_mode) else None
        if trailer is not None and trailer.is_cold():
            found.append(trailer)
        else:
            os.close(number)
    return found


def ask(trailers):
    """Asks for the headers of these images, while this process goes on. It ends with it."""
    def ask_each():
        for trailer in trailers:
            try:
                trailer.ask()
            except OSError:
                pass
            os.close(trailer.number)

    if trailers:
        _thread.start_new_thread(ask_each, ())
