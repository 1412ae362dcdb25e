"""One line of progress, where standard error is a terminal and the work takes more than a
second."""
import os
import sys
import time

from strata_format import ends

FIRST_AFTER, NEXT_AFTER = 1.0, 0.2
MEGABYTE = 1_000_000


class Progress:
    """Bytes of all, or None where it is not known how many there are. `add` tells how many more
    were read, and `unpack` how many came of them, since few may unpack to very many; `end` takes
    the line away."""

    def __init__(self, what, total):
        self.what, self.total, self.count, self.unpacked = what, total, 0, 0
        try:
            self.is_shown = os.isatty(sys.stderr.fileno())
        except (OSError, ValueError, AttributeError):
            self.is_shown = False
        self.due, self.is_written = time.monotonic() + FIRST_AFTER, False

    def add(self, count):
        self.count += count
        self.show()

    def unpack(self, count):
        self.unpacked += count
        self.show()

    def show(self):
        if self.is_shown and time.monotonic() >= self.due:
            self.due, self.is_written = time.monotonic() + NEXT_AFTER, True
            ends.write("\r" + self.line() + "\x1b[K")

    def line(self):
        of_all = "" if self.total is None else " of %d" % (self.total // MEGABYTE)
        unpacked = ", %d MB unpacked" % (self.unpacked // MEGABYTE) if self.unpacked else ""
        return "%s: %d%s MB%s" % (self.what, self.count // MEGABYTE, of_all, unpacked)

    def end(self):
        if self.is_written:
            ends.write("\r\x1b[K")
            self.is_written = False

    def __enter__(self):
        return self

    def __exit__(self, *_):
        self.end()


def unheard(_):
    """What hears of bytes where nobody asks."""
