"""A file, `image`, in a file system of its own, whose reads wait, fail or tell other bytes as a check says."""
import errno

from checks.shared.shared_numbers import shared_numbers
from checks.shared.shown_files import ShownFiles

# what is done with reads that touch some bytes: their reply is held back, is EIO, has a few bytes, or has other ones
SERVE, WAIT, FAIL, CUT, TURN = 0, 1, 2, 3, 4
FEW = 100
# what the check writes of reads, and what the server counts of them
ORDER, HELD, READS = slice(0, 3), 3, 4


def turned(data):
    """Other bytes, as many."""
    return bytes(byte ^ 0xff for byte in data)


class WatchedFile(ShownFiles):
    """The file, shown by a process of its own."""

    def __init__(self, room, data):
        self.data, self.shared = data, shared_numbers(5)
        super().__init__(room, ["image"])
        self.image = self.path("image")

    def order(self, what, first=0, last=1 << 63):
        """From now on this is done with reads that touch bytes of this range."""
        for place, number in enumerate((what, first, last)):
            self.shared[place] = number

    def ordered(self):
        return tuple(self.shared[ORDER])

    def held_back(self):
        """How many reads wait for another order."""
        return self.shared[HELD]

    def reads(self):
        """How many reads came so far."""
        return self.shared[READS]

    def end(self):
        self.order(SERVE)
        super().end()

    def size(self, name):
        return len(self.data)

    def note_waiting(self, count):
        self.shared[HELD] = count

    def answer_read(self, unique, name, offset, size):
        what, first, last = self.ordered()
        touched = offset < last and first < offset + size
        if touched and what == WAIT:
            return False
        self.shared[READS] += 1
        if touched and what == FAIL:
            self.reply(unique, error=errno.EIO)
        elif touched and what == TURN:
            self.reply(unique, turned(self.data[offset:offset + size]))
        else:
            self.reply(unique, self.data[offset:offset + (min(size, FEW) if touched and what == CUT else size)])
        return True
