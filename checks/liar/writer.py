"""A process that changes the files of sealed images in place while they are read, and mends them again."""
import os
import time

from checks.plain.plain_verity import BLOCK
from checks.shared.shared_numbers import shared_numbers

WAITING, WRITING, ENDING = 0, 1, 2
# what the process does, and how many changes it has begun
STATE, CHANGES = 0, 1


class Writer:
    """The process. It changes the files of one image at a time, `path_of` says where they are."""

    def __init__(self, rng, images, path_of):
        self.rng, self.images, self.path_of = rng, images, path_of
        self.shared = shared_numbers(2)
        self.process = os.fork()
        if self.process == 0:
            try:
                self.write_on()
            finally:
                os._exit(0)

    def begin(self):
        self.shared[STATE] = WRITING

    def changes(self):
        """How many changes it has begun."""
        return self.shared[CHANGES]

    def end(self):
        """Ends it, and mends the files."""
        self.shared[STATE] = ENDING
        os.waitpid(self.process, 0)
        for image in self.images:
            for name, data in image.files().items():
                write_all(self.path_of(name), data)

    def state(self):
        return self.shared[STATE]

    def write_on(self):
        while self.state() == WAITING:
            time.sleep(0.0002)
        rights = [(name, data, image.files(1)[name]) for image in self.images for name, data in image.files().items() if data]
        opened = {name: os.open(self.path_of(name), os.O_RDWR) for name, _, _ in rights}
        while self.state() == WRITING:
            name, right, other = self.rng.choice(rights)
            # counted before it is made, so that none is seen that is not counted
            self.shared[CHANGES] += 1
            self.change(opened[name], right, other)

    def change(self, file, right, other):
        """Changes a block, many blocks, or where the file ends; mostly it is mended at once."""
        first = self.rng.randrange(len(right)) // BLOCK * BLOCK
        last = first + self.rng.choice([BLOCK, BLOCK, 32 * BLOCK, len(right)])
        kind = self.rng.randrange(8)
        if kind == 0:
            at = self.rng.randrange(len(right))
            os.pwrite(file, bytes([right[at] ^ 1 << self.rng.randrange(8)]), at)
            first, last = at, at + 1
        elif kind == 1:
            os.ftruncate(file, self.rng.choice([0, first, max(0, len(right) - 1)]))
            first, last = 0, len(right)
        elif kind == 2:
            os.pwrite(file, bytes(BLOCK), len(right))
            os.ftruncate(file, len(right))
        else:
            os.pwrite(file, other[first:last], first)
        if self.rng.random() < 0.9:
            os.pwrite(file, right[first:last], first)


def write_all(path, data):
    """Writes a file anew, which stays the same one."""
    with open(path, "r+b" if os.path.exists(path) else "wb") as out:
        out.write(data)
        out.truncate(len(data))
