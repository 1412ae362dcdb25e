"""`LAYOUT[:TAG] FOLDER`: images of a layout's layers in a folder, 00.romfs the lowest. Beside
several a file says their digests, and which image each was made to lie on."""
import contextlib
import os
import re

from strata_format.files import new_file, open_folder, write_all
from strata_format.progress import Progress, unheard
from strata_format.refused import Refused, shown
from strata_layers.below import Below
from strata_layers.layer_images import LayerWriter
from strata_layers.layer_order import BESIDE, beside_text
from strata_layers.open_layout import open_layout
from strata_layers.store import file_digits
from strata_layers.store_images import StoredLayer

PASSING = "."


class ImageFolder:
    """The folder of images, which is made where it isn't there. They get their names when all are
    whole."""

    def __init__(self, path):
        self.path, self.is_new = path, not os.path.isdir(path)
        self.files, self.new = contextlib.ExitStack(), []
        if self.is_new:
            os.mkdir(path)
        self.place = open_folder(path)
        there = [name for name in os.listdir(self.place) if re.fullmatch(r"[0-9]+\.romfs", name)]
        if there:
            raise Refused("%s: there is a %s already" % (shown(os.fsencode(path)), min(there)))

    def new_file(self):
        """An open file for the next image."""
        self.new.append(self.files.enter_context(new_file(self.place, self.path, 0o666, PASSING)))
        return self.new[-1].file

    def keep(self, layers):
        """Gives the images their names, of as many digits as the last one needs, so that their
        order is that of names, and the file beside several its own; their paths."""
        digits = max(2, len(str(len(self.new) - 1)))
        names = ["%0*d.romfs" % (digits, number) for number in range(len(self.new))]
        self.keep_beside(names, layers)
        for new, name in zip(self.new, names):
            new.keep(self.place, name)
        self.is_new = False
        return [os.path.join(self.path, name) for name in names]

    def keep_beside(self, names, layers):
        """Keeps the file beside several images; beside one that of earlier ones goes."""
        if layers:
            with new_file(self.place, self.path, 0o666, PASSING) as beside:
                write_all(beside.file, beside_text(names, layers))
                beside.keep(self.place, BESIDE)
        else:
            with contextlib.suppress(FileNotFoundError):
                os.unlink(BESIDE, dir_fd=self.place)

    def close(self):
        """Removes what got no name."""
        self.files.close()
        os.close(self.place)
        if self.is_new:
            os.rmdir(self.path)


class Digests:
    """The digests of images, each of which is read again while the next one is made; of one alone
    nobody asks for it."""

    def __init__(self):
        self.pool, self.parts, self.waiting, self.found = None, [], [], []
        self.is_ended = False
        # how many bytes there are, and how many of them were read; who hears of more
        self.size, self.count, self.heard = 0, 0, unheard

    def __enter__(self):
        return self

    def __exit__(self, *_):
        self.is_ended = True
        for number, _ in self.waiting:
            os.close(number)
        if self.pool is not None:
            self.pool.shutdown(cancel_futures=True)

    def add(self, number, part):
        """Adds the image in an open file, a part of a layer."""
        self.parts.append(part)
        self.waiting.append((os.dup(number), os.fstat(number).st_size))
        self.size += self.waiting[-1][1]

    def begin(self):
        """Begins to read what waits."""
        if self.waiting and self.pool is None:
            from concurrent.futures import ThreadPoolExecutor
            self.pool = ThreadPoolExecutor(1)
        while self.waiting:
            self.found.append(self.pool.submit(self.read, *self.waiting.pop(0)))

    def read(self, number, size):
        """The digits of the digest of an open file, which is closed then, and its size."""
        try:
            return file_digits(number, self.go_on), size
        finally:
            os.close(number)

    def go_on(self, count):
        """Ends a read of which nobody waits for the end."""
        if self.is_ended:
            raise InterruptedError
        self.count += count
        self.heard(count)

    def layers(self):
        """The images, each of which lies on the one before, if they are several."""
        if len(self.parts) < 2:
            return []
        self.begin()
        below, layers = None, []
        with Progress("hashed", self.size) as progress:
            progress.add(self.count)
            self.heard = progress.add
            for part, it in zip(self.parts, self.found):
                layers.append(StoredLayer(*it.result(), part, below))
                below = layers[-1].digits
            self.heard = unheard
        return layers


def write_images(word, path, lost):
    """Makes the images of a layout's layers; their paths. `lost` gets what they don't hold."""
    layout, tag = open_layout(word)
    below = Below()
    descriptors = layout.layers(tag)
    folder = ImageFolder(path)
    try:
        with Progress("layers", sum(it.size for it in descriptors)) as progress, \
                Digests() as digests:
            layout.heard, layout.unpacked = progress.add, progress.unpack
            for number, descriptor in enumerate(descriptors):
                made = len(folder.new)
                digests.begin()
                LayerWriter(layout, number, descriptor).write(folder.new_file, lost, below)
                for part, new in enumerate(folder.new[made:]):
                    below.add(new.file.fileno())
                    digests.add(new.file.fileno(), part)
                    new.file.close()
            lost.settle()
            return folder.keep(digests.layers())
    finally:
        folder.close()
