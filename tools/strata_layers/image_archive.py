"""Layers that any engine pulls and unpacks: an archive of tar with one file, `.strata.romfs`, which
is the layer's image. Who knows of strata takes the image out of it.

    entries, is_image = opened(source)
    if is_image: write_image(entries, file)
"""
import itertools

from strata_format import romfs
from strata_format.files import write_all
from strata_format.refused import Refused
from strata_layers.entries import FILES
from strata_layers.tars import BLOCK, Tar

NAME = b".strata.romfs"
NAMES = (NAME, b"./" + NAME)
# what a header says, by where it does: name, mode, owners, time, what stands for the checksum while
# that is taken, type, and the format
SAID = ((0, NAME), (100, b"0000644"), (108, b"0000000"), (116, b"0000000"), (136, b"%011o" % 0),
        (148, b" " * 8), (156, FILES[0]), (257, b"ustar\x0000"))
SIZE_AT, SUM_AT = 124, 148
# as many zeros stand behind the last entry
END = bytes(2 * BLOCK)


# --- reading ---

def opened(source):
    """The entries of an archive, and whether it is one of an image, which its first entry says."""
    entries = Tar(source).entries()
    first = next(entries, None)
    if first is None:
        return entries, False
    is_image = first.kind in FILES and first.name in NAMES
    return itertools.chain([first], entries), is_image


def image_pieces(pieces):
    """Pieces that must be those of an image of romfs, which its first bytes say."""
    is_begun = False
    for data in pieces:
        if not is_begun and not data.startswith(romfs.MAGIC):
            break
        is_begun = True
        yield data
    if not is_begun:
        raise Refused("no image of romfs")


def write_image(entries, file):
    """Writes the image of an archive of one to a new file."""
    entry = next(entries)
    if entry.wrong is not None:
        raise entry.wrong
    for data in image_pieces(entry.data):
        write_all(file, data)
    if next(entries, None) is not None:
        raise Refused("%s is not alone in its archive" % NAME.decode())


# --- writing ---

def header_of(size):
    """The header of an image of so many bytes."""
    block = bytearray(BLOCK)
    for at, text in (*SAID, (SIZE_AT, b"%011o" % size)):
        block[at:at + len(text)] = text
    text = b"%06o\0 " % sum(block)
    block[SUM_AT:SUM_AT + len(text)] = text
    return bytes(block)


def archive_pieces(size, pieces):
    """The archive of an image of so many bytes, which come in pieces. The same image gives the same
    bytes."""
    yield header_of(size)
    yield from pieces
    yield bytes(-size % BLOCK) + END
