"""The format of romfs images, as Linux's Documentation/filesystems/romfs.rst describes it: its
numbers, its bounds, and a header's bytes."""
import struct

from strata_format.refused import shown

MAGIC = b"-rom1fs-"
HARD, DIRECTORY, REGULAR, SYMLINK, BLOCK, CHARACTER, SOCKET, FIFO = range(8)
EXECUTABLE = 8
NAME_MOST, TARGET_MOST, NAMES_MOST = 255, 4095, 512
MAJOR_MOST, MINOR_MOST = 4095, 65535
HEAD_SIZE = 16


def padding(size):
    return bytes(-size % 16)


def padded_name(name):
    return name + bytes(16 - len(name) % 16)


def header_size(name):
    """The bytes of a header of this name; data stand behind them."""
    return HEAD_SIZE + len(name) + 16 - len(name) % 16


# the words of names, by their length in bytes
WORDS = {size: struct.Struct(">%dI" % (size // 4)) for size in range(16, NAME_MOST + 17, 16)}
HEAD = struct.Struct(">4I")


def words_sum(data):
    words = WORDS.get(len(data)) or struct.Struct(">%dI" % (len(data) // 4))
    return sum(words.unpack(data))


def header(next_, kind, spec, size, name):
    """A file header and its name, with the checksum by which its words sum to 0. The kind may hold
    the bit EXECUTABLE."""
    ended = padded_name(name)
    first = next_ | kind
    total = first + spec + size + words_sum(ended)
    return HEAD.pack(first, spec, size, -total & 0xffffffff) + ended


def path_text(path):
    return shown(b"/".join(path)) if path else "/"
