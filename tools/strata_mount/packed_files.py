"""What a compressed file holds, and what to do with it, where an image was wanted."""
import zlib

from strata_format import image_files, romfs
from strata_format.refused import Refused

# by the letters that each begins with; what `strata-layers image` unpacks by itself stands with `<`
LETTERS = {"gzip": b"\x1f\x8b", "zstd": b"\x28\xb5\x2f\xfd", "xz": b"\xfd7zXZ\0", "bzip2": b"BZh"}
# a block of bzip2 is whole in so many bytes, before which it gives none
PACKED_MOST, UNPACKED, MEMORY_MOST = 1 << 20, 1024, 1 << 26


def packing_of(front):
    """How a file that begins so is compressed; None where it isn't."""
    return next((it for it, letters in LETTERS.items() if front.startswith(letters)), None)


def unpacked(file, packing):
    """The first bytes that a compressed file holds. Any exception where they can't be told."""
    if packing == "zstd":
        from strata_layers.packing import Unpacked
        unpacking = Unpacked(file, packing)
        try:
            return unpacking.read(UNPACKED)
        finally:
            unpacking.close()
    if packing == "gzip":
        found = zlib.decompressobj(31)
    elif packing == "xz":
        import lzma
        found = lzma.LZMADecompressor(lzma.FORMAT_XZ, MEMORY_MOST)
    else:
        import bz2
        found = bz2.BZ2Decompressor()
    return found.decompress(file.read(PACKED_MOST), UNPACKED)


def held_by(path, packing):
    """The first bytes that a compressed file holds; none where they can't be told: its data is broken,
    or there is no program or module for it."""
    try:
        file = image_files.opened(path)
        if file is None:
            return b""
        with file:
            return unpacked(file, packing)
    except (OSError, EOFError, ImportError, MemoryError, ValueError, Refused, zlib.error):
        return b""
    except Exception as fault:
        if type(fault).__name__ != "LZMAError":
            raise
        return b""


def told(path, name, packing):
    """What a compressed file is, with what to do; the shell takes it by a name."""
    held, unpack = held_by(path, packing), "`%s -dc %s > IMAGE`" % (packing, name)
    make = "`%s -dc %s | strata-layers image - IMAGE`" % (packing, name)
    if packing == "zstd":
        make = "`strata-layers image - IMAGE < %s`" % name
    if held[257:262] == b"ustar":
        return "compressed with %s: it contains a tar archive: %s makes an image of it" % (packing, make)
    if held.startswith(romfs.MAGIC):
        return "compressed with %s: unpack it with %s, which is a romfs image" % (packing, unpack)
    other = "" if held else "; if it is a tar archive, %s makes an image of it" % make
    return "compressed with %s: unpack it with %s%s" % (packing, unpack, other)
