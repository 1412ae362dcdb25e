"""How layers are packed: gzip, and zstd by Python's own module, or else by the program `zstd`.

    source = Unpacked(blob, "gzip")        blob.read(n) gives at most n bytes, and none at the end
    .. source.read(n) ..
    source.close()

    for piece in packed(pieces, "zstd"): ..
"""
import hashlib
import shutil
import subprocess
import threading
import zlib

from strata_format.progress import unheard
from strata_format.refused import Refused

# so many bytes fit into a processor's own memory
PIECE = 1 << 17
GZIP_WINDOW = 31
# four times what an image of romfs can have
UNPACKED_MOST = 1 << 34
# as Python's own module says it
CUT_OFF = "Compressed file ended before the end-of-stream marker was reached"
PACKINGS = ("gzip", "zstd")
NO_ZSTD = ("zstd needs the program zstd: install the package zstd (this python has no module for it;"
           " 3.14 and later have)")


def zstd_module():
    try:
        from compression import zstd
        return zstd
    except ImportError:
        return None


def zstd_program():
    program = shutil.which("zstd")
    if program is None:
        raise Refused(NO_ZSTD)
    return program


# --- unpacking ---

class Gunzip:
    """The bytes of members of gzip, one behind another; zeros behind a member are padding."""

    def __init__(self, source):
        self.source, self.member, self.packed = source, None, b""
        # whether the member may still hold bytes back, since it gave as many as it was asked for
        self.is_full = False

    def begin_member(self):
        """Whether another member follows."""
        while not self.packed:
            self.packed = self.source.read(PIECE)
            if not self.packed:
                return False
            self.packed = self.packed.lstrip(b"\0") if self.member else self.packed
        self.member, self.is_full = zlib.decompressobj(GZIP_WINDOW), False
        return True

    def piece(self):
        """The next bytes; none at the end."""
        while True:
            if (self.member is None or self.member.eof) and not self.begin_member():
                return b""
            if not self.packed and not self.is_full:
                self.packed = self.source.read(PIECE)
                if not self.packed:
                    raise EOFError(CUT_OFF)
            data = self.member.decompress(self.packed, PIECE)
            self.is_full = len(data) == PIECE
            self.packed = self.member.unconsumed_tail
            if self.member.eof:
                self.packed = self.member.unused_data.lstrip(b"\0")
            if data:
                return data

    def close(self):
        pass


class Plain:
    """Bytes that are not packed."""

    def __init__(self, source):
        self.source = source

    def piece(self):
        return self.source.read(PIECE)

    def close(self):
        pass


class ZstdModule:
    """The bytes of frames of zstd, by Python's own module."""

    def __init__(self, source, module):
        self.file = module.ZstdFile(source)

    def piece(self):
        return self.file.read(PIECE)

    def close(self):
        pass


class Through:
    """What a program makes of the bytes of a source, which a thread feeds to it."""

    def __init__(self, words, source):
        self.source, self.fault = source, None
        self.child = subprocess.Popen(words, stdin=subprocess.PIPE, stdout=subprocess.PIPE,
                                      stderr=subprocess.PIPE)
        self.feeding = threading.Thread(target=self.feed, daemon=True)
        try:
            self.feeding.start()
        except RuntimeError:
            self.child.kill()
            self.child.wait()
            raise MemoryError from None  # for a thread

    def feed(self):
        try:
            with self.child.stdin as pipe:
                for piece in iter(lambda: self.source.read(PIECE), b""):
                    pipe.write(piece)
        except BrokenPipeError:
            pass  # it has ended, and says why
        except Exception as fault:
            self.fault = fault

    def piece(self):
        data = self.child.stdout.read1(PIECE)
        return data if data else self.ended()

    def ended(self):
        """Nothing, where the program ended well and was fed all."""
        said = self.child.stderr.read().decode(errors="replace").strip()
        self.feeding.join()
        if self.fault is not None:
            raise self.fault
        if self.child.wait() != 0:
            raise EOFError(said.splitlines()[-1] if said else "status %d" % self.child.returncode)
        return b""

    def close(self):
        """Ends the program. From then on no thread reads the source."""
        if self.child.poll() is None:
            self.child.kill()
        self.child.wait()
        self.feeding.join()
        self.child.stdout.close()
        self.child.stderr.close()


def unpacker(source, packed):
    if packed == "":
        return Plain(source)
    if packed == "gzip":
        return Gunzip(source)
    module = zstd_module()
    if module is not None:
        return ZstdModule(source, module)
    return Through([zstd_program(), "-dcq"], source)


class Unpacked:
    """The bytes of a source as they were before they were packed; their digest, where it is asked
    for. A few bytes may unpack to no end of them, so there is a most. Of packed ones `heard` gets
    how many came."""

    def __init__(self, source, packed, is_hashed=False, most=UNPACKED_MOST, heard=unheard):
        self.unpacker, self.heard = unpacker(source, packed), heard if packed else unheard
        self.data, self.at, self.left, self.most = b"", 0, most, most
        self.hash = hashlib.sha256() if is_hashed else None

    def read(self, size):
        if self.at == len(self.data):
            self.data, self.at = self.next_data(), 0
        data = self.data[self.at:self.at + size]
        self.at += len(data)
        return data

    def next_data(self):
        try:
            data = self.unpacker.piece()
        except (EOFError, zlib.error) as fault:
            raise Refused("the compressed data is broken: %s" % fault) from None
        except Exception as fault:
            # the module's own error has no name where there is no module
            if type(fault).__name__ != "ZstdError":
                raise
            raise Refused("the compressed data is broken: %s" % fault) from None
        self.left -= len(data)
        if self.left < 0:
            raise Refused("decompressed it has more than %d bytes" % self.most)
        if self.hash is not None:
            self.hash.update(data)
        self.heard(len(data))
        return data

    def digest(self):
        return "sha256:" + self.hash.hexdigest()

    def close(self):
        self.unpacker.close()


# --- packing ---

class Source:
    """Pieces as something to read from."""

    def __init__(self, pieces):
        self.pieces = iter(pieces)

    def read(self, _):
        return next(self.pieces, b"")


def gzip_packed(pieces):
    """A member of gzip without a name and a time, so that the same bytes always give the same."""
    packer = zlib.compressobj(6, zlib.DEFLATED, GZIP_WINDOW)
    for piece in pieces:
        yield packer.compress(piece)
    yield packer.flush()


def zstd_packed(pieces):
    module = zstd_module()
    if module is not None:
        packer = module.ZstdCompressor()
        for piece in pieces:
            yield packer.compress(piece)
        yield packer.flush()
        return
    through = Through([zstd_program(), "-3cq", "--single-thread"], Source(pieces))
    try:
        yield from iter(through.piece, b"")
    finally:
        through.close()


def hold_packing(packing):
    """Looks that there is what packs so."""
    if packing == "zstd" and zstd_module() is None:
        zstd_program()


def packed_pieces(pieces, packing):
    """The packed bytes of pieces, in pieces."""
    if packing == "":
        return pieces
    return gzip_packed(pieces) if packing == "gzip" else zstd_packed(pieces)
