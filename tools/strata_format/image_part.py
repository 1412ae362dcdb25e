"""The bytes of one romfs image while it is written.

They are appended; only places of headers that were not known yet are written over at the end. A
part knows of trees and nodes as little as it needs: how much of its room is claimed.
"""
import os
import struct

from strata_format import trailer
from strata_format.files import is_zeros, write_all, write_at
from strata_format.image_tree import Directory, Link
from strata_format.refused import Refused
from strata_format.romfs import (DIRECTORY, EXECUTABLE, HARD, HEAD_SIZE, MAGIC, header, header_size,
                                 padded_name, padding, path_text)

# so many bytes are gathered before they are written, and copied from a file at once
ROOM = 1 << 20
# so many zeros become a hole, and so many other bytes are not copied to those that were gathered
HOLE_LEAST = MANY = 1 << 16
# a stranger may write different lists of extended attributes without end, and they stay in memory
LISTS_MOST = 64 << 20
# a directory's `.` and `..`
DOTS_SIZE = 64


class Hole:
    """So many zeros among the pieces of a file's data."""

    __slots__ = ("size",)

    def __init__(self, size):
        self.size = size


class Part:
    """An image in a new file, open for writing and reading without a buffer. With its trailer it
    may have `most` bytes."""

    def __init__(self, out, name, most):
        self.out, self.most = out, most
        self.gathered, self.gathered_size, self.at = [], 0, 0
        # nodes whose data wait for their place, and the bytes of these; nodes that have it
        self.held, self.held_size, self.written = [], 0, []
        self.put(MAGIC + bytes(8) + padded_name(name))
        self.root_at = self.at
        self.put(bytes(DOTS_SIZE))
        # the bytes of all that has come, and how many rows a trailer has at most
        self.claimed, self.nodes = self.at, 1
        # lists of extended attributes, and the bytes that they take behind the rows at most
        self.lists, self.lists_size, self.list, self.held_list = {}, 32, None, None

    # --- bytes ---

    def put(self, data):
        """Appends bytes."""
        self.at += len(data)
        if len(data) >= MANY:
            self.flush()
            write_all(self.out, data)
            return
        self.gathered.append(data)
        self.gathered_size += len(data)
        if self.gathered_size >= ROOM:
            self.flush()

    def flush(self):
        data = b"".join(self.gathered)
        self.gathered, self.gathered_size = [], 0
        write_all(self.out, data)

    def put_hole(self, size):
        """Appends zeros, which take no room on the disk where they are many."""
        if size < HOLE_LEAST:
            self.put(bytes(size))
            return
        self.flush()
        os.lseek(self.out.fileno(), size, os.SEEK_CUR)
        self.at += size

    def put_file(self, number, start, size, heard):
        """Appends bytes of an open file, from a place on; how many there were, at most `size`, which
        `heard` gets, too."""
        self.flush()
        done = 0
        while done < size:
            count = copied(number, start + done, self.out, min(ROOM, size - done))
            if count == 0:
                break
            done += count
            heard(count)
        self.at += done
        return done

    # --- room ---

    def end_with(self, size):
        """Where the trailer would end, if one more header came, with what is behind it."""
        return trailer.end_of(self.claimed + size, self.nodes + 1) + self.room_of_lists(1)

    def room_of_lists(self, more):
        """The bytes of extended attributes, if so many more headers came."""
        return self.lists_size + 4 * (self.nodes + more) if self.lists else 0

    def claim_list(self, items):
        """Claims room for a list of extended attributes; the first of those that are equal, which take
        room once. What is beyond is noticed with the next header, or at the end."""
        if items is not self.list:
            if items not in self.lists:
                self.lists[items] = items
                self.lists_size += list_size(items)
            self.list, self.held_list = items, self.lists[items]
        if self.lists_size > LISTS_MOST:
            raise Refused("the extended attributes of its files take more than %d bytes; --no-xattrs"
                          " leaves them out" % LISTS_MOST)
        return self.held_list

    def claim(self, path, size):
        """Claims room for a header with all that stands behind it. The image must hold it, and
        behind all a trailer with a row for each node."""
        if self.end_with(size) > self.most:
            raise Refused(self.too_large(path))
        self.claimed += size + -size % 16
        self.nodes += 1

    def too_large(self, path):
        return ("%s: the image would be larger than %d bytes with its attributes; make images of"
                " parts, each with the same paths from its root, and mount them together"
                % (path_text(path), self.most))

    # --- headers, and data behind them ---

    def root_headers(self, root):
        """The root, as `.`, and its `..`; then comes the first member."""
        at = self.root_at
        kind = DIRECTORY | EXECUTABLE * root.executable
        return header(at + 32, kind, at, 0, b".") + header(root.first, HARD, at, 0, b"..")

    @staticmethod
    def directory_headers(it):
        """The header of a directory, and those of its `.` and `..` behind it."""
        dots = it.at + header_size(it.name)
        data = header(it.next, DIRECTORY | EXECUTABLE * it.executable, dots, 0, it.name)
        data += header(dots + 32, HARD, it.at, 0, b".")
        return data + header(it.first, HARD, it.above.at, 0, b"..")

    @staticmethod
    def node_header(it):
        return header(it.next, it.kind | EXECUTABLE * it.executable, it.spec, it.size, it.name)

    def write_member(self, it):
        """Appends a member of a directory at the place that it has."""
        if isinstance(it, Directory):
            self.put(self.directory_headers(it))
        elif isinstance(it, Link):
            self.put(header(it.next, HARD, it.target.at, 0, it.name))
        else:
            self.write_node(it)

    def write_node(self, it):
        """Appends a node with its data; it has its place then."""
        it.at = self.at
        if hasattr(it.data, "copy"):
            self.put(self.node_header(it))
            it.data.copy(self)
            self.put(padding(it.size))
        else:
            self.put(self.node_header(it) + it.data + padding(it.size))
        it.data = None

    def stream(self, path, it, pieces):
        """Appends a file whose data come in pieces, now; Refused where they have another size."""
        it.at, it.data = self.at, None
        self.put(self.node_header(it))
        begin = self.at
        for piece in pieces:
            if isinstance(piece, Hole):
                self.put_hole(piece.size)
            elif len(piece) >= HOLE_LEAST and is_zeros(piece):
                self.put_hole(len(piece))
            else:
                self.put(piece)
        if self.at - begin != it.size:
            raise Refused(other_size(path, self.at - begin, it.size))
        self.put(padding(it.size))
        self.written.append(it)

    def hold(self, it, most):
        """Keeps a node with its data until the end. All that is kept is written, together, once it
        has more than `most` bytes."""
        self.held.append(it)
        self.held_size += it.size
        if self.held_size > most:
            for held in self.held:
                self.write_node(held)
            self.written += self.held
            self.held, self.held_size = [], 0

    # --- the end ---

    def write_again(self, root, name):
        """Writes over what was written before it was known: the volume's name, and headers."""
        self.flush()
        write_at(self.out.fileno(), padded_name(name), HEAD_SIZE)
        write_at(self.out.fileno(), self.root_headers(root), self.root_at)
        for it in self.written:
            write_at(self.out.fileno(), self.node_header(it), it.at)

    def end(self, full, rows, lists):
        """Ends the image, all of whose headers are written: its full size, its checksum, and its
        trailer, with rows and extended attributes by the offsets of headers."""
        if trailer.end_of(full, len(rows)) + self.room_of_lists(0) > self.most:
            raise Refused(self.too_large(()))
        number, begin = self.out.fileno(), MAGIC + struct.pack(">2I", full, 0)
        summed = begin + os.pread(number, min(full, 512) - 16, 16)
        write_at(number, begin[:12] + struct.pack(">I", -trailer.words_sum(summed) & 0xffffffff), 0)
        trailer.write_trailer(number, full, rows, lists)


def list_size(items):
    """The bytes that a list takes, with its places."""
    return 8 + sum(8 + len(name) + len(value) for name, value in items)


def other_size(path, size, said):
    return "%s: %d bytes are there, and %d were said" % (path_text(path), size, said)


def copied(number, at, out, size):
    """Copies some bytes of an open file behind those of another, by the kernel where it can."""
    try:
        return os.sendfile(out.fileno(), number, at, size)
    except OSError:
        data = os.pread(number, size, at)
        write_all(out, data)
        return len(data)
