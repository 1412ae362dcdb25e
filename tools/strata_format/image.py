"""Makes a romfs image, an entry at a time.

The data of a large file go straight to the image when they come; names, kinds, places and few small
data are held. All else is written at the end, when it is known which header comes next in each
directory: first directories, links and small files, close together in the order in which they are
read, then larger files, and the largest last. So a reader of headers alone reads few places of
a cold image. A directory begins with `.` and `..`, and its members are in the order in which they
came. What was replaced may stay in the image, but nothing names it. Behind its full size stands the
attribute trailer, with a row for each node of which something was said.

    image = Image(lambda: out, b"name")      out: a new file, open without a buffer
    image.directory((b"bin",), True).said = trailer.said(0o755, 0, 0, 0, 0)
    image.file((b"bin", b"hello"), True, 12, [b"echo ", b"hello\\n\\n"])
    image.finish()
"""
import bisect
import itertools

from strata_format import trailer
from strata_format.image_part import DOTS_SIZE, Hole, Part, other_size
from strata_format.image_tree import Directory, Link, Node, Tree
from strata_format.refused import Faults, NotHeld, Refused, shown
from strata_format.romfs import (MAJOR_MOST, MINOR_MOST, REGULAR, SYMLINK, TARGET_MOST,
                                 header_size, padded_name, path_text)

# files up to the first size stand among the headers, up to the second behind them, others last
SIZES = (1 << 13, 1 << 16)
# so many bytes of small data are held
HELD_MOST = 1 << 25
# of an image of many parts each keeps this part of its room for hard links to what is in it
KEPT = 32


class Image(Tree):
    """An image that is being made, of at most `most` bytes with its trailer. `new_file` gives its
    file. It may be split into parts that lie on the first, whose files `new_file` gives, too, if
    `is_lowest` tells of a path whether what stands there is about layers below, and so must be in
    the first. Whatever romfs can't hold is Refused."""

    def __init__(self, new_file, name, most=trailer.END_MOST, is_lowest=None):
        super().__init__()
        self.new_file, self.name, self.most, self.is_lowest = new_file, name, most, is_lowest
        self.parts = [Part(new_file(), name, most)]

    # --- room ---

    def part_for(self, path, size):
        """The number of the part that something goes into, with so many bytes of data: the last,
        or a new one where that has no room. Each keeps some for hard links to what is in it."""
        if size > self.most:
            raise NotHeld("%s: a file of %d bytes, at most %d are held"
                          % (path_text(path), size, self.most))
        if self.is_lowest is None or self.is_lowest(path):
            return 0
        last = self.parts[-1]
        end = last.end_with(header_size(path[-1]) + size)
        if last.nodes > 1 and end > self.most - self.most // KEPT:
            self.parts.append(Part(self.new_file(), self.name, self.most))
        return len(self.parts) - 1

    def begun(self, directory, path):
        is_lowest = self.is_lowest is None or self.is_lowest(path)
        self.enter(directory, path, 0 if is_lowest else len(self.parts) - 1)

    def enter(self, directory, path, number):
        """Claims room in a part for a directory and those above it, where they are not in it."""
        while directory.above is not None and not directory.parts >> number & 1:
            self.parts[number].claim(path, header_size(directory.name) + DOTS_SIZE)
            directory.parts |= 1 << number
            directory, path = directory.above, path[:-1]

    def place(self, path, it, number, size=0):
        """Claims room in a part for what is no directory, and puts it into the tree."""
        above = self.directory_at(path[:-1])
        self.enter(above, path[:-1], number)
        self.parts[number].claim(path, header_size(path[-1]) + size)
        it.part = number
        self.set_member(above, path[-1], it)

    # --- entries: all but a hard link give their node ---

    def directory(self, path, executable):
        if not path:
            self.root.executable = executable
            return self.root
        self.check(path)
        above = self.directory_at(path[:-1])
        found = above.members.get(path[-1])
        if not isinstance(found, Directory):
            self.part_for(path, 0)
            found = Directory(path[-1], above, executable)
            self.begun(found, path)
            self.set_member(above, path[-1], found)
        found.executable = executable
        return found

    def file(self, path, executable, size, data):
        """A file of so many bytes, which come in pieces, or later from a source: its method `copy`
        appends them to a part."""
        self.check(path)
        number = self.part_for(path, size)
        node = Node(REGULAR, path[-1], executable, size=size, data=data)
        is_later = hasattr(data, "copy")
        if not is_later and size <= SIZES[0]:
            node.data = joined(path, size, data)
        self.place(path, node, number, size)
        if not is_later and size <= SIZES[0]:
            self.parts[number].hold(node, HELD_MOST)
        elif not is_later:
            self.parts[number].stream(path, node, data)
        return node

    def small(self, path, node):
        """Adds what has few data or none."""
        self.place(path, node, self.part_for(path, node.size), node.size)
        self.parts[node.part].hold(node, HELD_MOST)
        return node

    def symlink(self, path, target):
        self.check(path)
        if len(target) > TARGET_MOST:
            raise NotHeld("%s: a link's target of %d bytes, at most %d are held"
                          % (path_text(path), len(target), TARGET_MOST))
        if b"\0" in target:
            raise NotHeld("%s: no link holds the target '%s'" % (path_text(path), shown(target)))
        return self.small(path, Node(SYMLINK, path[-1], size=len(target), data=target))

    def device(self, path, kind, major, minor):
        """A device, BLOCK or CHARACTER."""
        self.check(path)
        if not 0 <= major <= MAJOR_MOST:
            raise NotHeld("%s: a device of major number %d, at most %d is held"
                          % (path_text(path), major, MAJOR_MOST))
        if not 0 <= minor <= MINOR_MOST:
            raise NotHeld("%s: a device of minor number %d, at most %d is held"
                          % (path_text(path), minor, MINOR_MOST))
        return self.small(path, Node(kind, path[-1], spec=major << 16 | minor))

    def special(self, path, kind):
        """A pipe or a socket, FIFO or SOCKET."""
        self.check(path)
        return self.small(path, Node(kind, path[-1]))

    def hard_link(self, path, target):
        """Another name of what stands at the path `target`, or, if nothing stands there yet, of
        what does at the end."""
        self.check(path)
        found = self.link_target(path, target)
        above = self.directory_at(path[:-1])
        if above.members.get(path[-1]) is not found:
            number = self.part_for(path, 0)
            if not isinstance(found, tuple) and number:
                number = found.part
            self.place(path, Link(path[-1], found), number)

    def extend(self, it, items):
        """Gives a node or a directory its extended attributes, pairs of name and value in order."""
        for part in self.parts if items else ():
            items = part.claim_list(items)
        it.extended = items

    # --- the end ---

    def name_volume(self, name):
        """Gives the volume another name, which takes as much room."""
        assert len(padded_name(name)) == len(padded_name(self.name))
        self.name = name

    def lead_links(self):
        """Leads all hard links to their nodes, and into their parts; the nodes that have names by
        links alone."""
        faults, targets = Faults(), []
        for path, directory in self.directories():
            for name, it in directory.members.items():
                if isinstance(it, Node):
                    it.is_named = True
                elif isinstance(it, Link):
                    try:
                        self.lead((*path, name), it, directory)
                        targets.append(it.target)
                    except Refused as refused:
                        faults.note(refused)
        faults.settle()
        return list({id(it): it for it in targets if not it.is_named}.values())

    def lead(self, path, link, above):
        """Leads a hard link in a directory to its node, and into the part of this. One that is
        about layers below must be in the first: there an empty file says the same."""
        link.target = self.node_of(link, path)
        if link.target.part and self.is_lowest(path):
            above.members[link.name] = Node(REGULAR, link.name)
        elif link.part != link.target.part:
            link.part = link.target.part
            self.parts[link.part].claim(path, header_size(link.name))
            self.enter(above, path[:-1], link.part)

    def finish(self):
        """Ends the image: its headers, its full size, its checksum and its trailer, of each
        part."""
        nameless = self.lead_links()
        for number, part in enumerate(self.parts):
            self.finish_part(number, part, [it for it in nameless if it.part == number])

    def standing_in(self, number):
        """What stands in a part, each directory before what is in it."""
        return (it for it in self.members() if stands_in(it, number))

    def finish_part(self, number, part, nameless):
        """Gives all of a part that has no place its place, and writes it, and all headers."""
        classes = [[] for _ in (*SIZES, "the largest")]
        for it in [*self.standing_in(number), *nameless]:
            if not isinstance(it, Node):
                classes[0].append(it)
            elif it.data is not None:
                classes[bisect.bisect_left(SIZES, it.size)].append(it)
        self.root.at, full = part.root_at, part.at
        for it in itertools.chain(*classes):
            it.at = full
            full += room_of(it)
        self.join(number)
        for it in itertools.chain(*classes):
            part.write_member(it)
        part.write_again(self.root, self.name)
        every = [it for it in [self.root, *self.standing_in(number), *nameless]
                 if not isinstance(it, Link) and it.said is not None]
        part.end(full, {it.at: it.said for it in every},
                 {it.at: it.extended for it in every if it.extended})

    def join(self, number):
        """Lets the headers of a part name those that come next in their directories."""
        for it in [self.root, *self.standing_in(number)]:
            if isinstance(it, Directory):
                it.first = 0
                for member in reversed(it.members.values()):
                    if stands_in(member, number):
                        member.next, it.first = it.first, member.at


def stands_in(it, number):
    """Whether a member stands in a part."""
    return it.parts >> number & 1 if isinstance(it, Directory) else it.part == number


def room_of(it):
    """The bytes of a member, with all that stands behind its header."""
    behind = DOTS_SIZE if isinstance(it, Directory) else it.size if isinstance(it, Node) else 0
    return header_size(it.name) + behind + -behind % 16


def joined(path, size, pieces):
    """The data of a small file, which come in pieces."""
    parts = [bytes(it.size) if isinstance(it, Hole) else it for it in pieces]
    data = b"".join(parts)
    if len(data) != size:
        raise Refused(other_size(path, len(data), size))
    return data
