"""The tree of a romfs image that is being made: what stands at which path, until all is known.

A path is a tuple of names; directories that it names and that haven't come are made, executable.
What comes at an existing path replaces it, with all below it; but a directory over a directory
only sets whether it is executable. What no image holds is NotHeld.

An image of more than 4 GiB is made as several that lie on one another, its parts. A node and the
hard links to it stand in one of them, a directory in each that holds something below it.
"""
from strata_format.refused import BadEntry, NotHeld, shown
from strata_format.romfs import NAME_MOST, NAMES_MOST, path_text


class Directory:
    """A directory: its members by their names, what its row of the trailer says, where it has one,
    with its extended attributes, and the parts that it stands in, a bit each. Of the part that is being written: where its header
    stands, that of the next member of the directory above, and that of its first member, or 0."""

    __slots__ = ("name", "above", "executable", "said", "extended", "members", "parts", "at",
                 "next", "first")

    def __init__(self, name, above, executable):
        self.name, self.above, self.executable, self.said = name, above, executable, None
        self.extended = ()
        self.members, self.parts, self.at, self.next, self.first = {}, 0, 0, 0, 0


class Node:
    """What is neither a directory nor a hard link. Its data stand behind its header: where they
    have not been written, `data` has them, or a source that has a method `copy`."""

    __slots__ = ("kind", "executable", "name", "spec", "size", "said", "extended", "data", "part",
                 "at", "next", "is_named")

    def __init__(self, kind, name, executable=False, spec=0, size=0, data=b""):
        self.kind, self.name, self.executable, self.spec = kind, name, executable, spec
        self.size, self.data, self.said, self.part = size, data, None, 0
        self.extended = ()
        # without a place it is written at the end; a hard link may lead to what has no name more
        self.at = self.next = 0
        self.is_named = False


class Link:
    """A hard link to a node; or else to another link, or, until the tree is whole, to the path of
    what hasn't come."""

    __slots__ = ("name", "target", "part", "at", "next")

    def __init__(self, name, target):
        self.name, self.target, self.part, self.at, self.next = name, target, 0, 0, 0


class Tree:
    """Directories from a root down. Each way through it takes members in the order in which they
    came."""

    def __init__(self):
        self.root = Directory(b".", None, True)
        # the directory that something came into last, and whose names were looked at
        self.last, self.last_path = self.root, ()

    # --- paths ---

    def check(self, path):
        if not path:
            raise BadEntry("the root must be a directory")
        if len(path) > NAMES_MOST:
            raise NotHeld("%s: a path of %d names, at most %d are held"
                          % (path_text(path), len(path), NAMES_MOST))
        for name in path[-1:] if path[:-1] == self.last_path else path:
            if not name or b"/" in name or b"\0" in name or name in (b".", b".."):
                raise NotHeld("%s: no image holds the name '%s'" % (path_text(path), shown(name)))
            if len(name) > NAME_MOST:
                raise NotHeld("%s: a name of %d bytes, at most %d are held"
                              % (path_text(path), len(name), NAME_MOST))

    def found(self, path):
        """The member at a path, or None."""
        node = self.root
        for name in path:
            if not isinstance(node, Directory):
                return None
            node = node.members.get(name)
        return node

    def is_barred(self, path):
        """Whether something that is no directory stands above a path."""
        node = self.root
        for name in path[:-1]:
            node = node.members.get(name)
            if node is None:
                return False
            if not isinstance(node, Directory):
                return True
        return False

    def directory_at(self, path):
        """The directory at a path; it is made, with those above it, where nothing is there."""
        if path == self.last_path:
            return self.last
        node = self.root
        for depth, name in enumerate(path):
            below = node.members.get(name)
            if below is None:
                below = Directory(name, node, True)
                self.begun(below, path[:depth + 1])
                self.set_member(node, name, below)
            if not isinstance(below, Directory):
                raise BadEntry("%s: not a directory, but has files below it"
                               % path_text(path[:depth + 1]))
            node = below
        self.last, self.last_path = node, path
        return node

    def begun(self, directory, path):
        """Called for each directory before it gets its place in the tree."""

    def set_member(self, above, name, it):
        """Puts something into a directory, instead of what had this name."""
        if isinstance(above.members.get(name), Directory):
            self.last, self.last_path = self.root, ()
        above.members[name] = it

    # --- hard links ---

    def link_target(self, path, target):
        """What a hard link at a path leads to: a node, another link, or the path where nothing
        stands yet."""
        if len(target) > NAMES_MOST or max(map(len, target), default=0) > NAME_MOST:
            raise BadEntry(nothing_there(path, target))
        found = self.found(target)
        if isinstance(found, Link) and not isinstance(found.target, tuple):
            found = found.target
        if isinstance(found, Directory):
            raise BadEntry(directory_there(path, target))
        return target if found is None else found

    def end_of(self, link):
        """Where a hard link leads to in the end: what stands there, and the last path that was said on
        the way. Each link on it is then led there at once, also where that is nothing."""
        way, seen, target, wanted = [], set(), link, ()
        while isinstance(target, (Link, tuple)) and target not in seen:
            seen.add(target)
            if isinstance(target, tuple):
                wanted, target = target, self.found(target)
            else:
                way.append(target)
                target = target.target
        for it in way:
            it.target = target if isinstance(target, Node) else wanted
        return target, wanted

    def node_of(self, link, path):
        """The node that a hard link at a path leads to."""
        target, wanted = self.end_of(link)
        if isinstance(target, Directory):
            raise BadEntry(directory_there(path, wanted))
        if not isinstance(target, Node):
            raise BadEntry(nothing_there(path, wanted))
        return target

    # --- ways through it ---

    def directories(self):
        """All directories, each with its path, one before those in it."""
        todo = [((), self.root)]
        while todo:
            path, directory = todo.pop()
            yield path, directory
            todo += [((*path, name), it) for name, it in reversed(directory.members.items())
                     if isinstance(it, Directory)]

    def links(self):
        """All hard links, each with its path."""
        return (((*path, name), it) for path, directory in self.directories()
                for name, it in directory.members.items() if isinstance(it, Link))

    def members(self):
        """All but the root, each directory before what is in it, and with that before the next: the
        order in which strata reads headers."""
        todo = [iter(self.root.members.values())]
        while todo:
            for it in todo[-1]:
                yield it
                if isinstance(it, Directory):
                    todo.append(iter(it.members.values()))
                    break
            else:
                todo.pop()


def nothing_there(path, target):
    return "%s: a hard link to nothing in its layer: %s" % (path_text(path), path_text(target))


def directory_there(path, target):
    return "%s: a hard link to the directory %s" % (path_text(path), path_text(target))
