"""A plain reading of container layers: what tar archives, one on another, show.

Written from the OCI image specification (its chapter on layers) and with Python's tarfile, not from tools/layers.py. A
path is a tuple of names; a tree is a dict of nodes by path, of which () is the root.
"""
import decimal
import io
import struct
import tarfile

from checks.plain.plain_images import BLOCK, CHARACTER, DIRECTORY, FIFO, REGULAR, SYMLINK
from checks.plain.plain_stacks import MARKER, MODES, OPAQUE

KINDS = {tarfile.REGTYPE: REGULAR, tarfile.AREGTYPE: REGULAR, tarfile.CONTTYPE: REGULAR, tarfile.GNUTYPE_SPARSE: REGULAR,
         tarfile.DIRTYPE: DIRECTORY, tarfile.SYMTYPE: SYMLINK, tarfile.CHRTYPE: CHARACTER, tarfile.BLKTYPE: BLOCK,
         tarfile.FIFOTYPE: FIFO}


class Impossible(Exception):
    """What no image can hold."""


class Node:
    """What stands at a path, or at several by hard links. The row is its mode's low bits, owner, group, and last change in
    seconds and nanoseconds, as its entry says them; None where no entry does."""

    def __init__(self, layer, kind, executable, data=b"", rdev=0):
        self.layer, self.kind, self.executable, self.data, self.rdev = layer, kind, executable, data, rdev
        self.row = None

    def mode(self):
        return MODES[self.kind][self.executable]

    def attributes(self):
        """The same with the whole mode; of what no entry says anything it is root's, of 1970."""
        if self.row is None:
            return (self.mode(), 0, 0, 0, 0)
        return (self.mode() & 0o170000 | self.row[0], *self.row[1:])


def raw(text):
    return text.encode("utf-8", "surrogateescape")


def names_of(text):
    names = tuple(name for name in raw(text).split(b"/") if name not in (b"", b"."))
    if b".." in names or any(len(name) > 255 for name in names) or len(names) > 512:
        raise Impossible(text)
    return names


def mode_without_acl(info):
    """The mode of an entry whose list of rights is lost: acl(5) has the mask in the mode's group bits, and the rights of the
    group are both its own entry's and the mask's. Others have no rights that an entry for somebody takes from him."""
    group, others = 0o7, 0o7
    for entries in acls_of(info):
        masks = [perms for tag, _, perms in entries if tag == "mask"]
        group &= min([perms for tag, name, perms in entries if (tag, name) == ("group", "")], default=0)
        for mask in masks:
            group &= mask
        for _, name, perms in entries:
            others &= perms & (masks or [7])[0] if name else 7
    return info.mode & (0o7700 | group << 3 | others)


def acls_of(info):
    """The entries of each of its lists of rights: tag, who is named, and rights; none of one that is broken."""
    binary = info.pax_headers.get("SCHILY.xattr.system.posix_acl_access")
    if binary is not None:
        data, tags = raw(binary), {1: "user", 2: "user", 4: "group", 8: "group", 16: "mask", 32: "other"}
        words = [struct.unpack_from("<HHI", data, at) for at in range(4, len(data) - 7, 8)]
        yield [(tags[tag], str(number) * (tag in (2, 8)), perms) for tag, perms, number in words]
    text = info.pax_headers.get("SCHILY.acl.access")
    if text is not None:
        rows = [it.split("#")[0].strip().split(":") for it in text.replace(",", "\n").splitlines()]
        tags = {"u": "user", "g": "group", "m": "mask", "o": "other"}
        yield [(tags[it[0][0]], it[1], sum(4 >> at for at in range(3) if it[2][at] != "-")) for it in rows]


def row_of(info):
    """What an entry says. Linux has one mode for symbolic links, and shows an owner that it can't say as 65534."""
    mode = 0o777 if info.issym() else mode_without_acl(info)
    owners = [it if 0 <= it < 2 ** 32 else 65534 for it in (info.uid, info.gid)]
    with decimal.localcontext() as context:
        context.prec, context.rounding = 400, decimal.ROUND_DOWN
        count = int((decimal.Decimal(info.pax_headers.get("mtime") or int(info.mtime)) * 10 ** 9).to_integral_value())
    return (mode, *owners, *divmod(count, 10 ** 9))


def without(tree, path):
    """A tree without a path and what lies below it."""
    return {it: node for it, node in tree.items() if it[:len(path)] != path}


def node_of(layer, tar, info):
    kind, executable = KINDS[info.type], info.mode & 0o111 != 0
    if kind == REGULAR:
        return Node(layer, kind, executable, tar.extractfile(info).read())
    if kind == SYMLINK:
        return Node(layer, kind, False, raw(info.linkname))
    if kind in (BLOCK, CHARACTER):
        if info.devmajor > 4095 or info.devminor > 65535:
            raise Impossible("device")
        # as the kernel packs the two numbers
        rdev = info.devminor & 0xff | info.devmajor << 8 | (info.devminor & 0xfff00) << 12
        return Node(layer, kind, False, rdev=rdev)
    return Node(layer, kind, executable)


def add_parents(tree, layer, path):
    for depth in range(1, len(path)):
        node = tree.setdefault(path[:depth], Node(layer, DIRECTORY, True))
        if not isinstance(node, Node) or node.kind != DIRECTORY:
            raise Impossible("below no directory")


def is_below_file(tree, path):
    """Whether an entry is hidden by a file above it, so that it removes nothing as a whiteout."""
    above = [tree.get(path[:depth]) for depth in range(len(path))]
    return any(node is not None and (not isinstance(node, Node) or node.kind != DIRECTORY) for node in above)


def tree_of(layer, archive):
    """The tree of one layer, with its markers. Until the end the path stands for a hard link to what hasn't come."""
    tree = {(): Node(layer, DIRECTORY, True)}
    # tarfile wants the end of an archive, which not all have
    archive += bytes(-len(archive) % 512 + 1024)
    with tarfile.open(fileobj=io.BytesIO(archive), encoding="utf-8", errors="surrogateescape") as tar:
        for info in tar:
            path = names_of(info.name)
            if not path and not info.isdir():
                raise Impossible("root")
            if info.islnk():
                target = names_of(info.linkname)
                node = tree.get(target, target)
                if isinstance(node, Node) and node.kind == DIRECTORY:
                    raise Impossible("hard link to a directory")
            else:
                node = node_of(layer, tar, info)
                node.row = row_of(info)
            if path and path[-1].startswith(MARKER) and is_below_file(tree, path):
                continue
            add_parents(tree, layer, path)
            there = tree.get(path)
            if isinstance(node, Node) and node.kind == DIRECTORY and isinstance(there, Node) and there.kind == DIRECTORY:
                there.executable, there.row = node.executable, node.row
            elif node is not there:
                tree = without(tree, path)
                tree[path] = node
    return {path: ended(tree, node) for path, node in tree.items()}


def ended(tree, node):
    """What a hard link leads to in the end."""
    if isinstance(node, Node):
        return node
    for _ in tree:
        node = node if isinstance(node, Node) else tree.get(node)
    if not isinstance(node, Node) or node.kind == DIRECTORY:
        raise Impossible("hard link to nothing")
    return node


def laid(lower, upper):
    """An upper layer on what lower ones show."""
    shown = lower
    for path in upper:
        if path and not any(name.startswith(MARKER) for name in path[:-1]):
            if path[-1] == OPAQUE:
                shown = {it: node for it, node in shown.items() if it[:len(path) - 1] != path[:-1] or len(it) < len(path)}
            elif path[-1].startswith(MARKER):
                shown = without(shown, path[:-1] + (path[-1][len(MARKER):],))
    for path, node in sorted(upper.items(), key=lambda it: it[0]):
        if any(name.startswith(MARKER) for name in path):
            continue
        if path in shown and DIRECTORY != shown[path].kind or node.kind != DIRECTORY:
            shown = without(shown, path)
        if node.kind == DIRECTORY and node.row is None and path in shown:
            node.row = shown[path].row
        shown = {**shown, path: node}
    return shown


def shown_by(archives):
    """The paths that layers show, in order, each with its node."""
    shown = {}
    for layer, archive in enumerate(archives):
        shown = laid(shown, tree_of(layer, archive))
    return dict(sorted(shown.items()))
