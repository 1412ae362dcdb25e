"""The folders that stacked layers show, for the layer on top of them: what their rows say of those that it only implies."""
from strata_format.read_romfs import ReadImage
from strata_format.refused import Refused
from strata_layers.entries import MARKER, OPAQUE


class Below:
    """Layers, the lowest first, as they are added."""

    def __init__(self):
        # the folders at a path, and at each path above it
        self.images, self.path, self.found = [], (), [[]]

    def add(self, number):
        """Adds the layer in an open file. One that is broken, which no mount takes, shows nothing."""
        try:
            self.images.append(ReadImage(number))
        except Refused:
            pass
        self.path, self.found = (), [[(image, image.root) for image in reversed(self.images)]]

    def folders(self, path):
        """The folders that lie on one another at a path, the uppermost first; none where no folder is shown there. It goes
        on from the path that was asked for before."""
        same = common(path, self.path)
        del self.found[same + 1:]
        for name in path[same:]:
            self.found.append(below(self.found[-1], name))
        self.path = path
        return self.found[-1]

    def said(self, path):
        """What a row says of the folder that is shown at a path, or None, and its extended attributes."""
        folders = self.folders(path)
        if not folders:
            return None, ()
        image, at = folders[0]
        return image.said(at), image.list_of(at)


def common(path, other):
    """How many names two paths begin with alike. Paths may be deep, and many have most of their names in common."""
    low, high = 0, min(len(path), len(other))
    while low < high:
        middle = (low + high + 1) // 2
        low, high = (middle, high) if path[low:middle] == other[low:middle] else (low, middle - 1)
    return low


def below(folders, name):
    """The folders of this name in folders that lie on one another: down to one that hides what is below."""
    found = []
    for image, folder in folders:
        members = image.members(folder)
        if name in members:
            if not image.is_folder(members[name]):
                break
            found.append((image, members[name]))
        if OPAQUE in members or MARKER + name in members:
            break
    return found


def implied(root):
    """The folders of a layer, as Image has them, that no entry said anything of and that layers below may show, each
    with its path."""
    path, todo = [], [iter([(None, root)])]
    while todo:
        name, folder = next(todo[-1], (None, None))
        if folder is None:
            todo.pop()
            del path[-1:]
            continue
        path += [name] * (folder is not root)
        if folder.said is None:
            yield tuple(path), folder
        todo.append(iter(shown_folders(folder)))


def shown_folders(folder):
    """The folders in a folder of a layer below which other layers may show something, with their names."""
    if OPAQUE in folder.members:
        return []
    return [(name, it) for name, it in folder.members.items() if getattr(it, "members", None) is not None
            and not name.startswith(MARKER) and MARKER + name not in folder.members]
