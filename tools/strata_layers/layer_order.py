"""Whether images lie on those that they were made for, as far as a store or a layout says it."""
import os

from strata_format.refused import Refused, shown

BLOBS = "/blobs/sha256"
HEX = frozenset("0123456789abcdef")
DIGITS = 64
INDEX = "index.json"
# so many manifests and indexes of a layout are read
DOCUMENTS_MOST = 64
# the file beside the images of a layout's layers that says what they are and lie on
BESIDE = ".layers.json"
BESIDE_MOST = 1 << 20
IMAGES_MOST = 128


def split_blob(path):
    """The folder of a layout or store, and the digits of a blob's digest, where a path is one's."""
    folder, digits = os.path.split(os.path.abspath(path))
    is_blob = folder.endswith(BLOBS) and len(digits) == DIGITS and HEX.issuperset(digits)
    return (folder[:-len(BLOBS)], digits) if is_blob else (None, None)


def parents_in_layout(folder):
    """What a layout's manifests say: by the digits of a layer those of the images that it was made
    for. A layout of a stranger that can't be read says nothing, nor does a store."""
    if not os.path.exists(os.path.join(folder, INDEX)):
        return {}
    from strata_layers.layout_images import layers_in, parents_in
    from strata_layers.layouts import INDEXES, MANIFESTS, Layout
    found = {}
    try:
        layout = Layout(folder)
        todo = layout.descriptors()
        for it in (todo.pop() for _ in range(DOCUMENTS_MOST) if todo):
            if it.media in INDEXES:
                todo += layout.manifests(*layout.document(it))
            elif it.media in MANIFESTS:
                manifest, where = layout.document(it)
                for layer, parent in zip(layers_in(manifest, where), parents_in(manifest)):
                    found.setdefault(layer.digits, set()).add(parent)
    except (Refused, OSError):
        pass
    return found


def beside_text(names, layers):
    """What the file beside images says of them: their names, and what they are, as a store has
    it."""
    import json
    from strata_layers.store_images import layer_json
    found = [{"name": name, **layer_json(it)} for name, it in zip(names, layers)]
    return json.dumps({"layers": found}, indent=1).encode() + b"\n"


def layers_beside(folder):
    """What the file beside the images in a folder says, by their names. One that can't be read says
    nothing."""
    from strata_format.files import READING
    from strata_format.json_text import value_of
    try:
        with open(os.open(os.path.join(folder, BESIDE), READING), "rb") as file:
            value = value_of(file.read(BESIDE_MOST))
        return {it["name"]: Noted(it) for it in value["layers"] if isinstance(it["name"], str)}
    except (OSError, ValueError, LookupError, TypeError, AttributeError, RecursionError):
        return {}


class Noted:
    """What a file beside images says of one: its digits, its size, and the digits of that which it
    was made for, or None. To load what a store has for that takes longer than to mount."""

    def __init__(self, said):
        self.digits, self.size = digits_in(said["digest"]), said["size"]
        self.parent = digits_in(said["parent"]) if "parent" in said else None


def digits_in(digest):
    """The digits of a digest; ValueError where it is none."""
    algorithm, _, digits = digest.partition(":")
    if algorithm != "sha256" or len(digits) != DIGITS or not HEX.issuperset(digits):
        raise ValueError(digest)
    return digits


class Known:
    """What is known of images: `known` has the digits of those that the store's were made for, by
    path; of a layout's the layout is asked, and of others the file beside them."""

    def __init__(self, known):
        self.known, self.layouts, self.folders = known, {}, {}

    def parents(self, path):
        """The digits of the images that one was made for. None among them says that it may lie on
        anything."""
        if path in self.known:
            return self.known[path]
        folder, digits = split_blob(path)
        if folder is None:
            layer = self.beside(path)
            return {layer.parent if layer else None}
        if folder not in self.layouts:
            self.layouts[folder] = parents_in_layout(folder)
        return self.layouts[folder].get(digits, {None})

    def digits(self, path):
        """The digits of an image's digest; None where they aren't known."""
        layer = self.beside(path)
        return layer.digits if layer else split_blob(path)[1]

    def beside(self, path):
        """What the file beside an image says of it, or None; one that has got another size since is
        another."""
        folder, name = os.path.split(os.path.abspath(path))
        if folder not in self.folders:
            self.folders[folder] = layers_beside(folder)
        layer = self.folders[folder].get(name)
        return layer if layer and os.path.getsize(path) == layer.size else None

    def laid(self, path):
        """What is known of the image at a path."""
        return Laid(path, self.digits(path), self.parents(path))

    def missing_below(self, left, order):
        """An image that one of those left was made to lie on and that is not among them, where it
        stands beside that; or None."""
        there = {it.digits for it in left + order}
        for it in left:
            if not it.wanted & there:
                path = self.path_of(sorted(it.wanted)[0], it.path)
                return None if path is None else self.laid(path)
        return None

    def path_of(self, digits, path):
        """The path of an image that stands in the folder of another one, or None."""
        folder = os.path.dirname(path)
        there = self.folders.get(os.path.dirname(os.path.abspath(path)), {})
        names = [name for name, layer in there.items() if layer.digits == digits]
        places = (os.path.join(folder, name) for name in [digits, *names])
        return next((it for it in places if os.path.isfile(it) and self.digits(it) == digits), None)

    def name_of(self, digits):
        """How an image is named: by its name in a folder, or else by its digest."""
        names = (name for it in self.folders.values() for name, layer in it.items()
                 if layer.digits == digits)
        return shown(next(names, "sha256:%s.." % digits[:12]))


def is_known(paths):
    """Whether something may be known of one of these images: a blob is named by its digest, and of
    others a file beside them may say what they are."""
    folders = {*map(os.path.dirname, paths)}
    return (any(len(os.path.basename(it)) == DIGITS for it in paths)
            or any(os.path.exists(os.path.join(it, BESIDE)) for it in folders))


class Laid:
    """An image of a stack: its path, its digits, which may not be known, and those of the images
    that it may lie on, among which None stands for any."""

    def __init__(self, path, digits, wanted):
        self.path, self.digits, self.wanted = path, digits, wanted

    def is_wrong(self, below):
        """Whether it lies on another image than it was made for, or on none; of one that isn't
        known nothing is said."""
        if None in self.wanted:
            return False
        return below is None or below.digits is not None and below.digits not in self.wanted


def right_order(stack, images):
    """The paths in an order in which each image lies on one that it was made for, with those that
    are missing where they stand beside them; none where there is no such order."""
    left, order, below = list(stack), [], None
    while left and len(order) + len(left) <= IMAGES_MOST:
        fit = [it for it in left if below is not None and below.digits in it.wanted - {None}]
        fit = fit or [it for it in left if None in it.wanted]
        if fit:
            # one image may lie on itself
            below = min(fit, key=lambda it: below is None or it.digits != below.digits)
            order.append(below)
            left.remove(below)
        else:
            found = images.missing_below(left, order)
            if found is None:
                return []
            left.append(found)
    return [] if left else [it.path for it in order]


def order_lines(stack, images, joined):
    """The lines about a stack, the lowest first, of which an image lies on another than it was made
    for: which, and the right order, as `joined` says several paths; none where all may be right."""
    under = [None, *stack]
    found = [(at, it) for at, it in enumerate(stack) if it.is_wrong(under[at])]
    if not found:
        return
    at, it = found[0]
    lies = "lies on " + images.name_of(under[at].digits) if at else "is the lowest"
    more = "; %d more lie on others" % (len(found) - 1) if len(found) > 1 else ""
    yield "layer %d is %s: made to lie on %s, and %s%s" % (
        at, shown(os.fsencode(it.path)), images.name_of(sorted(it.wanted)[0]), lies, more)
    order = right_order(stack, images)
    if order and all(map(str.isprintable, order)):
        yield "the right order: " + joined(order)


def wrong_order(paths, known, joined):
    """The same of the images at paths."""
    images = Known(known)
    return order_lines([images.laid(path) for path in paths], images, joined)


def wrong_order_of(layers):
    """The same of the layers of a store's image."""
    stack = [Laid("sha256:" + it.digits, it.digits, {it.parent}) for it in layers]
    return order_lines(stack, Known({}), " ".join)
