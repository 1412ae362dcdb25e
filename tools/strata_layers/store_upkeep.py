"""Upkeep of a store: what is in it, whether it is right, and removing what nobody needs."""
import errno
import fcntl
import os

from strata_format.files import names_in
from strata_format.progress import Progress
from strata_format.refused import Refused, shown
from strata_layers.store import DAMAGED, TREE, pieces_of
from strata_layers.store_images import count_of, image_in, layers_text, names


def found_images(store):
    """The images that can be read, by name, and a line for each that can't."""
    found, faults = {}, []
    for name in names(store):
        try:
            found[name] = image_in(store, name)
        except Refused as refused:
            faults.append(str(refused))
    return found, faults


def image_lines(store):
    found, faults = found_images(store)
    for name, image in found.items():
        missing = sum(store.size_of(it.digits) != it.size for it in image.layers)
        size = sum(it.size for it in image.layers)
        yield "%s %d %d %s%s" % (name, count_of(image.layers), size, image.manifest,
                                 " (%s missing)" % layers_text(missing) if missing else "")
    yield from faults


def users_of(found):
    """The names of the images that need a layer, by its digits."""
    users = {}
    for name, image in found.items():
        for it in image.layers:
            users.setdefault(it.digits, []).append(name)
    return users


def verified(store):
    """A line for each layer whose digest is wrong, which is taken out of use, for each whose tree is
    wrong, for each that is missing, and for each image that can't be read."""
    found, faults = found_images(store)
    yield from faults
    users, there = users_of(found), store.layers()
    with Progress("verified", sum(store.size_of(it) or 0 for it in there)) as progress:
        for digits in there:
            needed = needed_by(users, digits)
            yield from ("%s; needed by %s" % (line, needed) for line in wrong_layer(store, digits, progress.add))
    for digits in sorted({*users} - {*there}):
        yield "sha256:%s: missing; needed by %s" % (digits, needed_by(users, digits))


def needed_by(users, digits):
    return ", ".join(users.get(digits, ["no image"]))


def wrong_layer(store, digits, heard):
    """A line where a layer has other bytes than its digest says: it is set aside, if this user may
    write in the store, so that no mount takes it, and the next pull brings it again. A wrong tree
    is made anew."""
    from strata_layers.store_seals import has_wrong_seal, keep_seal
    from strata_layers.verity import sealed_pieces
    number = store.open_layer(digits)
    if number is None:
        return
    try:
        got, seal = sealed_pieces(pieces_of(number), heard)
        where = shown(os.fsencode(store.path_of(digits)))
        if got != digits:
            yield from mended(
                store, lambda: store.set_aside(number, digits), "%s: its digest is sha256:%s; " % (where, got),
                "it is set aside as %s%s; pull again, and mount again what is mounted of it" % (digits, DAMAGED),
                "sets it aside")
        elif has_wrong_seal(store, digits, seal):
            yield from mended(
                store, lambda: keep_seal(store, digits, seal), "%s%s: it was changed or removed; " % (where, TREE),
                "it is made again; mount again what is mounted of it", "makes it again")
    finally:
        os.close(number)


def mended(store, mend, what, done, owner_does):
    """A line of what is wrong, and is mended if this user may write in the store."""
    try:
        with store.locked():
            mend()
        yield what + done
    except OSError as fault:
        if fault.errno not in (errno.EACCES, errno.EPERM, errno.EROFS):
            raise
        yield "%sverify it as the store's owner, which %s" % (what, owner_does)


def prune(store):
    """Removes layers that no image names or that are set aside, and no mount uses: how many, their bytes, and how many
    a mount uses. The store must be locked. Refused where an image can't be read, since what it
    needs is not known then."""
    found, faults = found_images(store)
    if faults:
        raise Refused(faults[0])
    users = users_of(found)
    unwanted = [it for it in store.layers() if it not in users]
    sizes = [taken_away(store, it) for it in unwanted + [it + DAMAGED for it in store.layers(DAMAGED)]]
    for it in {*store.layers(TREE)} - {*store.layers()}:
        os.unlink(it + TREE, dir_fd=store.blobs)
    forget(store)
    gone = [it for it in sizes if it is not None]
    return len(gone), sum(gone), len(sizes) - len(gone)


def taken_away(store, name):
    """Takes the file of a layer away; its size, or None where a mount uses it: then its server has
    the file open, with a lock on it."""
    number = store.open_layer(name)
    try:
        fcntl.flock(number, fcntl.LOCK_EX | fcntl.LOCK_NB)
        size = os.fstat(number).st_size
        os.unlink(name, dir_fd=store.blobs)
        return size
    except BlockingIOError:
        return None
    finally:
        os.close(number)


def forget(store):
    """Removes the records of layers that are gone."""
    there = {"sha256:" + it for it in store.layers()}
    for name in names_in(store.records):
        value = store.small_json(store.records, name)
        # of how a layer was packed the name says the layer, of what was made of a blob the record
        digests = [name.partition(".")[0].replace("-", ":")] if "." in name else digests_in(value)
        if not digests or not there.issuperset(digests):
            os.unlink(name, dir_fd=store.records)


def digests_in(value):
    """The digests of the images that a record says; none where it is of other rules."""
    found = value.get("layers")
    found = found if isinstance(found, list) else []
    return [str(it.get("digest")) for it in found if isinstance(it, dict)]
