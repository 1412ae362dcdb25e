"""Tests of tools/layers.py: layers that no one image holds, by images of few bytes; and layers that
are packed in two ways. A test is a function of a room."""
import contextlib
import os
import random
import shutil

from checks.layers.layer_room import PAX, LeftOut, expect, run_tool, with_hint
from checks.layers.shown_trees import compare, compare_attributes, shown_tree, wanted_tree
from checks.layers.taken_layers import random_entry
from checks.plain import plain_layers
from checks.shared.layer_files import (archive, character, directory, fifo, file, hard, images_in, layout_of,
                                       symlink)
from checks.shared.pulled import pulled_line
from strata_format import image
from strata_layers import convert, layer_images
from strata_layers.store import Store
from strata_layers.store_images import layers_of


@contextlib.contextmanager
def small_images(most, kept=image.KEPT):
    """Lets an image hold so many bytes, of which a part is kept for links."""
    before = layer_images.IMAGE_MOST, image.KEPT
    layer_images.IMAGE_MOST, image.KEPT = most, kept
    try:
        yield
    finally:
        layer_images.IMAGE_MOST, image.KEPT = before


def large(name, number, **more):
    return file(name, b"%d" % number * 30000, **more)


LOW = archive([directory("a", mode=0o700), file("a/old", b"1"), file("a/x", b"2"),
               directory("c", mode=0o711, uid=5), file("c/below", b"3"), file("gone", b"4"),
               file("shown", b"5"), directory("d"), file("d/hidden", b"6")])
# in one image of 256 KiB some eight of the large files fit; what is about others comes late
HIGH = archive([
    *(large("c/f%02d" % number, number) for number in range(20)), hard("early", "c/f01"),
    hard("late", "c/f19"), hard("before", "e/new"), large("e/new", 7, mode=0o4755),
    file("a/.wh.x"), hard(".wh.gone", "c/f19"), file("d/.wh..wh..opq"),
    directory("d", mode=0o750, uid=9), large("d/one", 8), large("c/f03", 33),
    directory("e", mode=0o555, mtime=77), symlink("link", "c/f01"), fifo("pipe"),
    character("null", 1, 3), *(large("e/sub%d/f" % number, number) for number in range(8)),
    directory("c/deep/er", mode=0o700), *(file("small%d" % number, b"s") for number in range(50))])


def stack_of(room, images, archives, owners):
    """Holds images, each of a layer, against the plain reading of archives."""
    wanted = plain_layers.shown_by(archives)
    compare_attributes(wanted, images)
    if room.strata is not None:
        shown = shown_tree(room.strata, images)
        shown = {path: it._replace(layer=owners[it.layer]) for path, it in shown.items()}
        compare(wanted_tree(wanted), shown)


def images_of(room, *archives):
    """Images of a layout of archives, and of which layer each is, by making them of each alone."""
    folder, counts = room.name(), []
    for it in archives:
        alone = room.name()
        expect(room.convert(layout_of(room.name(), [it]).path, alone)[0] == 0, "it was refused")
        counts.append(len(images_in(alone)))
        shutil.rmtree(alone)
    status, _, told = room.convert(layout_of(room.name(), archives).path, folder)
    expect(status == 0, "told %r" % told)
    images = images_in(folder)
    expect(len(images) == sum(counts), "%d images, and %r alone" % (len(images), counts))
    return images, [layer for layer, count in enumerate(counts) for _ in range(count)]


def test_layer_of_many_images(room):
    with small_images(1 << 18):
        images, owners = images_of(room, LOW, HIGH)
    expect(owners.count(0) == 1 and owners.count(1) > 4, "layers of images: %r" % owners)
    expect(all(os.path.getsize(it) <= 1 << 18 for it in images), "an image is too large")
    stack_of(room, images, [LOW, HIGH], owners)


def larger_entry(rng, paths):
    """A random entry; files that say nothing of layers below have some kilobytes."""
    info, data = random_entry(rng, paths)
    if info.isreg() and ".wh." not in info.name:
        data *= rng.randrange(1, 120)
        info.size = len(data)
    return info, data


def random_layer(rng):
    paths = []
    return archive([larger_entry(rng, paths) for _ in range(rng.randrange(50))], PAX)


def test_random_layers_of_many_images(room):
    rng, many = random.Random(11), 0
    for _ in range(60):
        made = [random_layer(rng) for _ in range(rng.randrange(1, 4))]
        try:
            plain_layers.shown_by(made)
        except plain_layers.Impossible:
            continue
        with small_images(1 << 14, 2):
            images, owners = images_of(room, *made)
        many += len(images) > len(made)
        stack_of(room, images, made, owners)
    expect(many > 8, "%d were split" % many)


def test_large_file_of_a_layer(room):
    with small_images(1 << 16):
        room.refuse("layer 0: c: a file of 65537 bytes, at most 65536 are held",
                    archive([file("c", bytes(65537))]))
        made = archive([file("a", b"1"), file("b", bytes(65000)), file("c", b"3")])
        images, owners = images_of(room, made)
    expect(owners == [0, 0, 0], "%d images" % len(images))


# --- layouts and stores ---

def good(*words):
    status, output, told = run_tool(*words)
    expect((status, told) == (0, []), "%r: status %d, told %r" % (words, status, told))
    return output


def hold_pulled(place, layout, name, new):
    output = good("pull", "--store", place, "oci:" + layout, name)
    expect(output == pulled_line(name, 2, new, place), "printed %r" % output)


def hold_stored(room, place, name, archives, owners):
    store = Store(place)
    layers, marks = layers_of(store, name)
    for number in marks:
        os.close(number)
    stack_of(room, [store.path_of(it.digits) for it in layers], archives, owners)
    expect([it.parent for it in layers] == [None, *(it.digits for it in layers[:-1])], "made for others: %r" % layers)
    return layers


def test_stores_of_many_images(room):
    """Converted, pulled and pulled as archives, a layer of many images counts as one."""
    place, other, new = room.name(), room.name(), room.name()
    layout = layout_of(room.name(), [LOW, HIGH]).path
    with small_images(1 << 18):
        good("convert", "--store", place, "--compress", "gzip", layout, new + ":1")
        hold_pulled(place, layout, "x:1", 0)
    hold_pulled(other, new, "y:1", 2)
    hold_pulled(other, new, "y:2", 0)
    for store, name in ((place, "x:1"), (other, "y:1")):
        layers = hold_stored(room, store, name, [LOW, HIGH], [0] + [1] * 9)
        expect([it.part for it in layers] == [0, *range(len(layers) - 1)], "parts: %r" % layers)
        line = good("images", "--store", store).splitlines()[0].split()
        expect(line[:2] == [name, "2"], "printed %r" % line)
    again = room.name()
    good("convert", "--store", other, new + ":1", again + ":1")
    hold_pulled(other, again, "z:1", 0)
    layers = hold_stored(room, other, "z:1", [LOW, HIGH], [0] + [1] * 9)
    expect([it.part for it in layers] == [0, *range(len(layers) - 1)], "parts: %r" % layers)
    os.unlink(Store(other).path_of(layers[5].digits))
    hold_pulled(other, again, "z:1", 1)
    hold_pulled(other, again, "z:1", 0)
    good("remove", "--store", other, "y:1")
    expect(good("prune", "--store", other).startswith("0 layers"), "a layer of an image was removed")
    hold_stored(room, other, "y:2", [LOW, HIGH], [0] + [1] * 9)


def test_folders_of_other_layers(room):
    """A layer of many images that implies folders, over layers that have these otherwise."""
    lows = [archive([directory("c", mode=mode, uid=mode), file("c/x", b"1")]) for mode in (0o700, 0o750)]
    high = archive([large("c/f%d" % number, number) for number in range(20)])
    place = room.name()
    for number, low in enumerate([*lows, lows[0]]):
        name = "x:%d" % number
        with small_images(1 << 18):
            layout = layout_of(room.name(), [low, high]).path
            good("pull", "--store", place, "oci:" + layout, name)
        hold_stored(room, place, name, [low, high], [0] + [1] * 9)


def test_new_layers_are_read_once(room):
    """A layer that convert has just made is not read and hashed again before it is copied; one that was
    in the store is."""
    place, before, read = room.name(), convert.checked_pieces, []
    layout = layout_of(room.name(), [LOW, HIGH]).path

    def noted(layer, *more):
        read.append(layer.digits)
        return before(layer, *more)

    convert.checked_pieces = noted
    try:
        for words in ([], ["--compress", "gzip"], ["--tar"]):
            good("convert", "--store", place + "".join(words), *words, layout, room.name() + ":1")
            expect(read == [], "%r: read again" % words)
        good("convert", "--store", place, layout, room.name() + ":1")
        expect(sorted(read) == sorted(layers_in(place)), "not read: %r" % read)
    finally:
        convert.checked_pieces = before


def layers_in(place):
    """The names of the layers of a store, without their trees."""
    return [it for it in os.listdir(place + "/blobs/sha256") if not it.endswith(".verity")]


def test_two_packings(room):
    """One tree that is packed in several ways is one layer of a store."""
    place, packings = room.name(), ["", "gzip"]
    made = archive([file("a", b"1"), directory("d", mode=0o700)])
    for number, packed in enumerate(packings):
        layout = layout_of(room.name(), [made], (packed,)).path
        good("pull", "--store", place, "oci:" + layout, "x:%d" % number)
    expect(len(layers_in(place)) == 1, "it is there twice")
    layout = layout_of(room.name(), [made], ("gzip",)).path
    good("convert", "--store", place, layout, room.name() + ":1")
    expect(len(layers_in(place)) == 1, "it is there twice")
    if shutil.which("zstd") is None:
        raise LeftOut("zstd: there is no such program")
    zstd = room.name()
    good("convert", "--store", place, "--compress", "zstd", layout, zstd + ":1")
    good("pull", "--store", place, "oci:" + zstd, "x:3")
    expect(len(layers_in(place)) == 1, "it is there twice")


def test_what_was_left_out(room):
    """A layer of which something was left out is made anew for who doesn't want that, and told of again."""
    place = room.name()
    made = archive([file("a", b"1"), character("c", 1, 65536), hard("c2", "c")])
    source = "oci:" + layout_of(room.name(), [made]).path
    wanted = ["entries that romfs cannot hold are left out: 2 entries", "  layer 0: c", "  layer 0: c2"]
    line = "layer 0: c: a device of minor number 65536, at most 65535 is held"
    for words, status, told in ((["--leave-out"], 0, wanted), ([], 1, with_hint([line])), (["--leave-out"], 0, wanted[:1])):
        got = run_tool("pull", "--store", place, *words, source, "x:1")
        expect((got[0], got[2]) == (status, told), "told %r" % (got,))
    # a layout and a folder have the option, too
    folder = room.name()
    got = run_tool("--leave-out", source[4:], folder)
    expect((got[0], got[2]) == (0, wanted), "told %r" % (got,))
    expect(sorted(os.listdir(folder)) == ["00.romfs"], "made %r" % os.listdir(folder))
