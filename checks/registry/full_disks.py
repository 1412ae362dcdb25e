"""Checks of what a full disk leaves: a file system in memory that is too small for what is made; and of an output that
takes nothing."""
import os
import random
import sys
import tempfile

from checks import TOOLS
from checks.registry import made
from checks.registry.rooms import LAYERS, TREE, LeftOut, hold, needs

PIECE = 200 << 10
# of four layers of such a piece two fit
SMALL, LARGE = 600 << 10, 8 << 20
NO_SPACE = "no space left on device"
# a disk, its size and another, and a command: what it leaves on the disk, and then on a larger one
SCRIPT = """
mount -t tmpfs -o size="$2" tmpfs "$1" || exit 99
disk=$1 larger=$3 prepared=$4
shift 4
tree() { (cd "$disk" && find . -type f -exec sha256sum {} + -o -type d -print | sort); }
sh -c "$prepared" >&2 || exit 98
tree && echo == && "$@" >&2
echo "== $?" && tree
mount -o remount,size="$larger" "$disk" && "$@" >&2
echo "== $?" && tree
"""


def noise(seed):
    return random.Random(seed).randbytes(PIECE)


def layout(room, count):
    """A layout of so many layers, which nothing packs."""
    layers = [made.archive(made.entry("%d" % at, noise(at))) for at in range(count)]
    return made.layout(room.name(), layers).path


def on_disk(room, words, prepared="true"):
    """What is on a small disk before a command is run, and after it, which must fail there and
    say so; and what stands there once the disk is larger, where it must end well."""
    needs("unshare", "mount", "find", "sha256sum")
    disk = os.path.join(room.path, "disk")
    os.makedirs(disk, exist_ok=True)
    apart = ["unshare", "-m"] if os.geteuid() == 0 else ["unshare", "-rm"]
    done = room.run(*apart, "sh", "-c", SCRIPT, "sh", disk, str(SMALL), str(LARGE), prepared, sys.executable, "-B",
                    LAYERS, *words)
    if done.returncode == 99:
        raise LeftOut("no file system in memory here: %s" % done.stderr.strip())
    hold("it could be prepared", (True, done.stderr), (done.returncode != 98, done.stderr))
    told = [it for it in done.stderr.splitlines() if "tools/layers.py: " in it]
    hold("told on the full disk", (1, True), (len(told), told[0].endswith(NO_SPACE)))
    before, status, after, larger, at_last = (it.strip("\n") for it in split_at_status(done.stdout))
    hold("status, and that on a larger disk", ("1", "0"), (status, larger))
    return before, after, at_last


def split_at_status(text):
    before, _, rest = text.partition("==\n")
    _, _, rest = rest.partition("== ")
    status, _, rest = rest.partition("\n")
    after, _, rest = rest.partition("== ")
    larger, _, at_last = rest.partition("\n")
    return before, status, after, larger, at_last


def check_convert_on_a_full_disk(room):
    """A new layout is not begun, and an existing one stays as it was."""
    disk, source = os.path.join(room.path, "disk"), layout(room, 4)
    words = ["convert", "--store", room.store, source]
    for packing in ([], ["--compress", "gzip"]):
        before, after, at_last = on_disk(room, [*words, *packing, disk + "/out:1"])
        hold("a new layout", (before, True), (after, "./out/index.json" in at_last))
    earlier = "%s -B %s convert --store %s %s %s/out:0" % (sys.executable, LAYERS, room.store, layout(room, 1), disk)
    before, after, _ = on_disk(room, [*words, disk + "/out:1"], earlier)
    hold("an existing layout", (True, before), ("./out/index.json" in before, after))


def check_images_on_a_full_disk(room):
    """Images of a layout: all or none."""
    folder = os.path.join(room.path, "disk", "images")
    before, after, at_last = on_disk(room, [layout(room, 4), folder])
    hold("images", (before, 4), (after, at_last.count(".romfs")))


def check_image_on_a_full_disk(room):
    """An image of a folder: none, and an earlier one of its name stays."""
    folder, path = room.name(), os.path.join(room.path, "disk", "it.romfs")
    os.mkdir(folder)
    for at in range(4):
        with open(os.path.join(folder, str(at)), "wb") as out:
            out.write(noise(at))
    for prepared in ("true", "echo earlier > '%s'" % path):
        before, after, at_last = on_disk(room, ["image", folder, path], prepared)
        hold("an image", (before, True), (after, at_last != before))


def stored(tree):
    """The files of a store on the disk, each with its SHA-256."""
    lines = (it.split("  ./store/") for it in tree.splitlines() if "  ./store/" in it)
    return {name: digits for digits, name in lines}


def blobs_of(files):
    """Layers and their trees, by the names of their files."""
    return {name.rpartition("/")[2]: digits for name, digits in files.items() if name.startswith("blobs/")}


def check_pull_on_a_full_disk(room):
    """A store gets no image, and keeps layers only that are whole."""
    store = os.path.join(room.path, "disk", "store")
    before, after, at_last = on_disk(room, ["pull", "--store", store, "oci:" + layout(room, 4), "a:1"])
    files = stored(after)
    blobs = blobs_of(files)
    layers = {name: digits for name, digits in blobs.items() if not name.endswith(TREE)}
    hold("whole layers", {it: it for it in layers}, layers)
    hold("trees of these alone", set(), {it.removesuffix(TREE) for it in blobs} - set(layers))
    hold("an image, or what was begun", [], [it for it in files if it.startswith(("images/", "new/"))])
    trees = [it for it in blobs_of(stored(at_last)) if it.endswith(TREE)]
    hold("the image at last", (".", 4, 8), (before, len(trees), len(blobs_of(stored(at_last)))))


def check_podman_on_a_full_disk(room):
    """A store for podman: all of it or nothing."""
    folder = os.path.join(room.path, "disk", "podman")
    room.layers("pull", "oci:" + layout(room, 4), "a:1")
    for words, name in (([], "images.json"), (["--layers"], "layer.romfs")):
        filled = "head -c 592k /dev/zero > '%s/filling'" % os.path.dirname(folder)
        before, after, at_last = on_disk(room, ["podman", "--store", room.store, *words, "a:1", folder], filled)
        hold("a store", (before, True), (after, name in at_last))


def hold_full(room, done, *words):
    """A command of strata-layers whose standard output takes nothing fails with a line that says what is done
    nevertheless."""
    with open("/dev/full", "wb") as full, tempfile.TemporaryFile() as errors:
        status, _ = room.forked(list(words), full, errors)
        told = os.pread(errors.fileno(), 1 << 16, 0).decode()
    line = "tools/layers.py: /dev/stdout: %s%s\n" % (NO_SPACE, "; " + done if done else "")
    hold(" ".join(words), (1, line), (status, told))


def into_full(room, ends, script, *words):
    """Status and lines of a tool some of whose standard ends take nothing."""
    words = [sys.executable, "-B", os.path.join(TOOLS, script), *words]
    environment = {**room.environment, "PYTHONUNBUFFERED": ""}
    done = room.run("sh", "-c", 'exec "$@" ' + ends, "sh", *words, env=environment)
    return done.returncode, done.stderr.partition(": ")[2]


def check_full_output(room):
    """What was made is whole, whoever takes the line about it; and a line says so."""
    folder, source, store = room.name(), layout(room, 3), ["--store", room.store]
    os.mkdir(folder)
    there = [room.name() for _ in range(4)]
    hold_full(room, "the image is made", "image", folder, there[0])
    room.ran(sys.executable, "-B", LAYERS, "image", folder, there[1])
    hold("images", *(open(it, "rb").read() for it in (there[1], there[0])))
    hold_full(room, "the images are made", source, there[2])
    hold("images of layers", 3, sum(it.endswith(".romfs") for it in os.listdir(there[2])))
    hold_full(room, "the layout is written", "convert", *store, source, there[3] + ":1")
    read = made.Read(there[3], "1")
    hold("layers of the layout", 3, len(read.json(read.top)["layers"]))
    hold_full(room, "the image is in the store", "pull", *store, "oci:" + source, "a:1")
    hold("the store", 3, int(room.layers("images").split()[1]))
    for verb in (["images"], ["config", "a:1"], ["config", "--podman", "a:1"]):
        hold_full(room, "", verb[0], *store, *verb[1:])
    hold_full(room, "the image has them", "attributes", folder, there[0])
    hold_full(room, "its tree is written", "seal", there[0])
    hold("a tree", True, os.path.exists(there[0] + ".verity"))
    hold_full(room, "all is written", "podman", *store, "a:1", room.name())
    for digits in room.blobs()[:2]:
        place = os.path.join(room.store, "blobs", "sha256", digits)
        os.chmod(place, 0o644)
        os.truncate(place, 1024)
    hold_full(room, "all is verified", "verify", *store)
    hold("set aside", 2, sum(it.endswith(".damaged") for it in room.blobs()))
    room.layers("remove", "a:1")
    hold_full(room, "the layers are removed", "prune", *store)
    hold("left", [], room.blobs())


def check_full_output_of_help(room):
    """Help and version that nobody takes: one line, whatever the words are."""
    line = "/dev/stdout: %s\n" % NO_SPACE
    verbs = ("image", "convert", "pull", "images", "verify", "remove", "prune", "config", "attributes", "seal", "podman")
    for verb in verbs:
        hold_full(room, "", verb, "--help")
    asked = [("layers.py", "image", "--help"), ("layers.py", "--help"), ("layers.py", "-V"), ("mount.py", "--list")]
    asked += [(it, word) for it in ("mount.py", "mount_helper.py", "snapshotter.py") for word in ("--help", "--version")]
    for words in asked:
        hold(" ".join(words), (1, line), into_full(room, "> /dev/full", *words))
    for script, wrong in (("layers.py", 2), ("mount.py", 2), ("mount_helper.py", 1), ("snapshotter.py", 2)):
        hold(script, (wrong, ""), into_full(room, "2> /dev/full", script, "--none"))


CHECKS = [check_convert_on_a_full_disk, check_images_on_a_full_disk, check_image_on_a_full_disk,
          check_pull_on_a_full_disk, check_podman_on_a_full_disk, check_full_output, check_full_output_of_help]
