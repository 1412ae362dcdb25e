"""Checks of layers: what becomes an image, what a mount of it shows, and what stays a folder."""
import glob
import io
import os
import shutil
import sqlite3
import subprocess
import sys
import tempfile
import threading

from checks import TOOLS
from checks.registry import made
from checks.registry.tree import tree
from checks.shared.mounting import hold, wait_until
from strata_format.refused import Refused
from strata_layers import tars
from strata_snapshotter import given_image, whole
from strata_snapshotter.blob_image import write_entries
from strata_snapshotter.folder_image import write_folder_image
from strata_snapshotter.image_maker import ImageMaker
from strata_snapshotter.places import Places
from strata_snapshotter.snapshots import Snapshots
from strata_snapshotter.state import Form, Kind

REFERENCE, BLOB = "containerd.io/snapshot.ref", "containerd.io/snapshot/cri.layer-digest"
LAYERS = "containerd.io/snapshot/cri.image-layers"
# what tells that a layer stays a folder, and why: a label, and a line of the log
FOLDER, TOLD = "strata/folder", "strata-snapshotter: %s stays a folder, with all above it: %s"
# what ends with a line once its memory is bounded
LIMITED = "#!/bin/sh\nwhile [ $(ulimit -v) = unlimited ]; do sleep 0.02; done\nulimit -v >&2\nexit 1\n"
# which of the facts of checks/registry/tree.py tells how many names a file has
LINKS = 2
TIME = 1600000000123456789


# --- folders, as containerd unpacks layers ---

def put(folder, name, data=b"", mode=0o644, owner=(0, 0)):
    path = os.path.join(folder, name)
    with open(path, "wb") as out:
        out.write(data)
    finish(path, mode, owner)


def finish(path, mode, owner=(0, 0)):
    os.chown(path, *owner)
    os.chmod(path, mode)
    os.utime(path, ns=(TIME, TIME))


def make_folder(folder, name, mode=0o755):
    os.mkdir(os.path.join(folder, name))
    os.chmod(os.path.join(folder, name), mode)


def whiteout(folder, name):
    os.mknod(os.path.join(folder, name), 0o020000, os.makedev(0, 0))


def lowest(folder):
    """A layer with all kinds of files."""
    for name in ("etc", "opt", "opt/deep", "var"):
        make_folder(folder, name)
    make_folder(folder, "tmp", 0o1777)
    put(folder, "etc/passwd", b"root\n")
    put(folder, "etc/shadow", b"secret\n", 0o600, (0, 42))
    put(folder, "etc/sudo", b"#!/bin/sh\n", 0o4755)
    put(folder, "opt/one", b"1")
    put(folder, "opt/deep/two", b"2", owner=(1000, 1000))
    put(folder, "var/large", bytes(range(256)) * 5000)
    os.link(folder + "/etc/passwd", folder + "/etc/again")
    os.symlink("../etc/passwd", folder + "/var/link")
    os.mkfifo(folder + "/var/fifo")
    os.mknod(folder + "/var/null", 0o020666, os.makedev(1, 3))
    os.mknod(folder + "/var/disk", 0o060600, os.makedev(7, 4000))
    for name in ("fifo", "null", "disk"):
        finish(os.path.join(folder, "var", name), 0o640, (5, 6))


def higher(folder):
    """A layer over it: a removed file, an opaque folder, a file instead of a folder."""
    make_folder(folder, "etc", 0o750)
    whiteout(folder, "etc/passwd")
    put(folder, "etc/shadow", b"other\n", 0o640)
    make_folder(folder, "opt")
    os.setxattr(folder + "/opt", "trusted.overlay.opaque", b"y")
    put(folder, "opt/new", b"3")
    put(folder, "var", b"a file now")


def without_links(facts):
    """What is held of a path beside its links: overlayfs counts removed names, too."""
    return facts[:LINKS] + facts[LINKS + 1:]


def overlay(folders, place):
    """Mounts folders by the kernel's overlayfs, the highest first."""
    os.mkdir(place)
    subprocess.run(["mount", "-t", "overlay", "overlay", "-o", "lowerdir=" + ":".join(folders),
                    place],
                   check=True, stdin=subprocess.DEVNULL)
    return place


def check_a_tree(snapshotter):
    """Two layers show what the kernel's overlayfs shows of their folders: types, modes, owners,
    times, links, sizes, bytes."""
    kept = []

    def fill(of):
        def filled(folder):
            of(folder)
            kept.insert(0, os.path.join(snapshotter.folder, "kept%d" % len(kept)))
            subprocess.run(["cp", "-a", folder, kept[0]], check=True)
        return filled

    snapshotter.layer("one", "", fill(lowest))
    snapshotter.layer("two", "one", fill(higher))
    shown = tree(snapshotter.view("v", "two"))
    wanted = tree(overlay(kept, snapshotter.folder + "/wanted"))
    hold("paths", sorted(wanted), sorted(shown))
    for path, it in wanted.items():
        hold(path, without_links(it), without_links(shown[path]))
    hold("names of a file, of which one is removed", 1, shown["etc/again"][LINKS])
    hold("a removed file", False, "etc/passwd" in shown)
    hold("in the opaque folder", ["opt/new"], [it for it in shown if it.startswith("opt/")])
    subprocess.run(["umount", snapshotter.folder + "/wanted"], check=True)
    usage = snapshotter.call("Usage", key="one")
    hold("usage", (1, True), (usage.inodes, 1280000 <= usage.size < 1400000))


def check_whiteouts_of_all_forms(snapshotter):
    """Whiteouts as devices and by attributes, opaque folders by both attributes."""
    def below(folder):
        for name in ("a", "b", "c", "d"):
            make_folder(folder, name)
            put(folder, name + "/old", b"old")

    def above(folder):
        for name in ("a", "b", "c", "d"):
            make_folder(folder, name)
        os.setxattr(folder + "/a", "trusted.overlay.opaque", b"y")
        os.setxattr(folder + "/b", "user.overlay.opaque", b"y")
        whiteout(folder, "c/old")
        # the value `x` says that whiteouts by attributes may stand in the folder
        os.setxattr(folder + "/d", "user.overlay.opaque", b"x")
        put(folder, "d/old")
        os.setxattr(folder + "/d/old", "user.overlay.whiteout", b"")

    snapshotter.layer("one", "", below)
    snapshotter.layer("two", "one", above)
    shown = tree(snapshotter.view("v", "two"))
    hold("paths", [".", "a", "b", "c", "d"], sorted(shown))


def kind_of(snapshotter, path):
    return os.path.relpath(path, snapshotter.root).split("/")[0]


def lowers_of(mount):
    """The folders that a mount lies on, the highest first."""
    options = dict(it.partition("=")[::2] for it in mount.options)
    return options["lowerdir"].split(":") if mount.type == "overlay" else [mount.source]


def stays_a_folder(snapshotter, fill):
    """Holds that a layer, and one above it, stay folders; the mount of what is written over them
    shows them over the image below."""
    snapshotter.layer("base", "", lowest)
    snapshotter.layer("middle", "base", fill)
    snapshotter.layer("top", "middle", lambda folder: put(folder, "top", b"t"))
    snapshotter.settled()
    lower = lowers_of(*snapshotter.call("Prepare", key="c", parent="top").mounts)
    hold("folders", ["snapshots", "snapshots", "mounts"],
         [kind_of(snapshotter, it) for it in lower])
    hold("below", (True, True),
         (os.path.exists(lower[0] + "/top"), os.path.exists(lower[2] + "/etc/passwd")))
    hold("usage", 2, snapshotter.call("Usage", key="top").inodes)
    hold("told of the top one", "middle below it is a folder", told_of(snapshotter, "top"))
    hold("folders that are told", ["middle", "top"], snapshotter.names('labels."%s"' % FOLDER))
    snapshotter.stop()
    snapshotter.start()
    hold("told of the image", None, told_of(snapshotter, "base"))
    why = told_of(snapshotter, "middle")
    snapshotter.remove_all()
    return why, folder_lines(snapshotter)


def told_of(snapshotter, name):
    """What the label says for which a layer stays a folder, or None."""
    return snapshotter.call("Stat", key=name).info.labels.get(FOLDER)


def folder_lines(snapshotter):
    """The lines of the log that tell folders."""
    with open(snapshotter.log, encoding="utf-8") as lines:
        return [it.rstrip("\n") for it in lines if "stays a folder" in it]


def attributes_of(path):
    return {name: os.getxattr(path, name) for name in os.listxattr(path)}


def check_extended_attributes(snapshotter):
    """A capability and an attribute of users are in the image, and what is written over it has
    them. overlayfs's own are not shown."""
    ability = bytes.fromhex("0100000200200000" + "00" * 12)

    def fill(folder):
        put(folder, "ping", b"x", 0o755)
        os.setxattr(folder + "/ping", "security.capability", ability)
        make_folder(folder, "etc")
        os.setxattr(folder + "/etc", "user.colour", b"green")
        os.setxattr(folder + "/etc", "trusted.overlay.opaque", b"y")

    snapshotter.layer("one", "", lowest)
    snapshotter.layer("two", "one", fill)
    shown = snapshotter.view("v", "two")
    hold("the capability", {"security.capability": ability}, attributes_of(shown + "/ping"))
    hold("the folder's", {"user.colour": b"green"}, attributes_of(shown + "/etc"))
    hold("a file without", {}, attributes_of(shown + "/opt/one"))


def check_what_images_do_not_hold(snapshotter):
    """A name of whiteouts: told by name in the log and in a label, and nothing is lost."""
    why, lines = stays_a_folder(snapshotter, lambda folder: put(folder, ".wh.x"))
    hold("why", ".wh.x: a layer takes a name that begins with .wh. as a whiteout",
         why.rpartition("/")[2])
    hold("lines", [TOLD % ("middle", why), TOLD % ("top", "middle below it is a folder")], lines)


def check_many_names(snapshotter):
    """A layer of more names than a machine has memory for is refused, as a folder and as an archive; folders that entries imply count."""
    folder, before = snapshotter.folder + "/names", whole.NAMES_MOST
    os.mkdir(folder)
    for number in range(8):
        put(folder, str(number), b"")
    try:
        # 8 files and the folder itself
        for most, why in ((9, None), (8, "it has more than 8 names")):
            whole.NAMES_MOST = most
            hold("a folder", why, refused(lambda out: write_folder_image(folder, out, lambda _: None)))
        for most, why in ((9, None), (8, "it has more than 8 names")):
            whole.NAMES_MOST = most
            data = made.archive(made.entry("a/b/c/d"), made.entry("e/f/g/h"))
            entries = tars.Tar(io.BytesIO(data)).entries()
            hold("an archive", why, refused(lambda out, entries=entries: write_entries(entries, "sha256:" + "0" * 64, out, [])))
    finally:
        whole.NAMES_MOST = before


def refused(write):
    """Why an image is not written to a new file; None where it is."""
    with tempfile.TemporaryFile("w+b", 0) as out:
        try:
            write(out)
        except Refused as why:
            return str(why)
    return None


def check_many_layers(snapshotter):
    """The 129th layer stays a folder, over one mount of 128."""
    for number in range(129):
        snapshotter.layer("l%d" % number, "l%d" % (number - 1) if number else "",
                          lambda folder, name="f%d" % number: put(folder, name, b"x"))
    hold("128", 128, len(os.listdir(snapshotter.view("v", "l127"))))
    lower = lowers_of(*snapshotter.call("View", key="w", parent="l128").mounts)
    hold("files below", [1, 128], [len(os.listdir(it)) for it in lower])
    why = "layer 129, and strata stacks 128"
    hold("told", (None, why), (told_of(snapshotter, "l127"), told_of(snapshotter, "l128")))
    hold("lines", [TOLD % ("l128", why)], folder_lines(snapshotter))


def check_what_is_waited_for(snapshotter):
    """The image that a call waits for is made before those that were committed earlier."""
    snapshotter.stop()
    snapshots = without_images(snapshotter)
    maker, state = snapshots.maker, snapshots.state
    for name, parent in (("first", ""), ("low", ""), ("high", "low")):
        snapshots.create("extract-" + name, parent, Kind.ACTIVE, {})
        snapshots.commit(name, "extract-" + name, {})
    low, high = (state.find(it).id for it in ("low", "high"))
    hold("next", "first", maker.next().name)
    waiting = threading.Thread(target=maker.wait, args=(high,))
    waiting.start()
    wait_until("it waits", lambda: maker.waited_for)
    for number, name in ((low, "low"), (high, "high")):
        hold("next", name, maker.next().name)
        with snapshots.lock, state.transaction():
            state.settle(number, Form.IMAGE, (0, 0))
    maker.notice()
    waiting.join()
    hold("next", "first", maker.next().name)
    end(snapshots)
    snapshotter.start()


def without_images(snapshotter, keep=0, is_waiting=False):
    """The snapshots of a service that was stopped, in this process; no images are made."""
    ImageMaker.start = lambda self: None
    return Snapshots(Places(snapshotter.root), snapshotter.program, None, keep, is_waiting)


def end(snapshots):
    """Ends their use in this process."""
    snapshots.close()
    os.close(snapshots.places.lock)


# --- layers that stand ready ---

def archives():
    return [made.archive(made.folder("a"), made.entry("a/one", b"1")),
            made.archive(made.entry("a/two", b"22"), made.entry("a/.wh.one"))]


def chain_digests(digests):
    """The digests of chains, by the OCI image specification."""
    found = []
    for it in digests:
        above = it if not found else made.digest(("%s %s" % (found[-1], it)).encode())
        found.append(above)
    return found


def hold_ready(snapshotter, blobs, wanted=None):
    """Holds that layers are committed by Prepare alone, and what they show."""
    wanted = wanted or chain_digests([made.digest(it) for it in archives()])
    parent = ""
    for chain, blob in zip(wanted, blobs):
        labels = {REFERENCE: chain, **({BLOB: blob} if blob else {})}
        for key in ("extract-1", "extract-2"):
            snapshotter.fails("ALREADY_EXISTS", "Prepare", key=key + chain, parent=parent,
                              labels=labels)
        filters = ['labels."%s"==%s,parent=="%s"' % (REFERENCE, chain, parent)]
        info, = snapshotter.call("List", filters=filters)
        hold("kind", 3, info.kind)
        parent = info.name
    hold("paths", [".", "a", "a/two"], sorted(tree(snapshotter.view("v", parent))))
    snapshotter.call("Remove", key="v")
    snapshotter.remove_all()


def check_the_highest_layer(snapshotter):
    """A client that says which layers come over one finds the highest mounted when its pull ends,
    and no other one."""
    snapshotter.restart_keeping("1000")
    pulled(snapshotter, archives())
    parent, digests = "", [made.digest(it) for it in archives()]
    for at, chain in enumerate(chain_digests(digests)):
        labels = {REFERENCE: chain, BLOB: digests[at], LAYERS: ",".join(digests[at:])}
        snapshotter.fails("ALREADY_EXISTS", "Prepare", key="extract-" + chain, parent=parent,
                          labels=labels)
        parent = snapshotter.names('labels."%s"==%s' % (REFERENCE, chain))[0]
    hold("mounts", ["2"], os.listdir(snapshotter.root + "/mounts"))
    hold("servers", 1, len(snapshotter.servers()))
    hold("paths", [".", "a", "a/two"], sorted(tree(snapshotter.view("v", parent))))
    hold("servers", 1, len(snapshotter.servers()))


def run_layers(*words):
    subprocess.run([sys.executable, "-B", TOOLS + "/layers.py", *words], check=True,
                   stdin=subprocess.DEVNULL, stdout=subprocess.DEVNULL, stderr=subprocess.DEVNULL)


def pulled(snapshotter, found):
    """A store into which an image of these archives is pulled."""
    layout = made.layout(snapshotter.folder + "/layout", found)
    run_layers("pull", "--store", snapshotter.folder + "/store", "oci:" + layout.path, "app:1")
    return snapshotter.folder + "/store"


def check_layers_of_a_store(snapshotter):
    """Layers that strata-layers has pulled are neither fetched nor unpacked, also while others use
    the store."""
    store = pulled(snapshotter, archives())
    hold_ready(snapshotter, [None, None])
    # a store in which others may write is none
    os.chmod(store, 0o777)
    chain, = chain_digests([made.digest(archives()[0])])
    snapshotter.call("Prepare", key="extract-3", labels={REFERENCE: chain})
    snapshotter.call("Remove", key="extract-3")


def put_blob(snapshotter, data, name=None):
    folder = snapshotter.folder + "/content/blobs/sha256"
    os.makedirs(folder, exist_ok=True)
    digest = name or made.digest(data)
    with open(os.path.join(folder, digest.partition(":")[2]), "wb") as out:
        out.write(data)
    return digest


def check_blobs_at_hand(snapshotter):
    """Layers whose blobs containerd has are made of these alone, packed or not."""
    import gzip
    first, second = archives()
    hold_ready(snapshotter,
               [put_blob(snapshotter, gzip.compress(first)), put_blob(snapshotter, second)])


def check_lying_labels(snapshotter):
    """Labels that name another blob, or a blob with other bytes: nothing is taken, and the layer is
    unpacked."""
    first, second = archives()
    chain, = chain_digests([made.digest(first)])
    broken = put_blob(snapshotter, first + b"\0", made.digest(first))
    other = put_blob(snapshotter, second)
    for number, blob in enumerate((broken, other, "sha256:" + "0" * 64, "sha256:../../x", "md5:0",
                                   "")):
        labels = {REFERENCE: chain, BLOB: blob}
        snapshotter.call("Prepare", key="extract-%d" % number, labels=labels)
        snapshotter.call("Remove", key="extract-%d" % number)
    for chain in ("", "x", "sha256:/etc/passwd"):
        snapshotter.call("Prepare", key="extract-x", labels={REFERENCE: chain, BLOB: other})
        snapshotter.call("Remove", key="extract-x")


def check_shared_servers(snapshotter):
    """What lies on layers of the store, and a mount of the store's image by strata-mount --share,
    have one server, which lasts until the last of them is gone."""
    store = pulled(snapshotter, archives())
    parent = ""
    for chain in chain_digests([made.digest(it) for it in archives()]):
        snapshotter.fails("ALREADY_EXISTS", "Prepare", key="extract-" + chain, parent=parent,
                          labels={REFERENCE: chain})
        parent = snapshotter.names('labels."%s"==%s' % (REFERENCE, chain))[0]
    place = snapshotter.folder + "/mine"
    os.mkdir(place)
    shown = [snapshotter.view(name, parent) for name in ("v", "w")] + [place]
    subprocess.run([sys.executable, "-B", TOOLS + "/mount.py", "--share", "--strata",
                    snapshotter.program, "-o", "suid,dev,allow_other,readers=4", "--store", store,
                    "image:app:1", place], check=True, stdin=subprocess.DEVNULL)
    hold("servers", 1, len(snapshotter.servers()))
    for it in shown:
        hold("paths", [".", "a", "a/two"], sorted(tree(it)))
    for name in ("v", "w"):
        snapshotter.call("Remove", key=name)
    hold("paths", [".", "a", "a/two"], sorted(tree(place)))
    subprocess.run(["umount", place], check=True)
    wait_until("no server", lambda: not snapshotter.servers())


def image_data(snapshotter, found):
    """The bytes of the images of archives."""
    layout = made.layout(snapshotter.folder + "/layout", found)
    run_layers(layout.path, snapshotter.folder + "/images")
    data = []
    names = sorted(os.listdir(snapshotter.folder + "/images"))
    for name in (it for it in names if it.endswith(".romfs")):
        with open(os.path.join(snapshotter.folder, "images", name), "rb") as file:
            data.append(file.read())
    return data


def check_blobs_that_are_images(snapshotter):
    """Blobs that are archives of one image, at hand and in the store: the image is taken as it is.
    One that is none, or is not alone, is unpacked."""
    import gzip
    first, second = (made.archive(made.entry(".strata.romfs", it))
                     for it in image_data(snapshotter, archives()))
    wanted = chain_digests([made.digest(it) for it in (first, second)])
    blobs = [put_blob(snapshotter, gzip.compress(first)), put_blob(snapshotter, second)]
    hold_ready(snapshotter, blobs, wanted)
    for wrong in (made.entry(".strata.romfs", b"no image"),
                  made.entry(".strata.romfs", b"-rom1fs-" + bytes(100))):
        archive = made.archive(wrong)
        labels = {REFERENCE: made.digest(archive), BLOB: put_blob(snapshotter, archive)}
        snapshotter.call("Prepare", key="extract-1", labels=labels)
        snapshotter.call("Remove", key="extract-1")
    shutil.rmtree(snapshotter.folder + "/layout")
    pulled(snapshotter, [first, second])
    hold_ready(snapshotter, [None, None], wanted)


def check_given_images(snapshotter):
    """A layer of one file that is an image is checked, and taken as it is."""
    data, = image_data(snapshotter, archives()[:1])
    snapshotter.layer("given", "", lambda folder: put(folder, ".strata.romfs", data))
    hold("paths", [".", "a", "a/one"], sorted(tree(snapshotter.view("v", "given"))))
    for wrong in (b"", b"no image", data[:100], data[:40] + b"\xff" * 8 + data[48:]):
        mount, = snapshotter.call("Prepare", key="extract-1").mounts
        put(mount.source, ".strata.romfs", wrong)
        snapshotter.fails("INVALID_ARGUMENT", "Commit", name="wrong", key="extract-1")
        snapshotter.call("Remove", key="extract-1")
    program = snapshotter.folder + "/limited"
    with open(program, "w", encoding="ascii") as out:
        out.write(LIMITED)
    os.chmod(program, 0o755)
    try:
        given_image.hold_image(program, "image")
        said = None
    except Refused as why:
        said = str(why)
    hold("the memory of a check, in KiB", str(1 << 20), said)


def server_digests(snapshotter):
    """The digests under which the one server shows images."""
    server, = snapshotter.servers()
    with open("/proc/%d/cmdline" % server, "rb") as file:
        words = file.read().decode().split("\0")
    return [words[at + 1] for at, it in enumerate(words) if it == "--digest"]


def image_digests(snapshotter):
    """The digests of all images, in the order of layers."""
    paths = glob.glob(snapshotter.root + "/snapshots/*/layer.romfs")
    found = []
    for path in sorted(paths, key=lambda it: int(it.split("/")[-2])):
        with open(path, "rb") as file:
            found.append(made.fsverity_digest(file.read()))
    return found


def check_sealed_images(snapshotter):
    """Images are mounted under their digests, those of a store and of folders; those of an older snapshotter as they are."""
    store, parent = pulled(snapshotter, archives()), ""
    for chain in chain_digests([made.digest(it) for it in archives()]):
        snapshotter.fails("ALREADY_EXISTS", "Prepare", key="extract-" + chain, parent=parent, labels={REFERENCE: chain})
        parent = snapshotter.names('labels."%s"==%s' % (REFERENCE, chain))[0]
    snapshotter.layer("top", parent, lambda folder: put(folder, "top", b"3"))
    hold("paths", [".", "a", "a/two", "top"], sorted(tree(snapshotter.view("v", "top"))))
    hold("digests", (3, image_digests(snapshotter)), (len(image_digests(snapshotter)), server_digests(snapshotter)))
    inodes = [{os.stat(it).st_ino for it in glob.glob(place + "/*.verity")}
              for place in (store + "/blobs/sha256", snapshotter.root + "/snapshots/*")]
    hold("trees that are the store's own", 2, len(inodes[0] & inodes[1]))
    snapshotter.call("Remove", key="v")
    wait_until("no server", lambda: not snapshotter.servers())
    hold("status", 0, snapshotter.stop())
    base = sqlite3.connect(snapshotter.root + "/state.db")
    base.execute("DROP TABLE seals")
    base.close()
    snapshotter.start()
    snapshotter.layer("above", "top", lambda folder: put(folder, "above", b"4"))
    hold("paths", [".", "a", "a/two", "above", "top"], sorted(tree(snapshotter.view("w", "above"))))
    hold("digests", ["-"] * 3 + image_digests(snapshotter)[3:], server_digests(snapshotter))


CHECKS = (check_sealed_images, check_a_tree, check_whiteouts_of_all_forms, check_extended_attributes,
          check_what_images_do_not_hold,
          check_many_names, check_many_layers, check_what_is_waited_for,
          check_layers_of_a_store, check_the_highest_layer, check_shared_servers, check_blobs_at_hand,
          check_blobs_that_are_images, check_lying_labels, check_given_images)
