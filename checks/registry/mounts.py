"""Checks of mounts of images by their names in a store."""
import errno
import json
import os
import random
import shutil
import struct
import subprocess
import sys
import time

from checks import ROOT, TOOLS
from checks.mounts.mounted_files import PAGE, part
from checks.registry import made
from checks.registry.hostile import flip
from checks.registry.rooms import LAYERS, MOUNT, SECONDS, LeftOut, hold, needs
from checks.registry.stores import VERITY, mounted_layers
from checks.shared.pulled import pulled_line


def mount(room, *words, folder=None):
    """Mounts in the background: where, and how it went."""
    at = folder or room.name()
    os.makedirs(at, exist_ok=True)
    done = room.run(sys.executable, "-B", MOUNT, "--strata", room.strata, "--store", room.store, "--background", *words, at)
    if done.returncode == 0:
        room.ends.append(lambda: take_away(room, at))
    return at, done


def take_away(room, at):
    if os.path.ismount(at):
        room.run(*(["umount"] if os.geteuid() == 0 else ["fusermount3", "-u"]), at)


def mounted(room, *words):
    """Where an image is mounted, which must be so."""
    at, done = mount(room, *words)
    if done.returncode != 0 and "/dev/fuse" in done.stderr or "ermission" in done.stderr or "fusermount3" in done.stderr:
        raise LeftOut("no mounts here: %s" % done.stderr.strip())
    hold("mounted %r" % (words,), (0, ""), (done.returncode, done.stderr))
    return at


def seen(at):
    """Every path of a mount, with its type and mode and a file's size."""
    found = {}
    for place, folders, files in os.walk(at):
        for name in [""] + files + [it for it in folders if os.path.islink(os.path.join(place, it))]:
            path = os.path.join(place, name).rstrip("/")
            it = os.lstat(path)
            is_folder = it.st_mode & 0o170000 == 0o040000
            found["/" + os.path.relpath(path, at) if path != at else "/"] = "%06o" % it.st_mode, 0 if is_folder else it.st_size
    return found


# with the modes that the layers say
WANTED = {path: (made.MODES.get(path, mode), size) for path, (mode, _, size) in made.SHOWN.items()}


def check_mounts_by_name(room):
    """By NAME, NAME:TAG and image:NAME:TAG; over and under other images; a file of that name comes
    first."""
    room.layers("pull", "oci:" + made.layout(room.name()).path, "team/app:1")
    for word in ("team/app", "team/app:1", "image:team/app:1"):
        hold(word, WANTED, seen(mounted(room, word)))
    lower, *others = mounted_layers(room, "team%app:1")
    hold("beside files", WANTED, seen(mounted(room, lower, "team/app:1")))
    os.makedirs(os.path.join(room.path, "team"))
    os.symlink(lower, os.path.join(room.path, "team", "app:1"))
    hold("a file", True, os.path.exists(os.path.join(mounted(room, "team/app:1"), "bin", "tell")))
    hold("an image", WANTED, seen(mounted(room, "image:team/app:1")))
    at = mounted(room, "image:team/app:1", "team/app:1")
    hold("a file over an image", True, os.path.exists(os.path.join(at, "bin", "tell")))
    for word, is_name in (("image:none", True), ("image:team/app:2", True), ("image:../app", False)):
        at, done = mount(room, word)
        hold(word, (1, 1, False), (done.returncode, done.stderr.count("\n"), os.path.ismount(at)))
        hint = "; `strata-layers pull --store %s SOURCE %s` brings it there\n" % (room.store, word.partition(":")[2])
        hold("a hint for " + word, is_name, done.stderr.endswith(hint))


def check_one_file(room):
    """Two images that share layers are mounted from the same files."""
    for name, layers in (("a", made.LAYERS), ("b", made.LAYERS[:3])):
        room.layers("pull", "oci:" + made.layout(room.name(), layers).path, name + ":1")
    hold("files", mounted_layers(room, "a:1")[:3], mounted_layers(room, "b:1"))


def check_used_layers(room):
    """prune leaves the layers of a mount, and removes them when it has ended."""
    source = made.layout(room.name())
    room.layers("pull", "oci:" + source.path, "a:1")
    at = mounted(room, "a:1")
    room.layers("remove", "a:1")
    line = "0 layers removed, 0 bytes; 5 are in use by a mount\n"
    hold("while it is mounted", line, room.layers("prune"))
    hold("mounted still", WANTED, seen(at))
    take_away(room, at)
    for _ in range(SECONDS * 10):
        told = room.layers("prune")
        if told != line and not room.blobs():
            break
        time.sleep(0.1)  # until the server has ended
    hold("layers at the end", [], room.blobs())
    room.layers("pull", "oci:" + made.layout(room.name(), made.LAYERS[:1]).path, "b:1")
    mounted(room, "b:1")
    room.layers("remove", "b:1")
    hold("one layer", "0 layers removed, 0 bytes; 1 is in use by a mount\n", room.layers("prune"))


def check_verified_mounts(room):
    """--verify refuses a layer whose bytes are not those that its digest says, and mounts what is
    right."""
    room.layers("pull", "oci:" + made.layout(room.name()).path, "a:1")
    hold("right", WANTED, seen(mounted(room, "--verify", "a")))
    layer = mounted_layers(room, "a:1")[1]
    flip(layer)
    at, done = mount(room, "--verify", "a")
    hold("flipped", (1, 1, True, False), (done.returncode, done.stderr.count("\n"), layer in done.stderr, os.path.ismount(at)))
    os.unlink(layer)
    at, done = mount(room, "a:1")
    hold("missing", (1, True, False), (done.returncode, os.path.basename(layer) in done.stderr, os.path.ismount(at)))


def moved_layout(room, read, manifest, order, **notes):
    """A layout of an image's layers in another order, with what is said of them."""
    it, layers = made.Layout(room.name()), []
    for at in order:
        was = manifest["layers"][at]
        layers.append(it.blob(was["mediaType"], read.blob(was), annotations={**was["annotations"], **notes}))
    diff_ids = [read.json(manifest["config"])["rootfs"]["diff_ids"][at] for at in order]
    it.index(made.tagged(it.image_of(layers, diff_ids), "1"))
    return it.path


def check_order(room):
    """A mount says in one line which image lies on another than it was made for: of a layout's files, and of an image of the
    store. Nothing is printed about what is in order, or not known."""
    out = room.name()
    room.layers("convert", made.layout(room.name()).path, out)
    read = made.Read(out, "1")
    manifest = read.json(read.top)
    digests = [it["digest"] for it in manifest["layers"]]
    blobs = [os.path.join(out, "blobs", *it.split(":")) for it in digests]
    hold("files in order", WANTED, seen(mounted(room, *blobs)))
    line = "layer 0 is %%s: made to lie on %.19s.., and is the lowest; 1 more lie on others" % digests[0]
    told_of(room, line % blobs[1], blobs, blobs[1], blobs[0], *blobs[2:])
    other = "layer 1 is %s: made to lie on %.19s.., and lies on %.19s.." % (blobs[2], digests[1], digests[0])
    told_of(room, other, blobs[:4], blobs[0], blobs[2], blobs[3])
    os.rename(blobs[1], blobs[1] + "-away")
    told_of(room, other, [], blobs[0], blobs[2], blobs[3])
    os.rename(blobs[1] + "-away", blobs[1])
    order = 1, 0, 2, 3, 4
    done = room.tried("pull", "oci:" + moved_layout(room, read, manifest, order), "moved:1")
    hold("pull", (0, [line % digests[1], "the right order: " + " ".join(digests)]), (done.returncode, done.stderr.splitlines()))
    stored = mounted_layers(room, "moved:1")
    told_of(room, line % stored[0], [stored[at] for at in order], "moved:1")
    for number, word in enumerate(("sha256:no", 7, None)):
        name = "other%d" % number
        room.layers("pull", "oci:" + moved_layout(room, read, manifest, order, **{"vnd.strata.layer.parent": word}), name)
        mounted(room, name)
    with open(os.path.join(out, "index.json"), "w", encoding="utf-8") as index:
        index.write("[")
    mounted(room, blobs[1], blobs[0])


def told_of(room, line, order, *words):
    """A mount must be made, and say this alone, and which order is right, if there is one."""
    _, done = mount(room, *words)
    wanted = [line] + ["the right order: " + " ".join(order)] * bool(order)
    hold("status, and lines", (0, wanted), (done.returncode, [it.partition(": ")[2] for it in done.stderr.splitlines()]))


def check_order_of_a_folder(room):
    """The same of images that were made without a store, by the file beside them; also where they
    lie under other names there, or have gone elsewhere, no report is false."""
    out = room.name()
    room.ran(sys.executable, "-B", LAYERS, made.layout(room.name()).path, out)
    images = ["%s/%02d.romfs" % (out, number) for number in range(5)]
    hold("in order", WANTED, seen(mounted(room, *images)))
    told_of(room, "layer 0 is %s: made to lie on 00.romfs, and is the lowest; 1 more lie on others" % images[1],
            images, images[1], images[0], *images[2:])
    told_of(room, "layer 1 is %s: made to lie on 01.romfs, and lies on 00.romfs" % images[2],
            images[:4], images[0], images[2], images[3])
    # one of which nothing is known may lie anywhere
    own = room.name()
    shutil.copy(images[0], own)
    told_of(room, "layer 0 is %s: made to lie on 01.romfs, and is the lowest" % images[2],
            [own, *images[:3]], images[2], own, images[1], images[0])
    # names that a stranger noted are shown in one line, and suggested only if they can be printed
    with open(os.path.join(out, ".layers.json"), encoding="utf-8") as beside:
        noted = beside.read()
    os.rename(images[0], out + "/\x1b[2J")
    with open(os.path.join(out, ".layers.json"), "w", encoding="utf-8") as beside:
        beside.write(noted.replace('"00.romfs"', '"\\u001b[2J"'))
    told_of(room, "layer 0 is %s: made to lie on \\1b[2J, and is the lowest" % images[1], [], images[1])
    os.rename(out + "/\x1b[2J", images[0])
    with open(os.path.join(out, ".layers.json"), "w", encoding="utf-8") as beside:
        beside.write(noted)
    # what lies between is another's, and one that was exchanged is not the one that is noted
    other = room.name()
    shutil.copy(images[0], other)
    mounted(room, other, images[2])
    shutil.copy(images[2], images[1])
    mounted(room, images[1])
    with open(os.path.join(out, ".layers.json"), "rb+") as beside:
        beside.truncate(100)
    mounted(room, images[2], images[0])
    os.unlink(os.path.join(out, ".layers.json"))
    os.mkfifo(os.path.join(out, ".layers.json"))
    mounted(room, images[2], images[0])


# --- sealed images ---

def converted(room, layers=made.LAYERS, **notes):
    """A layout of romfs images, to whose layers notes are added; its manifest's digest, and the fs-verity digests of the
    images."""
    out = room.name()
    room.layers("convert", made.layout(room.name(), layers).path, out, store=room.name())
    read = made.Read(out, "1")
    manifest = read.json(read.top)
    digests = [made.fsverity_digest(read.blob(it)) for it in manifest["layers"]]
    if notes:
        out = moved_layout(room, read, manifest, range(len(layers)), **notes)
        read = made.Read(out, "1")
    return out, read.top["digest"], digests


def seals(room, at):
    """The digests to which the images of a mount are held, and by whom."""
    rows = json.loads(room.ran(sys.executable, "-B", MOUNT, "--list", "--json"))
    row, = (it for it in rows if it["folder"] == at)
    return row["digests"], row["sealed_by"]


def hold_sealed(room, digests, *words):
    at = mounted(room, *words)
    hold("%r shows" % (words,), WANTED, seen(at))
    hold("%r is sealed" % (words,), (digests, ["strata"] * len(digests)), seals(room, at))
    take_away(room, at)


def hold_not_mounted(room, status, line, *words):
    """A mount must fail with this status, and say this."""
    at, done = mount(room, *words)
    hold("%r" % (words,), (status, True, False), (done.returncode, line in done.stderr or done.stderr, os.path.ismount(at)))


def check_sealed_by_name(room):
    """A mount by name holds each layer to its digest: from a tag, or from a manifest's digest, which the store must have."""
    out, digest, digests = converted(room)
    room.layers("pull", "oci:" + out, "team/app:1")
    for word in ("team/app", "team/app@" + digest, "image:team/app:1@" + digest):
        hold_sealed(room, digests, word)
    hold_sealed(room, digests, "-o", "sealed", "team/app:1")
    hold_sealed(room, [], "-o", "unsealed", "team/app:1")
    lower, *_ = mounted_layers(room, "team%app:1")
    at = mounted(room, lower, "team/app@" + digest)
    hold("over a file", (["-", *digests], [None] + ["strata"] * 5), seals(room, at))
    hold_sealed(room, digests, *(word for it in digests for word in ("--digest", "sha256:" + it[7:].upper())), "team/app")
    room.layers("pull", "oci:" + made.layout(room.name()).path, "team/archives:1")
    hold_sealed(room, digests, "team/archives")
    other = "sha256:" + "0" * 64
    for word, line in (
            ("team/app@" + other, "team/app@%s: the manifest in %s is another, %s\n" % (other, room.store, digest)),
            ("team/app:2@" + digest, "team/app:2: no such image"), ("image:team/none@" + digest, "team/none: no such image"),
            ("image:team/app@" + digest[:-1], "behind @ the digest of a manifest is wanted"),
            ("team/app@sha256:zz", "team/app@sha256:zz: behind @ the digest of a manifest is wanted, sha256: with 64 hex digits\n"),
            ("none@sha256:", "none@sha256:: behind @ the digest of a manifest is wanted, sha256: with 64 hex digits\n"),
            ("team/archives@" + digest, "is another")):
        hold_not_mounted(room, 1, line, word)
    hold_not_mounted(room, 1, "not with -o unsealed", "-o", "unsealed", "team/app@" + digest)
    hold_not_mounted(room, 2, "sealed: not with unsealed", "-o", "unsealed,sealed", "team/app")
    named = [word for it in [other, *digests[1:]] for word in ("--digest", it)]
    hold_not_mounted(room, 1, "has the digest %s, and %s was named" % (digests[0], other), *named, "team/app")


def rename(image):
    """Changes a bit of the name of a volume."""
    os.chmod(image, 0o644)
    with open(image, "r+b") as file:
        file.seek(20)
        byte, = file.read(1)
        file.seek(20)
        file.write(bytes([byte ^ 1]))


def check_changed_stores(room):
    """Who writes into a store changes what a tag shows, but never what a manifest's digest does."""
    out, digest, digests = converted(room)
    room.layers("pull", "oci:" + out, "app:1")
    first, second = mounted_layers(room, "app:1")[:2]
    rename(second)
    for word in ("app:1", "app@" + digest):
        hold_not_mounted(room, 3, "image 1: not as sealed\n", word)
    verify, pull = ("`strata-layers %s --store %s`" % (it, room.store) for it in ("verify", "pull"))
    hold_not_mounted(room, 3, "another image's; %s makes a tree again, or sets a damaged image aside for %s to bring\n"
                     % (verify, pull), "app:1")
    rename(second)
    os.rename(second + ".verity", second + ".away")
    hold_not_mounted(room, 3, "no such file or directory; %s makes it again\n" % verify, "app:1")
    os.rename(second + ".away", second + ".verity")
    # another layer with its own tree and digest, under the old name
    shutil.copy(second, first)
    os.chmod(first + ".verity", 0o644)
    shutil.copy(second + ".verity", first + ".verity")
    path = os.path.join(room.store, "images", "app:1")
    with open(path, encoding="utf-8") as file:
        value = json.load(file)
    value["layers"][0].update(size=os.path.getsize(first), verity=digests[1])
    with open(path, "w", encoding="utf-8") as file:
        json.dump(value, file)
    hold("by its tag", ([digests[1], *digests[1:]], ["strata"] * 5), seals(room, mounted(room, "app:1")))
    hold_not_mounted(room, 3, "image 0: not as sealed\n", "app@" + digest)
    value["text"] = value["text"].replace(digests[0], digests[1])
    with open(path, "w", encoding="utf-8") as file:
        json.dump(value, file)
    hold_not_mounted(room, 1, "its manifest was changed in the store; pull the image again\n", "app@" + digest)


def without_digests(room):
    """Makes a store one of those that were made before there were digests of layers."""
    for place, folders, files in os.walk(room.store):
        for name in files:
            path = os.path.join(place, name)
            if name.endswith(".verity"):
                os.unlink(path)
            elif place.endswith("/images"):
                with open(path, encoding="utf-8") as file:
                    value = json.load(file)
                value.pop("text", None)
                for it in value["layers"]:
                    del it["verity"]
                with open(path, "w", encoding="utf-8") as file:
                    json.dump(value, file)


def check_stores_without_digests(room):
    """A store that was made before mounts as it did; -o sealed refuses it, until the image is pulled again."""
    out, digest, digests = converted(room)
    room.layers("pull", "oci:" + out, "app:1")
    without_digests(room)
    hold_sealed(room, [], "app:1")
    layers = mounted_layers(room, "app:1")
    hold_not_mounted(room, 1, "%s: has no digest, and with -o sealed each layer needs one; pull the image again\n" % layers[0],
                     "-o", "sealed", "app:1")
    hold_not_mounted(room, 1, "its manifest says no fs-verity digest of each layer", "app@" + digest)
    hold("verified", "", room.layers("verify"))
    hold("pulled", pulled_line("app:1", 5, 0, room.store), room.layers("pull", "oci:" + out, "app:1"))
    hold_sealed(room, digests, "app@" + digest)
    without_digests(room)
    flip(layers[2])
    room.refused("..has other bytes than its digest says; run `strata-layers verify --store %s`, and pull again" % room.store,
                 "pull", "oci:" + out, "app:1")


def check_manifests_without_digests(room):
    """An image whose manifest says no digests is sealed by what its pull found; one whose manifest says others is refused."""
    for word in (None, 7, "sha256:no"):
        out, digest, digests = converted(room, **{VERITY: word})
        room.layers("pull", "oci:" + out, "app:1")
        hold_sealed(room, digests, "-o", "sealed", "app:1")
        hold_not_mounted(room, 1, "its manifest says no fs-verity digest of each layer", "app@" + digest)
    other = "sha256:" + "1" * 64
    out, _, digests = converted(room, **{VERITY: other})
    room.refused("layer 0: the fs-verity digest of its image is %s, and the manifest says %s" % (digests[0], other),
                 "pull", "oci:" + out, "other:1")


def check_wrong_trees(room):
    """verify names a tree that was changed or removed, and makes it again; `pull` makes a missing one."""
    out, _, digests = converted(room)
    room.layers("pull", "oci:" + out, "app:1")
    tree = mounted_layers(room, "app:1")[1] + ".verity"
    hold("a tree of more than a block", True, os.path.getsize(tree) > 0)
    flip(tree)
    hold_not_mounted(room, 3, "image 1: not as sealed\n", "app:1")
    line = "%s: it was changed or removed; it is made again; mount again what is mounted of it; needed by app:1\n" % tree
    for is_there in (True, False):
        if not is_there:
            os.unlink(tree)
        done = room.tried("verify")
        hold("verify", (1, line), (done.returncode, done.stdout))
        hold("verified", "", room.layers("verify"))
        hold_sealed(room, digests, "app:1")
    os.unlink(tree)
    hold_not_mounted(room, 3, "image 1: not as sealed\n", "app:1")
    room.layers("pull", "oci:" + out, "app:1")
    hold_sealed(room, digests, "app:1")


def damage(path, rng):
    """Changes a file somewhere."""
    os.chmod(path, 0o644)
    with open(path, "r+b") as file:
        size = os.path.getsize(path)
        if rng.randrange(4) == 0:
            file.truncate(rng.randrange(size))
        for _ in range(rng.randrange(1, 4)):
            file.seek(rng.randrange(size))
            file.write(rng.randbytes(rng.choice((1, 40, 5000))))


def check_damage_under_a_mount(room):
    """While layers and trees of a mount are damaged at random, what is read is right or EIO; once they are mended, it is right."""
    rng = random.Random(3)
    files = {"f%d" % it: rng.randbytes(60000 + 1234 * it) for it in range(4)}
    layers = [made.archive(*(made.entry(name, files[name]) for name in names)) for names in (("f0", "f1", "f2"), ("f3",))]
    out, digest, _ = converted(room, layers)
    room.layers("pull", "oci:" + out, "app:1")
    at = mounted(room, "app@" + digest)
    paths = [path + end for path in mounted_layers(room, "app:1") for end in ("", ".verity")]
    whole = {}
    for path in paths:
        with open(path, "rb") as file:
            whole[path] = file.read()
    lost = 0
    for turn in range(20):
        path = rng.choice(paths)
        damage(path, rng)
        lost += sum(pages_read(at, files, rng.randrange(3)))
        with open(path, "wb") as file:
            file.write(whole[path])
        if turn % 10 == 0:
            hold("pages that are lost once all is mended", 0, sum(pages_read(at, files, turn % 3)))
    hold("a page was lost", True, lost > 0)


def pages_read(at, files, first):
    """Reads every third page of files; of each whether it is lost. It must be right else."""
    for name, data in files.items():
        for place in range(first * PAGE, len(data), 3 * PAGE):
            got = part(os.path.join(at, name), place, PAGE)
            if got != errno.EIO:
                hold("%s at %d" % (name, place), data[place:place + PAGE], got)
            yield got == errno.EIO


def acl(*entries):
    """A list of rights as Linux has it in an attribute: tags, rights, and numbers."""
    return struct.pack("<I", 2) + b"".join(struct.pack("<HHI", *it) for it in entries)


def check_rights_of_an_acl(room):
    """Of a file whose list of rights refuses its group, a member of the group reads nothing on a
    mount, though the mask lets others read; nor does anybody by the rights of the others."""
    nobody = 2 ** 32 - 1
    closed = acl((1, 6, nobody), (2, 4, 1234), (4, 0, nobody), (16, 4, nobody), (32, 0, nobody))
    texts = {"text": {"SCHILY.acl.access": "user::rw-,user:1234:r--,group::---,mask::r--,other::---"},
             "binary": {"SCHILY.xattr.system.posix_acl_access": closed.decode("utf-8", "surrogateescape")}}
    entries = [made.entry(name, b"1", mode=0o640, gid=65533, pax_headers=headers) for name, headers in texts.items()]
    entries.append(made.entry("open", b"1", mode=0o640, gid=65533))
    if os.geteuid() != 0:
        raise LeftOut("who is not root can't become another user")
    room.layers("pull", "oci:" + made.layout(room.name(), [made.archive(*entries)]).path, "a:1")
    os.chmod(room.path, 0o755)
    at = mounted(room, "-o", "allow_other", "a:1")
    found = {}
    for name in (*texts, "open"):
        done = subprocess.run(["cat", os.path.join(at, name)], user=65532, group=65533, extra_groups=[], capture_output=True, check=False)
        found[name] = done.returncode
    hold("who reads", {"text": 1, "binary": 1, "open": 0}, found)


HELPER = """
mount -t tmpfs tmpfs /var/lib && mount -t tmpfs tmpfs /mnt || exit 99
"$1" -B "$2" pull "oci:$4" team/app:1 >&2 && "$1" -B "$3" image:team/app:1 /mnt -o ro >&2 || exit 98
"$1" -B "$5" /mnt
umount /mnt
"""


def check_mount_helper(room):
    """`image:NAME:TAG` as mount(8) hands it to its helper, over root's own store."""
    needs("unshare", "mount", "umount")
    if os.geteuid() != 0 or not os.path.exists(os.path.join(ROOT, "build", "strata")):
        raise LeftOut("it wants root, and build/strata")
    helper, tree = os.path.join(TOOLS, "mount_helper.py"), os.path.join(ROOT, "checks", "registry", "tree.py")
    done = room.run("unshare", "-m", "sh", "-c", HELPER, "sh", sys.executable, LAYERS, helper,
                    made.layout(room.name()).path, tree)
    if done.returncode == 99 or "/dev/fuse" in done.stderr:
        raise LeftOut("no mounts here: %s" % done.stderr.strip())
    hold("status", (0, True), (done.returncode, done.stdout != ""))
    hold("paths", sorted(made.SHOWN), sorted(("/" + it).replace("/.", "/") for it in json.loads(done.stdout)))


CHECKS = [check_mounts_by_name, check_one_file, check_used_layers, check_verified_mounts, check_order, check_order_of_a_folder,
          check_rights_of_an_acl, check_mount_helper, check_sealed_by_name, check_changed_stores, check_stores_without_digests,
          check_manifests_without_digests, check_wrong_trees, check_damage_under_a_mount]
