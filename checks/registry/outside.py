"""Checks with a registry on the loopback: docker-registry, skopeo, umoci and buildah."""
import json
import os
import random
import shutil
import subprocess
import sys
import time

from checks.registry import made
from checks.registry.hostile import flip, hold_after_end, large_layers
from checks.registry.loopback import Registry, needs_root, push
from checks.registry.mounts import converted, hold_sealed
from checks.registry.rooms import LAYERS, MOUNT, NAME, Failed, LeftOut, hold, needs
from checks.shared.pulled import pulled_line

HERE = os.path.dirname(os.path.abspath(__file__))
OTHER = """
set -e
"$1" -B "$2" pull --store "$4" "$5" app:1 >&2
"$1" -B "$3" --strata "$6" --store "$4" --background --verify app:1 "$7" >&2
"$1" -B "$8" "$7"
umount "$7"
"""


def on_another_machine(room, source):
    """What is seen of an image that is pulled and mounted in a mount namespace and store of its
    own."""
    needs("unshare", "umount")
    needs_root()
    at = room.name()
    os.mkdir(at)
    done = room.run("unshare", "-m", "sh", "-c", OTHER, "sh", sys.executable, LAYERS, MOUNT, room.name(), source,
                    room.strata, at, os.path.join(HERE, "tree.py"))
    if done.returncode != 0 and ("unshare" in done.stderr or "/dev/fuse" in done.stderr):
        raise LeftOut("no mounts in a namespace: %s" % done.stderr.strip())
    if done.returncode != 0:
        raise Failed("on another machine: %s" % done.stderr[-900:])
    return json.loads(done.stdout)


def check_against_umoci(room):
    """Converted, pushed, pulled on another machine and mounted: what umoci unpacks, modes, owners and times too."""
    needs("umoci")
    needs_root()
    registry, source = Registry(room), made.layout(room.name())
    bundle = room.name()
    room.ran("umoci", "unpack", "--image", source.path + ":1", bundle)
    wanted = json.loads(room.ran(sys.executable, "-B", os.path.join(HERE, "tree.py"), os.path.join(bundle, "rootfs")))
    hold("paths of the image", sorted(made.SHOWN), sorted("/" + it.lstrip(".") if it == "." else "/" + it for it in wanted))
    for number, packing in enumerate(([], ["--compress", "gzip"], ["--compress", "zstd"])):
        out = room.name()
        room.layers("convert", *packing, source.path, out)
        push(room, registry, out + ":1", "app:%d" % number)
        got = on_another_machine(room, "docker://%s/app:%d" % (registry.host, number))
        for path in wanted:
            hold(path, wanted[path], got.get(path))
        hold("paths", sorted(wanted), sorted(got))
    push(room, registry, source.path + ":1", "archives:1")
    hold("from archives", wanted, on_another_machine(room, "docker://%s/archives:1" % registry.host))


def check_back_unchanged(room):
    """Through a registry and back, a layout's blobs are the same bytes."""
    registry, source, out, back = Registry(room), made.layout(room.name()), room.name(), room.name()
    room.layers("convert", source.path, out)
    push(room, registry, out + ":1", "app:1")
    room.ran("skopeo", "copy", "-q", "docker://%s/app:1" % registry.host, "oci:%s:1" % back)
    hold("blobs", sorted(os.listdir(out + "/blobs/sha256")), sorted(os.listdir(back + "/blobs/sha256")))


def check_sealed_from_a_registry(room):
    """An image that was pushed and pulled, packed or not, as romfs or in archives, is mounted by its manifest's digest there."""
    needs_root()
    registry = Registry(room)
    for number, words in enumerate(([], ["--compress", "gzip"], ["--tar", "--compress", "gzip"])):
        _, _, digests = converted(room)
        out, name, store = room.name(), "app%d" % number, room.name()
        room.layers("convert", *words, made.layout(room.name()).path, out, store=store)
        push(room, registry, out + ":1", name + ":1")
        digest = made.Read(out, "1").top["digest"]
        room.layers("pull", "docker://%s/%s@%s" % (registry.host, name, digest), name + ":1")
        hold_sealed(room, digests, "%s@%s" % (name, digest))


def check_only_what_is_missing(room):
    """A second image that shares three layers brings the others: bytes are counted at the
    registry."""
    registry = Registry(room)
    more = [made.archive(made.entry(it, os.urandom(50000))) for it in "xy"]
    for name, layers in (("one", made.LAYERS), ("two", [*made.LAYERS[:3], *more])):
        out = room.name()
        room.layers("convert", "--compress", "gzip", made.layout(room.name(), layers).path, out, store=room.name())
        push(room, registry, out + ":1", name)
    two = made.Read(out, "1")
    manifest = two.json(two.top)
    room.layers("pull", "docker://%s/one" % registry.host)
    before = registry.fetched()
    hold("printed", pulled_line("two:latest", 5, 2, room.store), room.layers("pull", "docker://%s/two" % registry.host))
    after = registry.fetched()
    wanted = {it["digest"]: it["size"] for it in [*manifest["layers"][3:], manifest["config"]]}
    hold("bytes of blobs", wanted, {it: size - before.get(it, 0) for it, size in after.items() if size != before.get(it, 0)})
    room.layers("pull", "docker://%s/two" % registry.host)
    again = registry.fetched()
    config = manifest["config"]
    hold("bytes of a third pull", {config["digest"]: config["size"]},
         {it: size - after[it] for it, size in again.items() if size != after[it]})


def check_names_by_digest(room):
    """An image that a digest names gets the tag that stands before it; by a digest alone no other image's name is taken."""
    registry, digests = Registry(room), {}
    for tag, layers in (("old", made.LAYERS[:2]), ("new", made.LAYERS)):
        path = made.layout(room.name(), layers).path
        push(room, registry, path + ":1", "lt:" + tag)
        data = room.ran("skopeo", "inspect", "--raw", "docker://%s/lt:%s" % (registry.host, tag))
        digests[tag] = made.digest(data.encode())
    source = "docker://%s/lt" % registry.host
    hold("new", pulled_line("lt:latest", 5, 5, room.store), room.layers("pull", source + "@" + digests["new"]))
    hold("the same", pulled_line("lt:latest", 5, 0, room.store), room.layers("pull", source + "@" + digests["new"]))
    before = room.layers("images")
    bare = source + "@" + digests["old"]
    room.refused("lt:latest: the store has another image of this name; say one: `strata-layers pull %s NAME`" % bare, "pull", bare)
    hold("images", before, room.layers("images"))
    hold("with a tag", "lt:old: 2 layers", room.layers("pull", "%s:old@%s" % (source, digests["old"]))[:16])
    hold("with a name", "other:latest: 2 layers", room.layers("pull", bare, "other")[:22])
    hold("latest", True, all(it in room.layers("images").splitlines() for it in before.splitlines()))


def check_broken_registry(room):
    """A blob that the registry gives with a flipped byte is refused; so is what isn't there."""
    registry, out = Registry(room), room.name()
    room.layers("convert", made.layout(room.name()).path, out, store=room.name())
    push(room, registry, out + ":1", "app:1")
    read = made.Read(out, "1")
    flip(registry.path_of(read.json(read.top)["layers"][2]["digest"]))
    for name in ("app:1", "app:2", "none"):
        done = room.tried("pull", "docker://%s/%s" % (registry.host, name))
        hold(name, (1, True, 1), (done.returncode, done.stderr.startswith(NAME + "skopeo: "), done.stderr.count("\n")))
    hold("images", "", room.layers("images"))
    hold("verified", "", room.layers("verify"))
    hold("left", [], os.listdir(os.path.join(room.store, "new")))


def check_killed_while_it_fetches(room):
    """Pulls from a registry that are killed at random moments: no skopeo goes on, and what stands
    there is right."""
    registry, out, draw = Registry(room), room.name(), random.Random(5)
    room.layers("convert", "--compress", "gzip", made.layout(room.name(), large_layers(4)).path, out, store=room.name())
    push(room, registry, out + ":1", "app")
    words = room.words("pull", "docker://%s/app" % registry.host)
    begin = time.monotonic()
    room.ran(*words)
    length = time.monotonic() - begin
    for number in range(20):
        if number % 4 == 0:
            shutil.rmtree(room.store, ignore_errors=True)
        run = subprocess.Popen(words, stdout=subprocess.DEVNULL, stderr=subprocess.DEVNULL, env=room.environment)
        time.sleep(draw.random() * length)
        run.kill()
        run.wait()
        hold_after_end(room)
    hold("pulled", "app:latest: 4 layers", room.ran(*words).partition(",")[0])
    hold("verified", "", room.layers("verify"))
    hold("left in the store", [], os.listdir(os.path.join(room.store, "new")))


def check_platforms_of_a_registry(room):
    """All platforms are pushed; a machine pulls its own, or the one that it asks for."""
    registry, source, out = Registry(room), made.Layout(room.name()), room.name()
    images = [{**source.image([made.archive(made.entry("n", name.encode()))], ("linux", name)),
               "platform": {"os": "linux", "architecture": name}} for name in ("amd64", "arm64", "riscv64")]
    source.index(made.tagged(source.blob(made.INDEX, {"schemaVersion": 2, "manifests": images}), "1"))
    room.layers("convert", "--platform", "all", source.path, out)
    push(room, registry, out + ":1", "app:1", "--all")
    for name in ("arm64", "riscv64"):
        store = room.name()
        room.layers("pull", "--platform", "linux/" + name, "docker://%s/app:1" % registry.host, store=store)
        digits, = room.blobs(store)
        with open(os.path.join(store, "blobs", "sha256", digits), "rb") as file:
            hold("the layer", True, name.encode() in file.read())


BUILT = """
set -e
b="buildah --root $1/root --runroot $1/run --storage-driver vfs"
c=$($b from scratch)
$b add -q $c "$2" /bin/
$b config --entrypoint '["/bin/tree"]' --env A=b --workingdir /srv --user 5 $c
$b commit -q --format oci $c oci:$1/made:1
$b add -q $c "$2" /etc/again
$b commit -q $c oci:$1/made:2
$b rm $c
"""


def check_built_by_buildah(room):
    """What buildah builds, converted and pulled on another machine, is what umoci unpacks; its
    configuration stays."""
    needs("buildah", "umoci")
    needs_root()
    place = room.name()
    os.mkdir(place)
    done = room.run("sh", "-c", BUILT, "sh", place, os.path.join(HERE, "tree.py"))
    if done.returncode != 0:
        raise LeftOut("buildah doesn't build here: %s" % done.stderr.strip()[-300:])
    for tag in ("1", "2"):
        layout, bundle, out = os.path.join(place, "made:" + tag), room.name(), room.name()
        room.ran("umoci", "unpack", "--image", layout, bundle)
        wanted = json.loads(room.ran(sys.executable, "-B", os.path.join(HERE, "tree.py"), os.path.join(bundle, "rootfs")))
        room.layers("convert", layout, out)
        hold("made by buildah", wanted, on_another_machine(room, "oci:" + out))
    room.layers("pull", "oci:" + out, "built")
    hold("config", ["entrypoint /bin/tree", "command", "folder /srv", "user 5"],
         [it for it in room.layers("config", "built").splitlines() if not it.startswith("env ")])


FULL = """
mount -t tmpfs -o size=400k tmpfs "$1" || exit 99
"$2" -B "$3" pull --store "$1/store" "$4" app:1
status=$?; umount "$1"; exit $status
"""


def check_full_store(room):
    """Where the disk of the store is full while skopeo writes there, the line names the store."""
    needs("unshare", "mount", "umount")
    needs_root()
    registry, full = Registry(room), room.name()
    os.mkdir(full)
    push(room, registry, made.layout(room.name(), large_layers(4)).path + ":1", "app:1")
    done = room.run("unshare", "-m", "sh", "-c", FULL, "sh", full, sys.executable, LAYERS, "docker://%s/app:1" % registry.host)
    if done.returncode == 99:
        raise LeftOut("no namespace for a full disk: %s" % done.stderr.strip())
    line, = done.stderr.splitlines()
    hold("status", 1, done.returncode)
    hold("told: %s" % line, (True, False), (full + "/store/" in line, " ./" in line))
    hold("why", True, line.endswith(": no space left on device"))


CHECKS = [check_against_umoci, check_back_unchanged, check_sealed_from_a_registry, check_only_what_is_missing, check_names_by_digest, check_broken_registry,
          check_platforms_of_a_registry, check_killed_while_it_fetches, check_full_store, check_built_by_buildah]
