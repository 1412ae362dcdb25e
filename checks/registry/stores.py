"""Checks of convert and of a store, which need no other program."""
import fcntl
import gzip
import io
import json
import os
import re
import shlex
import shutil
import signal
import stat
import subprocess
import sys
import tarfile
import time

from checks import ROOT
from checks.plain import plain
from checks.registry import made
from checks.registry.rooms import LAYERS, MOUNT, NAME, SECONDS, LeftOut, hold, needs, shown_by
from checks.shared.pulled import pulled_line

# the annotation of a layer that says the fs-verity digest of its image
VERITY = "vnd.strata.layer.verity"


def mounted_layers(room, name, store=None):
    """The paths of an image's layers, as the file of the image in the store says them."""
    place = store or room.store
    with open(os.path.join(place, "images", name), "rb") as file:
        digests = [it["digest"] for it in json.load(file)["layers"]]
    return [os.path.join(place, "blobs", *it.split(":")) for it in digests]


def hold_converted(room, path, tag, source, packed):
    """Holds a layout that convert wrote against the one that it was made of; its manifest."""
    new, old = made.Read(path, tag), made.Read(source.path, "1")
    manifest, was = new.json(new.top), old.json(old.top)
    hold("media types", [made.ROMFS + packed] * len(was["layers"]), [it["mediaType"] for it in manifest["layers"]])
    config, config_was = new.json(manifest["config"]), old.json(was["config"])
    images = [unpacked(new.blob(it), packed) for it in manifest["layers"]]
    notes = [{"vnd.strata.layer.source": it["digest"], VERITY: fsverity(room, image)} for it, image in zip(was["layers"], images)]
    for it, below in zip(notes[1:], images):
        it["vnd.strata.layer.parent"] = made.digest(below)
    hold("what layers were made of, and for", notes, [it["annotations"] for it in manifest["layers"]])
    hold("digests of layers", [made.digest(it) for it in images], config["rootfs"].pop("diff_ids"))
    config_was["rootfs"].pop("diff_ids")
    hold("the configuration", config_was, config)
    hold("beginnings", [b"-rom1fs-"] * len(images), [it[:8] for it in images])
    return images


def fsverity(room, data):
    """The digest of some bytes as fsverity prints it, or, where it isn't there, as its documentation says for one block and
    for more."""
    if shutil.which("fsverity"):
        path = room.name()
        with open(path, "wb") as file:
            file.write(data)
        return room.ran("fsverity", "digest", path).split(" ")[0]
    return made.fsverity_digest(data)


def unpacked(data, packed):
    if packed == "+zstd":
        return subprocess.run(["zstd", "-dcq"], input=data, stdout=subprocess.PIPE, check=True).stdout
    return gzip.decompress(data) if packed else data


def files_of(path):
    found = {}
    for place, _, files in os.walk(path):
        for name in files:
            with open(os.path.join(place, name), "rb") as file:
                found[os.path.relpath(os.path.join(place, name), path)] = file.read()
    return found


def check_convert(room):
    """The same layers in the same order, the configuration kept, and the same bytes each time."""
    source = made.layout(room.name())
    out, again = room.name(), room.name()
    hold("printed", "oci:%s:1\n" % out, room.layers("convert", source.path, out))
    images = hold_converted(room, out, "1", source, "")
    paths = [room.name() for _ in images]
    for path, data in zip(paths, images):
        with open(path, "wb") as file:
            file.write(data)
    hold("shown", made.SHOWN, shown_by(room, paths))
    room.layers("convert", source.path + ":1", again + ":1", store=room.name())
    hold("the same bytes in another store", files_of(out), files_of(again))
    for _ in range(2):
        room.layers("convert", source.path, out + ":2")
    with open(os.path.join(out, "index.json"), "rb") as file:
        tags = [it["annotations"][made.TAG] for it in json.load(file)["manifests"]]
    hold("tags", ["1", "2"], tags)
    hold_damaged(room, source.path, made.digest(images[0]).partition(":")[2])


def hold_damaged(room, source, digits):
    """A layer that was damaged in the store is not copied out of it."""
    blob, out = os.path.join(room.store, "blobs", "sha256", digits), room.name()
    os.chmod(blob, 0o600)
    with open(blob, "r+b") as file:
        file.seek(200)
        file.write(b"XXXX")
        file.seek(0)
        damaged = made.digest(file.read())
    done = room.tried("convert", source, out)
    line = "%s: the layer sha256:%s has the digest %s" % (room.store, digits, damaged)
    hold("a damaged layer", (1, True), (done.returncode, line in done.stderr))
    hold("no image of it", False, os.path.exists(out + "/index.json"))


def check_compress(room):
    """Packed layers unpack to the same; a packed layout can be converted to one that isn't."""
    source, plain = made.layout(room.name()), room.name()
    room.layers("convert", source.path, plain)
    images = hold_converted(room, plain, "1", source, "")
    for packing in ["gzip"] + ["zstd"] * (shutil.which("zstd") is not None):
        out, again, back = room.name(), room.name(), room.name()
        room.layers("convert", "--compress", packing, source.path, out)
        hold(packing, images, hold_converted(room, out, "1", source, "+" + packing))
        room.layers("convert", "--compress", packing, source.path, again, store=room.name())
        hold("the same bytes", files_of(out), files_of(again))
        room.layers("convert", out, back, store=room.name())
        hold("back", files_of(plain), files_of(back))


def hold_archives(room, layout, images, packed):
    """Holds that layers are archives of images, each of one file, by another reader of archives."""
    manifest = layout.json(layout.top)
    hold("fs-verity digests", [fsverity(room, it) for it in images], [it["annotations"][VERITY] for it in manifest["layers"]])
    hold("media types", [made.ARCHIVE + packed] * len(images), [it["mediaType"] for it in manifest["layers"]])
    archives = [unpacked(layout.blob(it), packed) for it in manifest["layers"]]
    hold("digests of layers", [made.digest(it) for it in archives],
         layout.json(manifest["config"])["rootfs"]["diff_ids"])
    for archive, image in zip(archives, images):
        with tarfile.open(fileobj=io.BytesIO(archive)) as tar:
            member, = tar.getmembers()
            hold("name, mode, time", (".strata.romfs", 0o644, 0), (member.name, member.mode, member.mtime))
            hold("the image", image, tar.extractfile(member).read())


def check_archives(room):
    """With --tar each layer is an archive of its image alone; pull takes the image out of it. An
    archive of one that isn't one, or of more, is refused."""
    source, plain = made.layout(room.name()), room.name()
    room.layers("convert", source.path, plain)
    images = hold_converted(room, plain, "1", source, "")
    for packed in ("", "+gzip"):
        out, again, elsewhere = room.name(), room.name(), room.name()
        words = ["--tar", *(["--compress", packed[1:]] if packed else [])]
        room.layers("convert", *words, source.path, out)
        hold_archives(room, made.Read(out, "1"), images, packed)
        room.layers("convert", *words, source.path, again, store=room.name())
        hold("the same bytes", files_of(out), files_of(again))
        room.layers("pull", "oci:" + out, "taken:1", store=elsewhere)
        hold("images", list(map(made.digest, images)),
             ["sha256:" + os.path.basename(it) for it in mounted_layers(room, "taken:1", elsewhere)])
    for line, more in (("not a romfs image", [b"text"]), ("not a romfs image", [b""]),
                       (".strata.romfs is not alone in its archive", [images[0], b"other"])):
        names = (".strata.romfs", "other")
        wrong = made.layout(room.name(), [made.archive(*map(made.entry, names, more))])
        room.refused("layer 0: " + line, "pull", "oci:" + wrong.path, "wrong:1", store=room.name())


def check_platforms(room):
    """One platform of an index, or all, without what a builder attests."""
    source, data = made.Layout(room.name()), [made.archive(made.entry("n", b"%d" % it)) for it in range(3)]
    images = [{**source.image([it], ("linux", name)), "platform": {"os": "linux", "architecture": name}}
              for it, name in zip(data, ("amd64", "arm64"))]
    note = {**source.image([data[2]]), "platform": {"os": "unknown", "architecture": "unknown"}}
    source.index(made.tagged(source.blob(made.INDEX, {"schemaVersion": 2, "manifests": [*images, note]}), "1"))
    out, one = room.name(), room.name()
    room.layers("convert", "--platform", "all", source.path, out)
    both = made.Read(out, "1")
    found = both.json(both.top)["manifests"]
    hold("platforms", ["amd64", "arm64"], [it["platform"]["architecture"] for it in found])
    room.layers("convert", "--platform", "linux/arm64", source.path, one)
    read = made.Read(one, "1")
    wanted, = read.json(read.top)["layers"]
    hold("the image of arm64", both.json(found[1])["layers"], [wanted])
    room.refused("blob ..: nothing for linux/vax; there is linux/amd64, linux/arm64", "convert", "--platform", "linux/vax",
                 source.path, room.name())
    for verb, words in (("convert", (source.path, room.name())), ("pull", ("oci:" + source.path,))):
        done = room.tried(verb, "--platform", "windows", *words)
        hold(verb, (2, "", "tools/layers.py %s: argument --platform: windows: no platform; linux/ARCHITECTURE[/VARIANT] is wanted; "
                    "see --help\n" % verb), done)


def check_pull(room):
    """An image from archives, from layers of romfs, and from packed ones is the same image of the
    store."""
    source, plain, packed = made.layout(room.name()), room.name(), room.name()
    elsewhere = room.name()
    room.layers("convert", source.path, plain, store=elsewhere)
    room.layers("convert", "--compress", "gzip", source.path, packed, store=elsewhere)
    for number, place in enumerate((plain, packed, source.path)):
        store, name = room.name(), "team/app:v%d" % number
        hold("printed", pulled_line(name, 5, 5, store), room.layers("pull", "oci:" + place, name, store=store))
        hold("layers", room.blobs(elsewhere), room.blobs(store))
        hold("shown", made.SHOWN, shown_by(room, mounted_layers(room, name.replace("/", "%"), store)))
        hold("printed again", pulled_line("other:latest", 5, 0, store),
             room.layers("pull", "oci:%s:1" % place, "other", store=store))
        hold("images", ["other:latest", name],
             [it.split()[0] for it in room.layers("images", store=store).splitlines()])
        hold("verified", "", room.layers("verify", store=store))
    hold("modes", {0o700, 0o100444}, {stat.S_IMODE(os.stat(store).st_mode)} | {os.stat(it).st_mode for it in
                                     mounted_layers(room, "other:latest", store)})
    hold("a name of its own", pulled_line(os.path.basename(plain) + ":1", 5, 5, room.store),
         room.layers("pull", "oci:" + plain))


def check_pull_on_btrfs(room):
    """On btrfs an open folder lists only what it held when it was opened. A store there has what comes later."""
    needs("mkfs.btrfs")
    if os.geteuid() != 0:
        raise LeftOut("only root mounts a file system")
    disk, at = room.name(), room.name()
    with open(disk, "wb") as out:
        out.truncate(128 << 20)
    room.ran("mkfs.btrfs", "-q", disk)
    os.mkdir(at)
    done = room.run("mount", "-o", "loop", disk, at)
    if done.returncode != 0:
        raise LeftOut("no btrfs is mounted here: %s" % done.stderr.strip())
    room.ends.append(lambda: room.run("umount", at))
    source, store = made.layout(room.name()), os.path.join(at, "store")
    hold("printed", pulled_line("a:1", 5, 5, store), room.layers("pull", "oci:" + source.path, "a:1", store=store))
    hold("printed again", pulled_line("b:1", 5, 0, store), room.layers("pull", "oci:" + source.path, "b:1", store=store))
    room.layers("remove", "a:1", store=store)
    hold("pruned", True, room.layers("prune", store=store).startswith("0 layers removed"))
    hold("verified", "", room.layers("verify", store=store))
    hold_pruned_behind_a_pull(room, store, source)


def hold_pruned_behind_a_pull(room, store, source):
    """A prune that waits for a pull sees the image that came."""
    room.layers("remove", "b:1", store=store)
    with open(os.path.join(store, "lock"), "wb") as lock:
        fcntl.flock(lock, fcntl.LOCK_EX)
        runs = []
        for words in (room.words("pull", "oci:" + source.path, "c:1", store=store), room.words("prune", store=store)):
            runs.append(subprocess.Popen(words, stdin=subprocess.DEVNULL, stdout=subprocess.DEVNULL,
                                         stderr=subprocess.DEVNULL, env=room.environment))
            time.sleep(1)
    hold("statuses", [0, 0], [it.wait(SECONDS) for it in runs])
    hold("verified behind", "", room.layers("verify", store=store))
    hold("images", ["c:1"], [it.split()[0] for it in room.layers("images", store=store).splitlines()])


def check_missing(room):
    """A layer that is missing or has another size is brought again. The others are not read, and pull
    says so."""
    source = "oci:" + made.layout(room.name()).path
    room.layers("pull", source, "a")
    gone, short, long, changed, _ = mounted_layers(room, "a:latest")
    for path in (short, long, changed):
        os.chmod(path, 0o600)
    os.unlink(gone)
    os.truncate(short, os.path.getsize(short) - 16)
    with open(long, "ab") as file:
        file.write(b"more")
    with open(changed, "r+b") as file:
        file.seek(200)
        file.write(b"XXXX")
    hold("printed", pulled_line("a:latest", 5, 3, room.store), room.layers("pull", source, "a"))
    done = room.tried("verify")
    hold("what is wrong", (1, True), (done.returncode, done.stdout.startswith(changed + ": its digest is")))
    hold("printed", pulled_line("a:latest", 5, 1, room.store), room.layers("pull", source, "a"))
    hold("verified", "", room.layers("verify"))
    hold("shown", made.SHOWN, shown_by(room, mounted_layers(room, "a:latest")))


def check_shared(room):
    """A second image that shares three layers brings the others; remove and prune leave what is
    needed."""
    one = made.layout(room.name())
    two = made.layout(room.name(), (*made.LAYERS[:3], made.archive(made.entry("x", b"x")),
                                    made.archive(made.entry("y", b"y"))))
    room.layers("pull", "oci:" + one.path, "one")
    before = room.blobs()
    hold("printed", pulled_line("two:latest", 5, 2, room.store), room.layers("pull", "oci:" + two.path, "two"))
    hold("how many layers", 7, len(room.blobs()))
    hold("pruned", "0 layers removed, 0 bytes; 0 are in use by a mount\n", room.layers("prune"))
    room.layers("remove", "two")
    hold("pruned", True, room.layers("prune").startswith("2 layers removed, "))
    hold("layers that stay", (before, before), (room.blobs(), room.trees()))
    room.refused("two: no such image in %s" % room.store, "remove", "two")
    room.layers("remove", "one:latest")
    room.layers("prune")
    hold("nothing stays", ([], [], []), (room.blobs(), room.trees(), os.listdir(os.path.join(room.store, "made"))))


def shown_with_attributes(room, name, store):
    """What the layers of an image in a store show by the plain reading: mode, owner and last change."""
    images = []
    for path in mounted_layers(room, name, store):
        with open(path, "rb") as file:
            images.append(file.read())
    stack = plain.stack_of(images, True, True)
    return {"/" + b"/".join(path).decode(): stack.attributes(number) for path, number in stack.paths.items()}


def check_rows_of_the_layers_below(room):
    """A layer that implies folders has the rows that they have below it, over whichever layers it came into the store first."""
    upper = made.archive(made.entry("etc/name", b"x", uid=9), made.entry("new/x", b"x"))
    lower = [made.archive(made.folder(".", 0o711, uid=it), made.folder("etc", 0o700, gid=it, mtime=it)) for it in (1, 2)]
    sources = [made.layout(room.name(), [it, upper]) for it in lower]
    blobs = []
    for order in ((0, 1), (1, 0)):
        store = room.name()
        for number, new in [(it, 2) for it in order] + [(it, 0) for it in order]:
            hold("printed", pulled_line("a%d:1" % number, 2, new, store),
                 room.layers("pull", "oci:" + sources[number].path, "a%d:1" % number, store=store))
        blobs.append(room.blobs(store))
        for number, it in ((0, 1), (1, 2)):
            hold("shown", {"/": (0o040711, it, 0, 0, 0), "/etc": (0o040700, 0, it, it, 0), "/etc/name": (0o100644, 9, 0, 0, 0),
                           "/new": (0o040755, 0, 0, 0, 0), "/new/x": (0o100644, 0, 0, 0, 0)},
                 shown_with_attributes(room, "a%d:1" % number, store))
        hold("left", [], os.listdir(os.path.join(store, "new")))
        hold("verified", "", room.layers("verify", store=store))
    hold("the same layers", *blobs)
    out, again = room.name(), room.name()
    room.layers("convert", sources[0].path, out, store=store)
    room.layers("convert", sources[0].path, again, store=room.name())
    hold("the same bytes in another store", files_of(out), files_of(again))


def check_names(room):
    """A name that is none is refused before anything is written."""
    source = made.layout(room.name())
    room.layers("pull", "oci:" + source.path, "z")
    room.layers("remove", "z")
    room.layers("prune")
    for name in ("..", "../x", "a/../b", "/a", "a//b", "a/", "a..b", ":", "a:", "a:b:c", "a:../b", "a b", "a\nb", ".a",
                 "-a/..", "a" * 121, "a:" + "b" * 129, "\u00e4", "a%b"):
        for verb, words in (("pull", ("oci:" + source.path, name)), ("remove", (name,)), ("config", (name,))):
            done = room.tried(verb, "--", *words)
            hold("%s %r" % (verb, name), (1, 1, True),
                 (done.returncode, done.stderr.count("\n"), "no name of an image" in done.stderr))
    hold("images", "", room.layers("images"))
    hold("layers", [], room.blobs())
    room.layers("pull", "oci:" + source.path, "a:1")
    room.layers("pull", "oci:" + source.path, "a:2")
    room.refused("a: which tag? There is 1, 2", "config", "a")
    room.layers("pull", "oci:" + source.path, "a")
    room.layers("config", "a")
    other = os.path.join(room.path, "other")
    os.mkdir(other)
    os.mkdir(os.path.join(other, "new"))
    os.mkdir(os.path.join(other, "work"))
    room.refused("%s: no store of layers" % other, "pull", "oci:" + source.path, "a", store=other)
    hold("what is no store", ["new", "work"], sorted(os.listdir(other)))
    for place in (room.name(), os.path.join(room.path, "other", "new")):
        for words in (("images",), ("config", "a:1")):
            room.refused("%s: no store of layers; `strata-layers pull --store %s SOURCE NAME` makes one" % (place, place),
                         *words, store=place)


def check_hints(room):
    """What is named that is not there is answered with what to do; and nothing is said to nobody who reads."""
    room.layers("pull", "oci:" + made.layout(room.name()).path, "a:1")
    for verb, *more in (("config",), ("config", "--bwrap"), ("podman", "--layers")):
        room.refused("nosuch: no such image in %s; `strata-layers pull --store %s SOURCE nosuch` brings it there, and `strata-layers"
                     " images --store %s` prints those there" % ((room.store,) * 3), verb, *more, "nosuch",
                     *[room.name()] * (verb == "podman"))
    place = room.name()
    os.mkdir(place)
    for word in (place, place + ":1"):
        why = "%s/oci-layout: no such file or directory; `strata-layers image %s IMAGE` makes an image of a directory"
        room.refused(why % (place, place), "convert", word, room.name())
        room.refused(why % (place, place), "pull", "oci:" + word, "b")
    converted = room.name()
    room.layers("convert", made.layout(room.name()).path, converted)
    told = room.run(sys.executable, "-B", LAYERS, converted + ":1", room.name())
    line = "no layer of files, but application/vnd.strata.layer.v1.romfs; `strata-layers pull oci:%s NAME` brings such an image into the" \
           " store, and strata-mount mounts NAME\n" % converted
    hold("a layout of images", (1, True), (told.returncode, told.stderr.endswith(line)))
    for words in (("images",), ("config", "a")):
        out, end = os.pipe()
        os.close(out)
        done = subprocess.run(room.words(*words), stdout=end, stderr=subprocess.PIPE, env=room.environment, check=False)
        os.close(end)
        hold("%s without a reader" % words[0], (-signal.SIGPIPE, b""), (done.returncode, done.stderr))


def check_config(room):
    """Entry point, environment, folder and user, for people and as words that a shell evaluates."""
    source = made.Layout(room.name(), {**made.RUN, "Env": [*made.RUN["Env"], "HOME", "=a b", "=x=y", ""]})
    source.index(made.tagged(source.image(made.LAYERS), "1"))
    room.layers("pull", "oci:" + source.path, "a")
    hold("config", "entrypoint /bin/say 'it'\"'\"'s'\ncommand 'a b'\nenv PATH=/bin\nenv 'WORD=x y'\nenv HOME\nenv '=a b'\nenv =x=y\nenv ''\nfolder /var\nuser 7:8\n",
         room.layers("config", "a"))
    said = ["--clearenv", "--setenv", "HOME", "/", "--setenv", "PATH", "/bin", "--setenv", "WORD", "x y",
            "--chdir", "/var"]
    hold_bwrap(room, "a", ["--uid", "7", "--gid", "8"], ["setpriv", "--reuid", "7", "--regid", "8", "--clear-groups",
                                                         "--inh-caps=-all"], said)
    words = shlex.split(room.layers("config", "--podman", "a"))
    hold("podman", ["--entrypoint", '["/bin/say", "it\'s", "a b"]', "--workdir", "/var", "--env", "PATH=/bin",
                    "--env", "WORD=x y", "--user", "7:8"], words)
    told = "the image's environment has entries that are not NAME=VALUE, left out here: HOME '=a b' =x=y ''\n"
    for words in (["--podman", "a"], ["--bwrap", *(["--as-caller"] if os.geteuid() else []), "a"]):
        hold("told", (0, told), room.tried("config", *words)[::2])
    line = "tools/layers.py config: %s: after NAME[:TAG] only options of bwrap are allowed, with --bwrap before it; see --help\n"
    for before in ((), ("--podman",)):
        for after in (("--ro-bind", "/", "/"), ("--bwrap",), ("x",)):
            hold("without --bwrap", (2, "", line % after[0]), room.tried("config", *before, "a", *after))
        hold("without --bwrap", (2, "", "tools/layers.py config: argument --as-caller: only with --bwrap; see --help\n"),
             room.tried("config", *before, "--as-caller", "a"))
    hold_user_by_name(room)


def check_closed_stores(room):
    """Each program says so to a user who may not read a store; files need none."""
    if os.geteuid() != 0:
        raise LeftOut("only root becomes another user")
    os.chmod(room.path, 0o755)
    room.layers("pull", "oci:" + made.layout(room.name()).path, "a:1")
    below, place = os.path.join(room.store, "below"), room.name()
    os.mkdir(place)
    become = ["setpriv", "--reuid", "65534", "--regid", "65534", "--clear-groups", sys.executable, "-B"]
    for store in (room.store, below):
        for word in ("a:1", "a", "image:a:1", "nosuch"):
            told = room.run(*become, MOUNT, "--strata", room.strata, "--store", store, word, place)
            hold(word, (1, "mount.py: %s: permission denied\n" % store), (told.returncode, told.stderr))
    told = room.run(*become, LAYERS, "images", "--store", room.store)
    hold("images", (1, NAME + "%s: permission denied\n" % room.store), (told.returncode, told.stderr))
    told = room.run(*become, MOUNT, "--strata", room.strata, "--store", room.store, "none.romfs", place)
    hold("a file", False, "permission denied" in told.stderr)


AS_CALLER = ["--as-caller"] if os.geteuid() else []


def check_commands_instead(room):
    """Behind `--` stands a command that is run instead of the image's, also of an image that has none; behind a name no
    option of the tool itself."""
    for name, run in (("a", made.RUN), ("bare", {"User": "7:8"})):
        source = made.Layout(room.name(), run)
        source.index(made.tagged(source.image(made.LAYERS), "1"))
        room.layers("pull", "oci:" + source.path, name)
    room.refused("the image says neither an entry point nor a command; behind -- stands a command to run instead",
                 "config", "--bwrap", *AS_CALLER, "bare")
    for name in ("a", "bare"):
        for command in (["sh", "-c", "env -- x"], ["--x", "--", "--help"]):
            words = shlex.split(room.layers("config", "--bwrap", *AS_CALLER, name, "--ro-bind", "/", "/", "--", *command))
            hold("its end", ["--ro-bind", "/", "/", "--", *command], words[-4 - len(command):])
            hold("no environment of the caller", True, "--clearenv" in words[:-4 - len(command)])
        hold("without options", ["--", "sh"], shlex.split(room.layers("config", "--bwrap", *AS_CALLER, "--", name, "--", "sh"))[-2:])
    line = "tools/layers.py config: %s; see --help\n"
    for after in ("--store=x", "--store", "--help", "-h", "--bwrap", "--podman", "--as-caller"):
        hold("behind the name", (2, "", line % (after + ": stands before NAME[:TAG], after which are options of bwrap")),
             room.tried("config", "--bwrap", "a", "--dev", "/dev", after))
    for words, why in ((("a", "sh"), "sh: no option of bwrap; a command stands after --"),
                       (("a", "--"), "the command after -- is missing")):
        hold("wrong", (2, "", line % why), room.tried("config", "--bwrap", *words))


ROOT_REFUSED = "the image's user is root, and so are you: it would have root's rights here; run this as another user, or say --as-caller"


def check_images_of_root(room):
    """Root is refused an image whose user is root, unless root says so; then it has no capabilities."""
    if os.geteuid() != 0:
        raise LeftOut("only root runs it as root")
    passwd = made.archive(made.entry("etc/passwd", b"root:x:0:0::/root:/\nadmin:x:0:5::/:/\n"))
    setpriv = "setpriv --reuid 0 --regid %s --clear-groups --inh-caps=-all "
    for user, front in ((None, ""), ("", ""), ("root", ""), ("0", ""), ("0:0", ""), (":34", setpriv % 34), ("0:34", setpriv % 34),
                        ("admin", setpriv % 5)):
        source = made.Layout(room.name(), {**made.RUN, **({} if user is None else {"User": user})})
        if user is None:
            del source.run["User"]
        source.index(made.tagged(source.image([passwd]), "1"))
        room.layers("pull", "oci:" + source.path, "a")
        room.refused(ROOT_REFUSED, "config", "--bwrap", "a")
        room.refused(ROOT_REFUSED, "config", "--bwrap", "a", "--unshare-all", "--uid", "7", "--", "sh")
        words = room.layers("config", "--bwrap", "--as-caller", "a", "--proc", "/proc")
        hold("as root, user %r" % user, True, words.startswith(front + "bwrap --cap-drop ALL --clearenv "))


def check_closed_places(room):
    """What the image's user cannot reach is not bound: a folder on the way is closed to him."""
    if os.geteuid() != 0:
        raise LeftOut("only root becomes another user")
    os.chmod(room.path, 0o755)
    room.layers("pull", "oci:" + made.layout(room.name()).path, "a")
    closed, link = room.name(), room.name()
    os.makedirs(closed + "/below/tree", 0o755)
    os.symlink(closed + "/below", link)
    line = "%s: the image's user 7:8 may not pass %s; mount it elsewhere, as below /mnt or /srv"
    for mode, owner, is_open in ((0o700, 0, False), (0o711, 0, True), (0o700, 7, True), (0o710, 0, False), (0o071, 7, False)):
        os.chown(closed, owner, 0)
        os.chmod(closed, mode)
        for place in (closed + "/below/tree", link + "/tree", closed + "/./below"):
            words = "config", "--bwrap", "a", "--dev", "/dev", "--ro-bind", place, "/"
            if is_open:
                hold("%o" % mode, True, place in shlex.split(room.layers(*words)))
            else:
                room.refused(line % (place, closed), *words)


def hold_bwrap(room, name, numbers, become, said):
    """The command of bwrap by who calls: root becomes the image's user, and anybody else is refused or has his own rights
    under that user's number. What the image says comes first, so the caller's options count."""
    options = ["--ro-bind", "/a b", "/", "--setenv", "PATH", "/own", "--chdir", "/"]
    rest = [*said, *options, "--", "/bin/say", "it's", "a b"]
    if os.geteuid() == 0:
        words = shlex.split(room.layers("config", "--bwrap", name, *options))
        hold("by root", [*become, "bwrap", *rest], words)
        room.refused("--as-caller would give root's rights to the image's user; leave it out", "config", "--bwrap",
                     "--as-caller", name)
    else:
        room.refused("the image's user is ..with your rights under that number", "config", "--bwrap", name)
        words = shlex.split(room.layers("config", "--bwrap", "--as-caller", name, *options))
        hold("by a user", ["bwrap", "--unshare-user", *numbers, *rest], words)


def hold_user_by_name(room):
    """A user's name is looked up in the image's own files, of which the upper layer's count; one that is not there is
    refused for bwrap, and podman looks it up by itself. So is his home, where the image names none."""
    passwd, group = b"root:x:0:0::/:/\nweb:x:33:34::/srv/web:/\n", b"tape:x:26:web\nown:x:34:\n"
    layers = [made.archive(made.entry("etc/passwd", b"web:x:1:1::/lower:/\n"), made.entry("etc/group", group)),
              made.archive(made.entry("etc/passwd", passwd))]
    for user, name in (("web", "named"), ("nobody", "unnamed")):
        source = made.Layout(room.name(), {**made.RUN, "User": user})
        source.index(made.tagged(source.image(layers), "1"))
        room.layers("pull", "oci:" + source.path, name)
        hold("podman", True, user in shlex.split(room.layers("config", "--podman", name)))
    said = ["--setenv", "PATH", "/bin", "--setenv", "WORD", "x y"]
    rest = ["--chdir", "/var"]
    numbers = ["--uid", "33", "--gid", "34"]
    become = ["setpriv", "--reuid", "33", "--regid", "34", "--groups", "26", "--inh-caps=-all"]
    hold_bwrap(room, "named", numbers, become, ["--clearenv", "--setenv", "HOME", "/srv/web", *said, *rest])
    source = made.Layout(room.name(), {**made.RUN, "User": "web", "Env": [*made.RUN["Env"], "HOME=/own"]})
    source.index(made.tagged(source.image(layers), "1"))
    room.layers("pull", "oci:" + source.path, "own")
    hold_bwrap(room, "own", numbers, become, ["--clearenv", *said, "--setenv", "HOME", "/own", *rest])
    room.refused("the image has no user nobody", "config", "--bwrap", "unnamed")


def check_lost(room):
    """What is lost is reported with the names of the files; modes, owners and times are not."""
    hold("told", "", room.run(*room.words("convert", made.layout(room.name()).path, room.name())).stderr)
    source = made.layout(room.name(), [made.archive(made.entry("ping", mode=0o755, pax_headers={
        "SCHILY.xattr.security.capability": "x"}))])
    hold("told", "extended attributes are not kept: 1 entry (1 capability)\n  layer 0: ping: security.capability\n",
         room.run(*room.words("convert", source.path, room.name())).stderr)


def check_other_forms(room):
    """An archive of docker save and a folder of skopeo's are named with what makes a layout of
    them."""
    path, where = room.name(), room.name()
    with open(path, "wb") as out:
        out.write(made.archive(made.entry("manifest.json", b"[]")))
    os.mkdir(where)
    with open(os.path.join(where, "version"), "wb") as out:
        out.write(b"Directory Transport Version: 1.1\n")
    end = " oci:LAYOUT:TAG`%s makes a layout of it"
    archive = "; `skopeo copy docker-archive:%s" % path + end % " (or oci-archive:)"
    room.refused("%s: no such folder" % path + archive, "convert", path, room.name())
    room.refused("%s:a: no such folder" % path + archive, "pull", "oci:%s:a" % path)
    room.refused("%s/oci-layout: no such file or directory; `skopeo copy dir:%s" % (where, where) + end % "",
                 "convert", where, room.name())
    made_of = "; `skopeo copy %s oci:LAYOUT:TAG` makes a layout of it"
    for word in ("docker-archive:" + path, "oci-archive:" + path, "dir:" + where, "containers-storage:localhost/a:1",
                 "docker-daemon:a:1"):
        room.refused("%s: no such folder" % word + made_of % word, "convert", word, room.name())
        room.refused("%s: oci:LAYOUT[:TAG] or docker://HOST/NAME[:TAG] is wanted" % word + made_of % word, "pull", word, "a")


def printed_examples():
    """The commands that the page shows with what they print."""
    with open(os.path.join(ROOT, "docs", "man", "strata-layers.1"), encoding="utf-8") as file:
        part = file.read().partition(".SH EXAMPLES")[2].replace("\\-", "-")
    for command, printed in re.findall(r"^\$ strata-layers (.*\n)((?:[^$.\n].*\n)*)", part, re.M):
        yield shlex.split(command), printed


def check_examples_of_the_page(room):
    """The examples of the page print what they say, but for a digest and the store's place; all verbs of the store are among them."""
    source = made.Layout(os.path.join(room.path, "layout"),
                         {"Entrypoint": ["/bin/say"], "Cmd": ["hello"], "Env": ["PATH=/bin"], "User": "7:8"})
    source.index(made.tagged(source.image(made.LAYERS[:3]), "1"))
    verbs = set()
    for (verb, *words), printed in printed_examples():
        verbs.add(verb)
        got = room.layers(verb, *words).replace(" --store " + room.store, "")
        hold(verb, *(re.sub("sha256:[0-9a-f.]+", "sha256:..", it) for it in (printed, got)))
    hold("verbs", {"convert", "pull", "images", "verify", "config", "remove", "prune"}, verbs)


def check_version(room):
    source = os.path.join(ROOT, "crates", "strata_words", "src", "version.rt")
    if not os.path.exists(source):
        raise LeftOut("no %s" % source)
    with open(source, encoding="utf-8") as file:
        version = file.read().split('pub const VERSION: &str = "')[1].split('"')[0]
    hold("version", "strata-layers %s\n" % version, room.ran("python3", "-B", LAYERS, "--version"))


CHECKS = [check_convert, check_compress, check_archives, check_platforms, check_pull, check_pull_on_btrfs, check_missing, check_shared, check_rows_of_the_layers_below, check_names,
          check_hints, check_closed_stores, check_config, check_commands_instead, check_images_of_root, check_closed_places, check_lost, check_other_forms, check_examples_of_the_page, check_version]
