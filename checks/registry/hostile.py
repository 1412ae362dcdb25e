"""Checks of what must not go wrong: strangers' layouts, broken bytes, runs that are killed, two at
once, a full disk."""
import gzip
import os
import random
import shutil
import subprocess
import sys
import time

from checks import TOOLS
from checks.registry import made
from checks.registry.rooms import LAYERS, NAME, Failed, LeftOut, hold, needs, snapshot
from checks.registry.stores import mounted_layers
from checks.shared.pulled import pulled_line


def hold_nothing(room, what):
    """Nothing is in the store that was not whole."""
    hold("%s: images" % what, "", room.layers("images"))
    hold("%s: verified" % what, "", room.layers("verify"))


def check_digests(room):
    """A blob with a flipped byte is refused, whichever it is, and the store has no image."""
    good = made.layout(room.name())
    for packing in ([], ["--compress", "gzip"], ["--tar"]):
        romfs = room.name()
        room.layers("convert", *packing, good.path, romfs, store=room.name())
        for place in (good.path, romfs):
            for name in sorted(os.listdir(os.path.join(place, "blobs", "sha256"))):
                other = room.name()
                shutil.copytree(place, other)
                flip(os.path.join(other, "blobs", "sha256", name))
                room.refused("blob sha256:%s: its digest is .." % name, "pull", "oci:" + other, "bad")
                hold_nothing(room, "flipped")
                shutil.rmtree(other)
                shutil.rmtree(room.store)


def flip(path):
    """Flips a bit in the middle of a file."""
    os.chmod(path, 0o644)
    with open(path, "r+b") as file:
        file.seek(os.path.getsize(path) // 2)
        byte = file.read(1)[0]
        file.seek(-1, os.SEEK_CUR)
        file.write(bytes([byte ^ 1]))


def check_verify(room):
    """verify names a layer whose byte is flipped, and takes it out of use, and one that is missing;
    pulling again heals both."""
    source = made.layout(room.name())
    room.layers("pull", "oci:" + source.path, "a:1")
    first, second = mounted_layers(room, "a:1")[:2]
    flip(first)
    os.unlink(second)
    hold("counted", True, room.layers("images").endswith(" (1 layer missing)\n"))
    other = room.name()
    shutil.copytree(room.store, other)
    room.refused("%s: the layer sha256:%s has the digest sha256:.." % (other, os.path.basename(first)),
                 "convert", "--compress", "gzip", source.path, room.name(), store=other)
    done = room.tried("verify")
    lines = done.stdout.splitlines()
    hold("lines", (1, 2), (done.returncode, len(lines)))
    aside = "; it is set aside as %s.damaged; pull again, and mount again what is mounted of it; needed by a:1" % os.path.basename(first)
    hold("wrong", True, lines[0].startswith(first + ": its digest is sha256:") and lines[0].endswith(aside))
    hold("missing", "sha256:%s: missing; needed by a:1" % os.path.basename(second), lines[1])
    hold("out of use", (False, True), (os.path.exists(first), os.path.exists(first + ".damaged")))
    hold("again", pulled_line("a:1", 5, 2, room.store), room.layers("pull", "oci:" + source.path, "a:1"))
    hold("verified", "", room.layers("verify"))
    hold("read only", {0o444}, {os.stat(it).st_mode & 0o777 for it in mounted_layers(room, "a:1")})
    size = os.path.getsize(first + ".damaged")
    hold("pruned", "1 layer removed, %d bytes; 0 are in use by a mount\n" % size, room.layers("prune"))
    hold("gone", False, os.path.exists(first + ".damaged"))


def check_unlike_configuration(room):
    """What an archive or a packed layer unpacks to must be what the image's configuration says."""
    source = made.Layout(room.name())
    wrong = [made.digest(b"")] * 5
    source.index(made.tagged(source.image(made.LAYERS, diff_ids=wrong), "1"))
    room.refused("layer 0: its archive's digest is sha256:.., and the image's configuration says " + wrong[0],
                 "pull", "oci:" + source.path)
    data = b"-rom1fs-" + bytes(1016)
    for media, blob in ((made.ROMFS, data), (made.ROMFS + "+gzip", gzip.compress(data))):
        source.index(made.tagged(source.image_of([source.blob(media, blob)], wrong[:1]), "1"))
        room.refused("blob sha256:..: unpacked its digest is %s, and the image's configuration says %s" % (
            made.digest(data), wrong[0]), "pull", "oci:" + source.path)
    for media, blob, why in ((made.ROMFS, b"no romfs", "not a romfs image"), (made.ROMFS, b"", "not a romfs image"),
                             (made.ROMFS + "+gzip", gzip.compress(data)[:-9], "the compressed data is broken: ..")):
        source.index(made.tagged(source.image_of([source.blob(media, blob)], wrong[:1]), "1"))
        room.refused("layer 0: " + why, "pull", "oci:" + source.path)
    source.index(made.tagged(source.image_of([source.blob(made.ROMFS, data)], []), "1"))
    room.refused("blob ..: no digest for each of 1 layers in 'diff_ids'", "pull", "oci:" + source.path)
    hold_nothing(room, "unlike")


def escaping(room):
    """Layouts made to write outside the store, or to read there, each with what is said of it."""
    secret = os.path.join(room.path, "secret")
    with open(secret, "wb") as out:
        out.write(b"-rom1fs-" + bytes(1016))
    for its_digest in ("sha256:../../../../secret", "sha256:" + "../" * 21 + "x", "sha256:" + "A" * 64, "md5:" + "0" * 32,
                       "../../secret:" + "0" * 64, ""):
        it = made.Layout(room.name())
        layer = {"mediaType": made.ROMFS, "digest": its_digest, "size": 1024}
        it.index(made.tagged(it.image_of([layer], [made.digest(b"")]), "1"))
        yield it.path, "the digest '"
    for name in ("../out", "/../out", "a/../../out"):
        yield made.layout(room.name(), [made.archive(made.entry(name, b"x"))]).path, "no path within a layer"
    through = made.archive(made.link("d", room.path), made.entry("d/out", b"x"))
    yield made.layout(room.name(), [through]).path, "not a directory, but has files below it"
    for target in ("blob", "index.json", "oci-layout"):
        for line, replace in (("is a symbolic link", lambda place: os.symlink(place + "x", place)), ("no ", os.mkfifo)):
            it = made.layout(room.name())
            place = os.path.join(it.path, target)
            if target == "blob":
                place = it.blob_path(made.Read(it.path, "1").top["digest"])
            os.rename(place, place + "x")
            replace(place)
            yield it.path, line
    it = made.Layout(room.name())
    it.index(made.tagged(it.image(made.LAYERS), "../../out"))
    yield it.path, "no name of an image"
    yield made.layout(os.path.join(room.path, "..out"), made.LAYERS).path, "no name of an image"


def check_escapes(room):
    """Nothing is written outside the store, nor is anything in it named."""
    room.layers("pull", "oci:" + made.layout(room.name()).path, "good:1")
    cases = list(escaping(room))
    before, outside = room.blobs(), snapshot(room.path, room.store)
    for path, line in cases:
        done = room.tried("pull", "oci:" + path)
        told = done.stderr
        if done.returncode != 1 or line not in told or told.count("\n") != 1:
            raise Failed("%s: status %d, told %r, and %r is wanted" % (path, done.returncode, told, line))
        hold("outside the store", outside, snapshot(room.path, room.store))
    hold("layers", before, room.blobs())
    hold("images", ["good:1"], [it.split()[0] for it in room.layers("images").splitlines()])


def check_links_in_store(room):
    """A store whose folders are links elsewhere is not written to."""
    source, elsewhere = made.layout(room.name()), room.name()
    os.mkdir(elsewhere)
    room.layers("pull", "oci:" + source.path, "a:1")
    for name in ("images", "made", "new", "blobs"):
        place = os.path.join(room.store, name)
        os.rename(place, place + "x")
        os.symlink(elsewhere, place)
        done = room.tried("pull", "oci:" + source.path, "b:1")
        hold(name, (1, []), (done.returncode, os.listdir(elsewhere)))
        os.unlink(place)
        os.rename(place + "x", place)
    os.unlink(mounted_layers(room, "a:1")[0])
    os.symlink(os.path.join(elsewhere, "aim"), mounted_layers(room, "a:1")[0])
    done = room.tried("pull", "oci:" + source.path, "b:1")
    hold("a link at a layer's place", (1, []), (done.returncode, os.listdir(elsewhere)))


def check_left_over(room):
    """What a killed run has left is removed by the next one, and is no layer meanwhile."""
    source, new = made.layout(room.name()), os.path.join(room.store, "new")
    room.layers("pull", "oci:" + source.path, "a:1")
    os.makedirs(os.path.join(new, "fetched", "blobs"))
    for name in ("0123", os.path.join("fetched", "blobs", "x")):
        with open(os.path.join(new, name), "wb") as out:
            out.write(b"half")
    hold("verified", "", room.layers("verify"))
    room.layers("pull", "oci:" + source.path, "a:2")
    hold("left", [], os.listdir(new))
    out = room.name()
    room.layers("convert", source.path, out)
    with open(os.path.join(out, ".strata-0123"), "wb") as half:
        half.write(b"half")
    room.layers("convert", source.path, out)
    hold("left in a layout", ["blobs", "index.json", "oci-layout"], sorted(os.listdir(out)))


def large_layers(count):
    """Layers that take a while."""
    draw = random.Random(7)
    return [made.archive(*(made.entry("l%d/%d" % (layer, it), draw.randbytes(3000)) for it in range(60)))
            for layer in range(count)]


def hold_after_end(room):
    """After a run that was killed each layer has its digest, and each image its layers."""
    if not os.path.isdir(os.path.join(room.store, "new")):
        return  # before its folders are all there nothing is written
    for name in room.blobs():
        with open(os.path.join(room.store, "blobs", "sha256", name), "rb") as file:
            hold("a layer", "sha256:" + name, made.digest(file.read()))
    for name in os.listdir(os.path.join(room.store, "images")):
        hold("layers of an image", True, all(map(os.path.exists, mounted_layers(room, name))))


def killed(room, count):
    """Kills pulls and conversions at random moments; how many were killed before their end."""
    draw, source, out = random.Random(66), made.layout(room.name(), large_layers(4)), room.name()
    begin = time.monotonic()
    room.ran(*room.words("pull", "oci:" + source.path, "a:1", store=room.name()))
    length, early = 1.5 * (time.monotonic() - begin), 0
    for number in range(count):
        if number % 4 == 0:
            shutil.rmtree(room.store, ignore_errors=True)
            shutil.rmtree(out, ignore_errors=True)
        words = [("pull", "oci:" + source.path, "a:1"), ("convert", "--compress", "gzip", source.path, out + ":1")][number % 2]
        run = subprocess.Popen(room.words(*words), stdout=subprocess.DEVNULL, stderr=subprocess.DEVNULL, env=room.environment)
        time.sleep(draw.random() * length)
        early += run.poll() is None
        run.kill()
        run.wait()
        hold_after_end(room)
    hold("pulled", "a:1: 4 layers", room.layers("pull", "oci:" + source.path, "a:1").partition(",")[0])
    room.layers("convert", "--compress", "gzip", source.path, out + ":1")
    hold("verified", "", room.layers("verify"))
    hold("left in the store", [], os.listdir(os.path.join(room.store, "new")))
    read = made.Read(out, "1")
    hold("layers of the layout", 4, len([read.blob(it) for it in read.json(read.top)["layers"]]))
    hold("left in the layout", ["blobs", "index.json", "oci-layout"], sorted(os.listdir(out)))
    return early


def check_killed_a_few_times(room):
    killed(room, 8)


def check_killed_a_hundred_times(room):
    print("registry: of 100 runs %d were killed before their end" % killed(room, 100))


def check_two_at_once(room):
    """Four runs over one empty store, which share layers: each layer is made once, and all is
    right."""
    layers = large_layers(5)
    sources = [made.layout(room.name(), layers[:3] + layers[3 + it:4 + it]) for it in range(2)]
    runs = [subprocess.Popen(room.words("pull", "oci:" + sources[it % 2].path, "a:%d" % it), stdout=subprocess.PIPE,
                             stderr=subprocess.PIPE, text=True, env=room.environment) for it in range(4)]
    ended = [(run.communicate()[0], run.returncode) for run in runs]
    hold("statuses", [0] * 4, [status for _, status in ended])
    new = sorted(int(told.split("layers, ")[1].split()[0]) for told, _ in ended)
    hold("new layers", [0, 0, 1, 4], new)
    hold("verified", "", room.layers("verify"))
    hold("layers", 5, len(room.blobs()))


FULL = """
mount -t tmpfs -o size=400k tmpfs "$1" || exit 99
"$2" -B "$3" pull --store "$1/store" "oci:$4" small:1 || exit 98
"$2" -B "$3" pull --store "$1/store" "oci:$5" large:1
echo $? >&2
"$2" -B "$3" convert --store "$1/store" "$5" "$6.layout" >&2
echo $? >&2
"$2" -B "$3" convert --store "$6" "$5" "$1/layout" >&2
echo $? >&2
find "$1/store/new" -type f
"$2" -B "$3" images --store "$1/store"
"$2" -B "$3" verify --store "$1/store" && umount "$1"
"""


def check_full_disk(room):
    """On a full disk a run ends with a line, and what was there stays as it was."""
    needs("unshare", "mount")
    full, tool = room.name(), LAYERS
    os.mkdir(full)
    small, large = made.layout(room.name(), made.LAYERS[:1]), made.layout(room.name(), large_layers(4))
    user = [] if os.geteuid() == 0 else ["-r"]
    done = room.run("unshare", *user, "-m", "sh", "-c", FULL, "sh", full, sys.executable, tool, small.path, large.path, room.name())
    if done.returncode == 99 or "unshare" in done.stderr:
        raise LeftOut("no namespace for a full disk: %s" % done.stderr.strip())
    lines = done.stderr.splitlines()
    why = NAME + "%s/%s: no space left on device"
    hold("told", [why % (full, "store"), "1", why % (full, "store"), "1", why % (full, "layout"), "1"], lines)
    told = done.stdout.splitlines()
    hold("what stays", (0, 2, True), (done.returncode, len(told), told[-1].startswith("small:1 1 ")))


def check_progress(room):
    """A line of progress on a terminal, which is erased at the end; no trace of it elsewhere."""
    source = made.layout(room.name(), large_layers(2))
    code = ("import sys; sys.path.insert(0, %r); from strata_format import progress;"
            "progress.FIRST_AFTER = progress.NEXT_AFTER = 0;"
            "from strata_layers import command; sys.exit(command.main(sys.argv[1:]))" % TOOLS)
    words = [sys.executable, "-B", "-c", code, "pull", "--store", room.store, "oci:" + source.path, "a:1"]
    ours, theirs = os.openpty()
    run = subprocess.Popen(words, stdout=subprocess.DEVNULL, stderr=theirs, env=room.environment)
    os.close(theirs)
    told = b""
    try:
        while True:
            told += os.read(ours, 4096)
    except OSError:
        pass
    hold("status", 0, run.wait())
    os.close(ours)
    hold("progress", (True, True), (b"\rlayers: 0 of 0 MB\x1b[K" in told, told.endswith(b"\r\x1b[K")))
    shutil.rmtree(room.store)
    done = room.run(*words)
    hold("no terminal", (0, ""), (done.returncode, done.stderr))


def check_strange_words(room):
    """What an image's configuration says does not act on a terminal; elsewhere it comes as it is. A user of very many digits
    is none."""
    it = made.Layout(room.name(), {"Env": ["A=\x1b[2J\u202e\n1"], "User": "9" * 5000, "Cmd": ["a"]})
    it.index(made.tagged(it.image([made.archive(made.entry("etc/passwd", b"root:x:0:0::/:"))]), "1"))
    room.layers("pull", "oci:" + it.path, "a:1")
    hold("elsewhere", True, "env 'A=\x1b[2J\u202e\n1'\n" in room.layers("config", "a:1"))
    ours, theirs = os.openpty()
    subprocess.run(room.words("config", "a:1"), stdin=subprocess.DEVNULL, stdout=theirs, env=room.environment, check=True)
    os.close(theirs)
    hold("on a terminal", True, b"env 'A=\\1b[2J\\e2\\80\\ae\r\n1'\r\n" in os.read(ours, 1 << 16))
    os.close(ours)
    room.refused("the image has no user %s.." % ("9" * 200), "config", "--bwrap", "a:1")


def checks():
    return [check_digests, check_verify, check_unlike_configuration, check_escapes, check_links_in_store,
            check_left_over, check_two_at_once, check_full_disk, check_progress, check_strange_words, check_killed_a_hundred_times]


def quick_checks():
    return checks()[:-1] + [check_killed_a_few_times]
