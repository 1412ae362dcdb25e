"""Checks with containerd and runc: what containers see, many at once, and daemons that are
killed."""
import contextlib
import errno
import hashlib
import json
import os
import random
import signal
import subprocess
import threading
import time

import grpc

from checks.engines import cri, images
from checks.engines.layers import (
    FOLDER, REFERENCE, TOLD, chain_digests, run_layers, without_links)
from checks.engines.machine import HOST, wait_until
from checks.registry import made
from checks.registry.tree import shape, tree
from checks.shared.mounting import hold

# what runc makes in a container's root, where the image hasn't it
MADE = ("dev", "proc", "sys", "run")


def seen(process):
    """What a container's process sees, with extended attributes, but for links and what runc
    mounts."""
    root, found = "/proc/%d/root" % process, {}
    for folder, folders, files in os.walk(root):
        if folder == root:
            folders[:] = [it for it in folders if it not in MADE]
        for name in folders + files:
            place = os.path.join(folder, name)
            found[os.path.relpath(place, root)] = [*without_links(shape(place)), attributes(place)]
    return found


def attributes(place):
    """The extended attributes of a file; none where its file system has none at all."""
    try:
        names = sorted(os.listxattr(place, follow_symlinks=False))
    except OSError as fault:
        if fault.errno != errno.ENOTSUP:
            raise
        return []
    return [(name, os.getxattr(place, name, follow_symlinks=False)) for name in names]


def image_of(machine, kind):
    """The name of an image of a kind, and the path of its archive."""
    path = machine.at(kind)
    if os.path.exists(path):
        return "docker.io/test/%s:1" % kind, path + ".tar"
    image = images.Image(path, "docker.io/test/%s:1" % kind, images.layers(kind))
    return image.name, image.archive


def check_the_same_trees(machine):
    """A container sees what it sees with containerd's own overlayfs, path by path."""
    for kind in (images.PLAIN, images.ODD, images.LINKED):
        image, archive = image_of(machine, kind)
        found = {}
        for snapshotter in ("strata", "overlayfs"):
            machine.bring_settled(archive, snapshotter)
            process = machine.begin("c-" + snapshotter, image, "sleep", "1000000",
                                    snapshotter=snapshotter)
            found[snapshotter] = seen(process)
            machine.end("c-" + snapshotter)
        hold_same(found["overlayfs"], found["strata"])
        colour = found["strata"]["usr/sudo"][-1]
        hold("an attribute", [("user.colour", b"green")] * (kind == images.ODD), colour)
        machine.forget(image)


def told_of(machine, chain):
    """What `ctr` shows of why the layer that ends a chain is a folder, or None."""
    said = json.loads(machine.ctr("snapshots", "--snapshotter", "strata", "info", chain))
    return said.get("Labels", {}).get(FOLDER)


def check_folders_are_told(machine):
    """A layer with a device that no image holds, and one above the most that strata stacks, stay
    folders with all above them: `ctr` shows of each why, and the log has a line."""
    for kind, first, wanted in ((images.ODD, 1, "dev/far: a device of minor number 70000"),
                                (images.LONG, 128, "layer 129, and strata stacks 128")):
        image, archive = image_of(machine, kind)
        machine.bring_settled(archive)
        machine.run("c", image, "true")
        chains = chain_digests([made.digest(it) for it in images.layers(kind)])
        hold("of the image below", None, told_of(machine, chains[first - 1]))
        whys = [told_of(machine, it) for it in chains[first:first + 2]]
        if wanted not in whys[0]:
            hold("the folder", wanted, whys[0])
        hold("what lies on it", True, whys[1].endswith("%s below it is a folder" % chains[first]))
        with open(machine.snapshotter.log, encoding="utf-8") as lines:
            told = {it.rstrip("\n").partition(": ")[2] for it in lines}
        for chain, why in zip(chains[first:], whys):
            name, = [it for it in machine.snapshotter.names() if it.endswith("/" + chain)]
            hold("a line", True, TOLD.partition(": ")[2] % (name, why) in told)
        machine.forget(image)


def hold_same(wanted, found):
    hold("paths", sorted(wanted), sorted(found))
    for path, it in wanted.items():
        hold(path, it, found[path])


def check_images_as_layers(machine):
    """An image whose layers are archives of one romfs image each, as strata-layers writes it, in a
    registry: containerd pulls it as any other one, and a container sees what is in it. By CRI the
    images are taken from the blobs."""
    image, archive = image_of(machine, images.PLAIN)
    folder, given = machine.at("given"), HOST + "/given:1"
    run_layers("convert", "--store", machine.at("converted"), "--tar", "--compress", "gzip",
               machine.at(images.PLAIN), folder + ":1")
    images.push(folder, HOST, "given:1")
    machine.ctr("images", "pull", "--plain-http", "--snapshotter", "strata", given)
    machine.bring_settled(archive, "overlayfs")
    found = []
    for name, which, snapshotter in (("g", given, "strata"), ("p", image, "overlayfs")):
        found.append(seen(machine.begin(name, which, "sleep", "1000000", snapshotter=snapshotter)))
        machine.end(name)
    hold_same(found[1], found[0])
    runtime = cri.Runtime(machine.at("c.sock"))
    runtime.pull(given)
    named = 'labels."%s"' % REFERENCE
    every = machine.snapshotter.call("List", filters=[named])
    hold("layers that are not unpacked", 3, len(every))
    top, = {it.name for it in every} - {it.parent for it in every}
    shown = tree(machine.snapshotter.view("all", top))
    hold("paths of the image", sorted(it for it in found[0] if it.partition("/")[0] not in MADE),
         sorted(it for it in shown if it.partition("/")[0] not in (*MADE, ".")))
    machine.snapshotter.call("Remove", key="all")
    runtime.remove_image(given)
    machine.forget(image, given)


# what a container writes of what it sees; what ctr prints may lack the end
WRITING = ("{ sha256sum < /usr/large; cat /etc/issue; ls /etc /opt/o; echo %s; } > /etc/own; "
           "echo > /etc/done; sleep 1000000")


def written(machine, name, image):
    """The lines that a container writes of what it sees."""
    process = machine.begin(name, image, "sh", "-c", WRITING % name)
    place = "/proc/%d/root/etc/" % process
    wait_until("%s has written" % name, lambda: os.path.exists(place + "done"))
    with open(place + "own", encoding="ascii") as lines:
        found = lines.read().split()
    machine.end(name)
    return found


def check_many_at_once(machine):
    """Eight and fifty containers at once on one mount: each sees the image and its own changes
    alone."""
    image, archive = image_of(machine, images.PLAIN)
    machine.bring_settled(archive)
    first, said = written(machine, "first", image), {}

    def one(name):
        said[name] = written(machine, name, image)

    for count in (8, 50):
        names = ["m%d" % number for number in range(count)]
        threads = [threading.Thread(target=one, args=(name,)) for name in names]
        for it in threads:
            it.start()
        for it in threads:
            it.join()
        for name in names:
            hold(name, [name if it == "first" else it for it in first], said.pop(name, None))
    machine.collect()
    wait_until("no server", lambda: not machine.snapshotter.servers())
    machine.forget(image)


def check_one_mount(machine):
    """Containers on one chain have one mount and one server; it ends with the last of them."""
    image, archive = image_of(machine, images.PLAIN)
    machine.bring_settled(archive)
    for name in ("a", "b", "c"):
        machine.begin(name, image, "sleep", "1000000")
    hold("servers", 1, len(machine.snapshotter.servers()))
    for name in ("a", "b"):
        machine.end(name)
    hold("servers", 1, len(machine.snapshotter.servers()))
    machine.end("c")
    machine.collect()
    wait_until("no server", lambda: not machine.snapshotter.servers())
    machine.forget(image)


DIALS = 5


def looked_for(machine, name, text, path):
    """A command in a container that looks for a text in a file."""
    words = "task", "exec", "--exec-id", "e%d" % time.monotonic_ns(), name, "grep", "-q", text, path
    done = machine.tried(*words)
    for _ in range(DIALS):
        # on a very busy machine ctr gives up before containerd takes its connection
        if "failed to dial" in done.stderr:
            done = machine.tried(*words)
    return done


def reads(machine, name, path, text):
    """Whether a command in a container reads this text in a file."""
    return looked_for(machine, name, text, path).returncode == 0


# what a container that goes on finds in the image's files and its own
FOUND = (("^below$", "/etc/issue"), ("^own$", "/etc/own"))


def works(machine, name):
    """Whether a container reads the image's files and its own."""
    return all(reads(machine, name, path, text) for text, path in FOUND)


def hold_works(machine, name):
    """The same, or what the command says that does not."""
    for words in FOUND:
        done = looked_for(machine, name, *words)
        hold("%s finds %s in %s" % (name, *words), (0, ""), (done.returncode, done.stderr[-400:]))


def begin_writing(machine, name, image, snapshotter="strata"):
    """Begins a container that writes a file; its process."""
    process = machine.begin(name, image, "sh", "-c", "echo own > /etc/own; sleep 1000000",
                            snapshotter=snapshotter)
    wait_until("the container runs", lambda: works(machine, name))
    return process


def lies_on(machine, process):
    """What a container's root lies on, the highest first, as paths below the snapshotter's root."""
    with open("/proc/%d/mountinfo" % process, encoding="utf-8") as lines:
        root = next(line for line in lines if line.split()[4] == "/")
    options = dict(it.partition("=")[::2] for it in root.split()[-1].split(","))
    return [os.path.relpath(it, machine.snapshotter.root) for it in options["lowerdir"].split(":")]


def hold_early(machine, process):
    """Holds that a container lies on a folder; what it lies on."""
    found = lies_on(machine, process)
    hold("what an early container lies on", "snapshots", found[0].partition("/")[0])
    return found


def runs(machine, image):
    name = "n%d" % time.monotonic_ns()
    done = machine.tried("run", "--rm", "--snapshotter", "strata", image, name, "true")
    return done.returncode == 0


def check_daemons_killed(machine):
    """The snapshotter and containerd are killed under a container, which goes on; new ones
    start."""
    image, archive = image_of(machine, images.PLAIN)
    machine.bring_settled(archive)
    begin_writing(machine, "long", image)
    machine.snapshotter.stop(signal.SIGKILL)
    hold_works(machine, "long")
    machine.snapshotter.start()
    wait_until("a new container", lambda: runs(machine, image))
    wait_until("one server", lambda: len(machine.snapshotter.servers()) == 1)
    machine.kill("containerd")
    machine.start_containerd()
    hold_works(machine, "long")
    machine.end("long")
    remove_containers(machine)
    machine.forget(image)


def check_servers_killed(machine):
    """strata is killed under a container: what that hasn't read yet is gone, and the next
    container has a new mount."""
    image, archive = image_of(machine, images.PLAIN)
    machine.bring_settled(archive)
    begin_writing(machine, "old", image)
    os.kill(machine.snapshotter.servers()[0], signal.SIGKILL)
    wait_until("no server", lambda: not machine.snapshotter.servers())
    hold("a file that it hasn't read", False, reads(machine, "old", "/opt/o/new", "2"))
    begin_writing(machine, "new", image)
    hold("the same file in a new one", True, reads(machine, "new", "/opt/o/new", "2"))
    hold("the old one sees no other tree", False, reads(machine, "old", "/opt/o/new", "2"))
    for name in ("old", "new"):
        machine.end(name)
    machine.forget(image)


def check_a_reboot(machine):
    """State without mounts: a container that was stopped starts again with what it had written."""
    image, archive = image_of(machine, images.PLAIN)
    machine.bring_settled(archive)
    begin_writing(machine, "kept", image)
    machine.tried("task", "kill", "-s", "KILL", "kept")
    wait_until("its end", lambda: machine.tried("task", "rm", "kept").returncode == 0)
    machine.kill("containerd")
    machine.snapshotter.stop(signal.SIGKILL)
    for it in machine.snapshotter.servers():
        os.kill(it, signal.SIGKILL)
    for it in os.listdir(machine.snapshotter.root + "/mounts"):
        subprocess.run(["umount", "-l", os.path.join(machine.snapshotter.root, "mounts", it)],
                       check=True)
    machine.snapshotter.start()
    machine.start_containerd()
    machine.ctr("task", "start", "-d", "kept")
    wait_until("the container runs", lambda: works(machine, "kept"))
    machine.end("kept")
    machine.forget(image)


# --- random kills ---

def kill_snapshotter(machine, _):
    machine.snapshotter.stop(signal.SIGKILL)
    machine.snapshotter.start()


def kill_containerd(machine, _):
    machine.kill("containerd")
    machine.start_containerd()


def kill_server(machine, spared):
    for it in set(machine.snapshotter.servers()) - spared:
        # it may have ended by itself
        with contextlib.suppress(ProcessLookupError):
            os.kill(it, signal.SIGKILL)


KILLS = (kill_snapshotter, kill_snapshotter, kill_containerd, kill_server)


# the namespace of CRI, as ctr's words say it
CRI = ("-n", "k8s.io")


def remove_containers(machine):
    for space in ((), CRI):
        for name in machine.ctr(*space, "container", "ls", "-q").split():
            machine.tried(*space, "task", "rm", "-f", name)
            machine.ctr(*space, "container", "rm", name)
        # a client of a containerd that was killed keeps what it was about to make for a day
        for lease in machine.ctr(*space, "leases", "ls", "-q").split():
            machine.ctr(*space, "leases", "rm", "--sync", lease)


# what a container prints of its tree up to what it can't read, and its last line
PRINTING = "set -e; cat /etc/issue; ls /etc; ls /opt/o; ls /kind; sha256sum < /usr/large"
SUM = hashlib.sha256(images.large(1 << 20)).hexdigest() + "  -\n"


def brought(machine, image, archive):
    """Imports an image, runs a container on it, and removes it again; the lines that the container
    printed, as far as it came."""
    machine.tried("images", "import", "--snapshotter", "strata", archive)
    found = printed(machine, image)
    machine.tried("images", "rm", "--sync", image)
    return found


def pulled(machine, image):
    """The same of an image that CRI pulls."""
    runtime = cri.Runtime(machine.at("c.sock"))
    with contextlib.suppress(grpc.RpcError):
        runtime.pull(image)
    found = printed(machine, image, *CRI)
    with contextlib.suppress(grpc.RpcError):
        runtime.remove_image(image)
    return found


def printed(machine, image, *space):
    name = "k%d" % time.monotonic_ns()
    done = machine.tried(*space, "run", "--rm", "--snapshotter", "strata", image, name, "sh", "-c",
                         PRINTING)
    return done.stdout.splitlines(True)


def hold_printed(wanted, found):
    """Holds that a container that may have been killed has printed no other tree's lines."""
    if found and not found[-1].endswith("\n"):
        wanted = [*wanted[:len(found) - 1], wanted[len(found) - 1][:len(found[-1])]]
    hold("what a container printed", wanted[:len(found)], found)


def check_random_kills(machine, count=8):
    """The snapshotter, containerd and servers are killed at random moments of imports, pulls,
    containers and removals: containers on images and on folders go on meanwhile, none sees another
    tree, afterwards all works, and nothing is left."""
    (kept, other), (early, slow), (image, archive) = (
        image_of(machine, it) for it in (images.ODD, images.SLOW, images.PLAIN))
    remote = HOST + "/killed:1"
    images.push(machine.at(images.PLAIN), HOST, "killed:1")
    machine.bring_settled(other)
    begin_writing(machine, "kept", kept)
    machine.bring(slow)
    hold_early(machine, begin_writing(machine, "early", early))
    wanted = []
    # what ctr prints may lack the end
    while wanted[-1:] != [SUM]:
        wanted = brought(machine, image, archive)
    spared, draw = set(machine.snapshotter.servers()), random.Random(94)
    for number in range(count):
        found = []
        work = threading.Thread(target=lambda: found.extend(
            pulled(machine, remote) if number % 2 else brought(machine, image, archive)))
        work.start()
        time.sleep(draw.random() * 1.5)
        draw.choice(KILLS)(machine, spared)
        work.join()
        for name in ("kept", "early"):
            hold_works(machine, name)
        hold_printed(wanted, found)
    # containerd waits for a while before it connects again
    wait_until("an import", lambda: machine.tried("images", "import", "--snapshotter", "strata",
                                                  archive).returncode == 0)
    machine.run("last", image, "grep", "-q", "^below$", "/etc/issue")
    for name in ("kept", "early"):
        machine.end(name)
    remove_containers(machine)
    cri.Runtime(machine.at("c.sock")).remove_image(remote)
    machine.forget(image, kept, early)
    wait_until("no server", lambda: not machine.snapshotter.servers())


def check_hundreds_of_kills(machine):
    """The same at length, over mounts that are made ahead and kept for a while. STRATA_KILLS says
    how many."""
    machine.snapshotter.restart_keeping("2")
    check_random_kills(machine, int(os.environ.get("STRATA_KILLS", "300")))
    machine.snapshotter.restart_keeping("0")


CHECKS = (check_the_same_trees, check_folders_are_told, check_images_as_layers, check_one_mount, check_many_at_once,
          check_daemons_killed, check_servers_killed, check_a_reboot, check_random_kills)
# only if they are asked for
LONG = (check_hundreds_of_kills,)
