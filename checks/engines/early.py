"""Checks of containers that come before the images of their layers are made."""
import os
import signal
import subprocess
import threading
import time

from checks.engines.layers import end, kind_of, lowers_of, overlay, put, without_images
from checks.registry.tree import tree
from checks.shared.mounting import hold, wait_until
from strata_snapshotter import image_maker
from strata_snapshotter.snapshots import UNPACKED
from strata_snapshotter.state import Form, Kind

FOLDER, MOUNT = "snapshots", "mounts"


def with_layers(snapshotter, names, *words):
    """The snapshots of a service that is stopped for that, with layers whose images are not made
    yet, each on the one before."""
    snapshotter.stop()
    snapshots, parent = without_images(snapshotter, *words), ""
    for name in names:
        mount, = snapshots.create(UNPACKED + name, parent, Kind.ACTIVE, {})
        put(snapshotter.files([mount]), name, name.encode())
        snapshots.commit(name, UNPACKED + name, {})
        parent = name
    return snapshots


def go_on(snapshotter, snapshots):
    """Starts the service again."""
    end(snapshots)
    snapshotter.start()


def make_images(snapshots, count):
    """Makes the next images."""
    for _ in range(count):
        snapshots.maker.make(snapshots.maker.next())
        snapshots.tidy()


def below(snapshots, name, parent, kind=Kind.ACTIVE):
    """Makes a snapshot; what it lies on, the highest first."""
    return lowers_of(*snapshots.create(name, parent, kind, {}))


def kinds(snapshotter, lowers):
    return [kind_of(snapshotter, it) for it in lowers]


def folders_left(snapshotter):
    """The layers whose folders are there."""
    return [number for number in (1, 2)
            if os.path.exists("%s/snapshots/%d/fs" % (snapshotter.root, number))]


def check_what_early_containers_lie_on(snapshotter):
    """Containers and views lie on the folders of layers that are not images yet, over the mount of
    the images below, and stay there; a folder goes with the last of them."""
    snapshots = with_layers(snapshotter, ["one", "two"])
    mounts = {"c": below(snapshots, "c", "two"), "v": below(snapshots, "v", "two", Kind.VIEW),
              "w": below(snapshots, "w", "one", Kind.VIEW)}
    for name, count in (("c", 2), ("v", 2), ("w", 1)):
        hold(name, [FOLDER] * count, kinds(snapshotter, mounts[name]))
    hold("servers", [], snapshotter.servers())
    place = overlay(mounts["c"], snapshotter.folder + "/shown")
    shown = tree(place)
    make_images(snapshots, 1)
    mounts["d"] = below(snapshots, "d", "two")
    hold("over one image", [FOLDER, MOUNT], kinds(snapshotter, mounts["d"]))
    hold("paths", [["two"], ["one"]], [os.listdir(it) for it in mounts["d"]])
    make_images(snapshots, 1)
    mounts["e"] = below(snapshots, "e", "two")
    hold("over images", [MOUNT], kinds(snapshotter, mounts["e"]))
    for name, it in mounts.items():
        hold("what %s lies on" % name, it, lowers_of(*snapshots.mounts(name)))
    hold("what is shown", shown, tree(place))
    subprocess.run(["umount", place], check=True)
    left = []
    for name in ("c", "v", "w", "d"):
        snapshots.remove(name)
        left.append(folders_left(snapshotter))
    hold("folders", [[1, 2], [1, 2], [2], []], left)
    hold("the image's inodes", 1, snapshots.usage("one")[1])
    go_on(snapshotter, snapshots)


def check_mounts_for_early_containers(snapshotter):
    """With --keep an early container lies on folders that images have just replaced, and needs no
    mount; one for later containers is made ahead."""
    snapshots = with_layers(snapshotter, ["one", "two"], 1000)
    make_images(snapshots, 1)
    hold("early", [FOLDER] * 2, kinds(snapshotter, below(snapshots, "c", "two")))
    hold("servers", [], snapshotter.servers())
    make_images(snapshots, 1)
    wait_until("it is mounted ahead", snapshotter.servers)
    hold("later", [MOUNT], kinds(snapshotter, below(snapshots, "d", "two")))
    hold("servers", 1, len(snapshotter.servers()))
    go_on(snapshotter, snapshots)


def check_early_containers_and_kills(snapshotter):
    """What a container lies on stays the same over a service that makes the images, is killed, and
    is started again."""
    snapshots = with_layers(snapshotter, ["one", "two"])
    lowers = below(snapshots, "c", "two")
    go_on(snapshotter, snapshots)
    for _ in range(3):
        snapshotter.settled()
        hold("folders", lowers, lowers_of(*snapshotter.call("Mounts", key="c").mounts))
        hold("paths", [["two"], ["one"]], [os.listdir(it) for it in lowers])
        snapshotter.stop(signal.SIGKILL)
        snapshotter.start()
    hold("the view", ["one", "two"], sorted(os.listdir(snapshotter.view("v", "two"))))
    snapshotter.call("Remove", key="c")
    hold("folders", [], folders_left(snapshotter))
    hold("the view", ["one", "two"], sorted(os.listdir(snapshotter.view("x", "two"))))


def check_commits_of_early_containers(snapshotter):
    """What is committed of a container that lies on folders becomes an image over theirs."""
    snapshots = with_layers(snapshotter, ["one", "two"])
    mount, = snapshots.create("c", "two", Kind.ACTIVE, {})
    put(snapshotter.files([mount]), "three", b"3")
    make_images(snapshots, 2)
    hold("folders", [1, 2], folders_left(snapshotter))
    snapshots.commit("three", "c", {})
    hold("folders", [], folders_left(snapshotter))
    go_on(snapshotter, snapshots)
    hold("paths", ["one", "three", "two"], sorted(os.listdir(snapshotter.view("v", "three"))))


def check_waiting_for_images(snapshotter):
    """With --wait-for-images a container waits until all that it lies on are images; what is
    unpacked does not."""
    snapshots = with_layers(snapshotter, ["one", "two"], 0, True)
    found = []
    waiting = threading.Thread(target=lambda: found.extend(below(snapshots, "c", "two")))
    waiting.start()
    hold("unpacked", [FOLDER] * 2, kinds(snapshotter, below(snapshots, UNPACKED + "3", "two")))
    for _ in range(2):
        time.sleep(0.05)
        hold("a container", [], found)
        make_images(snapshots, 1)
    waiting.join()
    hold("a container", [MOUNT], kinds(snapshotter, found))
    end(snapshots)
    snapshotter.words.append("--wait-for-images")
    snapshotter.start()
    snapshotter.layer("three", "two", lambda folder: put(folder, "large", bytes(20 << 20)))
    lower, = lowers_of(*snapshotter.call("View", key="v", parent="three").mounts)
    hold("paths", ["large", "one", "two"], sorted(os.listdir(lower)))


def check_rests(snapshotter):
    """No image is begun or goes on while calls come, unless that lasts too long, or one waits for
    it."""
    snapshots = with_layers(snapshotter, ["one"])
    maker, begin = snapshots.maker, time.monotonic()
    maker.resting, image_maker.RESTING_MOST = 1000, 0.2
    one = maker.next()
    hold("it rests", True, time.monotonic() - begin >= 0.2)
    maker.left = 1000
    making = threading.Thread(target=maker.make, args=(one,))
    making.start()
    time.sleep(0.2)
    hold("it rests", Form.PENDING, snapshots.stat("one").form)
    maker.wait(one.id)
    making.join()
    hold("it is made", Form.IMAGE, snapshots.stat("one").form)
    go_on(snapshotter, snapshots)


def check_what_lies_below_what(snapshotter):
    """Whatever of a chain is images, of which folders are left: a snapshot lies on folders of the
    highest layers, and on one mount of images alone, below these."""
    names = ["one", "two", "three", "four"]
    snapshots = with_layers(snapshotter, names)
    state, every = snapshots.state, [snapshots.stat(it) for it in names]
    for count in range(len(every) + 1):
        for replaced in range(1 << count):
            with state.transaction():
                for at, it in enumerate(every):
                    state.settle(it.id, Form.IMAGE if at < count else Form.PENDING, (0, 0))
            snapshots.replaced = {it.id: 0 for at, it in enumerate(every) if replaced >> at & 1}
            for is_early in (False, True):
                lowers = snapshots.lowers_on(snapshots.stat("four"), is_early)
                hold("layers", [it.id for it in every[::-1]][:len(lowers)],
                     [it.layer for it in lowers])
                hold("what lies below folders", [False] * (len(every) - count),
                     [it.is_mount for it in lowers[:len(every) - count]])
                hold("mounts", [False] * (len(lowers) - 1), [it.is_mount for it in lowers[:-1]])
                hold("all layers", True, lowers[-1].is_mount or len(lowers) == len(every))
    with state.transaction():
        for it in every:
            state.settle(it.id, Form.PENDING, (0, 0))
    go_on(snapshotter, snapshots)


CHECKS = (check_what_early_containers_lie_on, check_mounts_for_early_containers,
          check_early_containers_and_kills, check_commits_of_early_containers,
          check_waiting_for_images, check_rests, check_what_lies_below_what)
