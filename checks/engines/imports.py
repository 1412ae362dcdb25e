"""Checks with containerd and runc: containers that start right after an import, before the images
of their layers are made."""
import os
import signal

from checks.engines import images
from checks.engines.containers import (
    begin_writing, hold_early, hold_same, hold_works, image_of, lies_on, seen)
from checks.engines.machine import wait_until
from checks.shared.mounting import hold


def layers_with_folders(machine):
    """How many layers have folders."""
    root = machine.snapshotter.root + "/snapshots"
    return sum(os.path.exists("%s/%s/fs" % (root, it)) for it in os.listdir(root))


def seen_of_image(process):
    """What a container's process sees, but for what it has written."""
    return {path: it for path, it in seen(process).items() if path != "etc/own"}


def stop(machine, name):
    """Ends what a container runs, which may be started again."""
    machine.tried("task", "kill", "-s", "KILL", name)
    wait_until("its end", lambda: machine.tried("task", "rm", name).returncode == 0)


def check_right_after_an_import(machine):
    """A container that starts right after an import lies on folders. It sees what it sees with
    overlayfs, also once the images are made, and when daemons were killed and it is started again.
    Later ones lie on the images, and the folders go with it."""
    image, archive = image_of(machine, images.SLOW)
    machine.bring(archive, "overlayfs")
    wanted = seen_of_image(begin_writing(machine, "plain", image, "overlayfs"))
    machine.end("plain")
    machine.forget(image)
    machine.bring(archive)
    process = begin_writing(machine, "early", image)
    lowers = hold_early(machine, process)
    said = machine.ctr("snapshots", "--snapshotter", "strata", "mounts", "/mnt", "early")
    hold("what ctr shows", [], [it for it in lowers if "/%s" % it not in said])
    hold_same(wanted, seen_of_image(process))
    machine.snapshotter.settled()
    later = begin_writing(machine, "later", image)
    hold("what a later container lies on", ["mounts"],
         [it.partition("/")[0] for it in lies_on(machine, later)])
    hold_same(wanted, seen_of_image(later))
    machine.end("later")
    machine.kill("containerd")
    machine.snapshotter.stop(signal.SIGKILL)
    machine.snapshotter.start()
    machine.start_containerd()
    hold_works(machine, "early")
    hold_same(wanted, seen_of_image(process))
    stop(machine, "early")
    machine.ctr("task", "start", "-d", "early")
    process = machine.process_of("early")
    hold("what an early container lies on", lowers, lies_on(machine, process))
    hold_works(machine, "early")
    machine.end("early")
    wait_until("no folders", lambda: layers_with_folders(machine) == 0)
    machine.forget(image)


def check_many_folders(machine):
    """The same over more layers than strata stacks."""
    image, archive = image_of(machine, images.LONG)
    machine.bring(archive)
    for layer in ("0", "126"):
        machine.run("early" + layer, image, "grep", "-q", "^%s$" % layer, "/opt/o/" + layer)
    machine.forget(image)


CHECKS = (check_right_after_an_import, check_many_folders)
