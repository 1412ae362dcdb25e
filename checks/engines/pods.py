"""Checks by Kubernetes' container runtime interface: a pod, a container, and layers that stand
ready."""
import json
import os
import subprocess
import sys
import tempfile

from checks import TOOLS
from checks.engines import cri, images
from checks.engines.machine import HOST, wait_until
from checks.registry import made
from checks.shared.mounting import hold

BOX, PAUSE = HOST + "/box:1", HOST + "/pause:1"


def pushed(machine):
    """The image of a container, which is pushed beside that of pods."""
    box = images.Image(machine.at("box"), "box", images.layers())
    box.push(HOST, "box:1")
    run = dict(images.RUN)
    images.RUN["Cmd"] = ["/bin/sleep", "1000000000"]
    images.Image(machine.at("pause"), "pause", [made.archive(*images.lowest())]).push(HOST,
                                                                                      "pause:1")
    images.RUN.update(run)
    return box


def fetched(machine, name):
    """The digests of the blobs of an image that the registry has sent so far."""
    found = set()
    with open(machine.at("registry.log"), "rb") as log:
        for line in log:
            it = json.loads(line) if line.startswith(b"{") else {}
            uri = it.get("http.request.uri", "")
            if it.get("http.request.method") == "GET" and uri.startswith("/v2/%s/blobs/" % name):
                found.add(uri.rpartition("/")[2])
    return found


def hold_a_pod(machine, runtime, image):
    """Runs a container in a pod, looks at it, and removes both."""
    logs = tempfile.mkdtemp(dir=machine.folder)
    pod = runtime.pod("pod", logs)
    container = runtime.container(pod, "c", image,
                                  ["sh", "-c", "cat /etc/issue; echo own > /etc/own; sleep 1000000"])
    wait_until("the log",
               lambda: os.path.exists(logs + "/c.log") and os.path.getsize(logs + "/c.log"))
    with open(logs + "/c.log", encoding="utf-8") as lines:
        hold("log", " stdout F below\n", lines.read().partition("Z")[2])
    wait_until("what it writes",
               lambda: runtime.execute(container, "cat", "/etc/own") == ("own\n", 0))
    hold("exec", ("", 3), runtime.execute(container, "sh", "-c", "exit 3"))
    hold("what is shown",
         ("group\nhostname\nhosts\nissue\nown\npasswd\nresolv.conf\nshadow\nthird\n", 0),
         runtime.execute(container, "ls", "/etc"))
    hold("stats", True, runtime.has_stats(container))
    runtime.remove(pod, [container])


def check_a_pod(machine):
    """Pulled by CRI, whose labels name blobs; a pod and a container; and all is removed."""
    box, runtime = pushed(machine), cri.Runtime(machine.at("c.sock"))
    image = runtime.pull(BOX)
    hold("layers", len(box.layers), len(machine.snapshotter.names("kind==committed")))
    hold_a_pod(machine, runtime, image)
    for it in (BOX, PAUSE):
        runtime.remove_image(it)
    machine.forget()


def check_layers_in_the_store(machine):
    """What strata-layers has pulled is not fetched again: the registry sends no layer."""
    store = machine.at("store")
    subprocess.run([sys.executable, "-B", TOOLS + "/layers.py", "pull", "--store", store,
                    "oci:%s:1" % machine.at("box"),
                    "box:1"], check=True, stdin=subprocess.DEVNULL, stdout=subprocess.DEVNULL,
                    stderr=subprocess.DEVNULL)
    os.truncate(machine.at("registry.log"), 0)
    runtime = cri.Runtime(machine.at("c.sock"))
    image = runtime.pull(BOX)
    hold("blobs", 1, len(fetched(machine, "box")))
    hold_a_pod(machine, runtime, image)
    for it in (BOX, PAUSE):
        runtime.remove_image(it)
    machine.forget()


CHECKS = (check_a_pod, check_layers_in_the_store)
