"""Checks with engines that need no snapshotter: podman and systemd-nspawn on a mount."""
import os
import shlex
import shutil
import subprocess
import sys

from checks import TOOLS
from checks.engines import images
from checks.engines.containers import image_of
from checks.engines.layers import run_layers
from checks.engines.machine import HOST, wait_until
from checks.engines.pods import fetched
from checks.shared.mounting import Failed, LeftOut, hold, places

STORAGE = """
[storage]
driver = "overlay"
runroot = "{at}/podman-run"
graphroot = "{at}/podman-graph-{kind}"
[storage.options]
additional{kind}stores = ["{at}/{kind}s"]
"""
# where processes may not raise their limits, and control groups are of both kinds
CONTAINERS = """
[containers]
default_ulimits = ["nofile=1000:1000", "nproc=1000:1000"]
[engine]
cgroup_manager = "cgroupfs"
runtime = "runc"
"""


def ran(*words, **more):
    """What a program prints, which must succeed."""
    done = subprocess.run(words, stdin=subprocess.DEVNULL, stdout=subprocess.PIPE, text=True,
                          stderr=subprocess.PIPE, check=False, **more)
    if done.returncode != 0:
        raise Failed("%s: %s" % (" ".join(words), done.stderr.strip()[-700:]))
    return done.stdout


def run_printed(machine, *words):
    """Runs the commands that a verb of strata-layers prints, each of which mounts."""
    for line in ran(sys.executable, "-B", TOOLS + "/layers.py", *words).splitlines():
        ran(sys.executable, "-B", TOOLS + "/mount.py", "--strata", machine.snapshotter.program,
            *shlex.split(line)[1:])


def unmount(front):
    """Unmounts all that is mounted below a folder."""
    for place in [it for it in places() if it.startswith(front)]:
        subprocess.run(["umount", place], check=True)
        wait_until("it is unmounted", lambda it=place: it not in places())


def podman_words(machine, kind):
    """The environment of podman with an additional store of images or of layers."""
    if shutil.which("podman") is None:
        raise LeftOut("no podman here")
    environment = dict(os.environ)
    for name, text in (("CONTAINERS_STORAGE_CONF", STORAGE), ("CONTAINERS_CONF", CONTAINERS)):
        environment[name] = machine.at(name)
        with open(environment[name], "w", encoding="ascii") as out:
            out.write(text.format(at=machine.folder, kind=kind))
    return environment


def mounted(machine):
    """The folder at which an image of a store is mounted, as `strata-layers podman` says."""
    image_of(machine, images.PLAIN)
    store = machine.at("others")
    if not os.path.exists(store):
        run_layers("pull", "--store", store, "oci:%s:1" % machine.at(images.PLAIN), "app:1")
        run_printed(machine, "podman", "--store", store, "app:1", machine.at("images"))
    return next(it for it in places() if it.startswith(machine.at("images")))


def check_podman(machine):
    """An additional image store of podman: the image is listed, and containers write apart."""
    environment = podman_words(machine, "image")
    mounted(machine)
    hold("images", "localhost/app:1 true\n",
         ran("podman", "images", "--format", "{{.Repository}}:{{.Tag}} {{.ReadOnly}}",
             env=environment))
    run = ["podman", "run", "--rm", "--pull=never", "--network", "none", "localhost/app:1"]
    for name in ("one", "two"):
        said = ran(*run, "sh", "-c", "cat /etc/issue; echo %s > /etc/own; cat /etc/own" % name,
                   env=environment)
        hold("a container", "below\n%s\n" % name, said)


# prints what a container sees of the image's folders: types, modes, owners, times, sums
SEEING = ("find /bin /etc/issue /etc/shadow /home /kind /opt /usr /var | while read -r it; do"
          " stat -c '%n %F %a %u %g %Y' $it; case $(stat -c %F $it) in 'regular file')"
          " sha256sum $it;; esac; done")


def check_podman_layers(machine):
    """An additional layer store of podman: an image of a registry is pulled without a layer of it,
    and a container sees it as over podman's own layers."""
    environment = podman_words(machine, "layer")
    image_of(machine, images.PLAIN)
    reference, layout = HOST + "/plain:1", "oci:%s:1" % machine.at("fetched")
    images.push(machine.at(images.PLAIN), HOST, "plain:1")
    ran("skopeo", "copy", "-q", "--src-tls-verify=false", "docker://" + reference, layout)
    run_layers("pull", "--store", machine.at("layered"), layout, "app:1")
    pull = ["podman", "pull", "-q", "--tls-verify=false", reference]
    run = ["podman", "run", "--rm", "--pull=never", "--network", "none", reference, "sh", "-c",
           SEEING]
    found = []
    os.mkdir(machine.at("layers"))
    for has_layers in (False, True):
        if has_layers:
            run_printed(machine, "podman", "--layers", "--store", machine.at("layered"), "app:1",
                        machine.at("layers"))
        os.truncate(machine.at("registry.log"), 0)
        ran(*pull, env=environment)
        hold("blobs", 1 if has_layers else 4, len(fetched(machine, "plain")))
        found.append(ran(*run, env=environment).splitlines())
        ran("podman", "rmi", reference, env=environment)
    # folders that a layer has no entry for are root's in podman's own layers, and new
    own, shown = ({it for it in lines if " directory " not in it} for lines in found)
    hold("what a container sees", [], sorted(own ^ shown))
    hold("folders", *({it.split()[0] for it in lines if " directory " in it} for lines in found))
    unmount(machine.at("layers"))


def check_nspawn(machine):
    """systemd-nspawn on a mount, with what it writes in memory."""
    if shutil.which("systemd-nspawn") is None:
        raise LeftOut("no systemd-nspawn here")
    place = mounted(machine)
    said = ran("systemd-nspawn", "-q", "--register=no", "--keep-unit", "--volatile=overlay", "-D",
               place,
               "/bin/sh", "-c", "cat /etc/issue; echo own > /etc/own; cat /etc/own")
    hold("a container", "below\nown\n", said.replace("\r", ""))
    unmount(machine.at("images"))


CHECKS = (check_podman, check_podman_layers, check_nspawn)
