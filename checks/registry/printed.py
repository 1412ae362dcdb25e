"""Checks of the commands that docs/MOUNTING.md prints for images on many machines, by bwrap and
podman."""
import gzip
import os
import re
import shlex
import subprocess
import sys

from checks import ROOT
from checks.registry import made
from checks.registry.loopback import Registry, needs_root, push
from checks.registry.rooms import LAYERS, MOUNT, Failed, LeftOut, hold, needs

PAGE = os.path.join(ROOT, "docs", "MOUNTING.md")


def printed_blocks():
    """The commands that the page prints for many machines: where images are built, on each machine,
    and what else can be run there."""
    with open(PAGE, encoding="utf-8") as file:
        part = file.read().split("## Images on many machines")[1].split("\n## ")[0]
    first, second = re.findall(r"```sh\n(.*?)```", part, re.S)
    built, each = re.split(r"# on each machine.*\n", first)
    commands = [it for it in first.splitlines() if not it.startswith("#")]
    hold("at most six commands", True, len(commands) <= 6)
    return built, each, second


def library_files(program):
    """A program's own files: itself, and the libraries that the loader names."""
    told = subprocess.run(["ldd", program], stdout=subprocess.PIPE, stderr=subprocess.DEVNULL, text=True, check=False).stdout
    return {path: os.path.realpath(path) for path in re.findall(r"(/\S+)", told)}


def shell_image(path):
    """A layout of an image with a shell and an entry point, which says what it was given."""
    files = {"/bin/sh": os.path.realpath("/bin/sh"), **library_files("/bin/sh")}
    entries = [made.folder(it) for it in ("bin", "dev", "etc", "proc", "run", "sys", "tmp")] + [made.folder("srv", 0o777)]
    for name, source in files.items():
        with open(source, "rb") as file:
            entries.append(made.entry(name.lstrip("/"), file.read(), mode=0o755))
    text = b'#!/bin/sh\necho "served: $1 $WORD $PWD"\n(echo new > new) 2>/dev/null && echo "written: yes"\nexit 0\n'
    it = made.Layout(path)
    config = {"os": "linux", "architecture": "amd64", "config": {
        "Entrypoint": ["/bin/serve"], "Cmd": ["a page"], "Env": ["PATH=/bin", "WORD=x y"], "WorkingDir": "/srv", "User": "7:8"}}
    layers = [made.archive(*entries), made.archive(made.entry("bin/serve", text, mode=0o755))]
    config["rootfs"] = {"type": "layers", "diff_ids": [made.digest(layer) for layer in layers]}
    blobs = [it.blob(made.ARCHIVE + "+gzip", gzip.compress(layer, mtime=0)) for layer in layers]
    value = {"schemaVersion": 2, "mediaType": made.MANIFEST, "config": it.blob(made.CONFIG, config), "layers": blobs}
    it.index(made.tagged(it.blob(made.MANIFEST, value), "1"))
    return it


def installed(room):
    """A folder with the two commands as they are installed."""
    place = room.name()
    os.mkdir(place)
    for name, words in (("strata-layers", [LAYERS]), ("strata-mount", [MOUNT, "--strata", room.strata])):
        with open(os.path.join(place, name), "w", encoding="utf-8") as out:
            out.write('#!/bin/sh\nexec %s "$@"\n' % " ".join(map(shlex.quote, [sys.executable, "-B", *words])))
        os.chmod(os.path.join(place, name), 0o755)
    return place


# a machine of its own: /var/lib and /mnt are new, and all mounts go with it
MACHINE = """
mount -t tmpfs tmpfs /var/lib && mount -t tmpfs tmpfs /mnt && mkdir /var/lib/work && cd /var/lib/work || exit 99
%s
"""
TAKEN_AWAY = "\nstatus=$?; umount top/root top 2>/dev/null; umount /mnt || umount -l /mnt; exit $status\n"
GROUPS = "mount -t tmpfs tmpfs /run; umount -R /sys/fs/cgroup 2>/dev/null; mount -t cgroup2 none /sys/fs/cgroup\n"


def on_machine(room, registry, text):
    path = installed(room) + ":" + os.environ["PATH"]
    text = MACHINE % text.replace("HOST", registry.host)
    done = room.run("unshare", "-m", "sh", "-e", "-c", text, env={**room.environment, "PATH": path})
    if done.returncode == 99 or "unshare" in done.stderr:
        raise LeftOut("no namespace with mounts: %s" % done.stderr.strip())
    return done


def begun(room):
    """A registry to which the commands of the page have brought an image, and what is printed for
    each machine."""
    needs("bwrap", "unshare")
    needs_root()
    registry, (built, each, more) = Registry(room), printed_blocks()
    push(room, registry, shell_image(room.name()).path + ":1", "app:1")
    done = on_machine(room, registry, built)
    if done.returncode != 0 or "oci:app-strata:1" not in done.stdout.splitlines():
        raise Failed("where it is built: status %d, %r" % (done.returncode, done.stderr[-900:]))
    return registry, each, more


def check_commands_as_printed(room):
    """The way from a registry to the image's entry point in a sandbox on another machine."""
    registry, each, _ = begun(room)
    done = on_machine(room, registry, "set +e\n" + each + TAKEN_AWAY)
    hold("on a machine", ["app-strata:1: 2 layers, 2 of them new", "served: a page x y /srv"], done.stdout.splitlines())


def check_written_trees_as_printed(room):
    """The same with a tmpfs on top, by bwrap and, where it runs, by podman."""
    registry, each, more = begun(room)
    served = ["served: a page x y /srv", "written: yes"]
    before = "".join(it for it in each.splitlines(True) if "bwrap" not in it)
    overlay = "".join(it for it in more.splitlines(True) if "podman" not in it)
    done = on_machine(room, registry, "set +e\n" + before + overlay + TAKEN_AWAY)
    hold("an overlay", served, done.stdout.splitlines()[1:])
    needs("podman")
    podman, = (it for it in more.splitlines(True) if "podman" in it)
    plain = 'podman run --rm --entrypoint \'["/bin/serve"]\' --rootfs $PWD/copy\n'
    text = "set +e\n" + GROUPS + before + "cp -a /mnt copy\n" + plain + "echo between\n" + podman + TAKEN_AWAY
    done = on_machine(room, registry, text)
    plainly, _, got = done.stdout.partition("between\n")
    if "served" not in plainly:
        raise LeftOut("podman doesn't run here even with a plain folder: %s" % done.stderr.strip()[-300:])
    hold("podman", served, got.splitlines())


CHECKS = [check_commands_as_printed, check_written_trees_as_printed]
