"""Measures the snapshotter beside others: python3 checks engines PROGRAM --measure [STARGZ]

It prints the table of docs/ENGINES.md. The image is Python of this machine, in four layers. What is
compared runs by turns; each figure is a median of three rounds. Beside times stand those of
processors, of all but the containers' own processes. STARGZ is a folder for stargz's
snapshotter, which is built there if it isn't yet (checks/engines/stargz).
"""
import os
import re
import shutil
import statistics
import subprocess
import sys
import tarfile
import threading
import time

from checks import ROOT
from checks.engines import cri, images
from checks.engines.faults import launchers
from checks.engines.groups import enter_group, processor_time
from checks.engines.layers import run_layers
from checks.engines.machine import HOST, wait_until
from checks.engines.snapshotters import KEEP
from checks.registry import made

IMAGE = "docker.io/test/python:1"
# what is put into each layer over busybox's
LAYERS = (("usr/lib/python3.11", "usr/bin/python3.11"), ("usr/lib/python3",),
          ("usr/share/perl", "usr/lib/git-core"))
ROUNDS, TURNS, STARTS = 5, 3, 10
PULLED = "a pull by CRI"
STORED = "a pull with the layers in strata's store"
CODE = "import json, email, http.client, xml.dom.minidom, asyncio; print('ok')"


def archive_of(paths, path):
    with tarfile.open(path, "w") as tar:
        for it in paths:
            if os.path.exists("/" + it):
                tar.add("/" + it, it)
    with open(path, "rb") as file:
        return file.read()


def needed(program):
    """The libraries of a program, as paths below the root."""
    said = subprocess.run(["ldd", program], check=True, stdout=subprocess.PIPE, text=True).stdout
    return [word.lstrip("/") for word in said.split() if word.startswith("/")]


def file_entry(path):
    with open("/" + path, "rb") as file:
        return images.entry(path, file.read(), mode=0o755)


def made_image(machine):
    program = "/usr/bin/python3.11"
    first = made.archive(*images.lowest(), *map(file_entry, needed(program)))
    rest = [archive_of(it, machine.at("layer.tar")) for it in LAYERS]
    return images.Image(machine.at("python"), IMAGE, [first, *rest])


def timed(function, *words, **more):
    begin = time.monotonic()
    function(*words, **more)
    return time.monotonic() - begin


def at_once(count, its):
    """Runs so many containers at once."""
    threads = [threading.Thread(target=its.run, args=("m%d" % number,)) for number in range(count)]
    for it in threads:
        it.start()
    for it in threads:
        it.join()


def resident(process):
    with open("/proc/%d/status" % process, encoding="ascii") as lines:
        return next(int(line.split()[1]) for line in lines if line.startswith("VmRSS:")) / 1024


def disk(path):
    return int(subprocess.run(["du", "-smx", path], check=True, stdout=subprocess.PIPE,
                              text=True).stdout.split()[0])


# --- what is compared ---

class Compared:
    """A snapshotter of a machine, with the image as it takes it."""

    name, image, reference, processes = "overlayfs", IMAGE, HOST + "/python:1", ()

    def __init__(self, machine, archive):
        self.machine, self.archive = machine, archive

    def root(self):
        return self.machine.at("containerd/io.containerd.snapshotter.v1.overlayfs")

    def bring(self):
        self.machine.bring(self.archive, self.name)

    def run(self, name):
        self.machine.run(name, self.image, "true", snapshotter=self.name)

    def memory(self):
        """What its processes take, in MiB."""
        return 0


class Strata(Compared):
    name = "strata"

    def root(self):
        return self.machine.snapshotter.root

    def memory(self):
        found = self.machine.snapshotter
        return sum(map(resident, [*found.servers(), found.process.pid, *launchers(found)]))


class Stargz(Compared):
    """It mounts what is read on demand of the registry; layers must be of a form of its own."""

    name, image, reference = "stargz", HOST + "/python:lazy", HOST + "/python:lazy"

    def __init__(self, machine, archive, program):
        super().__init__(machine, archive)
        os.mkdir(self.root())
        machine.daemon("stargz", program, self.root(), machine.at("z.sock"), HOST)
        wait_until("stargz answers", lambda: os.path.exists(machine.at("z.sock")))
        self.convert()

    def root(self):
        return self.machine.at("stargz-root")

    def remote(self, *words):
        subprocess.run(["ctr-remote", "-a", self.machine.at("c.sock"), "images", *words],
                       check=True, stdin=subprocess.DEVNULL, stdout=subprocess.DEVNULL)

    def convert(self):
        """Pushes the image in its form."""
        self.machine.bring(self.archive, "overlayfs")
        self.remote("convert", "--estargz", "--oci", IMAGE, self.image)
        self.machine.ctr("images", "push", "--plain-http", self.image)
        self.machine.ctr("images", "rm", "--sync", IMAGE, self.image)

    def bring(self):
        self.remote("rpull", "--plain-http", "--snapshotter", self.name, self.image)

    def memory(self):
        return resident(self.machine.daemons["stargz"].pid)


# --- figures ---

class Figures:
    """Figures by their titles and by snapshotters, each of several rounds."""

    def __init__(self):
        self.found = {}

    def add(self, title, its, figure):
        self.found.setdefault(title, {}).setdefault(its.name, []).append(figure)

    def add_time(self, title, its, function, *words):
        """Adds the time of a call, and the processor time of all that it lets do."""
        before = processor_time(its.machine.folder)
        self.add(title + ", s", its, timed(function, *words))
        if before is not None:
            self.add(title + ", processor, s", its, processor_time(its.machine.folder) - before)

    def print(self, names):
        """A row of the table for each title; its last cell says how strata's figure is to that of
        overlayfs."""
        for title, cells in self.found.items():
            values = [statistics.median(cells[it]) if it in cells else None for it in names]
            of = dict(zip(names, values))
            ratio = of["strata"] / of["overlayfs"] if of["overlayfs"] else None
            print("| %s |" % " | ".join([title, *map(rounded, values), rounded(ratio)]), flush=True)


def add_imports(figures, machine, compared):
    """An import, and the first container after it."""
    for its in compared:
        figures.add_time("an import", its, its.bring)
        figures.add_time("first container after an import", its, its.run, "first")
        machine.ctr("images", "rm", "--sync", its.image)


def add_containers(figures, machine, compared):
    """Containers on an image, those of each snapshotter by turns."""
    for its in compared:
        its.bring()
        machine.snapshotter.settled()
        its.run("first")
        machine.begin("stay-" + its.name, its.image, "sleep", "1000000", snapshotter=its.name)
    for number in range(STARTS):
        for its in compared:
            figures.add_time("next container", its, its.run, "s%d" % number)
    for count, title in ((10, "ten at once"), (50, "fifty at once")):
        for its in compared:
            figures.add_time(title, its, at_once, count, its)
    for name, words in (("`find /usr`", ("find", "/usr")),
                        ("Python with five modules", ("/usr/bin/python3.11", "-c", CODE))):
        for number in range(ROUNDS):
            for its in compared:
                title = name + (", again" if number else ", first")
                figures.add_time(title, its, machine.ctr, "task", "exec", "--exec-id",
                                 "x%d" % number, "stay-" + its.name, *words)
    for its in compared:
        figures.add("memory of the service and its mounts, MiB", its, its.memory())
        figures.add("disk, MiB", its, disk(its.root()))
        machine.end("stay-" + its.name)
    machine.ctr("images", "rm", "--sync", *{its.image for its in compared})


def use(machine, snapshotter):
    """Lets CRI use another snapshotter."""
    place = machine.at("containerd.toml")
    with open(place, encoding="ascii") as file:
        text = file.read()
    with open(place, "w", encoding="ascii") as out:
        out.write(re.sub(r'  snapshotter = "\w+"', '  snapshotter = "%s"' % snapshotter, text))
    machine.kill("containerd")
    machine.start_containerd()


def pull(figures, title, machine, its):
    """A pull by CRI, and the first container after it; the image is removed again, with all that
    was made of it."""
    runtime = cri.Runtime(machine.at("c.sock"))
    figures.add_time(title, its, runtime.pull, its.reference)
    figures.add_time("first container after " + title, its, machine.ctr, "-n", "k8s.io", "run",
                     "--rm", "--snapshotter", its.name, its.reference, "first", "true")
    runtime.remove_image(its.reference)
    machine.forget()


def add_pulls(figures, machine, compared):
    for its in compared:
        use(machine, its.name)
        pull(figures, PULLED, machine, its)


def add_pulls_from_store(figures, machine, strata, image):
    """Pulls with all layers in the store of strata-layers."""
    use(machine, strata.name)
    run_layers("pull", "--store", machine.at("store"), "oci:%s:1" % image.path, "python:1")
    for _ in range(TURNS):
        pull(figures, STORED, machine, strata)
    shutil.rmtree(machine.at("store"))


def rounded(value):
    """A figure with two digits that count."""
    if not value:
        return ""
    return "%.*f" % (2 if value < 1 else 1 if value < 10 else 0, value)


def measure(machine, place):
    image = made_image(machine)
    image.push(HOST, "python:1")
    compared = [Compared(machine, image.archive), Strata(machine, image.archive)]
    if place is not None:
        compared.append(Stargz(machine, image.archive, place))
    print("image: %d layers, %d MiB packed" % (len(image.layers),
                                               os.path.getsize(image.archive) >> 20))
    names = [it.name for it in compared]
    print("| | %s | strata / overlayfs |" % " | ".join(names))
    print("|%s" % ("---|" * (len(names) + 2)), flush=True)
    pulls, containers = Figures(), Figures()
    for _ in range(TURNS):
        add_pulls(pulls, machine, compared)
    add_pulls_from_store(pulls, machine, compared[1], image)
    # the same pull by overlayfs is what the store spares
    pulls.found[STORED + ", s"]["overlayfs"] = pulls.found[PULLED + ", s"]["overlayfs"]
    pulls.print(names)
    for _ in range(TURNS):
        add_imports(containers, machine, compared)
        add_containers(containers, machine, compared)
    containers.print(names)


# --- the machine ---

def install(machine):
    """Lets the machine run the snapshotter as it is installed, with its modules compiled, in the
    control group."""
    enter_group(machine.folder)
    found, place = machine.snapshotter, machine.at("installed")
    words = [sys.executable, "-B", ROOT + "/packaging/install.py", found.program, "", place, ""]
    subprocess.run(words, check=True, stdin=subprocess.DEVNULL, stdout=subprocess.DEVNULL)
    found.words = [place + "/bin/strata-snapshotter", *found.words[3:]]
    found.words.remove("--debug")
    at = found.words.index(KEEP[0])
    del found.words[at:at + len(KEEP)]
