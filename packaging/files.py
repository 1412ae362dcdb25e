"""What is installed: which files, where, and what they hold. packaging/install.py, deb.py and dist.py use it."""
import collections
import os
import re
import subprocess
import sys
import tempfile

import links

ROOT = os.path.dirname(os.path.dirname(os.path.realpath(__file__)))
sys.path.insert(0, os.path.join(ROOT, "tools"))
from strata_format.version import PACKAGES, version

# a path below the prefix, with its mode and what it holds, or the name that a link leads to
Entry = collections.namedtuple("Entry", "path mode data link", defaults=(None, None))
# what users call, the module of it, and what that is called with
PROGRAMS = (
    ("bin/strata-mount", "strata_mount.command", "sys.argv[1:], \"strata-mount\""),
    ("bin/strata-layers", "strata_layers.command", "sys.argv[1:]"),
    ("sbin/mount.strata", "strata_mount.helper", "sys.argv[1:]"),
)
# the snapshotter, which has a package of its own, since it needs packages of Python's that the others don't
SNAPSHOTTER = ("bin/strata-snapshotter", "strata_snapshotter.command", "sys.argv[1:]")
SNAPSHOTTER_PACKAGE, SNAPSHOTTER_PAGE = "strata_snapshotter", "strata-snapshotter.8"
UNITS = "lib/systemd/system"
# python looks neither into the environment nor into a user's folder, but for two variables, which name the folder of its
# own modules and are removed before it; without S it finds packages of the system
ALONE, WITH_PACKAGES = "IBS", "IB"
# the folder of the packages that these programs are made of
MODULES = "lib/strata"
# the folder of pages and pictures, and what stands there beside those of docs/
DOCUMENTS, BESIDE = "share/doc/strata", ("README.md", "LICENSE-MIT", "LICENSE-APACHE")
# what recipes are shown on
SAMPLES = "demo"
# the snapshotter's own page, to which a link leads from its folder
SNAPSHOTTER_DOCUMENT = "CONTAINERD.md"
COMPLETIONS = {
    "bash": "share/bash-completion/completions", "zsh": "share/zsh/site-functions", "fish": "share/fish/vendor_completions.d"}


def hold_built(program):
    """Ends with a line where the program is not built."""
    if not os.path.exists(program):
        sys.exit("%s is not there: make build, first" % program)


def read(*names):
    with open(os.path.join(ROOT, *names), "rb") as it:
        return it.read()


def modules(packages):
    """Packages that programs are made of, whole."""
    for package in packages:
        for name in os.listdir(os.path.join(ROOT, "tools", package)):
            if name.endswith(".py"):
                yield Entry("%s/%s/%s" % (MODULES, package, name), 0o644, read("tools", package, name))


def compiled(python):
    """The same modules as this Python loads them at once. Another one compiles them at each start."""
    names = [entry.path[len(MODULES) + 1:] for entry in modules(PACKAGES) if entry.path.endswith(".py")]
    with tempfile.TemporaryDirectory(prefix="strata-compiled-") as out:
        script = os.path.join(ROOT, "packaging", "compiled.py")
        subprocess.run([python, "-IBS", script, os.path.join(ROOT, "tools"), out, *sorted(names)], check=True)
        for folder, _, found in os.walk(out):
            for name in found:
                place = os.path.join(folder, name)
                with open(place, "rb") as it:
                    yield Entry("%s/%s" % (MODULES, os.path.relpath(place, out)), 0o644, it.read())


def launcher(path, module, words, python, flags=ALONE):
    text = read("packaging", "launcher.py").decode()
    values = {"PYTHON": python, "FLAGS": flags, "NAME": os.path.basename(path), "MODULE": module, "WORDS": words}
    return re.sub("@([A-Z]+)@", lambda it: values[it[1]], text).encode()


def page(name):
    """A man page, which says the version."""
    data = read("docs", "man", name).replace(b"@VERSION@", version().encode())
    return Entry(page_place(name), 0o644, data)


def page_place(name):
    return "share/man/man%s/%s" % (name[-1], name)


def page_names():
    """The man pages, but that of the snapshotter."""
    return sorted({*os.listdir(os.path.join(ROOT, "docs", "man"))} - {SNAPSHOTTER_PAGE})


def pages():
    yield from map(page, page_names())
    yield Entry("share/man/man8/mount.fuse.strata.8", 0o777, link="mount.strata.8")


def completions():
    for shell, folder in COMPLETIONS.items():
        for name in sorted(os.listdir(os.path.join(ROOT, "packaging", "completions", shell))):
            yield Entry("%s/%s" % (folder, name), 0o644, read("packaging", "completions", shell, name))


def document_names():
    """The pages and pictures that are installed, and the licences, by their paths in the repository."""
    found = sorted(name for name in os.listdir(os.path.join(ROOT, "docs")) if name.endswith((".md", ".svg")))
    return [*BESIDE, *("docs/" + name for name in found)]


def documents(packed_place):
    """Pages and pictures. Links in pages lead to where a package has what is installed at a path."""
    places = {name: "%s/%s" % (DOCUMENTS, os.path.basename(name)) for name in document_names()}
    linked = {**places, **{"docs/man/" + name: page_place(name) for name in page_names()}}
    linked = {name: packed_place(place) for name, place in linked.items()}
    for name, place in places.items():
        data = read(*name.split("/"))
        yield Entry(place, 0o644, links.relinked(data.decode(), name, linked).encode() if name.endswith(".md") else data)


def samples():
    """The images, the layout and the requests on which pages show the programs."""
    for folder, _, names in os.walk(os.path.join(ROOT, SAMPLES)):
        for place in (os.path.relpath(os.path.join(folder, name), ROOT) for name in names):
            yield Entry("%s/%s" % (DOCUMENTS, place), 0o644, read(place))


def entries(program, python, is_compiled=True, packed_place=str):
    """All that is installed, in the order of paths: the program from this file, and what depends on this python3, with its
    modules compiled for it. `packed_place` says where a package has what is installed at a path."""
    with open(program, "rb") as it:
        found = [Entry("bin/strata", 0o755, it.read())]
    found += [Entry(path, 0o755, launcher(path, module, words, python)) for path, module, words in PROGRAMS]
    found.append(Entry("sbin/mount.fuse.strata", 0o777, link="mount.strata"))
    found.append(Entry(MODULES + "/version", 0o644, version().encode() + b"\n"))
    found += compiled(python) if is_compiled else []
    return sorted([*found, *modules(PACKAGES), *pages(), *completions(), *documents(packed_place), *samples()])


def snapshotter_entries(python):
    """What is installed of the snapshotter beside that."""
    found = [Entry(SNAPSHOTTER[0], 0o755, launcher(*SNAPSHOTTER, python, WITH_PACKAGES)), page(SNAPSHOTTER_PAGE)]
    for name in os.listdir(os.path.join(ROOT, "packaging", "systemd")):
        found.append(Entry("%s/%s" % (UNITS, name), 0o644, read("packaging", "systemd", name)))
    place = "share/doc/strata-snapshotter/" + SNAPSHOTTER_DOCUMENT
    found.append(Entry(place, 0o777, link="../strata/" + SNAPSHOTTER_DOCUMENT))
    return sorted([*found, *modules([SNAPSHOTTER_PACKAGE])])


def folders(found):
    """The folders in which files stand, those above before those below."""
    every = set()
    for entry in found:
        above = os.path.dirname(entry.path)
        while above:
            every.add(above)
            above = os.path.dirname(above)
    return sorted(every)


def moment():
    """The time that every file of a package bears: SOURCE_DATE_EPOCH, or that of the commit."""
    said = os.environ.get("SOURCE_DATE_EPOCH")
    if said:
        return int(said)
    return int(subprocess.run(["git", "-C", ROOT, "log", "-1", "--format=%ct"], check=True, stdout=subprocess.PIPE).stdout)
