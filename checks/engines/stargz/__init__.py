"""stargz's snapshotter, to measure beside it. It is built of Debian's library, which takes a minute
or two: packages golang-go, golang-github-containerd-stargz-snapshotter-dev and stargz-snapshotter.
"""
import os
import shutil
import subprocess

from checks.shared.mounting import Failed

LIBRARY = "github.com/containerd/stargz-snapshotter"
GOCODE = "/usr/share/gocode"
# wants packages of Kubernetes that Debian does not have, and nothing here wants it
UNUSED = "service/resolver/cri.go"
SOURCE = os.path.join(os.path.dirname(os.path.abspath(__file__)), "main.go")


def missing():
    """What is missing here to build it, in words."""
    found = [it for it in ("go", "ctr-remote") if shutil.which(it) is None]
    is_there = os.path.isdir(os.path.join(GOCODE, "src", LIBRARY))
    return found + [LIBRARY] * (not is_there)


def built(folder):
    """The path of the program, which is built in a folder if it isn't there."""
    own, program = os.path.join(folder, "go"), os.path.join(os.path.abspath(folder), "stargz")
    if os.path.exists(program):
        return program
    if missing():
        raise Failed("no %s here" % ", no ".join(missing()))
    shutil.copytree(os.path.join(GOCODE, "src", LIBRARY), os.path.join(own, "src", LIBRARY))
    os.unlink(os.path.join(own, "src", LIBRARY, UNUSED))
    os.makedirs(own + "/src/stargz")
    shutil.copy(SOURCE, own + "/src/stargz")
    environment = {**os.environ, "GO111MODULE": "off", "GOPATH": "%s:%s" % (own, GOCODE),
                   "GOCACHE": own + "/cache"}
    subprocess.run(["go", "build", "-o", program, "stargz"], check=True, env=environment,
                   stdin=subprocess.DEVNULL)
    shutil.rmtree(own)
    return program
