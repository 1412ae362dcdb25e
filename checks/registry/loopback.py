"""A registry on the loopback for one check: it ends with the check, and by itself after a while."""
import json
import os
import signal
import socket
import subprocess
import time
import urllib.request

from checks.registry.rooms import SECONDS, Failed, LeftOut, needs

CONFIGURATION = """
version: 0.1
log: {level: info, formatter: json, accesslog: {disabled: true}}
storage: {filesystem: {rootdirectory: %s}}
http: {addr: "127.0.0.1:%d"}
"""
# where processes may not raise their limits, and control groups are of both kinds
CONTAINERS = """
[containers]
default_ulimits = ["nofile=1000:1000", "nproc=1000:1000"]
cgroups = "disabled"
netns = "none"
[engine]
cgroup_manager = "cgroupfs"
"""


def free_port():
    with socket.socket() as it:
        it.bind(("127.0.0.1", 0))
        return it.getsockname()[1]


def trust(room, host):
    """Lets skopeo speak plain HTTP to a registry, as a machine's own settings would."""
    place = os.path.join(room.home, ".config", "containers")
    os.makedirs(place, exist_ok=True)
    with open(os.path.join(place, "registries.conf"), "a", encoding="ascii") as out:
        out.write('[[registry]]\nlocation = "%s"\ninsecure = true\n' % host)
    with open(os.path.join(place, "containers.conf"), "w", encoding="ascii") as out:
        out.write(CONTAINERS)
    room.environment["CONTAINERS_CONF"] = os.path.join(place, "containers.conf")


class Registry:
    """A registry of this check alone: it ends with it, and by itself after a while."""

    def __init__(self, room):
        needs("docker-registry", "skopeo", "timeout")
        self.folder, self.log, self.process = room.name(), room.name(), None
        room.ends.append(self.end)
        # another program may take the port that was free
        for _ in range(5):
            self.start(room.name())
            if self.answers():
                trust(room, self.host)
                return
        raise Failed("docker-registry doesn't answer")

    def start(self, settings):
        self.port = free_port()
        self.host = "127.0.0.1:%d" % self.port
        with open(settings, "w", encoding="ascii") as out:
            out.write(CONFIGURATION % (self.folder, self.port))
        with open(self.log, "ab") as log:
            self.process = subprocess.Popen(["timeout", "-k", "5", str(2 * SECONDS), "docker-registry", "serve", settings],
                                            stdin=subprocess.DEVNULL, stdout=log, stderr=log)

    def answers(self):
        """Whether it answers before it ends."""
        while self.process.poll() is None:
            try:
                with urllib.request.urlopen("http://%s/v2/" % self.host, timeout=5):
                    return True
            except OSError:
                time.sleep(0.1)
        return False

    def end(self):
        self.process.send_signal(signal.SIGTERM)
        self.process.wait()

    def fetched(self):
        """How many bytes of each blob were sent, by digest, since the log began."""
        found = {}
        with open(self.log, "rb") as log:
            for line in log:
                it = json.loads(line) if line.startswith(b"{") else {}
                uri = it.get("http.request.uri", "")
                if it.get("http.request.method") == "GET" and "/blobs/sha256:" in uri and "http.response.written" in it:
                    digest = uri.partition("/blobs/")[2]
                    found[digest] = found.get(digest, 0) + it["http.response.written"]
        return found

    def path_of(self, digest):
        digits = digest.partition(":")[2]
        return os.path.join(self.folder, "docker/registry/v2/blobs/sha256", digits[:2], digits, "data")


def push(room, registry, layout, name, *words):
    room.ran("skopeo", "copy", "-q", *words, "oci:" + layout, "docker://%s/%s" % (registry.host, name))


def needs_root():
    """As root of a user namespace alone skopeo reads root's own files, and may not."""
    if os.geteuid() != 0:
        raise LeftOut("another machine is a namespace that root makes")
