"""A machine of a check's own: containerd, a registry and the snapshotter, in namespaces that end
with
it."""
import collections
import fcntl
import os
import signal
import socket
import struct
import subprocess
import time

from checks.engines.snapshotters import Snapshotter
from checks.registry.loopback import CONFIGURATION
from checks.shared.mounting import SLOWER, Failed

PROGRAMS = ("containerd", "ctr", "runc", "docker-registry", "skopeo", "busybox", "unshare")
CONTAINERD = """
version = 2
root = "{at}/containerd"
state = "{at}/state"
[grpc]
  address = "{at}/c.sock"
[plugins."io.containerd.grpc.v1.cri"]
  sandbox_image = "{host}/pause:1"
  restrict_oom_score_adj = true
  stream_server_address = "127.0.0.1"
  [plugins."io.containerd.grpc.v1.cri".containerd]
    snapshotter = "strata"
    disable_snapshot_annotations = false
[proxy_plugins]
  [proxy_plugins.strata]
    type = "snapshot"
    address = "{at}/s.sock"
  [proxy_plugins.stargz]
    type = "snapshot"
    address = "{at}/z.sock"
"""
HOST = "127.0.0.1:5000"
SECONDS = 60 * SLOWER
# so many last lines of a log are printed
LINES = 40
SIOCSIFFLAGS, IFF_UP, IFF_RUNNING = 0x8914, 0x1, 0x40


def begin_loopback():
    """Starts the loopback of a new network namespace."""
    with socket.socket(socket.AF_INET, socket.SOCK_DGRAM) as it:
        fcntl.ioctl(it, SIOCSIFFLAGS, struct.pack("16sH14x", b"lo", IFF_UP | IFF_RUNNING))


def wait_until(what, test, seconds=SECONDS):
    until = time.monotonic() + seconds
    while not test():
        if time.monotonic() > until:
            raise Failed("never: %s" % what)
        time.sleep(0.02)


def registry_answers():
    host, _, port = HOST.partition(":")
    with socket.socket() as it:
        return it.connect_ex((host, int(port))) == 0


class Machine:
    """A folder, and the daemons that run over it."""

    def __init__(self, program, folder):
        self.folder, self.daemons = folder, {}
        # control groups of containers are named by it, and so two machines at once share none
        os.environ["CONTAINERD_NAMESPACE"] = os.path.basename(folder)
        self.snapshotter = Snapshotter(program, folder, "--debug")
        self.snapshotter.words[self.snapshotter.words.index("--content") + 1] = \
            self.at("containerd/io.containerd.content.v1.content")
        with open(self.at("containerd.toml"), "w", encoding="ascii") as out:
            out.write(CONTAINERD.format(at=folder, host=HOST))
        with open(self.at("registry.yml"), "w", encoding="ascii") as out:
            out.write(CONFIGURATION.replace('"127.0.0.1:%d"',
                                            HOST.replace("%", "%%")) % self.at("registry"))

    def at(self, *names):
        return os.path.join(self.folder, *names)

    # --- daemons ---

    def daemon(self, name, *words):
        with open(self.at(name + ".log"), "ab") as log:
            self.daemons[name] = subprocess.Popen(words, stdin=subprocess.DEVNULL, stdout=log,
                                                  stderr=log)

    def start_registry(self):
        self.daemon("registry", "docker-registry", "serve", self.at("registry.yml"))
        wait_until("the registry answers", registry_answers)

    def start_containerd(self):
        self.daemon("containerd", "containerd", "-c", self.at("containerd.toml"))
        wait_until("containerd answers", lambda: self.tried("version").returncode == 0)

    def start(self):
        self.snapshotter.start()
        self.start_registry()
        self.start_containerd()

    def stop(self):
        """Ends all daemons."""
        self.snapshotter.stop()
        for name in reversed(list(self.daemons)):
            self.kill(name, signal.SIGTERM)

    def kill(self, name, number=signal.SIGKILL):
        self.daemons[name].send_signal(number)
        self.daemons[name].wait()

    def last_lines(self):
        """The last lines that the daemons and the snapshotter have logged."""
        found = []
        for path in (self.at("containerd.log"), self.snapshotter.log):
            with open(path, encoding="utf-8", errors="replace") as lines:
                found += [path + ":\n", *collections.deque(lines, LINES)]
        return "".join(found)

    # --- ctr ---

    def tried(self, *words):
        return subprocess.run(["ctr", "-a", self.at("c.sock"), *words], stdin=subprocess.DEVNULL,
                              stdout=subprocess.PIPE, stderr=subprocess.PIPE, text=True,
                              check=False,
                              timeout=2 * SECONDS)

    def ctr(self, *words):
        """What ctr prints, which must succeed."""
        done = self.tried(*words)
        if done.returncode != 0:
            raise Failed("ctr %s: %s" % (" ".join(words),
                                         (done.stderr or done.stdout).strip()[-700:]))
        return done.stdout

    def bring(self, archive, snapshotter="strata"):
        """Imports an image; its layers may become images behind that."""
        self.ctr("images", "import", "--snapshotter", snapshotter, archive)

    def bring_settled(self, archive, snapshotter="strata"):
        """The same, and waits until it is settled which layers are images."""
        self.bring(archive, snapshotter)
        self.snapshotter.settled()

    def run(self, name, image, *words, snapshotter="strata"):
        """What a container prints, which is removed."""
        return self.ctr("run", "--rm", "--snapshotter", snapshotter, image, name, *words)

    def begin(self, name, image, *words, snapshotter="strata"):
        """Starts a container; the process that it runs."""
        self.ctr("run", "-d", "--snapshotter", snapshotter, image, name, *words)
        return self.process_of(name)

    def process_of(self, name):
        lines = [line.split() for line in self.ctr("task", "ls").splitlines()[1:]]
        return next(int(line[1]) for line in lines if line[0] == name)

    def end(self, name):
        """Ends a container and removes it."""
        self.tried("task", "kill", "-s", "KILL", name)
        wait_until("the end of %s" % name, lambda: self.tried("task", "rm", name).returncode == 0 or
                   name not in [it.split()[0] for it in self.ctr("task", "ls").splitlines()[1:]])
        self.ctr("container", "rm", name)

    def collect(self):
        """Lets containerd remove what nothing names any more. By itself it may leave what came to
        that while it removed other things, until something else changes."""
        self.ctr("leases", "rm", "--sync", self.ctr("leases", "create").strip())

    def forget(self, *images):
        """Removes images, and waits until the snapshotter has nothing left."""
        if images:
            self.ctr("images", "rm", "--sync", *images)
        try:
            wait_until("nothing is left", lambda: not self.snapshotter.left())
        except Failed:
            raise Failed("left: %s" % self.snapshotter.left()) from None
