"""A snapshotter that runs for a check, and a client of it over gRPC."""
import contextlib
import os
import signal
import socket
import sqlite3
import subprocess
import sys

from checks import TOOLS
from checks.shared.mounting import SECONDS, Failed, hold, wait_until

SCRIPT = os.path.join(TOOLS, "snapshotter.py")
# Debian's own python3 has Debian's packages
PYTHONS = (sys.executable, "/usr/bin/python3")
# as containerd calls it
SERVICE = "/containerd.services.snapshots.v1.Snapshots/"
# mounts go with what lies on them, unless a check says another number of seconds
KEEP = ("--keep", "0")
IMPORTED = "import grpc, google.protobuf"


def python_with_grpc():
    """A python3 that has grpcio and protobuf, or None."""
    for python in PYTHONS:
        done = subprocess.run([python, "-c", IMPORTED], stdin=subprocess.DEVNULL, check=False,
                              stdout=subprocess.DEVNULL, stderr=subprocess.DEVNULL)
        if done.returncode == 0:
            return python
    return None


class Snapshotter:
    """A snapshotter with a root of its own, below a folder."""

    def __init__(self, program, folder, *words):
        self.program, self.folder, self.root = program, folder, os.path.join(folder, "root")
        self.socket, self.log = os.path.join(folder, "s.sock"), os.path.join(folder, "log")
        self.words = [sys.executable, "-B", SCRIPT, "--root", self.root, "--socket", self.socket,
                      "--strata", program, "--store", os.path.join(folder, "store"),
                      "--content", os.path.join(folder, "content"), *KEEP, *words]
        self.process = self.channel = None

    def start(self):
        """Starts it, and waits until it answers."""
        with open(self.log, "ab") as log:
            self.process = subprocess.Popen(self.words, stdin=subprocess.DEVNULL, stdout=log,
                                            stderr=log)
        wait_until("the snapshotter answers", self.answers)
        return self

    def connect(self):
        import grpc
        # one that has failed to connect before, and waits for a second, is not taken up
        self.channel = grpc.insecure_channel("unix:" + self.socket,
                                             [("grpc.use_local_subchannel_pool", 1)])

    def answers(self):
        """Whether it answers a call: what one that was killed has just started may keep its socket
        open for a moment."""
        if self.process.poll() is not None:
            raise Failed("the snapshotter ended with %d" % self.process.returncode)
        with socket.socket(socket.AF_UNIX) as it:
            # gRPC itself would wait for a second before it tries again
            if it.connect_ex(self.socket) != 0:
                return False
        self.connect()
        if not isinstance(self.tried("List"), str):
            return True
        self.channel.close()
        return False

    def stop(self, number=signal.SIGTERM):
        """Ends it; its status."""
        self.channel.close()
        self.process.send_signal(number)
        return self.process.wait()

    def restart_keeping(self, seconds, number=signal.SIGTERM):
        """Starts it anew; it keeps mounts that nothing lies on for so many seconds."""
        self.stop(number)
        self.words[self.words.index(KEEP[0]) + 1] = seconds
        self.start()

    def refused(self):
        """The status and the lines of one that must not start."""
        done = subprocess.run(self.words, stdin=subprocess.DEVNULL, stdout=subprocess.PIPE,
                              stderr=subprocess.STDOUT, check=False, timeout=SECONDS)
        return done.returncode, done.stdout.decode()

    # --- calls ---

    def tried(self, name, /, **words):
        """What a call answers, or the name of the status that it fails with."""
        import grpc
        from strata_snapshotter.messages import API, CALLS
        asked, answer = (getattr(API, it) for it in CALLS[name])
        kind = self.channel.unary_stream if name == "List" else self.channel.unary_unary
        call = kind(SERVICE + name, request_serializer=asked.SerializeToString,
                    response_deserializer=answer.FromString)
        try:
            found = call(asked(**words), timeout=SECONDS)
            return [it for part in found for it in part.info] if name == "List" else found
        except grpc.RpcError as fault:
            return "%s: %s" % (fault.code().name, fault.details())
        except ValueError as fault:
            # another thread has closed the channel
            return "CANCELLED: %s" % fault

    def call(self, name, /, **words):
        """What a call answers, which must succeed."""
        found = self.tried(name, **words)
        if isinstance(found, str):
            raise Failed("%s %s: %s" % (name, words, found))
        return found

    def fails(self, status, name, /, **words):
        """Holds a call that must fail with a status."""
        found = self.tried(name, **words)
        hold("%s %s" % (name, words), status,
             found.partition(":")[0] if isinstance(found, str) else found)

    def settled(self):
        """Waits until it is settled for all committed snapshots whether they are images."""
        wait_until("images are made", lambda: not self.pending())

    def pending(self):
        """The committed snapshots of which images are still to be made."""
        base = sqlite3.connect("file:%s/state.db?mode=ro" % self.root, uri=True)
        with contextlib.closing(base):
            found = base.execute("SELECT name FROM snapshots WHERE form = 'pending' AND kind = 3")
            return sorted(name for name, in found)

    # --- what there is ---

    def names(self, *filters):
        return sorted(it.name for it in self.call("List", filters=filters))

    def files(self, mounts):
        """The folder into which is written by mounts."""
        mount, = mounts
        upper = [it for it in mount.options if it.startswith("upperdir=")]
        return upper[0].partition("=")[2] if upper else mount.source

    def layer(self, name, parent, fill, key=None):
        """Commits a layer that a function fills a folder with."""
        key = key or "extract-" + name
        made = self.call("Prepare", key=key, parent=parent)
        fill(self.files(made.mounts))
        self.call("Commit", name=name, key=key)

    def view(self, name, parent):
        """The folder that a view of a snapshot shows, which is one mount, once images are made."""
        self.settled()
        mount, = self.call("View", key=name, parent=parent).mounts
        hold("the view's mount", ("bind", ["ro", "rbind"]), (mount.type, list(mount.options)))
        return mount.source

    def remove_all(self):
        """Removes all snapshots, those that others lie on behind these."""
        names = self.names()
        while names:
            for name in names:
                self.tried("Remove", key=name)
            before, names = names, self.names()
            hold("snapshots can be removed", True, len(names) < len(before))

    def servers(self):
        """The processes of strata that serve its mounts."""
        found = []
        for name in filter(str.isdigit, os.listdir("/proc")):
            try:
                with open("/proc/%s/cmdline" % name, "rb") as file:
                    words = file.read().split(b"\0")
            except OSError:
                continue
            if words[1:2] == [b"serve"] and words[-2].startswith(os.fsencode(self.root)):
                found.append(int(name))
        return found

    def open_files(self):
        """How many files the service has open."""
        return len(os.listdir("/proc/%d/fd" % self.process.pid))

    def left(self):
        """What is left on disk and mounted, but for the state."""
        found = [os.path.join(name, it) for name in ("snapshots", "mounts", "new", "trash")
                 for it in os.listdir(os.path.join(self.root, name))]
        with open("/proc/self/mounts", encoding="utf-8", errors="surrogateescape") as lines:
            found += [line for line in lines if line.split()[1].startswith(self.root)]
        return sorted(found)
