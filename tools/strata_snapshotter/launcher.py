"""Runs strata-mount in processes that are forked from one which has its modules loaded: Python
takes longer to start than the rest of a mount.

That process (launched.py) is started at once, and again where it was killed.

    launcher = Launcher()
    status, said = launcher.run(["--share", "image.romfs", "/mnt"])
"""
import contextlib
import os
import socket
import subprocess
import sys
import threading

from strata_format.version import TOP

# how it is called, from the folder of its modules
CODE = ("import sys; sys.path.insert(0, sys.argv[1]); "
        "from strata_snapshotter.launched import main, words_to_run; "
        "sys.exit(main(words_to_run(), 'strata-mount'))")
PIECE = 1 << 16
# a run whose launcher is killed is tried once more, when that one is gone; so many seconds it may take to go
TRIES, GOING = 2, 5


def all_of(source):
    """All bytes that come through a socket; none of one that is broken."""
    found = []
    try:
        while data := source.recv(PIECE):
            found.append(data)
    except OSError:
        return b""
    return b"".join(found)


class Launcher:
    """The process, as the service has it; runs may come from any thread."""

    def __init__(self):
        self.lock, self.line = threading.Lock(), None
        self.start()

    def start(self):
        """Starts the process. It ends when nobody has this end of its socket."""
        self.line, theirs = socket.socketpair()
        with theirs:
            self.process = subprocess.Popen(
                [sys.executable, "-IBS", "-c", CODE, TOP], stdin=theirs, stdout=subprocess.DEVNULL,
                cwd="/", env={}, start_new_session=True)

    def close(self):
        """Ends the process, and no run."""
        self.line.close()
        self.process.wait()

    def give(self, number):
        """Gives the process a socket, and starts it again where it has ended."""
        with self.lock:
            try:
                socket.send_fds(self.line, [b"."], [number])
            except OSError:
                self.close()
                self.start()
                socket.send_fds(self.line, [b"."], [number])

    def run(self, words):
        """The status of strata-mount with these words, and what it said."""
        data = b"\0".join(map(os.fsencode, words))
        for _ in range(TRIES):
            said = self.tried(data)
            if said:
                return said[-1], said[:-1].decode(errors="replace").strip()
            with contextlib.suppress(subprocess.TimeoutExpired):
                self.process.wait(GOING)
        return 1, "the process that starts mounts was killed"

    def tried(self, data):
        """What a run says, and behind that its status; nothing where it was killed."""
        ours, theirs = socket.socketpair()
        with ours:
            with theirs:
                self.give(theirs.fileno())
            try:
                ours.sendall(data)
                ours.shutdown(socket.SHUT_WR)
            except OSError:
                return b""
            return all_of(ours)
