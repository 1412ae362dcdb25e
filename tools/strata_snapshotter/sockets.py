"""The socket at which the service is reached, which systemd may hold.

gRPC listens at a socket of its own. If systemd holds the one that containerd knows, connections to
it are passed on to that, so none is refused while the service restarts.

A client of gRPC in Go gives up a connection on which the server's settings do not come within a
second, and then fails calls until it tries again. So each connection is greeted at once, before the
modules of gRPC are loaded; calls on it wait.
"""
import contextlib
import logging
import os
import select
import socket
import stat
import threading

from strata_format.refused import Refused, shown

FIRST = 3
PIECE = 1 << 16
# seconds until it is tried again to take a connection
AGAIN = 0.5
# so many bytes may the path of a socket have
PATH_MOST = 107
# what a server of HTTP/2 says first: its settings, of which there are none here
GREETING = bytes.fromhex("000000 04 00 00000000")
# a client sends so many bytes and then frames: of a length in three bytes, a kind and flags, within a
# head of so many bytes
PREFACE, HEAD = 24, 9
SETTINGS, ACKNOWLEDGED = 4, 1


def given():
    """The listening socket that systemd gives, or None."""
    is_ours = os.environ.pop("LISTEN_PID", "") == str(os.getpid())
    count = os.environ.pop("LISTEN_FDS", "0")
    os.environ.pop("LISTEN_FDNAMES", None)
    if not is_ours or count == "0":
        return None
    if count != "1":
        raise Refused("systemd passes %s sockets instead of one" % shown(count))
    os.set_inheritable(FIRST, False)
    return socket.socket(fileno=FIRST)


def tell(line):
    """Tells systemd how the service is, if it asked for that."""
    place = os.environ.get("NOTIFY_SOCKET", "")
    if place:
        with contextlib.suppress(OSError), \
                socket.socket(socket.AF_UNIX, socket.SOCK_DGRAM) as out:
            out.connect("\0" + place[1:] if place.startswith("@") else place)
            out.send(line.encode())


def clear(path):
    """Removes the socket of a service that has ended. Refused where one answers there, or where
    something else has this name."""
    if len(os.fsencode(path)) > PATH_MOST:
        raise Refused("%s: a socket's path has at most %d bytes" % (shown(path), PATH_MOST))
    with contextlib.suppress(FileNotFoundError):
        if not stat.S_ISSOCK(os.lstat(path).st_mode):
            raise Refused("%s: exists and is not a socket" % shown(path))
        with socket.socket(socket.AF_UNIX) as asking:
            if asking.connect_ex(path) == 0:
                raise Refused("%s: a service answers there" % shown(path))
        os.unlink(path)


# --- passing on ---

def pass_on(source, target):
    """Passes bytes on until there are no more."""
    with contextlib.suppress(OSError):
        while True:
            data = source.recv(PIECE)
            if not data:
                break
            target.sendall(data)
    with contextlib.suppress(OSError):
        target.shutdown(socket.SHUT_WR)


def received(source, size):
    """So many bytes, or fewer if there are no more."""
    data = b""
    while len(data) < size:
        piece = source.recv(size - len(data))
        if not piece:
            break
        data += piece
    return data


def pass_on_greeted(source, target):
    """Passes on what a client sends up to its answer to the greeting, which gRPC does not expect."""
    target.sendall(received(source, PREFACE))
    while True:
        head = received(source, HEAD)
        if len(head) < HEAD or head[3] == SETTINGS and head[4] & ACKNOWLEDGED:
            break
        target.sendall(head + received(source, int.from_bytes(head[:3], "big")))


def joined(outer, path, is_open):
    """Greets a client, and passes bytes on between its connection and a new one to a socket, once
    that is open, until both have ended."""
    with outer, contextlib.suppress(OSError), socket.socket(socket.AF_UNIX) as inner:
        outer.sendall(GREETING)
        is_open.wait()
        inner.connect(path)
        back = threading.Thread(target=pass_on, args=(inner, outer), daemon=True)
        back.start()
        pass_on_greeted(outer, inner)
        pass_on(outer, inner)
        back.join()


class Passing:
    """Joins each connection to a listening socket to one to the socket at a path, in threads. They
    wait until `is_open` is set."""

    def __init__(self, listening, path):
        self.listening, self.path, self.is_open = listening, path, threading.Event()
        self.stopped, self.stopping = os.pipe()
        self.accepting = threading.Thread(target=self.accept, daemon=True)
        self.accepting.start()

    def accept(self):
        while self.stopped not in select.select([self.listening, self.stopped], [], [])[0]:
            try:
                connection, _ = self.listening.accept()
                threading.Thread(target=joined, args=(connection, self.path, self.is_open),
                                 daemon=True).start()
            except (OSError, RuntimeError) as fault:
                # there are too many files or threads until others end
                logging.error("a connection can't be taken now: %s", fault)
                select.select([self.stopped], [], [], AGAIN)

    def stop(self):
        """Leaves the connections that come from now on to the next service. One that this service
        took and closed would have its client wait before it tries again, and fail calls
        meanwhile."""
        os.write(self.stopping, b"\0")
        self.accepting.join()
