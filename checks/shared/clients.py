"""Clients of a Unix socket that a program listens at: how they connect, send, end, and what they get.

The clock judges nothing: each step has a minute, and then the client hangs.
"""
import contextlib
import fcntl
import os
import resource
import select
import signal
import socket
import struct
import termios
import threading
import time

from checks.plain.plain_replies import bad_length, split
from checks.shared import runs
from checks.shared.replies import single
from checks.shared.runs import MINUTE

# the most that a socket holds of what was sent: more than any reply, where the system allows so much
HELD = 1 << 22
SO_SNDBUFFORCE = 32


class Hanging(Exception):
    """Nothing came for a minute, or was taken."""


class Client:
    """What a client does: the pieces that it sends, how, and how it ends; and the replies that must come to it."""

    def __init__(self, pieces=(), replies=b""):
        self.pieces, self.replies = pieces, replies
        self.is_stepwise = False  # instead of pieces, a message is sent when the reply to the one before has come
        self.is_meanwhile = False  # it connects while the client before it is served
        self.is_deaf = False  # its reading half is shut down before it sends
        self.closes = False  # it closes when these replies have come, and does not shut its writing half down
        self.leaves_some = False  # it closes when more than these have come
        self.files = None  # so many files the program may have open from its end on

    def sent(self):
        return b"".join(self.pieces)

    def lasts(self):
        """Whether its session lasts until its own end: it gets replies, and says no bad length."""
        return self.replies != b"" and bad_length(split(self.sent())[1], 0) is None


# --- connecting ---

@contextlib.contextmanager
def within(folder):
    """The path of a socket has at most 107 bytes, so it is named from its folder."""
    before = os.open(".", os.O_RDONLY)
    try:
        os.chdir(folder)
        yield
    finally:
        os.fchdir(before)
        os.close(before)


def leave_socket(folder, path):
    """Makes a socket at which nobody listens."""
    with within(folder), socket.socket(socket.AF_UNIX) as listener:
        listener.bind(path)


def has_ended(process):
    return os.waitid(os.P_PID, process, os.WEXITED | os.WNOWAIT | os.WNOHANG) is not None


def connected(folder, path, process):
    """A client of the socket at this path, once the process listens there."""
    end = socket.socket(socket.AF_UNIX)
    for limit in (socket.SO_SNDTIMEO, socket.SO_RCVTIMEO):
        end.setsockopt(socket.SOL_SOCKET, limit, struct.pack("ll", MINUTE, 0))
    until = time.monotonic() + MINUTE
    with within(folder):
        while time.monotonic() < until and not has_ended(process):
            try:
                end.connect(path)
                return end
            except (FileNotFoundError, ConnectionRefusedError):
                time.sleep(0.001)
    end.close()
    raise Hanging("there is no socket to connect to")


# --- sending and reading ---

def widen(*ends):
    """Lets sockets hold large packets, as far as one may."""
    for end in ends:
        end.setsockopt(socket.SOL_SOCKET, socket.SO_SNDBUF, HELD)
        with contextlib.suppress(PermissionError):
            end.setsockopt(socket.SOL_SOCKET, SO_SNDBUFFORCE, HELD)


def send(end, pieces):
    """Sends pieces, each when the one before was read, as long as anyone reads."""
    until = time.monotonic() + MINUTE
    with contextlib.suppress(OSError):
        for piece in pieces:
            end.sendall(piece)
            while len(pieces) > 1 and unread(end) and time.monotonic() < until:
                time.sleep(0)


def unread(end):
    """How much memory is taken by what was sent and not yet read."""
    return struct.unpack("i", fcntl.ioctl(end, termios.TIOCOUTQ, bytes(4)))[0]


def received(end, most=None):
    """What comes, up to the end or so many bytes."""
    parts, left = [], most
    while left is None or left > 0:
        try:
            part = end.recv(1 << 16 if left is None else min(left, 1 << 16))
        except BlockingIOError:
            raise Hanging("nothing came for a minute, after %d bytes" % sum(map(len, parts))) from None
        except ConnectionError:
            break
        if not part:
            break
        parts.append(part)
        left = None if left is None else left - len(part)
    return b"".join(parts)


def received_packets(end, most=None):
    """What comes packet by packet, up to the end or so many packets."""
    packets = []
    while most is None or len(packets) < most:
        if not select.select([end], [], [], MINUTE)[0]:
            raise Hanging("nothing came for a minute, after %d packets" % len(packets))
        try:
            packet = end.recv(1 << 21)
        except ConnectionError:  # what was not read comes first, and what came before follows
            continue
        if not packet:
            break
        packets.append(packet)
    return packets


def read_whole(source, size):
    """So many bytes of a descriptor, or fewer where no more come, at its end or for a minute."""
    data = b""
    while len(data) < size and select.select([source], [], [], MINUTE)[0]:
        part = os.read(source, size - len(data))
        if not part:
            break
        data += part
    return data


def converse(source, sink, messages, wanted):
    """Writes these messages one after another, and reads the reply to each that has one among those wanted before the next
    is written; what was read."""
    came, wanted = b"", list(wanted)
    with contextlib.suppress(OSError):
        for message in messages:
            os.write(sink, message)
            if not wanted or wanted[0][8:16] != message[8:16]:
                continue
            wanted.pop(0)
            head = read_whole(source, 16)
            came += head
            if len(head) < 16:
                break
            came += read_whole(source, struct.unpack_from("<I", head)[0] - 16)
    return came


def exchange(end, parts, wanted):
    """Sends the messages of a stream and what stands behind them as packets, each when the reply to the one before it has
    come, if that has one among those wanted, and then no more; all that came, up to the end."""
    came, wanted = b"", list(wanted)
    messages, rest = parts
    with contextlib.suppress(OSError):
        for message in [*messages, *[rest][:len(rest)]]:
            end.send(message)
            if wanted and wanted[0][8:16] == message[8:16]:
                wanted.pop(0)
                came += b"".join(received_packets(end, 1))
        end.shutdown(socket.SHUT_WR)
    return came + b"".join(received_packets(end))


# --- visits ---

class Visit:
    """A client that has connected."""

    def __init__(self, client, end):
        self.client, self.end, self.sending = client, end, None
        if client.is_deaf:
            end.shutdown(socket.SHUT_RD)

    def begin(self):
        """Sends what is not sent step by step; who closes without a reply is gone then."""
        client = self.client
        pieces = () if client.is_stepwise else client.pieces
        self.sending = threading.Thread(target=send, args=(self.end, pieces), daemon=True)
        self.sending.start()
        if client.closes and not client.is_stepwise and not client.replies and not client.leaves_some:
            self.sending.join()
            self.end.close()

    def got(self, before_end):
        """What it gets up to its end, before which something is done."""
        client, came = self.client, b""
        if self.end.fileno() < 0:
            before_end()
            return came
        with self.end:
            if client.is_stepwise:
                messages, rest = split(client.sent())
                came = converse(self.end.fileno(), self.end.fileno(), [*messages, rest], single(client.replies))
            if client.closes:
                return came + self.closed(len(client.replies) - len(came), before_end)
            ending = threading.Thread(target=self.shut, args=(before_end,), daemon=True)
            ending.start()
            came += received(self.end)
            ending.join()
        return came

    def closed(self, most, before_end):
        """What comes before it closes: so many bytes, after which others have come that it does not read."""
        came = received(self.end, most)
        if self.client.leaves_some and not select.select([self.end], [], [], MINUTE)[0]:
            raise Hanging("no more came for a minute, after %d bytes" % len(came))
        self.sending.join(1)
        if self.sending.is_alive():  # nobody reads what it sends
            self.end.shutdown(socket.SHUT_RDWR)
        before_end()
        return came

    def shut(self, before_end):
        self.sending.join()
        before_end()
        with contextlib.suppress(OSError):
            self.end.shutdown(socket.SHUT_WR)


class Party:
    """Clients of a program's socket, one after another."""

    def __init__(self, clients, folder, path, child):
        self.clients, self.place, self.child = clients, (folder, path, child.pid), child
        self.told, self.hangs = [], False

    def ended(self):
        """What each got, and how the program ended, which is killed where something went wrong."""
        got = self.served()
        if self.told:
            os.kill(self.child.pid, signal.SIGKILL)
        return got, runs.ended(self.child)

    def served(self):
        """What each got, as far as they were served; what went wrong is printed."""
        waiting, all_got = [], []
        try:
            for at, client in enumerate(self.clients):
                visit, *waiting = waiting or self.begun(at)
                all_got.append(visit.got(lambda: self.look(client, waiting)))
        except Hanging as hanging:
            self.told.append("client %d: %s" % (len(all_got) + 1, hanging))
            self.hangs = True
        for visit in waiting:
            visit.end.close()
        return all_got

    def begun(self, at):
        """The next client, and those that come meanwhile: all connect in their order, and then begin."""
        group = [self.clients[at]]
        for client in self.clients[at + 1:]:
            if not client.is_meanwhile:
                break
            group.append(client)
        visits = [Visit(client, connected(*self.place)) for client in group]
        for visit in visits:
            visit.begin()
        return visits

    def look(self, client, waiting):
        """Looks at those who wait, before a client ends that was served: nothing came to them."""
        ends = [visit.end for visit in waiting if visit.end.fileno() >= 0 and not visit.client.is_deaf]
        if client.lasts() and select.select(ends, [], [], 0)[0]:
            self.told.append("a client that waits was served before the one above it had ended")
        if client.files is not None:
            resource.prlimit(self.child.pid, resource.RLIMIT_NOFILE, (client.files, client.files))
