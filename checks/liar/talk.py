"""A conversation with a server: INIT first, what happens once it is answered, and then all other requests at once."""
import contextlib
import os
import select
import socket
import subprocess
import threading

from checks.shared import runs
from checks.shared.clients import Hanging, widen
from checks.shared.replies import single
from checks.shared.runs import MINUTE


def ends_of(is_device):
    """Where the server reads and writes, and where its client does: pipes, or a socket instead of /dev/fuse."""
    if is_device:
        ours, theirs = socket.socketpair(socket.AF_UNIX, socket.SOCK_SEQPACKET)
        widen(ours, theirs)
        theirs = theirs.detach()
        return (theirs, theirs), (ours.detach(),) * 2
    (source, sink), (read, write) = os.pipe(), os.pipe()
    return (source, write), (read, sink)


def read_some(source):
    """What comes next; nothing at the end."""
    while True:
        if not select.select([source], [], [], MINUTE)[0]:
            raise Hanging("nothing came for a minute")
        with contextlib.suppress(ConnectionError):
            return os.read(source, 1 << 21)


def read_reply(source):
    """The first reply, as far as one comes."""
    data = b""
    while len(data) < 16 or len(data) < int.from_bytes(data[:4], "little"):
        more = read_some(source)
        if not more:
            break
        data += more
    return data


def send(sink, messages, is_device):
    """Sends these messages, as long as anyone reads, and then the end."""
    with contextlib.suppress(OSError):
        for message in messages:
            os.write(sink, message)
    if is_device:
        with contextlib.suppress(OSError), socket.socket(fileno=os.dup(sink)) as end:
            end.shutdown(socket.SHUT_WR)
    else:
        os.close(sink)


def talk(words, messages, is_device, once_begun):
    """The replies of a server that is started by these words, by their uniques, and how it ended. When the first has come,
    `once_begun` is called."""
    theirs, (source, sink) = ends_of(is_device)
    child = subprocess.Popen(words, stdin=theirs[0], stdout=theirs[1], stderr=subprocess.PIPE)
    for end in set(theirs):
        os.close(end)
    try:
        with contextlib.suppress(OSError):
            os.write(sink, messages[0])
        parts = [read_reply(source)]
        once_begun()
        sending = threading.Thread(target=send, args=(sink, messages[1:], is_device), daemon=True)
        sending.start()
        while parts[-1]:
            parts.append(read_some(source))
        sending.join()
    except Hanging:
        child.kill()
        raise
    finally:
        done = runs.ended(child)
        os.close(source)
    return {reply[8:16]: reply for reply in single(b"".join(parts))}, done
