"""What the socket part of checks/speed/bench.py runs: a server, and clients that take nothing of its processor time."""
import contextlib
import os
import socket
import subprocess
import threading

from checks.shared import clients, runs
from checks.shared.build import init, request

DESTROY = 38


def piped(program, image, stream):
    """How a run ends that serves a stream through pipes."""
    child = subprocess.Popen([program, "serve", image], stdin=subprocess.PIPE, stdout=subprocess.PIPE, stderr=subprocess.PIPE)
    threading.Thread(target=write, args=(child.stdin, stream), daemon=True).start()
    return runs.ended(child)


def write(pipe, stream):
    with contextlib.suppress(OSError), pipe:
        pipe.write(stream)


def at_socket(program, image, streams):
    """How a run ends that serves these streams, a client each, and all that came to them."""
    folder, name = os.path.split(image)
    words = [program, "socket", "--listen", "socket", "--sessions", str(len(streams)), name]
    child = subprocess.Popen(words, cwd=folder, stdin=subprocess.DEVNULL, stdout=subprocess.PIPE, stderr=subprocess.PIPE)
    came = [asked(folder, child.pid, stream) for stream in streams]
    return runs.ended(child)._replace(output=b"".join(came))


def asked(folder, process, stream):
    """What comes to a client that sends a stream and shuts its writing half down."""
    with clients.connected(folder, "socket", process) as end:
        if len(stream) <= 4096:
            send(end, stream)
        else:
            threading.Thread(target=send, args=(end, stream), daemon=True).start()
        return clients.received(end)


def send(end, stream):
    clients.send(end, [stream])
    with contextlib.suppress(OSError):
        end.shutdown(socket.SHUT_WR)


def shortest():
    """The shortest session: it begins and ends."""
    return init(1) + request(DESTROY, 2, 0, b"")
