"""Records what a kernel asks of a mount: python3 checks record PROGRAM FILE IMAGE.. COMMAND

The images are mounted in a namespace of its own, and the command is run by sh in the mount. Each message that the kernel
sends goes into the file and on to `serve --device`, each reply back. demo/kernel.fuse was made so, over the demo's two
layers; `checks/fuzz/fuzz.py` changes its messages. It needs /dev/fuse and a namespace in which it may be mounted. The status
is that of strata.
"""
import contextlib
import os
import socket
import subprocess
import sys
import tempfile
import threading

from checks.shared.clients import widen
from checks.shared.mounting import enter
from strata_mount.device import mounted, take_away
from strata_mount.plan import WORDS, Plan

MOST = 1 << 21


def pass_requests(device, strata, messages):
    """Passes the kernel's messages on, one by one, until it is unmounted."""
    with contextlib.suppress(OSError):
        while True:
            messages.append(os.read(device, MOST))
            strata.send(messages[-1])
    strata.shutdown(socket.SHUT_WR)


def pass_replies(strata, device):
    while True:
        reply = strata.recv(MOST)
        if not reply:
            return
        with contextlib.suppress(OSError):  # nobody waits for it any more
            os.write(device, reply)


def record(program, images, command):
    """What the kernel asks while a command runs in a mount of images; how the command and the program ended."""
    messages = []
    ours, theirs = socket.socketpair(socket.AF_UNIX, socket.SOCK_SEQPACKET)
    widen(ours, theirs)
    with tempfile.TemporaryDirectory(prefix="record-") as folder, ours:
        device = mounted(Plan(folder=folder, words=WORDS))
        with theirs:
            server = subprocess.Popen([program, "serve", "--device", *images], stdin=theirs, stdout=theirs)
        passing = [threading.Thread(target=pass_requests, args=(device, ours, messages)),
                   threading.Thread(target=pass_replies, args=(ours, device))]
        for each in passing:
            each.start()
        command_status = subprocess.run(["sh", "-c", command], cwd=folder, stdin=subprocess.DEVNULL).returncode
        take_away(folder)
        for each in passing:
            each.join()
    return b"".join(messages), command_status, server.wait()


def main(program, path, *words):
    enter()
    stream, command_status, status = record(os.path.abspath(program), words[:-1], words[-1])
    with open(path, "wb") as out:
        out.write(stream)
    print("%d bytes of requests; the command ended with %d, strata with %d" % (len(stream), command_status, status))
    return status


if __name__ == "__main__":
    sys.exit(main(*sys.argv[1:]))
