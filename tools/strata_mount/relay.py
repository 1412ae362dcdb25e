"""Stands between an open /dev/fuse and a server, for `strata-mount --debug` and `--stats`; without these it is not used.

    relay.py [--debug] [--stats NUMBER] [--errors NUMBER] [--pass NUMBER].. [--seal WORDS].. [--shown NAME] -- PROGRAM WORDS..

Standard input is the open /dev/fuse. The program is started with one end of a socket of packets as its standard input and
output: a read gives it one whole request, a write takes one whole reply, as at /dev/fuse. Each request and each reply is
printed on standard error (--debug), and counted in the file that is open as NUMBER (--stats), which is written at the
beginning, at SIGUSR1 and at the end, with what images are sealed by (--seal). The program's own lines go to the file that is
open as NUMBER (--errors), and it gets descriptors (--pass). NAME stands for its own in the list of processes (--shown), by
which --list finds it. The status is the program's.
"""
import argparse
import errno
import os
import signal
import socket
import struct
import subprocess
import sys
import threading
import time

if __name__ == "__main__":
    # it is started by its path, and its own folder is not sought for modules
    sys.path.insert(0, os.path.dirname(os.path.dirname(os.path.realpath(__file__))))
from strata_format.fuse_text import NAMES, reply_lines, text_of

# a request has at most 128 KiB and its header, since that is the most that strata lets a kernel write at once
REQUEST_MOST = 135168
REPLY_MOST = 1 << 21
# what a socket may hold of replies, where one may say so: more than the largest
HELD = 1 << 22
SO_SNDBUFFORCE = 32
# what gets no reply
SILENT = ("FORGET", "INTERRUPT", "BATCH_FORGET")
# the kernel has given up a request that it then gets a reply to
NOBODY_WAITS = (errno.ENOENT, errno.ENODEV)


def name_of(message):
    """The name of a request's opcode."""
    opcode, = struct.unpack_from("<I", message, 4)
    return NAMES.get(opcode, "opcode_%d" % opcode)


def unique_of(message):
    """The number that a request and its reply share."""
    return struct.unpack_from("<Q", message, 8)[0]


def reply_words(name, reply):
    """A reply in one line: of rows their names, of long data the length alone."""
    first, *rows = reply_lines(name, reply)
    words = first.partition(" ")[2].partition(": hex ")[0]
    return " ".join([words, *(row.split()[4] for row in rows if row.split()[1] == "ino")])


class Count:
    """Of one kind of request: how many came, how many were answered by an error, and the bytes both ways."""

    def __init__(self):
        self.requests = self.errors = self.taken = self.given = 0


class Book:
    """What was asked and not answered yet, and what is printed about it."""

    def __init__(self, is_told, file, seals):
        self.is_told, self.file, self.seals = is_told, file, seals
        self.counts, self.open, self.lock = {}, {}, threading.RLock()
        self.start = time.monotonic()

    def asked(self, message):
        """Notes a request."""
        now, name = time.monotonic(), name_of(message)
        with self.lock:
            count = self.counts.setdefault(name, Count())
            count.requests += 1
            count.taken += len(message)
            if name not in SILENT:
                self.open[unique_of(message)] = now, name
            if self.is_told:
                self.tell(now, text_of(message))

    def answered(self, reply):
        """Notes a reply."""
        now, unique = time.monotonic(), unique_of(reply)
        with self.lock:
            since, name = self.open.pop(unique, (now, "?"))
            count = self.counts.setdefault(name, Count())
            count.errors += struct.unpack_from("<i", reply, 4)[0] != 0
            count.given += len(reply)
            if self.is_told:
                self.tell(now, "%d     %s (%d us)" % (unique, reply_words(name, reply), (now - since) * 1e6))

    def tell(self, now, words):
        self.say("%.6f %s" % (now - self.start, words))

    def say(self, line):
        """Writes a line as long as somebody reads them: the mount goes on without."""
        try:
            sys.stderr.write(line + "\n")
            sys.stderr.flush()
        except OSError:
            self.is_told = False

    def lines(self):
        """The table of counts."""
        yield "# %.6f s; `kill -USR1 %d` writes this anew" % (time.monotonic() - self.start, os.getpid())
        for at, seal in enumerate(self.seals):
            yield "# layer %d: %s" % (at, seal)
        row = "%-16s %12s %12s %16s %16s"
        yield row % ("request", "count", "errors", "bytes asked", "bytes answered")
        with self.lock:
            counts = sorted(self.counts.items())
        for name, it in counts:
            yield row % (name, it.requests, it.errors, it.taken, it.given)
        sums = [sum(getattr(it, each) for _, it in counts) for each in ("requests", "errors", "taken", "given")]
        yield row % ("all", *sums)

    def write(self):
        """Writes the table of counts over what the file held."""
        if self.file is None:
            return
        data = "\n".join([*self.lines(), ""]).encode()
        try:
            if os.path.isfile("/proc/self/fd/%d" % self.file):
                os.pwrite(self.file, data, 0)
                os.ftruncate(self.file, len(data))
            else:
                os.write(self.file, data)  # a pipe or a terminal gets one table after another
        except OSError as fault:
            self.say("counts: %s" % fault.strerror.lower())


def next_request(device):
    """The next request; nothing once the mount is gone."""
    while True:
        try:
            return os.read(device, REQUEST_MOST)
        except OSError as fault:
            if fault.errno != errno.ENOENT:  # a request was given up while it was read
                return b""


def pass_requests(device, end, book):
    """From /dev/fuse to the program, until the mount is gone; then the program meets its input's end."""
    try:
        while message := next_request(device):
            book.asked(message)
            end.send(message)
    except OSError:
        pass  # the program has ended
    finally:
        end.shutdown(socket.SHUT_WR)


def pass_replies(device, end, book):
    """From the program to /dev/fuse, until the program ends."""
    try:
        while reply := end.recv(REPLY_MOST):
            book.answered(reply)
            answer(device, reply)
    finally:
        end.shutdown(socket.SHUT_RD)


def answer(device, reply):
    try:
        os.write(device, reply)
    except OSError as fault:
        if fault.errno not in NOBODY_WAITS:
            raise


def widened(end):
    """Lets a socket hold the largest reply, where one may."""
    for option in (socket.SO_SNDBUF, SO_SNDBUFFORCE):
        try:
            end.setsockopt(socket.SOL_SOCKET, option, HELD)
        except OSError:
            pass
    return end


def serve(asked):
    """Starts the program and stands between; its status."""
    device, book = os.dup(0), Book(asked.debug, asked.stats, asked.seals)
    book.write()
    ours, theirs = map(widened, socket.socketpair(socket.AF_UNIX, socket.SOCK_SEQPACKET))
    with theirs:
        words = [asked.shown or asked.words[0], *asked.words[1:]]
        program = subprocess.Popen(words, executable=asked.words[0], stdin=theirs, stdout=theirs, stderr=asked.errors,
                                   pass_fds=asked.passed)
    # nothing of this process but the device's descriptor holds the mount
    with open(os.devnull, "r+b") as nothing:
        os.dup2(nothing.fileno(), 0)
        os.dup2(nothing.fileno(), 1)
    signal.signal(signal.SIGTERM, lambda *_: program.terminate())
    signal.signal(signal.SIGUSR1, lambda *_: book.write())
    threading.Thread(target=pass_requests, args=(device, ours, book), daemon=True).start()
    replies = threading.Thread(target=pass_replies, args=(device, ours, book), daemon=True)
    replies.start()
    status = program.wait()
    replies.join()
    book.write()
    return status


def main(words):
    parser = argparse.ArgumentParser(prog="relay.py")
    parser.add_argument("--debug", action="store_true")
    parser.add_argument("--stats", type=int, metavar="NUMBER")
    parser.add_argument("--errors", type=int, metavar="NUMBER")
    parser.add_argument("--pass", type=int, metavar="NUMBER", dest="passed", action="append", default=[])
    parser.add_argument("--seal", metavar="WORDS", dest="seals", action="append", default=[])
    parser.add_argument("--shown", metavar="NAME")
    parser.add_argument("words", nargs="+")
    status = serve(parser.parse_args(words))
    sys.stderr.flush()
    if status < 0:
        # as the program ended
        if -status not in (signal.SIGKILL, signal.SIGSTOP):
            signal.signal(-status, signal.SIG_DFL)
        os.kill(os.getpid(), -status)
    os._exit(status if status >= 0 else 128 - status)


if __name__ == "__main__":
    main(sys.argv[1:])
