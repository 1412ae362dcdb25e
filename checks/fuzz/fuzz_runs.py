"""Runs of a program for checks/fuzz/fuzz.py: over files and pipes, for clients of a socket, and over a stand-in for /dev/fuse."""
import collections
import contextlib
import os
import re
import socket
import subprocess
import tempfile
import threading

from checks.shared import runs
from checks.shared.clients import Hanging, Party, received_packets, widen
from checks.shared.replies import single

SECONDS = 2
# what may be told of a client that went away
GONE = re.compile("|request at [0-9]+: (cut off|bad length [0-9]+)|read fault|write fault")


class Difference(Exception):
    """The program did something else than the plain reading says."""


class TooSlow(Difference):
    """It took more processor time than it should, or did not end within a minute by the clock, as where the machine stood still."""


Wanted = collections.namedtuple("Wanted", "status output line files")


class Running:
    """The program, and a folder for its files."""

    def __init__(self, program):
        self.program, self.folder = program, tempfile.mkdtemp(prefix="strata-fuzz-")
        self.runs = 0

    def write(self, name, data):
        with open(os.path.join(self.folder, name), "wb") as out:
            out.write(data)
        return name

    def read(self, name):
        with open(os.path.join(self.folder, name), "rb") as it:
            return it.read()

    def start(self, words, **named):
        self.runs += 1
        return subprocess.Popen([self.program, *words], cwd=self.folder, stderr=subprocess.PIPE, **named)

    def hold(self, words, want, pieces=()):
        """Runs the program with these words, and the pieces through a pipe, and holds it against what must come."""
        end, pipe = os.pipe()
        child = self.start(words, stdin=end, stdout=subprocess.PIPE)
        os.close(end)
        runs.feed(pieces, pipe)
        done = runs.ended(child)
        self.hold_end(words, want, done)
        if done.output != want.output:
            raise Difference("%s: the output should be %r, and is %r" % (self.told(words), want.output[:500], done.output[:500]))
        for name, data in want.files.items():
            if self.read(name) != data:
                wanted = self.write("wanted-" + name, data)
                raise Difference("%s: %s differs from %s" % (self.told(words), name, wanted))

    def hold_end(self, words, want, done):
        """Holds how a run ended, and that it took no long time."""
        if done.status is None:
            raise TooSlow("%s does not end" % self.told(words))
        got = done.status, done.errors.decode(errors="replace")
        if got != (want.status, want.line):
            raise Difference("%s: the status and the line should be %r, and are %r" % (
                self.told(words), (want.status, want.line), got))
        if done.seconds > SECONDS:
            raise TooSlow("%s takes %.1f s of processor time" % (self.told(words), done.seconds))

    def hold_sessions(self, words, clients, lines):
        """Runs the program with these words for clients, and holds what comes to them, and the fault lines of those that stay."""
        for number, client in enumerate(clients, 1):
            self.write("requests-%d" % number, client.sent())
        child = self.start(words, stdin=subprocess.DEVNULL, stdout=subprocess.PIPE)
        party = Party(clients, self.folder, "socket", child)
        got, done = party.ended()
        wrong = party.told or ["client %d: other replies" % number for number, pair in enumerate(zip(clients, got), 1)
                               if pair[0].replies != pair[1]]
        wrong = wrong or faults_wrong(clients, lines, done)
        if os.path.exists(os.path.join(self.folder, "socket")):
            wrong.append("the socket is there still")
        if wrong or done.output or done.seconds > SECONDS:
            habits = ["closes" if it.closes else "is deaf" if it.is_deaf else "stays" for it in clients]
            kind = TooSlow if party.hangs or not wrong and not done.output else Difference
            raise kind("%s: %s; %.1f s of processor time; the clients: %s" % (
                self.told(words), "; ".join(wrong), done.seconds, ", ".join(habits)))

    def hold_device(self, words, want, replies, pieces, patience=None, in_order=True):
        """Runs the program over a stand-in for /dev/fuse, which gives a piece a read and takes a reply a write, in any order
        where that is said; with patience the stand-in goes away after so many replies."""
        self.write("requests", b"".join(pieces))
        ours, theirs = socket.socketpair(socket.AF_UNIX, socket.SOCK_SEQPACKET)
        with ours:
            with theirs:
                widen(ours, theirs)
                child = self.start(words, stdin=theirs, stdout=theirs)
            sending = threading.Thread(target=send_packets, args=(ours, pieces, patience is None), daemon=True)
            sending.start()
            try:
                got = received_packets(ours, patience)
            except Hanging as hanging:
                child.kill()
                raise TooSlow("%s: %s" % (self.told(words), hanging)) from None
            if patience is not None:
                ours.shutdown(socket.SHUT_RDWR)
            done = runs.ended(child)
        sending.join()
        wanted = single(replies)
        if patience is not None:
            self.hold_gone(words, done, wanted[:patience], got)
            return
        if not in_order:
            got, wanted = sorted(got), sorted(wanted)
        if got != wanted:
            number = next((at for at, pair in enumerate(zip(got, wanted)) if pair[0] != pair[1]), min(len(got), len(wanted)))
            self.write("wanted-replies", replies)
            raise Difference("%s: reply %d of %d differs from wanted-replies, or there are %d" % (
                self.told(words), number, len(wanted), len(got)))
        self.hold_end(words, want, done)

    def hold_gone(self, words, done, wanted, got):
        """Holds what came before the stand-in went away, and that the program ended then, with a line or without one."""
        told = done.errors.decode(errors="replace").strip()
        status = 4 if told.startswith("request") else 1 if told else 0
        if got != wanted or done.status != status or not GONE.fullmatch(told):
            raise Difference("%s: the stand-in goes away after %d replies, %d of which came; then %r" % (
                self.told(words), len(wanted), len(got), (done.status, told)))

    def told(self, words):
        return "in %s: strata %s" % (self.folder, " ".join(words))


def send_packets(end, pieces, is_last):
    """Sends pieces, a packet each, as long as anyone reads, and then the end."""
    with contextlib.suppress(OSError):
        for piece in pieces:
            end.send(piece)
        if is_last:
            end.shutdown(socket.SHUT_WR)


def faults_wrong(clients, lines, done):
    """What is wrong with the fault lines of sessions, and with the status."""
    told, wrong, status = done.errors.decode(errors="replace").splitlines(), [], 0
    for number, (client, line) in enumerate(zip(clients, lines), 1):
        front = "session %d: " % number
        got = told.pop(0)[len(front):] if told and told[0].startswith(front) else ""
        if got != line and not ((client.closes or client.is_deaf) and GONE.fullmatch(got)):
            wrong.append("client %d: the line should be %r, and is %r" % (number, line, got))
        status = status or (4 if got.startswith("request") else 1 if got else 0)
    if told or done.status != status:
        wrong.append("the status should be %d, and is %r; other lines: %r" % (status, done.status, told))
    return wrong
