"""Runs one stream over and over by many workers, and by several readers: python3 checks threads PROGRAM [--runs N]
[--at-once N] [--watch TOOL]

The stream's rounds are long lists, for which workers are started: 64, a batch of one request each. Several runs go on at
once, so that their threads wait for processors at odd moments. Each run must give the same bytes and the same balances as
the plain reading. Twenty runs before them are looked at, and threads must be seen in one. A hundredth as many times the same
messages go to 4 readers of a stand-in for /dev/fuse, which gives each to one of them: the same replies must come, in any
order. With --watch either goes once through a tool of valgrind (helgrind, drd), which must tell no error, with 8 workers;
without valgrind it is left out. The status is 0 where all runs give the same.
"""
import argparse
import concurrent.futures
import os
import re
import shutil
import socket
import struct
import subprocess
import sys
import tempfile
import threading

from checks.plain import plain
from checks.fuzz.fuzz_runs import send_packets
from checks.shared import runs
from checks.shared.build import init, lookup, request
from checks.shared.clients import Hanging, received_packets, widen
from checks.shared.images import Item, laid_out
from checks.shared.random_inputs import read_body
from checks.shared.replies import single

READDIR, READDIRPLUS, BATCH_FORGET, FORGET = 28, 44, 42, 2
WORKERS, READERS, ROWS, ROUNDS = 64, 4, 720, 2
# helgrind takes the C library's reuse of an ended thread's stack for a race
NO_CACHE = {"GLIBC_TUNABLES": "glibc.pthread.stack_cache_size=0"}
# how much is pulled at once
PULL = 65536


class Unlike(Exception):
    """A run gave other bytes, or ended otherwise."""


def image():
    """A folder of so many entries, some of them folders."""
    items = [Item((b"d",), "directory", True)]
    for at in range(ROWS):
        items.append(Item((b"d", b"%x" % at), "directory" if at % 50 == 0 else "fifo", False))
    return laid_out(b"v", items)


def stream():
    """Rounds of long lists, with look-ups and what takes them back. Before each stands a message that is as long as a pull, so
    that a round begins with it; the first answers INIT alone, since no workers are started before a session has begun."""
    parts, unique = [init(1, flags=0x6001)], 2
    for _ in range(ROUNDS):
        items = b"".join(struct.pack("<2Q", 3 + at % ROWS, 1) for at in range(PULL // 16))
        parts.append(request(BATCH_FORGET, unique, 0, struct.pack("<2I", PULL // 16, 0) + items))
        for at in range(80):
            parts.append(request(READDIR, unique + 1, 2, read_body(at, ROWS * 32)))
            parts.append(lookup(unique + 2, 2, b"%x" % (unique % ROWS)))
            unique += 2
        parts.append(request(READDIRPLUS, unique + 1, 2, read_body(600, 16384)))
        parts.append(request(FORGET, unique + 2, 5, struct.pack("<Q", 3)))
        unique += 3
    return b"".join(parts)


class Runs:
    """The program, its files, and what must come."""

    def __init__(self, program, folder):
        self.program, self.folder = program, folder
        self.write("image", image())
        self.write("requests", stream())
        done = plain.Served([image()], stream())
        self.replies = done.replies
        self.lasting = sorted(single(plain.Served([image()], stream(), is_lasting=True).replies))
        self.balances = "".join(line + "\n" for line in done.balance_lines()).encode()

    def write(self, name, data):
        with open(os.path.join(self.folder, name), "wb") as out:
            out.write(data)

    def start(self, number, workers=WORKERS, under=()):
        balances = "balances-%d" % number
        words = [*under, self.program, "serve", "--workers", str(workers), "--batch", "1", "--requests", "requests",
                 "--balances", balances, "image"]
        return subprocess.Popen(words, cwd=self.folder, stdin=subprocess.DEVNULL, stdout=subprocess.PIPE,
                                stderr=subprocess.PIPE, env={**os.environ, **(NO_CACHE if under else {})})

    def hold(self, number, child):
        """Waits for a run, and holds what it gave; what it wrote to standard error."""
        done = runs.ended(child)
        path = os.path.join(self.folder, "balances-%d" % number)
        with open(path, "rb") as it:
            balances = it.read()
        os.unlink(path)
        wrong = [what for what, is_right in (("status", done.status == 0), ("replies", done.output == self.replies),
                                             ("balances", balances == self.balances)) if not is_right]
        if wrong:
            raise Unlike("run %d: other %s; status %r, %d bytes, %r" % (
                number, ", ".join(wrong), done.status, len(done.output), done.errors[-500:]))
        return done.errors

    def run(self, number):
        told = self.hold(number, self.start(number))
        if told:
            raise Unlike("run %d says %r" % (number, told))

    def read(self, _=0, under=()):
        """A run by readers of a stand-in for /dev/fuse; what it wrote to standard error."""
        ours, theirs = socket.socketpair(socket.AF_UNIX, socket.SOCK_SEQPACKET)
        with ours:
            with theirs:
                widen(ours, theirs)
                words = [*under, self.program, "serve", "--device", "--readers", str(READERS), "image"]
                child = subprocess.Popen(words, cwd=self.folder, stdin=theirs, stdout=theirs, stderr=subprocess.PIPE,
                                         env={**os.environ, **(NO_CACHE if under else {})})
            sending = threading.Thread(target=send_packets, args=(ours, plain.split(stream())[0], True), daemon=True)
            sending.start()
            try:
                got = received_packets(ours)
            except Hanging as hanging:
                child.kill()
                raise Unlike("by readers %s" % hanging) from None
            done = runs.ended(child)
        if (done.status, sorted(got)) != (0, self.lasting) or (done.errors and not under):
            raise Unlike("by readers: status %r, %d of %d replies, %r" % (
                done.status, len(got), len(self.lasting), done.errors[-500:]))
        return done.errors

    def threads_seen(self):
        """The most threads that are seen in a run at one moment."""
        most = 0
        child = self.start(0)
        with concurrent.futures.ThreadPoolExecutor(1) as waiting:
            ending = waiting.submit(self.hold, 0, child)
            while not ending.done():
                try:
                    most = max(most, len(os.listdir("/proc/%d/task" % child.pid)))
                except OSError:
                    break
            ending.result()
        return most


def watched(all_runs, tool):
    """Runs through a tool of valgrind: how many errors it tells, and the first."""
    runs.MINUTE = 600
    under = ("valgrind", "--tool=" + tool)
    for told in (all_runs.hold(0, all_runs.start(0, 8, under)), all_runs.read(under=under)):
        told = told.decode(errors="replace")
        found = re.search(r"ERROR SUMMARY: ([0-9]+) errors from ([0-9]+) contexts", told)
        if not found or found[1] != "0":
            raise Unlike("%s tells %s:\n%s" % (tool, found[0] if found else "no summary", told[:4000]))
    return "%s: no error, by workers and by readers" % tool


def main(words):
    parser = argparse.ArgumentParser(description="Runs one stream over and over by 64 workers.")
    parser.add_argument("program")
    parser.add_argument("--runs", type=int, default=10000)
    parser.add_argument("--at-once", type=int, default=8)
    parser.add_argument("--watch", metavar="TOOL", help="helgrind or drd, in place of the runs")
    asked = parser.parse_args(words)
    folder = tempfile.mkdtemp(prefix="strata-threads-", dir="/dev/shm" if os.path.isdir("/dev/shm") else None)
    try:
        all_runs = Runs(os.path.abspath(asked.program), folder)
        if asked.watch:
            print(watched(all_runs, asked.watch) if shutil.which("valgrind") else "left out: no valgrind")
            return 0
        most = max(all_runs.threads_seen() for _ in range(20))
        if most < 3:
            raise Unlike("no workers are seen")
        with concurrent.futures.ThreadPoolExecutor(asked.at_once) as pool:
            for _ in pool.map(all_runs.run, range(1, asked.runs + 1)):
                pass
            for _ in pool.map(all_runs.read, range(asked.runs // 100)):
                pass
        print("%d runs of %d workers, up to %d threads seen at once: each time the same %d bytes and balances; %d by %d readers" % (
            asked.runs, WORKERS, most, len(all_runs.replies), asked.runs // 100, READERS))
        return 0
    except Unlike as wrong:
        print("FAILED: %s" % wrong)
        return 1
    finally:
        shutil.rmtree(folder)


if __name__ == "__main__":
    sys.exit(main(sys.argv[1:]))
